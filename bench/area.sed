# The loops of crates/bench/src/tracker.rt over the tracker's byte image, by the functions that a C main loop calls.
s/let mut t = gesture::fresh();/let mut out = [0u64; image::ANSWER_NUMBERS];\n    let mut t = fresh();/
s/let mut t = touched(\*first);/let mut out = [0u64; image::ANSWER_NUMBERS];\n    let mut t = fresh();\n    event(\&mut t, first.event, first.time, \&mut out);/
s/let a = reported(t, h\.event, h\.time);/event(\&mut t, h.event, h.time, \&mut out);/
s/let a = gesture::tick(t, h\.time);/host::touch_tick(\&mut t, h.time, \&mut out);/
/t = a\.tracker;/d
s/if let Ok(r) = &a\.told {/{/
s/fold::given(&r\.gesture)/out[0]/
s/&r\.log/\&log_of(out)/
$a\
\
fn fresh() -> [u8; image::IMAGE_BYTES] {\
    let mut area = [0u8; image::IMAGE_BYTES];\
    host::touch_fresh(&mut area);\
    area\
}\
\
fn event(area: &mut [u8], ev: Event, time: u64, out: &mut [u64; image::ANSWER_NUMBERS]) -> u32 {\
    let p = ev.p;\
    let [a, b, c, d, e] = ev.pts;\
    host::touch_event(area, time, ev.keys, ev.points, p.x, p.y, a.x, a.y, b.x, b.y, c.x, c.y, d.x, d.y, e.x, e.y, out)\
}\
\
fn log_of(out: [u64; image::ANSWER_NUMBERS]) -> Option<Line> {\
    if out[6] == 0 {\
        return None;\
    }\
    Some(Line {\
        letter: (out[6] % 256) as u8,\
        argument: (out[7] % 256) as u8,\
        p: Point {\
            x: (out[8] % 65536) as u16,\
            y: (out[9] % 65536) as u16,\
        },\
        time: out[10],\
    })\
}

//! Request [10] on the Rust itself: two calls in either order, from trackers of every kind. What is expected is written from
//! the words of the request and of document 01, apart from the proved statement (crates/history/specs/Orders.antt).
use crate::answers::words;
use crate::gesture::{self, Fields, Tracker};
use crate::inputs::{any_load, bytes_of, Dice, Hand};
use crate::{answers::Side, image, touch};

#[derive(Clone, Copy, PartialEq, Debug)]
enum Call {
    Capture,
    Direct,
    Raw(bool),
    Grab(u16),
    Tick(u64),
}
use Call::*;

/// A log line: letter, argument, place, time.
type Line = (u8, u8, (u16, u16), u64);

/// What a call gives and logs.
#[derive(Clone, PartialEq, Debug)]
struct Said {
    gesture: String,
    log: Vec<Line>,
}

/// A call on the Rust's tracker.
fn make(t: &mut Tracker, c: Call) -> Said {
    let mut g = None;
    match c {
        Capture => t.capture(),
        Direct => t.capture_direct(),
        Raw(on) => gesture::raw_next(on),
        Grab(ms) => gesture::set_grab_ms(ms),
        Tick(now) => g = t.tick(now),
    }
    let log = touch::LOG.lock().unwrap().drain(..).map(|(letter, argument, p, t)| (letter, argument, (p.x, p.y), t)).collect();
    Said { gesture: g.as_ref().map_or("-".into(), words), log }
}

/// Calls on a tracker with these fields: the fields in the end, and what each said.
fn run(f: &Fields, calls: &[Call]) -> (Fields, Vec<Said>) {
    let mut t = Tracker::of(f);
    let said = calls.iter().map(|&c| make(&mut t, c)).collect();
    (t.fields(), said)
}

/// What a tick gives, by document 01's words: "Tick: key as above, Grab, then LongPress(start) once, not moved, from 700 ms (1200
/// whenever the grab time is not 0, direct or not)"; "Grab(start): hold on, not early, not grabbed, hold time reached. Hold is 0
/// for a direct touch."
fn due(f: &Fields, now: u64) -> &'static str {
    let Some((_, _, since)) = f.down else { return if f.keys != f.keys_want { "key" } else { "-" } };
    let held = now.saturating_sub(since);
    let hold = if f.direct { 0 } else { u64::from(f.grab_ms) };
    if f.keys != f.keys_want {
        "key"
    } else if hold > 0 && !f.early && !f.grabbed && hold <= held {
        "Grab"
    } else if !f.moved && !f.long_sent && held >= if f.grab_ms == 0 { 700 } else { 1200 } {
        "LongPress"
    } else {
        "-"
    }
}

/// Whether the two leave the same tracker in either order.
fn commute(f: &Fields, a: Call, b: Call) -> bool {
    let wish_meets_touch = f.active && !f.captured && f.raw_next;
    match (a, b) {
        (Capture, Direct) => !wish_meets_touch,
        (Capture, Raw(on)) => !on && !wish_meets_touch,
        (Direct, Raw(on)) => !on,
        (Raw(x), Raw(y)) => x == y,
        (Grab(x), Grab(y)) => x.min(5000) == y.min(5000),
        (Direct, Tick(now)) => due(f, now) != "Grab",
        (Grab(ms), Tick(now)) => due(f, now) == due(&Fields { grab_ms: ms.min(5000), ..*f }, now),
        // the same two, whichever comes first
        (Tick(x), Tick(y)) => sorted(told(f, x, y)) == sorted(told(f, y, x)),
        _ => true,
    }
}

/// What two ticks give, by the same words.
fn told(f: &Fields, x: u64, y: u64) -> [&'static str; 2] {
    let first = due(f, x);
    let mut g = *f;
    match first {
        "Grab" => g.grabbed = true,
        "LongPress" => g.long_sent = true,
        // "a released key first, then a pressed one, the lowest": that bit flips
        "key" => {
            let up = f.keys & !f.keys_want;
            let change = if up != 0 { up } else { f.keys_want & !f.keys };
            g.keys ^= change & change.wrapping_neg();
        }
        _ => {}
    }
    [first, due(&g, y)]
}

fn sorted(mut v: [&'static str; 2]) -> [&'static str; 2] {
    v.sort();
    v
}

/// The line of a capture: where it takes a touch, with the wish.
fn capture_line(f: &Fields) -> Vec<Line> {
    if f.active && !f.captured { vec![(b'c', f.raw_next as u8, f.last, 0)] } else { vec![] }
}

fn held(f: &Fields, a: Call, b: Call) -> Result<bool, String> {
    let (there, said) = run(f, &[a, b]);
    let (back, turned) = run(f, &[b, a]);
    let same = there == back;
    if same != commute(f, a, b) {
        return Err(format!("{} in either order", if same { "the same" } else { "not the same" }));
    }
    // a call twice, or with another number: the later stands
    if std::mem::discriminant(&a) == std::mem::discriminant(&b) && !matches!(a, Tick(_)) && there != run(f, &[b]).0 {
        return Err("the later does not stand".into());
    }
    // "and the tick answers the same", and with any of them it does so exactly where the same is left
    if matches!(b, Tick(_)) && !matches!(a, Tick(_)) && (said[1].gesture == turned[0].gesture) != same {
        return Err("the tick answers otherwise".into());
    }
    // "Log lines are not compared": a capture's differs as is said of it; a tick's is that of its gesture; the others have none
    let (first, behind) = (&said[0].log, &turned[1].log);
    let as_said = match (a, b) {
        (Capture, Capture | Direct) => *first == capture_line(f) && behind.is_empty(),
        (Capture, Raw(on)) => *first == capture_line(f) && *behind == capture_line(&Fields { raw_next: on, ..*f }),
        (Capture, _) => *first == capture_line(f) && first == behind,
        (Tick(_), _) => true,
        _ => first.is_empty() && behind.is_empty(),
    };
    let tick_alike = !matches!(b, Tick(_)) || matches!(a, Tick(_)) || !same || said[1].log == turned[0].log;
    if !as_said || !tick_alike {
        return Err("another log line".into());
    }
    Ok(same)
}

const NAMES: [&str; 5] = ["capture", "capture_direct", "raw_next", "set_grab_ms", "tick"];

fn any(d: &mut Dice, kind: usize, f: &Fields) -> Call {
    let since = f.down.map_or(0, |x| x.2);
    match kind {
        0 => Capture,
        1 => Direct,
        2 => Raw(d.one_in(2)),
        3 => Grab(d.of(&[0, 0, 1, 200, 700, 1200, f.grab_ms, 4999, 5000, 5001, 65_535])),
        _ => Tick(since.wrapping_add(d.of(&[0, 1, 100, 200, 699, 700, 701, 1199, 1200, u64::from(f.grab_ms), 5000]))),
    }
}

/// All pairs on n trackers: fields in range, and what histories leave. Prints how often the order counts.
pub fn checked(n: u64, seed: u64) {
    let mut d = Dice(seed);
    let (mut tried, mut apart) = ([[0u64; 5]; 5], [[0u64; 5]; 5]);
    let mut side = Side::new();
    let mut hand = Hand::new(&mut d);
    for k in 0..n {
        if k % 40 == 0 {
            side = Side::new();
            hand = Hand::new(&mut d);
        }
        let f = if d.one_in(2) {
            side.make(&bytes_of(&[hand.call(&mut d)]));
            side.fields()
        } else {
            let load = any_load(&mut d, &side.fields());
            let bytes: Vec<u8> = load[2..].iter().map(|&b| b as u8).collect();
            let Some(f) = image::read(&bytes) else { continue };
            f
        };
        let here = side.fields();
        for i in 0..5 {
            for j in i..5 {
                let (a, b) = (any(&mut d, i, &f), any(&mut d, j, &f));
                tried[i][j] += 1;
                match held(&f, a, b) {
                    Ok(same) => apart[i][j] += u64::from(!same),
                    Err(why) => {
                        println!("orders: {a:?} and {b:?}: {why}, on {f:?}");
                        std::process::exit(1);
                    }
                }
            }
        }
        side.tracker = Tracker::of(&here);
    }
    for i in 0..5 {
        for j in i..5 {
            println!("{} and {}: {} times in either order, {} times not the same", NAMES[i], NAMES[j], tried[i][j], apart[i][j]);
        }
    }
    println!("{} pairs of calls on the Rust in either order, as request [10] has it", tried.iter().flatten().sum::<u64>());
}

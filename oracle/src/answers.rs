//! The Rust's answer to each call of the probe, in the probe's words: the published functions, with document 01's
//! refusals around them. Where the Rust panics (overflow checks are on), document 01 says what is owed.
use crate::gesture::{self, Axis, Gesture, Tracker};
use crate::image;
use crate::numbers::{unfolded, Reader, Stop};
use crate::tenths::{self, Measured};
use crate::touch::{self, Event, Point};
use crate::touchcal::{self, Bad, Cal, Way};
use crate::trace::{on_panel, report_ok};
use std::cell::Cell;
use std::io::Write;
use std::panic::catch_unwind;

const STATE: u8 = 1;
const PANEL: u8 = 2;
const WIDE: u8 = 3;
const LONG: u8 = 4;
const TARGET: u8 = 5;
const FEW: u8 = 6;
const HUGE: u8 = 7;
const KIND: u8 = 12;
const FILE: u8 = 13;
const LINE: u8 = 16;
const STEEP: u8 = 17;

const MOST_8: u64 = 255;
const MOST_16: u64 = 65_535;
const MOST_32: u64 = 4_294_967_295;

const INPUT_MOST: usize = 1_048_576;
const LIST_MOST: usize = 64;
/// Past this a product of lock_axis might not fit.
const LOCK_MOST: i32 = 715_827_882;

thread_local! {
    static TRYING: Cell<bool> = const { Cell::new(false) };
}

/// A panic of the Rust is an answer here, and not news; one of ours is.
pub fn hush() {
    let ours = std::panic::take_hook();
    std::panic::set_hook(Box::new(move |i| {
        if !TRYING.get() {
            ours(i);
        }
    }));
}

/// What the Rust answers where it does not panic.
fn tried<T>(f: impl FnOnce() -> T + std::panic::UnwindSafe) -> Option<T> {
    TRYING.set(true);
    let r = catch_unwind(f).ok();
    TRYING.set(false);
    r
}

pub fn words(g: &Gesture) -> String {
    let axis = |a: &Axis| if *a == Axis::H { 'H' } else { 'V' };
    match g {
        Gesture::Down(p) => format!("Down {} {}", p.x, p.y),
        Gesture::Tap(p) => format!("Tap {} {}", p.x, p.y),
        Gesture::LongPress(p) => format!("LongPress {} {}", p.x, p.y),
        Gesture::Drag(p, q, a) => format!("Drag {} {} {} {} {}", p.x, p.y, q.x, q.y, axis(a)),
        Gesture::Grab(p) => format!("Grab {} {}", p.x, p.y),
        Gesture::Up(p) => format!("Up {} {}", p.x, p.y),
        Gesture::SwipeLeft => "SwipeLeft".into(),
        Gesture::SwipeRight => "SwipeRight".into(),
        Gesture::SwipeUp => "SwipeUp".into(),
        Gesture::SwipeDown => "SwipeDown".into(),
        Gesture::Cancel => "Cancel".into(),
        Gesture::MultiSwipeDown(n) => format!("MultiSwipeDown {n}"),
        Gesture::KeyDown(k) => format!("KeyDown {k}"),
        Gesture::KeyUp(k) => format!("KeyUp {k}"),
        Gesture::Move(p, q) => format!("Move {} {} {} {}", p.x, p.y, q.x, q.y),
        Gesture::Pinch(a, s, t) => format!("Pinch {} {s} {t}", axis(a)),
        Gesture::PinchEnd(r) => format!("PinchEnd {}", *r as u8),
    }
}

/// The probe's run on the Rust: one tracker, one pending record (the Rust's own).
pub struct Side {
    pub tracker: Tracker,
    more: image::More,
    pub out: Vec<u8>,
    calls: u64,
}

impl Side {
    pub fn new() -> Side {
        gesture::set_grab_ms(0);
        gesture::raw_next(false);
        touchcal::scpi_take();
        touch::LOG.lock().unwrap().clear();
        Side { tracker: Tracker::new(), more: Default::default(), out: Vec::new(), calls: 0 }
    }

    /// The tracker's fields, with the settings beside it.
    pub fn fields(&self) -> gesture::Fields {
        gesture::Fields { more: self.more, ..self.tracker.fields() }
    }

    fn line(&mut self, refusal: u8, values: &str) {
        let i = self.calls;
        if values.is_empty() {
            writeln!(self.out, "{i} {refusal}").unwrap();
        } else {
            writeln!(self.out, "{i} {refusal} {values}").unwrap();
        }
    }

    fn tracked(&mut self, refusal: u8, gesture: &str) {
        let mut log = touch::LOG.lock().unwrap();
        assert!(log.len() <= 1, "more than one log line");
        let l = match log.pop() {
            None => "-".to_string(),
            Some((letter, argument, p, t)) => format!("{} {argument} {} {} {t}", letter as char, p.x, p.y),
        };
        drop(log);
        write!(self.out, "{} {refusal} {gesture} | {l} | ", self.calls).unwrap();
        for b in image::of(&self.fields()) {
            let hex = |n: u8| b"0123456789abcdef"[usize::from(n)];
            self.out.push(hex(b >> 4));
            self.out.push(hex(b & 15));
        }
        self.out.push(b'\n');
    }

    fn gave(&mut self, g: Option<Gesture>) {
        let w = g.as_ref().map_or("-".into(), words);
        self.tracked(0, &w);
    }

    /// One call, its bytes whole.
    pub fn make(&mut self, bytes: &[u8]) {
        let mut r = Reader { bytes, at: 0 };
        self.call(&mut r).expect("a whole call");
        assert!(r.done());
    }

    /// The last line of a run that was read to its end.
    pub fn ended(mut self) -> Vec<u8> {
        writeln!(self.out, "end {}", self.calls).unwrap();
        self.out
    }

    /// All calls of some bytes, and the last line.
    pub fn run(mut self, bytes: &[u8]) -> Vec<u8> {
        if bytes.len() > INPUT_MOST {
            return format!("stopped {FILE} at 0\n").into_bytes();
        }
        let mut r = Reader { bytes, at: 0 };
        while !r.done() {
            if let Err(Stop { why, at }) = self.call(&mut r) {
                writeln!(self.out, "stopped {why} at {at}").unwrap();
                return self.out;
            }
        }
        self.ended()
    }

    fn call(&mut self, r: &mut Reader) -> Result<(), Stop> {
        let place = r.at;
        let kind = r.next(u64::MAX)?;
        match kind {
            1 | 2 => {
                let (a, b) = (point(r)?, point(r)?);
                self.calls += 1;
                if !on_panel(a) || !on_panel(b) {
                    self.line(PANEL, "");
                } else if kind == 1 {
                    self.line(0, &gesture::dist_of(a, b).to_string());
                } else {
                    self.line(0, &gesture::dist2_of(a, b).to_string());
                }
            }
            3 => {
                let n = r.next(MOST_8)?.min(5) as usize;
                let pts = five(r)?;
                self.calls += 1;
                if pts[..n].iter().all(|&p| on_panel(p)) {
                    let (x, y) = gesture::centroid_of(&pts[..n]);
                    self.line(0, &format!("{x} {y}"));
                } else {
                    self.line(PANEL, "");
                }
            }
            4 => {
                let (dx, dy) = (signed32(r)?, signed32(r)?);
                self.calls += 1;
                let wide = |v: i32| !(-LOCK_MOST..=LOCK_MOST).contains(&v);
                if wide(dx) || wide(dy) {
                    self.line(WIDE, "");
                } else {
                    self.line(0, match gesture::lock_axis_of(dx, dy) {
                        None => "-",
                        Some(Axis::H) => "H",
                        Some(Axis::V) => "V",
                    });
                }
            }
            10 => {
                let (c, x, y) = (cal(r)?, signed32(r)?, signed32(r)?);
                self.calls += 1;
                match apply16(&c, x, y) {
                    None => self.line(WIDE, ""),
                    Some((x, y)) => self.line(0, &format!("{x} {y}")),
                }
            }
            11 => {
                let (c, p) = (cal(r)?, point(r)?);
                self.calls += 1;
                match tried(move || touch::screen_of(c, p)) {
                    None => self.line(WIDE, ""),
                    Some(p) => self.line(0, &format!("{} {}", p.x, p.y)),
                }
            }
            12 => {
                let v = r.next(u64::MAX)?;
                self.calls += 1;
                // the one input at which the Rust panics
                let root = tried(|| touchcal::isqrt_of(v)).unwrap_or(4_294_967_295);
                self.line(0, &root.to_string());
            }
            13 | 43 => {
                let (ax, ay, bx, by) = (signed32(r)?, signed32(r)?, signed32(r)?, signed32(r)?);
                self.calls += 1;
                let told = if kind == 13 { tenths::dist10(ax, ay, bx, by) } else { old_dist10(ax, ay, bx, by) };
                match told {
                    None => self.line(WIDE, ""),
                    Some(t) => self.line(0, &t.to_string()),
                }
            }
            14 | 44 => {
                let (c, raw, tgt) = (cal(r)?, taps(r)?, taps(r)?);
                self.calls += 1;
                if raw.len().min(tgt.len()) > LIST_MOST {
                    self.line(LONG, "");
                } else {
                    let told = if kind == 14 { tenths::resid(&c, &raw, &tgt) } else { tried(|| touchcal::resid(&c, &raw, &tgt)) };
                    match told {
                        None => self.line(WIDE, ""),
                        Some((mean, max)) => self.line(0, &format!("{mean} {max}")),
                    }
                }
            }
            15 => {
                let (c, targets) = (cal(r)?, targets(r)?);
                self.calls += 1;
                if targets.len() > LIST_MOST {
                    self.line(LONG, "");
                } else if !targets.iter().all(|&(x, y)| on_panel(Point { x, y })) {
                    self.line(TARGET, "");
                } else {
                    self.line(0, verdict(check(&c, &targets)));
                }
            }
            16 => {
                let v = f32::from_bits(r.next(MOST_32)? as u32);
                self.calls += 1;
                match touchcal::q16_of(v) {
                    None => self.line(HUGE, ""),
                    Some(n) => self.line(0, &n.to_string()),
                }
            }
            17 => {
                let c = cal(r)?;
                self.calls += 1;
                self.line(0, &joined(&touchcal::to_f32(&c).map(f32::to_bits)));
            }
            18 => {
                let v = floats(r)?;
                self.calls += 1;
                match touchcal::from_f32(&v) {
                    None => self.line(HUGE, ""),
                    Some(c) => self.line(0, &joined(&c)),
                }
            }
            19 | 49 => {
                let (raw, tgt, targets) = (taps(r)?, taps(r)?, targets(r)?);
                self.calls += 1;
                match fit(kind == 49, &raw, &tgt, &targets) {
                    Err((why, place)) => self.line(why, &place),
                    Ok(v) => self.line(0, &v),
                }
            }
            20 => {
                let v = floats(r)?;
                self.calls += 1;
                let ok = touchcal::scpi_put(&v);
                self.line(if ok { 0 } else { HUGE }, "");
            }
            21 => {
                self.calls += 1;
                match touchcal::scpi_take() {
                    None => self.line(0, "-"),
                    Some(c) => self.line(0, &joined(&c)),
                }
            }
            30 => {
                self.calls += 1;
                self.tracker = Tracker::new();
                self.more = Default::default();
                gesture::set_grab_ms(0);
                gesture::raw_next(false);
                self.gave(None);
            }
            31 => {
                let now = r.next(u64::MAX)?;
                let (keys, points) = (r.next(MOST_8)? as u8, r.next(MOST_8)? as u8);
                let ev = Event { keys, points, p: point(r)?, pts: five(r)? };
                self.calls += 1;
                if report_ok(&ev) {
                    let g = self.tracker.event(&ev, now);
                    self.gave(g);
                } else {
                    self.tracked(PANEL, "-");
                }
            }
            32 => {
                let now = r.next(u64::MAX)?;
                self.calls += 1;
                let g = self.tracker.tick(now);
                self.gave(g);
            }
            33 => {
                self.calls += 1;
                self.tracker.capture();
                self.gave(None);
            }
            34 => {
                self.calls += 1;
                self.tracker.capture_direct();
                self.gave(None);
            }
            35 => {
                let on = r.next(1)? == 1;
                self.calls += 1;
                gesture::raw_next(on);
                self.gave(None);
            }
            36 => {
                let ms = r.next(MOST_16)? as u16;
                self.calls += 1;
                gesture::set_grab_ms(ms);
                self.gave(None);
            }
            37 => {
                self.calls += 1;
                self.tracked(0, &gesture::grab_ms().to_string());
            }
            38 => {
                let n = r.next(MOST_16)?;
                let mut bytes = Vec::new();
                for _ in 0..n {
                    bytes.push(r.next(MOST_8)? as u8);
                }
                self.calls += 1;
                match image::read(&bytes) {
                    None => self.tracked(STATE, "-"),
                    Some(f) => {
                        self.tracker = Tracker::of(&f);
                        self.more = f.more;
                        self.gave(None);
                    }
                }
            }
            _ => return Err(Stop { why: KIND, at: place }),
        }
        Ok(())
    }
}

fn joined<T: std::fmt::Display>(v: &[T]) -> String {
    v.iter().map(|x| x.to_string()).collect::<Vec<_>>().join(" ")
}

fn signed32(r: &mut Reader) -> Result<i32, Stop> {
    Ok(unfolded(r.next(MOST_32)?) as i32)
}

fn signed16(r: &mut Reader) -> Result<i16, Stop> {
    Ok(unfolded(r.next(MOST_16)?) as i16)
}

fn point(r: &mut Reader) -> Result<Point, Stop> {
    Ok(Point { x: r.next(MOST_16)? as u16, y: r.next(MOST_16)? as u16 })
}

fn five(r: &mut Reader) -> Result<[Point; 5], Stop> {
    Ok([point(r)?, point(r)?, point(r)?, point(r)?, point(r)?])
}

fn cal(r: &mut Reader) -> Result<Cal, Stop> {
    let mut c = [0; 6];
    for v in &mut c {
        *v = signed32(r)?;
    }
    Ok(c)
}

fn floats(r: &mut Reader) -> Result<[f32; 6], Stop> {
    let mut c = [0.0; 6];
    for v in &mut c {
        *v = f32::from_bits(r.next(MOST_32)? as u32);
    }
    Ok(c)
}

fn taps(r: &mut Reader) -> Result<Vec<(i16, i16)>, Stop> {
    (0..r.next(MOST_8)?).map(|_| Ok((signed16(r)?, signed16(r)?))).collect()
}

fn targets(r: &mut Reader) -> Result<Vec<(u16, u16)>, Stop> {
    (0..r.next(MOST_8)?).map(|_| Ok((r.next(MOST_16)? as u16, r.next(MOST_16)? as u16))).collect()
}

pub fn apply16(c: &Cal, x: i32, y: i32) -> Option<(i32, i32)> {
    let narrow = |v: i32| i16::try_from(v).is_ok();
    if !narrow(x) || !narrow(y) {
        return None;
    }
    tried(|| touchcal::apply16(c, x, y))
}

/// By the tenths that the Rust has. Where it panics a difference leaves i32, or the sum is 2^63, past its i64: the root of
/// that is 3,037,000,499.
fn old_dist10(ax: i32, ay: i32, bx: i32, by: i32) -> Option<u32> {
    match tried(|| touchcal::dist10_of(ax, ay, bx, by)) {
        Some(t) => Some(t),
        None if ax.checked_sub(bx).is_none() || ay.checked_sub(by).is_none() => None,
        None => Some((3_037_000_499u64 * 10 / 16) as u32),
    }
}

/// Where the Rust's check panics: the most negative number in the four is Scale, a sum past i32 is Shift.
pub fn check(c: &Cal, targets: &[(u16, u16)]) -> Option<Bad> {
    match tried(|| touchcal::check(c, targets)) {
        Some(r) => r.err(),
        None if [0, 1, 3, 4].iter().any(|&i| c[i] == i32::MIN) => Some(Bad::Scale),
        None => Some(Bad::Shift),
    }
}

fn verdict(b: Option<Bad>) -> &'static str {
    match b {
        None => "Ok",
        Some(Bad::Scale) => "Scale",
        Some(Bad::Shift) => "Shift",
        Some(Bad::Resid) => "Resid",
        Some(Bad::Points) => "Points",
    }
}

/// A refusal of fit, and what it carries.
type Refused = (u8, String);

fn alone(why: u8) -> Refused {
    (why, String::new())
}

/// Why the Rust's fit is `None`, by request [2]: "6 becomes FEW, 16 LINE, 17 STEEP .. STEEP alone carries a value, the
/// coefficient's place", "which of the six came first in order a to f".
fn unfit(raw: &[(i16, i16)], tgt: &[(i16, i16)]) -> Option<Refused> {
    match touchcal::ways(raw, tgt) {
        Err(Way::Few) => Some(alone(FEW)),
        Err(Way::Line) => Some(alone(LINE)),
        Ok(steps) => steps.iter().position(Option::is_none).map(|place| (STEEP, place.to_string())),
    }
}

/// The Rust's fit, with its own numbers or measured by the tenths of request [6].
fn fit(old: bool, raw: &[(i16, i16)], tgt: &[(i16, i16)], targets: &[(u16, u16)]) -> Result<String, Refused> {
    if raw.len().min(tgt.len()) > LIST_MOST || targets.len() > LIST_MOST {
        return Err(alone(LONG));
    }
    if !targets.iter().all(|&(x, y)| on_panel(Point { x, y })) {
        return Err(alone(TARGET));
    }
    // where it panics it does so in resid: what passes its check's scales is too small for the check's sums to leave i32
    let f = tried(|| touchcal::fit(raw, tgt, targets)).ok_or_else(|| alone(WIDE))?;
    let f = match (f, unfit(raw, tgt)) {
        (Some(f), None) => f,
        (None, Some(why)) => return Err(why),
        _ => panic!("fit is None, and not by one of its three ways"),
    };
    let m = if old {
        Measured { mean: f.mean, max: f.max, before: f.before, bad: f.bad }
    } else {
        tenths::measured(&f.cal, raw, tgt, targets).expect("a fit that the Rust measured")
    };
    Ok(format!("{} {} {} {} {}", joined(&f.cal), m.mean, m.max, m.before, verdict(m.bad)))
}

//! The Rust side of the measurements: the published sources, the same inputs and the same number as crates/bench.
mod gesture;
mod numbers;
mod play;
mod touch;
mod touchcal;
mod trace;

use gesture::{Gesture, Tracker};
use numbers::{unfolded, Reader};
use touch::{Event, Point};

fn code(g: Option<Gesture>) -> u64 {
    match g {
        None => 0,
        Some(Gesture::Down(_)) => 1,
        Some(Gesture::Tap(_)) => 2,
        Some(Gesture::LongPress(_)) => 3,
        Some(Gesture::Drag(..)) => 4,
        Some(Gesture::Grab(_)) => 5,
        Some(Gesture::Up(_)) => 6,
        Some(Gesture::SwipeLeft) => 7,
        Some(Gesture::SwipeRight) => 8,
        Some(Gesture::SwipeUp) => 9,
        Some(Gesture::SwipeDown) => 10,
        Some(Gesture::Cancel) => 11,
        Some(Gesture::MultiSwipeDown(_)) => 12,
        Some(Gesture::KeyDown(_)) => 13,
        Some(Gesture::KeyUp(_)) => 14,
        Some(Gesture::Move(..)) => 15,
        Some(Gesture::Pinch(..)) => 16,
        Some(Gesture::PinchEnd(_)) => 17,
    }
}

/// A report, an empty one for a tick, and its time.
#[derive(Clone, Copy)]
struct Held {
    event: Event,
    time: u64,
}

const CALLS_MOST: usize = 16;

fn held(r: &mut Reader) -> Vec<Held> {
    let mut calls = Vec::new();
    while calls.len() < CALLS_MOST && !r.done() {
        let Ok(kind) = r.next(u64::MAX) else { break };
        let call = if kind == 1 {
            trace::report(r).map(|(time, event)| Held { event, time })
        } else {
            r.next(u64::MAX).map(|time| Held { event: Event::default(), time })
        };
        let Ok(call) = call else { break };
        calls.push(call);
    }
    calls
}

fn reports(r: &mut Reader, calls: u64) -> u64 {
    let held = held(r);
    let mut t = Tracker::new();
    let mut sum = 0u64;
    let mut k = 0;
    for _ in 0..calls {
        let h = &held[k];
        sum = sum.wrapping_add(code(t.event(&h.event, h.time)));
        k = if k + 1 < held.len() { k + 1 } else { 0 };
    }
    sum.wrapping_add(touch::logged())
}

/// While the finger of the first report is down, whose line does not count.
fn ticks(r: &mut Reader, calls: u64) -> u64 {
    let held = held(r);
    let mut t = touched(&held[0]);
    let before = touch::logged();
    let mut sum = 0u64;
    let mut k = 0;
    for _ in 0..calls {
        sum = sum.wrapping_add(code(t.tick(held[k].time)));
        k = if k + 1 < held.len() { k + 1 } else { 0 };
    }
    sum.wrapping_add(touch::logged().wrapping_sub(before))
}

/// A tracker of its own for the ticks, so that the event of the reports stays the only one in its loop.
#[inline(never)]
fn touched(h: &Held) -> Tracker {
    let mut t = Tracker::new();
    t.event(&h.event, h.time);
    t
}

fn all(r: &mut Reader) -> Vec<u64> {
    let mut v = Vec::new();
    while let Ok(x) = r.next(u64::MAX) {
        v.push(x);
    }
    v
}

/// A signed number of 32 bits, as the other side adds it.
fn signed(v: i32) -> u64 {
    u64::from(v.unsigned_abs()) + if v < 0 { 1 << 32 } else { 0 }
}

fn apply16(v: &[u64], calls: u64) -> u64 {
    let v: Vec<i32> = v.iter().map(|&x| unfolded(x) as i32).collect();
    let c: touchcal::Cal = v[..6].try_into().unwrap();
    let mut sum = 0u64;
    let mut k = 6;
    for _ in 0..calls {
        let (x, y) = touchcal::apply16(&c, v[k], v[k + 1]);
        sum = sum.wrapping_add(signed(x).wrapping_add(signed(y)));
        k = if k + 3 < v.len() { k + 2 } else { 6 };
    }
    sum
}

fn isqrt(v: &[u64], calls: u64) -> u64 {
    let mut sum = 0u64;
    let mut k = 0;
    for _ in 0..calls {
        sum = sum.wrapping_add(touchcal::isqrt_of(v[k]));
        k = if k + 1 < v.len() { k + 1 } else { 0 };
    }
    sum
}

fn q16(v: &[u64], calls: u64) -> u64 {
    let v: Vec<f32> = v.iter().map(|&x| unfolded(x) as i32 as f32 / 1000.0).collect();
    let mut sum = 0u64;
    let mut k = 0;
    for _ in 0..calls {
        sum = sum.wrapping_add(touchcal::q16_of(v[k]).map_or(1, signed));
        k = if k + 1 < v.len() { k + 1 } else { 0 };
    }
    sum
}

fn fit(v: &[u64], calls: u64) -> u64 {
    let tap = |c: &[u64]| (unfolded(c[0]) as i16, unfolded(c[1]) as i16);
    let mut raw: Vec<(i16, i16)> = v[..18].chunks(2).map(tap).collect();
    let tgt: Vec<(i16, i16)> = v[18..36].chunks(2).map(tap).collect();
    let targets: Vec<(u16, u16)> = v[36..54].chunks(2).map(|c| (c[0] as u16, c[1] as u16)).collect();
    let mut sum = 0u64;
    for i in 0..calls {
        raw[0].0 = (i % 4) as i16;
        let part = match touchcal::fit(&raw, &tgt, &targets) {
            None => 1,
            Some(f) => {
                let verdict = match f.bad {
                    None => 0,
                    Some(touchcal::Bad::Scale) => 1,
                    Some(touchcal::Bad::Shift) => 2,
                    Some(_) => 3,
                };
                signed(f.cal[2]) + u64::from(f.mean) + u64::from(f.max) + u64::from(f.before) + verdict
            }
        };
        sum = sum.wrapping_add(part);
    }
    sum
}

/// The number of a row: which, how many calls, and what it takes.
fn measured(bytes: &[u8]) -> Option<u64> {
    let mut r = Reader { bytes, at: 0 };
    let mut number = || r.next(u64::MAX).ok();
    let (row, calls) = (number()?, number()?);
    Some(match row {
        1 => reports(&mut r, calls),
        2 => apply16(&all(&mut r), calls),
        3 => isqrt(&all(&mut r), calls),
        4 => q16(&all(&mut r), calls),
        5 => fit(&all(&mut r), calls),
        6 => ticks(&mut r, calls),
        _ => 0,
    })
}

#[no_mangle]
pub unsafe extern "C" fn rust_measured(bytes: *const u8, n: usize) -> u64 {
    measured(core::slice::from_raw_parts(bytes, n)).unwrap_or(0)
}

/// What a trace prints, and how much of it: `out` has room for all that a trace can print.
#[no_mangle]
pub unsafe extern "C" fn rust_play(bytes: *const u8, n: usize, out: *mut u8, room: usize) -> usize {
    play::play(core::slice::from_raw_parts(bytes, n), core::slice::from_raw_parts_mut(out, room))
}

//! A trace on the Rust: its records read, and made as calls on one tracker. Who is told of them writes the lines: the
//! trace program of `play.rs`, and that of the bench, which counts instructions. So that they are counted at their
//! fewest, each function here may be taken into another module.
use crate::gesture::{self, Gesture, Tracker};
use crate::numbers::{Reader, Stop};
use crate::touch::{Event, Point};

const VERSION: u8 = 8;
const KIND: u8 = 12;
const FILE: u8 = 13;
const TRACE_MOST: usize = 65_536;

/// Who is told what a record's call comes to, where it comes to anything: the record's number from 1, and a gesture,
/// or that a point in use is off the panel.
pub trait Told {
    fn gave(&mut self, i: u64, g: Gesture);
    fn refused(&mut self, i: u64);
}

#[inline]
pub fn on_panel(p: Point) -> bool {
    p.x < 480 && p.y < 320
}

/// A report's points in use are on the panel.
#[inline]
pub fn report_ok(ev: &Event) -> bool {
    match ev.points {
        1 => on_panel(ev.p),
        n => ev.pts[..usize::from(n).min(5)].iter().all(|&p| on_panel(p)),
    }
}

#[inline]
fn point(r: &mut Reader) -> Result<Point, Stop> {
    Ok(Point { x: r.next(65_535)? as u16, y: r.next(65_535)? as u16 })
}

/// A report: its points in use, and what is unused zero.
#[inline]
pub fn report(r: &mut Reader) -> Result<(u64, Event), Stop> {
    let now = r.next(u64::MAX)?;
    let mut ev = Event { keys: r.next(255)? as u8, points: r.next(255)? as u8, ..Event::default() };
    for i in 0..usize::from(ev.points).min(5) {
        ev.pts[i] = point(r)?;
    }
    ev.p = ev.pts[0];
    if ev.points == 1 {
        ev.pts = Default::default();
    }
    Ok((now, ev))
}

#[inline]
fn record(r: &mut Reader, t: &mut Tracker, i: u64, to: &mut impl Told) -> Result<(), Stop> {
    let place = r.at;
    let g = match r.next(u64::MAX)? {
        1 => {
            let (now, ev) = report(r)?;
            if !report_ok(&ev) {
                to.refused(i);
                return Ok(());
            }
            t.event(&ev, now)
        }
        2 => {
            let now = r.next(u64::MAX)?;
            t.tick(now)
        }
        3 => {
            t.capture();
            None
        }
        4 => {
            t.capture_direct();
            None
        }
        5 => {
            gesture::raw_next(r.next(1)? == 1);
            None
        }
        6 => {
            gesture::set_grab_ms(r.next(65_535)? as u16);
            None
        }
        _ => return Err(Stop { why: KIND, at: place }),
    };
    if let Some(g) = g {
        to.gave(i, g);
    }
    Ok(())
}

/// Makes a trace's calls on a fresh tracker, and tells what they come to. In the end, how many records there were, or
/// why and where the trace stopped.
#[inline]
pub fn records(bytes: &[u8], to: &mut impl Told) -> Result<u64, Stop> {
    if bytes.len() > TRACE_MOST {
        return Err(Stop { why: FILE, at: 0 });
    }
    let mut t = Tracker::new();
    let mut r = Reader { bytes, at: 0 };
    if r.next(u64::MAX)? != 1 {
        return Err(Stop { why: VERSION, at: 0 });
    }
    let mut i = 0;
    while !r.done() {
        i += 1;
        record(&mut r, &mut t, i, to)?;
    }
    Ok(i)
}

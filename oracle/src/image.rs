//! The byte image, written and read by docs/IMAGE.md and the rules of document 01's tracker record: a second
//! hand at the layout, so that both sides print the tracker after each call.
use crate::gesture::Fields;

/// The settings that the Rust's tracker does not have: none so far. The side keeps them beside it.
#[derive(Clone, Copy, PartialEq, Eq, Debug, Default)]
pub struct More {}

fn point(out: &mut Vec<u8>, x: i32, y: i32) {
    out.extend_from_slice(&(x as u16).to_le_bytes());
    out.extend_from_slice(&(y as u16).to_le_bytes());
}

/// The image of a tracker that keeps the state rule.
pub fn of(f: &Fields) -> Vec<u8> {
    let mut o = Vec::with_capacity(BYTES);
    o.push(if f.residual {
        3
    } else if f.multi.is_some() {
        2
    } else if f.down.is_some() {
        1
    } else {
        0
    });
    let (x, y, t) = f.down.unwrap_or((0, 0, 0));
    point(&mut o, x.into(), y.into());
    o.extend_from_slice(&t.to_le_bytes());
    let (n, c0, t0, c1, t1) = f.multi.unwrap_or((0, (0, 0), 0, (0, 0), 0));
    o.push(n);
    point(&mut o, c0.0, c0.1);
    o.extend_from_slice(&t0.to_le_bytes());
    point(&mut o, c1.0, c1.1);
    o.extend_from_slice(&t1.to_le_bytes());
    o.push(f.pair.is_some() as u8);
    let (a, b, axis, span0, c0, state) = f.pair.unwrap_or(((0, 0), (0, 0), 0, 0, (0, 0), 0));
    point(&mut o, a.0.into(), a.1.into());
    point(&mut o, b.0.into(), b.1.into());
    o.push(axis);
    o.extend_from_slice(&(span0 as u16).to_le_bytes());
    point(&mut o, c0.0, c0.1);
    o.push(state);
    point(&mut o, f.last.0.into(), f.last.1.into());
    o.push(f.moved as u8);
    o.extend_from_slice(&(f.far as u16).to_le_bytes());
    o.push(f.long_sent as u8);
    o.push(f.axis);
    o.extend([f.grabbed, f.direct, f.early, f.captured, f.raw].map(u8::from));
    o.push(f.multi_end.is_some() as u8);
    o.extend_from_slice(&f.multi_end.unwrap_or(0).to_le_bytes());
    o.push(f.keys);
    o.push(f.keys_want);
    o.extend_from_slice(&f.grab_ms.to_le_bytes());
    o.push(f.raw_next as u8);
    o
}

/// How many bytes an image has.
pub const BYTES: usize = 83;

struct Bytes<'a>(&'a [u8], usize);

impl Bytes<'_> {
    fn number(&mut self, w: usize) -> u64 {
        let v = (0..w).rev().fold(0, |v, k| v << 8 | u64::from(self.0[self.1 + k]));
        self.1 += w;
        v
    }

    fn flag(&mut self) -> Option<bool> {
        match self.number(1) {
            0 => Some(false),
            1 => Some(true),
            _ => None,
        }
    }

    fn place(&mut self) -> (u16, u16) {
        (self.number(2) as u16, self.number(2) as u16)
    }
}

fn on_panel(p: (u16, u16)) -> bool {
    p.0 < 480 && p.1 < 320
}

fn wide(p: (u16, u16)) -> (i32, i32) {
    (p.0.into(), p.1.into())
}

/// The tracker whose image these bytes are, if there is one that keeps the state rule.
pub fn read(bytes: &[u8]) -> Option<Fields> {
    if bytes.len() != BYTES {
        return None;
    }
    let mut b = Bytes(bytes, 0);
    let mut f = Fields::default();
    let touch = b.number(1);
    let (p, t) = (b.place(), b.number(8));
    let (n, c0, t0, c1, t1) = (b.number(1) as u8, b.place(), b.number(8), b.place(), b.number(8));
    let paired = b.flag()?;
    let pair = (b.place(), b.place(), b.number(1) as u8, b.number(2) as i32, wide(b.place()), b.number(1) as u8);
    f.last = b.place();
    f.moved = b.flag()?;
    f.far = b.number(2) as i32;
    f.long_sent = b.flag()?;
    f.axis = b.number(1) as u8;
    f.grabbed = b.flag()?;
    f.direct = b.flag()?;
    f.early = b.flag()?;
    f.captured = b.flag()?;
    f.raw = b.flag()?;
    let ended = b.flag()?;
    let end = b.number(8);
    f.keys = b.number(1) as u8;
    f.keys_want = b.number(1) as u8;
    f.grab_ms = b.number(2) as u16;
    f.raw_next = b.flag()?;
    match touch {
        0 => {}
        1 => f.down = Some((p.0, p.1, t)),
        2 => f.multi = Some((n, wide(c0), t0, wide(c1), t1)),
        3 => f.residual = true,
        _ => return None,
    }
    f.active = touch != 0;
    f.pair = if paired { Some(pair) } else { None };
    f.multi_end = if ended { Some(end) } else { None };
    let points = on_panel(f.last)
        && f.down.is_none_or(|_| on_panel(p))
        && f.multi.is_none_or(|_| on_panel(c0) && on_panel(c1))
        && f.pair.is_none_or(|(a, b, _, _, c, _)| on_panel(a) && on_panel(b) && on_panel((c.0 as u16, c.1 as u16)));
    let ranges = f.far < 480
        && f.axis < 3
        && f.grab_ms <= 5000
        && f.multi.is_none_or(|m| (2..=5).contains(&m.0))
        && f.pair.is_none_or(|(_, _, axis, span0, _, state)| axis < 2 && span0 < 480 && state < 3);
    let together = (f.pair.is_none() || f.multi.is_some()) && (!f.raw || f.captured);
    // absent parts are zero: the image of what was read has them so
    if points && ranges && together && of(&f) == bytes { Some(f) } else { None }
}

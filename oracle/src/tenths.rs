//! The tenths of request [6] of document 02, written a second time from its words, and `dist10`, `resid` and `fit` by them.
//! The published functions go by the rule before it. What is no tenths, where a tap lands, the calibration that is found
//! and the limits of `check`, is the Rust's here too.
use crate::answers::{apply16, check};
use crate::touchcal::{Bad, Cal, IDENTITY};

/// "The tenths become the largest t with (16t) squared at most 100 times the squared distance in sixteenths": from the
/// highest binary digit that an answer can have, each one that keeps it so.
fn tenths(d2: u128) -> u32 {
    let mut t = 0;
    for digit in (0..31).rev() {
        let more = t + (1 << digit);
        if (16 * more) * (16 * more) <= 100 * d2 {
            t = more;
        }
    }
    t as u32
}

fn square(d: i32) -> u128 {
    u128::from(d.unsigned_abs()) * u128::from(d.unsigned_abs())
}

/// None is WIDE: "if a coordinate difference leaves i32".
pub fn dist10(ax: i32, ay: i32, bx: i32, by: i32) -> Option<u32> {
    let (dx, dy) = (ax.checked_sub(bx)?, ay.checked_sub(by)?);
    Some(tenths(square(dx) + square(dy)))
}

/// "Mean (down) and max over the shorter length; (0,0) if none." None is WIDE, as `apply16` answers it.
pub fn resid(c: &Cal, raw: &[(i16, i16)], tgt: &[(i16, i16)]) -> Option<(u32, u32)> {
    let mut misses = Vec::new();
    for (r, t) in raw.iter().zip(tgt) {
        let (x, y) = apply16(c, r.0.into(), r.1.into())?;
        misses.push(dist10(x, y, i32::from(t.0) * 16, i32::from(t.1) * 16)?);
    }
    let Some(&max) = misses.iter().max() else { return Some((0, 0)) };
    Some((misses.iter().sum::<u32>() / misses.len() as u32, max))
}

/// What a fit tells beside its calibration: mean and max with it, the mean before, and the verdict, "Scale, Shift, then
/// Resid if max > 250".
pub struct Measured {
    pub mean: u32,
    pub max: u32,
    pub before: u32,
    pub bad: Option<Bad>,
}

pub fn measured(c: &Cal, raw: &[(i16, i16)], tgt: &[(i16, i16)], targets: &[(u16, u16)]) -> Option<Measured> {
    let (mean, max) = resid(c, raw, tgt)?;
    let (before, _) = resid(&IDENTITY, raw, tgt)?;
    let bad = match check(c, targets) {
        None if max > 250 => Some(Bad::Resid),
        b => b,
    };
    Some(Measured { mean, max, before, bad })
}

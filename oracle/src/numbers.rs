//! Numbers as the trace has them, and as the probe has them: seven-bit groups, low first, the high bit on all
//! but the last, shortest form. Document 01 gives the order of the errors.

pub const CUT: u8 = 9;
pub const FORM: u8 = 10;
pub const BIG: u8 = 11;

/// Why reading stopped, and the place that this speaks of.
#[derive(Clone, Copy, PartialEq, Eq, Debug)]
pub struct Stop {
    pub why: u8,
    pub at: usize,
}

/// A place in some bytes.
pub struct Reader<'a> {
    pub bytes: &'a [u8],
    pub at: usize,
}

impl Reader<'_> {
    pub fn done(&self) -> bool {
        self.at >= self.bytes.len()
    }

    /// The next number, at most `most`.
    pub fn next(&mut self, most: u64) -> Result<u64, Stop> {
        let first = self.at;
        let stop = |why| Err(Stop { why, at: first });
        let mut v: u128 = 0;
        for k in 0..10 {
            let Some(&b) = self.bytes.get(first + k) else { return stop(CUT) };
            v |= u128::from(b & 127) << (7 * k);
            if b < 128 {
                if b == 0 && k > 0 {
                    return stop(FORM);
                }
                if v > u128::from(most) {
                    return stop(BIG);
                }
                self.at = first + k + 1;
                return Ok(v as u64);
            }
        }
        stop(BIG)
    }
}

/// The bytes of a number, in its shortest form.
pub fn put(out: &mut Vec<u8>, v: u64) {
    let mut v = v;
    while v > 127 {
        out.push((v & 127) as u8 | 128);
        v >>= 7;
    }
    out.push(v as u8);
}

/// A signed number is written 2v, or -2v - 1 below zero.
pub fn folded(v: i64) -> u64 {
    if v < 0 { (-2 * v - 1) as u64 } else { (2 * v) as u64 }
}

pub fn unfolded(v: u64) -> i64 {
    if v % 2 == 0 { (v / 2) as i64 } else { -((v / 2) as i64) - 1 }
}

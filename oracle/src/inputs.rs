//! Inputs: calls as lists of numbers, random around every threshold of document 01. A call is the probe's kind
//! and its arguments; a trace is made of the tracker calls among them.
use crate::gesture::Fields;
use crate::image;
use crate::numbers::{folded, put};

/// A call of the probe: its numbers, kind first.
pub type Call = Vec<u64>;

pub fn bytes_of(calls: &[Call]) -> Vec<u8> {
    let mut out = Vec::new();
    calls.iter().flatten().for_each(|&v| put(&mut out, v));
    out
}

/// Numbers that look random and come again from the same seed (splitmix64).
pub struct Dice(pub u64);

impl Dice {
    pub fn roll(&mut self) -> u64 {
        self.0 = self.0.wrapping_add(0x9E37_79B9_7F4A_7C15);
        let mut z = self.0;
        z = (z ^ (z >> 30)).wrapping_mul(0xBF58_476D_1CE4_E5B9);
        z = (z ^ (z >> 27)).wrapping_mul(0x94D0_49BB_1331_11EB);
        z ^ (z >> 31)
    }

    /// 0 to n - 1.
    pub fn under(&mut self, n: u64) -> u64 {
        self.roll() % n
    }

    pub fn one_in(&mut self, n: u64) -> bool {
        self.under(n) == 0
    }

    pub fn of<T: Copy>(&mut self, v: &[T]) -> T {
        v[self.under(v.len() as u64) as usize]
    }

    /// lo to hi, both included.
    pub fn between(&mut self, lo: i64, hi: i64) -> i64 {
        lo + self.under((hi - lo) as u64 + 1) as i64
    }
}

/// A coordinate: mostly on the panel, also at its edge and past it.
fn coordinate(d: &mut Dice, size: u64) -> u64 {
    match d.under(40) {
        0 => size - 1,
        1 => 0,
        2 => d.of(&[size, size + 1, 65_535, 32_768]),
        3 => d.under(65_536),
        _ => d.under(size),
    }
}

fn any_point(d: &mut Dice) -> [u64; 2] {
    [coordinate(d, 480), coordinate(d, 320)]
}

/// A signed number of 32 bits, of every size, and near the limits that document 01 names.
fn any32(d: &mut Dice) -> i64 {
    let near = d.of(&[
        0, 9830, -9830, 65_536, -65_536, 2_621_440, -2_621_440, 2_625_535, 8_388_608, -8_388_608, 715_827_882, -715_827_882,
        i32::MAX as i64, i32::MIN as i64,
    ]);
    match d.under(4) {
        0 => (near + d.between(-3, 3)).clamp(i32::MIN.into(), i32::MAX.into()),
        1 => d.between(-10_000, 10_000),
        _ => {
            let bits = d.under(32);
            (d.roll() as i32 >> bits).into()
        }
    }
}

fn any16(d: &mut Dice) -> i64 {
    match d.under(8) {
        0 => d.of(&[0, 1, -1, 32_767, -32_768, 479, 480, 319, 320]),
        1 => (d.roll() as i16).into(),
        _ => d.between(-20, 500),
    }
}

/// A calibration: small as a panel's is, or with one part of any size.
fn cal(d: &mut Dice) -> Vec<u64> {
    let mut c: Vec<i64> = (0..6)
        .map(|i| if i % 3 == 2 { d.between(-2_700_000, 2_700_000) } else { d.between(-9_900, 9_900) })
        .collect();
    match d.under(4) {
        0 => c = vec![0; 6],
        1 => {
            let k = d.under(6) as usize;
            c[k] = any32(d);
        }
        2 => c.iter_mut().for_each(|v| *v = any32(d)),
        _ => {}
    }
    c.into_iter().map(folded).collect()
}

/// The pattern of an f32: a coefficient, near a limit of q16, or any.
fn pattern(d: &mut Dice) -> u64 {
    let f = |x: f32| u64::from(x.to_bits());
    match d.under(6) {
        0 => d.under(1 << 32),
        1 => {
            let x = d.of(&[30_517.578_f32, -30_517.578, 128.0, 1.0, 0.0, -0.0, f32::INFINITY, f32::NEG_INFINITY, f32::NAN, f32::MIN_POSITIVE]);
            (f(x) + d.under(5)).wrapping_sub(2) & 0xFFFF_FFFF
        }
        2 => f(d.between(-8_400_000, 8_400_000) as f32 / 65_536.0),
        3 => f((d.between(-1 << 40, 1 << 40) as f64 / 65_536.0 / 4096.0) as f32),
        // halves: a step and a half
        4 => f((d.between(-70_000, 70_000) as f32 + 0.5) / 65_536.0),
        _ => f(d.between(-3_000, 3_000) as f32 / 1000.0),
    }
}

fn list_length(d: &mut Dice) -> u64 {
    match d.under(60) {
        0 => d.of(&[63, 64, 65, 66, 255]),
        1 => d.under(256),
        _ => d.under(12),
    }
}

fn targets(d: &mut Dice) -> Vec<u64> {
    let n = list_length(d);
    let sane = !d.one_in(8);
    let mut v = vec![n];
    for _ in 0..n {
        v.extend(if sane { [d.under(480), d.under(320)] } else { any_point(d) });
    }
    v
}

fn any_taps(d: &mut Dice) -> Vec<u64> {
    let n = list_length(d);
    let mut v = vec![n];
    (0..2 * n).for_each(|_| v.push(folded(any16(d))));
    v
}

/// Taps that scatter around targets, mapped by some calibration: what a technician makes.
fn taps_near(d: &mut Dice) -> (Vec<u64>, Vec<u64>) {
    let n = d.between(3, 12);
    let (mut raw, mut tgt) = (vec![n as u64], vec![n as u64]);
    let (sx, sy) = (d.between(-45, 45), d.between(-45, 45));
    let (kx, ky) = (d.between(820, 1180), d.between(820, 1180));
    let scatter = d.of(&[0, 0, 1, 3, 10, 30]);
    let line = d.one_in(10);
    for _ in 0..n {
        let (x, y) = if line { let k = d.between(0, 300); (k, k) } else { (d.between(0, 479), d.between(0, 319)) };
        tgt.extend([folded(x), folded(y)]);
        raw.extend([
            folded(x * kx / 1000 + sx + d.between(-scatter, scatter)),
            folded(y * ky / 1000 + sy + d.between(-scatter, scatter)),
        ]);
    }
    (raw, tgt)
}

/// A fit of taps that are close together, or on one line, onto targets that are far apart: each of the three ways to no fit,
/// and both sides of each. Along each axis the targets are in one place, or as far apart as the taps are along x or y.
pub fn crowded(d: &mut Dice) -> Call {
    let n = d.of(&[0, 1, 2, 2, 3, 3, 3, 3, 4, 5, 9]);
    let size = d.of(&[1, 2, 2, 3, 5, 40]);
    let (kind, factor, from) = (
        [(); 2].map(|()| d.under(5)),
        [(); 2].map(|()| d.of(&[-30_517, -30_516, 30_517, 30_518, 30_519, 65_535, 1, 0])),
        [(); 2].map(|()| d.of(&[0, 0, -30_517, 30_517, 30_518, -30_518, -32_768, 32_767])),
    );
    let (mut raw, mut tgt) = (vec![n as u64], vec![n as u64]);
    for _ in 0..n {
        let at = [d.between(0, size), d.between(0, size)];
        raw.extend(at.map(folded));
        for k in 0..2 {
            let v = match kind[k] {
                0 => from[k],
                1 => from[k] + factor[k] * at[0],
                2 => from[k] + factor[k] * at[1],
                3 => from[k] + factor[k] * (at[0] - at[1]),
                _ => any16(d),
            };
            tgt.push(folded(v.clamp(-32_768, 32_767)));
        }
    }
    let targets = if d.one_in(10) { targets(d) } else { vec![1, d.under(480), d.under(320)] };
    [vec![19], raw, tgt, targets].concat()
}

/// One call of a kind under 30.
pub fn plain(d: &mut Dice, kind: u64) -> Call {
    let mut c = vec![kind];
    match kind {
        1 | 2 => {
            c.extend(any_point(d));
            c.extend(any_point(d));
        }
        3 => {
            c.push(if d.one_in(10) { d.under(256) } else { d.under(7) });
            (0..5).for_each(|_| c.extend(any_point(d)));
        }
        4 => {
            if d.one_in(2) {
                c.extend([folded(any32(d)), folded(any32(d))]);
            } else {
                c.extend([folded(d.between(-64, 64)), folded(d.between(-64, 64))]);
            }
        }
        10 => {
            c.extend(cal(d));
            for _ in 0..2 {
                c.push(folded(if d.one_in(10) { any32(d) } else { any16(d) }));
            }
        }
        11 => {
            c.extend(cal(d));
            c.extend(any_point(d));
        }
        12 => {
            let bits = d.under(64);
            let v = d.roll() >> bits;
            let r = d.under(1 << 32);
            c.push(match d.under(4) {
                0 => r.wrapping_mul(r).wrapping_add(d.under(3)).wrapping_sub(1),
                1 => u64::MAX - d.under(5),
                _ => v,
            });
        }
        13 => {
            let near = d.one_in(2);
            for _ in 0..4 {
                c.push(folded(if near { d.between(-8_000, 8_000) } else { any32(d) }));
            }
        }
        14 => {
            c.extend(cal(d));
            let (a, b) = if d.one_in(3) { (any_taps(d), any_taps(d)) } else { taps_near(d) };
            c.extend(a);
            c.extend(b);
        }
        15 => {
            c.extend(cal(d));
            c.extend(targets(d));
        }
        16 => c.push(pattern(d)),
        17 => c.extend(cal(d)),
        18 | 20 => {
            (0..6).for_each(|_| c.push(pattern(d)));
            if d.one_in(2) {
                // six that are all in range
                for v in &mut c[1..] {
                    *v = u64::from((d.between(-1_000_000, 1_000_000) as f32 / 65_536.0).to_bits());
                }
            }
        }
        19 => {
            let (a, b) = if d.one_in(4) { (any_taps(d), any_taps(d)) } else { taps_near(d) };
            c.extend(a);
            c.extend(b);
            c.extend(targets(d));
        }
        _ => {}
    }
    c
}

/// The same call by the old tenths, if it is one that is told in tenths.
pub fn by_old_tenths(c: &Call) -> Option<Call> {
    let kind = match c[0] {
        13 => 43,
        14 => 44,
        19 => 49,
        _ => return None,
    };
    Some(std::iter::once(kind).chain(c[1..].iter().copied()).collect())
}

/// Fingers that go down, move, gather, lift; keys; a clock that mostly goes on.
pub struct Hand {
    now: u64,
    down: u64,
    fingers: Vec<[i64; 2]>,
    keys: u64,
    grab: u64,
}

/// Differences of time on both sides of every limit.
const WAITS: [u64; 28] = [
    0, 0, 1, 2, 5, 8, 10, 20, 20, 50, 100, 150, 298, 299, 300, 301, 400, 699, 700, 701, 799, 800, 801, 1199, 1200, 1999, 2000, 2001,
];

/// Differences of place on both sides of every limit.
const STEPS: [i64; 26] = [
    0, 1, 2, 3, 7, 8, 9, 10, 14, 15, 16, 17, 19, 20, 21, 29, 30, 31, 32, 45, 59, 60, 61, 62, 90, 120,
];

impl Hand {
    pub fn new(d: &mut Dice) -> Hand {
        let now = d.of(&[0, 0, 5, 1000, 100_000, u64::MAX - 3000]);
        Hand { now, down: 0, fingers: Vec::new(), keys: 0, grab: 0 }
    }

    fn step(d: &mut Dice) -> i64 {
        let s = d.of(&STEPS);
        if d.one_in(2) { s } else { -s }
    }

    fn shift(d: &mut Dice, p: &mut [i64; 2]) {
        let both = d.one_in(3);
        let k = d.under(2) as usize;
        p[k] = (p[k] + Hand::step(d)).clamp(0, [479, 319][k]);
        if both {
            p[1 - k] = (p[1 - k] + Hand::step(d)).clamp(0, [479, 319][1 - k]);
        }
    }

    fn wait(&mut self, d: &mut Dice) {
        let w = d.of(&WAITS);
        self.now = match d.under(60) {
            0 => self.now.saturating_sub(w),
            1 => d.roll() >> d.under(64),
            2 => self.down.saturating_add(self.grab).saturating_add(d.under(3)).saturating_sub(1),
            3 => self.down.saturating_add(d.of(&[300, 700, 800, 1200, 2000])).saturating_add(d.under(3)).saturating_sub(1),
            _ => self.now.saturating_add(w),
        };
    }

    /// The next report: what the fingers do, told as the panel would tell it.
    fn report(&mut self, d: &mut Dice) -> Call {
        self.wait(d);
        let n = self.fingers.len() as u64;
        match d.under(10) {
            0 | 1 => self.fingers.clear(),
            2 if n > 0 => {
                let k = d.under(n) as usize;
                self.fingers.remove(k);
            }
            3 | 4 if n < 5 => {
                let p = match self.fingers.last() {
                    Some(&q) if d.one_in(2) => {
                        let mut p = q;
                        Hand::shift(d, &mut p);
                        p
                    }
                    _ => [d.between(0, 479), d.between(0, 319)],
                };
                self.fingers.push(p);
                self.down = self.now;
            }
            // all together, as in a swipe
            5 if n > 1 => {
                let (dx, dy) = (Hand::step(d), Hand::step(d).abs());
                for p in &mut self.fingers {
                    *p = [(p[0] + dx).clamp(0, 479), (p[1] + dy).clamp(0, 319)];
                }
            }
            _ if n == 0 => {
                self.fingers.push([d.between(0, 479), d.between(0, 319)]);
                self.down = self.now;
            }
            _ => {
                for k in 0..n as usize {
                    if n == 1 || d.one_in(2) {
                        let mut p = self.fingers[k];
                        Hand::shift(d, &mut p);
                        self.fingers[k] = p;
                    }
                }
            }
        }
        if n == 2 && d.one_in(6) {
            self.fingers.reverse();
        }
        if d.one_in(12) {
            self.keys = if d.one_in(3) { d.under(256) } else { self.keys ^ 1 << d.under(8) };
        }
        let mut c = vec![31, self.now, self.keys, self.fingers.len() as u64];
        let mut pts: Vec<[u64; 2]> = self.fingers.iter().map(|p| [p[0] as u64, p[1] as u64]).collect();
        pts.resize(5, [0, 0]);
        let mut p = pts[0];
        match d.under(80) {
            // a count that means five
            0 => c[3] = 5 + d.under(251),
            // a point off the panel, in use or not
            1 => pts[d.under(5) as usize] = any_point(d),
            2 => p = any_point(d),
            3 => c[3] = d.under(7),
            _ => {}
        }
        c.extend(p);
        pts.iter().for_each(|p| c.extend(p));
        c
    }

    /// The next call of a tracker, but for load.
    pub fn call(&mut self, d: &mut Dice) -> Call {
        match d.under(32) {
            0..=19 => self.report(d),
            20..=25 => {
                self.wait(d);
                vec![32, self.now]
            }
            26 => vec![33],
            27 => vec![34],
            28 => vec![35, d.under(2)],
            29 => {
                self.grab = d.of(&[0, 0, 1, 200, 300, 700, 1200, 4999, 5000, 5001, 65_535]).min(5000);
                vec![36, if self.grab == 5000 { d.of(&[5000, 5001, 65_535]) } else { self.grab }]
            }
            30 => vec![37],
            _ => match d.under(6) {
                0 => {
                    self.fingers.clear();
                    self.keys = 0;
                    self.grab = 0;
                    vec![30]
                }
                _ => self.report(d),
            },
        }
    }
}

pub fn load(bytes: &[u8]) -> Call {
    let mut c = vec![38, bytes.len() as u64];
    c.extend(bytes.iter().map(|&b| u64::from(b)));
    c
}

/// A load: of a tracker with any fields in range, of the tracker at hand, or of its image damaged.
pub fn any_load(d: &mut Dice, now: &Fields) -> Call {
    let on = |d: &mut Dice| (d.under(480) as u16, d.under(320) as u16);
    let wide = |p: (u16, u16)| (i32::from(p.0), i32::from(p.1));
    let mut f = *now;
    if d.one_in(2) {
        f = Fields { captured: d.one_in(2), keys: d.roll() as u8, keys_want: d.roll() as u8, grab_ms: d.under(5001) as u16, ..Fields::default() };
        f.last = on(d);
        f.far = d.under(480) as i32;
        f.axis = d.under(3) as u8;
        f.moved = d.one_in(2);
        f.long_sent = d.one_in(2);
        f.grabbed = d.one_in(2);
        f.direct = d.one_in(2);
        f.early = d.one_in(2);
        f.raw = f.captured && d.one_in(2);
        f.raw_next = d.one_in(2);
        f.multi_end = if d.one_in(2) { Some(d.under(3000)) } else { None };
        match d.under(4) {
            0 => {}
            1 => {
                let p = on(d);
                f.down = Some((p.0, p.1, d.under(3000)));
            }
            2 => {
                f.multi = Some((d.between(2, 5) as u8, wide(on(d)), d.under(3000), wide(on(d)), d.under(3000)));
                if d.one_in(2) {
                    f.pair = Some((on(d), on(d), d.under(2) as u8, d.under(480) as i32, wide(on(d)), d.under(3) as u8));
                }
            }
            _ => f.residual = true,
        }
        f.active = f.down.is_some() || f.multi.is_some() || f.residual;
    }
    let mut b = image::of(&f);
    match d.under(5) {
        0 => {
            let k = d.under(b.len() as u64) as usize;
            b[k] = d.of(&[0, 1, 2, 3, 4, 6, 255]);
        }
        1 => {
            let k = d.under(b.len() as u64) as usize;
            b[k] = b[k].wrapping_add(d.roll() as u8);
        }
        2 if d.one_in(4) => b.push(0),
        2 if d.one_in(4) => {
            b.pop();
        }
        2 if d.one_in(20) => b.clear(),
        _ => {}
    }
    load(&b)
}

/// Bytes with something wrong: a byte changed, one gone, one more, cut short, a number padded.
pub fn damaged(d: &mut Dice, bytes: &[u8]) -> Vec<u8> {
    let mut b = bytes.to_vec();
    if b.is_empty() {
        return b;
    }
    let k = d.under(b.len() as u64) as usize;
    match d.under(6) {
        0 => b[k] = d.roll() as u8,
        1 => {
            b.remove(k);
        }
        2 => b.insert(k, d.roll() as u8),
        3 => b.truncate(k),
        4 if b[k] < 128 => {
            b[k] |= 128;
            b.insert(k + 1, 0);
        }
        _ => b.splice(k..k, [255; 10]).for_each(drop),
    }
    b
}

/// The record of a tracker call in a trace, where a trace has such a call.
fn record(c: &Call) -> Option<Vec<u64>> {
    match c[0] {
        31 => {
            let n = c[3].min(5) as usize;
            let mut r = vec![1, c[1], c[2], c[3]];
            if n == 1 {
                r.extend(&c[4..6]);
            } else {
                r.extend(&c[6..6 + 2 * n]);
            }
            Some(r)
        }
        32 => Some(vec![2, c[1]]),
        33 => Some(vec![3]),
        34 => Some(vec![4]),
        35 => Some(vec![5, c[1]]),
        36 => Some(vec![6, c[1]]),
        _ => None,
    }
}

/// The bytes of a trace of these calls, those that a trace can have.
pub fn trace_of(calls: &[Call]) -> Vec<u8> {
    let mut out = vec![1];
    calls.iter().filter_map(record).flatten().for_each(|v| put(&mut out, v));
    out
}

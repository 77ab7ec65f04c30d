
// ---- appended at build time: what the published text keeps private, for the comparison alone ----

pub fn isqrt_of(v: u64) -> u64 {
    isqrt(v)
}

pub fn dist10_of(ax: i32, ay: i32, bx: i32, by: i32) -> u32 {
    dist10(ax, ay, bx, by)
}

pub fn q16_of(v: f32) -> Option<i32> {
    q16(v)
}

/// Which of its two `return None` fit comes to. What is behind them is its third way, a `q16(..)?`.
pub enum Way {
    Few,
    Line,
}


// ---- appended at build time: what the ring holds, in one number ----

pub fn logged() -> u64 {
    let byte = |e: &LogEntry| u64::from(e.a) + u64::from(e.b) + u64::from(e.x) + u64::from(e.y);
    log_ref().e.iter().map(|e| byte(e) + u64::from(e.t)).sum()
}

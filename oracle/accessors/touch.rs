
// ---- appended at build time: the calibration as an argument, and a log that collects ----

pub fn screen_of(c: [i32; 6], p: Point) -> Point {
    unsafe { *core::ptr::addr_of_mut!(CAL) = c };
    screen(p)
}

/// What was logged since the last look: letter, argument, point, time.
pub static LOG: std::sync::Mutex<Vec<(u8, u8, Point, u64)>> = std::sync::Mutex::new(Vec::new());

pub fn log(kind: u8, t: u64, a: u8, b: u8, c: u8, p: Point) {
    assert!(kind == b'G' && c == 0);
    LOG.lock().unwrap().push((a, b, p, t));
}

//! The trace program on the Rust: document 01's lines for a trace.
use crate::answers::words;
use crate::gesture::{self, Gesture};
use crate::touch;
use crate::trace::{records, Told};
use std::io::Write;

struct Lines(Vec<u8>);

impl Told for Lines {
    fn gave(&mut self, i: u64, g: Gesture) {
        writeln!(self.0, "{i} {}", words(&g)).unwrap();
    }

    fn refused(&mut self, i: u64) {
        writeln!(self.0, "{i} refused 2").unwrap();
    }
}

pub fn played(bytes: &[u8]) -> Vec<u8> {
    gesture::set_grab_ms(0);
    gesture::raw_next(false);
    let mut lines = Lines(Vec::new());
    let end = records(bytes, &mut lines);
    let mut out = lines.0;
    match end {
        Ok(n) => writeln!(out, "end {n}").unwrap(),
        Err(s) => writeln!(out, "stopped {} at {}", s.why, s.at).unwrap(),
    }
    touch::LOG.lock().unwrap().clear();
    out
}

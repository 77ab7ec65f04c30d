//! The trace program on the Rust: document 01's lines for a trace, written into a buffer as the proved one does.
use crate::gesture::{Axis, Gesture};
use crate::touch::Point;
use crate::trace::{records, Told};

struct Text<'a> {
    out: &'a mut [u8],
    at: usize,
}

impl Text<'_> {
    fn word(&mut self, w: &[u8]) {
        self.out[self.at..self.at + w.len()].copy_from_slice(w);
        self.at += w.len();
    }

    fn number(&mut self, n: u64) {
        let mut digits = [0u8; 20];
        let mut i = digits.len();
        let mut n = n;
        loop {
            i -= 1;
            digits[i] = b'0' + (n % 10) as u8;
            n /= 10;
            if n == 0 {
                break;
            }
        }
        self.word(&digits[i..]);
    }

    fn space(&mut self, n: u64) {
        self.word(b" ");
        self.number(n);
    }

    fn point(&mut self, p: Point) {
        self.space(p.x.into());
        self.space(p.y.into());
    }

    fn axis(&mut self, a: Axis) {
        self.word(if a == Axis::H { b" H" } else { b" V" });
    }

    fn pointed(&mut self, w: &[u8], p: Point) {
        self.word(w);
        self.point(p);
    }

    fn numbered(&mut self, w: &[u8], n: u8) {
        self.word(w);
        self.space(n.into());
    }

    fn gesture(&mut self, g: Gesture) {
        match g {
            Gesture::Down(p) => self.pointed(b" Down", p),
            Gesture::Tap(p) => self.pointed(b" Tap", p),
            Gesture::LongPress(p) => self.pointed(b" LongPress", p),
            Gesture::Drag(p, q, a) => {
                self.pointed(b" Drag", p);
                self.point(q);
                self.axis(a);
            }
            Gesture::Grab(p) => self.pointed(b" Grab", p),
            Gesture::Up(p) => self.pointed(b" Up", p),
            Gesture::SwipeLeft => self.word(b" SwipeLeft"),
            Gesture::SwipeRight => self.word(b" SwipeRight"),
            Gesture::SwipeUp => self.word(b" SwipeUp"),
            Gesture::SwipeDown => self.word(b" SwipeDown"),
            Gesture::Cancel => self.word(b" Cancel"),
            Gesture::MultiSwipeDown(n) => self.numbered(b" MultiSwipeDown", n),
            Gesture::KeyDown(k) => self.numbered(b" KeyDown", k),
            Gesture::KeyUp(k) => self.numbered(b" KeyUp", k),
            Gesture::Move(p, q) => {
                self.pointed(b" Move", p);
                self.point(q);
            }
            Gesture::Pinch(a, s, t) => {
                self.word(b" Pinch");
                self.axis(a);
                self.space(s.into());
                self.space(t.into());
            }
            Gesture::PinchEnd(released) => self.numbered(b" PinchEnd", released.into()),
        }
    }
}

impl Told for Text<'_> {
    fn gave(&mut self, i: u64, g: Gesture) {
        self.number(i);
        self.gesture(g);
        self.word(b"\n");
    }

    fn refused(&mut self, i: u64) {
        self.number(i);
        self.word(b" refused 2\n");
    }
}

pub fn play(bytes: &[u8], out: &mut [u8]) -> usize {
    let mut text = Text { out, at: 0 };
    match records(bytes, &mut text) {
        Ok(n) => {
            text.word(b"end ");
            text.number(n);
        }
        Err(s) => {
            text.word(b"stopped ");
            text.number(s.why.into());
            text.word(b" at ");
            text.number(s.at as u64);
        }
    }
    text.word(b"\n");
    text.at
}

//! The calls of the recorded answers: every kind, and histories until every gesture, every note of the log and
//! every refusal of document 01 has come; then fits that fail each way, and the chosen ones.
use crate::answers::Side;
use crate::chosen;
use crate::compare::PLAIN;
use crate::inputs::{any_load, by_old_tenths, bytes_of, crowded, plain, Call, Dice, Hand};

const OF_EACH: usize = 120;
const HISTORIES: usize = 120;
const HISTORY: usize = 34;

/// What the answers must show: the gestures, the letters of the log with their notes, the refusals.
const SHOWN: [&str; 45] = [
    " Down ", " Tap ", " LongPress ", " Drag ", " Grab ", " Up ", " SwipeLeft |", " SwipeRight |", " SwipeUp |", " SwipeDown |", " Cancel |",
    " MultiSwipeDown 2", " MultiSwipeDown 3", " KeyDown ", " KeyUp ", " Move ", " Pinch H", " Pinch V", " PinchEnd 1", " PinchEnd 0",
    "| D ", "| T ", "| L ", "| M 0", "| M 1", "| G ", "| U ", "| < ", "| > ", "| ^ ", "| v ", "| C ", "| W ", "| K ", "| k ", "| E ",
    "| N 200 ", "| N 255 ", "| N 250 ", "| N 1", "| c 0", "| c 1", " Ok\n", " Scale\n", " Shift\n",
];

pub fn calls(seed: u64) -> Vec<u8> {
    let mut d = Dice(seed);
    loop {
        let mut calls: Vec<Call> = Vec::new();
        let mut side = Side::new();
        let mut make = |c: Call, side: &mut Side| {
            side.make(&bytes_of(std::slice::from_ref(&c)));
            calls.push(c);
        };
        for _ in 0..OF_EACH {
            for kind in PLAIN {
                let c = plain(&mut d, kind);
                let old = by_old_tenths(&c);
                make(c, &mut side);
                old.into_iter().for_each(|c| make(c, &mut side));
            }
        }
        for _ in 0..HISTORIES {
            make(vec![30], &mut side);
            let mut hand = Hand::new(&mut d);
            for k in 1..HISTORY {
                let c = if k % 17 == 16 { any_load(&mut d, &side.fields()) } else { hand.call(&mut d) };
                make(c, &mut side);
            }
        }
        let text = String::from_utf8(side.ended()).unwrap();
        let refusals = (1..=7).all(|r| text.lines().any(|l| l.split(' ').nth(1) == Some(&r.to_string())));
        if refusals && SHOWN.iter().all(|w| text.contains(w)) && text.contains(" Resid\n") {
            for _ in 0..OF_EACH {
                let c = crowded(&mut d);
                let old = by_old_tenths(&c);
                calls.extend(std::iter::once(c).chain(old));
            }
            calls.extend(chosen::histories());
            return bytes_of(&calls);
        }
    }
}

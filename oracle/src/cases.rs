//! The worked cases of the program `cases`, made on the Rust: each line of its output, as far as the Rust has the call.
//! A line is `CALL -> ANSWER`. Most calls say all their numbers; those of the tracker say their time alone, so they stand
//! here once more, from the document.
use crate::answers::Side;
use crate::chosen;
use crate::inputs::{bytes_of, Call};
use crate::numbers::folded;

/// The tracker's calls, in the order of the lines. 30 is a fresh tracker, and has no line.
const TRACKER: &str = "
30; 31 0 0 1 100 50; 31 10 0 1 115 50; 31 20 0 1 116 50; 31 30 0 2 116 50 116 50 176 50; 32 1000; 31 1010;
    31 1309 0 1 100 50; 31 1310; 31 1310 0 1 100 50; 31 1400;
30; 31 0 0 1 100 50; 31 10 0 1 160 50; 31 800;
30; 31 0 0 1 100 50; 31 10 0 1 160 50; 31 801;
30; 31 0 0 1 100 50; 31 10 0 1 112 62; 32 700;
30; 31 0 0 1 100 50; 33; 32 700; 31 800;
30; 35 1; 33; 31 0 0 1 100 50; 33; 31 10 0 1 120 50;
    31 20; 31 30 0 1 100 50; 35 1; 33; 31 40 0 1 101 50;
30; 31 0 0 1 100 50; 31 10 1 2 100 50 100 50 200 50; 31 20 1 0;
30; 31 0 0 1 480 0; 31 10 1 1 0 320; 32 20";

/// Words of a line that has all its numbers; None for a call of the tracker.
fn written(label: &str) -> Option<Call> {
    let words: Vec<&str> = label.split([' ', ',']).filter(|w| !w.is_empty()).collect();
    let numbers: Vec<i64> = words.iter().filter_map(|w| w.parse().ok()).collect();
    let plain = |kind: u64| std::iter::once(kind).chain(numbers.iter().map(|&v| v as u64)).collect();
    let signed = |v: &[i64]| v.iter().map(|&v| folded(v)).collect::<Vec<_>>();
    Some(match words[0] {
        "dist" => plain(1),
        "dist2" => plain(2),
        "centroid" => plain(3),
        "lock_axis" => [vec![4], signed(&numbers)].concat(),
        "check" => [vec![15], signed(&[0, 0, numbers[0], 0, 0, 0]), vec![1, 0, 0]].concat(),
        "dist10" => [vec![13], signed(&[numbers[0], numbers[1], 0, 0])].concat(),
        "fit" => {
            let corners = |by: i64| signed(&[by, 0, 100 + by, 0, by, 100, 100 + by, 100]);
            let fit = |raw: Vec<u64>, onto: Vec<u64>| {
                let n = raw.len() as u64 / 2;
                [vec![19, n], raw, vec![n], onto, vec![1, 240, 160]].concat()
            };
            match numbers[..] {
                [by] => fit(corners(0), corners(by)),
                // two of them, opposite ones
                [x, y] => fit(corners(0), signed(&[x, y, 100, 0, 0, 100, 100 + x, 100 + y])),
                // taps onto as many
                _ => {
                    let (raw, onto) = numbers.split_at(numbers.len() / 2);
                    fit(signed(raw), signed(onto))
                }
            }
        }
        _ => return None,
    })
}

/// What the Rust answers to a call, in the words of `cases`.
fn answered(side: &mut Side, c: &Call) -> String {
    let from = side.out.len();
    side.make(&bytes_of(std::slice::from_ref(c)));
    let line = String::from_utf8_lossy(&side.out[from..]).trim_end().to_string();
    let (_, rest) = line.split_once(' ').unwrap();
    let (refusal, values) = rest.split_once(' ').unwrap_or((rest, ""));
    if refusal != "0" {
        // of a tracker's call there is more on the line; STEEP alone carries a value
        return if refusal == "17" { format!("refused {rest}") } else { format!("refused {refusal}") };
    }
    let gesture = values.split(" | ").next().unwrap();
    match gesture.strip_suffix("Ok") {
        Some(before) => format!("{before}Pass"),
        None => gesture.to_string(),
    }
}

/// The lines of `cases` as the Rust has them. A title stays as it is, and so do the lines of the trace's writer.
pub fn lines(text: &str) -> String {
    let mut side = Side::new();
    let mut calls = chosen::calls(TRACKER).into_iter().peekable();
    let mut out = String::new();
    for line in text.lines() {
        let label = line.split(" -> ").next().unwrap();
        let told = if line == label || label.starts_with("put_") {
            line.to_string()
        } else if let Some(c) = written(label) {
            format!("{label} -> {}", answered(&mut side, &c))
        } else {
            while calls.next_if(|c| c[0] == 30).is_some() {
                side.make(&[30]);
            }
            let c = calls.next().expect("as many calls of the tracker as lines");
            format!("{label} -> {}", answered(&mut side, &c))
        };
        out += &told;
        out.push('\n');
    }
    assert!(calls.next().is_none(), "as many lines as calls of the tracker");
    out
}

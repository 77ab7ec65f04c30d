//! The chosen calls of the recorded answers (chosen.txt): for each limit the calls on both sides of it. A line is a
//! history on a fresh tracker with nothing pending, its calls apart by semicolons; what follows # says what it tells.
//! A call is the probe's numbers, kind first. A number with a sign is a signed one; one that begins with 0x is a float's
//! pattern; V*N is V so many times; what a report or a centroid leaves out at its end is zero. `alter K V ..` loads the
//! image of the tracker as it stands with the bytes at K altered to V. A call that is told in tenths is made by the old
//! tenths too.
use crate::answers::Side;
use crate::image;
use crate::inputs::{by_old_tenths, bytes_of, load, Call};
use crate::numbers::{folded, unfolded};

const TEXT: &str = include_str!("chosen.txt");
/// The numbers of a centroid and of a report.
const CENTROID: usize = 12;
const REPORT: usize = 16;

fn number(word: &str) -> u64 {
    if let Some(hex) = word.strip_prefix("0x") {
        u64::from_str_radix(hex, 16).expect("a pattern")
    } else if word.starts_with(['+', '-']) {
        folded(word.parse().expect("a signed number"))
    } else {
        word.parse().expect("a number")
    }
}

/// A number, or one that comes several times.
fn numbers(word: &str) -> Vec<u64> {
    let (word, n) = word.split_once('*').map_or((word, 1), |(w, n)| (w, n.parse().expect("how often")));
    vec![number(word); n]
}

fn call(text: &str) -> Call {
    let mut c: Call = text.split_whitespace().flat_map(numbers).collect();
    match c.first() {
        Some(3) => c.resize(CENTROID, 0),
        Some(31) => c.resize(REPORT, 0),
        _ => {}
    }
    c
}

/// Calls, apart by semicolons.
pub fn calls(text: &str) -> Vec<Call> {
    text.split(';').map(call).filter(|c| !c.is_empty()).collect()
}

/// The image of the tracker at hand, with bytes altered: a place and a value, and so on.
fn altered(side: &Side, text: &str) -> Call {
    let mut bytes = image::of(&side.fields());
    let numbers: Vec<usize> = text.split_whitespace().map(|w| w.parse().expect("a place or a value")).collect();
    numbers.chunks(2).for_each(|at| bytes[at[0]] = at[1] as u8);
    load(&bytes)
}

/// The calls of the file, in its order. Each history begins with a fresh tracker and with nothing pending.
pub fn histories() -> Vec<Call> {
    let mut all = Vec::new();
    let mut side = Side::new();
    for line in TEXT.lines().map(|l| l.split('#').next().unwrap().trim()).filter(|l| !l.is_empty()) {
        let mut made = vec![vec![30], vec![21]];
        made.iter().for_each(|c| side.make(&bytes_of(std::slice::from_ref(c))));
        for part in line.split(';').map(str::trim).filter(|p| !p.is_empty()) {
            let c = part.strip_prefix("alter ").map_or_else(|| call(part), |p| altered(&side, p));
            for c in by_old_tenths(&c).into_iter().chain([c]) {
                side.make(&bytes_of(std::slice::from_ref(&c)));
                made.push(c);
            }
        }
        all.extend(made);
    }
    all
}

/// Which numbers of a call are signed (s), and which are patterns (f): a letter for each behind the kind, the last for
/// all that are left.
fn forms(kind: u64) -> &'static str {
    match kind {
        4 => "ss",
        10 | 13 | 43 => "ssssssss",
        11 | 15 => "ssssssu",
        17 => "ssssss",
        14 | 44 => "sssssst",
        16 => "f",
        18 | 20 => "f",
        19 | 49 => "t",
        _ => "u",
    }
}

/// A call as chosen.txt has it. The lists of resid and fit are written as signed numbers behind their counts; the check
/// points of fit are not signed.
pub fn text_of(c: &Call) -> String {
    let form = forms(c[0]).as_bytes();
    let mut words = vec![c[0].to_string()];
    let signed = |v: u64| format!("{:+}", unfolded(v));
    let mut k = 1;
    while k < c.len() {
        match form[(k - 1).min(form.len() - 1)] {
            b's' => words.push(signed(c[k])),
            b'f' => words.push(format!("0x{:08x}", c[k])),
            b't' => {
                // two lists of taps
                for _ in 0..2 {
                    let n = c[k] as usize;
                    words.push(n.to_string());
                    words.extend(c[k + 1..k + 1 + 2 * n].iter().map(|&v| signed(v)));
                    k += 1 + 2 * n;
                }
                words.extend(c[k..].iter().map(u64::to_string));
                break;
            }
            _ => words.push(c[k].to_string()),
        }
        k += 1;
    }
    if c[0] == 31 {
        while words.len() > 1 && words.last().is_some_and(|w| w == "0") {
            words.pop();
        }
    }
    words.join(" ")
}

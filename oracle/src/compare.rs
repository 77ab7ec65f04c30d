//! Both sides on the same inputs, line by line; and, where they differ, the smallest input that shows it.
use crate::answers::Side;
use crate::chosen::text_of;
use crate::inputs::{any_load, by_old_tenths, bytes_of, crowded, damaged, plain, trace_of, Call, Dice, Hand};
use crate::numbers::folded;
use crate::play::played;
use std::io::Write;
use std::process::{Command, Stdio};

/// How the programs are run: words in front of each (an emulator, say), and the folder that they are in.
pub struct Programs {
    pub words: Vec<String>,
    pub folder: String,
}

impl Programs {
    pub fn run(&self, name: &str, input: &[u8]) -> Vec<u8> {
        let mut words = self.words.clone();
        words.push(format!("{}/{name}", self.folder));
        let mut child = Command::new(&words[0])
            .args(&words[1..])
            .stdin(Stdio::piped())
            .stdout(Stdio::piped())
            .spawn()
            .expect("the program runs");
        let mut stdin = child.stdin.take().unwrap();
        let input = input.to_vec();
        // a program may stop reading: that it did shows in what it wrote
        let writer = std::thread::spawn(move || drop(stdin.write_all(&input)));
        let out = child.wait_with_output().expect("the program ends");
        writer.join().unwrap();
        assert!(out.status.success(), "{name} ended with {}", out.status);
        out.stdout
    }
}

/// The calls under 30, of which each gets as many as asked for; those told in tenths are made by the old ones too.
pub const PLAIN: [u64; 16] = [1, 2, 3, 4, 10, 11, 12, 13, 14, 15, 16, 17, 18, 19, 20, 21];
/// The calls of a tracker, which come in histories.
const TRACKER: u64 = 9;
/// A run's bytes, with room for one more call under the probe's limit.
const RUN_MOST: usize = 1_000_000;

pub struct Tally {
    pub calls: u64,
    pub records: u64,
    pub runs: u64,
}

fn lines(b: &[u8]) -> u64 {
    b.iter().filter(|&&b| b == b'\n').count() as u64
}

/// Holds the two sides of some probe input against each other; a difference ends the comparison.
fn held(p: &Programs, input: &[u8], rust: &[u8], calls: Option<&[Call]>) -> u64 {
    let here = p.run("probe", input);
    if here == rust {
        return lines(rust) - 1;
    }
    match calls {
        Some(calls) => shrunk_calls(p, calls.to_vec()),
        None => shrunk_bytes("probe", input.to_vec(), &|b| (Side::new().run(b), p.run("probe", b))),
    }
}

fn differs(p: &Programs, calls: &[Call]) -> bool {
    let input = bytes_of(calls);
    p.run("probe", &input) != Side::new().run(&input)
}

/// What is left when all is taken away that the difference does not need: half of it at a time, then less.
fn needed<T: Clone>(mut items: Vec<T>, differs: &dyn Fn(&[T]) -> bool) -> Vec<T> {
    let mut chunk = items.len();
    while chunk > 0 {
        let mut k = items.len();
        while k > 0 {
            let from = k.saturating_sub(chunk);
            let mut fewer = items.clone();
            fewer.drain(from..k);
            if differs(&fewer) {
                items = fewer;
            }
            k = from;
        }
        chunk /= 2;
    }
    items
}

/// The calls up to the first line that differs and, where that is enough, from the last fresh tracker on.
fn narrowed(p: &Programs, mut calls: Vec<Call>) -> Vec<Call> {
    let input = bytes_of(&calls);
    let (rust, here) = (Side::new().run(&input), p.run("probe", &input));
    let both = rust.split(|&b| b == b'\n').zip(here.split(|&b| b == b'\n'));
    calls.truncate(both.take_while(|(a, b)| a == b).count() + 1);
    let fresh = calls.iter().rposition(|c| c[0] == 30).unwrap_or(0);
    for from in [calls.len() - 1, fresh] {
        if differs(p, &calls[from..]) {
            return calls[from..].to_vec();
        }
    }
    calls
}

/// The calls that a difference needs, with numbers as small as it lets them be.
fn shrunk_calls(p: &Programs, calls: Vec<Call>) -> ! {
    let mut calls = needed(narrowed(p, calls), &|c| differs(p, c));
    for i in 0..calls.len() {
        for j in 1..calls[i].len() {
            for v in [0, calls[i][j] / 2, calls[i][j].saturating_sub(1)] {
                let mut less = calls.clone();
                less[i][j] = v;
                if v < calls[i][j] && differs(p, &less) {
                    calls = less;
                }
            }
        }
    }
    let input = bytes_of(&calls);
    println!("smallest calls: {}", calls.iter().map(text_of).collect::<Vec<_>>().join("; "));
    told("probe", &input, &Side::new().run(&input), &p.run("probe", &input))
}

/// The bytes that a difference needs.
fn shrunk_bytes(name: &str, bytes: Vec<u8>, both: &dyn Fn(&[u8]) -> (Vec<u8>, Vec<u8>)) -> ! {
    let bytes = needed(bytes, &|b| {
        let (rust, here) = both(b);
        rust != here
    });
    let (a, b) = both(&bytes);
    told(name, &bytes, &a, &b)
}

fn told(name: &str, input: &[u8], rust: &[u8], here: &[u8]) -> ! {
    let hex: Vec<String> = input.iter().map(|b| format!("{b:02X}")).collect();
    println!("{name} differs, smallest input in hex: {}", hex.join(" "));
    println!("the Rust:\n{}here:\n{}", String::from_utf8_lossy(rust), String::from_utf8_lossy(here));
    std::process::exit(1);
}

/// A history of a tracker, call by call: a fresh tracker, then what a hand does, and now and then a load.
fn history(d: &mut Dice, side: &mut Side, calls: &mut Vec<Call>, n: u64) {
    let mut hand = Hand::new(d);
    let make = |c: Call, side: &mut Side, calls: &mut Vec<Call>| {
        side.make(&bytes_of(std::slice::from_ref(&c)));
        calls.push(c);
    };
    make(vec![30], side, calls);
    for _ in 1..n {
        let c = if d.one_in(30) { any_load(d, &side.fields()) } else { hand.call(d) };
        make(c, side, calls);
    }
}

/// A run's worth of calls, no more of a kind than are left to make.
fn batch(d: &mut Dice, left: &mut [u64], tracker: &mut u64) -> (Vec<Call>, Side) {
    let (mut calls, mut side, mut size, mut measured) = (Vec::new(), Side::new(), 0, 0);
    while size < RUN_MOST && (*tracker > 0 || left.iter().any(|&n| n > 0)) {
        let k = d.under(PLAIN.len() as u64 + TRACKER) as usize;
        if k < PLAIN.len() {
            if left[k] > 0 {
                left[k] -= 1;
                let c = if PLAIN[k] == 19 && d.one_in(2) { crowded(d) } else { plain(d, PLAIN[k]) };
                for c in by_old_tenths(&c).into_iter().chain([c]) {
                    side.make(&bytes_of(std::slice::from_ref(&c)));
                    calls.push(c);
                }
            }
        } else if *tracker > 0 {
            let n = (1 + d.under(17)).min(*tracker);
            // one in eight goes on for long
            let n = if d.one_in(8) { (n * 20).min(*tracker) } else { n };
            history(d, &mut side, &mut calls, n);
            *tracker -= n;
        }
        size += calls[measured..].iter().map(|c| bytes_of(std::slice::from_ref(c)).len()).sum::<usize>();
        measured = calls.len();
    }
    (calls, side)
}

/// So many calls of a hand.
fn any_calls(d: &mut Dice, n: u64) -> Vec<Call> {
    let mut hand = Hand::new(d);
    (0..n).map(|_| hand.call(d)).collect()
}

/// A difference in a trace of whole records, shrunk by records: up to the first that differs, then those it needs.
fn shrunk_trace(p: &Programs, calls: &[Call]) -> ! {
    let differs = |c: &[Call]| {
        let trace = trace_of(c);
        played(&trace) != p.run("play", &trace)
    };
    let (mut same, mut other) = (0, calls.len());
    while other - same > 1 {
        let middle = (same + other) / 2;
        if differs(&calls[..middle]) { other = middle } else { same = middle }
    }
    let trace = trace_of(&needed(calls[..other].to_vec(), &differs));
    told("play", &trace, &played(&trace), &p.run("play", &trace))
}

fn trace_held(p: &Programs, calls: &[Call], t: &mut Tally) {
    let trace = trace_of(calls);
    if p.run("play", &trace) != played(&trace) {
        shrunk_trace(p, calls);
    }
    play_held(p, &trace, t);
}

fn play_held(p: &Programs, trace: &[u8], t: &mut Tally) {
    let rust = played(trace);
    let here = p.run("play", trace);
    if here != rust {
        shrunk_bytes("play", trace.to_vec(), &|b| (played(b), p.run("play", b)));
    }
    t.runs += 1;
    // the records that were read: the count of the last line, or as many as have a line
    let last = rust.trim_ascii_end().rsplit(|&b| b == b'\n').next().unwrap();
    let count = String::from_utf8_lossy(last).strip_prefix("end ").and_then(|n| n.parse().ok());
    t.records += count.unwrap_or(lines(&rust));
}

/// N inputs of each kind, from one seed.
pub fn compared(p: &Programs, n: u64, seed: u64) -> Tally {
    let mut d = Dice(seed);
    let mut t = Tally { calls: 0, records: 0, runs: 0 };
    let mut left = [n; PLAIN.len()];
    let mut tracker = TRACKER * n;
    while tracker > 0 || left.iter().any(|&n| n > 0) {
        let (calls, side) = batch(&mut d, &mut left, &mut tracker);
        let input = bytes_of(&calls);
        t.calls += held(p, &input, &side.ended(), Some(&calls));
        t.runs += 1;
        // copies with something wrong, of a part: what comes before the damage was compared above
        for _ in 0..4 {
            let from = d.under(calls.len() as u64) as usize;
            let some: Vec<Call> = calls[from..].iter().take(40).cloned().collect();
            let bad = damaged(&mut d, &bytes_of(&some));
            t.calls += held(p, &bad, &Side::new().run(&bad), None);
            t.runs += 1;
        }
    }
    for k in 0..n / 2_000 + 20 {
        let size = if k % 10 == 0 { 4_000 } else { 1 + d.under(400) };
        let calls = any_calls(&mut d, size);
        trace_held(p, &calls, &mut t);
        let trace = trace_of(&calls[..calls.len().min(30)]);
        let bad = damaged(&mut d, &trace);
        play_held(p, &bad, &mut t);
    }
    t
}

/// Short inputs, all of them: traces of at most one byte behind the version, runs of one byte, the roots, the axes,
/// distances by both tenths, the fits of three taps, and the key masks.
pub fn exhausted(p: &Programs) -> Tally {
    let mut t = Tally { calls: 0, records: 0, runs: 0 };
    play_held(p, &[], &mut t);
    for b in 0..=255 {
        play_held(p, &[b], &mut t);
        play_held(p, &[1, b], &mut t);
        t.calls += held(p, &[b], &Side::new().run(&[b]), None);
        t.runs += 1;
    }
    for n in [65_535, 65_536, 65_537, 70_000] {
        let mut trace = vec![1];
        trace.resize(n, 3);
        play_held(p, &trace, &mut t);
    }
    let mut calls: Vec<Call> = (0..20_000).map(|v| vec![12, v]).collect();
    calls.extend((0..97 * 97).map(|k| vec![4, k / 97, k % 97]));
    // short ones, and those around the limit of a fit
    for (x, y) in (0..97 * 97).map(|k| (k / 97, k % 97)).chain((0..10 * 100).map(|k| (2 * (395 + k / 100), 2 * (k % 100)))) {
        calls.extend([13, 43].map(|kind| vec![kind, x, y, 0, 0]));
    }
    // three taps of which each is one of nine, onto targets by which each coefficient in turn is beyond its steps
    for k in 0..9 * 9 * 9 {
        let at = [k % 9, k / 9 % 9, k / 81].map(|i| [i % 3, i / 3]);
        let raw = at.iter().flatten().map(|&v| folded(v));
        let far = |v: i64| (30_518 * v - 30_000).min(32_767);
        let onto: [&dyn Fn([i64; 2]) -> [i64; 2]; 7] = [
            &|p| p,
            &|[x, y]| [far(x), y],
            &|[_, y]| [far(y), y],
            &|_| [30_518, 0],
            &|[x, _]| [x, far(x)],
            &|[x, y]| [x, far(y)],
            &|[x, _]| [x, 30_518],
        ];
        for f in onto {
            let tgt = at.iter().flat_map(|&p| f(p)).map(folded);
            calls.push([19, 3].into_iter().chain(raw.clone()).chain([3]).chain(tgt).chain([1, 240, 160]).collect());
        }
    }
    let input = bytes_of(&calls);
    t.calls += held(p, &input, &Side::new().run(&input), Some(&calls));
    // every told mask against every wanted one, and the tick after it
    for told in 0..=255u64 {
        let mut calls = Vec::new();
        for wanted in 0..=255u64 {
            let f = crate::gesture::Fields { keys: told as u8, keys_want: told as u8, ..Default::default() };
            let b = crate::image::of(&f);
            let mut load = vec![38, b.len() as u64];
            load.extend(b.iter().map(|&b| u64::from(b)));
            let mut report = vec![31, 0, wanted, 0];
            report.resize(16, 0);
            calls.extend([load, report, vec![32, 1]]);
        }
        let input = bytes_of(&calls);
        t.calls += held(p, &input, &Side::new().run(&input), Some(&calls));
        t.runs += 1;
    }
    t
}

//! The Rust side of the comparison. It answers the probe's calls and plays traces by the published sources, and
//! holds the proved programs against them.
//!
//!     oracle answers < CALLS          what the Rust answers, in the probe's lines
//!     oracle play < TRACE             what the Rust plays
//!     oracle record SEED              calls for the recorded answers
//!     oracle compare N SEED FOLDER [WORDS..]   N inputs of each kind through both sides
//!     oracle orders N SEED            all pairs of request [10] on up to N trackers of the Rust, in either order
mod answers;
mod chosen;
mod compare;
mod gesture;
mod image;
mod inputs;
mod numbers;
mod orders;
mod play;
mod record;
mod tenths;
mod touch;
mod touchcal;
mod trace;

use compare::{Programs, Tally};
use std::io::{Read, Write};
use std::process::{Command, Stdio};

fn input() -> Vec<u8> {
    let mut b = Vec::new();
    std::io::stdin().read_to_end(&mut b).unwrap();
    b
}

fn output(b: &[u8]) {
    std::io::stdout().write_all(b).unwrap();
}

/// One process to a processor, since the Rust keeps its settings in statics; each from a seed of its own.
fn compare(n: u64, seed: u64, rest: &[String]) {
    let workers = std::thread::available_parallelism().map_or(1, |n| n.get() as u64).min(n.max(1));
    let me = std::env::current_exe().unwrap();
    let children: Vec<_> = (0..workers)
        .map(|w| {
            let share = n / workers + u64::from(w < n % workers);
            Command::new(&me)
                .arg(if w == 0 { "first" } else { "work" })
                .args([share.to_string(), (seed ^ (w << 32)).to_string()])
                .args(rest)
                .stdout(Stdio::piped())
                .spawn()
                .unwrap()
        })
        .collect();
    let (mut calls, mut records, mut runs, mut failed) = (0, 0, 0, false);
    for c in children {
        let out = c.wait_with_output().unwrap();
        let text = String::from_utf8_lossy(&out.stdout);
        if !out.status.success() {
            print!("{text}");
            failed = true;
            continue;
        }
        let v: Vec<u64> = text.split_whitespace().map(|w| w.parse().unwrap()).collect();
        calls += v[0];
        records += v[1];
        runs += v[2];
    }
    if failed {
        std::process::exit(1);
    }
    println!("{calls} calls of the probe and {records} records of traces in {runs} runs");
    println!("{} calls, 0 differ", calls + records);
}

fn main() {
    answers::hush();
    let a: Vec<String> = std::env::args().collect();
    let words: Vec<&str> = a.iter().map(String::as_str).collect();
    match words[1..] {
        ["answers"] => output(&answers::Side::new().run(&input())),
        ["play"] => output(&play::played(&input())),
        ["record", seed] => output(&record::calls(seed.parse().unwrap())),
        ["compare", n, seed, ..] => compare(n.parse().unwrap(), seed.parse().unwrap(), &a[4..]),
        ["orders", n, seed] => orders::checked(n.parse().unwrap(), seed.parse().unwrap()),
        [first @ ("first" | "work"), n, seed, folder, ..] => {
            let p = Programs { words: a[5..].to_vec(), folder: folder.into() };
            let mut t = compare::compared(&p, n.parse().unwrap(), seed.parse().unwrap());
            if first == "first" {
                let Tally { calls, records, runs } = compare::exhausted(&p);
                t = Tally { calls: t.calls + calls, records: t.records + records, runs: t.runs + runs };
            }
            println!("{} {} {}", t.calls, t.records, t.runs);
        }
        _ => {
            eprintln!("usage: oracle answers | play | record SEED | compare N SEED FOLDER [WORDS..] | orders N SEED");
            std::process::exit(2);
        }
    }
}

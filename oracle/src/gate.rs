//! What the gate holds to the Rust's answers, held to this Rust: the recorded answers, the samples and the worked cases
//! of a repository. It says where the first difference is, with status 1. A wrong copy of the Rust that passes here would
//! pass the gate too, if definition and code were wrong in the same way (oracle/mutants).
//!
//!     gate FOLDER
mod answers;
mod cases;
mod chosen;
mod gesture;
mod image;
mod inputs;
mod numbers;
mod play;
mod tenths;
mod touch;
mod touchcal;
mod trace;

use std::fs::read;

fn told(part: &str) -> ! {
    println!("{part}");
    std::process::exit(1);
}

fn main() {
    answers::hush();
    let root = std::env::args().nth(1).expect("the repository's folder");
    let file = |name: &str| read(format!("{root}/{name}")).expect(name);
    if answers::Side::new().run(&file("crates/probe/stdin")) != file("crates/probe/stdout") {
        told("recorded answers");
    }
    let names = String::from_utf8(file("crates/samples/args")).unwrap();
    for name in names.lines() {
        if play::played(&file(&format!("crates/samples/data/{name}.trace"))) != file(&format!("crates/samples/data/{name}.txt")) {
            told(&format!("samples: {name}"));
        }
    }
    let cases = String::from_utf8(file("crates/cases/stdout")).unwrap();
    if cases::lines(&cases) != cases {
        told("worked cases");
    }
}

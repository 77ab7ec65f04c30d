//! Wrong copies of the Rust, one place each, and whether what the gate runs tells them from the original.
//!
//!     mutants FOLDER WORK list                    their names
//!     mutants FOLDER WORK named FILE              those whose names are the file's lines
//!     mutants FOLDER WORK [N [SEED]]              all, or N of them: 'N mutants: K told, E the same, M missed'
//!     mutants FOLDER WORK same CALLS PROGRAMS..   those that are listed as the same, each through so many random calls
//!     mutants FOLDER WORK seek CALLS PROGRAMS..   those that are missed, each with a smallest input that tells it
//!
//! FOLDER is the repository, WORK a folder to build in; PROGRAMS are the folder of the proved programs and the words
//! that run them, as for `oracle compare`.
mod orders;
mod sites;

use sites::Mutant;
use std::collections::{BTreeMap, BTreeSet};
use std::path::{Path, PathBuf};
use std::process::{Command, Stdio};
use std::sync::atomic::{AtomicUsize, Ordering};
use std::sync::Mutex;
use std::time::{Duration, Instant};

const PUBLISHED: &str = "docs/src/firmware/src";
const OWN: &str = "oracle/src";
/// A wrong copy may never end.
const PATIENCE: Duration = Duration::from_secs(10);

/// The texts, each with the part of it that is looked at: from one line's start to another's, to the end without.
const TEXTS: [(&str, &str, Option<&str>, Option<&str>); 11] = [
    (PUBLISHED, "gesture.rs", None, Some("    /// Test hook (DBG:SWIPE")),
    // behind the two synth hooks
    (PUBLISHED, "gesture.rs", Some("/// DBG:TOUCH? gesture line"), None),
    (PUBLISHED, "touchcal.rs", None, None),
    (PUBLISHED, "touch.rs", Some("fn screen("), Some("// -----")),
    (OWN, "numbers.rs", Some("impl Reader"), Some("/// The bytes of a number")),
    (OWN, "trace.rs", None, None),
    (OWN, "image.rs", None, None),
    // what document 01 refuses and settles beside the Rust
    (OWN, "answers.rs", Some("const LIST_MOST"), Some("thread_local!")),
    (OWN, "answers.rs", Some("            3 => {"), Some("            16 => {")),
    (OWN, "answers.rs", Some("pub fn apply16("), None),
    // the tenths of request [6], which the Rust does not have
    (OWN, "tenths.rs", None, None),
];

fn text(root: &Path, folder: &str, file: &str) -> String {
    std::fs::read_to_string(root.join(folder).join(file)).unwrap_or_else(|e| panic!("{folder}/{file}: {e}"))
}

fn all(root: &Path) -> Vec<Mutant> {
    let mut all = Vec::new();
    for (folder, file, from, to) in TEXTS {
        let t = text(root, folder, file);
        let start = |l: &str, after: usize| after + t[after..].find(&format!("\n{l}")).unwrap_or_else(|| panic!("{file} has no line {l}"));
        let from = from.map_or(1, |l| start(l, 0));
        let to = to.map_or(t.len(), |l| start(l, from));
        all.extend(sites::of(file, &t, from..to));
    }
    all.extend(orders::all(&|folder, file| text(root, folder, file)));
    all
}

fn folder_of(m: &Mutant) -> &'static str {
    TEXTS.iter().find(|t| t.1 == m.file).map_or(OWN, |t| t.0)
}

/// A place to build in.
struct Bench<'a> {
    root: &'a Path,
    here: PathBuf,
}

impl<'a> Bench<'a> {
    fn new(root: &'a Path, work: &Path, k: usize) -> Bench<'a> {
        let here = work.join(k.to_string());
        let _ = std::fs::remove_dir_all(&here);
        std::fs::create_dir_all(here.join("published")).unwrap();
        for file in ["gesture.rs", "touchcal.rs", "touch.rs"] {
            std::fs::copy(root.join(PUBLISHED).join(file), here.join("published").join(file)).unwrap();
        }
        Bench { root, here }
    }

    /// Builds a program of the Rust side with one thing wrong. Whether it compiles.
    fn build(&self, m: &Mutant, main: &str, words: &[&str]) -> bool {
        let t = text(self.root, folder_of(m), m.file);
        let wrong = format!("{}{}{}", &t[..m.from], m.new, &t[m.to..]);
        let published = self.here.join("published").join(m.file);
        let own = folder_of(m) == OWN;
        if !own {
            std::fs::write(&published, &wrong).unwrap();
        }
        let sources = self.here.join("src");
        let ok = Command::new(self.root.join("oracle/sources")).arg(&sources).arg(self.here.join("published")).status().unwrap();
        assert!(ok.success());
        if own {
            std::fs::write(sources.join(m.file), &wrong).unwrap();
        } else {
            std::fs::write(&published, &t).unwrap();
        }
        Command::new("rustc")
            .args(["--edition", "2021", "-C", "overflow-checks=on", "-A", "warnings", "-o"])
            .arg(self.here.join("program"))
            .args(words)
            .arg(sources.join(main))
            .stderr(Stdio::null())
            .status()
            .unwrap()
            .success()
    }

    /// What told the wrong copy from the original: a part of the gate, or that it ended otherwise or not at all.
    fn told(&self) -> Option<String> {
        let mut child = Command::new(self.here.join("program"))
            .arg(self.root)
            .stdout(Stdio::piped())
            .stderr(Stdio::null())
            .spawn()
            .unwrap();
        let began = Instant::now();
        while child.try_wait().unwrap().is_none() {
            if began.elapsed() > PATIENCE {
                child.kill().unwrap();
                child.wait().unwrap();
                return Some("it does not end".into());
            }
            std::thread::sleep(Duration::from_millis(4));
        }
        let out = child.wait_with_output().unwrap();
        match out.status.code() {
            Some(0) => None,
            Some(1) => Some(String::from_utf8_lossy(&out.stdout).trim().to_string()),
            _ => Some("it panics".into()),
        }
    }

    /// The mutant's own comparison with the proved programs: what it says in the end, and whether nothing differs.
    fn compared(&self, calls: u64, programs: &[String]) -> (bool, String) {
        // 16 kinds of plain calls, and nine times as many of the tracker
        let out = Command::new(self.here.join("program"))
            .args(["compare", &calls.div_ceil(25).to_string(), "1"])
            .args(programs)
            .stderr(Stdio::null())
            .output()
            .unwrap();
        let said = String::from_utf8_lossy(&out.stdout).to_string();
        let same = out.status.success() && said.trim_end().ends_with(", 0 differ");
        (same, said)
    }
}

/// Numbers that come again from a seed, to pick some of the mutants.
fn picked(all: Vec<Mutant>, n: usize, mut seed: u64) -> Vec<Mutant> {
    let mut left: Vec<Mutant> = all;
    let mut some = Vec::new();
    while some.len() < n && !left.is_empty() {
        seed = seed.wrapping_mul(6_364_136_223_846_793_005).wrapping_add(1_442_695_040_888_963_407);
        some.push(left.swap_remove((seed >> 33) as usize % left.len()));
    }
    some
}

/// One worker to a processor.
fn each<T: Send>(root: &Path, work: &Path, some: &[Mutant], f: &(dyn Fn(&Bench, &Mutant) -> T + Sync)) -> Vec<(Mutant, T)> {
    let next = AtomicUsize::new(0);
    let found = Mutex::new(Vec::new());
    let workers = std::thread::available_parallelism().map_or(1, |n| n.get());
    std::thread::scope(|scope| {
        for k in 0..workers {
            let (next, found) = (&next, &found);
            scope.spawn(move || {
                let bench = Bench::new(root, work, k);
                loop {
                    let i = next.fetch_add(1, Ordering::Relaxed);
                    let Some(m) = some.get(i) else { return };
                    let r = f(&bench, m);
                    if (i + 1) % 50 == 0 {
                        eprintln!("{} of {}", i + 1, some.len());
                    }
                    found.lock().unwrap().push((i, m.clone(), r));
                }
            });
        }
    });
    let mut found = found.into_inner().unwrap();
    found.sort_by_key(|(i, _, _)| *i);
    found.into_iter().map(|(_, m, r)| (m, r)).collect()
}

/// The list of those that no input tells apart: a name, a bar, the reason.
fn listed(root: &Path) -> BTreeMap<String, String> {
    let lines = text(root, "oracle", "same.txt");
    let lines = lines.lines().filter(|l| !l.is_empty() && !l.starts_with('#'));
    lines.map(|l| l.split_once(" | ").unwrap_or_else(|| panic!("same.txt: no reason: {l}"))).map(|(a, b)| (a.to_string(), b.to_string())).collect()
}

enum Verdict {
    NoProgram,
    Told(String),
    Untold,
}

fn judged(bench: &Bench, m: &Mutant) -> Verdict {
    if !bench.build(m, "gate.rs", &["-C", "opt-level=0"]) {
        return Verdict::NoProgram;
    }
    bench.told().map_or(Verdict::Untold, Verdict::Told)
}

fn judge(root: &Path, work: &Path, some: &[Mutant]) -> Vec<Mutant> {
    let same = listed(root);
    let (mut told, mut alike, mut missed, mut by) = (0, 0, Vec::new(), BTreeMap::new());
    let mut wrong = 0;
    for (m, v) in each(root, work, some, &judged) {
        match v {
            Verdict::NoProgram => {}
            Verdict::Told(part) => {
                if same.contains_key(&m.name()) {
                    println!("listed as the same, and told by {part}: {}", m.name());
                    wrong += 1;
                }
                // a sample says its name behind a colon
                *by.entry(part.split(':').next().unwrap().to_string()).or_insert(0) += 1;
                told += 1;
            }
            Verdict::Untold if same.contains_key(&m.name()) => alike += 1,
            Verdict::Untold => {
                println!("missed: {}", m.name());
                missed.push(m);
            }
        }
    }
    for (part, n) in by {
        println!("told by {part}: {n}");
    }
    println!("{} mutants: {told} told, {alike} the same, {} missed", told + alike + missed.len(), missed.len());
    if wrong > 0 || !missed.is_empty() {
        EXIT.store(1, Ordering::Relaxed);
    }
    missed
}

static EXIT: AtomicUsize = AtomicUsize::new(0);

fn main() {
    let a: Vec<String> = std::env::args().collect();
    let root = std::fs::canonicalize(&a[1]).unwrap();
    let work = PathBuf::from(&a[2]);
    let all = all(&root);
    let names: BTreeSet<String> = all.iter().map(Mutant::name).collect();
    for name in listed(&root).keys() {
        if !names.contains(name) {
            println!("same.txt: there is no such mutant: {name}");
            EXIT.store(1, Ordering::Relaxed);
        }
    }
    let words: Vec<&str> = a[3..].iter().map(String::as_str).collect();
    match words[..] {
        [how @ ("same" | "seek"), calls, ..] => {
            let calls: u64 = calls.parse().unwrap();
            let programs = a[5..].to_vec();
            let same = listed(&root);
            let some = if how == "same" {
                all.into_iter().filter(|m| same.contains_key(&m.name())).collect()
            } else {
                judge(&root, &work, &all)
            };
            let through = |b: &Bench, m: &Mutant| {
                if b.build(m, "main.rs", &["-O"]) { b.compared(calls, &programs) } else { (false, "does not compile".into()) }
            };
            let (mut alike, mut apart) = (0, 0);
            for (m, (same, said)) in each(&root, &work, &some, &through) {
                if same {
                    alike += 1;
                    println!("no difference: {}: {}", m.name(), said.trim_end().lines().last().unwrap());
                } else {
                    apart += 1;
                    println!("told: {}\n{said}", m.name());
                }
            }
            println!("{} mutants through {calls} random calls each: {alike} the same, {apart} told", alike + apart);
            if how == "same" && apart > 0 {
                EXIT.store(1, Ordering::Relaxed);
            }
        }
        ["list"] => names.iter().for_each(|n| println!("{n}")),
        ["named", file] => {
            let named = std::fs::read_to_string(file).unwrap();
            let named: BTreeSet<&str> = named.lines().map(|l| l.split(" | ").next().unwrap()).collect();
            drop(judge(&root, &work, &all.into_iter().filter(|m| named.contains(m.name().as_str())).collect::<Vec<_>>()))
        }
        [] => drop(judge(&root, &work, &all)),
        [n] => drop(judge(&root, &work, &picked(all, n.parse().unwrap(), 1))),
        [n, seed] => drop(judge(&root, &work, &picked(all, n.parse().unwrap(), seed.parse().unwrap()))),
        _ => panic!("see the head of oracle/mutating/main.rs"),
    }
    std::process::exit(EXIT.load(Ordering::Relaxed) as i32);
}

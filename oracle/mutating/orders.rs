//! Wrong copies that no change of one sign makes: two refusals in the other order, a refusal at another place, a state
//! that is kept or lost.
use crate::sites::Mutant;

const PUBLISHED: &str = "docs/src/firmware/src";
const OWN: &str = "oracle/src";

/// What stands in fit between LONG and the Rust's answer, and each refusal that has its place behind it.
const TARGET_IN_FIT: &str = "    if !targets.iter().all(|&(x, y)| on_panel(Point { x, y })) {
        return Err(alone(TARGET));
    }
    // where";
const BEHIND_TARGET: [&str; 3] = ["FEW", "LINE", "STEEP"];

/// Folder, file, what is wrong, the text as it stands, the wrong one.
const ORDERS: [(&str, &str, &str, &str, &str); 16] = [
    (
        OWN,
        "numbers.rs",
        "BIG before FORM",
        "                if b == 0 && k > 0 {
                    return stop(FORM);
                }
                if v > u128::from(most) {
                    return stop(BIG);
                }
",
        "                if v > u128::from(most) {
                    return stop(BIG);
                }
                if b == 0 && k > 0 {
                    return stop(FORM);
                }
",
    ),
    (OWN, "numbers.rs", "CUT before BIG of ten groups", "for k in 0..10 {", "for k in 0..=self.bytes.len() {"),
    (OWN, "numbers.rs", "a refusal at the place where reading stopped", "let stop = |why| Err(Stop { why, at: first });", "let all = self.bytes.len();\n        let stop = |why| Err(Stop { why, at: if why == CUT { all } else { first } });"),
    (OWN, "trace.rs", "KIND at the place behind it", "Err(Stop { why: KIND, at: place })", "Err(Stop { why: KIND, at: r.at })"),
    (
        OWN,
        "trace.rs",
        "VERSION before FILE",
        "    if bytes.len() > TRACE_MOST {
        return Err(Stop { why: FILE, at: 0 });
    }
    let mut t = Tracker::new();
    let mut r = Reader { bytes, at: 0 };
    if r.next(u64::MAX)? != 1 {
        return Err(Stop { why: VERSION, at: 0 });
    }
",
        "    let mut t = Tracker::new();
    let mut r = Reader { bytes, at: 0 };
    if r.next(u64::MAX)? != 1 {
        return Err(Stop { why: VERSION, at: 0 });
    }
    if bytes.len() > TRACE_MOST {
        return Err(Stop { why: FILE, at: 0 });
    }
",
    ),
    (OWN, "answers.rs", "a key change before PANEL", "if report_ok(&ev) {", "if report_ok(&ev) || ev.keys != self.tracker.fields().keys {"),
    (
        OWN,
        "answers.rs",
        "TARGET before LONG in check",
        "                if targets.len() > LIST_MOST {
                    self.line(LONG, \"\");
                } else if !targets.iter().all(|&(x, y)| on_panel(Point { x, y })) {
                    self.line(TARGET, \"\");
                } else {",
        "                if !targets.iter().all(|&(x, y)| on_panel(Point { x, y })) {
                    self.line(TARGET, \"\");
                } else if targets.len() > LIST_MOST {
                    self.line(LONG, \"\");
                } else {",
    ),
    (
        OWN,
        "answers.rs",
        "TARGET before LONG in fit",
        "    if raw.len().min(tgt.len()) > LIST_MOST || targets.len() > LIST_MOST {
        return Err(alone(LONG));
    }
    if !targets.iter().all(|&(x, y)| on_panel(Point { x, y })) {
        return Err(alone(TARGET));
    }
",
        "    if !targets.iter().all(|&(x, y)| on_panel(Point { x, y })) {
        return Err(alone(TARGET));
    }
    if raw.len().min(tgt.len()) > LIST_MOST || targets.len() > LIST_MOST {
        return Err(alone(LONG));
    }
",
    ),
    // fewer than three pairs are on one line, and of taps on one line no coefficient is in reach
    (OWN, "answers.rs", "LINE before FEW in fit", "Err(Way::Few) => Some(alone(FEW)),", "Err(Way::Few) => Some(alone(LINE)),"),
    (OWN, "answers.rs", "STEEP before LINE in fit", "Err(Way::Line) => Some(alone(LINE)),", "Err(Way::Line) => Some((STEEP, 0.to_string())),"),
    (OWN, "answers.rs", "the last coefficient beyond q16 is told", "steps.iter().position(", "steps.iter().rposition("),
    (
        PUBLISHED,
        "touchcal.rs",
        "d comes before c in fit",
        "q16(b)?, q16(c)?, q16(d)?, q16(e - 1.0)?",
        "q16(b)?, q16(d)?, q16(c)?, q16(e - 1.0)?",
    ),
    (
        OWN,
        "answers.rs",
        "WIDE before LONG in resid",
        "if raw.len().min(tgt.len()) > LIST_MOST {
                    self.line(LONG, \"\");
                } else {",
        "if raw.len().min(tgt.len()) > LIST_MOST && tried(|| touchcal::resid(&c, &raw, &tgt)).is_some() {
                    self.line(LONG, \"\");
                } else {",
    ),
    (PUBLISHED, "touchcal.rs", "a refused scpi_put keeps what was pending", "    unsafe { *core::ptr::addr_of_mut!(PENDING) =", "    if c.is_some() { unsafe { *core::ptr::addr_of_mut!(PENDING) ="),
    (OWN, "answers.rs", "a list of targets over 64 is taken in fit", " || targets.len() > LIST_MOST {", " {"),
    (OWN, "tenths.rs", "the root is cut before it is scaled", "    Some(tenths(square(dx) + square(dy)))", "    Some((crate::touchcal::isqrt_of((square(dx) + square(dy)) as u64) * 10 / 16) as u32)"),
];

pub fn all(text: &dyn Fn(&str, &str) -> String) -> Vec<Mutant> {
    let one = |&(folder, file, what, old, new): &(&str, &'static str, &str, &str, &str)| {
        let t = text(folder, file);
        assert_eq!(t.matches(old).count(), 1, "{file}: {what}");
        let from = t.find(old).unwrap();
        // the one that opens a block closes it behind its statement
        let (to, new) = if what.contains("keeps what was pending") {
            let end = from + t[from..].find("};\n").unwrap() + 2;
            (end, format!("{new}{} }}", &t[from + old.len()..end]))
        } else {
            (from + old.len(), new.to_string())
        };
        let line = 1 + t[..from].matches('\n').count();
        Mutant { file, line, column: 1, from, to, new, what: what.into() }
    };
    let before_target = BEHIND_TARGET.map(|why| {
        let early = format!("    if let Some(why) = unfit(raw, tgt).filter(|why| why.0 == {why}) {{\n        return Err(why);\n    }}\n{TARGET_IN_FIT}");
        one(&(OWN, "answers.rs", &format!("{why} before TARGET in fit"), TARGET_IN_FIT, &early))
    });
    ORDERS.iter().map(one).chain(before_target).collect()
}

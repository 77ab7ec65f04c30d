//! The places of a Rust text where one thing can be wrong, and what would stand there instead.

/// One wrong text: `new` in the place of the bytes from `from` to `to`.
#[derive(Clone, Debug)]
pub struct Mutant {
    pub file: &'static str,
    pub line: usize,
    pub column: usize,
    pub from: usize,
    pub to: usize,
    pub new: String,
    /// What is changed, in one word or two: `60 -> 61`, `>= -> >`, `left out: self.far = 0;`.
    pub what: String,
}

impl Mutant {
    /// Its name in the list of those that no input tells apart.
    pub fn name(&self) -> String {
        format!("{}:{}:{} {}", self.file, self.line, self.column, self.what)
    }
}

#[derive(Clone, Copy, PartialEq, Debug)]
enum Kind {
    Word,
    Number,
    Letter,
    Sign,
}

#[derive(Clone, Copy, Debug)]
struct Token {
    kind: Kind,
    from: usize,
    to: usize,
}

const SIGNS: [&str; 19] = [
    "..=", "<<", ">>", "<=", ">=", "==", "!=", "&&", "||", "+=", "-=", "*=", "/=", "^=", "->", "=>", "::", "..", "|=",
];

/// How many bytes from `at` on are a comment, a text, a character or an attribute: none of them is changed.
fn passed_over(s: &[u8], at: usize) -> usize {
    let until = |end: &[u8]| (at + 1..s.len()).find(|&k| s[k..].starts_with(end)).map_or(s.len(), |k| k + end.len()) - at;
    match s[at..] {
        [b'/', b'/', ..] => until(b"\n"),
        [b'#', b'[', ..] | [b'#', b'!', ..] => until(b"]"),
        [b'"', ..] => until(b"\""),
        [b'\'', b'\\', _, b'\'', ..] => 4,
        [b'\'', _, b'\'', ..] => 3,
        _ => 0,
    }
}

fn tokens(text: &str) -> Vec<Token> {
    let s = text.as_bytes();
    let (mut all, mut at) = (Vec::new(), 0);
    let word = |b: u8| b.is_ascii_alphanumeric() || b == b'_';
    while at < s.len() {
        let skip = passed_over(s, at);
        if skip > 0 {
            at += skip;
            continue;
        }
        let from = at;
        let kind = if s[at].is_ascii_digit() {
            // a number, and behind a point the digits of a fraction (but not a range, nor a call on a number)
            let hex = s[at..].starts_with(b"0x");
            let place = all.last().is_some_and(|t: &Token| &text[t.from..t.to] == ".");
            while at < s.len() && (word(s[at]) || (!place && s[at] == b'.' && s.get(at + 1).is_some_and(u8::is_ascii_digit)) || (!hex && s[at] == b'-' && s[at - 1] == b'e')) {
                at += 1;
            }
            Kind::Number
        } else if word(s[at]) {
            while at < s.len() && word(s[at]) {
                at += 1;
            }
            // b'G'
            if s.get(at) == Some(&b'\'') && at - from == 1 && s[from] == b'b' {
                at += passed_over(s, at);
                Kind::Letter
            } else {
                Kind::Word
            }
        } else if s[at].is_ascii_whitespace() {
            at += 1;
            continue;
        } else {
            at += SIGNS.iter().find(|w| text[at..].starts_with(**w)).map_or(1, |w| w.len());
            while !text.is_char_boundary(at) {
                at += 1;
            }
            Kind::Sign
        };
        all.push(Token { kind, from, to: at });
    }
    all
}

/// A float one step up and one down in its 32 bits; and one up and down in its last written digit.
fn floats(word: &str) -> Vec<String> {
    let (digits, power) = word.split_once('e').map_or((word, String::new()), |(d, p)| (d, format!("e{p}")));
    let bare = digits.trim_end_matches("f32");
    let places = bare.split_once('.').map_or(0, |(_, f)| f.len());
    let whole: i64 = bare.replace('.', "").parse().unwrap();
    let digit = |v: i64| {
        let v = format!("{:0width$}", v, width = places + 1);
        let (a, b) = v.split_at(v.len() - places);
        if places == 0 { format!("{a}.0{power}") } else { format!("{a}.{b}{power}") }
    };
    let x: f32 = word.trim_end_matches("f32").parse().unwrap();
    let step = |x: f32| format!("f32::from_bits({})", x.to_bits());
    vec![digit(whole + 1), digit(whole - 1), step(x.next_up()), step(x.next_down())]
}

/// An integer one up and one down, with the type that stood behind it.
fn integers(word: &str) -> Vec<String> {
    let plain = word.replace('_', "");
    let (value, suffix) = if let Some(hex) = plain.strip_prefix("0x") {
        (i128::from_str_radix(hex, 16).unwrap(), String::new())
    } else {
        let end = plain.find(|c: char| !c.is_ascii_digit()).unwrap_or(plain.len());
        (plain[..end].parse().unwrap(), plain[end..].to_string())
    };
    vec![format!("{}{suffix}", value + 1), format!("{}{suffix}", value - 1)]
}

fn numbers(word: &str) -> Vec<String> {
    let float = !word.starts_with("0x") && (word.contains('.') || word.contains("f32") || word.contains('e') && !word.contains("size"));
    if float { floats(word) } else { integers(word) }
}

fn instead(sign: &str) -> &'static [&'static str] {
    match sign {
        "<" => &["<=", ">"],
        "<=" => &["<", ">="],
        ">" => &[">=", "<"],
        ">=" => &[">", "<="],
        "==" => &["!="],
        "!=" => &["=="],
        "&&" => &["||"],
        "||" => &["&&"],
        "+" => &["-"],
        "-" => &["+"],
        "+=" => &["-="],
        "-=" => &["+="],
        "true" => &["false"],
        "false" => &["true"],
        "min" => &["max"],
        "max" => &["min"],
        "saturating_sub" => &["wrapping_sub"],
        "all" => &["any"],
        "any" => &["all"],
        "*" => &["+"],
        "/" => &["*"],
        "&" => &["|"],
        "<<" => &[">>"],
        ">>" => &["<<"],
        "^=" => &["|="],
        "is_some" => &["is_none"],
        "is_none" => &["is_some"],
        "H" => &["V"],
        "V" => &["H"],
        "SwipeLeft" => &["SwipeRight"],
        "SwipeRight" => &["SwipeLeft"],
        "SwipeUp" => &["SwipeDown"],
        "SwipeDown" => &["SwipeUp"],
        "KeyUp" => &["KeyDown"],
        "KeyDown" => &["KeyUp"],
        _ => &[],
    }
}

/// The assignment that begins at a token, up to its semicolon: where it is one.
fn assignment(text: &str, t: &[Token], k: usize) -> Option<usize> {
    let word = |k: usize| t.get(k).map_or("", |t| &text[t.from..t.to]);
    if k > 0 && !matches!(word(k - 1), ";" | "{" | "}") {
        return None;
    }
    let mut j = k + usize::from(word(k) == "*");
    if t.get(j)?.kind != Kind::Word || matches!(word(j), "let" | "const" | "static" | "pub" | "type" | "use") {
        return None;
    }
    j += 1;
    while word(j) == "." || word(j) == "[" {
        j += if word(j) == "." { 2 } else { 3 };
    }
    if !matches!(word(j), "=" | "+=" | "-=" | "*=" | "/=" | "^=" | "|=") {
        return None;
    }
    let mut depth = 0i32;
    while j < t.len() {
        match word(j) {
            "{" | "(" | "[" => depth += 1,
            "}" | ")" | "]" => depth -= 1,
            ";" if depth == 0 => return Some(t[j].to),
            _ => {}
        }
        if depth < 0 {
            return None;
        }
        j += 1;
    }
    None
}

/// The test of an `if` that begins at a token, up to its block; not one that takes a value apart.
fn test(text: &str, t: &[Token], k: usize) -> Option<(usize, usize)> {
    let word = |k: usize| t.get(k).map_or("", |t| &text[t.from..t.to]);
    if word(k) != "if" || word(k + 1) == "let" {
        return None;
    }
    let (mut j, mut depth) = (k + 1, 0i32);
    while j < t.len() {
        match word(j) {
            "(" | "[" => depth += 1,
            ")" | "]" => depth -= 1,
            "{" | "=>" if depth == 0 => return Some((t[k + 1].from, t[j - 1].to)),
            _ => {}
        }
        if depth < 0 {
            return None;
        }
        j += 1;
    }
    None
}

/// All wrong texts of a file with one place changed, between the places `within`.
pub fn of(file: &'static str, text: &str, within: std::ops::Range<usize>) -> Vec<Mutant> {
    let t = tokens(text);
    let s = text.as_bytes();
    let mut all = Vec::new();
    let mut add = |from: usize, to: usize, new: String, what: String| {
        let line = 1 + s[..from].iter().filter(|&&b| b == b'\n').count();
        let column = 1 + from - text[..from].rfind('\n').map_or(0, |k| k + 1);
        all.push(Mutant { file, line, column, from, to, new, what });
    };
    for (k, &Token { kind, from, to }) in t.iter().enumerate() {
        if !within.contains(&from) {
            continue;
        }
        let word = &text[from..to];
        let spaced = s[from - 1].is_ascii_whitespace() && s.get(to).is_some_and(u8::is_ascii_whitespace);
        let news: Vec<String> = match kind {
            Kind::Number => numbers(word),
            Kind::Sign if spaced => instead(word).iter().map(|w| w.to_string()).collect(),
            Kind::Word => instead(word).iter().map(|w| w.to_string()).collect(),
            Kind::Letter => vec!["b'?'".into()],
            Kind::Sign => Vec::new(),
        };
        for new in news {
            let what = format!("{word} -> {new}");
            add(from, to, new, what);
        }
        // a call on a value left out: it stays as it is, or keeps what it had
        for call in [".abs()", ".take()"] {
            if text[from..].starts_with(call) {
                add(from, from + call.len(), String::new(), format!("left out: {call}"));
            }
        }
        // a test that always holds, or never
        if let Some((start, end)) = test(text, &t, k) {
            for new in ["true", "false"] {
                add(start, end, new.into(), format!("if .. -> if {new}"));
            }
        }
        // a test turned over
        if word == "!" && !s[from - 1].is_ascii_alphanumeric() && !s.get(to).is_some_and(u8::is_ascii_whitespace) {
            add(from, to, String::new(), "left out: !".into());
        }
        if let Some(end) = assignment(text, &t, k) {
            let what = text[from..end].split_whitespace().collect::<Vec<_>>().join(" ");
            add(from, end, String::new(), format!("left out: {what}"));
        }
    }
    all
}

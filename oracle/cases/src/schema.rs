//! What a scalar is: one scalar whose value is the text.

use crate::run::{DOUBLE_QUOTED, FOLDED, PLAIN, Run, STYLES};
use crate::words;
use framing::event::{Scalar, Tag};

const LETTERS: [&str; 16] = ["0", "1", "7", "8", "x", "o", "+", "-", ".", "e", "~", "a", "F", "E", "n", "_"];

const WORDS: [&str; 23] = [
    "null", "Null", "NULL", "~", "true", "True", "TRUE", "false", "False", "FALSE", ".inf", ".Inf", ".INF", ".nan",
    ".NaN", ".NAN", "inf", "nan", "infinity", "yes", "no", "on", "off",
];

/// Worked examples of the standard and their like.
const EXAMPLES: [&str; 52] = [
    "",
    "0",
    "-0",
    "+0",
    "007",
    "0o7",
    "0o17",
    "0x3A",
    "0x",
    "0o",
    "0o8",
    "0xg",
    "0X1f",
    "-0x1f",
    "+0o7",
    "0x-1",
    "0x+1",
    "0o+7",
    "-19",
    "+12",
    "+",
    "-",
    ".",
    "+.",
    "0.",
    "-0.0",
    ".5",
    "+.5",
    "-.5",
    "5.",
    "12e03",
    "+12e03",
    "-2E+05",
    "1e",
    "1e+",
    "e1",
    ".e1",
    "1.e1",
    "1e1.",
    "1e400",
    "1e-400",
    "1.5.",
    "1_000",
    "0b1",
    "1:30",
    " 1",
    "1 ",
    "١",
    "1e9999999999999999999",
    "0.1e-7",
    "--1",
    "+-1",
];

/// Around 2^63 and 2^64, in decimal, octal and hexadecimal.
const LIMITS: [&str; 18] = [
    "9223372036854775806",
    "9223372036854775807",
    "9223372036854775808",
    "9223372036854775809",
    "9223372036854775810",
    "18446744073709551615",
    "18446744073709551616",
    "99999999999999999999",
    "0o777777777777777777776",
    "0o777777777777777777777",
    "0o1000000000000000000000",
    "0o1777777777777777777777",
    "0o2000000000000000000000",
    "0x7ffffffffffffffe",
    "0x7FFFFFFFFFFFFFFF",
    "0x8000000000000000",
    "0xFFFFFFFFFFFFFFFF",
    "0x10000000000000000",
];

const STANDARD: &[u8] = b"tag:yaml.org,2002:";

const TAGS: [Tag; 17] = [
    Some((STANDARD, b"str")),
    Some((STANDARD, b"bool")),
    Some((STANDARD, b"int")),
    Some((STANDARD, b"float")),
    Some((STANDARD, b"null")),
    Some((STANDARD, b"binary")),
    Some((STANDARD, b"")),
    Some((STANDARD, b"Int")),
    Some((b"", b"tag:yaml.org,2002:int")),
    Some((b"", b"tag:yaml.org,2002:null")),
    Some((b"", b"tag:yaml.org,2002:")),
    Some((b"", b"tag:yaml.org,2002")),
    Some((b"", b"int")),
    Some((b"!", b"int")),
    Some((b"!", b"tag:yaml.org,2002:int")),
    Some((b"tag:yaml.org,2002", b":int")),
    Some((b"", b"")),
];

pub fn write(run: &mut Run) {
    for value in EXAMPLES {
        put(run, value, PLAIN, None);
    }
    for value in LIMITS.iter().flat_map(|limit| signed(limit)) {
        put(run, &value, PLAIN, None);
    }
    for value in LIMITS.iter().flat_map(|limit| zeros(limit)).step_by(run.sized(4, 1)) {
        put(run, &value, PLAIN, None);
    }
    for word in WORDS.iter().flat_map(|word| misspelt(word)) {
        put(run, &word, PLAIN, None);
    }

    // Resolution by tag, in any style.
    let examples: Vec<String> = EXAMPLES.iter().chain(&LIMITS).chain(&WORDS).map(|value| value.to_string()).collect();
    let tagged = run.sized(13, 1);
    for (number, (value, tag)) in product(&examples, &TAGS).enumerate().step_by(tagged) {
        put(run, value, STYLES[number % STYLES.len()], tag);
        put(run, value, PLAIN, tag);
    }
    for style in STYLES {
        put(run, "1", style, None);
        put(run, "", style, None);
    }

    for number in (0..words::count(&LETTERS, 4)).step_by(run.sized(101, 1)) {
        put(run, &words::word(&LETTERS, number), PLAIN, None);
    }
    let short: Vec<String> = (0..words::count(&LETTERS, 3)).map(|number| words::word(&LETTERS, number)).collect();
    for (value, tag) in product(&short, &TAGS).step_by(run.sized(499, 1)) {
        put(run, value, DOUBLE_QUOTED, tag);
    }
    for _ in 0..run.sized(540, 1_000_000) {
        put_random(run);
    }
}

pub fn put_random(run: &mut Run) {
    let value = random(run);
    let tag = if run.rng.once_in(3) { run.rng.pick(&TAGS) } else { None };
    let style = if run.rng.once_in(8) { FOLDED } else { PLAIN };
    put(run, &value, style, tag);
}

fn product<'a>(values: &'a [String], tags: &'a [Tag<'a>]) -> impl Iterator<Item = (&'a str, Tag<'a>)> {
    values.iter().flat_map(|value| tags.iter().map(move |tag| (value.as_str(), *tag)))
}

fn signed(value: &str) -> [String; 3] {
    ["", "+", "-"].map(|sign| format!("{sign}{value}"))
}

/// The value with many zeros after its prefix.
fn zeros(value: &str) -> Vec<String> {
    let prefix = if value.starts_with("0x") || value.starts_with("0o") { 2 } else { 0 };
    let (prefix, digits) = value.split_at(prefix);
    [1, 20, 300].map(|count| format!("{prefix}{}{digits}", "0".repeat(count))).into()
}

/// The word, signed, with the case of one letter changed, and with one letter taken away.
fn misspelt(word: &str) -> Vec<String> {
    let mut words = Vec::from(signed(word));
    for (place, letter) in word.char_indices() {
        let (before, after) = (&word[..place], &word[place + 1..]);
        let changed =
            if letter.is_ascii_lowercase() { letter.to_ascii_uppercase() } else { letter.to_ascii_lowercase() };
        words.push(format!("{before}{changed}{after}"));
        words.push(format!("{before}{after}"));
    }
    words
}

/// A number with parts left out or doubled, or a random word.
fn random(run: &mut Run) -> String {
    if run.rng.once_in(4) {
        return run.rng.word(&LETTERS, 12);
    }
    const DIGITS: [&str; 10] = ["0", "1", "2", "3", "4", "5", "6", "7", "8", "9"];
    let mut value = run.rng.pick(&["", "", "+", "-", "0x", "0o"]).to_string();
    value += &run.rng.word(&DIGITS, 21);
    if run.rng.once_in(3) {
        value += run.rng.pick(&[".", ".", "..", "_", "a", "F"]);
        value += &run.rng.word(&DIGITS, 6);
    }
    if run.rng.once_in(3) {
        value += run.rng.pick(&["e", "E", "e+", "E-", "ee", "x"]);
        value += &run.rng.word(&DIGITS, 4);
    }
    value
}

fn put(run: &mut Run, value: &str, style: u8, tag: Tag) {
    let scalar = Scalar { style, tag, value: value.as_bytes(), ..Scalar::default() };
    run.put_scalar(value, scalar);
}

//! Which spans are measured and which assumed: one scalar without a tag, of which the text has the value, or all but one thing.

use crate::rng::Rng;
use crate::run::{DOUBLE_QUOTED, FOLDED, LITERAL, PLAIN, Run, SINGLE_QUOTED, ample, characters};
use crate::{source, words};
use framing::Case;
use framing::event::{Event, Scalar, encode};

const BLOCKS: [u8; 2] = [LITERAL, FOLDED];

pub fn write(run: &mut Run) {
    put_worked(run);
    put_white_space(run);
    put_stretches(run);
    put_refused(run);
    put_plain_words(run);
    put_quoted_words(run);
    put_block_words(run);
    for _ in 0..run.sized(850, 500_000) {
        put_random(run);
    }
}

/// The worked cases of document 01, and points at which a reader goes wrong.
fn put_worked(run: &mut Run) {
    let plain = [
        ("", ""),
        ("", "a"),
        ("a", ""),
        (": b", ""),
        ("ab", "ab"),
        ("ab", "xy"),
        ("ab", "abc"),
        ("ab", "ax"),
        ("ab", "xb"),
        ("a \n  b", "a b"),
        ("a\n\n\nb", "a\n\nb"),
        ("a\n\n\nb", "a\nb"),
        ("a\nb", "a\nb"),
        ("a  b", "a b"),
        ("a  b", "a  b"),
        ("a\tb", "a b"),
        ("a\nb", "a\tb"),
        ("a\t\nb", "a\t b"),
        ("a\rb", "a b"),
        ("a\r\nb", "a b"),
        ("a\n", "a "),
        ("a\n", "a\n"),
        ("a\n", "a  "),
        ("a", "a "),
        ("a ", "a "),
        ("\n", " "),
        ("a\n\u{a0}", "a \u{a0}"),
        ("a\n\u{a0}", "a "),
        ("a\u{85}\nb", "a b"),
        ("a\n\u{85}b", "a\nb"),
        ("a\n\u{85}b", "a \u{85}b"),
        ("a\u{85}b", "a b"),
        ("a\u{85}b", "a\nb"),
        ("a\u{85}b", "a\u{85}b"),
        ("a\u{2003}\n\u{3000}b", "a b"),
        ("a\n\u{200b}b", "a b"),
        ("é", "è"),
        ("€", "₭"),
        ("é\n€😀", "é €😀"),
    ];
    for (text, value) in plain {
        for index in [0, 1, 9, u32::MAX] {
            put(run, text, index, PLAIN, value);
        }
    }
    let quoted = [
        "",
        "a",
        "'",
        "''",
        "'''",
        "''''",
        "'it''s'",
        "'it''",
        "'it''s",
        "a'",
        "'a\"",
        "'a\\'b",
        "\"",
        "\"\"",
        "\"\\",
        "\"a\\",
        "\"\\\"\"",
        "\"a\\\"",
        "\"a\\\\\"",
        "\"\\é\"",
        "\"\\\\\\\"",
        "\"a'",
        "\"a''\"",
        "a\"",
        "é\"a\"",
        " 'a'",
        "'a\n\n b'",
        "\"a\\\n b\"",
        "\"\\u20AC\"",
    ];
    for text in quoted {
        for (index, value) in [(0, "a"), (0, ""), (1, "it's")] {
            put(run, text, index, SINGLE_QUOTED, value);
            put(run, text, index, DOUBLE_QUOTED, value);
        }
    }
}

/// The characters of Unicode's White_Space, and those next to them, on both sides of a newline.
fn put_white_space(run: &mut Run) {
    for letter in ('\0'..='\u{10000}').filter(|letter| is_next_to_white_space(*letter)) {
        put(run, &format!("a{letter}\nb"), 0, PLAIN, "a b");
        put(run, &format!("a\n{letter}b"), 0, PLAIN, "a\nb");
    }
}

fn is_next_to_white_space(letter: char) -> bool {
    let code = u32::from(letter);
    (code.saturating_sub(1)..=code + 1).filter_map(char::from_u32).any(char::is_whitespace)
}

/// Letters in a row, of which the last is wrong or the closing mark is missing. The port passes over many bytes at a time.
fn put_stretches(run: &mut Run) {
    let letters = ["a", "b", "c", "d", "e", "é", "f", "g"].repeat(5);
    for length in 1..=34 {
        let stretch = letters[..length].concat();
        put(run, &format!("{stretch} g"), 0, PLAIN, &stretch);
        put(run, &format!("{stretch} g"), 0, PLAIN, &format!("{}g", letters[..length - 1].concat()));
        for style in [SINGLE_QUOTED, DOUBLE_QUOTED] {
            let (quote, other) = quotes(style);
            put(run, &format!("{quote}{stretch}{quote} g"), 0, style, "");
            put(run, &format!("{quote}{stretch}{other} g"), 0, style, "");
        }
    }
}

/// Rows 2 and 3 of the call on one scalar; the flag is no. Row 1 takes more text than a replay program holds.
fn put_refused(run: &mut Run) {
    for style in [PLAIN, SINGLE_QUOTED, DOUBLE_QUOTED, LITERAL, FOLDED, 5, 255] {
        for (text, value) in [(&b"''"[..], &b""[..]), (b"\xff", b""), (b"a", b"\xc3"), (b"a\xa0", b"a"), (b"a", b"a")] {
            put_scalar(run, text, Scalar { style, value, ..Scalar::default() });
        }
    }
}

fn put_plain_words(run: &mut Run) {
    const LETTERS: [&str; 6] = ["a", "b", " ", "\n", "\t", "\u{a0}"];
    let values = words::count(&LETTERS, 3);
    let mut thinned = Thinned::new(run, [499, 13]);
    for number in 0..words::count(&LETTERS, 4) * values {
        let text = words::word(&LETTERS, number / values);
        let value = words::word(&LETTERS, number % values);
        thinned.put(run, one_scalar(&text, 0, PLAIN, &value));
    }
}

/// With the opening mark, and shorter ones without it.
fn put_quoted_words(run: &mut Run) {
    let mut thinned = Thinned::new(run, [19, 23]);
    for style in [SINGLE_QUOTED, DOUBLE_QUOTED] {
        let (quote, other) = quotes(style);
        let letters = [quote, "\\", "a", other, "\n"];
        for (open, length) in [(quote, 5), ("", 3)] {
            for number in 0..words::count(&letters, length) {
                let text = format!("{open}{}", words::word(&letters, number));
                for value in ["", "a", "\\'a"] {
                    thinned.put(run, one_scalar(&text, 0, style, value));
                }
            }
        }
    }
}

fn put_block_words(run: &mut Run) {
    const LETTERS: [&str; 5] = ["|", "a", " ", "\n", "\u{a0}"];
    let mut thinned = Thinned::new(run, [1, 41]);
    for style in BLOCKS {
        for number in 0..words::count(&LETTERS, 3) {
            let text = words::word(&LETTERS, number);
            for (empty_span, value) in [(0, ""), (0, "a\n"), (1, ""), (1, "a")] {
                let column = number as u32 % 3;
                let scalar = Scalar { column, style, empty_span, value: value.as_bytes(), ..Scalar::default() };
                thinned.put(run, of_scalar(text.as_bytes(), scalar));
            }
        }
    }
}

/// The mark of a style, and the other one.
fn quotes(style: u8) -> (&'static str, &'static str) {
    if style == DOUBLE_QUOTED { ("\"", "'") } else { ("'", "\"") }
}

/// Of a sample, every so many of the assumed and of the measured ones: most words are assumed at the first letter.
struct Thinned {
    steps: [usize; 2],
    seen: [usize; 2],
}

impl Thinned {
    fn new(run: &Run, sample: [usize; 2]) -> Self {
        Self { steps: if run.full { [1, 1] } else { sample }, seen: [0, 0] }
    }

    fn put(&mut self, run: &mut Run, case: Case) {
        let measured = answers::measured(&case).records[0] as usize;
        if self.seen[measured].is_multiple_of(self.steps[measured]) {
            run.put(&case);
        }
        self.seen[measured] += 1;
    }
}

/// White space that has no newline and is read as it stands.
const GAPS: &[(&str, &str)] = &[
    (" ", " "),
    ("  ", "  "),
    ("\t", "\t"),
    ("\r", "\r"),
    ("\u{a0}", "\u{a0}"),
    ("\u{85}", "\u{85}"),
    (" \u{2003}", " \u{2003}"),
    ("\u{2028} ", "\u{2028} "),
];

/// White space that holds a newline, with what it is read as.
const FOLDS: &[(&str, &str)] = &[
    ("\n", " "),
    ("\n", "\n"),
    (" \n  ", " "),
    ("\n\n", "\n"),
    ("\t\n\t", " "),
    ("\r\n", " "),
    ("\u{85}\n", " "),
    ("\n\u{a0}\n", "\n"),
    ("\u{2003}\n\u{2028}\u{3000}", " "),
];

/// The same, each with one thing wrong.
const NO_FOLDS: &[(&str, &str)] = &[
    ("\n\n", "\n\n"),
    ("\n\n\n", "\n\n"),
    ("\n", "  "),
    ("\n", "\t"),
    ("\n", ""),
    ("  ", " "),
    ("\t", " "),
    ("\r", "\n"),
    ("\u{85}", " "),
    ("\u{2028}", "\n"),
    ("\n\u{a0}", " \u{a0}"),
    ("\n ", "\n "),
    ("\n\u{200b}", " "),
    ("", " "),
];

const LETTERS: &[&str] = &["a", "b", "c", "é", "€", "😀", ":", "#", "'", "\"", "\\", "|", "\u{200b}", "à", "Å"];

pub fn put_random(run: &mut Run) {
    match run.rng.below(10) {
        0..5 => put_random_plain(run),
        5..7 => put_random_quoted(run, SINGLE_QUOTED),
        7..9 => put_random_quoted(run, DOUBLE_QUOTED),
        _ => put_random_block(run),
    }
}

/// Words with white space between them; then, in two of three, something wrong.
fn put_random_plain(run: &mut Run) {
    let rng = &mut run.rng;
    let mut source = word(rng);
    let mut value = source.clone();
    let gaps = rng.below(5);
    let fault = rng.below(12);
    let wrong = if fault == 0 { rng.below(gaps + 1) } else { gaps };
    for gap in 0..gaps {
        let parts = if gap == wrong { NO_FOLDS } else { rng.pick(&[FOLDS, GAPS]) };
        let (part, read) = rng.pick(parts);
        let word = word(rng);
        source = format!("{source}{part}{word}");
        value = format!("{value}{read}{word}");
    }
    match fault {
        1 => value.replace_range(last(&value).., rng.pick(LETTERS)),
        2 => value.replace_range(..second(&value), rng.pick(LETTERS)),
        3 => value.push_str(rng.pick(LETTERS)),
        // A newline or blank at the end is met by the run after the scalar, if there is one.
        4 => value.push_str(rng.pick(&[" ", "\n", "\n\n", "\t"])),
        5 => value.truncate(last(&value)),
        6 => source.truncate(last(&source)),
        7 => value.insert_str(0, rng.pick(&["a", " ", "\n"])),
        _ => {}
    }
    let before = rng.pick(&["", "", "- ", "é: "]);
    let after = rng.pick(&["", "", "\n", ": b", " # c", " \n\nb", "\u{85}"]);
    let text = format!("{before}{source}{after}");
    let index = characters(before) + u32::from(rng.once_in(24));
    put(run, &text, index, PLAIN, &value);
}

/// Where the last character of a text starts.
fn last(text: &str) -> usize {
    text.char_indices().next_back().map_or(0, |(place, _)| place)
}

/// Where the second one starts.
fn second(text: &str) -> usize {
    text.chars().next().map_or(0, char::len_utf8)
}

/// One to five letters.
fn word(rng: &mut Rng) -> String {
    let letter = rng.pick(LETTERS);
    format!("{letter}{}", rng.word(LETTERS, 4))
}

fn put_random_quoted(run: &mut Run, style: u8) {
    let (quote, other) = quotes(style);
    let rng = &mut run.rng;
    let mut inner = String::new();
    for _ in 0..rng.below(8) {
        inner += match (rng.below(3), style) {
            (0, SINGLE_QUOTED) => rng.pick(&["''", "''", "''''", "\\", "\"", "\n", "\\\""]),
            (0, _) => rng.pick(&["\\\"", "\\\\", "\\n", "\\é", "\\\n ", "'", "''", "\n", "\\x41"]),
            _ => rng.pick(&["a", "b", "é", "€", "😀", " ", ":"]),
        };
    }
    let fault = rng.below(9);
    let open = match fault {
        0 => "",
        1 => other,
        2 => rng.pick(&["a", " ", "\\"]),
        _ => quote,
    };
    let close = match (fault, style) {
        (3, _) => "",
        (4, _) => other,
        // A mark that is passed.
        (5, SINGLE_QUOTED) => "''",
        (5, _) => "\\\"",
        // One that is not, behind one that is.
        (6, SINGLE_QUOTED) => "'''",
        (6, _) => "\\\\\"",
        _ => quote,
    };
    let before = rng.pick(&["", "", "- ", "é: "]);
    let after = rng.pick(&["", "", "", "\n", ": b", " # it's", "\"", "\\"]);
    let text = format!("{before}{open}{inner}{close}{after}");
    let index = characters(before) + u32::from(rng.once_in(24));
    let value = if rng.once_in(2) { inner } else { rng.word(LETTERS, 4) };
    put(run, &text, index, style, &value);
}

fn put_random_block(run: &mut Run) {
    let style = run.rng.pick(&BLOCKS);
    let (source, value) = source::random(&mut run.rng, style, 5);
    let header = run.rng.pick(&["", "|", "a: |\n  ", "- >-\n "]);
    let text = format!("{header}{source}");
    let scalar = Scalar {
        index: run.rng.pick(&[0, characters(header), characters(&text), u32::MAX]),
        column: run.rng.pick(&[0, 1, 2, 2, 3, u32::MAX]),
        style,
        empty_span: run.rng.once_in(3).into(),
        tag: None,
        value: value.as_bytes(),
    };
    put_scalar(run, text.as_bytes(), scalar);
}

fn put(run: &mut Run, text: &str, index: u32, style: u8, value: &str) {
    run.put(&one_scalar(text, index, style, value));
}

fn put_scalar(run: &mut Run, text: &[u8], scalar: Scalar) {
    run.put(&of_scalar(text, scalar));
}

fn one_scalar(text: &str, index: u32, style: u8, value: &str) -> Case {
    of_scalar(text.as_bytes(), Scalar { index, style, value: value.as_bytes(), ..Scalar::default() })
}

/// Each piece but the last takes a byte of the text at least, so that row 8 never comes.
fn of_scalar(text: &[u8], scalar: Scalar) -> Case {
    ample(text.into(), encode(&[Event::Scalar(scalar)]), 1, text.len() + scalar.value.len())
}

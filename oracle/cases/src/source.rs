//! Random scalars as a source and the value that a scanner reads from it, or almost.

use crate::rng::Rng;
use crate::run::{DOUBLE_QUOTED, FOLDED, LITERAL, SINGLE_QUOTED};

/// Parts of a source with what they are read as.
type Parts = [(&'static str, &'static str)];

const LETTERS: &Parts = &[
    ("a", "a"),
    ("b", "b"),
    ("é", "é"),
    ("€", "€"),
    ("😀", "😀"),
    (" ", " "),
    ("  ", "  "),
    ("\t", "\t"),
    ("|", "|"),
    ("\u{85}", "\u{85}"),
    ("\u{a0}", "\u{a0}"),
    ("à", "à"),
    ("Å", "Å"),
    ("\u{2003}", "\u{2003}"),
    ("\u{2028}", "\u{2028}"),
    ("\u{3000}", "\u{3000}"),
    ("\u{1680}", "\u{1680}"),
    ("'", "'"),
    ("\"", "\""),
    (":", ":"),
    ("\\", "\\"),
];

const FLOW_BREAKS: &Parts = &[
    ("\n", " "),
    (" \n  ", " "),
    ("\r\n", " "),
    ("\t\n\t", " "),
    ("\n\n", "\n"),
    ("\n \n\n ", "\n\n"),
    ("\n", "\n"),
    ("\n\n\n", "\n\n\n"),
    ("\n\u{a0}", " "),
    ("\n\u{85}", " \u{85}"),
    ("\u{2003}\n", " "),
    ("\n", "\t"),
    ("\n", ""),
];

const BLOCK_BREAKS: &Parts = &[
    ("\n", "\n"),
    ("\n  ", "\n"),
    ("\n ", "\n"),
    ("\n   ", "\n "),
    ("\n\n  ", "\n\n"),
    (" \n  ", " \n"),
    ("\r\n  ", "\n"),
    ("\r\n  ", "\r\n"),
    ("\n  ", " "),
    ("\n  \n  ", "\n\n"),
    ("\n\t", "\n"),
    ("\n  \t", "\n\t"),
    ("\n\u{a0}", "\n"),
    ("\n  \u{2003}", "\n"),
    ("\r  ", "\r"),
];

const SINGLE_QUOTED_ESCAPES: &Parts = &[("''", "'"), ("''''", "''"), ("''", "")];

const DOUBLE_QUOTED_ESCAPES: &Parts = &[
    ("\\n", "\n"),
    ("\\t", "\t"),
    ("\\r", "\r"),
    ("\\0", "\0"),
    ("\\a", "\u{7}"),
    ("\\b", "\u{8}"),
    ("\\\"", "\""),
    ("\\\\", "\\"),
    ("\\/", "/"),
    ("\\e", "\u{1b}"),
    ("\\ ", " "),
    ("\\_", "\u{a0}"),
    ("\\x41", "A"),
    ("\\xé", "a"),
    ("\\x4", "a"),
    ("\\u0041", "A"),
    ("\\u00e9", "é"),
    ("\\u20AC", "€"),
    ("\\u20AC", "A"),
    ("\\u+041", "A"),
    ("\\u+", "a"),
    ("\\u-041", "a"),
    ("\\u", "a"),
    ("\\u1", "a"),
    ("\\u12", "a"),
    ("\\u123", "a"),
    ("\\uD800", "a"),
    ("\\uDFFF", "abc"),
    ("\\uzzzz", "a"),
    ("\\uFFFF", "\u{ffff}"),
    ("\\u07FF", "é"),
    ("\\u0800", "€"),
    ("\\u00é", "a"),
    ("\\u0é0", "a"),
    ("\\u€0", "a"),
    ("\\U0001F600", "😀"),
    ("\\\n", ""),
    ("\\\n  ", ""),
    ("\\\r\n \u{85}", ""),
    ("\\\n\u{a0}", "\u{a0}"),
];

/// Letters from which values go wrong.
const STRAY: &[&str] = &["a", " ", "\n", "\t", "é", "\u{85}", "\u{a0}", "'", "\\", "\n\n"];

/// A source without quotes around it, and a value, of at most `length` parts.
pub fn random(rng: &mut Rng, style: u8, length: usize) -> (String, String) {
    let (breaks, escapes) = match style {
        SINGLE_QUOTED => (FLOW_BREAKS, SINGLE_QUOTED_ESCAPES),
        DOUBLE_QUOTED => (FLOW_BREAKS, DOUBLE_QUOTED_ESCAPES),
        LITERAL | FOLDED => (BLOCK_BREAKS, LETTERS),
        _ => (FLOW_BREAKS, LETTERS),
    };
    let mut source = String::new();
    let mut value = String::new();
    for _ in 0..rng.below(length + 1) {
        let parts = rng.pick(&[LETTERS, LETTERS, breaks, escapes]);
        let (part, read) = rng.pick(parts);
        source += part;
        value += read;
    }
    if rng.once_in(3) {
        value += rng.pick(&["\n", "\n\n", " "]);
    }
    if rng.once_in(6) {
        // An escape or a fold cut off by the end of the text.
        source.pop();
    }
    if rng.once_in(5) {
        stray(rng, &mut value);
    }
    (source, value)
}

/// Puts a letter in, or in the place of another.
fn stray(rng: &mut Rng, value: &mut String) {
    let places: Vec<usize> = value.char_indices().map(|(place, _)| place).collect();
    let letter = rng.pick(STRAY);
    match places.len() {
        0 => value.push_str(letter),
        count => {
            let place = places[rng.below(count)];
            if rng.once_in(2) {
                value.remove(place);
            }
            value.insert_str(place, letter);
        }
    }
}

/// The source between its quotes, one of them now and then left out.
pub fn quoted(rng: &mut Rng, style: u8, source: &str) -> String {
    let quote = match style {
        SINGLE_QUOTED => "'",
        DOUBLE_QUOTED => "\"",
        _ => "",
    };
    let open = if rng.once_in(12) { rng.pick(&["", "a", "é"]) } else { quote };
    let close = if rng.once_in(8) { "" } else { quote };
    format!("{open}{source}{close}")
}

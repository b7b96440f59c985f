//! Whether a scalar's span is measured, which is found in the text, or assumed, which is taken from the value's length: document
//! 02 (b), and by (c) the fourteenth number of a record. The original does not say which. This is a second implementation, written
//! from the words of documents 01 (reading rules, white space) and 02 alone, over characters, and apart from the original's measures
//! and from the port's.

use crate::decode::{Body, Event};
use crate::start::{self, Start};
use saphyr_parser::ScalarStyle;

/// Whether the span of the scalar at a marker's index is measured, in a call on one scalar.
pub fn is_measured(text: &str, index: usize, style: ScalarStyle, value: &str) -> bool {
    is_found(&text[start::of_one(text, index)..], style, value)
}

/// The fourteenth number of each node that admitted events complete, in the order of their records: scalars as they are measured,
/// collections and aliases yes (document 02 (c)).
pub fn flags(text: &str, bytes: &[u8], events: &[Event], starts: &[Option<Start>]) -> Vec<bool> {
    let flag = |(event, start): (&Event, &Option<Start>)| match (&event.body, start) {
        (Body::Scalar(scalar), Some(start)) => {
            let value = str::from_utf8(&bytes[scalar.value.clone()]).expect("the reader tests for UTF-8");
            is_found(&text[start.at.offset..], scalar.style, value)
        }
        _ => true,
    };
    events.iter().filter(|event| event.completes()).zip(starts).map(flag).collect()
}

/// Whether a scalar is found at the beginning of the text that is left.
fn is_found(rest: &str, style: ScalarStyle, value: &str) -> bool {
    match style {
        ScalarStyle::Plain => plain(rest, value).is_some(),
        ScalarStyle::SingleQuoted => single_quoted(rest).is_some(),
        ScalarStyle::DoubleQuoted => double_quoted(rest).is_some(),
        ScalarStyle::Literal | ScalarStyle::Folded => true,
    }
}

/// The bytes of a plain or quoted span, by the same reading: those found, or the value's, cut to the text left. A block has a
/// rule of its own, which says nothing about the flag. The original has this number too, so that the two can be held together.
pub fn length(text: &str, index: usize, style: ScalarStyle, value: &str) -> Option<usize> {
    let rest = &text[start::of_one(text, index)..];
    let found = match style {
        ScalarStyle::Plain => plain(rest, value),
        ScalarStyle::SingleQuoted => single_quoted(rest),
        ScalarStyle::DoubleQuoted => double_quoted(rest),
        ScalarStyle::Literal | ScalarStyle::Folded => return None,
    };
    Some(found.unwrap_or(value.len()).min(rest.len()))
}

/// The end of the last equal character, if the whole value is matched. Its characters are matched in turn: a blank or newline
/// takes a white-space run that holds a newline, and any other has to be equal.
fn plain(rest: &str, value: &str) -> Option<usize> {
    let mut at = 0;
    let mut end = 0;
    // The white space before this place holds no newline, and is not looked through again.
    let mut no_newline_before = 0;
    for letter in value.chars() {
        if matches!(letter, ' ' | '\n') && at >= no_newline_before {
            let run = white_space_run(&rest[at..]);
            if run.contains('\n') {
                at += run.len();
                continue;
            }
            no_newline_before = at + run.len();
        }
        if !rest[at..].starts_with(letter) {
            return None;
        }
        at += letter.len_utf8();
        end = at;
    }
    Some(end)
}

fn white_space_run(rest: &str) -> &str {
    let end = rest.find(|letter| !is_white_space(letter)).unwrap_or(rest.len());
    &rest[..end]
}

/// The 25 characters of Unicode's White_Space, as document 01 lists them.
fn is_white_space(letter: char) -> bool {
    matches!(
        u32::from(letter),
        0x9..=0xD | 0x20 | 0x85 | 0xA0 | 0x1680 | 0x2000..=0x200A | 0x2028 | 0x2029 | 0x202F | 0x205F | 0x3000
    )
}

/// The end of the closing mark, if both marks are there. Two marks in a row are passed.
fn single_quoted(rest: &str) -> Option<usize> {
    let mut letters = rest.char_indices().peekable();
    letters.next_if(|(_, letter)| *letter == '\'')?;
    loop {
        let (place, letter) = letters.next()?;
        if letter == '\'' && letters.next_if(|(_, letter)| *letter == '\'').is_none() {
            return Some(place + 1);
        }
    }
}

/// The end of the closing mark, if both marks are there. A backslash is passed with what follows it. That is one byte, but none
/// of the later bytes of a character is a mark or a backslash, so the whole character may be passed.
fn double_quoted(rest: &str) -> Option<usize> {
    let mut letters = rest.char_indices().peekable();
    letters.next_if(|(_, letter)| *letter == '"')?;
    loop {
        match letters.next()? {
            (_, '\\') => _ = letters.next(),
            (place, '"') => return Some(place + 1),
            _ => {}
        }
    }
}

#[cfg(test)]
mod tests {
    use super::*;
    use crate::{admit, parent};
    use ScalarStyle::{DoubleQuoted, Folded, Literal, Plain, SingleQuoted};
    use framing::event::encode;

    fn plain_at(index: usize, text: &str, value: &str) -> bool {
        is_measured(text, index, Plain, value)
    }

    fn plain(text: &str, value: &str) -> bool {
        plain_at(0, text, value)
    }

    /// In both styles with the value `a`, which is not looked at.
    fn quoted(text: &str) -> [bool; 2] {
        [SingleQuoted, DoubleQuoted].map(|style| is_measured(text, 0, style, "a"))
    }

    const NEITHER: [bool; 2] = [false, false];
    const SINGLE: [bool; 2] = [true, false];
    const DOUBLE: [bool; 2] = [false, true];

    #[test]
    fn white_space_is_unicodes() {
        let list: Vec<char> = ('\0'..=char::MAX).filter(|letter| is_white_space(*letter)).collect();
        assert_eq!(list.len(), 25);
        assert!(list.iter().all(|letter| letter.is_whitespace()));
    }

    #[test]
    fn plain_letters() {
        assert!(plain("ab", "ab"));
        assert!(plain("ab: c", "ab"));
        assert!(plain("é€😀", "é€😀"));
        assert!(!plain("ab", "abc"));
        assert!(!plain("ab", "xb"));
        assert!(!plain("ab", "ax"));
        assert!(!plain("é", "è"));
        // The length taken from the value is that of the text, and taken all the same.
        assert!(!plain("ab", "xy"));
        assert!(!plain("", "a"));
    }

    #[test]
    fn plain_empty_values() {
        for text in ["", "a", "\n", ": b", "é"] {
            for index in [0, 1, 2, 1_000] {
                assert!(plain_at(index, text, ""));
            }
        }
    }

    #[test]
    fn plain_folds() {
        // K7 and K8.
        assert!(plain("a \n  b", "a b"));
        assert!(!plain("a\n\n\nb", "a\n\nb"));
        assert!(plain("a\n\n\nb", "a\nb"));
        assert!(plain("a\nb", "a\nb"));
        assert!(plain("a\n\nb", "a b"));
        // A run without a newline is matched blank by blank.
        assert!(!plain("a  b", "a b"));
        assert!(plain("a  b", "a  b"));
        assert!(!plain("a\tb", "a b"));
        assert!(!plain("a b", "a\nb"));
        assert!(!plain("a\rb", "a b"));
        assert!(plain("a\r\nb", "a b"));
        // Only a blank or a newline takes a run; another may stand before one.
        assert!(!plain("a\nb", "a\tb"));
        assert!(plain("a\t\nb", "a\t b"));
        assert!(plain("a\t\nb", "a b"));
        assert!(!plain("a\t\nb", "a\t\tb"));
        // A run that nothing follows is a match, though no byte of it belongs to the span.
        assert!(plain("a\n", "a "));
        assert!(plain("a \n ", "a\n"));
        assert!(!plain("a", "a "));
        assert!(!plain("a\n", "a  "));
        assert!(plain("\n", " "));
        assert!(!plain("\n", "a"));
    }

    #[test]
    fn plain_runs_of_wide_white_space() {
        // The run takes what the value goes on with.
        assert!(!plain("a\n\u{a0}", "a \u{a0}"));
        assert!(plain("a\n\u{a0}", "a "));
        assert!(plain("a\u{a0}\nb", "a b"));
        assert!(plain("a\u{85}\nb", "a b"));
        assert!(plain("a\n\u{85}b", "a\nb"));
        assert!(!plain("a\u{85}b", "a b"));
        assert!(!plain("a\u{85}b", "a\nb"));
        assert!(plain("a\u{85}b", "a\u{85}b"));
        assert!(!plain("a\n\u{85}b", "a \u{85}b"));
        assert!(plain("a\u{1680}\u{2003}\u{2028}\n\u{3000}b", "a b"));
        // Neither is white space.
        assert!(!plain("a\n\u{200b}b", "a b"));
        assert!(!plain("a\n\u{feff}b", "a b"));
        assert!(plain("a\n\u{200b}b", "a \u{200b}b"));
    }

    #[test]
    fn indices_are_characters() {
        assert!(plain_at(3, "é: a", "a"));
        assert!(!plain_at(4, "é: a", "a"));
        assert!(!plain_at(9, "é: a", "a"));
        assert!(!plain_at(usize::MAX, "a", "a"));
        assert!(is_measured("é'a'", 1, SingleQuoted, "a"));
        assert!(!is_measured("é'a'", 3, SingleQuoted, "a"));
        assert!(!is_measured("'a'", 3, SingleQuoted, "a"));
        assert!(!is_measured("\"a\"", 9, DoubleQuoted, "a"));
    }

    #[test]
    fn marks() {
        assert_eq!(quoted("'it''s'"), SINGLE);
        assert_eq!(quoted("'it''"), NEITHER);
        assert_eq!(quoted("''"), SINGLE);
        assert_eq!(quoted("'''"), NEITHER);
        assert_eq!(quoted("''''"), SINGLE);
        assert_eq!(quoted("'a\\'b"), SINGLE);
        assert_eq!(quoted("'a"), NEITHER);
        assert_eq!(quoted("'"), NEITHER);
        assert_eq!(quoted("'é\n 'b"), SINGLE);
        assert_eq!(quoted("\"\""), DOUBLE);
        assert_eq!(quoted("\"\\\"\""), DOUBLE);
        assert_eq!(quoted("\"a\\"), NEITHER);
        assert_eq!(quoted("\"a\\\""), NEITHER);
        assert_eq!(quoted("\"a\\\\\""), DOUBLE);
        assert_eq!(quoted("\"\\é\""), DOUBLE);
        assert_eq!(quoted("\"a''"), NEITHER);
        assert_eq!(quoted("\"a''\""), DOUBLE);
        assert_eq!(quoted("\""), NEITHER);
        // No opening mark, or one of the other kind.
        for text in ["", "a", "a'", "a\"", "éa'\"", " 'a'", " \"a\"", "\\\"a\""] {
            assert_eq!(quoted(text), NEITHER);
        }
        assert_eq!(quoted("'a\""), NEITHER);
        assert_eq!(quoted("\"a'"), NEITHER);
    }

    #[test]
    fn blocks_are_measured() {
        for style in [Literal, Folded] {
            for (text, value) in [("", ""), ("", "a"), ("a: |\n  b", "b\n"), ("  b", "x"), ("|", "")] {
                for index in [0, 7, 99] {
                    assert!(is_measured(text, index, style, value));
                }
            }
        }
    }

    #[test]
    fn lengths() {
        assert_eq!(length("a \n  b", 0, Plain, "a b"), Some(6));
        assert_eq!(length("a\n\n\nb", 0, Plain, "a\n\nb"), Some(4));
        assert_eq!(length("a\n", 0, Plain, "a "), Some(1));
        assert_eq!(length("ab", 0, Plain, "xyz"), Some(2));
        assert_eq!(length("'it''s' b", 0, SingleQuoted, "it's"), Some(7));
        assert_eq!(length("'it''s", 0, SingleQuoted, "it's"), Some(4));
        assert_eq!(length("\"\\\"\"", 0, DoubleQuoted, "\""), Some(4));
        assert_eq!(length("|\n a", 0, Literal, "a"), None);
    }

    /// The flags of a document over a text.
    fn of_document(text: &str, events: &[framing::event::Event]) -> Vec<bool> {
        let bytes = encode(events);
        let admitted = admit::admit(&bytes, usize::MAX);
        assert!(admitted.refusal.is_none());
        let starts = start::starts(text, &admitted.events, &parent::places(&admitted.events));
        flags(text, &bytes, &admitted.events, &starts)
    }

    #[test]
    fn flags_of_a_document() {
        use framing::event::Event::*;
        let plain = |index, value: &'static str| written(index, 0, value);
        let text = "é: [a, 'b', \"c]";
        let list = [
            MappingStart(1, None),
            plain(0, "é"),
            SequenceStart(3, None),
            plain(4, "a"),
            plain(4, "b"),
            written(7, 1, "b"),
            written(8, 1, "b"),
            written(12, 2, "c"),
            written(12, 3, "x"),
            Alias(99),
            SequenceEnd(14),
            MappingEnd(15),
        ];
        let expected = [true, true, false, true, false, false, true, true, true, true];
        assert_eq!(of_document(text, &list), expected);
        // A tag changes nothing.
        let tagged = |index, value: &'static [u8]| {
            Scalar(framing::event::Scalar { index, tag: Some((b"!", b"t")), value, ..Default::default() })
        };
        assert_eq!(of_document("a", &[tagged(0, b"a")]), [true]);
        assert_eq!(of_document("a", &[tagged(0, b"b")]), [false]);
    }

    fn written(index: u32, style: u8, value: &str) -> framing::event::Event<'_> {
        framing::event::Event::Scalar(framing::event::Scalar {
            index,
            style,
            value: value.as_bytes(),
            ..Default::default()
        })
    }

    /// The start of a value on its colon is the one behind it.
    #[test]
    fn flags_of_missing_values() {
        use framing::event::Event::{MappingEnd, MappingStart};
        for (index, style, flag) in
            [(1, 0, true), (2, 0, true), (9, 0, true), (1, 1, false), (1, 2, false), (1, 3, true)]
        {
            let list = [MappingStart(1, None), written(0, 0, "a"), written(index, style, ""), MappingEnd(2)];
            assert_eq!(of_document("a:", &list), [true, flag, true]);
        }
    }

    /// A minute would not do for a reading that looks through a run once for each of its blanks.
    #[test]
    fn long_runs_are_read_once() {
        let blanks = " ".repeat(1_000_000);
        assert!(plain(&format!("{blanks}a"), &format!("{blanks}a")));
        assert!(!plain(&format!("{blanks}a\n"), &format!("{blanks} ")));
        let newlines = "\n".repeat(1_000_000);
        assert!(plain(&format!("a{newlines}b"), "a\nb"));
        assert!(!plain(&format!("a{newlines}b"), &format!("a{newlines}b")));
        assert!(plain(&" \n a".repeat(250_000), &" a".repeat(250_000)));
    }
}

//! Why a file has no answer, in one line.

use crate::libyaml::{Place, Problem};
use quarto_yaml::event::{Event, PartTooLong};
use quarto_yaml::{Refusal, scan_error};
use std::fmt;

/// A line of the file and a character of it, both from 1.
#[derive(Clone, Copy, Debug, PartialEq, Eq)]
pub struct Position {
    /// The line.
    pub line: usize,
    /// The character.
    pub column: usize,
}

impl Position {
    /// The position of a byte of the text, which starts a character or is the text's end.
    pub fn of_byte(text: &str, byte: usize) -> Position {
        let before = &text[..byte];
        let line = before.matches('\n').count() + 1;
        let column = before.rsplit('\n').next().map_or(0, |last| last.chars().count()) + 1;
        Position { line, column }
    }

    /// The position of a marker index, through the library's `scan_error`.
    pub fn of_index(text: &str, index: usize) -> Position {
        let index = u32::try_from(index).unwrap_or(u32::MAX);
        let byte = scan_error(text.as_bytes(), index).map_or(text.len(), |span| span.start as usize);
        Position::of_byte(text, byte)
    }
}

impl fmt::Display for Position {
    fn fmt(&self, f: &mut fmt::Formatter<'_>) -> fmt::Result {
        write!(f, "{}:{}", self.line, self.column)
    }
}

/// What is wrong, and where if it is known.
#[derive(Clone, Debug, PartialEq, Eq)]
pub struct Failure {
    /// What is wrong.
    pub words: String,
    /// Where.
    pub position: Option<Position>,
}

impl Failure {
    /// Without a place.
    pub fn new(words: impl Into<String>) -> Failure {
        Failure { words: words.into(), position: None }
    }

    /// At a marker index.
    pub fn at_index(words: impl Into<String>, text: &str, index: usize) -> Failure {
        Failure { words: words.into(), position: Some(Position::of_index(text, index)) }
    }

    /// Bytes that are not UTF-8 from `valid_up_to`.
    pub fn not_utf8(bytes: &[u8], valid_up_to: usize) -> Failure {
        let valid = str::from_utf8(&bytes[..valid_up_to]).unwrap_or_default();
        Failure { words: "not UTF-8".into(), position: Some(Position::of_byte(valid, valid.len())) }
    }

    /// What stopped libyaml.
    pub fn of_problem(problem: &Problem, text: &str) -> Failure {
        let index = match problem.place {
            Place::Index(index) => index,
            Place::Byte(byte) => chars_before(text, byte),
        };
        Failure::at_index(problem.words.clone(), text, index)
    }

    /// An event that has no bytes.
    pub fn of_too_long(too_long: &PartTooLong, text: &str, events: &[Event]) -> Failure {
        let words = format!("a value or tag here takes {} bytes of its event, which has room for 65,535", too_long.len);
        Failure::at_index(words, text, events[too_long.event].index() as usize)
    }

    /// The library's refusal of a text that was found to be UTF-8 and within its limit.
    pub fn of_refusal(refusal: Refusal, text: &str, events: &[Event]) -> Failure {
        let words = match refusal {
            Refusal::TooLong => "too large: its events take more than 4,194,304 bytes".to_string(),
            Refusal::TooDeep { .. } => "more than 64 collections inside each other".to_string(),
            other => other.to_string(),
        };
        match events.get(refusal.place() as usize) {
            Some(event) if refusal.number() >= 3 => Failure::at_index(words, text, event.index() as usize),
            _ => Failure::new(words),
        }
    }
}

/// How many characters start before a byte of the text, which need not start one.
fn chars_before(text: &str, byte: usize) -> usize {
    text.char_indices().take_while(|(start, _)| *start < byte).count()
}

#[cfg(test)]
mod tests {
    use super::*;

    #[test]
    fn positions_count_characters() {
        let text = "é: a\nöb\n";
        let at = |line, column| Position { line, column };
        assert_eq!(Position::of_byte(text, 0), at(1, 1));
        assert_eq!(Position::of_byte(text, 2), at(1, 2));
        assert_eq!(Position::of_index(text, 6), at(2, 2));
        assert_eq!(Position::of_index(text, 99), at(3, 1));
    }

    #[test]
    fn refusals_have_a_place_where_it_is_known() {
        let events = [Event::Alias { index: 0 }, Event::Alias { index: 3 }];
        let of = |refusal| Failure::of_refusal(refusal, "a\nb\nc", &events).position;
        assert_eq!(of(Refusal::TooDeep { event: 1 }), Some(Position { line: 2, column: 2 }));
        assert_eq!(of(Refusal::TooLong), None);
        assert_eq!(of(Refusal::Unfinished { events: 2 }), None);
    }
}

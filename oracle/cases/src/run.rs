//! What the families share: the size of the list, the random numbers, and the shapes of cases.

use crate::rng::Rng;
use framing::Case;
use framing::RECORD_NUMBERS;
use framing::event::{Event, Scalar, encode};
use std::ops::Range;

pub const PLAIN: u8 = 0;
pub const SINGLE_QUOTED: u8 = 1;
pub const DOUBLE_QUOTED: u8 = 2;
pub const LITERAL: u8 = 3;
pub const FOLDED: u8 = 4;
pub const STYLES: [u8; 5] = [PLAIN, SINGLE_QUOTED, DOUBLE_QUOTED, LITERAL, FOLDED];

pub const TEXT_LIMIT: usize = 1_048_576;

/// Bytes that are no UTF-8: a continuation alone, cut off, too long for what they say, a surrogate, too large, and of no text.
pub const NOT_UTF8: [&[u8]; 8] =
    [b"\x80", b"a\xc3", b"\xc0\xaf", b"\xe0\x80\x80", b"\xed\xa0\x80", b"\xf4\x90\x80\x80", b"\xff", b"\xf0\x9f\x98"];

/// Lengths about a multiple of 32 bytes, which the port counts together.
pub const EDGES: [Range<usize>; 5] = [24..37, 57..68, 122..131, 254..258, 1_021..1_026];

pub struct Run<'a> {
    pub full: bool,
    pub rng: Rng,
    sink: &'a mut dyn FnMut(&Case),
}

impl<'a> Run<'a> {
    /// Each case goes to `sink`.
    pub fn new(full: bool, rng: Rng, sink: &'a mut dyn FnMut(&Case)) -> Self {
        Self { full, rng, sink }
    }

    /// The number for the size of this list.
    pub fn sized(&self, sample: usize, full: usize) -> usize {
        if self.full { full } else { sample }
    }

    pub fn put(&mut self, case: &Case) {
        (self.sink)(case);
    }

    /// A document of one scalar, with ample room.
    pub fn put_scalar(&mut self, text: &str, scalar: Scalar) {
        self.put(&one_scalar(text, scalar));
    }
}

/// Of a sample every so many.
pub struct Thinned {
    step: usize,
    seen: usize,
}

impl Thinned {
    pub fn new(run: &Run, sample: usize) -> Self {
        Self { step: run.sized(sample, 1), seen: 0 }
    }

    pub fn put(&mut self, run: &mut Run, case: impl FnOnce() -> Case) {
        if self.seen.is_multiple_of(self.step) {
            run.put(&case());
        }
        self.seen += 1;
    }
}

/// A document of one scalar, with ample room.
pub fn one_scalar(text: &str, scalar: Scalar) -> Case {
    ample(text.into(), encode(&[Event::Scalar(scalar)]), 1, scalar.value.len())
}

/// A sequence of aliases at some indices, which starts at the text's start and ends at an index.
pub fn aliases(text: &str, indices: &[u32], end: u32) -> Case {
    let mut events = vec![Event::SequenceStart(0, None)];
    events.extend(indices.iter().map(|index| Event::Alias(*index)));
    events.push(Event::SequenceEnd(end));
    ample(text.into(), encode(&events), indices.len() + 1, 0)
}

/// A case whose rooms are more than its nodes and the bytes of its values need.
pub fn ample(text: Vec<u8>, events: Vec<u8>, nodes: usize, value_bytes: usize) -> Case {
    Case { text, events, record_room: record_room(nodes) + 7, piece_room: 4 * value_bytes as u32 + 40 }
}

/// The room for so many records, in numbers.
pub fn record_room(records: usize) -> u32 {
    (RECORD_NUMBERS * records) as u32
}

/// What a short scalar of a style opens with, and the column it is given.
pub fn opening(style: u8) -> (&'static str, u32) {
    match style {
        SINGLE_QUOTED => ("'", 0),
        DOUBLE_QUOTED => ("\"", 0),
        LITERAL => ("", 1),
        FOLDED => ("", 2),
        _ => ("", 0),
    }
}

/// The index of a text's end.
pub fn characters(text: &str) -> u32 {
    text.chars().count() as u32
}

/// Every index of a text, two past its end, and the largest.
pub fn indices(text: &str) -> Vec<u32> {
    (0..characters(text) + 3).chain([0x8000_0000, u32::MAX]).collect()
}

/// A text of so many bytes, as far as they go of one character, and before it some of one byte.
pub fn filled(unit: &str, bytes: usize) -> String {
    format!("{}{}", "a".repeat(bytes % unit.len()), unit.repeat(bytes / unit.len()))
}

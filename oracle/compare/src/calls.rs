//! The other calls, on what a case has for them: the call on one scalar, where the case is a single one without a tag; `scan_error` at the
//! marker of its first event; `parent` and `is_measured` at the records that were built, and on any buffer.

use crate::held::{BEFORE, BEFORE_BYTE, Lent, Memory, holds};
use answers::accessors::Accessors;
use answers::buffer::Buffer;
use answers::decode::{self, Body, Event, Scalar};
use answers::record::{MEASURED, PARENT};
use framing::{Answer, Case, RECORD_NUMBERS};
use saphyr_parser::ScalarStyle;

/// The kinds whose payload is the place and the length of the value.
const REAL_AND_STRING: [u32; 2] = [4, 5];
const PAYLOAD: usize = 10;

/// What the calls on a record answer where there is none.
const NONE: u32 = u32::MAX;

/// Record numbers that no buffer has. Fourteen times the first is 10 and a multiple of 2^32.
const FAR: [u32; 2] = [0x1249_2493, u32::MAX];

/// Of the records of one document, so many at most are asked for, and the last.
const RECORDS: usize = 1_000;

/// The calls that read one number of a record.
#[derive(Clone, Copy)]
pub struct Readers {
    pub parent: fn(&[u32], u32) -> u32,
    pub is_measured: fn(&[u32], u32) -> u32,
}

pub const PORT: Readers = Readers { parent: port::parent, is_measured: port::is_measured };

impl Readers {
    /// The first record of a buffer of which they do not say what the second implementation says. Asked are every one, the one past the
    /// last, and some far off. Refused documents have none.
    pub fn differing(&self, answer: &Answer, records: &[u32]) -> Option<u32> {
        let (expected, _) = answer.records.as_chunks::<RECORD_NUMBERS>();
        let count = expected.len();
        let last = [count.saturating_sub(1), count].map(|n| n as u32);
        evenly(count).chain(last).chain(FAR).find(|n| {
            let record = expected.get(*n as usize);
            let [parent, flag] = record.map_or([NONE; 2], |record| [record[PARENT], record[MEASURED]]);
            !self.say(records, *n, parent, flag)
        })
    }

    /// The first record of a case's buffer, one of the family `damaged`, that they do not read as the second reader does.
    pub fn differing_in_buffer(&self, case: &Case, memory: Memory) -> Option<u32> {
        let numbers = framing::numbers(&case.text);
        let buffer = Buffer { records: numbers.as_chunks().0, events: &case.events };
        let mut lent = Lent::new(&numbers, BEFORE, memory);
        let asked = buffer.records.len() as u32 + 2;
        (0..asked).chain(FAR).find(|n| {
            let [parent, flag] = [buffer.parent(*n as usize), buffer.is_measured(*n as usize)];
            !self.say(lent.lent(), *n, parent.unwrap_or(NONE), flag.unwrap_or(NONE))
        })
    }

    fn say(&self, records: &[u32], n: u32, parent: u32, flag: u32) -> bool {
        (self.parent)(records, n) == parent && (self.is_measured)(records, n) == flag
    }
}

/// All record numbers below a count, or as many of them as are asked for.
fn evenly(count: usize) -> impl Iterator<Item = u32> {
    let asked = count.min(RECORDS);
    (0..asked).map(move |number| (number * count / asked) as u32)
}

/// Whether the two calls that read a text answer what the original answers, and leave what they are lent as document 01 says.
pub fn agree(case: &Case, answer: &Answer, memory: Memory) -> bool {
    let Some((event, end)) = decode::event(&case.events, 0) else {
        return true;
    };
    let single = match &event.body {
        Body::Scalar(scalar) if scalar.tag.is_none() && end == case.events.len() => Some(scalar),
        _ => None,
    };
    scan_error_agrees(case, event.index)
        && single.is_none_or(|scalar| scalar_agrees(case, &event, scalar, answer, memory))
}

/// What the call on one scalar has to answer follows from what `build` answers: the value's place is 0, and so is that of a refusal.
fn scalar_agrees(case: &Case, event: &Event, scalar: &Scalar, answer: &Answer, memory: Memory) -> bool {
    let [code, _, pieces] = answer.returned;
    if code == Answer::PANICKED || (case.record_room as usize) < RECORD_NUMBERS {
        return true;
    }
    let mut record = [0; RECORD_NUMBERS];
    if code == 0 {
        record.copy_from_slice(&answer.records[..RECORD_NUMBERS]);
        if REAL_AND_STRING.contains(&record[0]) {
            record[PAYLOAD] = 0;
        }
    }
    let expected = if code == 0 { [0, 1, pieces] } else { [code, 0, 0] };

    let mut text = Lent::new(&case.text, BEFORE_BYTE, memory);
    let mut value = Lent::new(&case.events[scalar.value.clone()], BEFORE_BYTE, memory);
    let mut lent = Lent::new(&vec![BEFORE; case.piece_room as usize], BEFORE, memory);
    let style = style_number(scalar.style);
    let (returned, found) =
        port::scalar(text.lent(), event.index, scalar.column, style, scalar.empty_span, value.lent(), lent.lent());
    returned == expected
        && found == record
        && holds(lent.lent(), &answer.pieces)
        && text.is_guarded(BEFORE_BYTE)
        && value.is_guarded(BEFORE_BYTE)
        && lent.is_guarded(BEFORE)
}

fn style_number(style: ScalarStyle) -> u8 {
    match style {
        ScalarStyle::Plain => 0,
        ScalarStyle::SingleQuoted => 1,
        ScalarStyle::DoubleQuoted => 2,
        ScalarStyle::Literal => 3,
        ScalarStyle::Folded => 4,
    }
}

fn scan_error_agrees(case: &Case, index: u32) -> bool {
    let asked = Case { text: case.text.clone(), events: index.to_be_bytes().to_vec(), record_room: 0, piece_room: 0 };
    let answer = answers::scan_errors(&asked);
    let expected = match answer.records[..] {
        [start, end] => [0, start, end],
        _ => answer.returned,
    };
    port::scan_error(&case.text, index) == expected
}

//! The family `measured`: what the call on one scalar says of its span, measured or assumed. That is the fourteenth number of its
//! record.

use crate::measured::is_measured;
use crate::{TEXT_LIMIT, decode};
use framing::{Answer, Case};

/// Where the fields of a scalar event without a tag stand.
const INDEX_AT: usize = 3;
const STYLE_AT: usize = 11;
const VALUE_AT: usize = 14;

/// The case is one scalar without a tag. The record of the answer is one number, the fourteenth: 1 for a measured span, 0 for an assumed
/// one or a refusal. Rows 1, 2 and 3 are tested as in the call on one scalar, which gets style and value as they are. The piece room is
/// taken to be ample.
pub fn measured(case: &Case) -> Answer {
    let event = &case.events;
    assert!(event.len() >= VALUE_AT && event[0] == 5 && event[VALUE_AT - 1] == 0, "one scalar without a tag");
    let value = &event[VALUE_AT..];
    if case.text.len() > TEXT_LIMIT || value.len() > TEXT_LIMIT {
        return flagged(1, false);
    }
    let (Ok(text), Ok(value)) = (str::from_utf8(&case.text), str::from_utf8(value)) else {
        return flagged(2, false);
    };
    let Some(style) = decode::style(event[STYLE_AT]) else {
        return flagged(3, false);
    };
    let index = u32::from_be_bytes(event[INDEX_AT..INDEX_AT + 4].try_into().expect("four bytes"));
    flagged(0, is_measured(text, index as usize, style, value))
}

fn flagged(code: u32, measured: bool) -> Answer {
    let nodes = u32::from(code == 0);
    Answer { returned: [code, nodes, 0], records: vec![measured.into()], pieces: Vec::new() }
}

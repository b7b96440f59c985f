//! The family `scan_errors`: where the original locates the errors of its parser.

use crate::{TEXT_LIMIT, original, refused};
use framing::{Answer, Case};

/// The events of the case are marker indices, four bytes each. The records of the answer are the span of the error at each;
/// before it comes an alias at the index before, so that the original's cursor stands there.
pub fn scan_errors(case: &Case) -> Answer {
    if case.text.len() > TEXT_LIMIT {
        return refused(1, 0);
    }
    let Ok(text) = str::from_utf8(&case.text) else {
        return refused(2, 0);
    };
    let mut before = None;
    let mut records = Vec::new();
    for index in framing::numbers(&case.events) {
        records.extend(original::scan_error(text, before, index));
        before = Some(index);
    }
    Answer { returned: [0, (records.len() / 2) as u32, 0], records, pieces: Vec::new() }
}

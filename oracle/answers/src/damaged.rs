//! The family `damaged`: what the accessors say of any numbers.

use crate::accessors::{Accessors, Told};
use crate::buffer::Buffer;
use framing::{Answer, Case};
use std::collections::HashSet;
use std::ops::Range;

/// How far from the last child, or from the count of children, is asked.
const LIMIT: usize = 3;

/// Record numbers and indices that no buffer has. Fourteen times the first is 12 and a multiple of 2^64.
const FAR: usize = 0x1249_2492_4924_924A;
const FARTHEST: usize = usize::MAX;

/// The text of the case is the buffer, four bytes a number; its events are what payloads point into. The records of the
/// answer are the answers about every record number of the buffer, two past it and two far off. Its pieces are the keys, as
/// places and lengths in the event bytes.
pub fn damaged(case: &Case) -> Answer {
    let numbers = framing::numbers(&case.text);
    let buffer = Buffer { records: numbers.as_chunks().0, events: &case.events };
    let parts = keys(&buffer);
    let keys: Vec<&[u8]> = parts.iter().map(|part| &case.events[part.clone()]).collect();

    let mut told = Told::default();
    let count = buffer.records.len();
    for n in (0..count + 2).chain([FAR, FARTHEST]) {
        told.about(&buffer, n, LIMIT, &keys);
        tell_steps(&mut told, &buffer, n);
    }
    let pieces = parts.iter().flat_map(|part| [part.start as u32, part.len() as u32]).collect();
    Answer { returned: [0, count as u32, 0], records: told.0, pieces }
}

/// The single steps from record `n`, and the first and the farthest index.
fn tell_steps(told: &mut Told, buffer: &Buffer, n: usize) {
    told.place(buffer.root(n));
    told.place(buffer.child_before(n));
    told.entry(buffer.pair_ending(n));
    for k in 0..=LIMIT {
        told.place(buffer.child_from_last(n, k));
    }
    for i in [0, FARTHEST] {
        told.place(buffer.get_array_item(n, i));
        told.entry(buffer.hash_entry(n, i));
    }
}

const EMPTY: Range<usize> = 0..0;

/// The empty key, and what the payloads point to, cut off at the end of the event bytes.
fn keys(buffer: &Buffer) -> Vec<Range<usize>> {
    let end = buffer.events.len();
    let mut texts = HashSet::new();
    let mut keys = vec![EMPTY];
    for record in buffer.records {
        let start = end.min(record[10] as usize);
        keys.push(start..end.min(start + record[11] as usize));
    }
    keys.retain(|key| texts.insert(&buffer.events[key.clone()]));
    keys
}

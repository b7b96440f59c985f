//! The accessors over any buffer of numbers, written a second time from document 01's words and from what docs/DECISIONS.md
//! says where they leave it open; the last two numbers from document 02 (c).

use crate::accessors::{Accessors, Entry};
use crate::record::{MEASURED, PARENT};
use framing::Record;
use std::iter;

const STRING: u32 = 5;
const ARRAY: u32 = 7;
const HASH: u32 = 8;

/// Stands for no tag, no piece list and no parent.
const NONE: u32 = u32::MAX;

pub struct Buffer<'a> {
    pub records: &'a [Record],
    pub events: &'a [u8],
}

impl Buffer<'_> {
    /// The number of a record that exists.
    fn existing(&self, n: usize) -> Option<usize> {
        self.get_record(n).map(|_| n)
    }

    /// The root of `n` nodes: the last record.
    pub fn root(&self, n: usize) -> Option<usize> {
        self.existing(n.checked_sub(1)?)
    }

    /// The child before `c`: `c` less its subtree count.
    pub fn child_before(&self, c: usize) -> Option<usize> {
        match self.get_record(c)?[7] {
            0 => None,
            count => self.existing(c.checked_sub(count as usize)?),
        }
    }

    /// How many children record `n` says it has: items, or keys and values.
    fn children(&self, n: usize) -> Option<usize> {
        let len = self.len(n)? as usize;
        Some(if self.is_hash(n)? { 2 * len } else { len })
    }

    /// The record before `n`, then from each the child before it, as many as `n` has children.
    fn children_back(&self, n: usize) -> impl Iterator<Item = usize> {
        iter::successors(self.root(n), |c| self.child_before(*c)).take(self.children(n).unwrap_or(0))
    }

    /// The child `k` before the last.
    pub fn child_from_last(&self, n: usize, k: usize) -> Option<usize> {
        self.children_back(n).nth(k)
    }

    /// The pair whose value is record `v`.
    pub fn pair_ending(&self, v: usize) -> Option<Entry> {
        let key = self.child_before(v)?;
        let (key_span, value_span) = (self.source_info(key)?, self.source_info(v)?);
        Some(Entry { key, value: v, key_span, value_span, entry_span: [key_span[0], value_span[1]] })
    }

    /// The count of children or pairs of a record of this kind.
    fn count(&self, n: usize, kind: u32) -> Option<usize> {
        self.get_record(n).filter(|record| record[0] == kind).map(|record| record[10] as usize)
    }

    fn is_key(&self, k: usize, key: &[u8]) -> bool {
        self.get_record(k).is_some_and(|record| {
            let [at, length] = [record[10], record[11]].map(|number| number as usize);
            record[0] == STRING && self.events.get(at..at + length) == Some(key)
        })
    }
}

impl Accessors for Buffer<'_> {
    fn get_record(&self, n: usize) -> Option<Record> {
        self.records.get(n).copied().filter(|record| (1..=8).contains(&record[0]))
    }

    fn is_scalar(&self, n: usize) -> Option<bool> {
        self.get_record(n).map(|record| ![ARRAY, HASH].contains(&record[0]))
    }

    fn is_array(&self, n: usize) -> Option<bool> {
        self.get_record(n).map(|record| record[0] == ARRAY)
    }

    fn is_hash(&self, n: usize) -> Option<bool> {
        self.get_record(n).map(|record| record[0] == HASH)
    }

    fn len(&self, n: usize) -> Option<u32> {
        let record = self.get_record(n)?;
        Some(if self.is_scalar(n)? { 0 } else { record[10] })
    }

    fn is_empty(&self, n: usize) -> Option<bool> {
        self.len(n).map(|len| len == 0)
    }

    fn source_info(&self, n: usize) -> Option<[u32; 2]> {
        self.get_record(n).map(|record| [record[1], record[2]])
    }

    fn tag(&self, n: usize) -> Option<[u32; 4]> {
        let [_, _, _, start, end, suffix, length, ..] = self.get_record(n)?;
        Some([start, end, suffix, length]).filter(|tag| *tag != [NONE; 4])
    }

    fn content_source_info(&self, n: usize) -> Option<[u32; 2]> {
        let record = self.get_record(n)?;
        (self.is_scalar(n)? && record[8] != NONE).then_some([record[8], record[9]])
    }

    fn last_child(&self, n: usize) -> Option<usize> {
        if self.len(n)? == 0 { None } else { self.root(n) }
    }

    fn parent(&self, n: usize) -> Option<u32> {
        self.get_record(n).map(|record| record[PARENT])
    }

    fn is_measured(&self, n: usize) -> Option<u32> {
        self.get_record(n).map(|record| record[MEASURED])
    }

    fn get_array_item(&self, n: usize, i: usize) -> Option<usize> {
        let after = self.count(n, ARRAY)?.checked_sub(i)?.checked_sub(1)?;
        self.child_from_last(n, after)
    }

    fn hash_entry(&self, n: usize, i: usize) -> Option<Entry> {
        let after = self.count(n, HASH)?.checked_sub(i)?.checked_sub(1)?;
        self.pair_ending(self.child_from_last(n, 2 * after)?)
    }

    fn get_hash_value(&self, n: usize, key: &[u8]) -> Option<usize> {
        let mut children = self.children_back(n);
        let mut found = None;
        for _ in 0..self.count(n, HASH)? {
            let (value, k) = (children.next()?, children.next()?);
            if self.is_key(k, key) {
                found = Some(value);
            }
        }
        found
    }
}

#[cfg(test)]
mod tests {
    use super::*;

    const EVENTS: &[u8] = b"ab";

    fn string(at: u32, length: u32) -> Record {
        [STRING, 3, 4, NONE, NONE, NONE, NONE, 1, 0, 1, at, length, 9, 0]
    }

    fn hash(subtree: u32, pairs: u32) -> Record {
        [HASH, 0, 9, NONE, NONE, NONE, NONE, subtree, NONE, 0, pairs, 0, NONE, 1]
    }

    fn value(records: &[Record], key: &[u8]) -> Option<usize> {
        Buffer { records, events: EVENTS }.get_hash_value(records.len() - 1, key)
    }

    #[test]
    fn the_first_of_equal_keys() {
        let records = [string(0, 1), string(1, 1), string(0, 1), string(0, 0), hash(5, 2)];
        assert_eq!(value(&records, b"a"), Some(1));
        assert_eq!(value(&records, b"b"), None);
    }

    #[test]
    fn a_key_outside_the_events_matches_nothing() {
        let records = [string(1, 2), string(0, 1), hash(3, 1)];
        assert_eq!([value(&records, b"b"), value(&records, b"")], [None; 2]);
    }

    #[test]
    fn a_missing_pair_hides_the_others() {
        let records = [string(0, 1), string(1, 1), hash(3, 2)];
        assert_eq!(value(&records, b"a"), None);
        let buffer = Buffer { records: &records, events: EVENTS };
        assert_eq!(buffer.hash_entry(2, 1).map(|entry| entry.key), Some(0));
        assert!(buffer.hash_entry(2, 0).is_none());
    }

    #[test]
    fn a_missing_record_has_no_children_and_no_child_comes_before_the_first() {
        let mut records = [string(0, 1), string(1, 1), hash(3, 1)];
        let from_last = |records: &[Record], k| Buffer { records, events: EVENTS }.child_from_last(2, k);
        assert_eq!([0, 1, 2].map(|k| from_last(&records, k)), [Some(1), Some(0), None]);
        assert_eq!(Buffer { records: &records, events: EVENTS }.child_from_last(1, 0), None);
        records[2][0] = 9;
        assert_eq!(from_last(&records, 0), None);
    }

    #[test]
    fn a_count_of_zero_ends_the_way() {
        let mut records = [string(0, 1), string(1, 1), hash(3, 1)];
        records[1][7] = 0;
        let buffer = Buffer { records: &records, events: EVENTS };
        assert_eq!(buffer.last_child(2), Some(1));
        assert!(buffer.hash_entry(2, 0).is_none());
    }

    #[test]
    fn the_last_two_numbers_are_as_they_stand() {
        let mut records = [string(0, 1), string(1, 1), hash(3, 1)];
        let last_two = |records: &[Record], n| {
            let buffer = Buffer { records, events: EVENTS };
            [buffer.parent(n), buffer.is_measured(n)]
        };
        assert_eq!(last_two(&records, 0), [Some(9), Some(0)]);
        assert_eq!(last_two(&records, 2), [Some(NONE), Some(1)]);
        assert_eq!(last_two(&records, 3), [None; 2]);
        // Neither is looked into: a parent of a lower number, a flag that is none.
        records[1][PARENT..].copy_from_slice(&[0, 77]);
        assert_eq!(last_two(&records, 1), [Some(0), Some(77)]);
        records[1][0] = 0;
        assert_eq!(last_two(&records, 1), [None; 2]);
    }
}

//! The questions about a record, in the order in which the replay programs ask them, and the numbers of their answers:
//! 0 for none; 1 for no and 2 for yes; one more than a record's number; otherwise 1 and the numbers.

use framing::Record;

/// Answers by record numbers, as the accessors of the port give them. None where there is nothing to answer.
pub trait Accessors {
    fn get_record(&self, n: usize) -> Option<Record>;
    fn is_scalar(&self, n: usize) -> Option<bool>;
    fn is_array(&self, n: usize) -> Option<bool>;
    fn is_hash(&self, n: usize) -> Option<bool>;
    fn len(&self, n: usize) -> Option<u32>;
    fn is_empty(&self, n: usize) -> Option<bool>;
    fn source_info(&self, n: usize) -> Option<[u32; 2]>;
    /// The tag's span, and its suffix's place and length in the event bytes.
    fn tag(&self, n: usize) -> Option<[u32; 4]>;
    /// The first piece and their count.
    fn content_source_info(&self, n: usize) -> Option<[u32; 2]>;
    fn last_child(&self, n: usize) -> Option<usize>;
    /// As it stands in the record, 0xFFFFFFFF for none.
    fn parent(&self, n: usize) -> Option<u32>;
    /// As it stands in the record.
    fn is_measured(&self, n: usize) -> Option<u32>;
    fn get_array_item(&self, n: usize, i: usize) -> Option<usize>;
    fn hash_entry(&self, n: usize, i: usize) -> Option<Entry>;
    fn get_hash_value(&self, n: usize, key: &[u8]) -> Option<usize>;
}

/// A pair of a hash: its records and its spans.
pub struct Entry {
    pub key: usize,
    pub value: usize,
    pub key_span: [u32; 2],
    pub value_span: [u32; 2],
    pub entry_span: [u32; 2],
}

/// Answers as numbers.
#[derive(Default)]
pub struct Told(pub Vec<u32>);

impl Told {
    /// All questions about record `n`: an array and a hash at most at `limit` indices besides the one past the last, and a
    /// hash for every key, any other record for the first key alone.
    pub fn about(&mut self, accessors: &impl Accessors, n: usize, limit: usize, keys: &[&[u8]]) {
        self.numbers(accessors.get_record(n));
        self.truth(accessors.is_scalar(n));
        self.truth(accessors.is_array(n));
        self.truth(accessors.is_hash(n));
        self.numbers(accessors.len(n).map(|len| [len]));
        self.truth(accessors.is_empty(n));
        self.numbers(accessors.source_info(n));
        self.numbers(accessors.tag(n));
        self.numbers(accessors.content_source_info(n));
        self.place(accessors.last_child(n));
        self.numbers(accessors.parent(n).map(|parent| [parent]));
        self.numbers(accessors.is_measured(n).map(|flag| [flag]));
        let len = accessors.len(n).unwrap_or(0) as usize;
        for back in 0..=len.min(limit) {
            self.place(accessors.get_array_item(n, len - back));
            self.entry(accessors.hash_entry(n, len - back));
        }
        let asked = if accessors.is_hash(n) == Some(true) { keys.len() } else { 1 };
        for key in &keys[..asked] {
            self.place(accessors.get_hash_value(n, key));
        }
    }

    pub fn place(&mut self, place: Option<usize>) {
        self.0.push(place.map_or(0, |n| n as u32 + 1));
    }

    pub fn entry(&mut self, entry: Option<Entry>) {
        self.place(entry.as_ref().map(|entry| entry.key));
        if let Some(entry) = entry {
            self.place(Some(entry.value));
            self.0.extend([entry.key_span, entry.value_span, entry.entry_span].as_flattened());
        }
    }

    fn truth(&mut self, truth: Option<bool>) {
        self.0.push(truth.map_or(0, |truth| 1 + u32::from(truth)));
    }

    fn numbers<const N: usize>(&mut self, numbers: Option<[u32; N]>) {
        self.0.push(numbers.is_some().into());
        self.0.extend(numbers.iter().flatten());
    }
}

//! The calls of `include/quarto_yaml.h`, each made safe: a slice goes in as its pointer and its length. All unsafe code is here.

#![allow(unsafe_code)]

use crate::record::RECORD_WIDTH;

/// `code` 0 with two numbers of the call, or a number of the table, its place, and 0.
#[derive(Clone, Copy)]
#[repr(C)]
pub(crate) struct Answer {
    pub(crate) code: u32,
    pub(crate) first: u32,
    pub(crate) second: u32,
}

#[repr(C)]
pub(crate) struct ScalarAnswer {
    pub(crate) answer: Answer,
    pub(crate) record: [u32; RECORD_WIDTH],
}

/// `code` 0 and what the call counts, or a number of the table and 0.
#[repr(C)]
pub(crate) struct Count {
    pub(crate) code: u32,
    pub(crate) count: u64,
}

#[repr(C)]
pub(crate) struct Entry {
    pub(crate) present: u32,
    pub(crate) key: u32,
    pub(crate) value: u32,
    key_start: u32,
    key_end: u32,
    value_start: u32,
    value_end: u32,
    entry_start: u32,
    entry_end: u32,
}

#[repr(C)]
pub(crate) struct Span {
    pub(crate) present: u32,
    pub(crate) start: u32,
    pub(crate) end: u32,
}

#[repr(C)]
pub(crate) struct TagInfo {
    pub(crate) present: u32,
    pub(crate) start: u32,
    pub(crate) end: u32,
    pub(crate) suffix: u32,
    pub(crate) len: u32,
}

#[repr(C)]
pub(crate) struct PieceList {
    pub(crate) present: u32,
    pub(crate) first: u32,
    pub(crate) count: u32,
}

unsafe extern "C" {
    fn quarto_yaml_build(
        text: *const u8,
        text_len: usize,
        events: *const u8,
        events_len: usize,
        records: *mut u32,
        records_len: usize,
        pieces: *mut u32,
        pieces_len: usize,
    ) -> Answer;
    fn quarto_yaml_scalar(
        text: *const u8,
        text_len: usize,
        index: u32,
        column: u32,
        style: u8,
        empty_span: bool,
        value: *const u8,
        value_len: usize,
        pieces: *mut u32,
        pieces_len: usize,
    ) -> ScalarAnswer;
    fn quarto_yaml_scan_error(text: *const u8, text_len: usize, index: u32) -> Answer;
    fn quarto_yaml_cursor_travel(text: *const u8, text_len: usize, markers: *const u32, markers_len: usize) -> Count;
    fn quarto_yaml_root(records: *const u32, records_len: usize, nodes: u32) -> u32;
    fn quarto_yaml_is_scalar(records: *const u32, records_len: usize, n: u32) -> u32;
    fn quarto_yaml_is_array(records: *const u32, records_len: usize, n: u32) -> u32;
    fn quarto_yaml_is_hash(records: *const u32, records_len: usize, n: u32) -> u32;
    fn quarto_yaml_is_empty(records: *const u32, records_len: usize, n: u32) -> u32;
    fn quarto_yaml_len(records: *const u32, records_len: usize, n: u32) -> u32;
    fn quarto_yaml_last_child(records: *const u32, records_len: usize, n: u32) -> u32;
    fn quarto_yaml_child_before(records: *const u32, records_len: usize, c: u32) -> u32;
    fn quarto_yaml_get_array_item(records: *const u32, records_len: usize, n: u32, i: u32) -> u32;
    fn quarto_yaml_get_hash_value(
        records: *const u32,
        records_len: usize,
        events: *const u8,
        events_len: usize,
        n: u32,
        key: *const u8,
        key_len: usize,
    ) -> u32;
    fn quarto_yaml_hash_entry(records: *const u32, records_len: usize, n: u32, i: u32) -> Entry;
    fn quarto_yaml_parent(records: *const u32, records_len: usize, n: u32) -> u32;
    fn quarto_yaml_source_info(records: *const u32, records_len: usize, n: u32) -> Span;
    fn quarto_yaml_is_measured(records: *const u32, records_len: usize, n: u32) -> u32;
    fn quarto_yaml_tag(records: *const u32, records_len: usize, n: u32) -> TagInfo;
    fn quarto_yaml_content_source_info(records: *const u32, records_len: usize, n: u32) -> PieceList;
}

pub(crate) fn build(text: &[u8], events: &[u8], records: &mut [u32], pieces: &mut [u32]) -> Answer {
    // SAFETY: each pointer goes with the length of its slice, and a slice that is written overlaps no other.
    unsafe {
        quarto_yaml_build(
            text.as_ptr(),
            text.len(),
            events.as_ptr(),
            events.len(),
            records.as_mut_ptr(),
            records.len(),
            pieces.as_mut_ptr(),
            pieces.len(),
        )
    }
}

pub(crate) fn scalar(
    text: &[u8],
    (index, column): (u32, u32),
    style: u8,
    empty_span: bool,
    value: &[u8],
    pieces: &mut [u32],
) -> ScalarAnswer {
    // SAFETY: each pointer goes with the length of its slice, and the slice that is written overlaps no other.
    unsafe {
        quarto_yaml_scalar(
            text.as_ptr(),
            text.len(),
            index,
            column,
            style,
            empty_span,
            value.as_ptr(),
            value.len(),
            pieces.as_mut_ptr(),
            pieces.len(),
        )
    }
}

pub(crate) fn scan_error(text: &[u8], index: u32) -> Answer {
    // SAFETY: the pointer goes with the length of its slice, which is only read.
    unsafe { quarto_yaml_scan_error(text.as_ptr(), text.len(), index) }
}

pub(crate) fn cursor_travel(text: &[u8], markers: &[u32]) -> Count {
    // SAFETY: each pointer goes with the length of its slice, and both slices are only read.
    unsafe { quarto_yaml_cursor_travel(text.as_ptr(), text.len(), markers.as_ptr(), markers.len()) }
}

/// An accessor over the records alone.
macro_rules! reader {
    ($name:ident = $call:ident($($argument:ident),*) -> $answer:ty) => {
        pub(crate) fn $name(records: &[u32], $($argument: u32),*) -> $answer {
            // SAFETY: the pointer goes with the length of its slice, which is only read; nothing is assumed of the numbers in it.
            unsafe { $call(records.as_ptr(), records.len(), $($argument),*) }
        }
    };
}

reader!(root = quarto_yaml_root(nodes) -> u32);
reader!(is_scalar = quarto_yaml_is_scalar(n) -> u32);
reader!(is_array = quarto_yaml_is_array(n) -> u32);
reader!(is_hash = quarto_yaml_is_hash(n) -> u32);
reader!(is_empty = quarto_yaml_is_empty(n) -> u32);
reader!(len = quarto_yaml_len(n) -> u32);
reader!(last_child = quarto_yaml_last_child(n) -> u32);
reader!(child_before = quarto_yaml_child_before(c) -> u32);
reader!(get_array_item = quarto_yaml_get_array_item(n, i) -> u32);
reader!(hash_entry = quarto_yaml_hash_entry(n, i) -> Entry);
reader!(parent = quarto_yaml_parent(n) -> u32);
reader!(source_info = quarto_yaml_source_info(n) -> Span);
reader!(is_measured = quarto_yaml_is_measured(n) -> u32);
reader!(tag = quarto_yaml_tag(n) -> TagInfo);
reader!(content_source_info = quarto_yaml_content_source_info(n) -> PieceList);

pub(crate) fn get_hash_value(records: &[u32], events: &[u8], n: u32, key: &[u8]) -> u32 {
    // SAFETY: each pointer goes with the length of its slice; all are only read, and nothing is assumed of what they hold.
    unsafe {
        quarto_yaml_get_hash_value(
            records.as_ptr(),
            records.len(),
            events.as_ptr(),
            events.len(),
            n,
            key.as_ptr(),
            key.len(),
        )
    }
}

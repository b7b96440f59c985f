//! The port, linked as a static library: the one place here that calls it. Apart from the Rust package in `bindings`, which turns the numbers
//! into types: what is compared are the numbers themselves, those of refusals too.

/// The numbers of a record.
pub type Record = [u32; 14];

#[repr(C)]
struct Answered {
    code: u32,
    first: u32,
    second: u32,
}

#[repr(C)]
struct AnsweredScalar {
    answer: Answered,
    record: Record,
}

#[repr(C)]
struct Count {
    code: u32,
    count: u64,
}

unsafe extern "C" {
    fn quarto_yaml_build(
        text: *const u8,
        text_len: usize,
        events: *const u8,
        events_len: usize,
        records: *mut u32,
        records_len: usize,
        pieces: *mut u32,
        pieces_len: usize,
    ) -> Answered;
    fn quarto_yaml_scalar(
        text: *const u8,
        text_len: usize,
        index: u32,
        column: u32,
        style: u8,
        empty_span: bool,
        value: *const u8,
        value_len: usize,
        pieces: *mut u32,
        pieces_len: usize,
    ) -> AnsweredScalar;
    fn quarto_yaml_scan_error(text: *const u8, text_len: usize, index: u32) -> Answered;
    fn quarto_yaml_cursor_travel(text: *const u8, text_len: usize, markers: *const u32, markers_len: usize) -> Count;
    fn quarto_yaml_parent(records: *const u32, records_len: usize, n: u32) -> u32;
    fn quarto_yaml_is_measured(records: *const u32, records_len: usize, n: u32) -> u32;
}

/// What the port answers: `0, nodes, pieces`, or a row's number, its place and 0.
pub fn build(text: &[u8], events: &[u8], records: &mut [u32], pieces: &mut [u32]) -> [u32; 3] {
    // Each pointer comes with the length of the slice that it is of.
    let answered = unsafe {
        quarto_yaml_build(
            text.as_ptr(),
            text.len(),
            events.as_ptr(),
            events.len(),
            records.as_mut_ptr(),
            records.len(),
            pieces.as_mut_ptr(),
            pieces.len(),
        )
    };
    [answered.code, answered.first, answered.second]
}

/// What the port answers on one scalar, and its record.
pub fn scalar(
    text: &[u8],
    index: u32,
    column: u32,
    style: u8,
    empty_span: bool,
    value: &[u8],
    pieces: &mut [u32],
) -> ([u32; 3], Record) {
    // Each pointer comes with the length of the slice that it is of.
    let AnsweredScalar { answer, record } = unsafe {
        quarto_yaml_scalar(
            text.as_ptr(),
            text.len(),
            index,
            column,
            style,
            empty_span,
            value.as_ptr(),
            value.len(),
            pieces.as_mut_ptr(),
            pieces.len(),
        )
    };
    ([answer.code, answer.first, answer.second], record)
}

/// `0, start, end`, or a row's number, 0 and 0.
pub fn scan_error(text: &[u8], index: u32) -> [u32; 3] {
    // The pointer comes with the length of the slice that it is of.
    let answered = unsafe { quarto_yaml_scan_error(text.as_ptr(), text.len(), index) };
    [answered.code, answered.first, answered.second]
}

/// 0 and the steps of the cursor, or a row's number and 0.
pub fn cursor_travel(text: &[u8], markers: &[u32]) -> (u32, u64) {
    // Each pointer comes with the length of the slice that it is of.
    let Count { code, count } =
        unsafe { quarto_yaml_cursor_travel(text.as_ptr(), text.len(), markers.as_ptr(), markers.len()) };
    (code, count)
}

/// The parent of record `n`, or 0xFFFFFFFF at the root and where there is no such record.
pub fn parent(records: &[u32], n: u32) -> u32 {
    // The pointer comes with the length of the slice that it is of.
    unsafe { quarto_yaml_parent(records.as_ptr(), records.len(), n) }
}

/// 1 for a measured span and 0 for an assumed one, or 0xFFFFFFFF where there is no record `n`.
pub fn is_measured(records: &[u32], n: u32) -> u32 {
    // The pointer comes with the length of the slice that it is of.
    unsafe { quarto_yaml_is_measured(records.as_ptr(), records.len(), n) }
}

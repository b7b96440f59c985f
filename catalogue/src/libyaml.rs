//! libyaml, through the shim: the events of a text, and its tokens. All unsafe code is here.

#![allow(unsafe_code)]

use quarto_yaml::Style;
use quarto_yaml::call::DEPTH_LIMIT;
use std::ffi::{CStr, c_char};
use std::fmt;
use std::ptr::{self, NonNull};

/// A place of the text, in characters.
#[derive(Clone, Copy, Debug, PartialEq, Eq)]
#[repr(C)]
pub struct Mark {
    /// How many characters stand before it.
    pub index: usize,
    /// How many of them on its line.
    pub column: usize,
}

/// What an event is. The numbers are the shim's.
#[derive(Clone, Copy, Debug, PartialEq, Eq)]
#[repr(u32)]
#[allow(missing_docs)]
pub enum EventKind {
    Other = 0,
    SequenceStart = 1,
    SequenceEnd = 2,
    MappingStart = 3,
    MappingEnd = 4,
    Scalar = 5,
    Alias = 6,
    DocumentStart = 7,
    DocumentEnd = 8,
}

/// What a token is. The numbers are the shim's.
#[derive(Clone, Copy, Debug, PartialEq, Eq)]
#[repr(u32)]
#[allow(missing_docs)]
pub enum TokenKind {
    Other = 0,
    TagDirective = 1,
    BlockSequenceStart = 2,
    BlockMappingStart = 3,
    BlockEnd = 4,
    FlowSequenceStart = 5,
    FlowSequenceEnd = 6,
    FlowMappingStart = 7,
    FlowMappingEnd = 8,
    BlockEntry = 9,
    Key = 10,
    Value = 11,
    Tag = 12,
    Scalar = 13,
}

/// An event of libyaml. The start is that of the node's properties, if it has any.
#[derive(Clone, Debug)]
pub struct Event {
    /// What it is.
    pub kind: EventKind,
    /// Its start.
    pub start: Mark,
    /// Its end.
    pub end: Mark,
    /// How a scalar is written.
    pub style: Style,
    /// A scalar's value.
    pub value: String,
}

/// A token of libyaml.
#[derive(Clone, Debug)]
pub struct Token {
    /// What it is.
    pub kind: TokenKind,
    /// Its start.
    pub start: Mark,
    /// Its end.
    pub end: Mark,
    /// A tag's handle; a directive's handle.
    pub handle: String,
    /// A tag's suffix; a directive's prefix.
    pub suffix: String,
}

/// Where libyaml stopped.
#[derive(Clone, Copy, Debug, PartialEq, Eq)]
pub enum Place {
    /// A number of characters.
    Index(usize),
    /// A number of bytes.
    Byte(usize),
}

/// Why libyaml stopped, and where.
#[derive(Clone, Debug, PartialEq, Eq)]
pub struct Problem {
    /// Its words.
    pub words: String,
    /// Its place.
    pub place: Place,
}

impl Problem {
    /// The same where this much more text stands before it.
    pub fn moved(self, chars: usize, bytes: usize) -> Problem {
        let place = match self.place {
            Place::Index(index) => Place::Index(index + chars),
            Place::Byte(byte) => Place::Byte(byte + bytes),
        };
        Problem { place, ..self }
    }
}

impl fmt::Display for Problem {
    fn fmt(&self, f: &mut fmt::Formatter<'_>) -> fmt::Result {
        f.write_str(&self.words)
    }
}

/// The events up to the end of the text's first document, and where a second one starts. They end early with the start of a collection
/// that is one too deep, which the library refuses.
pub fn first_document(text: &str) -> Result<(Vec<Event>, Option<Mark>), Problem> {
    let mut stream = Stream::open(text);
    let mut events = Vec::new();
    let (mut depth, mut ended) = (0, false);
    while depth <= DEPTH_LIMIT {
        let Some(event) = stream.next_event()? else { break };
        match event.kind {
            EventKind::DocumentStart if ended => return Ok((events, Some(event.start))),
            EventKind::DocumentEnd => ended = true,
            EventKind::SequenceStart | EventKind::MappingStart => depth += 1,
            EventKind::SequenceEnd | EventKind::MappingEnd => depth -= 1,
            _ => {}
        }
        if !matches!(event.kind, EventKind::Other | EventKind::DocumentStart | EventKind::DocumentEnd) {
            events.push(event);
        }
    }
    Ok((events, None))
}

/// The tokens of a text whose events up to index `last` are known to be sound: those that start at it or before.
pub fn tokens(text: &str, last: usize) -> Result<Vec<Token>, Problem> {
    let mut stream = Stream::open(text);
    let mut tokens = Vec::new();
    while let Some(token) = stream.next_token()? {
        if token.start.index > last {
            break;
        }
        tokens.push(token);
    }
    Ok(tokens)
}

#[repr(C)]
struct ShimString {
    bytes: *const u8,
    len: usize,
}

#[repr(C)]
struct ShimItem {
    kind: u32,
    style: u32,
    start: Mark,
    end: Mark,
    first: ShimString,
    second: ShimString,
}

#[repr(C)]
struct ShimProblem {
    context: *const c_char,
    problem: *const c_char,
    at_byte: u32,
    at: usize,
}

#[repr(C)]
struct ShimStream {
    _opaque: [u8; 0],
}

type Next = unsafe extern "C" fn(*mut ShimStream, *mut ShimItem, *mut ShimProblem) -> u32;

unsafe extern "C" {
    fn shim_open(text: *const u8, len: usize) -> *mut ShimStream;
    fn shim_close(stream: *mut ShimStream);
    fn shim_next_event(stream: *mut ShimStream, item: *mut ShimItem, problem: *mut ShimProblem) -> u32;
    fn shim_next_token(stream: *mut ShimStream, item: *mut ShimItem, problem: *mut ShimProblem) -> u32;
}

/// An open stream over a text that outlives it.
struct Stream<'a> {
    shim: NonNull<ShimStream>,
    _text: &'a str,
}

impl<'a> Stream<'a> {
    fn open(text: &'a str) -> Stream<'a> {
        // SAFETY: the pointer goes with the text's length, and the text lives as long as the stream.
        let shim = unsafe { shim_open(text.as_ptr(), text.len()) };
        Stream { shim: NonNull::new(shim).expect("memory for libyaml's parser"), _text: text }
    }

    fn next(&mut self, next: Next) -> Result<Option<ShimItem>, Problem> {
        const NO_STRING: ShimString = ShimString { bytes: ptr::null(), len: 0 };
        const START: Mark = Mark { index: 0, column: 0 };
        let mut item = ShimItem { kind: 0, style: 0, start: START, end: START, first: NO_STRING, second: NO_STRING };
        let mut problem = ShimProblem { context: ptr::null(), problem: ptr::null(), at_byte: 0, at: 0 };
        // SAFETY: the stream is open, and both other pointers are to structs of the shim's layout.
        match unsafe { next(self.shim.as_ptr(), &mut item, &mut problem) } {
            0 => Ok(Some(item)),
            1 => Ok(None),
            _ => Err(problem.read()),
        }
    }

    fn next_event(&mut self) -> Result<Option<Event>, Problem> {
        let Some(item) = self.next(shim_next_event)? else { return Ok(None) };
        let value = item.first.read(self, item.start)?;
        let ShimItem { start, end, .. } = item;
        Ok(Some(Event { kind: event_kind(item.kind), start, end, style: style(item.style), value }))
    }

    fn next_token(&mut self) -> Result<Option<Token>, Problem> {
        let Some(item) = self.next(shim_next_token)? else { return Ok(None) };
        let (handle, suffix) = (item.first.read(self, item.start)?, item.second.read(self, item.start)?);
        Ok(Some(Token { kind: token_kind(item.kind), start: item.start, end: item.end, handle, suffix }))
    }
}

impl Drop for Stream<'_> {
    fn drop(&mut self) {
        // SAFETY: the stream was opened by the shim and is not used again.
        unsafe { shim_close(self.shim.as_ptr()) }
    }
}

impl ShimString {
    /// A copy, made while the stream has not moved on. (The escapes of a tag can be no UTF-8.)
    fn read(&self, _of: &Stream, at: Mark) -> Result<String, Problem> {
        if self.bytes.is_null() {
            return Ok(String::new());
        }
        // SAFETY: the shim gives so many bytes, which hold until the stream's next call.
        let bytes = unsafe { std::slice::from_raw_parts(self.bytes, self.len) };
        let words = "the escapes here are not UTF-8".to_string();
        String::from_utf8(bytes.to_vec()).map_err(|_| Problem { words, place: Place::Index(at.index) })
    }
}

impl ShimProblem {
    fn read(&self) -> Problem {
        let words = |words: *const c_char| {
            // SAFETY: libyaml's words are constants that end in a zero byte.
            (!words.is_null()).then(|| unsafe { CStr::from_ptr(words) }.to_string_lossy())
        };
        let parts: Vec<_> = words(self.context).into_iter().chain(words(self.problem)).collect();
        let place = if self.at_byte == 1 { Place::Byte(self.at) } else { Place::Index(self.at) };
        Problem { words: parts.join(": "), place }
    }
}

fn event_kind(number: u32) -> EventKind {
    use EventKind::*;
    let kinds =
        [Other, SequenceStart, SequenceEnd, MappingStart, MappingEnd, Scalar, Alias, DocumentStart, DocumentEnd];
    kinds[number as usize]
}

fn token_kind(number: u32) -> TokenKind {
    use TokenKind::*;
    let kinds = [
        Other,
        TagDirective,
        BlockSequenceStart,
        BlockMappingStart,
        BlockEnd,
        FlowSequenceStart,
        FlowSequenceEnd,
        FlowMappingStart,
        FlowMappingEnd,
        BlockEntry,
        Key,
        Value,
        Tag,
        Scalar,
    ];
    kinds[number as usize]
}

fn style(number: u32) -> Style {
    [Style::Plain, Style::SingleQuoted, Style::DoubleQuoted, Style::Literal, Style::Folded][number as usize]
}

//! Stand-in for `saphyr_parser`: events and what they carry, and a `Parser` that scans nothing: it replays the events
//! that were handed in, and then the error that was handed in.

use std::borrow::Cow;
use std::cell::RefCell;
use std::collections::VecDeque;

#[derive(Debug, Clone, Copy)]
pub struct Marker {
    index: usize,
    col: usize,
}

impl Marker {
    pub fn new(index: usize, col: usize) -> Self {
        Self { index, col }
    }

    pub fn index(&self) -> usize {
        self.index
    }

    pub fn col(&self) -> usize {
        self.col
    }
}

#[derive(Debug, Clone, Copy)]
pub struct Span {
    pub start: Marker,
    pub end: Marker,
}

impl Span {
    pub fn is_empty(&self) -> bool {
        self.start.index == self.end.index
    }
}

#[derive(Debug, Clone, Copy, PartialEq)]
pub enum ScalarStyle {
    Plain,
    SingleQuoted,
    DoubleQuoted,
    Literal,
    Folded,
}

#[derive(Debug, Clone)]
pub struct Tag {
    pub handle: String,
    pub suffix: String,
}

/// The numbers are anchors.
#[derive(Debug, Clone)]
pub enum Event<'a> {
    Nothing,
    StreamStart,
    StreamEnd,
    DocumentStart(bool),
    DocumentEnd,
    Alias(usize),
    Scalar(Cow<'a, str>, ScalarStyle, usize, Option<Cow<'a, Tag>>),
    SequenceStart(usize, Option<Cow<'a, Tag>>),
    SequenceEnd,
    MappingStart(usize, Option<Cow<'a, Tag>>),
    MappingEnd,
}

pub trait SpannedEventReceiver<'a> {
    fn on_event(&mut self, ev: Event<'a>, span: Span);
}

#[derive(Debug)]
pub struct ScanError {
    marker: Marker,
    info: String,
}

impl ScanError {
    pub fn new(marker: Marker, info: String) -> Self {
        Self { marker, info }
    }

    pub fn marker(&self) -> &Marker {
        &self.marker
    }

    pub fn info(&self) -> &str {
        &self.info
    }
}

thread_local! {
    static EVENTS: RefCell<VecDeque<(Event<'static>, Span)>> = const { RefCell::new(VecDeque::new()) };
    static ERROR: RefCell<Option<ScanError>> = const { RefCell::new(None) };
}

/// Sets the events that the next `Parser::load` of this thread gives.
pub fn hand_in(events: Vec<(Event<'static>, Span)>) {
    EVENTS.set(events.into());
}

/// Sets the error that the next `Parser::load` of this thread gives after the events.
pub fn hand_in_error(error: ScanError) {
    ERROR.set(Some(error));
}

/// How many of the events handed in have not been given yet.
pub fn events_left() -> usize {
    EVENTS.with_borrow(VecDeque::len)
}

pub struct Parser;

impl Parser {
    pub fn new_from_str(_text: &str) -> Self {
        Self
    }

    pub fn load<'a>(
        &mut self,
        receiver: &mut impl SpannedEventReceiver<'a>,
        _multiple_documents: bool,
    ) -> Result<(), ScanError> {
        while let Some((event, span)) = EVENTS.with_borrow_mut(VecDeque::pop_front) {
            receiver.on_event(event, span);
        }
        ERROR.take().map_or(Ok(()), Err)
    }
}

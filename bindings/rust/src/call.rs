//! The calls that are given a text.

use crate::event::Style;
use crate::record::{PIECE_WIDTH, PieceList, Pieces, RECORD_WIDTH, Record, Span};
use crate::refusal::Refusal;
use crate::sys;
use crate::tree::{Node, Tree};

/// The largest text, and the largest value of a call on one scalar, in bytes.
pub const TEXT_LIMIT: usize = 1_048_576;
/// The largest event bytes.
pub const EVENTS_LIMIT: usize = 4_194_304;
/// The most collections that can be open at once.
pub const DEPTH_LIMIT: usize = 64;
/// The most markers of [`cursor_travel`].
pub const MARKERS_LIMIT: usize = 1_048_576;

/// How many nodes and pieces a build left at the front of the buffers.
#[derive(Clone, Copy, Debug, PartialEq, Eq)]
pub struct Built {
    /// How many records.
    pub nodes: u32,
    /// How many pieces.
    pub pieces: u32,
}

/// A built document that owns its records and pieces.
#[derive(Clone, Debug)]
pub struct Catalogue<'a> {
    events: &'a [u8],
    records: Vec<u32>,
    pieces: Vec<u32>,
    built: Built,
}

impl Catalogue<'_> {
    /// The root.
    pub fn root(&self) -> Node<'_> {
        self.tree().root(self.built.nodes).expect("a build that is not refused has a root")
    }

    /// The records and pieces as a tree.
    pub fn tree(&self) -> Tree<'_> {
        Tree::new(self.events, &self.records, &self.pieces)
    }

    /// How many nodes and pieces there are.
    pub fn built(&self) -> Built {
        self.built
    }

    /// The numbers of the records, fourteen each.
    pub fn records(&self) -> &[u32] {
        &self.records
    }

    /// The numbers of the pieces, four each.
    pub fn pieces(&self) -> &[u32] {
        &self.pieces
    }
}

/// Builds a document from a text and the bytes of its events, in buffers of its own.
///
/// It lends [`record_room`] and at most [`piece_room`] numbers, so that no events make it take more than some tens of megabytes. That is
/// enough for the events of a parser; [`Refusal::NoPieceRoom`] says that the scalars of these events share bytes of the text.
pub fn build<'a>(text: &[u8], events: &'a [u8]) -> Result<Catalogue<'a>, Refusal> {
    let mut records = vec![0; record_room(events)];
    let most = piece_room(text, events);
    let mut pieces = vec![0; first_piece_room(text, events).min(most)];
    let mut answer = build_in(text, events, &mut records, &mut pieces);
    if matches!(answer, Err(Refusal::NoPieceRoom { .. })) && pieces.len() < most {
        pieces = vec![0; most];
        answer = build_in(text, events, &mut records, &mut pieces);
    }
    let built = answer?;
    records.truncate(RECORD_WIDTH * built.nodes as usize);
    pieces.truncate(PIECE_WIDTH * built.pieces as usize);
    Ok(Catalogue { events, records, pieces, built })
}

/// Builds a document in the caller's buffers. What they held before does not matter; numbers that are not used are set to 0, and all of
/// them if it is refused. [`Tree::new`] reads them.
pub fn build_in(text: &[u8], events: &[u8], records: &mut [u32], pieces: &mut [u32]) -> Result<Built, Refusal> {
    let answer = answered(sys::build(text, events, records, pieces))?;
    Ok(Built { nodes: answer.first, pieces: answer.second })
}

/// How many numbers of record room are always enough: each event but a start completes one node.
pub fn record_room(events: &[u8]) -> usize {
    RECORD_WIDTH * numbers_of_events(events).filter(|number| !matches!(number, 1 | 3)).count()
}

/// How many numbers of piece room are enough where no two scalars share bytes of the text.
///
/// Every step of a scalar's walk takes at least one byte of the text, but for one at the text's end that can only be its last. So there are
/// at most as many pieces as the text has bytes, and one more for each scalar.
pub fn piece_room(text: &[u8], events: &[u8]) -> usize {
    PIECE_WIDTH * (text.len().min(TEXT_LIMIT) + scalars(events))
}

/// Most scalars have one piece, and two more for each escape and folded line.
fn first_piece_room(text: &[u8], events: &[u8]) -> usize {
    PIECE_WIDTH * (2 * scalars(events) + text.len() / 32)
}

fn scalars(events: &[u8]) -> usize {
    numbers_of_events(events).filter(|number| *number == 5).count()
}

/// The first byte of each event, up to one whose header is malformed. Events past the limit are not looked at, since they are refused.
fn numbers_of_events(events: &[u8]) -> impl Iterator<Item = u8> {
    let mut rest = if events.len() <= EVENTS_LIMIT { events } else { &[] };
    std::iter::from_fn(move || {
        let [number @ 1..=6, high, low, ..] = *rest else { return None };
        let body = usize::from(u16::from_be_bytes([high, low]));
        rest = rest.get(3 + body..).unwrap_or_default();
        (body >= 4).then_some(number)
    })
}

/// One scalar with no tag: what its event would give.
#[derive(Clone, Copy, Debug, PartialEq, Eq)]
pub struct ScalarEvent<'a> {
    /// The marker's index: how many characters of the text stand before it.
    pub index: u32,
    /// How many characters stand before the marker on its line.
    pub column: u32,
    /// How it is written.
    pub style: Style,
    /// Whether the parser gave it an empty span.
    pub empty_span: bool,
    /// The decoded value.
    pub value: &'a [u8],
}

/// The record of one scalar, and its pieces.
#[derive(Clone, Debug)]
pub struct Scalar {
    /// Its record. The place of its value is 0, and it has no parent.
    pub record: Record,
    pieces: Vec<u32>,
}

impl Scalar {
    /// Its pieces in order; none where they cannot be found.
    pub fn pieces(&self) -> Option<Pieces<'_>> {
        Pieces::new(&self.pieces, self.record.pieces?)
    }
}

/// Reads one scalar, in a buffer of its own, which [`piece_room`] of one scalar is always enough for.
pub fn scalar(text: &[u8], event: &ScalarEvent) -> Result<Scalar, Refusal> {
    let most = PIECE_WIDTH * (text.len().min(TEXT_LIMIT) + 1);
    let mut pieces = vec![0; (PIECE_WIDTH * 16).min(most)];
    let mut answer = scalar_in(text, event, &mut pieces);
    if matches!(answer, Err(Refusal::NoPieceRoom { .. })) && pieces.len() < most {
        pieces = vec![0; most];
        answer = scalar_in(text, event, &mut pieces);
    }
    let record = answer?;
    let count = record.pieces.map_or(0, |PieceList { count, .. }| count);
    pieces.truncate(PIECE_WIDTH * count as usize);
    Ok(Scalar { record, pieces })
}

/// Reads one scalar, its pieces in the caller's buffer. Numbers that are not used are set to 0, and all of them if it is refused.
pub fn scalar_in(text: &[u8], event: &ScalarEvent, pieces: &mut [u32]) -> Result<Record, Refusal> {
    let ScalarEvent { index, column, style, empty_span, value } = *event;
    let sys::ScalarAnswer { answer, record } =
        sys::scalar(text, (index, column), style as u8, empty_span, value, pieces);
    answered(answer)?;
    Ok(Record::new(&record).expect("a scalar that is not refused has a kind"))
}

/// The bytes of the character at a marker index, where a parser reports an error; empty at the text's end or past it.
pub fn scan_error(text: &[u8], index: u32) -> Result<Span, Refusal> {
    let answer = answered(sys::scan_error(text, index))?;
    Ok(Span { start: answer.first, end: answer.second })
}

/// How far the cursor of a build travels: the character steps from one marker to the next, at most 2^40.
///
/// An index past the text stands for the text's end. The cursor starts at the text's start and goes straight from each index to the next,
/// forward or back, a character a step; a text that is ASCII needs no cursor, and no step. With markers that never go back there are at
/// most as many steps as the text has characters.
///
/// The markers of a document are the indices of all its events in order, the ends of collections too: [`build`] takes its cursor to each. It
/// passes over characters in chunks where it can, so the steps are an upper bound on its work. For this call no cursor goes from marker to
/// marker: its time is that of a look at each byte and each marker.
///
/// Refused are a text above [`TEXT_LIMIT`] and more than [`MARKERS_LIMIT`] markers ([`Refusal::TooLong`]), then a text that is not UTF-8.
///
/// ```
/// use quarto_yaml::cursor_travel;
/// use quarto_yaml::event::{Event, Style};
///
/// let text = "é: a";
/// let scalar = |index, value| {
///     Event::Scalar { index, column: index, style: Style::Plain, empty_span: false, tag: None, value }
/// };
/// let events = [
///     Event::MappingStart { index: 1, tag: None },
///     scalar(0, "é"),
///     scalar(3, "a"),
///     Event::MappingEnd { index: 4 },
/// ];
/// let markers: Vec<u32> = events.iter().map(Event::index).collect();
///
/// // To the colon, back to the key, on to the value, and to the end.
/// assert_eq!(cursor_travel(text.as_bytes(), &markers)?, 1 + 1 + 3 + 1);
/// # Ok::<(), quarto_yaml::Refusal>(())
/// ```
pub fn cursor_travel(text: &[u8], markers: &[u32]) -> Result<u64, Refusal> {
    let sys::Count { code, count } = sys::cursor_travel(text, markers);
    accepted(code, 0)?;
    Ok(count)
}

fn answered(answer: sys::Answer) -> Result<sys::Answer, Refusal> {
    accepted(answer.code, answer.first)?;
    Ok(answer)
}

fn accepted(code: u32, place: u32) -> Result<(), Refusal> {
    match code {
        0 => Ok(()),
        code => Err(Refusal::new(code, place).expect("the table has the numbers 0 to 9")),
    }
}

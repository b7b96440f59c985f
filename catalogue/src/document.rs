//! A file's one document: its events, and what the library builds of them.

use crate::convert;
use crate::failure::{Failure, Position};
use quarto_yaml::call::TEXT_LIMIT;
use quarto_yaml::event::{Event, encode};
use quarto_yaml::{Catalogue, Node, Piece, build};

/// A text with its catalogue.
pub struct Document<'a> {
    /// The whole file.
    pub text: &'a str,
    /// What the library built.
    pub catalogue: &'a Catalogue<'a>,
    /// For each record the value of the scalar as the parser decoded it; none for an alias and a collection.
    values: Vec<Option<&'a str>>,
    /// The byte after each newline.
    lines: Vec<usize>,
    /// How many characters start before each byte.
    chars: Vec<u32>,
}

/// A stretch of a scalar's value.
pub struct Stretch<'a> {
    /// Where it came from.
    pub piece: Piece,
    /// Its part of the value.
    pub content: &'a str,
}

/// Parses the one document of a file, and hands on its text and its events. These end early, with the start of a collection that is one
/// too deep, if there is one.
pub fn with_events<T>(bytes: &[u8], then: impl FnOnce(&str, &[Event]) -> Result<T, Failure>) -> Result<T, Failure> {
    if bytes.len() > TEXT_LIMIT {
        return Err(Failure::new("too large: more than 1,048,576 bytes"));
    }
    let text = str::from_utf8(bytes).map_err(|error| Failure::not_utf8(bytes, error.valid_up_to()))?;
    let parsed = convert::parse(text).map_err(|problem| Failure::of_problem(&problem, text))?;
    if let Some(index) = parsed.second {
        return Err(Failure::at_index("a second document starts here; a catalogue is of one", text, index));
    }
    let events = parsed.events();
    if events.is_empty() {
        return Err(Failure::new("no document: the file is empty or has nothing but comments"));
    }
    then(text, &events)
}

/// Builds the document of a file and hands it on.
pub fn with_document<T>(bytes: &[u8], then: impl FnOnce(&Document) -> T) -> Result<T, Failure> {
    with_events(bytes, |text, events| {
        let bytes = encode(events).map_err(|too_long| Failure::of_too_long(&too_long, text, events))?;
        let catalogue = build(text.as_bytes(), &bytes).map_err(|refusal| Failure::of_refusal(refusal, text, events))?;
        Ok(then(&Document::new(text, &catalogue, events)))
    })
}

impl<'a> Document<'a> {
    fn new(text: &'a str, catalogue: &'a Catalogue<'a>, events: &[Event<'a>]) -> Document<'a> {
        let lines = text.match_indices('\n').map(|(byte, _)| byte + 1).collect();
        Document { text, catalogue, values: values(events), lines, chars: chars_before(text) }
    }

    /// The scalars in the order of the file.
    pub fn scalars(&self) -> impl Iterator<Item = Node<'_>> {
        self.catalogue.tree().nodes().filter(|node| node.is_scalar())
    }

    /// The decoded value of a scalar; none for an alias.
    pub fn value(&self, node: Node) -> Option<&'a str> {
        self.values[node.number() as usize]
    }

    /// The pieces of a scalar with the parts of its value; none where it has no list.
    pub fn stretches(&self, node: Node) -> Option<Vec<Stretch<'a>>> {
        let value = self.value(node)?;
        let mut from = 0;
        let pieces = node.pieces()?.map(|piece| {
            let to = from + piece.content as usize;
            let content = value.get(from..to).unwrap_or_default();
            from = to;
            Stretch { piece, content }
        });
        Some(pieces.collect())
    }

    /// The line and the character of a byte.
    pub fn position(&self, byte: u32) -> Position {
        let byte = byte as usize;
        let line = self.lines.partition_point(|start| *start <= byte);
        let start = if line == 0 { 0 } else { self.lines[line - 1] };
        Position { line: line + 1, column: (self.chars[byte] - self.chars[start]) as usize + 1 }
    }
}

fn chars_before(text: &str) -> Vec<u32> {
    let starts = (0..text.len()).map(|byte| u32::from(text.is_char_boundary(byte)));
    let mut before = 0;
    let counted = starts.map(|start| {
        before += start;
        before
    });
    std::iter::once(0).chain(counted).collect()
}

/// Every event but a start completes one record, in order.
fn values<'a>(events: &[Event<'a>]) -> Vec<Option<&'a str>> {
    let completing =
        events.iter().filter(|event| !matches!(event, Event::SequenceStart { .. } | Event::MappingStart { .. }));
    let value = |event: &Event<'a>| match *event {
        Event::Scalar { value, .. } => Some(value),
        _ => None,
    };
    completing.map(value).collect()
}

//! The original, run on admitted events.

use crate::admit::{Admitted, Open};
use crate::decode::{Body, Collection, Event, Tag};
use crate::record;
use quarto_yaml::{Error, YamlWithSourceInfo};
use saphyr_parser::{Marker, ScanError, Span};
use std::any::Any;
use std::borrow::Cow;
use std::ops::Range;
use std::panic;

/// An event as the original receives it.
pub type Received = (saphyr_parser::Event<'static>, Span);

/// The original looks at no anchor.
const ANCHOR: usize = 0;

/// The original panicked on this event.
pub struct Panicked<'a>(pub &'a Event);

/// The tree that the original builds, or none without events. Collections left open are closed after the last event,
/// so that the nodes completed before can be seen.
pub fn build<'a>(text: &str, bytes: &[u8], admitted: &'a Admitted) -> Result<Option<YamlWithSourceInfo>, Panicked<'a>> {
    let closing = closing(&admitted.open);
    let after = closing.len();
    let events = admitted.events.iter().map(|event| received(event, bytes));
    saphyr_parser::hand_in(events.chain(closing).collect());
    match panic::catch_unwind(|| quarto_yaml::parse(text)) {
        Ok(tree) => Ok(tree.ok()),
        Err(payload) if is_listed(&*payload) => {
            let left = saphyr_parser::events_left() - after;
            Err(Panicked(&admitted.events[admitted.events.len() - left - 1]))
        }
        Err(payload) => panic::resume_unwind(payload),
    }
}

/// The span of the error at a marker index. An alias at the index `before`, if there is one, comes before the error.
pub fn scan_error(text: &str, before: Option<u32>, index: u32) -> [u32; 2] {
    let alias = before.map(|index| (saphyr_parser::Event::Alias(ANCHOR), span(index, 0, true)));
    saphyr_parser::hand_in(alias.into_iter().collect());
    saphyr_parser::hand_in_error(ScanError::new(Marker::new(index as usize, 0), String::new()));
    match quarto_yaml::parse(text) {
        Err(Error::ParseError { location: Some(location), .. }) => record::offsets(&location),
        _ => unreachable!("the error that was handed in, with its place"),
    }
}

/// Leaves the listed panic unreported.
pub fn silence_listed_panic() {
    let report = panic::take_hook();
    panic::set_hook(Box::new(move |info| {
        if !is_listed(info.payload()) {
            report(info);
        }
    }));
}

/// Whether a panic is the one that document 01 lists: at an escape `\u` whose four bytes end inside a character.
fn is_listed(payload: &(dyn Any + Send)) -> bool {
    payload
        .downcast_ref::<String>()
        .is_some_and(|message| message.contains("byte index 6 is not a char boundary") && message.contains("of `\\u"))
}

/// The ends of the open collections, innermost first, with an alias for each missing value.
fn closing(open: &[Open]) -> Vec<Received> {
    let mut events = Vec::new();
    let mut completed_child = false;
    for open in open.iter().rev() {
        // A collection just closed is a key that has no value, or the value of the key before it.
        if open.is_mapping() && open.awaits_value != completed_child {
            events.push((saphyr_parser::Event::Alias(ANCHOR), span(0, 0, true)));
        }
        events.push((end(open.collection), span(0, 0, true)));
        completed_child = true;
    }
    events
}

pub fn received(event: &Event, bytes: &[u8]) -> Received {
    use saphyr_parser::Event::*;
    let mut column = 0;
    let mut empty_span = true;
    let received = match &event.body {
        Body::Start(Collection::Sequence, yaml_tag) => SequenceStart(ANCHOR, tag(yaml_tag, bytes)),
        Body::Start(Collection::Mapping, yaml_tag) => MappingStart(ANCHOR, tag(yaml_tag, bytes)),
        Body::End(collection) => end(*collection),
        Body::Alias => Alias(ANCHOR),
        Body::Scalar(scalar) => {
            column = scalar.column;
            empty_span = scalar.empty_span;
            let value = Cow::Owned(text(&scalar.value, bytes));
            Scalar(value, scalar.style, ANCHOR, tag(&scalar.tag, bytes))
        }
    };
    (received, span(event.index, column, empty_span))
}

fn end(collection: Collection) -> saphyr_parser::Event<'static> {
    match collection {
        Collection::Sequence => saphyr_parser::Event::SequenceEnd,
        Collection::Mapping => saphyr_parser::Event::MappingEnd,
    }
}

fn tag(tag: &Option<Tag>, bytes: &[u8]) -> Option<Cow<'static, saphyr_parser::Tag>> {
    tag.as_ref().map(|tag| {
        Cow::Owned(saphyr_parser::Tag { handle: text(&tag.handle, bytes), suffix: text(&tag.suffix, bytes) })
    })
}

fn text(part: &Range<usize>, bytes: &[u8]) -> String {
    String::from_utf8(bytes[part.clone()].to_vec()).expect("the reader tests for UTF-8")
}

fn span(index: u32, column: u32, empty: bool) -> Span {
    let start = index as usize;
    let end = if empty { start } else { start + 1 };
    Span { start: Marker::new(start, column as usize), end: Marker::new(end, column as usize) }
}

//! A case in a form to paste.

use crate::held::Outcome;
use crate::travels::{self, Travel};
use answers::decode::{self, Body};
use framing::{Answer, Case, RECORD_NUMBERS};

pub fn print(case: &Case, outcome: &Outcome, answer: &Answer) {
    print_case(case);
    println!("  rooms   {} records numbers, {} piece numbers", case.record_room, case.piece_room);
    println!("  returned: original {:?}, port {:?}", answer.returned, outcome.returned);
    print_numbers("records", RECORD_NUMBERS, &answer.records, &outcome.records);
    print_numbers("pieces", 4, &answer.pieces, &outcome.pieces);
    if !outcome.kept {
        println!("  a guard, the text or the events were written to");
    }
}

/// A buffer of a case of the family `damaged`, a record on each line.
pub fn print_buffer(case: &Case) {
    let numbers = framing::numbers(&case.text);
    for (row, record) in numbers.chunks(RECORD_NUMBERS).enumerate() {
        println!("  record {row}: {record:?}");
    }
}

/// So many bytes of a text and so many markers are printed.
const SHOWN: usize = 100;

pub fn print_travel(travel: &Travel, outcome: &travels::Outcome) {
    let Travel { text, markers } = travel;
    let [shown_text, shown_markers] = [text.len(), markers.len()].map(|length| length.min(SHOWN));
    println!("  text    {} bytes: b\"{}\"", text.len(), text[..shown_text].escape_ascii());
    println!("  markers {}: {:?}", markers.len(), &markers[..shown_markers]);
    println!("  returned: second implementation {:?}, port {:?}", travel.expected(), outcome.returned);
    if !outcome.kept {
        println!("  a guard, the text or the markers were written to");
    }
}

fn print_case(case: &Case) {
    println!("  text    b\"{}\"", case.text.escape_ascii());
    println!("  events  {}", hexadecimal(&case.events));
    print_events(&case.events);
}

fn hexadecimal(bytes: &[u8]) -> String {
    bytes.iter().map(|byte| format!("{byte:02x}")).collect()
}

fn print_events(bytes: &[u8]) {
    let mut place = 0;
    while let Some((event, next)) = decode::event(bytes, place) {
        let body = match &event.body {
            Body::Start(collection, tag) => {
                format!("{collection:?} start{}", if tag.is_some() { ", tagged" } else { "" })
            }
            Body::End(collection) => format!("{collection:?} end"),
            Body::Alias => "alias".into(),
            Body::Scalar(scalar) => format!(
                "{:?} scalar, column {}{}{}, value b\"{}\"",
                scalar.style,
                scalar.column,
                if scalar.empty_span { ", empty span" } else { "" },
                if scalar.tag.is_some() { ", tagged" } else { "" },
                bytes[scalar.value.clone()].escape_ascii()
            ),
        };
        println!("          {} at index {}: {body}", event.place, event.index);
        place = next;
    }
    if place < bytes.len() {
        println!("          then {} bytes that are no event", bytes.len() - place);
    }
}

/// The rows of a buffer that differ; behind the expected numbers are zeros.
fn print_numbers(name: &str, width: usize, expected: &[u32], found: &[u32]) {
    let mut expected = expected.to_vec();
    expected.resize(found.len().max(expected.len()), 0);
    for (row, (expected, found)) in expected.chunks(width).zip(found.chunks(width)).enumerate() {
        if expected != found {
            println!("  {name} {row}: original {expected:?}, port {found:?}");
        }
    }
}

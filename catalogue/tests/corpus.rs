//! The corpus of worked examples of the YAML standard: libyaml's events, converted, beside the corpus's own.
//!
//! `corpus-differences.txt` has every event that differs, each with the number of its reason in README.md.

use catalogue::{convert, libyaml};
use quarto_yaml::build;
use quarto_yaml::event::encode;
use std::fmt::Write;

const CORPUS: &[u8] = include_bytes!("../../oracle/corpus/spec-examples.bin");

/// A four-byte length and so many bytes.
fn part<'a>(rest: &mut &'a [u8]) -> &'a [u8] {
    let (len, after) = rest.split_first_chunk().unwrap();
    let (part, after) = after.split_at(u32::from_be_bytes(*len) as usize);
    *rest = after;
    part
}

/// The texts of the corpus with their event bytes.
fn documents() -> Vec<(&'static str, &'static [u8])> {
    let (count, mut rest) = CORPUS.split_first_chunk().unwrap();
    let documents =
        (0..u32::from_be_bytes(*count)).map(|_| (str::from_utf8(part(&mut rest)).unwrap(), part(&mut rest))).collect();
    assert!(rest.is_empty());
    documents
}

/// The bytes of each event.
fn split(mut events: &[u8]) -> Vec<&[u8]> {
    let mut all = Vec::new();
    while let [_, high, low, ..] = *events {
        let (event, rest) = events.split_at(3 + usize::from(u16::from_be_bytes([high, low])));
        all.push(event);
        events = rest;
    }
    all
}

/// An event's bytes in words: marker index; for a scalar column, style and flag; tag; value.
fn words(event: &[u8]) -> String {
    let number = |at: usize| u32::from_be_bytes(event[at..at + 4].try_into().unwrap());
    let text = |bytes: &[u8]| String::from_utf8(bytes.to_vec()).unwrap();
    let names = ["sequence", "sequence end", "mapping", "mapping end", "scalar", "alias"];
    let mut words = format!("{} {}", names[usize::from(event[0]) - 1], number(3));
    let mut rest = match event[0] {
        1 | 3 => &event[7..],
        5 => {
            write!(words, " column {} style {} empty {}", number(7), event[11], event[12]).unwrap();
            &event[13..]
        }
        _ => return words,
    };
    if rest[0] == 1 {
        let mut part = |from: usize| {
            let len = usize::from(u16::from_be_bytes([rest[from], rest[from + 1]]));
            let part = text(&rest[from + 2..from + 2 + len]);
            rest = &rest[from + 2 + len..];
            part
        };
        let (handle, suffix) = (part(1), part(0));
        write!(words, " tag {handle:?} {suffix:?}").unwrap();
    } else {
        rest = &rest[1..];
    }
    if event[0] == 5 {
        write!(words, " {:?}", text(rest)).unwrap();
    }
    words
}

fn compared() -> String {
    let mut report = String::new();
    for (number, (text, expected)) in documents().into_iter().enumerate() {
        let parsed = match convert::parse(text) {
            Ok(parsed) => parsed,
            Err(problem) => {
                writeln!(report, "document {number}: libyaml refuses it: {problem}").unwrap();
                continue;
            }
        };
        let found = encode(&parsed.events()).unwrap();
        let (expected, found) = (split(expected), split(&found));
        assert_eq!(expected.len(), found.len(), "document {number}");
        for (at, (expected, found)) in expected.iter().zip(&found).enumerate() {
            if expected != found {
                writeln!(
                    report,
                    "document {number} event {at}\n  corpus  {}\n  here    {}",
                    words(expected),
                    words(found)
                )
                .unwrap();
            }
        }
    }
    report
}

/// The list without the reasons, which stand after ` # `.
fn listed() -> String {
    let lines = include_str!("corpus-differences.txt").lines();
    lines.map(|line| line.split(" # ").next().unwrap().to_string() + "\n").collect()
}

#[test]
fn the_differences_are_those_that_are_listed() {
    assert_eq!(compared(), listed());
}

/// Scalars of the documents that libyaml takes, and how many of them have a list of pieces: by the corpus's events, and by ours.
#[test]
fn more_scalars_have_a_list_than_by_the_events_of_the_corpus() {
    let counted = |text: &str, events: &[u8]| {
        let catalogue = build(text.as_bytes(), events).unwrap();
        let values = split(events).into_iter().filter(|event| event[0] == 5).count();
        (values, catalogue.tree().nodes().filter(|node| node.piece_list().is_some()).count())
    };
    let (mut corpus, mut here) = ((0, 0), (0, 0));
    for (text, events) in documents() {
        let Ok(parsed) = convert::parse(text) else { continue };
        let (theirs, ours) = (counted(text, events), counted(text, &encode(&parsed.events()).unwrap()));
        corpus = (corpus.0 + theirs.0, corpus.1 + theirs.1);
        here = (here.0 + ours.0, here.1 + ours.1);
    }
    assert_eq!((corpus, here), ((434, 402), (434, 430)));
}

/// The conversion looks tokens up by where they start.
#[test]
fn tokens_come_in_the_order_of_the_text() {
    for (text, _) in documents() {
        let tokens = libyaml::tokens(text, text.len()).unwrap_or_default();
        assert!(tokens.is_sorted_by_key(|token| token.start.index), "{text}");
    }
}

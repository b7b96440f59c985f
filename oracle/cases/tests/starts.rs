//! Document 02 (g) of the original's own starts: none lies outside the text or inside a character. And faulty second implementations, each of
//! which answers otherwise somewhere in the sample of the family `starts`.

use answers::answer;
use answers::decode::Collection::{self, Mapping, Sequence};
use answers::decode::{self, Body};
use answers::record::START;
use cases::rng::Rng;
use cases::run::Run;
use cases::{FAMILIES, RANDOM, SEED};
use framing::{Case, RECORD_NUMBERS};
use saphyr_parser::ScalarStyle::{self, DoubleQuoted, Folded, Literal, Plain, SingleQuoted};
use std::ops::Range;

fn sample() -> Vec<Case> {
    let (_, family) = FAMILIES.iter().find(|(name, _)| *name == "starts").expect("the family");
    let mut cases = Vec::new();
    family(&mut Run::new(false, Rng::new(SEED), &mut |case| cases.push(case.clone())));
    cases
}

/// What a start may hang on, and what it may not.
struct Scalar {
    style: ScalarStyle,
    value: String,
    empty_span: bool,
    column: u32,
    suffix: Option<String>,
    /// The collections that it is in, the innermost last.
    around: Vec<Around>,
    /// Whether the node before it in the same collection is a collection.
    after_collection: bool,
}

/// An open collection, and how many nodes were completed in it before.
#[derive(Clone, Copy)]
struct Around {
    collection: Collection,
    children: usize,
}

impl Around {
    fn awaits(&self) -> bool {
        self.collection == Mapping && self.children % 2 == 1
    }
}

impl Scalar {
    fn is_awaited(&self) -> bool {
        self.around.last().is_some_and(Around::awaits)
    }

    fn is_in(&self, collection: Collection) -> bool {
        self.around.last().is_some_and(|around| around.collection == collection)
    }

    /// How many nodes are before it in the same collection.
    fn before(&self) -> usize {
        self.around.last().map_or(0, |around| around.children)
    }

    /// What the collection that it is in stands in itself.
    fn outer(&self) -> Option<&Around> {
        self.around.iter().nth_back(1)
    }

    fn is_in_value(&self) -> bool {
        self.outer().is_some_and(Around::awaits)
    }

    fn is_within(&self, collection: Collection) -> bool {
        self.outer().is_some_and(|outer| outer.collection == collection)
    }

    fn is_empty_plain(&self) -> bool {
        self.style == Plain && self.value.is_empty()
    }

    fn is_plain_value(&self) -> bool {
        self.style == Plain && self.is_awaited()
    }

    fn is_empty_value_of(&self, style: ScalarStyle) -> bool {
        self.style == style && self.value.is_empty() && self.is_awaited()
    }

    fn steps(&self) -> bool {
        self.is_empty_value_of(Plain)
    }
}

/// A text, and of each event the marker index, with the scalar if it is one.
struct Document {
    text: String,
    events: Vec<(usize, Option<Scalar>)>,
}

impl Document {
    fn of(case: &Case) -> Document {
        let text = |part: &Range<usize>| String::from_utf8(case.events[part.clone()].to_vec()).expect("it was read");
        let mut events = Vec::new();
        let mut open: Vec<Around> = Vec::new();
        let mut after_collection = false;
        for event in decode::events(&case.events) {
            let scalar = match &event.body {
                Body::Scalar(scalar) => Some(Scalar {
                    style: scalar.style,
                    value: text(&scalar.value),
                    empty_span: scalar.empty_span,
                    column: scalar.column,
                    suffix: scalar.tag.as_ref().map(|tag| text(&tag.suffix)),
                    around: open.clone(),
                    after_collection,
                }),
                _ => None,
            };
            match &event.body {
                Body::Start(collection, _) => open.push(Around { collection: *collection, children: 0 }),
                Body::End(_) => _ = open.pop(),
                Body::Scalar(_) | Body::Alias => {}
            }
            if let (true, Some(around)) = (event.completes(), open.last_mut()) {
                around.children += 1;
            }
            after_collection = matches!(event.body, Body::End(_));
            events.push((event.index as usize, scalar));
        }
        Document { text: String::from_utf8(case.text.clone()).expect("the text of a built document"), events }
    }
}

/// Where the records of a built document's scalars start; none for a case that is not built.
fn originals(case: &Case) -> Option<Vec<usize>> {
    let answer = answer(case);
    let (records, _) = answer.records.as_chunks::<RECORD_NUMBERS>();
    let events = decode::events(&case.events);
    let completing = events.iter().filter(|event| event.completes()).zip(records);
    let scalars = completing.filter(|(event, _)| matches!(event.body, Body::Scalar(_)));
    let starts = scalars.map(|(_, record)| record[START] as usize).collect();
    (answer.returned[0] == 0).then_some(starts)
}

/// How many of a case's starts were held to lie between two characters of the text.
fn held(case: &Case) -> usize {
    let starts = originals(case).unwrap_or_default();
    let text = str::from_utf8(&case.text).unwrap_or_default();
    assert!(starts.iter().all(|start| text.is_char_boundary(*start)), "{case:?}");
    starts.len()
}

#[test]
fn no_start_lies_outside() {
    answers::silence_listed_panic();
    let of_the_family: usize = sample().iter().map(held).sum();
    let mut of_others = 0;
    let mut hold = |case: &Case| of_others += held(case);
    for (_, put) in RANDOM {
        let mut run = Run::new(true, Rng::new(SEED), &mut hold);
        (0..2_000).for_each(|_| put(&mut run));
    }
    assert!(of_the_family > 100_000 && of_others > 40_000, "{of_the_family} {of_others}");
}

use Fault::{Moves, Offset, Passes, Steps};

/// A faulty implementation, by the one thing that it does otherwise.
enum Fault {
    /// Which scalars step past a colon.
    Steps(fn(&Scalar) -> bool),
    /// How many bytes a scalar that may step passes, of the text from its marker on.
    Passes(fn(&str) -> usize),
    /// The offset of an index.
    Offset(fn(&str, usize) -> usize),
    /// How a cursor is moved to an index, and what a step past a colon makes of it.
    Moves(fn(&str, Cursor, usize) -> Cursor, fn(Cursor) -> Cursor),
}

/// How many characters are before it, and how many bytes.
type Cursor = [usize; 2];

impl Fault {
    /// The starts that it gives a document's scalars.
    fn starts(&self, document: &Document) -> Vec<usize> {
        let text = &document.text;
        let mut cursor = [0, 0];
        let mut starts = Vec::new();
        for (index, scalar) in &document.events {
            let place = match self {
                Fault::Offset(offset) => offset(text, *index),
                Fault::Moves(moved, _) => {
                    cursor = moved(text, cursor, *index);
                    cursor[1]
                }
                _ => offset(text, *index),
            };
            let Some(scalar) = scalar else {
                continue;
            };
            let on_colon = text.as_bytes().get(place) == Some(&b':');
            let passed = match self {
                Fault::Steps(steps) => usize::from(on_colon && steps(scalar)),
                Fault::Passes(bytes) if scalar.steps() => bytes(&text[place..]),
                Fault::Passes(_) => 0,
                _ => usize::from(on_colon && scalar.steps()),
            };
            if let (Fault::Moves(_, stepped), 1) = (self, passed) {
                cursor = stepped(cursor);
            }
            starts.push(place + passed);
        }
        starts
    }
}

fn offset(text: &str, index: usize) -> usize {
    text.char_indices().nth(index).map_or(text.len(), |(offset, _)| offset)
}

fn count(text: &str) -> usize {
    text.chars().count()
}

/// 1 where the text starts with one of these.
fn one_of(rest: &str, letters: &[char]) -> usize {
    usize::from(rest.starts_with(letters))
}

/// 1 where it starts with a colon and goes on in some way.
fn colon_before(rest: &str, is_so: fn(&str) -> bool) -> usize {
    usize::from(rest.strip_prefix(':').is_some_and(is_so))
}

/// The offset where characters are taken to have other lengths.
fn by_lengths(text: &str, index: usize, length: fn(char) -> usize) -> usize {
    text.chars().take(index).map(length).sum::<usize>().min(text.len())
}

/// The offset of the character that holds the unit of this number.
fn by_units(text: &str, index: usize, units: fn(char) -> usize) -> usize {
    let mut left = index;
    for (offset, letter) in text.char_indices() {
        if left < units(letter).max(1) {
            return offset;
        }
        left -= units(letter);
    }
    text.len()
}

/// Another offset for an index past the text.
fn past_the_text(text: &str, index: usize, other: fn(&str, usize) -> usize) -> usize {
    if index > count(text) { other(text, index) } else { offset(text, index) }
}

/// Whole chunks of 32 bytes are passed in one step, each counted in some way.
fn by_chunks(text: &str, index: usize, characters: fn(&[u8]) -> usize, aligned: bool) -> usize {
    let mut cursor = [0, 0];
    for chunk in text.as_bytes().chunks_exact(32) {
        if index - cursor[0] < 32 {
            break;
        }
        cursor[0] += characters(chunk);
        cursor[1] += 32;
    }
    while aligned && !text.is_char_boundary(cursor[1]) {
        cursor[1] += 1;
    }
    by_characters(text, cursor, index)[1]
}

fn begun(bytes: &[u8]) -> usize {
    bytes.iter().filter(|byte| **byte & 0xC0 != 0x80).count()
}

/// Moved character by character, as far as the text goes.
fn by_characters(text: &str, [mut chars, mut offset]: Cursor, index: usize) -> Cursor {
    while chars < index && offset < text.len() {
        offset = (offset + 1..text.len()).find(|place| text.is_char_boundary(*place)).unwrap_or(text.len());
        chars += 1;
    }
    while chars > index && offset > 0 {
        offset = (0..offset).rev().find(|place| text.is_char_boundary(*place)).unwrap_or(0);
        chars -= 1;
    }
    [chars, offset]
}

/// Moved back in a way of its own.
fn back(text: &str, cursor: Cursor, index: usize, moved: fn(Cursor, usize) -> Cursor) -> Cursor {
    if index < cursor[0] { moved(cursor, index) } else { by_characters(text, cursor, index) }
}

fn unmoved(cursor: Cursor) -> Cursor {
    cursor
}

/// Those that do nothing otherwise.
const RIGHT: [Fault; 4] =
    [Steps(Scalar::steps), Passes(|rest| one_of(rest, &[':'])), Offset(offset), Moves(by_characters, unmoved)];

const FAULTS: [(&str, Fault); 104] = [
    ("no step", Steps(|_| false)),
    ("a step of every scalar", Steps(|_| true)),
    ("in every place", Steps(Scalar::is_empty_plain)),
    ("of keys too", Steps(|scalar| scalar.is_empty_plain() && scalar.is_in(Mapping))),
    (
        "of keys in place of values",
        Steps(|scalar| scalar.is_empty_plain() && scalar.is_in(Mapping) && !scalar.is_awaited()),
    ),
    ("of items too", Steps(|scalar| scalar.steps() || scalar.is_empty_plain() && scalar.is_in(Sequence))),
    ("of a root too", Steps(|scalar| scalar.steps() || scalar.is_empty_plain() && scalar.around.is_empty())),
    (
        "of items of a value too",
        Steps(|scalar| scalar.steps() || scalar.is_empty_plain() && scalar.is_in(Sequence) && scalar.is_in_value()),
    ),
    (
        "of a value's first node too",
        Steps(|scalar| scalar.steps() || scalar.is_empty_plain() && scalar.before() == 0 && scalar.is_in_value()),
    ),
    ("of a mapping's first value alone", Steps(|scalar| scalar.steps() && scalar.before() == 1)),
    ("not of a mapping's first value", Steps(|scalar| scalar.steps() && scalar.before() > 1)),
    ("not in the root", Steps(|scalar| scalar.steps() && scalar.around.len() > 1)),
    ("in the root alone", Steps(|scalar| scalar.steps() && scalar.around.len() == 1)),
    ("not in a value", Steps(|scalar| scalar.steps() && !scalar.is_in_value())),
    ("not in a key", Steps(|scalar| scalar.steps() && (scalar.is_in_value() || !scalar.is_within(Mapping)))),
    ("not in an item", Steps(|scalar| scalar.steps() && !scalar.is_within(Sequence))),
    ("not after a collection", Steps(|scalar| scalar.steps() && !scalar.after_collection)),
    (
        "of keys after a collection too",
        Steps(|scalar| {
            scalar.is_empty_plain() && scalar.is_in(Mapping) && (scalar.is_awaited() || scalar.after_collection)
        }),
    ),
    ("of every value", Steps(Scalar::is_plain_value)),
    ("of nulls", Steps(|scalar| scalar.is_plain_value() && matches!(&*scalar.value, "" | "~"))),
    ("of blank values", Steps(|scalar| scalar.is_plain_value() && scalar.value.trim().is_empty())),
    ("of values that are colons", Steps(|scalar| scalar.is_plain_value() && matches!(&*scalar.value, "" | ":"))),
    ("of values that are not empty", Steps(|scalar| scalar.is_plain_value() && !scalar.value.is_empty())),
    ("in every style", Steps(|scalar| scalar.is_awaited() && scalar.value.is_empty())),
    ("of single-quoted ones too", Steps(|scalar| scalar.steps() || scalar.is_empty_value_of(SingleQuoted))),
    ("of double-quoted ones too", Steps(|scalar| scalar.steps() || scalar.is_empty_value_of(DoubleQuoted))),
    ("of literal ones too", Steps(|scalar| scalar.steps() || scalar.is_empty_value_of(Literal))),
    ("of folded ones too", Steps(|scalar| scalar.steps() || scalar.is_empty_value_of(Folded))),
    ("of an empty span", Steps(|scalar| scalar.is_plain_value() && scalar.empty_span)),
    ("of an empty span too", Steps(|scalar| scalar.is_plain_value() && (scalar.value.is_empty() || scalar.empty_span))),
    ("not of an empty span", Steps(|scalar| scalar.steps() && !scalar.empty_span)),
    ("of an empty span alone", Steps(|scalar| scalar.steps() && scalar.empty_span)),
    ("not of a tagged one", Steps(|scalar| scalar.steps() && scalar.suffix.is_none())),
    ("of a tagged one alone", Steps(|scalar| scalar.steps() && scalar.suffix.is_some())),
    ("not of a string", Steps(|scalar| scalar.steps() && scalar.suffix.as_deref() != Some("str"))),
    ("in column 0 alone", Steps(|scalar| scalar.steps() && scalar.column == 0)),
    ("not in column 0", Steps(|scalar| scalar.steps() && scalar.column > 0)),
    ("past a comma instead", Passes(|rest| one_of(rest, &[',']))),
    ("past a comma too", Passes(|rest| one_of(rest, &[':', ',']))),
    ("past a semicolon too", Passes(|rest| one_of(rest, &[':', ';']))),
    ("past a nine too", Passes(|rest| one_of(rest, &[':', '9']))),
    ("past a z too", Passes(|rest| one_of(rest, &[':', 'z']))),
    ("past U+001A too", Passes(|rest| one_of(rest, &[':', '\x1a']))),
    ("past a question mark too", Passes(|rest| one_of(rest, &[':', '?']))),
    ("past a hyphen too", Passes(|rest| one_of(rest, &[':', '-']))),
    ("past a newline too", Passes(|rest| one_of(rest, &[':', '\n']))),
    ("past a blank too", Passes(|rest| one_of(rest, &[':', ' ']))),
    ("past NUL too", Passes(|rest| one_of(rest, &[':', '\0']))),
    ("past every mark", Passes(|rest| usize::from(rest.starts_with(|first: char| first.is_ascii_punctuation())))),
    ("past U+003A in one byte of the code", Passes(|rest| usize::from(rest.starts_with(|first| first as u8 == b':')))),
    (
        "past six bits of a colon",
        Passes(|rest| usize::from(rest.starts_with(|first: char| first as u8 & 0x3F == b':'))),
    ),
    ("past a wide colon too, by one byte", Passes(|rest| one_of(rest, &[':', '：']))),
    ("past every character of one byte", Passes(|rest| usize::from(rest.starts_with(|first: char| first.is_ascii())))),
    ("past every byte", Passes(|rest| rest.len().min(1))),
    ("past every character", Passes(|rest| rest.chars().next().map_or(0, char::len_utf8))),
    ("past the text's end too", Passes(|rest| usize::from(rest.is_empty() || rest.starts_with(':')))),
    ("past the text's end alone", Passes(|rest| usize::from(rest.is_empty()))),
    ("past the byte at the marker or none", Passes(|_| 1)),
    ("past two bytes", Passes(|rest| 2 * one_of(rest, &[':']))),
    ("past two bytes, if there are", Passes(|rest| rest.len().min(2 * one_of(rest, &[':'])))),
    (
        "past two characters",
        Passes(|rest| rest.strip_prefix(':').map_or(0, |rest| 1 + rest.chars().next().map_or(0, char::len_utf8))),
    ),
    ("past all colons", Passes(|rest| rest.len() - rest.trim_start_matches(':').len())),
    (
        "past a newline behind it",
        Passes(|rest| one_of(rest, &[':']) + colon_before(rest, |rest| rest.starts_with('\n'))),
    ),
    ("past a NUL behind it", Passes(|rest| one_of(rest, &[':']) + colon_before(rest, |rest| rest.starts_with('\0')))),
    ("past a colon behind the marker", Passes(|rest| usize::from(rest.chars().nth(1) == Some(':')))),
    ("not at the text's end", Passes(|rest| colon_before(rest, |rest| !rest.is_empty()))),
    ("at the text's end alone", Passes(|rest| colon_before(rest, str::is_empty))),
    ("not before a letter", Passes(|rest| colon_before(rest, |rest| !rest.starts_with('a')))),
    ("not before a colon", Passes(|rest| colon_before(rest, |rest| !rest.starts_with(':')))),
    ("not before a newline", Passes(|rest| colon_before(rest, |rest| !rest.starts_with('\n')))),
    ("not before NUL", Passes(|rest| colon_before(rest, |rest| !rest.starts_with('\0')))),
    (
        "not before several bytes",
        Passes(|rest| colon_before(rest, |rest| rest.chars().next().is_none_or(|next| next.is_ascii()))),
    ),
    ("bytes", Offset(|text, index| index.min(text.len()))),
    ("bytes, back to a character", Offset(|text, index| by_units(text, index, char::len_utf8))),
    ("UTF-16", Offset(|text, index| by_units(text, index, char::len_utf16))),
    ("newlines left out", Offset(|text, index| by_units(text, index, |letter| usize::from(letter != '\n')))),
    ("NUL left out", Offset(|text, index| by_units(text, index, |letter| usize::from(letter != '\0')))),
    ("newlines twice", Offset(|text, index| by_units(text, index, |letter| 1 + usize::from(letter == '\n')))),
    ("lengths in UTF-16", Offset(|text, index| by_lengths(text, index, char::len_utf16))),
    ("lengths of one", Offset(|text, index| by_lengths(text, index, |_| 1))),
    ("lengths of three at most", Offset(|text, index| by_lengths(text, index, |letter| letter.len_utf8().min(3)))),
    ("lengths of two at most", Offset(|text, index| by_lengths(text, index, |letter| letter.len_utf8().min(2)))),
    (
        "Latin-1 of one byte",
        Offset(|text, index| by_lengths(text, index, |letter| if letter < 'Ā' { 1 } else { letter.len_utf8() })),
    ),
    ("one character more", Offset(|text, index| offset(text, index + 1))),
    ("one character less", Offset(|text, index| offset(text, index.saturating_sub(1)))),
    ("cut at the last character", Offset(|text, index| offset(text, index.min(count(text).saturating_sub(1))))),
    (
        "not cut at the text's end",
        Offset(|text, index| past_the_text(text, index, |text, index| text.len() + index - count(text))),
    ),
    ("one past the text's end", Offset(|text, index| past_the_text(text, index, |text, _| text.len() + 1))),
    ("the start for an index past the text", Offset(|text, index| past_the_text(text, index, |_, _| 0))),
    ("31 bits", Offset(|text, index| offset(text, index % 0x8000_0000))),
    ("16 bits", Offset(|text, index| offset(text, index % 0x1_0000))),
    ("8 bits", Offset(|text, index| offset(text, index % 0x100))),
    ("below 0 the start", Offset(|text, index| offset(text, (index as i32).max(0) as usize))),
    ("the largest as none", Offset(|text, index| if index < 0xFFFF_FFFF { offset(text, index) } else { 0 })),
    ("NUL as the text's end", Offset(|text, index| offset(text, index).min(text.find('\0').unwrap_or(text.len())))),
    ("chunks that are not aligned", Offset(|text, index| by_chunks(text, index, begun, false))),
    ("chunks of 32 characters", Offset(|text, index| by_chunks(text, index, |_| 32, true))),
    (
        "chunks without what begins before",
        Offset(|text, index| by_chunks(text, index, |chunk| begun(&chunk[1..]), true)),
    ),
    ("no way back", Moves(|text, cursor, index| back(text, cursor, index, |cursor, _| cursor), unmoved)),
    (
        "back by bytes",
        Moves(
            |text, cursor, index| {
                back(text, cursor, index, |[chars, offset], index| [index, offset.saturating_sub(chars - index)])
            },
            unmoved,
        ),
    ),
    (
        "back from where the index would be",
        Moves(|text, cursor, index| [index, by_characters(text, cursor, index)[1]], unmoved),
    ),
    ("always on", Moves(|text, [_, offset], index| by_characters(text, [0, offset], index), unmoved)),
    ("bytes moved by a step", Moves(by_characters, |[chars, offset]| [chars, offset + 1])),
    ("characters moved by a step", Moves(by_characters, |[chars, offset]| [chars + 1, offset])),
];

/// And each case of the family is built.
#[test]
fn without_a_fault_it_answers_the_same() {
    for case in sample() {
        let document = Document::of(&case);
        for right in &RIGHT {
            assert_eq!(Some(right.starts(&document)), originals(&case), "{case:?}");
        }
    }
}

#[test]
fn faults_answer_otherwise() {
    let mut left: Vec<&(&str, Fault)> = FAULTS.iter().collect();
    for case in sample() {
        let document = Document::of(&case);
        let originals = originals(&case).expect("a built document");
        left.retain(|(_, fault)| fault.starts(&document) == originals);
        if left.is_empty() {
            return;
        }
    }
    panic!("not noticed: {:?}", left.iter().map(|(name, _)| name).collect::<Vec<_>>());
}

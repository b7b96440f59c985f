//! Faulty counts of the cursor's steps, each of which answers otherwise somewhere in the sample of the family `travels` or at its limits. They
//! are sums of distances, where the second implementation of document 02 (k) takes the steps.

use answers::travel::travel;
use cases::rng::Rng;
use cases::run::Run;
use cases::{OTHER_FAMILIES, SEED, TRAVEL_LIMITS};
use framing::Case;
use std::collections::HashSet;

const TEXT_LIMIT: usize = 1_048_576;
const MARKERS_LIMIT: usize = 1_048_576;

/// A case, and its text as far as it is UTF-8.
struct Travel {
    bytes: Vec<u8>,
    markers: Vec<u32>,
    text: String,
    /// Of each place between two characters how many bytes are before it, and how many units of UTF-16.
    offsets: Vec<[usize; 2]>,
}

impl Travel {
    fn of(case: &Case) -> Self {
        let text = String::from_utf8_lossy(&case.text).into_owned();
        let mut offsets = vec![[0, 0]];
        let mut before = [0, 0];
        for letter in text.chars() {
            before = [before[0] + letter.len_utf8(), before[1] + letter.len_utf16()];
            offsets.push(before);
        }
        Self { bytes: case.text.clone(), markers: framing::numbers(&case.events), text, offsets }
    }

    /// How many characters the text has.
    fn end(&self) -> usize {
        self.offsets.len() - 1
    }
}

/// Hands over the sample, then the limits.
fn each(hold: &mut dyn FnMut(Travel)) {
    let (_, family) = OTHER_FAMILIES.iter().find(|(name, _)| *name == "travels").expect("the family");
    for family in [*family, TRAVEL_LIMITS] {
        family(&mut Run::new(false, Rng::new(SEED), &mut |case| hold(Travel::of(case))));
    }
}

use Fault::{Ascii, Kept, Place, Row, Steps, Sum, Way};

/// A faulty implementation, by the one thing that it does otherwise.
enum Fault {
    /// The row that refuses, or 0.
    Row(fn(&[u8], &[u32]) -> u32),
    /// The refusals that come with a count.
    Kept(fn(u32) -> bool),
    /// Which texts do without a cursor.
    Ascii(fn(&str) -> bool),
    /// Where an index lies.
    Place(fn(&Travel, usize) -> usize),
    /// The places that the cursor goes to, the first of which it starts at, of those where the markers lie.
    Way(fn(&Travel, &[usize]) -> Vec<usize>),
    /// How many steps it is from one place to another.
    Steps(fn(usize, usize) -> usize),
    /// What all of them come to.
    Sum(fn(&mut dyn Iterator<Item = u64>) -> u64),
}

impl Fault {
    fn answer(&self, travel: &Travel) -> (u32, u64) {
        let row = match self {
            Row(row) => row(&travel.bytes, &travel.markers),
            _ => row(&travel.bytes, &travel.markers),
        };
        let is_counted = row == 0 || matches!(self, Kept(is_kept) if is_kept(row));
        (row, if is_counted { self.count(travel) } else { 0 })
    }

    fn count(&self, travel: &Travel) -> u64 {
        let is_ascii = if let Ascii(is_ascii) = self { is_ascii(&travel.text) } else { travel.text.is_ascii() };
        if is_ascii {
            return 0;
        }
        let place = |index: &u32| match self {
            Place(place) => place(travel, *index as usize),
            _ => clamped(travel, *index as usize),
        };
        let places: Vec<usize> = travel.markers.iter().map(place).collect();
        let way = if let Way(way) = self { way(travel, &places) } else { from_0(&places) };
        let mut steps = way.windows(2).map(|two| match self {
            Steps(steps) => steps(two[0], two[1]) as u64,
            _ => two[0].abs_diff(two[1]) as u64,
        });
        if let Sum(sum) = self { sum(&mut steps) } else { steps.sum() }
    }
}

fn is_utf8(text: &[u8]) -> bool {
    str::from_utf8(text).is_ok()
}

const LIMITS: [usize; 2] = [TEXT_LIMIT, MARKERS_LIMIT];
const NO_LIMIT: usize = usize::MAX;

fn row(text: &[u8], markers: &[u32]) -> u32 {
    row_within(text, markers, LIMITS)
}

fn row_within(text: &[u8], markers: &[u32], [text_limit, markers_limit]: [usize; 2]) -> u32 {
    if text.len() > text_limit || markers.len() > markers_limit {
        1
    } else if !is_utf8(text) {
        2
    } else {
        0
    }
}

/// With some texts let through that are no UTF-8.
fn row_letting(text: &[u8], markers: &[u32], is_let_through: bool) -> u32 {
    match row(text, markers) {
        2 if is_let_through => 0,
        row => row,
    }
}

fn clamped(travel: &Travel, index: usize) -> usize {
    index.min(travel.end())
}

/// With another place for an index past the text's end.
fn past_the_end(travel: &Travel, index: usize, other: usize) -> usize {
    if index > travel.end() { other } else { index }
}

/// The end told by the bytes that are taken to begin a character.
fn clamped_by(travel: &Travel, index: usize, begins: fn(u8) -> bool) -> usize {
    index.min(travel.text.bytes().filter(|byte| begins(*byte)).count())
}

/// The end without some characters.
fn clamped_without(travel: &Travel, index: usize, is_left_out: fn(char) -> bool) -> usize {
    index.min(travel.text.chars().filter(|letter| !is_left_out(*letter)).count())
}

fn from_0(places: &[usize]) -> Vec<usize> {
    [&[0], places].concat()
}

/// From the start to some of the places.
fn from_0_to<'a>(places: impl Iterator<Item = &'a usize>) -> Vec<usize> {
    from_0(&places.copied().collect::<Vec<_>>())
}

/// Those that do nothing otherwise.
const RIGHT: [Fault; 7] = [
    Row(row),
    Kept(|_| false),
    Ascii(str::is_ascii),
    Place(clamped),
    Way(|_, places| from_0(places)),
    Steps(usize::abs_diff),
    Sum(|steps| steps.sum()),
];

const FAULTS: [(&str, Fault); 93] = [
    ("a text of one byte more", Row(|text, markers| row_within(text, markers, [TEXT_LIMIT + 1, MARKERS_LIMIT]))),
    ("a text of one byte less", Row(|text, markers| row_within(text, markers, [TEXT_LIMIT - 1, MARKERS_LIMIT]))),
    ("a text of any size", Row(|text, markers| row_within(text, markers, [NO_LIMIT, MARKERS_LIMIT]))),
    ("one marker more", Row(|text, markers| row_within(text, markers, [TEXT_LIMIT, MARKERS_LIMIT + 1]))),
    ("one marker less", Row(|text, markers| row_within(text, markers, [TEXT_LIMIT, MARKERS_LIMIT - 1]))),
    ("any number of markers", Row(|text, markers| row_within(text, markers, [TEXT_LIMIT, NO_LIMIT]))),
    ("markers by their bytes", Row(|text, markers| row_within(text, markers, [TEXT_LIMIT, MARKERS_LIMIT / 4]))),
    (
        "a limit of both together",
        Row(|text, markers| row_within(text, markers, [TEXT_LIMIT - markers.len().min(TEXT_LIMIT), MARKERS_LIMIT])),
    ),
    ("1 and 2 exchanged", Row(|text, markers| [0, 2, 1][row(text, markers) as usize])),
    ("UTF-8 before the sizes", Row(|text, markers| if is_utf8(text) { row(text, markers) } else { 2 })),
    ("UTF-8 before the markers' number", Row(|text, markers| row(text, &[]).max(row(&[], markers)))),
    (
        "UTF-8 before the text's size",
        Row(|text, markers| match row(&[], markers) {
            0 if !is_utf8(text) => 2,
            _ => row(text, markers),
        }),
    ),
    ("any text", Row(|text, markers| row_letting(text, markers, true))),
    ("any text without markers", Row(|text, markers| row_letting(text, markers, markers.is_empty()))),
    (
        "any text with all markers at its start",
        Row(|text, markers| row_letting(text, markers, markers.iter().all(|marker| *marker == 0))),
    ),
    (
        "what the cursor does not come to",
        Row(|text, markers| row_letting(text, markers, is_utf8_as_far(text, markers))),
    ),
    (
        "a text that is cut off",
        Row(|text, markers| {
            row_letting(text, markers, str::from_utf8(text).is_err_and(|error| error.error_len().is_none()))
        }),
    ),
    ("continuations alone", Row(|text, markers| row_letting(text, markers, !text.iter().any(|byte| *byte >= 0xC0)))),
    (
        "surrogates",
        Row(|text, markers| row_letting(text, markers, text.windows(2).any(|two| two[0] == 0xED && two[1] >= 0xA0))),
    ),
    (
        "longer than what they say",
        Row(|text, markers| {
            row_letting(text, markers, text.windows(2).any(|two| matches!(two, [0xC0 | 0xC1, _] | [0xE0, 0x80..0xA0])))
        }),
    ),
    ("past the last character", Row(|text, markers| row_letting(text, markers, text.contains(&0xF4)))),
    ("the empty text refused", Row(|text, markers| if text.is_empty() { 2 } else { row(text, markers) })),
    (
        "ASCII alone let through",
        Row(|text, markers| if row(text, markers) == 0 && !text.is_ascii() { 2 } else { row(text, markers) }),
    ),
    ("a count with 1", Kept(|row| row == 1)),
    ("a count with 2", Kept(|row| row == 2)),
    ("ASCII counted", Ascii(|_| false)),
    ("nothing counted", Ascii(|_| true)),
    ("ASCII told by the first byte", Ascii(|text| text.bytes().take(1).all(|byte| byte.is_ascii()))),
    ("ASCII told by the last byte", Ascii(|text| text.bytes().next_back().is_none_or(|byte| byte.is_ascii()))),
    ("ASCII told by 32 bytes", Ascii(|text| text.bytes().take(32).all(|byte| byte.is_ascii()))),
    ("ASCII told by whole chunks of 32 bytes", Ascii(|text| text.as_bytes()[..text.len() / 32 * 32].is_ascii())),
    ("ASCII told without whole chunks", Ascii(|text| text.as_bytes()[text.len() / 32 * 32..].is_ascii())),
    ("ASCII told up to NUL", Ascii(|text| text.split('\0').next().is_some_and(str::is_ascii))),
    ("U+007F not ASCII", Ascii(|text| text.bytes().all(|byte| byte < 0x7F))),
    ("control characters not ASCII", Ascii(|text| text.bytes().all(|byte| matches!(byte, b' '..=0x7F)))),
    ("U+0080 ASCII", Ascii(|text| text.chars().all(|letter| letter <= '\u{80}'))),
    ("two bytes without a cursor", Ascii(|text| text.chars().all(|letter| letter.len_utf8() < 3))),
    ("four bytes without a cursor", Ascii(|text| text.chars().all(|letter| matches!(letter.len_utf8(), 1 | 4)))),
    ("not clamped", Place(|_, index| index)),
    ("clamped one short", Place(|travel, index| index.min(travel.end().saturating_sub(1)))),
    ("clamped one past", Place(|travel, index| index.min(travel.end() + 1))),
    ("the start past the end", Place(|travel, index| past_the_end(travel, index, 0))),
    ("clamped to the bytes", Place(|travel, index| index.min(travel.text.len()))),
    ("clamped to UTF-16", Place(|travel, index| index.min(travel.offsets[travel.end()][1]))),
    ("bytes", Place(|travel, index| travel.offsets[clamped(travel, index)][0])),
    ("UTF-16", Place(|travel, index| travel.offsets[clamped(travel, index)][1])),
    ("31 bits", Place(|travel, index| clamped(travel, index & 0x7FFF_FFFF))),
    ("16 bits", Place(|travel, index| clamped(travel, index & 0xFFFF))),
    ("below 0 the start", Place(|travel, index| clamped(travel, (index as i32).max(0) as usize))),
    ("the largest as none", Place(|travel, index| if index == 0xFFFF_FFFF { 0 } else { clamped(travel, index) })),
    ("0x80 a beginning", Place(|travel, index| clamped_by(travel, index, |byte| byte <= 0x80 || byte >= 0xC0))),
    ("0xBF a beginning", Place(|travel, index| clamped_by(travel, index, |byte| !(0x80..0xBF).contains(&byte)))),
    ("0xC2 none", Place(|travel, index| clamped_by(travel, index, |byte| !(0x80..=0xC2).contains(&byte)))),
    ("0xF4 none", Place(|travel, index| clamped_by(travel, index, |byte| byte < 0x80 || (0xC0..0xF4).contains(&byte)))),
    ("characters of one byte alone", Place(|travel, index| clamped_by(travel, index, |byte| byte < 0x80))),
    ("NUL left out", Place(|travel, index| clamped_without(travel, index, |letter| letter == '\0'))),
    ("newlines left out", Place(|travel, index| clamped_without(travel, index, |letter| letter == '\n'))),
    (
        "whole chunks of 32 bytes alone",
        Place(|travel, index| index.min(begun(&travel.text.as_bytes()[..travel.text.len() / 32 * 32]))),
    ),
    ("from the first marker", Way(|_, places| places.to_vec())),
    ("from the end", Way(|travel, places| [&[travel.end()], places].concat())),
    ("without the last", Way(|_, places| from_0(&places[..places.len().saturating_sub(1)]))),
    ("without the first", Way(|_, places| from_0(&places[places.len().min(1)..]))),
    ("the last alone", Way(|_, places| from_0(&places[places.len().saturating_sub(1)..]))),
    (
        "sorted",
        Way(|_, places| {
            let mut places = from_0(places);
            places.sort_unstable();
            places
        }),
    ),
    ("reversed", Way(|_, places| from_0_to(places.iter().rev()))),
    ("to the highest alone", Way(|_, places| from_0_to(places.iter().max().into_iter()))),
    ("back to 0 at the end", Way(|_, places| [&[0], places, &[0]].concat())),
    ("on to the text's end", Way(|travel, places| [&[0], places, &[travel.end()]].concat())),
    ("back to 0 before each", Way(|_, places| places.iter().flat_map(|place| [0, *place]).collect())),
    (
        "without those past the end",
        Way(|travel, places| {
            let both = places.iter().zip(&travel.markers);
            from_0_to(both.filter(|(place, marker)| **place == **marker as usize).map(|(place, _)| place))
        }),
    ),
    (
        "each place once",
        Way(|_, places| {
            let mut met = HashSet::new();
            from_0_to(places.iter().filter(|place| met.insert(**place)))
        }),
    ),
    ("255 markers at most", Way(|_, places| from_0(&places[..places.len().min(255)]))),
    ("65,535 markers at most", Way(|_, places| from_0(&places[..places.len().min(65_535)]))),
    ("forward alone", Steps(|from, to| to.saturating_sub(from))),
    ("back alone", Steps(|from, to| from.saturating_sub(to))),
    ("back from the start", Steps(|from, to| if to < from { to } else { to - from })),
    ("back by way of the start", Steps(|from, to| if to < from { from + to } else { to - from })),
    ("always from the start", Steps(|_, to| to)),
    ("one for each marker", Steps(|_, _| 1)),
    ("one for each move", Steps(|from, to| usize::from(from != to))),
    ("one for standing still", Steps(|from, to| from.abs_diff(to).max(1))),
    ("one more back", Steps(|from, to| from.abs_diff(to) + usize::from(to < from))),
    (
        "one less of several",
        Steps(|from, to| {
            let distance = from.abs_diff(to);
            if distance > 1 { distance - 1 } else { distance }
        }),
    ),
    (
        "32 characters as one step forward",
        Steps(|from, to| if to > from { (to - from) / 32 + (to - from) % 32 } else { from - to }),
    ),
    (
        "32 characters as one step back",
        Steps(|from, to| if to < from { (from - to) / 32 + (from - to) % 32 } else { to - from }),
    ),
    ("distances of 8 bits", Steps(|from, to| from.abs_diff(to) & 0xFF)),
    ("distances of 16 bits", Steps(|from, to| from.abs_diff(to) & 0xFFFF)),
    ("a sum of 32 bits", Sum(|steps| steps.sum::<u64>() & 0xFFFF_FFFF)),
    ("a sum of 32 bits at most", Sum(|steps| steps.sum::<u64>().min(0xFFFF_FFFF))),
    ("a sum of 31 bits at most", Sum(|steps| steps.sum::<u64>().min(0x7FFF_FFFF))),
    ("a sum in 24 bits' precision", Sum(|steps| steps.sum::<u64>() as f32 as u64)),
    ("the longest", Sum(|steps| steps.max().unwrap_or(0))),
    ("the last", Sum(|steps| steps.last().unwrap_or(0))),
];

/// Whether the text is UTF-8 up to the furthest marker.
fn is_utf8_as_far(text: &[u8], markers: &[u32]) -> bool {
    let furthest = markers.iter().max().map_or(0, |marker| *marker as usize);
    let sound = text.utf8_chunks().next().map_or("", |chunk| chunk.valid());
    furthest <= sound.chars().count()
}

fn begun(bytes: &[u8]) -> usize {
    bytes.iter().filter(|byte| **byte & 0xC0 != 0x80).count()
}

#[test]
fn without_a_fault_it_answers_the_same() {
    let mut hold = |case: Travel| {
        for right in &RIGHT {
            assert_eq!(right.answer(&case), travel(&case.bytes, &case.markers), "{:?} {:?}", case.text, case.markers);
        }
    };
    each(&mut hold);
}

#[test]
fn faults_answer_otherwise() {
    let mut left: Vec<&(&str, Fault)> = FAULTS.iter().collect();
    each(&mut |case| {
        let expected = travel(&case.bytes, &case.markers);
        left.retain(|(_, fault)| fault.answer(&case) == expected);
    });
    assert!(left.is_empty(), "not noticed: {:?}", left.iter().map(|(name, _)| name).collect::<Vec<_>>());
}

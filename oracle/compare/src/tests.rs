//! A faulty builder is told from the original, and its case is made small; a faulty call on a record is told from the second reader, and a
//! faulty `cursor_travel` from the second implementation.

use crate::calls::{PORT, Readers};
use crate::held::{Build, Memory, differs};
use crate::shrink::{shrunk, shrunk_travel};
use crate::travels::{self, Travel};
use crate::{Comparison, family_of_other_calls};
use answers::record::{MEASURED, PARENT, START};
use cases::rng::Rng;
use cases::run::Run;
use cases::{Family, RANDOM, RANDOM_TRAVEL, SEED};
use framing::{Case, RECORD_NUMBERS, Record};

const STRING: u32 = 5;

/// One too many for the content of each replacement of two bytes.
fn wrong_piece(text: &[u8], events: &[u8], records: &mut [u32], pieces: &mut [u32]) -> [u32; 3] {
    let returned = port::build(text, events, records, pieces);
    for piece in pieces.chunks_exact_mut(4).filter(|piece| piece[0] == 2 && piece[2] - piece[1] == 2) {
        piece[3] += 1;
    }
    returned
}

/// A number behind the used ones.
fn not_cleared(text: &[u8], events: &[u8], records: &mut [u32], pieces: &mut [u32]) -> [u32; 3] {
    let returned = port::build(text, events, records, pieces);
    if let Some(last) = records.last_mut() {
        *last = 1;
    }
    returned
}

/// A refusal as no refusal.
fn wrong_row(text: &[u8], events: &[u8], records: &mut [u32], pieces: &mut [u32]) -> [u32; 3] {
    let returned = port::build(text, events, records, pieces);
    if returned[0] == 4 { [5, returned[1], 0] } else { returned }
}

/// A write behind the pieces, as a faulty library could do it.
fn past_the_pieces(text: &[u8], events: &[u8], records: &mut [u32], pieces: &mut [u32]) -> [u32; 3] {
    let returned = port::build(text, events, records, pieces);
    // The guard, which the caller of this test lays behind the pieces.
    unsafe { *pieces.as_mut_ptr().add(pieces.len()) = 0 };
    returned
}

/// Changes each record of a built document. What changes it gets its number and all records.
fn with_records(
    text: &[u8],
    events: &[u8],
    records: &mut [u32],
    pieces: &mut [u32],
    change: fn(usize, &mut [Record]),
) -> [u32; 3] {
    let returned = port::build(text, events, records, pieces);
    let nodes = if returned[0] == 0 { returned[1] as usize } else { 0 };
    for number in 0..nodes {
        change(number, &mut records.as_chunks_mut().0[..nodes]);
    }
    returned
}

/// One too many for each parent but the root's.
fn later_parent(text: &[u8], events: &[u8], records: &mut [u32], pieces: &mut [u32]) -> [u32; 3] {
    with_records(text, events, records, pieces, |number, records| {
        let parent = &mut records[number][PARENT];
        *parent = parent.saturating_add(1);
    })
}

/// The next record for every parent.
fn next_record(text: &[u8], events: &[u8], records: &mut [u32], pieces: &mut [u32]) -> [u32; 3] {
    with_records(text, events, records, pieces, |number, records| {
        if number + 1 < records.len() {
            records[number][PARENT] = number as u32 + 1;
        }
    })
}

/// The root as its own parent.
fn own_parent(text: &[u8], events: &[u8], records: &mut [u32], pieces: &mut [u32]) -> [u32; 3] {
    with_records(text, events, records, pieces, |number, records| {
        if number + 1 == records.len() {
            records[number][PARENT] = number as u32;
        }
    })
}

/// No assumed span.
fn all_measured(text: &[u8], events: &[u8], records: &mut [u32], pieces: &mut [u32]) -> [u32; 3] {
    with_records(text, events, records, pieces, |number, records| records[number][MEASURED] = 1)
}

/// Collections that are not measured.
fn assumed_collections(text: &[u8], events: &[u8], records: &mut [u32], pieces: &mut [u32]) -> [u32; 3] {
    with_records(text, events, records, pieces, |number, records| {
        if records[number][0] > 6 {
            records[number][MEASURED] = 0;
        }
    })
}

/// Moves some starts of strings by a byte.
fn with_starts(
    text: &[u8],
    events: &[u8],
    records: &mut [u32],
    pieces: &mut [u32],
    is_moved: fn(&[u8], usize) -> bool,
) -> [u32; 3] {
    let returned = port::build(text, events, records, pieces);
    for record in records.as_chunks_mut::<RECORD_NUMBERS>().0.iter_mut().filter(|record| record[0] == STRING) {
        record[START] += u32::from(is_moved(text, record[START] as usize));
    }
    returned
}

/// A start inside the character, if it has several bytes.
fn start_inside(text: &[u8], events: &[u8], records: &mut [u32], pieces: &mut [u32]) -> [u32; 3] {
    with_starts(text, events, records, pieces, |text, start| text.get(start).is_some_and(|byte| *byte >= 0xC0))
}

/// A start past the text in place of its end.
fn start_past_the_text(text: &[u8], events: &[u8], records: &mut [u32], pieces: &mut [u32]) -> [u32; 3] {
    with_starts(text, events, records, pieces, |text, start| start == text.len())
}

/// A buffer that has room for one record less in fourteens, and would have in twelves.
fn room_in_twelves(text: &[u8], events: &[u8], records: &mut [u32], pieces: &mut [u32]) -> [u32; 3] {
    let mut wide = vec![0; records.len() / 12 * RECORD_NUMBERS];
    let returned = port::build(text, events, &mut wide, pieces);
    let room = records.len().min(wide.len());
    records.fill(0);
    records[..room].copy_from_slice(&wide[..room]);
    returned
}

fn random(family: &str, seed: u64, count: usize) -> Vec<Case> {
    let (_, put) = RANDOM.iter().find(|(name, _)| *name == family).expect("a family");
    random_of(*put, seed, count)
}

fn random_of(put: Family, seed: u64, count: usize) -> Vec<Case> {
    let mut cases = Vec::new();
    let mut sink = |case: &Case| cases.push(case.clone());
    let mut run = Run::new(true, Rng::new(seed), &mut sink);
    for _ in 0..count {
        put(&mut run);
    }
    cases
}

fn differing(build: Build, family: &str) -> Option<Case> {
    answers::silence_listed_panic();
    random(family, 1, 2_000).into_iter().find(|case| differs(build, case, Memory::Guarded))
}

#[test]
fn the_port_is_the_original() {
    for (family, _) in RANDOM {
        assert_eq!(differing(port::build, family), None);
    }
}

#[test]
fn faults_are_found() {
    let faulty: [Build; 12] = [
        wrong_piece,
        not_cleared,
        wrong_row,
        past_the_pieces,
        later_parent,
        next_record,
        own_parent,
        all_measured,
        assumed_collections,
        room_in_twelves,
        start_inside,
        start_past_the_text,
    ];
    for (number, build) in faulty.into_iter().enumerate() {
        assert!(differing(build, "trees").is_some(), "{number}");
    }
}

#[test]
fn a_differing_case_is_made_small() {
    let case = differing(wrong_piece, "trees").expect("a case that differs");
    let small = shrunk(&case, |case| differs(wrong_piece, case, Memory::Guarded));
    // One scalar with one escape or one break of two bytes.
    assert!(small.text.len() <= 5 && small.events.len() <= 20, "{small:?}");
}

#[test]
fn every_sound_case_is_counted() {
    let mut comparison = Comparison::new(port::build, Memory::Exact);
    for case in random("walks", 7, 500) {
        comparison.compare(&case);
    }
    assert_eq!((comparison.cases, comparison.different), (500, 0));
}

/// Whether the calls that read a record agree with the second implementation on the records of random documents.
fn readers_agree(readers: Readers) -> bool {
    random("trees", 1, 500)
        .iter()
        .map(answers::answer)
        .all(|answer| readers.differing(&answer, &answer.records).is_none())
}

/// Whether they agree on damaged buffers.
fn readers_agree_on_buffers(readers: Readers) -> bool {
    let mut agree = true;
    let mut hold = |case: &Case| agree &= readers.differing_in_buffer(case, Memory::Guarded).is_none();
    family_of_other_calls("damaged")(&mut Run::new(false, Rng::new(SEED), &mut hold));
    agree
}

/// The number of a record, without asking whether the kind is one.
fn number_of(records: &[u32], n: u32, place: usize) -> u32 {
    records.as_chunks::<RECORD_NUMBERS>().0.get(n as usize).map_or(u32::MAX, |record| record[place])
}

/// In 32 bits, with which a large number wraps.
fn wrapping(records: &[u32], n: u32, place: u32) -> u32 {
    let at = n.wrapping_mul(RECORD_NUMBERS as u32);
    match records.get(at as usize..).and_then(|rest| rest.get(..RECORD_NUMBERS)) {
        Some(record) if (1..=8).contains(&record[0]) => record[place as usize],
        _ => u32::MAX,
    }
}

#[test]
fn calls_on_a_record_are_held() {
    answers::silence_listed_panic();
    assert!(readers_agree(PORT) && readers_agree_on_buffers(PORT));
    let other_numbers = Readers { parent: port::is_measured, is_measured: port::parent };
    let of_a_root = Readers { parent: |records, n| port::parent(records, n).min(records.len() as u32), ..PORT };
    let zero = Readers { is_measured: |records, n| port::is_measured(records, n) & 1, ..PORT };
    for readers in [other_numbers, of_a_root, zero] {
        assert!(!readers_agree(readers) && !readers_agree_on_buffers(readers));
    }
    // Both are right on what was built.
    let any_kind = Readers {
        parent: |records, n| number_of(records, n, PARENT),
        is_measured: |records, n| number_of(records, n, MEASURED),
    };
    assert!(!readers_agree_on_buffers(any_kind));
    let in_32_bits = Readers {
        parent: |records, n| wrapping(records, n, PARENT as u32),
        is_measured: |records, n| wrapping(records, n, MEASURED as u32),
    };
    assert!(!readers_agree_on_buffers(in_32_bits));
}

/// More records than are asked for one by one: the last is among those that are, and the one past it.
#[test]
fn long_documents_are_asked_evenly() {
    let records = [7; RECORD_NUMBERS].repeat(2_500);
    let answer = framing::Answer { returned: [0, 2_500, 0], records: records.clone(), pieces: Vec::new() };
    let differing = |parent: fn(&[u32], u32) -> u32| {
        let readers = Readers { parent, is_measured: |_, n| right_number(n) };
        readers.differing(&answer, &records)
    };
    assert_eq!(differing(|_, n| right_number(n)), None);
    let faults: [fn(&[u32], u32) -> u32; 4] = [
        |_, n| if n < 2_499 { 7 } else { u32::MAX },
        |_, n| if n <= 2_500 { 7 } else { u32::MAX },
        |_, n| if (1_200..1_210).contains(&n) { 8 } else { right_number(n) },
        |_, n| if n == 0 { 0 } else { right_number(n) },
    ];
    assert_eq!(faults.map(differing), [Some(2_499), Some(2_500), Some(1_200), Some(0)]);
}

fn right_number(n: u32) -> u32 {
    if n < 2_500 { 7 } else { u32::MAX }
}

#[test]
fn parents_flags_and_starts_are_counted() {
    answers::silence_listed_panic();
    let mut comparison = Comparison::new(port::build, Memory::Exact);
    for case in random("trees", 3, 500) {
        comparison.compare(&case);
    }
    let [parents, flags, starts] = comparison.coverage.held();
    assert!(parents > flags && flags > 500 && flags == starts, "{parents} {flags} {starts}");
}

/// The answer of the port to another sequence of markers.
fn with_markers(text: &[u8], markers: &[u32], change: fn(&mut Vec<u32>)) -> (u32, u64) {
    let mut markers = markers.to_vec();
    change(&mut markers);
    port::cursor_travel(text, &markers)
}

/// A step too many for a marker past the text's end.
fn not_clamped(text: &[u8], markers: &[u32]) -> (u32, u64) {
    let end = text.iter().filter(|byte| !(0x80..0xC0).contains(*byte)).count();
    let (row, steps) = port::cursor_travel(text, markers);
    (row, steps + u64::from(steps > 0 && markers.iter().any(|marker| *marker as usize > end)))
}

const FAULTY_TRAVELS: [travels::Call; 4] = [
    |text, markers| with_markers(text, markers, |markers| _ = markers.pop()),
    |text, markers| with_markers(text, markers, |markers| markers.sort_unstable()),
    |text, markers| with_markers(text, markers, |markers| markers.push(0)),
    not_clamped,
];

fn travels(cases: Vec<Case>) -> impl Iterator<Item = Travel> {
    cases.into_iter().map(|case| Travel::of(&case))
}

#[test]
fn cursor_travel_is_held() {
    let differs = |call, travel: &Travel| travels::differs(call, travel, Memory::Guarded);
    assert_eq!(travels(random_of(RANDOM_TRAVEL, 1, 2_000)).find(|travel| differs(port::cursor_travel, travel)), None);
    for (number, call) in FAULTY_TRAVELS.into_iter().enumerate() {
        assert!(travels(random_of(RANDOM_TRAVEL, 1, 2_000)).any(|travel| differs(call, &travel)), "{number}");
    }
}

#[test]
fn cursor_travel_is_held_on_documents() {
    for (number, travel) in FAULTY_TRAVELS.into_iter().enumerate() {
        let mut comparison = Comparison { travel, ..Comparison::new(port::build, Memory::Guarded) };
        for case in random("starts", 1, 200) {
            comparison.compare(&case);
        }
        assert!(comparison.other_calls > 0 && comparison.different == 0, "{number}");
    }
}

#[test]
fn a_differing_travel_is_made_small() {
    let is_kept = |travel: &Travel| travels::differs(FAULTY_TRAVELS[0], travel, Memory::Guarded);
    let travel = travels(random_of(RANDOM_TRAVEL, 1, 2_000)).find(is_kept).expect("one that differs");
    let small = shrunk_travel(&travel, is_kept);
    // One step over one character.
    assert_eq!(small.markers, [1]);
    assert_eq!(str::from_utf8(&small.text).map(|text| text.chars().count()), Ok(1));
}

/// 2^33 steps, which 32 bits do not hold, to 2^32.
#[test]
fn a_long_travel_is_made_smaller() {
    let in_32_bits: travels::Call = |text, markers| {
        let (row, steps) = port::cursor_travel(text, markers);
        (row, u64::from(steps as u32))
    };
    let travel = Travel { text: "é".repeat(1 << 16).into(), markers: [1 << 16, 0].repeat(1 << 16) };
    let small = shrunk_travel(&travel, |travel| travels::differs(in_32_bits, travel, Memory::Exact));
    assert_eq!((small.expected(), small.markers.len()), ((0, 1 << 32), 1 << 16));
}

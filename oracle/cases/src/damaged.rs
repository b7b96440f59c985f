//! Buffers of numbers that were not built here, or were damaged. The text of a case is the buffer, four bytes a number, high
//! byte first; the events are what the payloads of strings point into.

use crate::rng::Rng;
use crate::run::{Run, ample};
use crate::trees;
use framing::event::{Event, Scalar, Tag, encode};
use framing::{Case, RECORD_NUMBERS, number_bytes};

const NO_TAG: Tag = None;

/// Numbers around every limit of a record: the kinds, small counts, the sign and the end of the range.
const NUMBERS: [u32; 14] = [0, 1, 2, 3, 4, 5, 7, 8, 9, 0x8000_0000, 0xFFFF_FFFC, 0xFFFF_FFFD, 0xFFFF_FFFE, u32::MAX];

/// Where the numbers stand that lead on: kind, subtree count, and the two payload numbers. Then the parent and the flag.
const COUNT: usize = 7;
const LEADING: [usize; 4] = [0, COUNT, 10, 11];
const LAST_TWO: [usize; 2] = [12, 13];

pub fn write(run: &mut Run) {
    put_kinds(run);
    put_tags(run);
    for (number, (buffer, events)) in built().into_iter().enumerate() {
        put_cut_off(run, &buffer, &events, number);
        put_changed(run, &buffer, &events, number);
    }
    for _ in 0..run.sized(23, 300_000) {
        put_random(run);
    }
    for _ in 0..run.sized(23, 300_000) {
        put_damaged(run);
    }
}

/// The records of some built documents, with their event bytes.
fn built() -> Vec<(Vec<u32>, Vec<u8>)> {
    let a = Event::Scalar(Scalar { value: b"a", ..Scalar::default() });
    let b = Event::Scalar(Scalar { index: 1, value: b"b", tag: Some((b"!", b"t")), ..Scalar::default() });
    let lists: [&[Event]; 3] = [
        &[Event::MappingStart(0, NO_TAG), a, b, a, Event::Alias(2), Event::MappingEnd(3)],
        &[
            Event::SequenceStart(0, NO_TAG),
            a,
            Event::SequenceStart(1, NO_TAG),
            b,
            Event::SequenceEnd(2),
            Event::SequenceEnd(3),
        ],
        &[
            Event::MappingStart(0, NO_TAG),
            b,
            Event::SequenceStart(1, NO_TAG),
            a,
            Event::SequenceEnd(2),
            Event::MappingStart(2, NO_TAG),
            Event::MappingEnd(3),
            a,
            Event::MappingEnd(4),
        ],
    ];
    lists.iter().map(|list| with_records(&trees::whole(b"a b c".to_vec(), encode(list)))).collect()
}

/// The records that the original's answer to a document has, and its event bytes.
fn with_records(case: &Case) -> (Vec<u32>, Vec<u8>) {
    (answers::answer(case).records, case.events.clone())
}

/// Every kind and some that are none, alone in a buffer and after a string.
fn put_kinds(run: &mut Run) {
    let string = [5, 0, 1, u32::MAX, u32::MAX, u32::MAX, u32::MAX, 1, 0, 1, 0, 1, 2, 0];
    for kind in (0..=9).chain([255, 256, 257, 0x8000_0000, u32::MAX]) {
        let record = [kind, 2, 3, 4, 5, 6, 7, 1, 9, 10, 1, 0, 11, 12];
        put(run, &record, b"a");
        put(run, &[string, record].concat(), b"a");
        put(run, &[string, string, record].concat(), b"a");
    }
    for length in [0, 1, 12, 13] {
        put(run, &string[..length], b"a");
    }
}

/// Tags of which some of the four numbers say that there is none.
fn put_tags(run: &mut Run) {
    for absent in 0..16 {
        let mut record = [6, 2, 3, 4, 5, 6, 7, 1, 9, 10, 0, 0, 11, 12];
        for place in 0..4 {
            if absent >> place & 1 == 1 {
                record[3 + place] = u32::MAX;
            }
        }
        put(run, &record, b"");
    }
}

/// A buffer cut off at every length; in the sample only the first one.
fn put_cut_off(run: &mut Run, buffer: &[u32], events: &[u8], number: usize) {
    if run.full || number == 0 {
        for length in (0..buffer.len()).step_by(run.sized(9, 1)) {
            put(run, &buffer[..length], events);
        }
        for length in 0..events.len() {
            if run.full || length % 16 == 0 {
                put(run, buffer, &events[..length]);
            }
        }
    }
}

/// Every number changed to every one of some; in the sample only those that lead on, to one each, in the first buffer also the last
/// two, and every count to 0.
fn put_changed(run: &mut Run, buffer: &[u32], events: &[u8], number: usize) {
    for place in 0..buffer.len() {
        let leads = LEADING.contains(&(place % RECORD_NUMBERS));
        let last_two = number == 0 && LAST_TWO.contains(&(place % RECORD_NUMBERS));
        let counts = place % RECORD_NUMBERS == COUNT;
        let near = [buffer[place].wrapping_sub(1), buffer[place].wrapping_add(1), buffer[place].wrapping_add(2)];
        for (turn, number) in near.into_iter().chain(NUMBERS).enumerate() {
            let chosen = (leads || last_two) && turn == place % 17;
            if run.full || chosen || (counts && turn > 2 && number == 0) {
                let mut changed = buffer.to_vec();
                changed[place] = number;
                put(run, &changed, events);
            }
        }
    }
}

/// Numbers that only look like records.
fn put_random(run: &mut Run) {
    let rng = &mut run.rng;
    let length = rng.below(if run.full { 80 } else { 50 });
    let buffer: Vec<u32> = (0..length).map(|place| random_number(rng, place)).collect();
    let events: Vec<u8> = (0..rng.below(12)).map(|_| rng.pick(b"aab\xc3")).collect();
    put(run, &buffer, &events);
}

fn random_number(rng: &mut Rng, place: usize) -> u32 {
    match (place % RECORD_NUMBERS, rng.below(8)) {
        (_, 0) => rng.number() as u32,
        (_, 1) => rng.pick(&NUMBERS),
        (0, _) => rng.pick(&[5, 5, 7, 8, 8, 1]),
        (7, _) => rng.pick(&[1, 1, 1, 2, 3]),
        _ => rng.below(5) as u32,
    }
}

/// A random document of a few nodes with some of its numbers changed.
fn put_damaged(run: &mut Run) {
    let most = run.sized(5, 20);
    let (mut buffer, events) = loop {
        let (case, nodes) = trees::random(&mut run.rng);
        let (buffer, events) = with_records(&case);
        if (2..=most).contains(&nodes) && !buffer.is_empty() {
            break (buffer, events);
        }
    };
    for _ in 0..run.rng.below(4) {
        let record = RECORD_NUMBERS * run.rng.below(buffer.len() / RECORD_NUMBERS);
        let number = match run.rng.below(3) {
            0 => run.rng.below(buffer.len()) as u32,
            1 => run.rng.pick(&NUMBERS),
            _ => run.rng.below(4) as u32,
        };
        let place = record + if run.rng.once_in(4) { run.rng.pick(&LAST_TWO) } else { run.rng.pick(&LEADING) };
        buffer[place] = number;
    }
    put(run, &buffer, &events);
}

fn put(run: &mut Run, buffer: &[u32], events: &[u8]) {
    run.put(&ample(number_bytes(buffer), events.to_vec(), 0, 0));
}

//! The event bytes: one event over an empty text, sound, cut off, overlong or damaged. Whether it is malformed is said by
//! the reader of `answers`: row 3 at event 0.

use crate::run::Run;
use framing::Case;
use framing::event::{Event, Scalar, Tag, encode};

const TAGS: [Tag; 4] =
    [None, Some((b"", b"")), Some((b"tag:yaml.org,2002:", b"int")), Some(("é!".as_bytes(), "ü".as_bytes()))];

/// Bytes that are no UTF-8: a continuation alone, a character cut off, an overlong form, a surrogate, past 10FFFF.
const BROKEN: [&[u8]; 5] = [b"\x80", b"a\xe2\x82", b"\xc0\x80", b"\xed\xa0\x80", b"\xf4\x90\x80\x80"];

/// The largest body, and what a scalar's body has besides its value.
const LARGEST_BODY: usize = 65_535;
const SCALAR_BODY: usize = 11;

pub fn write(run: &mut Run) {
    put_strings(run);
    let largest = vec![b'a'; LARGEST_BODY - SCALAR_BODY];
    if run.full {
        put(run, &encode(&[scalar(None, &largest)]));
    }
    for bytes in sound() {
        put(run, &bytes);
        for length in 0..bytes.len() {
            put(run, &bytes[..length]);
        }
        for more in [vec![0], vec![6, 0, 4, 0, 0, 0, 0]] {
            put(run, &[bytes.clone(), more].concat());
        }
        put_changed(run, &bytes);
    }
}

/// One of each event, with the YAML tags that it can have.
fn sound() -> Vec<Vec<u8>> {
    let mut events = vec![Event::SequenceEnd(1), Event::MappingEnd(0x0102_0304), Event::Alias(u32::MAX)];
    for tag in TAGS {
        events.extend([
            Event::SequenceStart(7, tag),
            Event::MappingStart(8, tag),
            scalar(tag, b""),
            scalar(tag, "né".as_bytes()),
        ]);
    }
    events.iter().map(|event| encode(&[*event])).collect()
}

fn scalar<'a>(tag: Tag<'a>, value: &'a [u8]) -> Event<'a> {
    Event::Scalar(Scalar { index: 3, column: 0x0506_0708, style: 4, empty_span: 1, tag, value })
}

/// Every byte changed: to its neighbours and the values around each limit, or to every value in the full list.
fn put_changed(run: &mut Run, bytes: &[u8]) {
    for place in 0..bytes.len() {
        for value in 0..=u8::MAX {
            let near = value.abs_diff(bytes[place]) == 1;
            if value != bytes[place] && (run.full || near || (place < 20 && [0, 1, 2, 5, 7].contains(&value))) {
                let mut changed = bytes.to_vec();
                changed[place] = value;
                put(run, &changed);
            }
        }
    }
}

/// Strings that are no UTF-8, in each of the three places.
fn put_strings(run: &mut Run) {
    for broken in BROKEN {
        for tag in [Some((broken, b"a".as_slice())), Some((b"a".as_slice(), broken))] {
            for event in [Event::SequenceStart(0, tag), Event::MappingStart(0, tag), scalar(tag, b"a")] {
                put(run, &encode(&[event]));
            }
        }
        put(run, &encode(&[scalar(None, broken)]));
    }
}

fn put(run: &mut Run, events: &[u8]) {
    run.put(&Case { text: Vec::new(), events: events.to_vec(), record_room: 28, piece_room: 24 });
}

//! Tag search: the tag span of a tagged node.

use crate::run::{PLAIN, Run, ample, characters};
use crate::words;
use framing::event::{Event, Scalar, Tag, encode};

const LETTERS: [&str; 6] = ["!", "&", " ", "[", ",", "a"];

/// Parts of the text before a node.
const PARTS: [&str; 26] = [
    " ", " ", "\n", "\t", "\r", "\u{85}", "\u{a0}", "\u{1680}", "\u{2003}", "\u{2028}", "\u{202f}", "\u{205f}",
    "\u{3000}", "\u{200b}", "à", "Å", "!t", "!!int", "!<a>", "&x", "&é", "[", "{", ",", "a", "!é!t",
];

const LONG: &[u8] = &[b't'; 100];

pub fn write(run: &mut Run) {
    put(run, "[a,!t b]", 6, b"t");
    put(run, "[!tag a]", 6, b"tag");
    for text in [
        "!t a",
        "!a",
        "! a",
        "&x !t a",
        "!t &x a",
        "&x a",
        "!a !b a",
        "!a &x &y a",
        "[{,!t a",
        "[ !t a",
        "a,!t b",
        "!t\u{2003}a",
        "!t\u{85}a",
        "!té a",
        "&x",
        "a !t",
        "!t [a",
        "!",
        "",
    ] {
        for suffix in [b"t".as_slice(), b"", b"int", LONG] {
            put(run, text, characters(text).saturating_sub(1), suffix);
            put(run, text, characters(text), suffix);
        }
    }

    for number in (0..words::count(&LETTERS, 6)).step_by(run.sized(211, 1)) {
        let text = words::word(&LETTERS, number);
        for index in 0..=characters(&text) {
            put(run, &text, index, b"t");
        }
    }
    for _ in 0..run.sized(160, 1_000_000) {
        put_random(run);
    }
}

pub fn put_random(run: &mut Run) {
    let text = run.rng.word(&PARTS, 8) + run.rng.pick(&["", "a", " b"]);
    let index = run.rng.below(characters(&text) as usize + 2) as u32;
    let suffix = run.rng.pick(&[b"t".as_slice(), b"", b"int", "é".as_bytes(), LONG]);
    put(run, &text, index, suffix);
    if run.rng.once_in(3) {
        put_collection(run);
    }
}

fn put(run: &mut Run, text: &str, index: u32, suffix: &[u8]) {
    let scalar = Scalar { index, tag: Some((b"!", suffix)), value: b"a", ..Scalar::default() };
    run.put_scalar(text, scalar);
}

/// A tagged collection of up to two nodes: the search goes back from its start, for a mapping that of its first key.
fn put_collection(run: &mut Run) {
    let properties = run.rng.word(&PARTS, 5);
    let bracket = run.rng.pick(&["", "{", "["]);
    let text = format!("{properties}{bracket}a: b");
    let start = characters(&properties);
    let tag: Tag = Some((b"!", b"t"));
    let scalar =
        |offset| Event::Scalar(Scalar { index: start + offset, style: PLAIN, value: b"a", ..Scalar::default() });
    let (first, last, end) = if run.rng.once_in(3) {
        let end = Event::SequenceEnd(start + 4);
        (Event::SequenceStart(start, tag), Event::Alias(start), end)
    } else {
        // A block mapping's marker is on the colon.
        let offset = if bracket == "{" { 0 } else { run.rng.below(3) as u32 };
        let end = Event::MappingEnd(start + 4);
        (Event::MappingStart(start + offset, tag), scalar(3), end)
    };
    let events = match run.rng.below(4) {
        0 => vec![first, end],
        _ => vec![first, scalar(bracket.len() as u32), last, end],
    };
    run.put(&ample(text.into(), encode(&events), 3, 2));
}

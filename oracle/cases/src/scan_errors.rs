//! Errors of a parser: a text and the marker indices to ask for, four bytes each in the place of the events.

use crate::offsets::{LETTERS, SHORT, orders, random_indices};
use crate::rng::Rng;
use crate::run::{Run, TEXT_LIMIT, ample, characters};
use crate::words;
use framing::number_bytes;

const FAR: [u32; 7] = [u32::MAX, 0, u32::MAX - 1, 1, 0x8000_0000, 2, 0x7FFF_FFFF];

pub fn write(run: &mut Run) {
    put_not_utf8(run);
    for text in ["", "a", "é", "a😀", "plain", "é€😀"] {
        put(run, text, &FAR);
    }
    for number in (0..words::count(&SHORT, 5)).step_by(run.sized(3, 1)) {
        let text = words::word(&SHORT, number);
        // Random numbers of its own, so that a sample has the same cases.
        for indices in orders(&text, &mut Rng::new(number as u64)) {
            put(run, &text, &indices);
        }
    }
    for _ in 0..run.sized(200, 300_000) {
        let text = run.rng.word(&LETTERS, 40);
        let indices = random_indices(&mut run.rng, &text, 8);
        put(run, &text, &indices);
    }
    if run.full {
        put_long(run);
    }
}

/// Texts that are no UTF-8: a byte that no text has, at every place; and characters cut off.
fn put_not_utf8(run: &mut Run) {
    for number in 0..words::count(&SHORT, 3) {
        let text = words::word(&SHORT, number).into_bytes();
        for place in 0..=text.len() {
            let mut broken = text.clone();
            broken.insert(place, 0xFF);
            if run.full || (number + place) % 9 == 0 {
                put_bytes(run, broken, &[0, place as u32]);
            }
            if str::from_utf8(&text[..place]).is_err() {
                put_bytes(run, text[..place].to_vec(), &[0, place as u32]);
            }
        }
    }
}

/// The longest texts, one byte more, and texts that the replay program still holds.
fn put_long(run: &mut Run) {
    for length in [60_000, TEXT_LIMIT - 1, TEXT_LIMIT, TEXT_LIMIT + 1] {
        for letter in [b'a', 0x80] {
            put_bytes(run, vec![letter; length], &[0, length as u32 - 1, length as u32]);
        }
        let text = "é€😀".repeat(length / 9);
        let end = characters(&text);
        put(run, &text, &[end - 1, 0, end, end / 2, end + 1]);
    }
}

fn put(run: &mut Run, text: &str, indices: &[u32]) {
    put_bytes(run, text.into(), indices);
}

fn put_bytes(run: &mut Run, text: Vec<u8>, indices: &[u32]) {
    run.put(&ample(text, number_bytes(indices), 0, 0));
}

//! Marker offsets. An event list is a sequence of aliases: the start of an alias's span is the byte offset of its
//! index, and all of them go through one cursor.

use crate::rng::Rng;
use crate::run::{Run, aliases, characters};
use crate::words;

/// Characters of one to four bytes.
pub const SHORT: [&str; 4] = ["a", "é", "€", "😀"];

/// With the first and last characters of each length.
pub const LETTERS: [&str; 12] =
    ["a", ":", "\n", "\u{0}", "\u{7f}", "\u{80}", "\u{7ff}", "\u{800}", "\u{ffff}", "\u{10000}", "\u{10ffff}", "é"];

pub fn write(run: &mut Run) {
    put(run, "é: a", &[3]);
    put(run, "é: a", &[9]);
    for text in ["", "a", "é", "a😀", "plain", "é€😀"] {
        put(run, text, &[u32::MAX, 0, u32::MAX - 1, 1, 0x8000_0000, 2, 0x7FFF_FFFF]);
    }
    for number in (0..words::count(&SHORT, 5)).step_by(run.sized(11, 1)) {
        // Random numbers of its own, so that a sample has the same cases.
        let text = words::word(&SHORT, number);
        for indices in orders(&text, &mut Rng::new(number as u64)) {
            put(run, &text, &indices);
        }
    }
    for _ in 0..run.sized(100, 100_000) {
        put_random(run);
    }
    if run.full {
        for letters in ["a", "aé", "€a", "😀"] {
            let text = letters.repeat(1_048_576 / letters.len());
            let indices = random_indices(&mut run.rng, &text, 100);
            put(run, &text, &indices);
        }
    }
}

pub fn put_random(run: &mut Run) {
    let text = run.rng.word(&LETTERS, 40);
    let indices = random_indices(&mut run.rng, &text, 8);
    put(run, &text, &indices);
}

/// Every index of a text and two past its end, rising, falling and in random order.
pub fn orders(text: &str, rng: &mut Rng) -> [Vec<u32>; 3] {
    let rising: Vec<u32> = (0..characters(text) + 3).collect();
    let falling = rising.iter().rev().copied().collect();
    let random = random_indices(rng, text, rising.len());
    [rising, falling, random]
}

pub fn random_indices(rng: &mut Rng, text: &str, count: usize) -> Vec<u32> {
    let end = characters(text) as usize + 3;
    (0..count).map(|_| rng.below(end) as u32).collect()
}

fn put(run: &mut Run, text: &str, indices: &[u32]) {
    run.put(&aliases(text, indices, 0));
}

//! How far the cursor travels: document 02 (k). A text and the markers that the cursor goes to, four bytes each in the place of the events.

use crate::offsets::{LETTERS, random_indices};
use crate::rng::Rng;
use crate::run::{EDGES, NOT_UTF8, Run, TEXT_LIMIT, Thinned, ample, characters, filled, indices};
use crate::words;
use framing::{Case, number_bytes};

const MARKERS_LIMIT: usize = 1_048_576;

/// Of one byte the last, and another; then one of each length.
const SHORT: [&str; 5] = ["a", "\x7f", "é", "€", "😀"];

const FAR: [u32; 3] = [0x7FFF_FFFF, 0x8000_0000, u32::MAX];

pub fn write(run: &mut Run) {
    put_not_utf8(run);
    put_characters(run);
    put_words(run);
    put_longer_words(run);
    put_edges(run);
    for _ in 0..run.sized(2_000, 200_000) {
        put_random(run);
    }
}

/// Texts that are no UTF-8 at a place that the cursor passes, that it stands at, or that it does not come to.
fn put_not_utf8(run: &mut Run) {
    for part in NOT_UTF8 {
        for before in ["", "a", "é€", "aaaaaaaaaaaaaaaaaaaaaaaaaaaaaaaa"] {
            for after in ["", "a", "😀"] {
                let text = [before.as_bytes(), part, after.as_bytes()].concat();
                for markers in [&[][..], &[0], &[0, 1], &[u32::MAX, 0]] {
                    run.put(&case(text.clone(), markers));
                }
            }
        }
    }
    // Characters cut off.
    for number in 0..words::count(&SHORT, 2) {
        let text = words::word(&SHORT, number).into_bytes();
        for place in (0..text.len()).filter(|place| str::from_utf8(&text[..*place]).is_err()) {
            run.put(&case(text[..place].to_vec(), &[0, place as u32]));
        }
    }
}

/// Every character of one byte, and around them the first and the last of each length; alone, and as the one of its kind in a longer text.
fn put_characters(run: &mut Run) {
    let longer = ["\u{80}", "\u{7ff}", "\u{800}", "\u{d7ff}", "\u{e000}", "\u{ffff}", "\u{10000}", "\u{10ffff}"];
    let letters: Vec<String> = ('\0'..='\x7f').map(String::from).chain(longer.map(String::from)).collect();
    for letter in &letters {
        for (before, after) in [("", ""), ("", "a"), ("é", "é")] {
            let text = format!("{before}{letter}{after}");
            for markers in [zigzag(&indices(&text)), vec![1, 0], vec![]] {
                run.put(&case(text.clone().into(), &markers));
            }
        }
    }
    for letter in longer {
        for place in (0..70).step_by(run.sized(3, 1)) {
            let text = format!("{}{letter}{}", "a".repeat(place), "a".repeat(69 - place));
            run.put(&case(text.into(), &[70, 0, place as u32, place as u32 + 1, 71, 2]));
        }
    }
}

/// All short texts and all short sequences of their indices and of some past the end.
fn put_words(run: &mut Run) {
    let mut thinned = Thinned::new(run, 7);
    for number in 0..words::count(&SHORT, run.sized(3, 4) as u32) {
        let text = words::word(&SHORT, number);
        let indices = indices(&text);
        for number in 0..words::count(&indices, 3) {
            thinned.put(run, || case(text.clone().into(), &words::list(&indices, number)));
        }
    }
}

/// Of longer texts all indices in several orders.
fn put_longer_words(run: &mut Run) {
    let mut thinned = Thinned::new(run, 11);
    for number in words::count(&SHORT, 3)..words::count(&SHORT, 5) {
        let text = words::word(&SHORT, number);
        // Random numbers of its own, so that a sample has the same cases.
        for markers in orders(&text, &mut Rng::new(number as u64)) {
            thinned.put(run, || case(text.clone().into(), &markers));
        }
    }
}

/// Texts of about a multiple of 32 bytes, of characters of one length and with another at the end.
fn put_edges(run: &mut Run) {
    let mut thinned = Thinned::new(run, 5);
    for unit in ["a", "é", "€", "😀"] {
        for size in EDGES.into_iter().flatten() {
            let before = filled(unit, size);
            for after in ["", "a", "\x7f", "é", "€", "😀"] {
                let text = format!("{before}{after}");
                let [near, end] = [&before, &text].map(|text| characters(text));
                let sequences: [&[u32]; 5] = [
                    &[end],
                    &[0, near - 1, near, near, near + 1, end, end + 1],
                    &[u32::MAX, end - 1, near, near - 1, 1, 0],
                    &[end + 1, 0, end, 1, near, 2, near - 1],
                    &[31, 32, 33, 64, 63, 32, 31, 0, 96],
                ];
                for markers in sequences {
                    thinned.put(run, || case(text.clone().into(), markers));
                }
            }
        }
    }
}

/// A text of stretches and letters, or of ASCII alone, and markers anywhere, near the one before, or far past the end.
pub fn put_random(run: &mut Run) {
    let rng = &mut run.rng;
    let letters = if rng.once_in(8) { &LETTERS[..5] } else { &LETTERS };
    let mut text = String::new();
    for _ in 0..rng.below(4) {
        text += &rng.pick(letters).repeat(rng.below(40));
        text += &rng.word(letters, 8);
    }
    let count = rng.below(12);
    let mut markers = random_indices(rng, &text, count);
    for place in 1..count {
        match rng.below(8) {
            0 => markers[place] = rng.pick(&FAR),
            1 => markers[place] = markers[place - 1],
            2 => markers[place] = (markers[place - 1].saturating_add(rng.below(5) as u32)).saturating_sub(2),
            _ => {}
        }
    }
    if rng.once_in(6) {
        markers.sort_unstable();
    }
    run.put(&case(text.into(), &markers));
}

/// Texts and sequences at their limits, and high counts.
pub fn put_limits(run: &mut Run) {
    for length in near(TEXT_LIMIT) {
        let end = vec![0x80; 1];
        for text in [vec![b'a'; length], filled("é", length).into(), [vec![b'a'; length - 1], end].concat()] {
            run.put(&case(text, &[u32::MAX, 0, 1_000, length as u32, 3]));
        }
    }
    for count in near(MARKERS_LIMIT) {
        for text in [&b""[..], b"a", "é€".as_bytes(), b"\x80"] {
            run.put(&case(text.to_vec(), &back_and_forth(2, count)));
        }
    }
    let many = vec![0; MARKERS_LIMIT + 1];
    for text in [vec![b'a'; TEXT_LIMIT + 1], filled("é", TEXT_LIMIT + 1).into(), vec![0x80; TEXT_LIMIT + 1]] {
        run.put(&case(text, &many));
    }
    // The most characters of each length, and of all lengths.
    let most = "a".repeat(TEXT_LIMIT - 2) + "é";
    for text in [filled("é", TEXT_LIMIT), filled("€", TEXT_LIMIT), filled("😀", TEXT_LIMIT), most] {
        let end = characters(&text);
        run.put(&case(text.into(), &back_and_forth(end, MARKERS_LIMIT)));
    }
    // Counts around 2^31 and 2^32.
    let text = "é".repeat(1 << 16);
    for steps in [1 << 15, 1 << 16] {
        let markers = back_and_forth(1 << 16, steps);
        run.put(&case(text.clone().into(), &markers));
        run.put(&case(text.clone().into(), &[&markers[1..], &[65_535]].concat()));
        run.put(&case(text.clone().into(), &[&markers, &[1][..]].concat()));
    }
}

fn near(limit: usize) -> [usize; 3] {
    [limit - 1, limit, limit + 1]
}

/// So many markers, at an index and at 0 in turn.
fn back_and_forth(index: u32, count: usize) -> Vec<u32> {
    (0..count).map(|number| if number % 2 == 0 { index } else { 0 }).collect()
}

/// Every index of a text, and some past its end: rising, falling, back and forth, each of them twice, and at random.
fn orders(text: &str, rng: &mut Rng) -> [Vec<u32>; 5] {
    let rising = indices(text);
    let falling = rising.iter().rev().copied().collect();
    let twice = rising.iter().flat_map(|index| [*index; 2]).collect();
    let random = random_indices(rng, text, rising.len());
    [zigzag(&rising), twice, random, falling, rising]
}

/// The first, the last, the second, the last but one and so on.
fn zigzag(rising: &[u32]) -> Vec<u32> {
    let pairs = rising.iter().zip(rising.iter().rev()).flat_map(|(low, high)| [*low, *high]);
    pairs.take(rising.len()).collect()
}

fn case(text: Vec<u8>, markers: &[u32]) -> Case {
    ample(text, number_bytes(markers), 0, 0)
}

#[cfg(test)]
mod tests {
    use super::*;

    #[test]
    fn every_index_in_each_order() {
        let far = [0x8000_0000, u32::MAX];
        assert_eq!(zigzag(&[0, 1, 2, 3, 9]), [0, 9, 1, 3, 2]);
        let [zigzag, twice, random, falling, rising] = orders("€", &mut Rng::new(1));
        assert_eq!(rising, [0, 1, 2, 3, far[0], far[1]]);
        assert_eq!(falling, [far[1], far[0], 3, 2, 1, 0]);
        assert_eq!(zigzag, [0, far[1], 1, far[0], 2, 3]);
        assert_eq!(twice.len(), 12);
        assert!(random.len() == 6 && random.iter().all(|index| *index < 4));
    }
}

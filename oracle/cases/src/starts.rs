//! Where scalars start: document 02 (g). Scalars in every place of a document, their markers at every index of texts with colons and with
//! characters of each length. Documents are written a letter for each event.

use crate::rng::Rng;
use crate::run::{
    DOUBLE_QUOTED, EDGES, FOLDED, LITERAL, PLAIN, Run, SINGLE_QUOTED, Thinned, ample, characters, filled, indices,
};
use crate::words;
use framing::Case;
use framing::event::{Event, Scalar, Tag};

/// A colon, characters of each length, and two that a reader may take for the end of a line or of the text.
const LETTERS: [&str; 7] = [":", "a", "é", "€", "😀", "\n", "\0"];

/// A scalar's style, value, empty-span byte and tag. No value stands for the character at its marker.
type Written = (u8, Option<&'static str>, u8, Tag<'static>);

const EQUAL: Option<&str> = None;
const EMPTY: Option<&str> = Some("");

/// Values that are null, or blank, and not empty.
const NULL: Option<&str> = Some("~");
const BLANK: Option<&str> = Some(" ");

const NO_TAG: Tag = None;
const TAG: Tag = Some((b"!", b"t"));
const STRING: Tag = Some((b"tag:yaml.org,2002:", b"str"));

const SCALARS: [Written; 24] = [
    (PLAIN, EMPTY, 0, NO_TAG),
    (PLAIN, EMPTY, 1, NO_TAG),
    (PLAIN, EMPTY, 0, TAG),
    (PLAIN, EMPTY, 1, STRING),
    (PLAIN, EQUAL, 0, NO_TAG),
    (PLAIN, EQUAL, 1, NO_TAG),
    (PLAIN, EQUAL, 0, TAG),
    (PLAIN, NULL, 0, NO_TAG),
    (PLAIN, NULL, 1, TAG),
    (PLAIN, BLANK, 0, NO_TAG),
    (SINGLE_QUOTED, EMPTY, 0, NO_TAG),
    (SINGLE_QUOTED, EMPTY, 1, TAG),
    (SINGLE_QUOTED, EQUAL, 0, NO_TAG),
    (DOUBLE_QUOTED, EMPTY, 0, NO_TAG),
    (DOUBLE_QUOTED, EMPTY, 1, TAG),
    (DOUBLE_QUOTED, EQUAL, 0, NO_TAG),
    (LITERAL, EMPTY, 0, NO_TAG),
    (LITERAL, EMPTY, 1, NO_TAG),
    (LITERAL, EMPTY, 0, TAG),
    (LITERAL, EQUAL, 0, NO_TAG),
    (FOLDED, EMPTY, 0, NO_TAG),
    (FOLDED, EMPTY, 1, NO_TAG),
    (FOLDED, EMPTY, 0, TAG),
    (FOLDED, EQUAL, 0, NO_TAG),
];

/// Those whose start may be another than their marker's.
const EMPTY_PLAIN: [Written; 4] = [SCALARS[0], SCALARS[1], SCALARS[2], SCALARS[3]];

/// What a sequence and what a mapping is made of, with `$` for a scalar at the next index. An alias stands at that index too, or at the
/// start of the text, or past its end; a collection starts and ends at it.
const ITEMS: [&str; 3] = ["$", "{*$}", "[{<$}$]"];
const PAIRS: [&str; 11] = ["*$", "<$", ">$", "$*", "$$", "*[$]", "*{$*}", "*{*$}", "{*$}*", "[$]$", "*{>$}$*"];

const BRACKETS: [char; 2] = ['[', ']'];
const BRACES: [char; 2] = ['{', '}'];

/// Each of these with what is around it.
fn bodies() -> impl Iterator<Item = Body> {
    ITEMS.map(|body| (BRACKETS, body)).into_iter().chain(PAIRS.map(|body| (BRACES, body)))
}

type Body = ([char; 2], &'static str);

pub fn write(run: &mut Run) {
    put_words(run);
    put_longer_words(run);
    put_characters(run);
    put_edges(run);
    for _ in 0..run.sized(2_000, 50_000) {
        put_random(run);
    }
}

/// All short texts, each scalar alone at every index, and in documents of all indices, rising and falling.
fn put_words(run: &mut Run) {
    let mut thinned = Thinned::new(run, 41);
    for number in 0..words::count(&LETTERS, 3) {
        let text = words::word(&LETTERS, number);
        for written in &SCALARS {
            for index in indices(&text) {
                thinned.put(run, || document(&text, "$", &[(index, written)]));
            }
            for body in bodies() {
                for indices in orders(&text) {
                    thinned.put(run, || at_all(&text, body, &indices, &[*written]));
                }
            }
        }
    }
}

/// Of longer texts documents of scalars of every kind in turn.
fn put_longer_words(run: &mut Run) {
    let mut thinned = Thinned::new(run, 43);
    for number in words::count(&LETTERS, 3)..words::count(&LETTERS, 4) {
        let text = words::word(&LETTERS, number);
        for (shape, body) in bodies().enumerate() {
            let mut kinds = SCALARS;
            kinds.rotate_left((number + 7 * shape) % SCALARS.len());
            for indices in orders(&text) {
                thinned.put(run, || at_all(&text, body, &indices, &kinds));
            }
        }
    }
}

/// Every character of one byte where a colon would stand, and some of more bytes that look or end like one.
fn put_characters(run: &mut Run) {
    for letter in ('\0'..='\x7f').chain(['º', 'ĺ', '›', '：', '︰', 'ː', '׃', '🔺']) {
        for (before, after) in [("", ""), ("", "a"), ("€", "é"), ("", ":"), ("é", "")] {
            let text = format!("{before}{letter}{after}");
            let index = characters(before);
            for written in &EMPTY_PLAIN[..2] {
                run.put(&document(&text, "{*$}", &[(index, written)]));
                run.put(&document(&text, "{$$}", &[(index, written), (index, written)]));
            }
        }
    }
}

/// Texts of about a multiple of 32 bytes, with a colon and characters of each length at and across the edge: behind characters of one
/// length, and before others.
fn put_edges(run: &mut Run) {
    let mut thinned = Thinned::new(run, 11);
    for unit in ["a", "é", "€", "😀"] {
        for bytes in EDGES {
            for size in bytes {
                let before = filled(unit, size);
                for middle in [":", "é:", "€:", "😀:", ":é", ":😀:", "::", ":\0", "\n:"] {
                    for after in ["", "a", "€", "bcdefghijklmnopqrstuvwxyz, aé: bcdefghijklmnopqrstuvwxyz"] {
                        let text = format!("{before}{middle}{after}");
                        let [near, end] = [&before, &text].map(|text| characters(text));
                        let rising = [0, near - 1, near, near + 1, near + 2, near + 3, end - 1, end, end + 1];
                        let falling = [end, near + 2, near + 1, near, near - 1, 0];
                        let documents: [(Body, &[u32]); 5] = [
                            ((BRACES, "*$"), &rising),
                            ((BRACES, "<$"), &rising),
                            ((BRACES, ">$"), &rising),
                            ((BRACES, "$$"), &falling),
                            ((BRACKETS, "$"), &falling),
                        ];
                        for (body, indices) in documents {
                            thinned.put(run, || at_all(&text, body, indices, &EMPTY_PLAIN));
                        }
                    }
                }
            }
        }
    }
}

/// A random text with stretches, and scalars of every kind in a random tree, most of them empty and most near a colon.
pub fn put_random(run: &mut Run) {
    let rng = &mut run.rng;
    let mut text = String::new();
    for _ in 0..rng.below(4) {
        text += &rng.pick(&LETTERS).repeat(rng.below(40));
        text += &rng.word(&LETTERS, 6);
    }
    let mut letters = String::from("$");
    for _ in 0..rng.below(4) {
        let grown = |letter| if letter == '$' && !rng.once_in(3) { collection(rng) } else { String::from(letter) };
        letters = letters.chars().map(grown).collect();
    }
    let colons: Vec<u32> =
        (0..).zip(text.chars()).filter(|(_, letter)| *letter == ':').map(|(index, _)| index).collect();
    let end = characters(&text) as usize;
    let mut scalar = |_| {
        let index = match rng.below(8) {
            0..5 if !colons.is_empty() => (rng.pick(&colons) + rng.below(3) as u32).saturating_sub(1),
            5 => rng.pick(&[0x7FFF_FFFF, 0x8000_0000, u32::MAX - 1, u32::MAX]),
            _ => rng.below(end + 3) as u32,
        };
        (index, if rng.once_in(2) { &SCALARS[0] } else { &SCALARS[rng.below(SCALARS.len())] })
    };
    let scalars: Vec<(u32, &Written)> = letters.matches('$').map(&mut scalar).collect();
    run.put(&document(&text, &letters, &scalars));
}

fn collection(rng: &mut Rng) -> String {
    let (around, bodies) = if rng.once_in(3) { (BRACKETS, &ITEMS[..]) } else { (BRACES, &PAIRS[..]) };
    let [start, end] = around;
    let bodies: String = (0..=rng.below(3)).map(|_| rng.pick(bodies)).collect();
    format!("{start}{bodies}{end}")
}

fn orders(text: &str) -> [Vec<u32>; 2] {
    let rising = indices(text);
    let falling = rising.iter().rev().copied().collect();
    [rising, falling]
}

/// The body for scalars of some kinds in turn, until each index was taken by one.
fn at_all(text: &str, ([start, end], body): Body, indices: &[u32], kinds: &[Written]) -> Case {
    let scalars = body.matches('$').count();
    let count = indices.len().div_ceil(scalars);
    let scalars: Vec<(u32, &Written)> =
        (0..count * scalars).map(|number| (indices[number % indices.len()], &kinds[number % kinds.len()])).collect();
    document(text, &format!("{start}{}{end}", body.repeat(count)), &scalars)
}

/// The document of some letters, with what the scalars are and where their markers stand.
fn document(text: &str, letters: &str, scalars: &[(u32, &Written)]) -> Case {
    let mut events = Vec::new();
    let mut nodes = 0;
    let mut value_bytes = 0;
    let mut left = scalars.iter();
    let (last, _) = scalars[scalars.len() - 1];
    for (number, letter) in letters.chars().enumerate() {
        let index = left.as_slice().first().map_or(last, |(index, _)| *index);
        let event = match letter {
            '[' => Event::SequenceStart(index, NO_TAG),
            ']' => Event::SequenceEnd(index),
            '{' => Event::MappingStart(index, NO_TAG),
            '}' => Event::MappingEnd(index),
            '*' => Event::Alias(index),
            '<' => Event::Alias(0),
            '>' => Event::Alias(characters(text) + 1),
            _ => {
                let (_, (style, value, empty_span, tag)) = *left.next().expect("as many as the letters have");
                let value = value.unwrap_or_else(|| at(text, index));
                value_bytes += value.len();
                let column = number as u32 % 4;
                Event::Scalar(Scalar {
                    index,
                    column,
                    style: *style,
                    empty_span: *empty_span,
                    tag: *tag,
                    value: value.as_bytes(),
                })
            }
        };
        nodes += usize::from(!matches!(letter, '[' | '{'));
        event.encode(&mut events);
    }
    ample(text.into(), events, nodes, value_bytes)
}

/// The character at an index, or a colon past the text.
fn at(text: &str, index: u32) -> &str {
    match text.char_indices().nth(index as usize) {
        Some((start, letter)) => &text[start..start + letter.len_utf8()],
        None => ":",
    }
}

#[cfg(test)]
mod tests {
    use super::*;

    fn starts(case: &Case) -> Vec<u32> {
        answers::answer(case).records.chunks(14).map(|record| record[1]).collect()
    }

    #[test]
    fn every_index_has_a_scalar() {
        let [rising, falling] = orders("é:");
        assert_eq!(rising, [0, 1, 2, 3, 4, 0x8000_0000, u32::MAX]);
        // Key and value at each index, then the mapping.
        let case = at_all("é:", (BRACES, "*$"), &rising, &EMPTY_PLAIN);
        assert_eq!(starts(&case), [0, 0, 2, 3, 3, 3, 3, 3, 3, 3, 3, 3, 3, 3, 0]);
        let case = at_all("é:", (BRACKETS, "$"), &falling, &SCALARS);
        assert_eq!(starts(&case), [3, 3, 3, 3, 3, 2, 0, 3]);
        // The first index once more, so that each pair is whole.
        let case = at_all("é:", (BRACES, "$$"), &rising, &EMPTY_PLAIN);
        assert_eq!(starts(&case), [0, 3, 3, 3, 3, 3, 3, 0, 0]);
    }

    #[test]
    fn values_are_the_characters() {
        assert_eq!([0, 1, 2, 9].map(|index| at("😀:", index)), ["😀", ":", ":", ":"]);
    }
}

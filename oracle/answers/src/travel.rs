//! How far the cursor travels: document 02 (k). This is a second implementation, written from its words alone: a cursor that stands between
//! two characters of a text and goes over one of them with each step, which is counted as it is taken.

use crate::{TEXT_LIMIT, decode, refused};
use framing::{Answer, Case};

const MARKERS_LIMIT: usize = 1_048_576;

/// So many steps are taken.
const STEPS_LIMIT: u64 = 1 << 22;

/// `0, steps`, or a row's number and 0.
pub fn travel(text: &[u8], markers: &[u32]) -> (u32, u64) {
    if text.len() > TEXT_LIMIT || markers.len() > MARKERS_LIMIT {
        return (1, 0);
    }
    let Ok(text) = str::from_utf8(text) else {
        return (2, 0);
    };
    let steps = match text.is_ascii() {
        true => 0,
        false => taken(text, markers, STEPS_LIMIT).unwrap_or_else(|| passes(text, markers)),
    };
    (0, steps)
}

/// The markers of a document: the marker indices of all its sound events, starts and ends too.
pub fn markers(events: &[u8]) -> Vec<u32> {
    decode::events(events).iter().map(|event| event.index).collect()
}

/// The family `travels`. The events of the case are the markers, four bytes each; the records of the answer are the two halves of the count.
pub fn travels(case: &Case) -> Answer {
    match travel(&case.text, &framing::numbers(&case.events)) {
        (0, steps) => {
            let records = vec![(steps >> 32) as u32, steps as u32];
            Answer { returned: [0, 1, 0], records, pieces: Vec::new() }
        }
        (row, _) => refused(row, 0),
    }
}

/// A cursor in a text: how many characters are before it, and how many bytes.
struct Cursor<'a> {
    text: &'a str,
    index: usize,
    offset: usize,
}

impl<'a> Cursor<'a> {
    /// At the text's start.
    fn new(text: &'a str) -> Self {
        Self { text, index: 0, offset: 0 }
    }

    /// Over one character, unless it stands at the text's end.
    fn step_forward(&mut self) -> bool {
        let Some(letter) = self.text[self.offset..].chars().next() else {
            return false;
        };
        self.index += 1;
        self.offset += letter.len_utf8();
        true
    }

    /// Back over one character, unless it stands at the text's start.
    fn step_back(&mut self) -> bool {
        let Some(letter) = self.text[..self.offset].chars().next_back() else {
            return false;
        };
        self.index -= 1;
        self.offset -= letter.len_utf8();
        true
    }

    /// Straight to an index, or to the text's end for one past it. How many steps that took.
    fn go_to(&mut self, index: usize) -> u64 {
        let mut steps = 0;
        while self.index < index && self.step_forward() {
            steps += 1;
        }
        while self.index > index && self.step_back() {
            steps += 1;
        }
        steps
    }
}

/// The steps of a cursor that goes to each marker in turn; none if it gives up after so many.
fn taken(text: &str, markers: &[u32], limit: u64) -> Option<u64> {
    let mut cursor = Cursor::new(text);
    let mut steps = 0;
    for marker in markers {
        steps += cursor.go_to(*marker as usize);
        if steps > limit {
            return None;
        }
    }
    Some(steps)
}

/// The same count where the way is long, by the characters: whoever goes straight from one place to another passes each character between
/// the two once.
fn passes(text: &str, markers: &[u32]) -> u64 {
    let end = text.chars().count();
    // By how many more ways than the character before it each one is passed.
    let mut more = vec![0_i64; end + 1];
    let mut from = 0;
    for marker in markers {
        let to = end.min(*marker as usize);
        more[from.min(to)] += 1;
        more[from.max(to)] -= 1;
        from = to;
    }
    let passing = more.iter().scan(0, |passing, more| {
        *passing += more;
        Some(*passing as u64)
    });
    passing.sum()
}

#[cfg(test)]
mod tests {
    use super::*;

    const FAR: u32 = u32::MAX;

    fn steps(text: &str, markers: &[u32]) -> u64 {
        let (0, steps) = travel(text.as_bytes(), markers) else { panic!("an answer") };
        steps
    }

    #[test]
    fn forward_and_back() {
        // Of three characters.
        let text = "é€b";
        let ways: [(&[u32], u64); 12] = [
            (&[], 0),
            (&[0], 0),
            (&[2], 2),
            (&[3], 3),
            (&[4], 3),
            (&[FAR], 3),
            (&[3, 0], 6),
            (&[0, 1, 1, 2, 3, 3], 3),
            (&[2, 0, 3], 7),
            (&[FAR, 4, 3, FAR], 3),
            (&[FAR, 1, 0x8000_0000, 2], 8),
            (&[3, 2, 1, 0, 1], 7),
        ];
        for (markers, expected) in ways {
            assert_eq!(steps(text, markers), expected, "{markers:?}");
        }
        assert_eq!([&[][..], &[0], &[FAR], &[1, 0, FAR]].map(|markers| steps("", markers)), [0; 4]);
    }

    #[test]
    fn ascii_texts_do_without() {
        for text in ["a", "abc", "\0\x7f", &"a".repeat(100)] {
            assert_eq!(steps(text, &[FAR, 0, 1, 0]), 0);
        }
        for text in ["\u{80}", "é", "€", "😀"] {
            assert_eq!(steps(text, &[FAR, 0, 1, 0]), 4);
            assert_eq!(steps(&format!("abc{text}"), &[FAR, 0, 1, 0]), 10);
        }
    }

    #[test]
    fn what_is_refused() {
        let [long, longest] = [TEXT_LIMIT + 1, TEXT_LIMIT].map(|length| vec![b'a'; length]);
        let [many, most] = [MARKERS_LIMIT + 1, MARKERS_LIMIT].map(|count| vec![1; count]);
        assert_eq!(
            [travel(&longest, &[1]), travel(b"a", &most), travel("é".as_bytes(), &most)],
            [(0, 0), (0, 0), (0, 1)]
        );
        assert_eq!([travel(&long, &[1]), travel(b"a", &many), travel(&long, &many)], [(1, 0); 3]);
        // Sizes come first.
        assert_eq!([travel(b"\xc3", &many), travel(&vec![0x80; long.len()], &[])], [(1, 0); 2]);
        for text in [&b"\x80"[..], b"a\xc3", b"\xc3\xa9\xff", b"\xed\xa0\x80", b"\xc0\xaf"] {
            assert_eq!([travel(text, &[]), travel(text, &[0, 1])], [(2, 0); 2]);
        }
    }

    #[test]
    fn a_count_is_two_numbers() {
        let answered = |text: &[u8], markers: &[u32]| {
            let events = framing::number_bytes(markers);
            let answer = travels(&Case { text: text.to_vec(), events, record_room: 0, piece_room: 0 });
            (answer.returned, answer.records)
        };
        assert_eq!(answered("é€b".as_bytes(), &[FAR, 1]), ([0, 1, 0], vec![0, 5]));
        let text = "é".repeat(1 << 16);
        let markers = [&[1 << 16, 0].repeat(1 << 16)[..], &[7]].concat();
        assert_eq!(answered(text.as_bytes(), &markers), ([0, 1, 0], vec![2, 7]));
        assert_eq!(answered(b"\xc3", &[0]), ([2, 0, 0], vec![]));
        assert_eq!(answered(b"", &vec![0; MARKERS_LIMIT + 1]), ([1, 0, 0], vec![]));
    }

    /// The markers of a document are those of all its events, and of those before the first that is none.
    #[test]
    fn markers_of_a_document() {
        use framing::event::{Event::*, Scalar, encode};
        let list = [
            MappingStart(1, None),
            Scalar(Scalar { index: 5, value: b"a", tag: Some((b"!", b"t")), ..Scalar::default() }),
            SequenceStart(3, None),
            Alias(FAR),
            SequenceEnd(2),
            MappingEnd(9),
        ];
        let events = encode(&list);
        assert_eq!(markers(&events), [1, 5, 3, FAR, 2, 9]);
        assert_eq!(markers(&events[..events.len() - 1]), [1, 5, 3, FAR, 2]);
        assert_eq!(markers(b""), [0_u32; 0]);
    }

    /// Every index of a text, one past its end, and the largest.
    fn indices(text: &str) -> Vec<u32> {
        (0..text.chars().count() as u32 + 2).chain([FAR]).collect()
    }

    /// Every sequence of three over some texts, and a long one.
    #[test]
    fn both_count_alike() {
        for text in ["", "a", "é", "a€", "😀é:", "aé€😀\n"] {
            for first in indices(text) {
                for second in indices(text) {
                    for third in indices(text) {
                        let markers = [first, second, third];
                        assert_eq!(taken(text, &markers, u64::MAX), Some(passes(text, &markers)), "{text} {markers:?}");
                    }
                }
            }
        }
        let text = "aé€😀".repeat(40);
        let markers: Vec<u32> = (0..1_000).map(|number: u32| number.wrapping_mul(0x9E37_79B9) >> 24).collect();
        assert_eq!(taken(&text, &markers, u64::MAX), Some(passes(&text, &markers)));
    }

    #[test]
    fn long_ways_are_not_taken() {
        let text = "é".repeat(1_000);
        let markers = [1_000, 0].repeat(3_000);
        assert_eq!(taken(&text, &markers, STEPS_LIMIT), None);
        assert_eq!(steps(&text, &markers), 6_000_000);
        assert_eq!(taken(&text, &markers, 6_000_000), Some(6_000_000));
        // More than 32 bits, and the most that the limits allow.
        let text = "é".repeat(TEXT_LIMIT / 2);
        assert_eq!(steps(&text, &[FAR, 0].repeat(MARKERS_LIMIT / 2)), 1 << 39);
        let text = "a".repeat(TEXT_LIMIT - 2) + "é";
        assert_eq!(steps(&text, &[FAR, 0].repeat(MARKERS_LIMIT / 2)), (1 << 40) - (1 << 20));
    }

    /// Indices that never fall take at most as many steps as the text has characters.
    #[test]
    fn rising_ways_are_short() {
        for text in ["é", "a€😀", "aé€😀\n"] {
            let rising = indices(text);
            for number in 0..1 << rising.len() {
                let some = rising.iter().enumerate().filter(|(place, _)| number >> place & 1 == 1);
                let some: Vec<u32> = some.map(|(_, index)| *index).collect();
                let last = some.last().map_or(0, |last| u64::from(*last));
                assert_eq!(steps(text, &some), last.min(text.chars().count() as u64));
            }
        }
    }

    /// A marker that is moved by one moves its offset by at most four bytes, past the text by none.
    #[test]
    fn one_index_is_four_bytes_at_most() {
        let text = "a:é€\0😀ß\u{10ffff}";
        let mut cursor = Cursor::new(text);
        let mut lengths = Vec::new();
        for index in 0..10 {
            let before = cursor.offset;
            cursor.go_to(index + 1);
            lengths.push(cursor.offset - before);
        }
        assert_eq!(lengths, [1, 1, 2, 3, 1, 4, 2, 4, 0, 0]);
    }
}

//! Where a scalar starts: document 01's marker indices and the first sentence of its reading rule Start. This is a second implementation,
//! written from the words of documents 01 and 02 alone, over characters. Its shape says what document 02 (g) asks to be shown: a start is an
//! entry of the list of places between two characters, so that none lies past the text or inside a character.

use crate::decode::{Body, Event, Scalar};
use crate::parent::Place;
use crate::record::{ORIGINAL_NUMBERS, START};
use saphyr_parser::ScalarStyle;

/// A place between two characters of a text, its start and its end among them.
#[derive(Debug, Clone, Copy, PartialEq)]
pub struct Boundary {
    /// How many characters of the text are before it, and how many bytes.
    pub index: usize,
    pub offset: usize,
    /// The character behind it, or none at the text's end.
    pub letter: Option<char>,
}

/// Where a scalar's marker stands, and where the scalar starts: there or at the next boundary.
#[derive(Debug, Clone, Copy, PartialEq)]
pub struct Start {
    pub marker: Boundary,
    pub at: Boundary,
}

/// All boundaries of a text in order; the last is its end.
struct Boundaries(Vec<Boundary>);

impl Boundaries {
    fn of(text: &str) -> Self {
        let letters = text.char_indices().map(|(offset, letter)| (offset, Some(letter)));
        let all = letters.chain([(text.len(), None)]).enumerate();
        Self(all.map(|(index, (offset, letter))| Boundary { index, offset, letter }).collect())
    }

    /// That of a character index, or the last for an index past the text.
    fn at(&self, index: usize) -> Boundary {
        self.0[index.min(self.0.len() - 1)]
    }
}

/// How each node that admitted events complete starts if it is a scalar, in the order of their records; none for the other nodes.
pub fn starts(text: &str, events: &[Event], places: &[Place]) -> Vec<Option<Start>> {
    let boundaries = Boundaries::of(text);
    let start = |(event, place): (&Event, &Place)| match &event.body {
        Body::Scalar(scalar) => Some(start(&boundaries, event.index as usize, scalar, place.awaited)),
        _ => None,
    };
    events.iter().filter(|event| event.completes()).zip(places).map(start).collect()
}

/// An empty plain scalar that is awaited as a mapping's value and stands on a colon starts behind it.
fn start(boundaries: &Boundaries, index: usize, scalar: &Scalar, awaited: bool) -> Start {
    let marker = boundaries.at(index);
    let steps = scalar.style == ScalarStyle::Plain && scalar.value.is_empty() && awaited && marker.letter == Some(':');
    Start { marker, at: if steps { boundaries.at(marker.index + 1) } else { marker } }
}

/// The number of the first scalar whose record starts elsewhere than it does here.
pub fn differing(starts: &[Option<Start>], originals: &[[u32; ORIGINAL_NUMBERS]]) -> Option<usize> {
    let differs = |(start, original): (&Option<Start>, &[u32; ORIGINAL_NUMBERS])| {
        start.is_some_and(|start| start.at.offset != original[START] as usize)
    };
    starts.iter().zip(originals).position(differs)
}

/// The offset at which a scalar starts in a call on one: nothing awaits it.
pub fn of_one(text: &str, index: usize) -> usize {
    Boundaries::of(text).at(index).offset
}

#[cfg(test)]
mod tests {
    use super::*;
    use crate::{admit, parent};
    use framing::event::{self, Event::*, encode};

    fn offsets(text: &str) -> Vec<usize> {
        Boundaries::of(text).0.iter().map(|boundary| boundary.offset).collect()
    }

    #[test]
    fn boundaries_of_a_text() {
        assert_eq!(offsets(""), [0]);
        assert_eq!(offsets("é: a"), [0, 2, 3, 4, 5]);
        assert_eq!(offsets("a\0€😀"), [0, 1, 2, 5, 9]);
        let end = Boundary { index: 2, offset: 4, letter: None };
        assert_eq!(
            Boundaries::of("😀").0,
            [Boundary { index: 0, offset: 0, letter: Some('😀') }, Boundary { index: 1, ..end }]
        );
        assert_eq!(Boundaries::of("€:").0[1], Boundary { index: 1, offset: 3, letter: Some(':') });
        assert_eq!([2, 3, u32::MAX as usize].map(|index| Boundaries::of("€:").at(index)), [end; 3]);
    }

    /// K1, and as K1 for the call on one scalar.
    #[test]
    fn an_index_past_the_text_is_its_end() {
        assert_eq!([0, 1, 2, 3, 4, 5, 9].map(|index| of_one("é: a", index)), [0, 2, 3, 4, 5, 5, 5]);
        assert_eq!([0, 1, 0xFFFF_FFFF].map(|index| of_one("", index)), [0; 3]);
        assert_eq!(of_one(":", 0), 0);
    }

    /// The offsets at which the scalars of a document start.
    fn of_document(text: &str, events: &[event::Event]) -> Vec<Option<usize>> {
        let admitted = admit::admit(&encode(events), usize::MAX);
        assert!(admitted.refusal.is_none());
        let places = parent::places(&admitted.events);
        starts(text, &admitted.events, &places).iter().map(|start| start.map(|start| start.at.offset)).collect()
    }

    fn scalar(index: u32, style: u8, value: &str) -> event::Event<'_> {
        Scalar(event::Scalar { index, style, value: value.as_bytes(), ..Default::default() })
    }

    /// The start of a value at an index of `é: b`.
    fn of_value(index: u32, style: u8, value: &str) -> Option<usize> {
        let list = [MappingStart(0, None), Alias(0), scalar(index, style, value), MappingEnd(0)];
        of_document("é: b", &list)[1]
    }

    #[test]
    fn an_empty_plain_value_steps_past_a_colon() {
        assert_eq!([0, 1, 2, 3, 4, 9].map(|index| of_value(index, 0, "")), [0, 3, 3, 4, 5, 5].map(Some));
        for value in ["b", ":", "~", " ", "\0"] {
            assert_eq!(of_value(1, 0, value), Some(2));
        }
        for style in 1..5 {
            assert_eq!(of_value(1, style, ""), Some(2));
        }
        // At the end of the text, and before each kind of character.
        let list = [MappingStart(0, None), Alias(0), scalar(0, 0, ""), MappingEnd(0)];
        for text in [":", "::", ":é", ":😀", ":\0"] {
            assert_eq!(of_document(text, &list), [None, Some(1), None]);
        }
        for text in ["", "\0", "\n", ";", "é", "：", "ĺ"] {
            assert_eq!(of_document(text, &list), [None, Some(0), None]);
        }
    }

    #[test]
    fn a_key_and_an_item_do_not() {
        let empty = scalar(0, 0, "");
        assert_eq!(of_document(":", &[empty]), [Some(0)]);
        let list = [MappingStart(0, None), empty, empty, empty, empty, MappingEnd(0)];
        assert_eq!(of_document(":", &list), [Some(0), Some(1), Some(0), Some(1), None]);
        // Items of a sequence that is the value; then a mapping that is the value, whose first scalar is a key.
        let list = [MappingStart(0, None), empty, SequenceStart(0, None), empty, empty, SequenceEnd(0), MappingEnd(0)];
        assert_eq!(of_document(":", &list), [Some(0), Some(0), Some(0), None, None]);
        let list = [MappingStart(0, None), empty, MappingStart(0, None), empty, empty, MappingEnd(0), MappingEnd(0)];
        assert_eq!(of_document(":", &list), [Some(0), Some(0), Some(1), None, None]);
        // The empty span and a tag change nothing.
        let tagged = Scalar(event::Scalar { empty_span: 1, column: 7, tag: Some((b"!", b"t")), ..Default::default() });
        let list = [MappingStart(0, None), tagged, tagged, MappingEnd(0)];
        assert_eq!(of_document(":", &list), [Some(0), Some(1), None]);
    }

    /// Inside a character, past the text, and one off.
    #[test]
    fn another_start_is_noticed() {
        let boundaries = Boundaries::of("é:");
        let starts = [0, 1, 2].map(|index| Some(Start { marker: boundaries.at(index), at: boundaries.at(index) }));
        let numbers = |starts: [u32; 3]| starts.map(|start| [0, start, 9, 9, 9, 9, 9, 9, 9, 9, 9, 9]);
        assert_eq!(differing(&starts, &numbers([0, 2, 3])), None);
        assert_eq!(differing(&starts, &numbers([1, 2, 3])), Some(0));
        assert_eq!(differing(&starts, &numbers([0, 3, 3])), Some(1));
        assert_eq!(differing(&starts, &numbers([0, 2, 4])), Some(2));
        assert_eq!(differing(&[None, None], &[[0; ORIGINAL_NUMBERS]; 2]), None);
    }

    /// The markers of a document need not rise, and none moves another.
    #[test]
    fn markers_fall() {
        let list = [
            SequenceStart(9, None),
            scalar(4, 0, "b"),
            MappingStart(0, None),
            scalar(2, 0, ""),
            scalar(1, 0, ""),
            scalar(1, 0, ""),
            scalar(0, 0, ""),
            MappingEnd(0),
            scalar(9, 0, ""),
            Alias(3),
            SequenceEnd(0),
        ];
        assert_eq!(
            of_document("é:€b", &list),
            [Some(7), Some(3), Some(3), Some(2), Some(0), None, Some(7), None, None]
        );
    }
}

//! Records and pieces as types.

/// How many numbers a record has.
pub const RECORD_WIDTH: usize = 14;
/// How many numbers a piece has.
pub const PIECE_WIDTH: usize = 4;
/// No record, no tag, no list, no parent.
pub const NONE: u32 = 0xFFFF_FFFF;

/// Bytes from `start` up to, not including, `end`.
#[derive(Clone, Copy, Debug, Default, PartialEq, Eq)]
pub struct Span {
    /// The first byte.
    pub start: u32,
    /// The byte after the last.
    pub end: u32,
}

impl Span {
    /// How many bytes.
    pub fn len(self) -> u32 {
        self.end.saturating_sub(self.start)
    }

    /// Whether it has no bytes.
    pub fn is_empty(self) -> bool {
        self.end <= self.start
    }

    /// These bytes of the text; none where it is shorter. (A piece of a cut-off escape can end past the text.)
    pub fn of(self, text: &[u8]) -> Option<&[u8]> {
        text.get(self.start as usize..self.end as usize)
    }
}

/// What a node is.
#[derive(Clone, Copy, Debug, PartialEq, Eq, Hash)]
#[repr(u32)]
pub enum Kind {
    /// Nothing, and every alias.
    Null = 1,
    /// True or false.
    Boolean = 2,
    /// A whole number of 64 bits.
    Integer = 3,
    /// Another number.
    Real = 4,
    /// Text.
    String = 5,
    /// A value that does not fit its standard tag, as `!!int x`.
    BadValue = 6,
    /// A sequence.
    Array = 7,
    /// A mapping.
    Hash = 8,
}

impl Kind {
    /// The kind with this number, 1 to 8.
    pub fn new(number: u32) -> Option<Kind> {
        Some(match number {
            1 => Kind::Null,
            2 => Kind::Boolean,
            3 => Kind::Integer,
            4 => Kind::Real,
            5 => Kind::String,
            6 => Kind::BadValue,
            7 => Kind::Array,
            8 => Kind::Hash,
            _ => return None,
        })
    }

    /// Its name in small letters.
    pub fn name(self) -> &'static str {
        match self {
            Kind::Null => "null",
            Kind::Boolean => "boolean",
            Kind::Integer => "integer",
            Kind::Real => "real",
            Kind::String => "string",
            Kind::BadValue => "bad value",
            Kind::Array => "array",
            Kind::Hash => "hash",
        }
    }
}

/// A tag: its span in the text, and where its suffix stands in the event bytes.
#[derive(Clone, Copy, Debug, PartialEq, Eq)]
pub struct TagInfo {
    /// Bytes of the text.
    pub span: Span,
    /// The place of the suffix in the event bytes.
    pub suffix: u32,
    /// Its length in bytes.
    pub len: u32,
}

/// Which pieces are a scalar's.
#[derive(Clone, Copy, Debug, PartialEq, Eq)]
pub struct PieceList {
    /// The number of the first.
    pub first: u32,
    /// How many.
    pub count: u32,
}

/// What a record says of its value.
#[derive(Clone, Copy, Debug, PartialEq, Eq)]
pub enum Payload {
    /// Of a null or a bad value.
    Nothing,
    /// Of a boolean.
    Boolean(bool),
    /// Of an integer.
    Integer(i64),
    /// Of a real or a string: where the value stands in the event bytes (place 0 in a call on one scalar).
    Text {
        /// Its place.
        place: u32,
        /// Its length in bytes.
        len: u32,
    },
    /// The items of an array, or the pairs of a hash.
    Count(u32),
}

/// One node.
#[derive(Clone, Copy, Debug, PartialEq, Eq)]
pub struct Record {
    /// What it is.
    pub kind: Kind,
    /// The bytes of the text that it occupies.
    pub span: Span,
    /// Its tag.
    pub tag: Option<TagInfo>,
    /// The records of its subtree, itself counted.
    pub subtree: u32,
    /// The pieces of a scalar; none for a collection, an alias, and a scalar whose pieces cannot be found.
    pub pieces: Option<PieceList>,
    /// What it says of its value.
    pub payload: Payload,
    /// The record of its parent, as its number says; none for the root and in a call on one scalar.
    pub parent: Option<u32>,
    /// Whether its span was found in the text. The span of a scalar for which this is false is assumed: as long as the value, cut to the
    /// text left.
    pub measured: bool,
}

impl Record {
    /// The record of these numbers; none if the kind is not 1 to 8.
    pub fn new(numbers: &[u32; RECORD_WIDTH]) -> Option<Record> {
        let [kind, start, end, tag_start, tag_end, suffix, len, subtree, first, count, high, low, parent, measured] =
            *numbers;
        let kind = Kind::new(kind)?;
        let tagged = [tag_start, tag_end, suffix, len] != [NONE; 4];
        let listed = first != NONE && !matches!(kind, Kind::Array | Kind::Hash);
        Some(Record {
            kind,
            span: Span { start, end },
            tag: tagged.then_some(TagInfo { span: Span { start: tag_start, end: tag_end }, suffix, len }),
            subtree,
            pieces: listed.then_some(PieceList { first, count }),
            payload: payload(kind, high, low),
            parent: (parent != NONE).then_some(parent),
            measured: measured == 1,
        })
    }
}

fn payload(kind: Kind, first: u32, second: u32) -> Payload {
    match kind {
        Kind::Null | Kind::BadValue => Payload::Nothing,
        Kind::Boolean => Payload::Boolean(first != 0),
        Kind::Integer => Payload::Integer((u64::from(first) << 32 | u64::from(second)).cast_signed()),
        Kind::Real | Kind::String => Payload::Text { place: first, len: second },
        Kind::Array | Kind::Hash => Payload::Count(first),
    }
}

/// Whether the bytes of a piece are its content.
#[derive(Clone, Copy, Debug, PartialEq, Eq)]
#[repr(u32)]
pub enum PieceKind {
    /// The bytes of the text are the content.
    Verbatim = 1,
    /// The content stands for other bytes: an escape, a folded line break.
    Replacement = 2,
}

/// A stretch of the text, and how many bytes of a scalar's value came from it.
#[derive(Clone, Copy, Debug, PartialEq, Eq)]
pub struct Piece {
    /// Whether its bytes are its content.
    pub kind: PieceKind,
    /// Bytes of the text. The end can lie up to 4 bytes past it.
    pub source: Span,
    /// How many bytes of the value.
    pub content: u32,
}

impl Piece {
    /// The piece of these numbers; none if its kind is not 1 or 2.
    pub fn new(numbers: &[u32; PIECE_WIDTH]) -> Option<Piece> {
        let [kind, start, end, content] = *numbers;
        let kind = match kind {
            1 => PieceKind::Verbatim,
            2 => PieceKind::Replacement,
            _ => return None,
        };
        Some(Piece { kind, source: Span { start, end }, content })
    }
}

/// A scalar's pieces in order. It ends early at a piece whose kind is not 1 or 2, which no build leaves.
#[derive(Clone, Debug)]
pub struct Pieces<'a> {
    numbers: &'a [u32],
}

impl<'a> Pieces<'a> {
    /// The pieces of this list in the buffer; none if they do not lie whole in it.
    pub fn new(buffer: &'a [u32], list: PieceList) -> Option<Pieces<'a>> {
        let first = (list.first as usize).checked_mul(PIECE_WIDTH)?;
        let len = (list.count as usize).checked_mul(PIECE_WIDTH)?;
        let numbers = buffer.get(first..first.checked_add(len)?)?;
        Some(Pieces { numbers })
    }
}

impl Iterator for Pieces<'_> {
    type Item = Piece;

    fn next(&mut self) -> Option<Piece> {
        let (numbers, rest) = self.numbers.split_first_chunk()?;
        self.numbers = rest;
        Piece::new(numbers)
    }

    fn size_hint(&self) -> (usize, Option<usize>) {
        (0, Some(self.numbers.len() / PIECE_WIDTH))
    }
}

#[cfg(test)]
mod tests {
    use super::*;

    #[test]
    fn every_field_is_read_from_its_place() {
        let mut numbers = [5, 1, 2, 3, 4, 5, 6, 7, 8, 9, 10, 11, 12, 1];
        let record = Record::new(&numbers).unwrap();
        assert_eq!(record.kind, Kind::String);
        assert_eq!(record.span, Span { start: 1, end: 2 });
        assert_eq!(record.tag, Some(TagInfo { span: Span { start: 3, end: 4 }, suffix: 5, len: 6 }));
        assert_eq!(record.subtree, 7);
        assert_eq!(record.pieces, Some(PieceList { first: 8, count: 9 }));
        assert_eq!(record.payload, Payload::Text { place: 10, len: 11 });
        assert_eq!((record.parent, record.measured), (Some(12), true));
        numbers[13] = 0;
        assert!(!Record::new(&numbers).unwrap().measured);
    }

    #[test]
    fn payloads() {
        let of = |kind, first, second| {
            Record::new(&[kind, 0, 0, 0, 0, 0, 0, 1, NONE, 0, first, second, NONE, 1]).unwrap().payload
        };
        assert_eq!(of(1, 0, 0), Payload::Nothing);
        assert_eq!(of(2, 1, 0), Payload::Boolean(true));
        assert_eq!(of(3, 0x8000_0000, 0), Payload::Integer(i64::MIN));
        assert_eq!(of(3, NONE, NONE - 1), Payload::Integer(-2));
        assert_eq!(of(3, 1, 2), Payload::Integer((1 << 32) + 2));
        assert_eq!(of(4, 3, 4), Payload::Text { place: 3, len: 4 });
        assert_eq!(of(6, 0, 0), Payload::Nothing);
        assert_eq!(of(7, 3, 0), Payload::Count(3));
        assert_eq!(of(8, 3, 0), Payload::Count(3));
    }

    #[test]
    fn what_is_not_there() {
        let mut numbers = [7, 0, 0, NONE, NONE, NONE, NONE, 1, 0, 0, 0, 0, NONE, 1];
        let record = Record::new(&numbers).unwrap();
        assert_eq!((record.tag, record.pieces, record.parent), (None, None, None));
        numbers[3] = 0;
        assert!(Record::new(&numbers).unwrap().tag.is_some());
        for other in [0, 2, NONE] {
            numbers[13] = other;
            assert!(!Record::new(&numbers).unwrap().measured);
        }
        for kind in [0, 9, NONE] {
            numbers[0] = kind;
            assert_eq!(Record::new(&numbers), None);
        }
        assert_eq!(Piece::new(&[0, 0, 0, 0]), None);
        assert_eq!(Piece::new(&[3, 0, 0, 0]), None);
    }

    #[test]
    fn pieces_outside_the_buffer() {
        let buffer = [1, 0, 2, 2, 2, 2, 4, 1, 9, 9, 9, 9, 1, 0];
        let of = |first, count| Pieces::new(&buffer, PieceList { first, count }).map(Vec::from_iter);
        let verbatim = Piece { kind: PieceKind::Verbatim, source: Span { start: 0, end: 2 }, content: 2 };
        let replacement = Piece { kind: PieceKind::Replacement, source: Span { start: 2, end: 4 }, content: 1 };
        assert_eq!(of(0, 2), Some(vec![verbatim, replacement]));
        assert_eq!(of(1, 1), Some(vec![replacement]));
        assert_eq!(of(3, 0), Some(vec![]));
        assert_eq!(of(0, 3), Some(vec![verbatim, replacement]));
        assert_eq!(of(3, 1), None);
        assert_eq!(of(NONE, NONE), None);
    }

    #[test]
    fn the_bytes_of_a_span() {
        assert_eq!(Span { start: 1, end: 3 }.of(b"abc"), Some(&b"bc"[..]));
        assert_eq!(Span { start: 3, end: 3 }.of(b"abc"), Some(&b""[..]));
        assert_eq!(Span { start: 1, end: 4 }.of(b"abc"), None);
        assert_eq!(Span { start: 2, end: 1 }.of(b"abc"), None);
    }
}

//! Events of a YAML parser, and their bytes.
//!
//! All numbers are written high byte first. An event is a one-byte tag, a two-byte length of its body, and the body; the body starts
//! with the four-byte marker index. There is no event for the start and the end of a stream or of a document.

use std::error::Error;
use std::fmt;

/// What a parser met, with its marker's index: how many characters (not bytes) of the text stand before it.
#[derive(Clone, Copy, Debug, PartialEq, Eq)]
pub enum Event<'a> {
    /// The marker is on `[`, or on a block sequence's first `-`.
    SequenceStart {
        /// The marker's index.
        index: u32,
        /// The YAML tag.
        tag: Option<Tag<'a>>,
    },
    /// The marker is on `]`, or where the parser stood when a block sequence ended.
    SequenceEnd {
        /// The marker's index.
        index: u32,
    },
    /// The marker is on `{`, or on the colon after a block mapping's first key.
    MappingStart {
        /// The marker's index.
        index: u32,
        /// The YAML tag.
        tag: Option<Tag<'a>>,
    },
    /// The marker is on `}`, or where the parser stood when a block mapping ended.
    MappingEnd {
        /// The marker's index.
        index: u32,
    },
    /// The marker is on the first character (an opening quote counts), for a block scalar on the first character of its content,
    /// for a missing value on its colon.
    Scalar {
        /// The marker's index.
        index: u32,
        /// How many characters stand before the marker on its line.
        column: u32,
        /// How it is written.
        style: Style,
        /// Whether the parser gave it an empty span.
        empty_span: bool,
        /// The YAML tag.
        tag: Option<Tag<'a>>,
        /// The decoded value.
        value: &'a str,
    },
    /// The marker is on `*`.
    Alias {
        /// The marker's index.
        index: u32,
    },
}

/// How a scalar is written.
#[derive(Clone, Copy, Debug, PartialEq, Eq)]
#[repr(u8)]
pub enum Style {
    /// Without quotes.
    Plain = 0,
    /// In `'`.
    SingleQuoted = 1,
    /// In `"`.
    DoubleQuoted = 2,
    /// A block after `|`.
    Literal = 3,
    /// A block after `>`.
    Folded = 4,
}

/// A YAML tag as a parser splits it: `!!str` is the handle `tag:yaml.org,2002:` with the suffix `str`, `!local` is `!` with `local`,
/// and `!<tag:yaml.org,2002:str>` has an empty handle.
#[derive(Clone, Copy, Debug, PartialEq, Eq)]
pub struct Tag<'a> {
    /// What the handle stands for.
    pub handle: &'a str,
    /// The rest.
    pub suffix: &'a str,
}

/// The part of an event that is longer than its two-byte length can say.
#[derive(Clone, Copy, Debug, PartialEq, Eq)]
pub enum Part {
    /// A tag's handle.
    Handle,
    /// A tag's suffix.
    Suffix,
    /// The whole body: a scalar's value with its tag and the 11 bytes before them.
    Body,
}

/// An event that cannot be written, because a part of it has more than 65,535 bytes.
#[derive(Clone, Copy, Debug, PartialEq, Eq)]
pub struct PartTooLong {
    /// The number of the event, from 0.
    pub event: usize,
    /// Which part.
    pub part: Part,
    /// How many bytes it would have.
    pub len: usize,
}

impl fmt::Display for PartTooLong {
    fn fmt(&self, f: &mut fmt::Formatter<'_>) -> fmt::Result {
        let part = match self.part {
            Part::Handle => "the handle of the tag",
            Part::Suffix => "the suffix of the tag",
            Part::Body => "the body",
        };
        write!(f, "event {}: {part} has {} bytes, more than the 65,535 that its length can say", self.event, self.len)
    }
}

impl Error for PartTooLong {}

/// The bytes of these events, in order.
///
/// ```
/// use quarto_yaml::event::{Event, encode};
///
/// let bytes = encode(&[Event::SequenceStart { index: 0, tag: None }, Event::SequenceEnd { index: 1 }])?;
/// assert_eq!(bytes, [1, 0, 5, 0, 0, 0, 0, 0, 2, 0, 4, 0, 0, 0, 1]);
/// # Ok::<(), quarto_yaml::event::PartTooLong>(())
/// ```
pub fn encode(events: &[Event]) -> Result<Vec<u8>, PartTooLong> {
    let mut bytes = Vec::new();
    for (event, one) in events.iter().enumerate() {
        one.write(&mut bytes).map_err(|(part, len)| PartTooLong { event, part, len })?;
    }
    Ok(bytes)
}

impl Event<'_> {
    /// The marker's index.
    pub fn index(&self) -> u32 {
        match *self {
            Event::SequenceStart { index, .. }
            | Event::SequenceEnd { index }
            | Event::MappingStart { index, .. }
            | Event::MappingEnd { index }
            | Event::Scalar { index, .. }
            | Event::Alias { index } => index,
        }
    }

    fn number(&self) -> u8 {
        match self {
            Event::SequenceStart { .. } => 1,
            Event::SequenceEnd { .. } => 2,
            Event::MappingStart { .. } => 3,
            Event::MappingEnd { .. } => 4,
            Event::Scalar { .. } => 5,
            Event::Alias { .. } => 6,
        }
    }

    fn write(&self, bytes: &mut Vec<u8>) -> Result<(), (Part, usize)> {
        let mut body = self.index().to_be_bytes().to_vec();
        match *self {
            Event::SequenceStart { tag, .. } | Event::MappingStart { tag, .. } => write_tag(tag, &mut body)?,
            Event::Scalar { column, style, empty_span, tag, value, .. } => {
                body.extend(column.to_be_bytes());
                body.extend([style as u8, u8::from(empty_span)]);
                write_tag(tag, &mut body)?;
                body.extend(value.as_bytes());
            }
            Event::SequenceEnd { .. } | Event::MappingEnd { .. } | Event::Alias { .. } => {}
        }
        let length = two_bytes(body.len(), Part::Body)?;
        bytes.push(self.number());
        bytes.extend(length);
        bytes.extend(body);
        Ok(())
    }
}

fn write_tag(tag: Option<Tag>, body: &mut Vec<u8>) -> Result<(), (Part, usize)> {
    let Some(Tag { handle, suffix }) = tag else {
        body.push(0);
        return Ok(());
    };
    body.push(1);
    body.extend(two_bytes(handle.len(), Part::Handle)?);
    body.extend(handle.as_bytes());
    body.extend(two_bytes(suffix.len(), Part::Suffix)?);
    body.extend(suffix.as_bytes());
    Ok(())
}

fn two_bytes(len: usize, part: Part) -> Result<[u8; 2], (Part, usize)> {
    u16::try_from(len).map(u16::to_be_bytes).map_err(|_| (part, len))
}

#[cfg(test)]
mod tests {
    use super::*;

    fn scalar<'a>(tag: Option<Tag<'a>>, value: &'a str) -> Event<'a> {
        Event::Scalar { index: 0x01020304, column: 0x05060708, style: Style::Folded, empty_span: true, tag, value }
    }

    #[test]
    fn a_scalar_with_a_tag() {
        let tag = Tag { handle: "!", suffix: "tü" };
        let bytes = encode(&[scalar(Some(tag), "v")]).unwrap();
        let body = [1, 2, 3, 4, 5, 6, 7, 8, 4, 1, 1, 0, 1, b'!', 0, 3, b't', 0xC3, 0xBC, b'v'];
        assert_eq!(bytes[..3], [5, 0, body.len() as u8]);
        assert_eq!(bytes[3..], body);
    }

    #[test]
    fn the_other_events() {
        let events = [
            Event::MappingStart { index: 1, tag: Some(Tag { handle: "", suffix: "" }) },
            Event::Alias { index: 2 },
            Event::SequenceStart { index: 3, tag: None },
            Event::SequenceEnd { index: 4 },
            Event::MappingEnd { index: 5 },
        ];
        let mut expected = vec![3, 0, 9, 0, 0, 0, 1, 1, 0, 0, 0, 0];
        expected.extend([6, 0, 4, 0, 0, 0, 2]);
        expected.extend([1, 0, 5, 0, 0, 0, 3, 0]);
        expected.extend([2, 0, 4, 0, 0, 0, 4]);
        expected.extend([4, 0, 4, 0, 0, 0, 5]);
        assert_eq!(encode(&events).unwrap(), expected);
    }

    #[test]
    fn the_longest_value_and_one_more() {
        let longest = "a".repeat(65_535 - 11);
        assert_eq!(encode(&[scalar(None, &longest)]).unwrap().len(), 3 + 65_535);
        let longer = longest + "a";
        let events = [Event::Alias { index: 0 }, scalar(None, &longer)];
        assert_eq!(encode(&events), Err(PartTooLong { event: 1, part: Part::Body, len: 65_536 }));
    }

    #[test]
    fn a_tag_that_is_too_long() {
        let long = "a".repeat(65_536);
        let handle = encode(&[scalar(Some(Tag { handle: &long, suffix: "" }), "")]).unwrap_err();
        assert_eq!(handle, PartTooLong { event: 0, part: Part::Handle, len: 65_536 });
        let suffix = encode(&[scalar(Some(Tag { handle: "", suffix: &long }), "")]).unwrap_err();
        assert_eq!(suffix, PartTooLong { event: 0, part: Part::Suffix, len: 65_536 });
        assert!(suffix.to_string().contains("the suffix of the tag has 65536 bytes"));
    }
}

//! Document 01's event bytes, read. Parts of the bytes are given by their places.

use saphyr_parser::ScalarStyle;
use std::ops::Range;

#[derive(Debug, Clone, Copy, PartialEq)]
pub enum Collection {
    Sequence,
    Mapping,
}

pub struct Event {
    pub place: usize,
    pub index: u32,
    pub body: Body,
}

impl Event {
    /// Whether a node is complete with it: all but the starts of collections.
    pub fn completes(&self) -> bool {
        !matches!(self.body, Body::Start(..))
    }
}

pub enum Body {
    Start(Collection, Option<Tag>),
    End(Collection),
    Scalar(Scalar),
    Alias,
}

pub struct Scalar {
    pub column: u32,
    pub style: ScalarStyle,
    pub empty_span: bool,
    pub tag: Option<Tag>,
    pub value: Range<usize>,
}

pub struct Tag {
    pub handle: Range<usize>,
    pub suffix: Range<usize>,
}

/// The event at a place and the place after it, or none where row 3 refuses.
pub fn event(bytes: &[u8], place: usize) -> Option<(Event, usize)> {
    let mut header = Fields { bytes, left: place..bytes.len() };
    let number = header.byte()?;
    let length = header.short()?;
    let mut fields = Fields { bytes, left: header.part(length)? };
    let index = fields.number()?;
    let body = match number {
        1 => Body::Start(Collection::Sequence, fields.tag()?),
        2 => Body::End(Collection::Sequence),
        3 => Body::Start(Collection::Mapping, fields.tag()?),
        4 => Body::End(Collection::Mapping),
        5 => Body::Scalar(Scalar {
            column: fields.number()?,
            style: fields.style()?,
            empty_span: fields.flag()?,
            tag: fields.tag()?,
            value: fields.utf8(fields.left.len())?,
        }),
        6 => Body::Alias,
        _ => return None,
    };
    let complete = fields.left.is_empty();
    complete.then_some((Event { place, index, body }, header.left.start))
}

/// The events before the first that row 3 refuses, or all.
pub fn events(bytes: &[u8]) -> Vec<Event> {
    let mut events = Vec::new();
    let mut place = 0;
    while let Some((event, next)) = event(bytes, place) {
        place = next;
        events.push(event);
    }
    events
}

/// The style of a number, or none where row 3 refuses.
pub fn style(number: u8) -> Option<ScalarStyle> {
    match number {
        0 => Some(ScalarStyle::Plain),
        1 => Some(ScalarStyle::SingleQuoted),
        2 => Some(ScalarStyle::DoubleQuoted),
        3 => Some(ScalarStyle::Literal),
        4 => Some(ScalarStyle::Folded),
        _ => None,
    }
}

/// The fields of a header or a body; each read is none where too little is left.
struct Fields<'a> {
    bytes: &'a [u8],
    left: Range<usize>,
}

impl Fields<'_> {
    fn part(&mut self, length: usize) -> Option<Range<usize>> {
        if length > self.left.len() {
            return None;
        }
        let start = self.left.start;
        self.left.start += length;
        Some(start..self.left.start)
    }

    fn byte(&mut self) -> Option<u8> {
        let part = self.part(1)?;
        Some(self.bytes[part.start])
    }

    fn short(&mut self) -> Option<usize> {
        let part = self.part(2)?;
        let bytes = self.bytes[part].try_into().ok()?;
        Some(u16::from_be_bytes(bytes).into())
    }

    fn number(&mut self) -> Option<u32> {
        let part = self.part(4)?;
        let bytes = self.bytes[part].try_into().ok()?;
        Some(u32::from_be_bytes(bytes))
    }

    fn flag(&mut self) -> Option<bool> {
        match self.byte()? {
            0 => Some(false),
            1 => Some(true),
            _ => None,
        }
    }

    fn style(&mut self) -> Option<ScalarStyle> {
        style(self.byte()?)
    }

    fn utf8(&mut self, length: usize) -> Option<Range<usize>> {
        let part = self.part(length)?;
        str::from_utf8(&self.bytes[part.clone()]).is_ok().then_some(part)
    }

    /// The inner option is the tag, the outer whether it could be read.
    fn tag(&mut self) -> Option<Option<Tag>> {
        if !self.flag()? {
            return Some(None);
        }
        let length = self.short()?;
        let handle = self.utf8(length)?;
        let length = self.short()?;
        let suffix = self.utf8(length)?;
        Some(Some(Tag { handle, suffix }))
    }
}

//! Document 01's event bytes, written. (The reader is a part of `answers`.)

/// The handle and suffix of a YAML tag, or none.
pub type Tag<'a> = Option<(&'a [u8], &'a [u8])>;

/// The numbers are marker indices.
#[derive(Debug, Clone, Copy)]
pub enum Event<'a> {
    SequenceStart(u32, Tag<'a>),
    SequenceEnd(u32),
    MappingStart(u32, Tag<'a>),
    MappingEnd(u32),
    Scalar(Scalar<'a>),
    Alias(u32),
}

/// The default is an untagged, empty plain scalar at index 0 and column 0.
#[derive(Debug, Clone, Copy, Default)]
pub struct Scalar<'a> {
    pub index: u32,
    pub column: u32,
    pub style: u8,
    pub empty_span: u8,
    pub tag: Tag<'a>,
    pub value: &'a [u8],
}

/// The bytes of an event list.
pub fn encode(events: &[Event]) -> Vec<u8> {
    let mut bytes = Vec::new();
    for event in events {
        event.encode(&mut bytes);
    }
    bytes
}

impl Event<'_> {
    /// Appends the event's bytes.
    pub fn encode(&self, bytes: &mut Vec<u8>) {
        let (number, index) = match self {
            Event::SequenceStart(index, _) => (1, *index),
            Event::SequenceEnd(index) => (2, *index),
            Event::MappingStart(index, _) => (3, *index),
            Event::MappingEnd(index) => (4, *index),
            Event::Scalar(scalar) => (5, scalar.index),
            Event::Alias(index) => (6, *index),
        };
        let mut body = index.to_be_bytes().to_vec();
        match self {
            Event::SequenceStart(_, tag) | Event::MappingStart(_, tag) => encode_tag(*tag, &mut body),
            Event::Scalar(scalar) => {
                body.extend(scalar.column.to_be_bytes());
                body.extend([scalar.style, scalar.empty_span]);
                encode_tag(scalar.tag, &mut body);
                body.extend(scalar.value);
            }
            Event::SequenceEnd(_) | Event::MappingEnd(_) | Event::Alias(_) => {}
        }
        bytes.push(number);
        bytes.extend(length(&body));
        bytes.extend(body);
    }
}

fn encode_tag(tag: Tag, body: &mut Vec<u8>) {
    let Some((handle, suffix)) = tag else {
        return body.push(0);
    };
    body.push(1);
    for part in [handle, suffix] {
        body.extend(length(part));
        body.extend(part);
    }
}

fn length(bytes: &[u8]) -> [u8; 2] {
    u16::try_from(bytes.len()).expect("a length of two bytes").to_be_bytes()
}

//! Whole documents: trees, damaged event lists, rooms and limits.

use crate::rng::Rng;
use crate::run::{DOUBLE_QUOTED, NOT_UTF8, PLAIN, Run, STYLES, TEXT_LIMIT, ample, characters, one_scalar, record_room};
use crate::source;
use framing::event::{Event, Scalar, Tag, encode};
use framing::{Case, corpus};

const EVENTS_LIMIT: usize = 4_194_304;
const DEPTH_LIMIT: usize = 64;

/// The longest value that an untagged scalar's body holds.
const VALUE_LIMIT: usize = 65_535 - 11;

const NO_TAG: Tag = None;

/// One above the known numbers of events.
const UNKNOWN_EVENT: u8 = 7;

pub fn write(run: &mut Run) {
    put_corpus(run);
    put_not_utf8(run);
    put_unknown(run);
    put_damaged(run);
    put_deep(run);
    put_event_lists(run);
    for _ in 0..run.sized(105, 400_000) {
        put_random(run);
    }
    if run.full {
        put_limits(run);
    }
}

fn put_corpus(run: &mut Run) {
    for (text, events) in corpus::documents() {
        run.put(&whole(text, events));
    }
}

/// A case with room for any list of these events.
pub fn whole(text: Vec<u8>, events: Vec<u8>) -> Case {
    // An event has seven bytes or more.
    let (nodes, value_bytes) = (events.len() / 7, events.len());
    ample(text, events, nodes, value_bytes)
}

/// Texts, values, handles and suffixes that are not UTF-8.
fn put_not_utf8(run: &mut Run) {
    for part in NOT_UTF8 {
        // Row 2 comes before all that events are refused for.
        run.put(&ample(part.to_vec(), encode(&[Event::Alias(0)]), 1, 0));
        run.put(&ample(part.to_vec(), vec![UNKNOWN_EVENT], 1, 0));
        run.put(&one_scalar("a", Scalar { value: part, ..Scalar::default() }));
        let tags: [Tag; 2] = [Some((part, b"t")), Some((b"!", part))];
        for tag in tags {
            run.put(&one_scalar("a", Scalar { tag, ..Scalar::default() }));
            let events = encode(&[Event::MappingStart(0, tag), Event::MappingEnd(0)]);
            run.put(&ample(b"a".to_vec(), events, 1, 0));
        }
    }
}

/// Numbers one above those that are known, and above.
fn put_unknown(run: &mut Run) {
    for (style, empty_span) in [(0, 1), (4, 1), (5, 0), (255, 0), (0, 2), (0, 255)] {
        run.put(&one_scalar("a", Scalar { style, empty_span, value: b"a", ..Scalar::default() }));
    }
    for number in [0, UNKNOWN_EVENT, 255] {
        let mut events = encode(&[Event::Alias(0)]);
        events[0] = number;
        run.put(&ample(b"a".to_vec(), events, 1, 0));
    }
}

/// A list with each kind of event: cut off everywhere, with every byte changed, and in small rooms.
fn put_damaged(run: &mut Run) {
    let tag: Tag = Some((b"!", b"t"));
    let events = encode(&[
        Event::SequenceStart(0, tag),
        Event::MappingStart(0, NO_TAG),
        Event::Scalar(Scalar { tag, value: b"a", ..Scalar::default() }),
        Event::Alias(1),
        Event::MappingEnd(1),
        Event::SequenceEnd(1),
    ]);
    let case = ample(b"a".to_vec(), events.clone(), 4, 1);
    for length in 0..=events.len() {
        run.put(&Case { events: events[..length].to_vec(), ..case.clone() });
    }
    for (place, byte) in events.iter().enumerate() {
        for changed in [byte.wrapping_add(1), byte.wrapping_sub(1), 0xFF] {
            let mut case = case.clone();
            case.events[place] = changed;
            run.put(&case);
        }
    }
    for record_room in [0, 12, 13, 14, 15, 27, 28, 41, 42, 48, 55, 56, 57] {
        for piece_room in [0, 3, 4, 5] {
            run.put(&Case { record_room, piece_room, ..case.clone() });
        }
    }
}

/// Nestings at the limit and one beyond: of sequences, and of mappings as values and as keys.
fn put_deep(run: &mut Run) {
    let shapes: [(&[Event], &[Event]); 3] = [
        (&[Event::SequenceStart(0, NO_TAG)], &[Event::SequenceEnd(1)]),
        (&[Event::MappingStart(0, NO_TAG), Event::Alias(0)], &[Event::MappingEnd(1)]),
        (&[Event::MappingStart(0, NO_TAG)], &[Event::Alias(1), Event::MappingEnd(1)]),
    ];
    for depth in [DEPTH_LIMIT, DEPTH_LIMIT + 1] {
        for (start, end) in shapes {
            let list = [start.repeat(depth), vec![Event::Alias(1)], end.repeat(depth)].concat();
            run.put(&ample(b"[]".to_vec(), encode(&list), 2 * depth + 1, 0));
        }
    }
}

/// All event lists of up to four events over a small set.
fn put_event_lists(run: &mut Run) {
    let plain = |index, value| Event::Scalar(Scalar { index, value, ..Scalar::default() });
    let set = [
        Event::SequenceStart(0, NO_TAG),
        Event::SequenceEnd(5),
        Event::MappingStart(3, NO_TAG),
        Event::MappingEnd(5),
        Event::Alias(4),
        plain(2, b"a"),
        plain(3, b""),
    ];
    for count in 0..=4 {
        let step = run.sized(if count < 4 { 1 } else { 13 }, 1);
        for number in (0..set.len().pow(count)).step_by(step) {
            let list: Vec<Event> = (0..count).map(|place| set[number / set.len().pow(place) % set.len()]).collect();
            run.put(&ample("{ a:}".into(), encode(&list), 4, 4));
        }
    }
}

/// A random document with ample room, with a room at its limit, and damaged.
pub fn put_random(run: &mut Run) {
    let (case, nodes) = random(&mut run.rng);
    run.put(&case);

    let pieces = answers::answer(&case).returned[2];
    let (records, pieces) = (record_room(nodes), 4 * pieces);
    let mut limited = case.clone();
    if run.rng.once_in(2) {
        limited.record_room = run.rng.pick(&[0, record_room(nodes - 1), records - 1, records, records + 13]);
    } else {
        limited.piece_room = run.rng.pick(&[0, pieces.saturating_sub(4), pieces.saturating_sub(1), pieces, pieces + 3]);
    }
    run.put(&limited);

    let mut damaged = case;
    damage(&mut run.rng, &mut damaged.events);
    run.put(&damaged);
}

/// A random document with ample room, and how many nodes it has.
pub fn random(rng: &mut Rng) -> (Case, usize) {
    let mut document = Document::default();
    let depth = rng.below(6);
    document.node(rng, depth);
    let nodes = document.nodes;
    (ample(document.text.into(), document.events, nodes, document.value_bytes), nodes)
}

fn damage(rng: &mut Rng, events: &mut Vec<u8>) {
    let place = rng.below(events.len());
    match rng.below(6) {
        0 => events[place] ^= 1 << rng.below(8),
        1 => events[place] = rng.pick(&[0, 1, 2, 3, 4, 5, 6, 7, 255]),
        2 => drop(events.remove(place)),
        3 => events.truncate(place),
        4 => events.insert(place, rng.below(256) as u8),
        _ => rng
            .pick(&[Event::Alias(0), Event::SequenceEnd(0), Event::MappingEnd(0), Event::SequenceStart(0, NO_TAG)])
            .encode(events),
    }
}

/// A document that is written as text and events at once, so that most markers stand where a scanner puts them.
#[derive(Default)]
struct Document {
    text: String,
    events: Vec<u8>,
    nodes: usize,
    value_bytes: usize,
}

const TAGS: [(&str, Tag); 8] = [
    ("", NO_TAG),
    ("", NO_TAG),
    ("", NO_TAG),
    ("", NO_TAG),
    ("!t ", Some((b"!", b"t"))),
    ("!!int ", Some((b"tag:yaml.org,2002:", b"int"))),
    ("&x !!str\n", Some((b"tag:yaml.org,2002:", b"str"))),
    ("&x ", Some((b"", b"missing"))),
];

impl Document {
    /// Writes a node of at most this many levels of collections.
    fn node(&mut self, rng: &mut Rng, depth: usize) {
        if rng.once_in(8) {
            let event = Event::Alias(self.marker(rng));
            return self.complete("*x", event);
        }
        let (property, tag) = rng.pick(&TAGS);
        self.text += property;
        match rng.below(if depth == 0 { 2 } else { 6 }) {
            0 | 1 => self.scalar(rng, tag),
            2 | 3 => self.sequence(rng, depth - 1, tag),
            _ => self.mapping(rng, depth - 1, tag),
        }
    }

    fn scalar(&mut self, rng: &mut Rng, tag: Tag) {
        let style = rng.pick(&STYLES);
        let (source, value) = match rng.below(3) {
            0 => source::random(rng, style, 4),
            _ => {
                let word = rng.pick(&["a", "12", "true", "~", "é", "0x1F", "-1.5", "a b"]);
                (word.into(), word.into())
            }
        };
        let source = source::quoted(rng, style, &source);
        let event = Event::Scalar(Scalar {
            index: self.marker(rng),
            column: rng.below(5) as u32,
            style,
            empty_span: rng.once_in(12).into(),
            tag,
            value: value.as_bytes(),
        });
        self.value_bytes += value.len();
        self.complete(&source, event);
    }

    fn sequence(&mut self, rng: &mut Rng, depth: usize, tag: Tag) {
        let (open, separator, close) = rng.pick(&[("[", ", ", "]"), ("- ", "\n- ", "\n")]);
        Event::SequenceStart(self.marker(rng), tag).encode(&mut self.events);
        self.text += open;
        for _ in 0..rng.below(4) {
            self.node(rng, depth);
            self.text += separator;
        }
        let event = Event::SequenceEnd(self.marker(rng));
        self.complete(close, event);
    }

    fn mapping(&mut self, rng: &mut Rng, depth: usize, tag: Tag) {
        let (open, separator, close) = rng.pick(&[("{", ", ", "}"), ("", "\n", "\n")]);
        // A block mapping's marker is on the colon after its first key.
        let offset = if open.is_empty() { rng.below(4) as u32 } else { 0 };
        Event::MappingStart(self.marker(rng).saturating_add(offset), tag).encode(&mut self.events);
        self.text += open;
        for _ in 0..rng.below(4) {
            self.node(rng, depth.min(1));
            if rng.once_in(3) {
                // A missing value is marked on its colon.
                let event = Event::Scalar(Scalar {
                    index: characters(&self.text),
                    style: rng.pick(&[PLAIN, PLAIN, PLAIN, DOUBLE_QUOTED]),
                    tag: rng.pick(&TAGS).1,
                    ..Scalar::default()
                });
                self.complete(":", event);
            } else {
                self.text += ": ";
                self.node(rng, depth);
            }
            self.text += separator;
        }
        let event = Event::MappingEnd(self.marker(rng));
        self.complete(close, event);
    }

    /// An event that completes a node, and its text.
    fn complete(&mut self, text: &str, event: Event) {
        event.encode(&mut self.events);
        self.text += text;
        self.nodes += 1;
    }

    /// The end of the text so far; now and then anywhere, or far past the text.
    fn marker(&self, rng: &mut Rng) -> u32 {
        let end = characters(&self.text);
        match rng.below(24) {
            0 => rng.below(end as usize + 20) as u32,
            1 => rng.pick(&[0, u32::MAX, u32::MAX - 1]),
            _ => end,
        }
    }
}

/// Sizes one below the limits, at them and one above.
pub fn put_limits(run: &mut Run) {
    let alias = encode(&[Event::Alias(u32::MAX)]);
    for length in [TEXT_LIMIT - 1, TEXT_LIMIT, TEXT_LIMIT + 1] {
        for letter in [b'a', 0x80] {
            run.put(&ample(vec![letter; length], alias.clone(), 1, 0));
        }
        let mut text = "é".repeat(length / 2).into_bytes();
        text.resize(length, b'a');
        run.put(&ample(text, alias.clone(), 1, 0));

        // The longest value, as the last of the text.
        let value = vec![b'a'; VALUE_LIMIT];
        let scalar = Scalar { index: (length - VALUE_LIMIT) as u32, value: &value, ..Scalar::default() };
        run.put(&one_scalar(&"a".repeat(length), scalar));
    }
    for length in [EVENTS_LIMIT - 1, EVENTS_LIMIT, EVENTS_LIMIT + 1] {
        run.put(&long_events(length));
    }
}

/// A sequence of scalars with an event list of a given length.
fn long_events(length: usize) -> Case {
    /// An untagged scalar's bytes before its value.
    const HEADER: usize = 3 + 11;
    let text = "a".repeat(VALUE_LIMIT);
    let mut events = encode(&[Event::SequenceStart(0, NO_TAG)]);
    let end = encode(&[Event::SequenceEnd(u32::MAX)]);
    let mut nodes = 1;
    while events.len() + end.len() < length {
        let left = length - events.len() - end.len();
        // The last one takes what is left, near the limit some hundred bytes.
        let value = left.min(VALUE_LIMIT) - HEADER;
        let scalar = Scalar { value: &text.as_bytes()[..value], ..Scalar::default() };
        Event::Scalar(scalar).encode(&mut events);
        nodes += 1;
    }
    events.extend(end);
    // Each scalar has one piece.
    ample(text.into(), events, nodes, nodes)
}

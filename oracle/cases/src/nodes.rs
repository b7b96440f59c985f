//! Whole documents for the accessors: nestings, empty collections, and mappings with equal keys and keys of every kind.

use crate::rng::Rng;
use crate::run::{DOUBLE_QUOTED, PLAIN, Run, ample, characters, record_room};
use crate::trees;
use framing::event::{Event, Scalar, Tag, encode};
use framing::{Case, corpus};

const NO_TAG: Tag = None;

/// How many collections may be open.
const DEPTH_LIMIT: usize = 64;

/// A scalar's value, style and tag.
type Written = (&'static str, u8, Tag<'static>);

const A: Written = ("a", PLAIN, NO_TAG);

/// Strings, what looks like one and is none, and what does not and is one.
const SCALARS: [Written; 12] = [
    A,
    ("a", DOUBLE_QUOTED, NO_TAG),
    ("ab", PLAIN, NO_TAG),
    ("é", PLAIN, Some((b"!", b"t"))),
    ("", DOUBLE_QUOTED, NO_TAG),
    ("", PLAIN, NO_TAG),
    ("12", PLAIN, NO_TAG),
    ("12", DOUBLE_QUOTED, NO_TAG),
    ("12", PLAIN, Some((b"tag:yaml.org,2002:", b"str"))),
    ("1.5", PLAIN, NO_TAG),
    ("true", PLAIN, NO_TAG),
    ("~", PLAIN, NO_TAG),
];

pub fn write(run: &mut Run) {
    for (text, events) in corpus::documents() {
        run.put(&fitting(trees::whole(text, events)));
    }
    put_keys(run);
    put_wide(run);
    put_deep(run);
    put_event_lists(run);
    for _ in 0..run.sized(21, 150_000) {
        let (case, _) = trees::random(&mut run.rng);
        run.put(&case);
    }
    for _ in 0..run.sized(21, 150_000) {
        let mut document = Document::default();
        let depth = 1 + run.rng.below(2);
        document.random(&mut run.rng, depth);
        document.put(run);
    }
}

/// The case with a little more room than the document needs.
fn fitting(case: Case) -> Case {
    let [_, nodes, pieces] = answers::answer(&case).returned;
    Case { record_room: record_room(nodes as usize) + 7, piece_room: 4 * pieces + 4, ..case }
}

/// Each scalar as a key alone, before and after another, and all of them twice beside collections that hold the same.
fn put_keys(run: &mut Run) {
    for key in SCALARS {
        let mut document = Document::default();
        document.mapping(NO_TAG, |pairs| [key, A, A, key, key, A].into_iter().for_each(|scalar| pairs.scalar(scalar)));
        document.put(run);
    }
    let mut document = Document::default();
    document.mapping(NO_TAG, |pairs| {
        for key in SCALARS.into_iter().chain(SCALARS) {
            pairs.scalar(key);
            pairs.alias();
        }
        pairs.sequence(Some((b"!", b"s")), |items| items.scalar(A));
        pairs.mapping(Some((b"!", b"m")), |inner| {
            inner.scalar(("z", PLAIN, NO_TAG));
            inner.scalar(A);
        });
        pairs.alias();
        pairs.sequence(NO_TAG, |_| ());
    });
    document.put(run);
}

/// Many children, each with a child of its own.
fn put_wide(run: &mut Run) {
    let count = run.sized(12, 80);
    let mut document = Document::default();
    document.sequence(NO_TAG, |items| {
        for _ in 0..count {
            items.sequence(NO_TAG, |inner| inner.scalar(A));
        }
    });
    document.put(run);
    let mut document = Document::default();
    document.mapping(NO_TAG, |pairs| {
        for place in 0..count {
            pairs.scalar(SCALARS[place % SCALARS.len()]);
            pairs.sequence(NO_TAG, |inner| inner.scalar(A));
        }
    });
    document.put(run);
}

/// Nestings: of sequences, and of mappings as values and as keys.
fn put_deep(run: &mut Run) {
    for depth in (1..=run.sized(5, DEPTH_LIMIT)).step_by(run.sized(2, 1)) {
        for shape in [Document::nest_items, Document::nest_values, Document::nest_keys] {
            let mut document = Document::default();
            shape(&mut document, depth);
            document.put(run);
        }
    }
}

/// The sound ones of all lists of a few events; in the sample every twelfth.
fn put_event_lists(run: &mut Run) {
    let plain = |index, value| Event::Scalar(Scalar { index, value, ..Scalar::default() });
    let letter = |number: usize, index: u32| match number {
        0 => Event::SequenceStart(index, NO_TAG),
        1 => Event::SequenceEnd(index),
        2 => Event::MappingStart(index, NO_TAG),
        3 => Event::MappingEnd(index),
        4 => plain(index, b"a"),
        _ => plain(index, b"b"),
    };
    let mut sound = 0;
    for count in 1..=run.sized(7, 8) as u32 {
        for number in 0..6_usize.pow(count) {
            let list: Vec<Event> = (0..count).map(|place| letter(number / 6_usize.pow(place) % 6, place)).collect();
            let case = ample("{a: [b, a]}".into(), encode(&list), count as usize, 8);
            if answers::answer(&case).returned[0] == 0 {
                sound += 1;
                if sound % run.sized(12, 1) == 0 {
                    run.put(&case);
                }
            }
        }
    }
}

/// A document whose markers stand at its words.
#[derive(Default)]
struct Document {
    text: String,
    events: Vec<u8>,
    nodes: usize,
    value_bytes: usize,
}

impl Document {
    fn put(self, run: &mut Run) {
        let case: Case = ample(self.text.into(), self.events, self.nodes, self.value_bytes);
        run.put(&case);
    }

    fn scalar(&mut self, (value, style, tag): Written) {
        let quote = if style == PLAIN { "" } else { "\"" };
        let index = characters(&self.text);
        self.event(Event::Scalar(Scalar { index, style, tag, value: value.as_bytes(), ..Scalar::default() }));
        self.text += &format!("{quote}{value}{quote} ");
        self.nodes += 1;
        self.value_bytes += value.len();
    }

    fn alias(&mut self) {
        self.event(Event::Alias(characters(&self.text)));
        self.text += "*x ";
        self.nodes += 1;
    }

    fn sequence(&mut self, tag: Tag, items: impl FnOnce(&mut Self)) {
        self.event(Event::SequenceStart(characters(&self.text), tag));
        self.text += "[";
        items(self);
        self.event(Event::SequenceEnd(characters(&self.text)));
        self.text += "] ";
        self.nodes += 1;
    }

    /// The children are to be keys and values in turn.
    fn mapping(&mut self, tag: Tag, children: impl FnOnce(&mut Self)) {
        self.event(Event::MappingStart(characters(&self.text), tag));
        self.text += "{";
        children(self);
        self.event(Event::MappingEnd(characters(&self.text)));
        self.text += "} ";
        self.nodes += 1;
    }

    fn event(&mut self, event: Event) {
        event.encode(&mut self.events);
    }

    fn nest_items(&mut self, depth: usize) {
        match depth {
            0 => self.scalar(A),
            _ => self.sequence(NO_TAG, |items| items.nest_items(depth - 1)),
        }
    }

    fn nest_values(&mut self, depth: usize) {
        match depth {
            0 => self.scalar(A),
            _ => self.mapping(NO_TAG, |pairs| {
                pairs.scalar(A);
                pairs.nest_values(depth - 1);
            }),
        }
    }

    fn nest_keys(&mut self, depth: usize) {
        match depth {
            0 => self.scalar(A),
            _ => self.mapping(NO_TAG, |pairs| {
                pairs.nest_keys(depth - 1);
                pairs.scalar(A);
            }),
        }
    }

    /// A node of at most this many levels, with many pairs and few different keys.
    fn random(&mut self, rng: &mut Rng, depth: usize) {
        let tag = rng.pick(&[NO_TAG, NO_TAG, Some((b"!".as_slice(), b"t".as_slice()))]);
        match rng.below(if depth == 0 { 2 } else { 6 }) {
            0 => self.scalar(rng.pick(&SCALARS)),
            1 => self.alias(),
            2 => self.sequence(tag, |items| (0..rng.below(4)).for_each(|_| items.random(rng, depth - 1))),
            _ => self.mapping(tag, |pairs| {
                for _ in 0..rng.below(6) {
                    pairs.random_key(rng, depth - 1);
                    pairs.random(rng, depth - 1);
                }
            }),
        }
    }

    fn random_key(&mut self, rng: &mut Rng, depth: usize) {
        if rng.once_in(8) { self.random(rng, depth) } else { self.scalar(rng.pick(&SCALARS)) }
    }
}

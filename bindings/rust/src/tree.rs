//! The records seen as a tree.
//!
//! Nothing is assumed of the buffers: every question to records that no build left has an answer too, and every iteration ends.
//!
//! From a sentence up to the section that it stands in:
//!
//! ```
//! use quarto_yaml::event::{Event, Style, encode};
//!
//! let text = "{title: Oil, steps: [Drain it, Fill it]}";
//! let scalar = |index, value| {
//!     Event::Scalar { index, column: index, style: Style::Plain, empty_span: false, tag: None, value }
//! };
//! let events = encode(&[
//!     Event::MappingStart { index: 0, tag: None },
//!     scalar(1, "title"),
//!     scalar(8, "Oil"),
//!     scalar(13, "steps"),
//!     Event::SequenceStart { index: 20, tag: None },
//!     scalar(21, "Drain it"),
//!     scalar(31, "Fill it"),
//!     Event::SequenceEnd { index: 38 },
//!     Event::MappingEnd { index: 39 },
//! ])?;
//! let catalogue = quarto_yaml::build(text.as_bytes(), &events)?;
//! let sentence = catalogue.tree().nodes().find(|node| node.text() == Some("Fill it")).unwrap();
//!
//! // Its parent is the list of steps; the first hash on the way up is the section.
//! assert!(sentence.parent().unwrap().is_array());
//! let section = sentence.ancestors().find(|node| node.is_hash()).unwrap();
//! assert_eq!(section.get("title").unwrap().text(), Some("Oil"));
//! # Ok::<(), Box<dyn std::error::Error>>(())
//! ```

use crate::record::{Kind, NONE, Payload, PieceList, Pieces, RECORD_WIDTH, Record, Span, TagInfo};
use crate::sys;

/// The event bytes of a build, and the records and pieces that it left.
#[derive(Clone, Copy, Debug)]
pub struct Tree<'a> {
    events: &'a [u8],
    records: &'a [u32],
    pieces: &'a [u32],
}

impl<'a> Tree<'a> {
    /// A view of these buffers.
    pub fn new(events: &'a [u8], records: &'a [u32], pieces: &'a [u32]) -> Tree<'a> {
        Tree { events, records, pieces }
    }

    /// The root, where this many nodes were built.
    pub fn root(self, nodes: u32) -> Option<Node<'a>> {
        self.found(sys::root(self.records, nodes))
    }

    /// The node with this record number, if the record exists: it lies whole in the buffer and its kind is 1 to 8.
    pub fn node(self, number: u32) -> Option<Node<'a>> {
        let numbers = self.records.get((number as usize).checked_mul(RECORD_WIDTH)?..)?.first_chunk()?;
        Some(Node { tree: self, number, record: Record::new(numbers)? })
    }

    /// Every node in the order of the records: children before their collection, the root last. It ends at the first record that
    /// does not exist.
    pub fn nodes(self) -> impl Iterator<Item = Node<'a>> {
        (0..NONE).map_while(move |number| self.node(number))
    }

    fn found(self, number: u32) -> Option<Node<'a>> {
        if number == NONE { None } else { self.node(number) }
    }
}

/// A node of a tree.
#[derive(Clone, Copy, Debug)]
pub struct Node<'a> {
    tree: Tree<'a>,
    number: u32,
    record: Record,
}

impl<'a> Node<'a> {
    /// The number of its record.
    pub fn number(self) -> u32 {
        self.number
    }

    /// Its record.
    pub fn record(self) -> Record {
        self.record
    }

    /// What it is.
    pub fn kind(self) -> Kind {
        self.record.kind
    }

    /// What its record says of its value.
    pub fn payload(self) -> Payload {
        self.record.payload
    }

    /// Whether it is neither an array nor a hash.
    pub fn is_scalar(self) -> bool {
        sys::is_scalar(self.tree.records, self.number) == 1
    }

    /// Whether it is an array.
    pub fn is_array(self) -> bool {
        sys::is_array(self.tree.records, self.number) == 1
    }

    /// Whether it is a hash.
    pub fn is_hash(self) -> bool {
        sys::is_hash(self.tree.records, self.number) == 1
    }

    /// The items of an array, the pairs of a hash, 0 for a scalar, as its record says.
    pub fn len(self) -> u32 {
        sys::len(self.tree.records, self.number)
    }

    /// Whether it has no children.
    pub fn is_empty(self) -> bool {
        sys::is_empty(self.tree.records, self.number) == 1
    }

    /// The bytes of the text that it occupies, as the builder finds them: quotes are counted in, the header of a block scalar only where
    /// its marker is on it. A scalar's span starts at a character of the text or at its end. docs/DIFFERENCES.md says where spans are not
    /// what one would expect.
    pub fn span(self) -> Span {
        let sys::Span { start, end, .. } = sys::source_info(self.tree.records, self.number);
        Span { start, end }
    }

    /// Whether that span was found in the text, as it is for every block scalar and counts for every collection and alias. Otherwise it is
    /// assumed: as long as the value, cut to the text left, since a plain one's value cannot be followed through the text, or a quoted one
    /// has not both its marks.
    pub fn is_measured(self) -> bool {
        sys::is_measured(self.tree.records, self.number) == 1
    }

    /// Its tag.
    pub fn tag(self) -> Option<TagInfo> {
        let tag = sys::tag(self.tree.records, self.number);
        let span = Span { start: tag.start, end: tag.end };
        (tag.present == 1).then_some(TagInfo { span, suffix: tag.suffix, len: tag.len })
    }

    /// The suffix of its tag.
    pub fn tag_suffix(self) -> Option<&'a str> {
        let tag = self.tag()?;
        self.text_at(tag.suffix, tag.len)
    }

    /// The value of a real or a string, from the event bytes.
    pub fn text(self) -> Option<&'a str> {
        match self.record.payload {
            Payload::Text { place, len } => self.text_at(place, len),
            _ => None,
        }
    }

    fn text_at(self, place: u32, len: u32) -> Option<&'a str> {
        let place = place as usize;
        let bytes = self.tree.events.get(place..place.checked_add(len as usize)?)?;
        str::from_utf8(bytes).ok()
    }

    /// Which pieces are its own; none also for a collection.
    pub fn piece_list(self) -> Option<PieceList> {
        let list = sys::content_source_info(self.tree.records, self.number);
        (list.present == 1).then_some(PieceList { first: list.first, count: list.count })
    }

    /// The pieces of a scalar in order: their contents, one after the other, stand for its value from the front, and reach past its end
    /// only with an escape that is not the value's. None where it has no list, as an alias, a scalar whose pieces cannot be found, and a
    /// collection.
    pub fn pieces(self) -> Option<Pieces<'a>> {
        Pieces::new(self.tree.pieces, self.piece_list()?)
    }

    /// The array or hash that it is a child of, for a key as for a value; none for the root. A parent has a higher number than its
    /// children; where the number in a record that no build left is not higher, it has no parent.
    pub fn parent(self) -> Option<Node<'a>> {
        self.tree.found(sys::parent(self.tree.records, self.number)).filter(|parent| parent.number > self.number)
    }

    /// Its parent, the parent of that, and so on up to the root, which is the last.
    pub fn ancestors(self) -> impl Iterator<Item = Node<'a>> {
        std::iter::successors(self.parent(), |node| node.parent())
    }

    /// The last child: of a hash, the value of its last pair.
    pub fn last_child(self) -> Option<Node<'a>> {
        self.tree.found(sys::last_child(self.tree.records, self.number))
    }

    /// The children from the last to the first, one step each. Those of a hash are its values and keys in turn.
    pub fn children_from_last(self) -> ChildrenFromLast<'a> {
        let left = match self.record.payload {
            Payload::Count(items) if self.record.kind == Kind::Array => u64::from(items),
            Payload::Count(pairs) => 2 * u64::from(pairs),
            _ => 0,
        };
        ChildrenFromLast { next: self.last_child(), left }
    }

    /// The children from the first to the last. They are gone through from the last once, one step each, and kept.
    pub fn children(self) -> impl DoubleEndedIterator<Item = Node<'a>> + ExactSizeIterator {
        let children: Vec<Node> = self.children_from_last().collect();
        children.into_iter().rev()
    }

    /// The pairs of a hash from the first to the last, equal keys included; those of any other node are none.
    pub fn pairs(self) -> impl DoubleEndedIterator<Item = Pair<'a>> + ExactSizeIterator {
        let mut pairs = Vec::new();
        if self.is_hash() {
            let mut from_last = self.children_from_last();
            while let (Some(value), Some(key)) = (from_last.next(), from_last.next()) {
                pairs.push(Pair { key, value });
            }
        }
        pairs.into_iter().rev()
    }

    /// Item `i` of an array, from 0. As many steps as it is away from the last.
    pub fn item(self, i: u32) -> Option<Node<'a>> {
        self.tree.found(sys::get_array_item(self.tree.records, self.number, i))
    }

    /// Pair `i` of a hash, from 0. As many steps as it is away from the last.
    pub fn pair(self, i: u32) -> Option<Pair<'a>> {
        let entry = sys::hash_entry(self.tree.records, self.number, i);
        if entry.present != 1 {
            return None;
        }
        Some(Pair { key: self.tree.node(entry.key)?, value: self.tree.node(entry.value)? })
    }

    /// The value of the first pair whose key is a string with this value.
    pub fn get(self, key: &str) -> Option<Node<'a>> {
        self.tree.found(sys::get_hash_value(self.tree.records, self.tree.events, self.number, key.as_bytes()))
    }
}

/// A key of a hash and its value.
#[derive(Clone, Copy, Debug)]
pub struct Pair<'a> {
    /// The key.
    pub key: Node<'a>,
    /// The value.
    pub value: Node<'a>,
}

impl Pair<'_> {
    /// From the key's start to the value's end, both as found.
    pub fn span(self) -> Span {
        Span { start: self.key.span().start, end: self.value.span().end }
    }
}

/// The children of a node from the last to the first.
#[derive(Clone, Debug)]
pub struct ChildrenFromLast<'a> {
    next: Option<Node<'a>>,
    left: u64,
}

impl<'a> Iterator for ChildrenFromLast<'a> {
    type Item = Node<'a>;

    fn next(&mut self) -> Option<Node<'a>> {
        let child = self.next.filter(|_| self.left > 0)?;
        self.left -= 1;
        self.next = match self.left {
            0 => None,
            _ => child.tree.found(sys::child_before(child.tree.records, child.number)),
        };
        Some(child)
    }
}

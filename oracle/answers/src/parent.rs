//! The parent of each record: document 02 (c). The original's nodes have none. This is a second implementation, written from the
//! words of documents 01 and 02 alone, over the events: a collection remembers the nodes completed in it, and becomes their parent
//! when its own record's number is known. Subtree counts, which lead to the same, are not looked at.

use crate::decode::{Body, Collection, Event};

/// Stands for no parent.
pub const NONE: u32 = u32::MAX;

/// Where a completed node stands in the tree.
#[derive(Debug, Clone, Copy, PartialEq)]
pub struct Place {
    /// The parent's record number, or [`NONE`] at the root, and as long as the parent is open.
    pub parent: u32,
    /// Whether it completed as a mapping's value.
    pub awaited: bool,
}

/// A collection that is open, and the numbers of the nodes completed in it.
struct Open {
    collection: Collection,
    children: Vec<usize>,
}

/// The places of the nodes that admitted events complete, in the order of their records.
pub fn places(events: &[Event]) -> Vec<Place> {
    let mut places = Vec::new();
    let mut open: Vec<Open> = Vec::new();
    for event in events {
        let children = match event.body {
            Body::Start(collection, _) => {
                open.push(Open { collection, children: Vec::new() });
                continue;
            }
            Body::End(_) => open.pop().map_or(Vec::new(), |ended| ended.children),
            Body::Scalar(_) | Body::Alias => Vec::new(),
        };
        let number = places.len();
        for child in children {
            let place: &mut Place = &mut places[child];
            place.parent = number as u32;
        }
        let mut awaited = false;
        if let Some(around) = open.last_mut() {
            awaited = around.collection == Collection::Mapping && around.children.len() % 2 == 1;
            around.children.push(number);
        }
        places.push(Place { parent: NONE, awaited });
    }
    places
}

#[cfg(test)]
mod tests {
    use super::*;
    use crate::admit;
    use framing::event::{Event, encode};

    /// The places of a document: brackets and braces, `a` for a scalar and `*` for an alias.
    fn placed(document: &str) -> Vec<Place> {
        let events: Vec<Event> = document
            .chars()
            .map(|letter| match letter {
                '[' => Event::SequenceStart(0, None),
                ']' => Event::SequenceEnd(0),
                '{' => Event::MappingStart(0, None),
                '}' => Event::MappingEnd(0),
                '*' => Event::Alias(0),
                _ => Event::Scalar(Default::default()),
            })
            .collect();
        places(&admit::admit(&encode(&events), usize::MAX).events)
    }

    fn parents(document: &str) -> Vec<u32> {
        placed(document).iter().map(|place| place.parent).collect()
    }

    fn awaited(document: &str) -> Vec<bool> {
        placed(document).iter().map(|place| place.awaited).collect()
    }

    #[test]
    fn a_root_has_none() {
        for document in ["a", "*", "[]", "{}"] {
            assert_eq!(parents(document), [NONE]);
        }
        assert_eq!(parents(""), []);
    }

    #[test]
    fn children_of_the_root() {
        assert_eq!(parents("[a]"), [1, NONE]);
        assert_eq!(parents("[a*a]"), [3, 3, 3, NONE]);
        assert_eq!(parents("{aa}"), [2, 2, NONE]);
        assert_eq!(parents("{a*aa}"), [4, 4, 4, 4, NONE]);
    }

    #[test]
    fn collections_in_collections() {
        assert_eq!(parents("[[]]"), [1, NONE]);
        assert_eq!(parents("[[][][]]"), [3, 3, 3, NONE]);
        assert_eq!(parents("[a[a]a]"), [4, 2, 4, 4, NONE]);
        assert_eq!(parents("[[aa][a]]"), [2, 2, 5, 4, 5, NONE]);
        assert_eq!(parents("[[[a]]a]"), [1, 2, 4, 4, NONE]);
        assert_eq!(parents("[a[[[]]]]"), [4, 2, 3, 4, NONE]);
        // A key and a value of their own children.
        assert_eq!(parents("{[a]{aa}}"), [1, 5, 4, 4, 5, NONE]);
        assert_eq!(parents("{{aa}[]}"), [2, 2, 4, 4, NONE]);
        assert_eq!(parents("{a{a{aa}}}"), [6, 5, 4, 4, 5, 6, NONE]);
    }

    #[test]
    fn a_parent_has_a_higher_number() {
        let document = format!("{}a{}", "[{a".repeat(32), "}a]".repeat(32));
        let parents = parents(&document);
        assert_eq!(parents.len(), 32 * 4 + 1);
        assert!(parents.iter().enumerate().all(|(number, parent)| *parent as usize > number));
        assert_eq!(parents.iter().filter(|parent| **parent == NONE).count(), 1);
    }

    #[test]
    fn an_open_collection_has_no_number() {
        assert_eq!(parents("[a[a]"), [NONE, 2, NONE]);
    }

    #[test]
    fn values_are_awaited() {
        assert_eq!(awaited("a"), [false]);
        assert_eq!(awaited("[aa]"), [false; 3]);
        assert_eq!(awaited("{aaa*}"), [false, true, false, true, false]);
        // The first of a sequence, which is the value itself; then that of a mapping that is a key.
        assert_eq!(awaited("{a[aa]}"), [false, false, false, true, false]);
        assert_eq!(awaited("{{aa}a}"), [false, true, false, true, false]);
    }
}

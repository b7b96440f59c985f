//! The family `nodes`: what the original's accessors say of the tree that it builds.

use crate::accessors::{Accessors, Told};
use crate::admit::{self, Completed};
use crate::tree::Tree;
use crate::{answer, original};
use framing::{Answer, Case, RECORD_NUMBERS};
use std::collections::HashSet;
use std::ops::Range;

/// The answer to a case with the answers of the accessors as its records: the root, then for each record and the one past
/// the last all that is asked about it, then its children from the last to the first. Its pieces are the keys that are asked
/// for, as places and lengths in the event bytes.
pub fn nodes(case: &Case) -> Answer {
    let built = answer(case);
    if built.returned[0] != 0 {
        return built;
    }
    let text = str::from_utf8(&case.text).expect("the text of a built document");
    let admitted = admit::admit(&case.events, case.record_room as usize / RECORD_NUMBERS);
    let Ok(Some(root)) = original::build(text, &case.events, &admitted) else {
        unreachable!("the document was built before");
    };
    let tree = Tree::new(&root, &admitted.completed, built.records.as_chunks().0);
    let parts = keys(&case.events, &admitted.completed);
    let keys: Vec<&[u8]> = parts.iter().map(|part| &case.events[part.clone()]).collect();

    let mut told = Told::default();
    told.place(Some(tree.number(&root)));
    for n in 0..=admitted.completed.len() {
        told.about(&tree, n, usize::MAX, &keys);
        tell_children(&mut told, &tree, n);
    }
    let pieces = parts.iter().flat_map(|part| [part.start as u32, part.len() as u32]).collect();
    Answer { returned: built.returned, records: told.0, pieces }
}

/// The children from the last to the first: each as the last child or the child before, and as the child so far from the
/// last; with each value its pair.
fn tell_children(told: &mut Told, tree: &Tree, n: usize) {
    let is_hash = tree.is_hash(n) == Some(true);
    for (place, child) in tree.children(n).iter().enumerate().rev() {
        told.place(Some(*child));
        told.place(Some(*child));
        if is_hash && place % 2 == 1 {
            told.entry(tree.hash_entry(n, place / 2));
        }
    }
}

const EMPTY: Range<usize> = 0..0;

/// The empty key, the texts of all scalars, and these with the last character left out and with the byte after them.
fn keys(events: &[u8], completed: &[Completed]) -> Vec<Range<usize>> {
    let mut texts = HashSet::new();
    let mut keys = vec![EMPTY];
    for Completed { value, .. } in completed {
        let longer = value.start..events.len().min(value.end + 1);
        keys.extend([value.clone(), shorter(events, value), longer]);
    }
    keys.retain(|key| str::from_utf8(&events[key.clone()]).is_ok_and(|text| texts.insert(text)));
    keys
}

fn shorter(events: &[u8], value: &Range<usize>) -> Range<usize> {
    let text = str::from_utf8(&events[value.clone()]).expect("the reader tests for UTF-8");
    let last = text.chars().next_back().map_or(0, char::len_utf8);
    value.start..value.end - last
}

#[cfg(test)]
mod tests {
    use super::*;
    use crate::buffer::Buffer;
    use framing::corpus;

    /// On built records the second reader answers as the original does.
    #[test]
    fn both_readers_agree_on_the_corpus() {
        for (text, events) in corpus::documents() {
            let case = Case { text, events, record_room: 10_000, piece_room: 10_000 };
            let built = answer(&case);
            assert_eq!(built.returned[0], 0);
            let admitted = admit::admit(&case.events, 1_000);
            let text = str::from_utf8(&case.text).expect("a text");
            let Ok(Some(root)) = original::build(text, &case.events, &admitted) else { panic!("a tree") };
            let records = built.records.as_chunks().0;
            let tree = Tree::new(&root, &admitted.completed, records);
            let buffer = Buffer { records, events: &case.events };
            let parts = keys(&case.events, &admitted.completed);
            let keys: Vec<&[u8]> = parts.iter().map(|part| &case.events[part.clone()]).collect();
            for n in 0..=records.len() {
                let [mut by_tree, mut by_buffer] = [Told::default(), Told::default()];
                by_tree.about(&tree, n, usize::MAX, &keys);
                by_buffer.about(&buffer, n, usize::MAX, &keys);
                assert_eq!(by_tree.0, by_buffer.0);
            }
        }
    }

    /// The parents by the events are those by the original's own children.
    #[test]
    fn parents_are_those_of_the_tree() {
        for (text, events) in corpus::documents() {
            let case = Case { text, events, record_room: 10_000, piece_room: 10_000 };
            let records = answer(&case).records;
            let admitted = admit::admit(&case.events, 1_000);
            let text = str::from_utf8(&case.text).expect("a text");
            let Ok(Some(root)) = original::build(text, &case.events, &admitted) else { panic!("a tree") };
            let tree = Tree::new(&root, &admitted.completed, records.as_chunks().0);
            let count = admitted.completed.len();
            let mut parents = vec![u32::MAX; count];
            for n in 0..count {
                for child in tree.children(n) {
                    parents[child] = n as u32;
                }
            }
            assert_eq!((0..count).map(|n| tree.parent(n)).collect::<Option<Vec<u32>>>(), Some(parents));
        }
    }
}

//! A node of the original's tree in document 01's numbers, and a record of fourteen (document 02 (c)).

use crate::admit::Completed;
use framing::{RECORD_NUMBERS, Record};
use quarto_source_map::{Call, SourceInfo};
use quarto_yaml::YamlWithSourceInfo;
use yaml_rust2::Yaml;

/// Stands for no tag and no piece list.
const NONE: u32 = u32::MAX;

/// How many numbers of a record the original has. After them stand two that come from a second implementation.
pub const ORIGINAL_NUMBERS: usize = 12;
pub const START: usize = 1;
pub const PARENT: usize = 12;
pub const MEASURED: usize = 13;

/// A node and the number of nodes in its subtree, itself counted.
pub struct Node<'a> {
    pub node: &'a YamlWithSourceInfo,
    subtree: u32,
}

/// The nodes of a tree in the order in which they complete.
pub fn nodes(root: &YamlWithSourceInfo) -> Vec<Node<'_>> {
    let mut nodes = Vec::new();
    push_subtree(root, &mut nodes);
    nodes
}

fn push_subtree<'a>(node: &'a YamlWithSourceInfo, nodes: &mut Vec<Node<'a>>) {
    let before = nodes.len();
    for item in node.as_array().unwrap_or_default() {
        push_subtree(item, nodes);
    }
    for entry in node.as_hash().unwrap_or_default() {
        push_subtree(&entry.key, nodes);
        push_subtree(&entry.value, nodes);
    }
    let subtree = (nodes.len() - before + 1) as u32;
    nodes.push(Node { node, subtree });
}

/// The pieces of a node's list, or none where it has no list.
pub fn pieces(node: &YamlWithSourceInfo) -> Option<Vec<[u32; 4]>> {
    let mut pieces: Vec<[u32; 4]> = Vec::new();
    for call in node.content_source_info()?.calls() {
        let (kind, source, content) = match call {
            Call::Verbatim(source) => (1, source, source.len()),
            Call::Replacement(source, content) => (2, source, *content),
        };
        match pieces.last_mut() {
            // Neighbouring verbatim calls are joined.
            Some([1, _, end, length]) if kind == 1 => {
                *end = source.end as u32;
                *length += content as u32;
            }
            _ => pieces.push([kind, source.start as u32, source.end as u32, content as u32]),
        }
    }
    Some(pieces)
}

/// The twelve numbers that the original's node has. `first_piece` is the next free entry of the piece buffer.
pub fn original(
    Node { node, subtree }: &Node,
    completed: &Completed,
    first_piece: u32,
    pieces: Option<u32>,
) -> [u32; ORIGINAL_NUMBERS] {
    let [start, end] = offsets(&node.source_info);
    let [tag_start, tag_end, suffix, suffix_length] = match (&node.tag, &completed.suffix) {
        (Some((_, span)), Some(suffix)) => {
            let [start, end] = offsets(span);
            [start, end, suffix.start as u32, suffix.len() as u32]
        }
        (None, None) => [NONE; 4],
        _ => unreachable!("the tree has the tags of the events"),
    };
    let value = |text: &str| [completed.value.start as u32, text.len() as u32];
    let (kind, [high, low]) = match &node.yaml {
        Yaml::Null => (1, [0, 0]),
        Yaml::Boolean(value) => (2, [(*value).into(), 0]),
        Yaml::Integer(value) => (3, [(*value >> 32) as u32, *value as u32]),
        Yaml::Real(text) => (4, value(text)),
        Yaml::String(text) => (5, value(text)),
        Yaml::BadValue => (6, [0, 0]),
        Yaml::Array(_) => (7, [node.len() as u32, 0]),
        Yaml::Hash(_) => (8, [node.len() as u32, 0]),
    };
    let [first, count] = pieces.map_or([NONE, 0], |count| [first_piece, count]);
    [kind, start, end, tag_start, tag_end, suffix, suffix_length, *subtree, first, count, high, low]
}

/// The original's twelve numbers, the parent, and whether the span is measured.
pub fn whole(original: [u32; ORIGINAL_NUMBERS], parent: u32, measured: bool) -> Record {
    let mut record = [0; RECORD_NUMBERS];
    record[..ORIGINAL_NUMBERS].copy_from_slice(&original);
    record[PARENT] = parent;
    record[MEASURED] = measured.into();
    record
}

pub fn offsets(span: &SourceInfo) -> [u32; 2] {
    [span.start_offset() as u32, span.end_offset() as u32]
}

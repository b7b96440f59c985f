//! The accessors of the original on the tree that it builds. A node's number is its record's; a node that the original
//! hands back by reference is found again by its address.

use crate::accessors::{Accessors, Entry};
use crate::admit::Completed;
use crate::record::{self, MEASURED, Node, PARENT};
use framing::Record;
use quarto_yaml::{YamlHashEntry, YamlWithSourceInfo};
use std::collections::HashMap;
use std::ptr;

pub struct Tree<'a> {
    nodes: Vec<Node<'a>>,
    numbers: HashMap<*const YamlWithSourceInfo, usize>,
    completed: &'a [Completed],
    records: &'a [Record],
}

impl<'a> Tree<'a> {
    /// The records have the numbers that the original does not keep: the counts of a subtree, the first pieces, and the two that
    /// come from a second implementation.
    pub fn new(root: &'a YamlWithSourceInfo, completed: &'a [Completed], records: &'a [Record]) -> Self {
        let nodes = record::nodes(root);
        let numbers = nodes.iter().enumerate().map(|(n, node)| (ptr::from_ref(node.node), n)).collect();
        Self { nodes, numbers, completed, records }
    }

    /// The children of a node in order; a hash's are its keys and values in turn.
    pub fn children(&self, n: usize) -> Vec<usize> {
        let items = self.node(n).and_then(YamlWithSourceInfo::as_array).unwrap_or_default();
        let entries = self.node(n).and_then(YamlWithSourceInfo::as_hash).unwrap_or_default();
        let pairs = entries.iter().flat_map(|entry| [&entry.key, &entry.value]);
        items.iter().chain(pairs).map(|child| self.number(child)).collect()
    }

    fn node(&self, n: usize) -> Option<&'a YamlWithSourceInfo> {
        self.nodes.get(n).map(|node| node.node)
    }

    pub fn number(&self, node: &YamlWithSourceInfo) -> usize {
        self.numbers[&ptr::from_ref(node)]
    }

    fn entry(&self, entry: &YamlHashEntry) -> Entry {
        Entry {
            key: self.number(&entry.key),
            value: self.number(&entry.value),
            key_span: record::offsets(&entry.key_span),
            value_span: record::offsets(&entry.value_span),
            entry_span: record::offsets(&entry.entry_span),
        }
    }
}

impl Accessors for Tree<'_> {
    fn get_record(&self, n: usize) -> Option<Record> {
        self.records.get(n).copied()
    }

    fn is_scalar(&self, n: usize) -> Option<bool> {
        self.node(n).map(YamlWithSourceInfo::is_scalar)
    }

    fn is_array(&self, n: usize) -> Option<bool> {
        self.node(n).map(YamlWithSourceInfo::is_array)
    }

    fn is_hash(&self, n: usize) -> Option<bool> {
        self.node(n).map(YamlWithSourceInfo::is_hash)
    }

    fn len(&self, n: usize) -> Option<u32> {
        self.node(n).map(|node| node.len() as u32)
    }

    fn is_empty(&self, n: usize) -> Option<bool> {
        self.node(n).map(YamlWithSourceInfo::is_empty)
    }

    fn source_info(&self, n: usize) -> Option<[u32; 2]> {
        self.node(n).map(|node| record::offsets(&node.source_info))
    }

    fn tag(&self, n: usize) -> Option<[u32; 4]> {
        let (_, span) = self.node(n)?.tag.as_ref()?;
        let suffix = self.completed[n].suffix.as_ref()?;
        let [start, end] = record::offsets(span);
        Some([start, end, suffix.start as u32, suffix.len() as u32])
    }

    fn content_source_info(&self, n: usize) -> Option<[u32; 2]> {
        let calls = self.node(n)?.content_source_info();
        calls.map(|_| [self.records[n][8], self.records[n][9]])
    }

    fn last_child(&self, n: usize) -> Option<usize> {
        let node = self.node(n)?;
        let value = node.as_hash().and_then(|entries| entries.last()).map(|entry| &entry.value);
        let item = node.as_array().and_then(|items| items.last());
        value.or(item).map(|child| self.number(child))
    }

    fn parent(&self, n: usize) -> Option<u32> {
        self.records.get(n).map(|record| record[PARENT])
    }

    fn is_measured(&self, n: usize) -> Option<u32> {
        self.records.get(n).map(|record| record[MEASURED])
    }

    fn get_array_item(&self, n: usize, i: usize) -> Option<usize> {
        self.node(n)?.get_array_item(i).map(|item| self.number(item))
    }

    fn hash_entry(&self, n: usize, i: usize) -> Option<Entry> {
        self.node(n)?.as_hash()?.get(i).map(|entry| self.entry(entry))
    }

    fn get_hash_value(&self, n: usize, key: &[u8]) -> Option<usize> {
        let key = str::from_utf8(key).expect("keys are cut from the event bytes as UTF-8");
        self.node(n)?.get_hash_value(key).map(|value| self.number(value))
    }
}

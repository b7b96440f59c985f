//! The tree through the archive: a built document, and buffers that no build left.

use quarto_yaml::event::{Event, Style, encode};
use quarto_yaml::record::{NONE, PieceList};
use quarto_yaml::{Kind, Node, Payload, Span, Tree, build};

/// `{a: [1, x, *y], b: 2.5, a: ~, 3: {}}` as its events.
const TEXT: &str = "{a: [1, x, *y], b: 2.5, a: ~, 3: {}}";

fn events() -> Vec<u8> {
    let scalar =
        |index, value| Event::Scalar { index, column: index, style: Style::Plain, empty_span: false, tag: None, value };
    let events = [
        Event::MappingStart { index: 0, tag: None },
        scalar(1, "a"),
        Event::SequenceStart { index: 4, tag: None },
        scalar(5, "1"),
        scalar(8, "x"),
        Event::Alias { index: 11 },
        Event::SequenceEnd { index: 13 },
        scalar(16, "b"),
        scalar(19, "2.5"),
        scalar(24, "a"),
        scalar(27, "~"),
        scalar(30, "3"),
        Event::MappingStart { index: 33, tag: None },
        Event::MappingEnd { index: 34 },
        Event::MappingEnd { index: 35 },
    ];
    encode(&events).unwrap()
}

fn written(node: Node) -> String {
    let Span { start, end } = node.span();
    TEXT[start as usize..end as usize].to_string()
}

#[test]
fn nodes_and_their_values() {
    let events = events();
    let catalogue = build(TEXT.as_bytes(), &events).unwrap();
    let all: Vec<String> = catalogue.tree().nodes().map(written).collect();
    assert_eq!(all, ["a", "1", "x", "", "[1, x, *y]", "b", "2.5", "a", "~", "3", "{}", TEXT]);
    let root = catalogue.root();
    assert_eq!((root.number(), root.kind(), root.len(), root.record().subtree), (11, Kind::Hash, 4, 12));
    assert!(root.is_hash() && !root.is_array() && !root.is_scalar() && !root.is_empty());
    let array = root.get("a").unwrap();
    assert!(array.is_array() && !array.is_hash() && !array.is_scalar());
    assert_eq!(array.item(0).unwrap().payload(), Payload::Integer(1));
    assert_eq!(array.item(1).unwrap().text(), Some("x"));
    let alias = array.item(2).unwrap();
    assert!(alias.is_scalar() && alias.is_empty() && alias.pieces().is_none());
    assert!(array.item(3).is_none() && array.pieces().is_none() && array.tag().is_none() && array.text().is_none());
    assert_eq!(root.get("b").unwrap().text(), Some("2.5"));
    assert_eq!(root.get("b").unwrap().pieces().unwrap().count(), 1);
    assert!(root.get("3").is_none(), "the key is an integer");
    assert!(root.get("c").is_none() && array.get("a").is_none());
}

#[test]
fn children_in_both_directions() {
    let events = events();
    let catalogue = build(TEXT.as_bytes(), &events).unwrap();
    let root = catalogue.root();
    let array = root.get("a").unwrap();
    let texts = |nodes: &mut dyn Iterator<Item = Node>| nodes.map(written).collect::<Vec<_>>();
    assert_eq!(texts(&mut array.children_from_last()), ["", "x", "1"]);
    assert_eq!(texts(&mut array.children()), ["1", "x", ""]);
    assert_eq!(array.last_child().unwrap().number(), 3);
    assert_eq!(texts(&mut root.children()), ["a", "[1, x, *y]", "b", "2.5", "a", "~", "3", "{}"]);
    let empty = root.last_child().unwrap();
    assert!(empty.is_hash() && empty.is_empty() && empty.last_child().is_none());
    assert_eq!((empty.children().len(), empty.pairs().len()), (0, 0));
    assert_eq!(array.item(0).unwrap().children().len(), 0);
}

#[test]
fn pairs_of_a_hash() {
    let events = events();
    let catalogue = build(TEXT.as_bytes(), &events).unwrap();
    let root = catalogue.root();
    let spans: Vec<Span> = root.pairs().map(|pair| pair.span()).collect();
    let expected = [(1, 14), (16, 22), (24, 28), (30, 35)];
    assert_eq!(spans, expected.map(|(start, end)| Span { start, end }));
    for (i, pair) in root.pairs().enumerate() {
        let same = root.pair(i as u32).unwrap();
        assert_eq!((same.key.number(), same.value.number()), (pair.key.number(), pair.value.number()));
    }
    assert!(root.pair(4).is_none());
    assert_eq!(root.get("a").unwrap().pairs().len(), 0, "an array has no pairs");
}

/// The events of a shape: `[`, `]`, `{` and `}` are starts and ends, `*` an alias, `a` a scalar. The markers do not matter.
fn shape(signs: &str) -> Vec<u8> {
    let event = |sign| match sign {
        '[' => Event::SequenceStart { index: 0, tag: None },
        ']' => Event::SequenceEnd { index: 0 },
        '{' => Event::MappingStart { index: 0, tag: None },
        '}' => Event::MappingEnd { index: 0 },
        '*' => Event::Alias { index: 0 },
        _ => Event::Scalar { index: 0, column: 0, style: Style::Plain, empty_span: false, tag: None, value: "a" },
    };
    encode(&signs.chars().map(event).collect::<Vec<_>>()).unwrap()
}

/// Every node is a child of its parent, and the parent of its children.
#[test]
fn up_and_down() {
    let deep = "[".repeat(64) + "a" + &"]".repeat(64);
    let mut documents = vec![events()];
    documents.extend(["a", "*", "[]", &deep, "{[a*]a{}[]}", "[a[a]{a[**]}a]"].map(shape));
    for events in documents {
        let catalogue = build(TEXT.as_bytes(), &events).unwrap();
        let root = catalogue.root();
        assert!(root.parent().is_none() && root.ancestors().next().is_none());
        let mut children = 0;
        for node in catalogue.tree().nodes() {
            for child in node.children() {
                assert_eq!(child.parent().unwrap().number(), node.number());
                assert!(child.number() < node.number());
                children += 1;
            }
            let parent = node.parent();
            assert_eq!(node.record().parent, parent.map(Node::number));
            let among = |parent: Node| parent.children().filter(|child| child.number() == node.number()).count();
            assert!(parent.is_none_or(|parent| among(parent) == 1));
            assert_eq!(node.ancestors().last().unwrap_or(node).number(), root.number());
        }
        assert_eq!(children + 1, catalogue.built().nodes, "only the root is no child");
    }
}

#[test]
fn parents_of_a_document() {
    let events = events();
    let catalogue = build(TEXT.as_bytes(), &events).unwrap();
    let parents: Vec<_> = catalogue.tree().nodes().map(|node| node.parent().map(Node::number)).collect();
    let [array, root] = [Some(4), Some(11)];
    assert_eq!(parents, [root, array, array, array, root, root, root, root, root, root, root, None]);
    let x = catalogue.root().get("a").unwrap().item(1).unwrap();
    assert_eq!(x.ancestors().map(Node::number).collect::<Vec<_>>(), [4, 11]);
}

#[test]
fn measured_and_assumed_spans() {
    let scalar =
        |index, style, value| Event::Scalar { index, column: index, style, empty_span: false, tag: None, value };
    let events = encode(&[
        Event::SequenceStart { index: 0, tag: None },
        scalar(1, Style::Plain, "a"),
        scalar(4, Style::Plain, "c"),
        scalar(7, Style::SingleQuoted, "d"),
        scalar(8, Style::SingleQuoted, "d"),
        Event::Alias { index: 12 },
        Event::SequenceEnd { index: 14 },
    ])
    .unwrap();
    let catalogue = build(b"[a, b, 'd', *e]", &events).unwrap();
    let measured: Vec<bool> = catalogue.tree().nodes().map(Node::is_measured).collect();
    assert_eq!(measured, [true, false, true, false, true, true]);
    assert!(catalogue.tree().nodes().all(|node| node.record().measured == node.is_measured()));
}

/// Fourteen numbers of a node with this kind, subtree count and payload.
fn record(kind: u32, subtree: u32, count: u32) -> [u32; 14] {
    [kind, 0, 0, NONE, NONE, NONE, NONE, subtree, 0, 0, count, 0, NONE, 1]
}

#[test]
fn records_that_no_build_left() {
    let records = [record(5, 1, NONE), record(5, 0, 0), record(7, 1, NONE), record(8, NONE, 2)].concat();
    let tree = Tree::new(&[], &records, &[]);
    let array = tree.node(2).unwrap();
    assert_eq!(array.len(), NONE);
    assert_eq!(array.children().len(), 1, "the count 0 of record 1 ends it");
    assert!(array.item(0).is_none());
    let hash = tree.root(4).unwrap();
    assert_eq!(hash.pairs().len(), 1);
    assert!(hash.pair(0).is_none() && hash.pair(1).is_some() && hash.get("a").is_none());
    assert_eq!(tree.node(0).unwrap().text(), None);
    assert!(tree.node(4).is_none() && tree.root(0).is_none() && tree.root(5).is_none());
    let odd = record(9, 1, 0);
    assert!(Tree::new(&[], &odd, &[]).node(0).is_none());
    assert!(Tree::new(&[], &odd[..13], &[]).node(0).is_none());
    assert!(Tree::new(&[], &record(1, 1, 0)[..13], &[]).node(0).is_none());
}

/// A record may name itself, one below it, one that is cut off or one of no kind: it then has no parent, and going up ends.
#[test]
fn parents_that_no_build_left() {
    let mut records = [record(5, 1, 0); 6];
    for (record, parent) in records.iter_mut().zip([0, 0, 3, 6, 5, NONE]) {
        record[12] = parent;
    }
    records[5][0] = 9;
    let records = [records.as_flattened(), &record(8, 1, 0)[..13]].concat();
    let tree = Tree::new(&[], &records, &[]);
    let parents: Vec<_> = tree.nodes().map(|node| node.parent().map(Node::number)).collect();
    assert_eq!(parents, [None, None, Some(3), None, None]);
    let counts: Vec<_> = tree.nodes().map(|node| node.ancestors().count()).collect();
    assert_eq!(counts, [0, 0, 1, 0, 0]);
    assert_eq!(tree.node(0).unwrap().record().parent, Some(0), "its record says what it says");
}

/// A number other than 1 does not say that the span was measured.
#[test]
fn a_flag_that_no_build_left() {
    let mut numbers = record(5, 1, 0);
    for (number, measured) in [(0, false), (1, true), (2, false), (NONE, false)] {
        numbers[13] = number;
        let node = Tree::new(&[], &numbers, &[]).node(0).unwrap();
        assert_eq!((node.is_measured(), node.record().measured), (measured, measured));
    }
}

#[test]
fn a_piece_list_outside_the_buffer() {
    let mut numbers = record(5, 1, 0);
    (numbers[8], numbers[9]) = (1, 2);
    let pieces = [1; 11];
    let node = Tree::new(&[], &numbers, &pieces).node(0).unwrap();
    assert_eq!(node.piece_list(), Some(PieceList { first: 1, count: 2 }));
    assert!(node.pieces().is_none());
}

//! Whose child a record is, and what is said of its span: document 02 (c). Documents written a letter for each event, so that trees of every
//! shape are short to write.

use crate::rng::Rng;
use crate::run::{DOUBLE_QUOTED, FOLDED, LITERAL, PLAIN, Run, SINGLE_QUOTED, ample, characters, record_room};
use framing::Case;
use framing::event::{Event, Scalar, Tag};
use std::iter;

/// How many collections may be open.
const DEPTH_LIMIT: usize = 64;

const NO_TAG: Tag = None;
const TAG: Tag = Some((b"!", b"t"));

/// A scalar's letter, style, tag, value and text. The first seven are measured; the next five are assumed, since their text is another.
/// The last four have no value; a plain one on a colon steps past it, if it is a mapping's value.
type Written = (char, u8, Tag<'static>, &'static str, &'static str);
const SCALARS: [Written; 16] = [
    ('a', PLAIN, NO_TAG, "a", "a"),
    ('é', PLAIN, NO_TAG, "é", "é"),
    ('t', PLAIN, TAG, "t", "!t t"),
    ('s', SINGLE_QUOTED, NO_TAG, "s", "'s'"),
    ('d', DOUBLE_QUOTED, NO_TAG, "d", "\"d\""),
    ('l', LITERAL, NO_TAG, "l", "l"),
    ('f', FOLDED, NO_TAG, "x", "f"),
    ('x', PLAIN, NO_TAG, "x", "y"),
    ('T', PLAIN, TAG, "t", "!t y"),
    ('S', SINGLE_QUOTED, NO_TAG, "s", "s"),
    ('D', DOUBLE_QUOTED, NO_TAG, "d", "d"),
    ('p', PLAIN, NO_TAG, "p", ":"),
    (':', PLAIN, NO_TAG, "", ":"),
    ('_', PLAIN, NO_TAG, "", ""),
    ('Q', SINGLE_QUOTED, NO_TAG, "", ":"),
    ('q', DOUBLE_QUOTED, TAG, "", ":"),
];

/// Where the markers stand.
#[derive(Debug, Clone, Copy, PartialEq)]
enum Markers {
    /// At the words, as a scanner puts them.
    AtWords,
    /// All at the start of the text, so that every span starts with every other.
    AtStart,
    /// From its end to its start, so that no parent's span holds its children's.
    Falling,
}

pub fn write(run: &mut Run) {
    put_trees(run);
    put_scalars(run);
    put_deep(run);
    put_wide(run);
    put_uneven(run);
    for _ in 0..run.sized(1_000, 200_000) {
        put_random(run);
    }
}

/// All trees of a few events over both collections, a measured scalar, an assumed one and an alias; the smaller ones with other markers,
/// and in every room.
fn put_trees(run: &mut Run) {
    let trees = trees(run.sized(8, 10));
    for (events, trees) in trees.iter().enumerate() {
        for tree in trees {
            if events > 7 {
                run.put(&document(tree, Markers::AtWords));
                continue;
            }
            for markers in [Markers::AtStart, Markers::Falling] {
                run.put(&document(tree, markers));
            }
            put_rooms(run, tree);
        }
    }
}

/// The trees of each number of events, up to a largest.
fn trees(largest: usize) -> Vec<Vec<String>> {
    let mut trees = vec![Vec::new(), ["a", "x", "*"].map(String::from).to_vec()];
    // Rows of trees, by their events: those with an even count of trees, and those with an odd one.
    let mut rows = [vec![vec![String::new()]], vec![Vec::new()]];
    for events in 1..=largest {
        if events > 1 {
            let [even, odd] = [0, 1].map(|parity| &rows[parity][events - 2]);
            let sequences = even.iter().chain(odd).map(|row| format!("[{row}]"));
            trees.push(sequences.chain(even.iter().map(|row| format!("{{{row}}}"))).collect());
        }
        let longer = [1, 0].map(|parity| {
            let mut longer = Vec::new();
            for first in 1..=events {
                for tree in &trees[first] {
                    longer.extend(rows[parity][events - first].iter().map(|row| format!("{tree}{row}")));
                }
            }
            longer
        });
        for (rows, longer) in rows.iter_mut().zip(longer) {
            rows.push(longer);
        }
    }
    trees
}

/// Each scalar alone, in a sequence, as a key, as a value, and in collections that are values and keys.
fn put_scalars(run: &mut Run) {
    for (letter, ..) in SCALARS {
        let shapes = [
            "$", "[$]", "[a$x]", "{$a}", "{a$}", "{$$}", "{x$$*}", "{a[$]}", "{[$]a}", "{{$$}$}", "{a{a$}}", "[{a$}$]",
        ];
        for shape in shapes {
            for markers in [Markers::AtWords, Markers::AtStart, Markers::Falling] {
                run.put(&document(&shape.replace('$', &letter.to_string()), markers));
            }
        }
    }
}

/// Nestings up to the limit, by several beginnings and ends of a level in turn, around a scalar and around nothing.
fn put_deep(run: &mut Run) {
    let shapes: [&[(&str, &str)]; 12] = [
        &[("[", "]")],
        &[("{a", "}")],
        &[("{", "a}")],
        &[("[", "]"), ("{a", "}")],
        &[("{", "x}"), ("{x", "}")],
        &[("{a", "}"), ("{", "*}"), ("[", "]")],
        &[("[ax", "]")],
        &[("[", "x*]")],
        &[("[a", "x]")],
        &[("{ax*", "}"), ("[[]", "{}]")],
        &[("[{}", "[]]")],
        &[("{a[ax]*", "a{aa}}"), ("[[[a]]", "]")],
    ];
    for shape in shapes {
        for depth in (1..=DEPTH_LIMIT - 2).step_by(run.sized(5, 1)) {
            put_rooms(run, &nested(shape, depth, "a"));
        }
        for depth in [DEPTH_LIMIT - 2, DEPTH_LIMIT - 1, DEPTH_LIMIT, DEPTH_LIMIT + 1] {
            for inner in ["a", "*", "x"] {
                run.put(&document(&nested(shape, depth, inner), Markers::AtWords));
            }
        }
    }
}

/// So many levels around what is inside.
fn nested(levels: &[(&str, &str)], depth: usize, inner: &str) -> String {
    let level = |number: usize| levels[number % levels.len()];
    let starts = (0..depth).map(|number| level(number).0);
    let ends = (0..depth).rev().map(|number| level(number).1);
    starts.chain([inner]).chain(ends).collect()
}

/// Many children, scalars or collections, in a sequence and in a mapping; and one with many descendants before, between and after others.
fn put_wide(run: &mut Run) {
    let counts: &[usize] =
        if run.full { &[2, 16, 100, 126, 128, 130, 254, 256, 258, 300, 700] } else { &[2, 16, 128, 256, 300] };
    for &count in counts {
        for child in ["a", "x", "*", "[]", "{}", "[a]", "{ax}", "[[a]x]", "{a[a]}"] {
            put_rooms(run, &format!("[{}]", child.repeat(count)));
            put_rooms(run, &format!("{{{}}}", child.repeat(count)));
            put_rooms(run, &format!("[{}]", format!("{child}a").repeat(count)));
            put_rooms(run, &format!("{{{}}}", format!("a{child}").repeat(count)));
        }
    }
    let counts: &[usize] = if run.full { &[10, 63, 64, 127, 128, 255, 256, 300] } else { &[10, 128, 300] };
    for &count in counts {
        let large = [format!("[{}]", "ax".repeat(count)), format!("{{{}}}", "a[x]".repeat(count))];
        for large in &large {
            let shapes =
                ["[$]", "[$aa]", "[a$a]", "[aa$]", "[$$]", "{$a}", "{a$}", "{$$}", "{a[$]$*}", "[[$]a[]]", "[[]$[]]"];
            for shape in shapes {
                put_rooms(run, &shape.replace('$', large));
            }
        }
    }
}

/// Deep and shallow in turn, trees of two and of three branches, and combs to each side.
fn put_uneven(run: &mut Run) {
    let deep = |depth| nested(&[("[", "]"), ("{a", "}")], depth, "x");
    for depth in (1..=30).step_by(run.sized(4, 1)) {
        put_rooms(run, &format!("[a{}*{}x]", deep(depth), deep(2 * depth)));
        put_rooms(run, &format!("[{}a{}]", deep(2 * depth), deep(depth)));
        put_rooms(run, &format!("{{{}{}{}[]}}", deep(depth), deep(1), deep(depth)));
        let rising: String = (1..=depth).map(deep).collect();
        put_rooms(run, &format!("[{rising}]"));
        let falling: String = (1..=depth).rev().map(deep).collect();
        put_rooms(run, &format!("[{falling}]"));
    }
    for branches in ["[$$]", "{$$}", "[$a$]", "[$$$]", "{a$$*}", "[[]$$]", "[$[]$]"] {
        let grown = iter::successors(Some(String::from("a")), |tree| Some(branches.replace('$', tree)));
        for tree in grown.take(6) {
            put_rooms(run, &tree);
        }
    }
}

/// A document in ample room and in those around what its records need: in fourteens, and in the twelves of before.
fn put_rooms(run: &mut Run, letters: &str) {
    let case = document(letters, Markers::AtWords);
    run.put(&case);
    let nodes = nodes(letters);
    let exact = record_room(nodes);
    for record_room in [exact, exact - 1, record_room(nodes - 1), 12 * nodes as u32] {
        run.put(&Case { record_room, ..case.clone() });
    }
}

/// How many nodes a document has: all letters but the starts.
fn nodes(letters: &str) -> usize {
    letters.chars().filter(|letter| !matches!(letter, '[' | '{')).count()
}

/// The document of some letters.
fn document(letters: &str, markers: Markers) -> Case {
    let mut text = String::new();
    let mut events = Vec::new();
    let mut value_bytes = 0;
    let end = 4 * characters(letters);
    for letter in letters.chars() {
        let word = characters(&text);
        let index = match markers {
            Markers::AtWords => word,
            Markers::AtStart => 0,
            Markers::Falling => end.saturating_sub(word),
        };
        let (event, written) = match letter {
            '[' => (Event::SequenceStart(index, NO_TAG), "["),
            ']' => (Event::SequenceEnd(index), "] "),
            '{' => (Event::MappingStart(index, NO_TAG), "{"),
            '}' => (Event::MappingEnd(index), "} "),
            '*' => (Event::Alias(index), "*x "),
            _ => {
                let (_, style, tag, value, written) = scalar(letter);
                value_bytes += value.len();
                // The marker stands behind a tag.
                let index = index + if tag.is_some() && style == PLAIN { 3 } else { 0 };
                (Event::Scalar(Scalar { index, style, tag, value: value.as_bytes(), ..Scalar::default() }), written)
            }
        };
        event.encode(&mut events);
        text += written;
        if matches!(event, Event::Scalar(_)) {
            text += " ";
        }
    }
    ample(text.into(), events, nodes(letters), value_bytes)
}

fn scalar(letter: char) -> Written {
    *SCALARS.iter().find(|(other, ..)| *other == letter).expect("a letter of the list")
}

/// A random tree, often in a room around what it needs, sometimes with other markers.
pub fn put_random(run: &mut Run) {
    let rng = &mut run.rng;
    let mut tree = Tree { letters: String::new(), left: rng.pick(&[3, 8, 20, 60, 200]), spread: 1 + rng.below(8) };
    let depth = rng.pick(&[2, 4, 8, 20, DEPTH_LIMIT]);
    tree.node(rng, depth);
    let markers = rng.pick(&[Markers::AtWords, Markers::AtWords, Markers::AtStart, Markers::Falling]);
    let mut case = document(&tree.letters, markers);
    let nodes = nodes(&tree.letters);
    let exact = record_room(nodes);
    if rng.once_in(2) {
        case.record_room =
            rng.pick(&[exact, exact - 1, record_room(nodes - 1), 12 * nodes as u32, exact + 13, 7 * nodes as u32]);
    }
    run.put(&case);
}

struct Tree {
    letters: String,
    /// How many nodes it may still have, some more or fewer.
    left: usize,
    /// How many children a collection has at most.
    spread: usize,
}

impl Tree {
    fn node(&mut self, rng: &mut Rng, depth: usize) {
        self.left = self.left.saturating_sub(1);
        if depth == 0 || self.left == 0 || rng.once_in(3) {
            let (letter, ..) = rng.pick(&SCALARS);
            return self.letters.push(if rng.once_in(6) { '*' } else { letter });
        }
        let [start, end] = rng.pick(&[['[', ']'], ['{', '}']]);
        self.letters.push(start);
        let most = if rng.once_in(20) { 5 * self.spread } else { self.spread };
        let count = rng.below(most + 1);
        for _ in 0..if start == '{' { count / 2 * 2 } else { count } {
            self.node(rng, depth - 1);
        }
        self.letters.push(end);
    }
}

#[cfg(test)]
mod tests {
    use super::*;

    #[test]
    fn every_tree_once() {
        let trees = trees(5);
        assert_eq!(trees[1], ["a", "x", "*"]);
        assert_eq!(trees[2], ["[]", "{}"]);
        assert_eq!(trees[3], ["[a]", "[x]", "[*]"]);
        // Of the sequences nine have two scalars, and two have a collection.
        assert_eq!(trees[4].len(), 11 + 9);
        assert_eq!(trees[5].len(), 42 + 12);
        let mut all = trees.concat();
        let count = all.len();
        all.sort();
        all.dedup();
        assert_eq!(all.len(), count);
        for tree in &all {
            let answer = answers::answer(&document(tree, Markers::AtWords));
            assert_eq!(answer.returned[..2], [0, nodes(tree) as u32], "{tree}");
        }
    }

    #[test]
    fn markers_stand_at_words() {
        let case = document("{t[*S]}", Markers::AtWords);
        assert_eq!(case.text, b"{!t t [*x s ] } ");
        let starts: Vec<u32> = answers::answer(&case).records.chunks(14).map(|record| record[1]).collect();
        assert_eq!(starts, [4, 7, 10, 6, 0]);
    }
}

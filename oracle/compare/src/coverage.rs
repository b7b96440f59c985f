//! Which rows of the table, which steps of the piece grammar, which parents, which flags, which starts and which travels of the cursor the
//! answers met.

use crate::travels::Travel;
use answers::decode::{self, Body, Scalar};
use answers::parent;
use answers::record::{MEASURED, PARENT};
use answers::start::{self, Start};
use answers::travel::travel;
use framing::{Answer, Case, RECORD_NUMBERS, Record};
use saphyr_parser::ScalarStyle::{self, DoubleQuoted, Folded, Literal, SingleQuoted};

/// How often each of a list of names was met.
pub struct Coverage {
    counts: Vec<(&'static str, u64)>,
}

const NONE: u32 = u32::MAX;

const NAMES: [&str; 117] = [
    "row 0: built",
    "row 1: too long",
    "row 2: text no UTF-8",
    "row 3: malformed event",
    "row 4: end that does not match",
    "row 5: node after the root",
    "row 6: 65th open collection",
    "row 7: no room for a record",
    "row 8: no room for a piece",
    "row 9: no root, or one open",
    "panic of the original",
    "kind 1: null",
    "kind 2: boolean",
    "kind 3: integer",
    "kind 4: real",
    "kind 5: string",
    "kind 6: bad value",
    "kind 7: array",
    "kind 8: hash",
    "no tag",
    "tag found before the node",
    "tag guessed",
    "plain",
    "single-quoted",
    "double-quoted",
    "literal",
    "folded",
    "scalar of no list",
    "scalar of no pieces",
    "scalar with pieces",
    "step 1: flow break for no content",
    "step 1: flow break for one byte",
    "step 1: flow break for several bytes",
    "step 1: flow break, verbatim",
    "step 1: block break for no content",
    "step 1: block break for one byte",
    "step 1: block break for several bytes",
    "step 1: block break, verbatim",
    "step 1: block break cut by the column",
    "step 2: ''",
    "step 2: \\n",
    "step 2: \\t",
    "step 2: \\r",
    "step 2: \\0",
    "step 2: \\a",
    "step 2: \\b",
    "step 2: \\\"",
    "step 2: \\\\",
    "step 2: \\/",
    "step 2: \\x",
    "step 2: \\x cut off by the end",
    "step 2: \\u for one byte",
    "step 2: \\u for two bytes",
    "step 2: \\u for three bytes",
    "step 2: \\u with a plus",
    "step 2: \\u of a surrogate",
    "step 2: \\u that cannot be read",
    "step 2: \\u cut off by the end",
    "step 2: \\ and newline",
    "step 2: \\ and CR",
    "step 2: past the value's end",
    "step 3: one-byte character",
    "step 3: two-byte character",
    "step 3: three-byte character",
    "step 3: four-byte character",
    "step 3: blank",
    "step 3: tab",
    "step 3: quote",
    "step 3: backslash",
    "step 4: one newline",
    "step 4: several newlines",
    "parent: none, the root",
    "parent: an array, the next record",
    "parent: an array, past later children",
    "parent: a hash, the next record",
    "parent: a hash, past later children",
    "plain, measured",
    "plain, assumed",
    "single-quoted, measured",
    "single-quoted, assumed",
    "double-quoted, measured",
    "double-quoted, assumed",
    "literal, measured",
    "folded, measured",
    "alias, measured",
    "collection, measured",
    "start: on a character of one byte",
    "start: on a character of two bytes",
    "start: on a character of three bytes",
    "start: on a character of four bytes",
    "start: at the text's end, by its index",
    "start: at the text's end, by an index past it",
    "start: on a colon, not awaited",
    "start: on a colon, not plain",
    "start: on a colon, not empty",
    "start: past a colon, before a character",
    "start: past a colon, at the text's end",
    "travel: refused, a text too long",
    "travel: refused, too many markers",
    "travel: refused, both too long",
    "travel: refused, too long and no UTF-8 either",
    "travel: refused, no UTF-8",
    "travel: ASCII, no markers",
    "travel: ASCII, with markers",
    "travel: not ASCII, no markers",
    "travel: not ASCII, markers that never fall",
    "travel: not ASCII, markers that fall",
    "travel: in a text with characters of two bytes",
    "travel: in a text with characters of three bytes",
    "travel: in a text with characters of four bytes",
    "travel: 2^32 steps and more",
    "travel: a marker back",
    "travel: a marker standing still",
    "travel: a marker forward",
    "travel: a marker at an index of the text",
    "travel: a marker at the text's end, by its index",
    "travel: a marker at the text's end, by an index past it",
];

/// How the names of parents and of starts begin.
const PARENTS: &str = "parent: ";
const STARTS: &str = "start: ";

/// Where a marker lies from the one before it, and from the text's end: before, there or behind.
const WAYS: [&str; 3] = ["travel: a marker back", "travel: a marker standing still", "travel: a marker forward"];
const PLACES: [&str; 3] = [
    "travel: a marker at an index of the text",
    "travel: a marker at the text's end, by its index",
    "travel: a marker at the text's end, by an index past it",
];

impl Coverage {
    pub fn new() -> Self {
        Self { counts: NAMES.map(|name| (name, 0)).to_vec() }
    }

    /// How many of the names were never met.
    pub fn missing(&self) -> usize {
        self.counts.iter().filter(|(_, count)| *count == 0).count()
    }

    pub fn print(&self) {
        for (name, count) in &self.counts {
            let loud = if *count == 0 { "   <== NEVER MET" } else { "" };
            println!("{count:12}  {name}{loud}");
        }
    }

    pub fn add(&mut self, case: &Case, answer: &Answer) {
        let row = answer.returned[0];
        if row == Answer::PANICKED {
            return self.met("panic of the original");
        }
        self.met(NAMES[row as usize]);
        if row == 0 {
            self.add_records(case, answer);
        }
    }

    fn met(&mut self, name: &str) {
        let (_, count) = self.counts.iter_mut().find(|(other, _)| *other == name).expect("a name of the list");
        *count += 1;
    }

    /// Records stand in the order of the events that complete them.
    fn add_records(&mut self, case: &Case, answer: &Answer) {
        let (records, _) = answer.records.as_chunks::<RECORD_NUMBERS>();
        let text = str::from_utf8(&case.text).expect("the text of a built document");
        let events = decode::events(&case.events);
        let places = parent::places(&events);
        let starts = start::starts(text, &events, &places);
        let completing = events.iter().filter(|event| event.completes());
        for (number, (event, start)) in completing.zip(starts).enumerate() {
            let record = &records[number];
            self.add_record(record);
            self.add_parent(records, number);
            self.add_flag(&event.body, record[MEASURED]);
            if let (Body::Scalar(scalar), Some(start)) = (&event.body, start) {
                self.add_start(event.index, scalar, places[number].awaited, &start);
                self.add_scalar(case, answer, record, scalar);
            }
        }
    }

    fn add_parent(&mut self, records: &[Record], number: usize) {
        let parent = records[number][PARENT];
        let is_next = parent as usize == number + 1;
        self.met(match (records.get(parent as usize).map(|record| record[0]), is_next) {
            (None, _) => "parent: none, the root",
            (Some(7), true) => "parent: an array, the next record",
            (Some(7), false) => "parent: an array, past later children",
            (_, true) => "parent: a hash, the next record",
            (_, false) => "parent: a hash, past later children",
        });
    }

    fn add_flag(&mut self, body: &Body, flag: u32) {
        let node = match body {
            Body::Scalar(scalar) => style_name(scalar.style),
            Body::Alias => "alias",
            _ => "collection",
        };
        self.met(&format!("{node}, {}", if flag == 1 { "measured" } else { "assumed" }));
    }

    /// A colon is told from other characters where all but one thing is there for a step past it.
    fn add_start(&mut self, index: u32, scalar: &Scalar, awaited: bool, Start { marker, at }: &Start) {
        let is_plain = scalar.style == ScalarStyle::Plain;
        self.met(match (marker.letter, [awaited, is_plain, scalar.value.is_empty()]) {
            (Some(':'), [true, true, true]) if at.letter.is_none() => "start: past a colon, at the text's end",
            (Some(':'), [true, true, true]) => "start: past a colon, before a character",
            (Some(':'), [false, true, true]) => "start: on a colon, not awaited",
            (Some(':'), [true, false, true]) => "start: on a colon, not plain",
            (Some(':'), [true, true, false]) => "start: on a colon, not empty",
            (Some(letter), _) => match letter.len_utf8() {
                1 => "start: on a character of one byte",
                2 => "start: on a character of two bytes",
                3 => "start: on a character of three bytes",
                _ => "start: on a character of four bytes",
            },
            (None, _) if index as usize > marker.index => "start: at the text's end, by an index past it",
            (None, _) => "start: at the text's end, by its index",
        });
    }

    /// What a travel of the cursor is answered with: a row or the steps.
    pub fn add_travel(&mut self, travel: &Travel, (row, steps): (u32, u64)) {
        let text = match str::from_utf8(&travel.text) {
            Ok(text) if row == 0 => text,
            other => return self.add_refused_travel(travel, row, other.is_ok()),
        };
        self.met(match (text.is_ascii(), &travel.markers[..]) {
            (true, []) => "travel: ASCII, no markers",
            (true, _) => "travel: ASCII, with markers",
            (false, []) => "travel: not ASCII, no markers",
            (false, markers) if markers.is_sorted() => "travel: not ASCII, markers that never fall",
            (false, _) => "travel: not ASCII, markers that fall",
        });
        if text.is_ascii() {
            return;
        }
        for (bytes, number) in [(2, "two"), (3, "three"), (4, "four")] {
            if steps > 0 && text.chars().any(|letter| letter.len_utf8() == bytes) {
                self.met(&format!("travel: in a text with characters of {number} bytes"));
            }
        }
        if steps >> 32 > 0 {
            self.met("travel: 2^32 steps and more");
        }
        self.add_markers(text, &travel.markers);
    }

    fn add_refused_travel(&mut self, Travel { text, markers }: &Travel, row: u32, is_utf8: bool) {
        if row == 2 {
            return self.met("travel: refused, no UTF-8");
        }
        let too_long = |(row, _)| row == 1;
        self.met(match [travel(text, &[]), travel(&[], markers)].map(too_long) {
            [true, false] => "travel: refused, a text too long",
            [false, true] => "travel: refused, too many markers",
            _ => "travel: refused, both too long",
        });
        if !is_utf8 {
            self.met("travel: refused, too long and no UTF-8 either");
        }
    }

    /// Each kind of marker counts once.
    fn add_markers(&mut self, text: &str, markers: &[u32]) {
        let end = text.chars().count();
        let [mut ways, mut places] = [[false; 3]; 2];
        let mut before = 0;
        for marker in markers {
            let index = *marker as usize;
            ways[third(index.min(end), before)] = true;
            places[third(index, end)] = true;
            before = index.min(end);
        }
        let kinds = WAYS.into_iter().zip(ways).chain(PLACES.into_iter().zip(places));
        for (name, _) in kinds.filter(|(_, is_met)| *is_met) {
            self.met(name);
        }
    }

    /// How many parents there were, how many flags of scalars, and how many starts.
    pub fn held(&self) -> [u64; 3] {
        let [mut parents, mut flags, mut starts] = [0; 3];
        for (name, count) in &self.counts {
            if name.starts_with(PARENTS) {
                parents += count;
            } else if name.starts_with(STARTS) {
                starts += count;
            } else if ALL_STYLES.iter().any(|style| is_flag(name, style_name(*style))) {
                flags += count;
            }
        }
        [parents, flags, starts]
    }

    fn add_record(&mut self, record: &Record) {
        self.met(NAMES[10 + record[0] as usize]);
        self.met(match (record[3], record[4]) {
            (NONE, NONE) => "no tag",
            (start, end) if end <= record[1] && start < end => "tag found before the node",
            _ => "tag guessed",
        });
    }

    fn add_scalar(&mut self, case: &Case, answer: &Answer, record: &Record, scalar: &Scalar) {
        self.met(style_name(scalar.style));
        let [first, count] = [record[8], record[9]];
        if first == NONE {
            return self.met("scalar of no list");
        }
        self.met(if count == 0 { "scalar of no pieces" } else { "scalar with pieces" });
        let pieces = &answer.pieces[4 * first as usize..4 * (first + count) as usize];
        let mut content = 0;
        for piece in pieces.chunks_exact(4) {
            content += piece[3] as usize;
            let source = Source { text: &case.text, start: piece[1] as usize, end: piece[2] as usize };
            match piece[0] {
                1 => self.add_verbatim(&source, scalar.style),
                _ => self.add_replacement(&source, scalar.style, piece[3]),
            }
        }
        if content > scalar.value.len() {
            self.met("step 2: past the value's end");
        }
    }

    fn add_verbatim(&mut self, source: &Source, style: ScalarStyle) {
        let bytes = &source.text[source.start..source.end];
        for byte in bytes {
            let name = match byte {
                b' ' => "step 3: blank",
                b'\t' => "step 3: tab",
                b'\'' | b'"' => "step 3: quote",
                b'\\' => "step 3: backslash",
                b'\n' if is_block(style) => "step 1: block break, verbatim",
                b'\n' => "step 1: flow break, verbatim",
                0..0x80 => "step 3: one-byte character",
                0x80..0xC0 => continue,
                0xC0..0xE0 => "step 3: two-byte character",
                0xE0..0xF0 => "step 3: three-byte character",
                _ => "step 3: four-byte character",
            };
            self.met(name);
        }
    }

    fn add_replacement(&mut self, source: &Source, style: ScalarStyle, content: u32) {
        if source.start == source.end {
            return self.met(if content == 1 { "step 4: one newline" } else { "step 4: several newlines" });
        }
        match (style, source.byte(0)) {
            (SingleQuoted, b'\'') => self.met("step 2: ''"),
            (DoubleQuoted, b'\\') => self.add_escape(source, content),
            _ => self.add_break(source, style, content),
        }
    }

    fn add_escape(&mut self, source: &Source, content: u32) {
        let cut_off = source.end > source.text.len();
        match source.byte(1) {
            b'\n' => self.met("step 2: \\ and newline"),
            b'\r' => self.met("step 2: \\ and CR"),
            b'x' if cut_off => self.met("step 2: \\x cut off by the end"),
            b'u' if cut_off => self.met("step 2: \\u cut off by the end"),
            b'u' => self.add_unicode(source, content),
            letter => {
                let name =
                    NAMES.iter().find(|name| name.strip_prefix("step 2: \\") == Some(&(letter as char).to_string()));
                self.met(name.expect("an escape of the table"));
            }
        }
    }

    fn add_unicode(&mut self, source: &Source, content: u32) {
        let digits = str::from_utf8(&source.text[source.start + 2..source.end]).ok();
        let code = digits.and_then(|digits| u32::from_str_radix(digits, 16).ok());
        self.met(match (code, content) {
            (None, _) => "step 2: \\u that cannot be read",
            (Some(0xD800..0xE000), _) => "step 2: \\u of a surrogate",
            (_, 1) => "step 2: \\u for one byte",
            (_, 2) => "step 2: \\u for two bytes",
            _ => "step 2: \\u for three bytes",
        });
        if code.is_some() && source.byte(2) == b'+' {
            self.met("step 2: \\u with a plus");
        }
    }

    fn add_break(&mut self, source: &Source, style: ScalarStyle, content: u32) {
        self.met(match (is_block(style), content) {
            (false, 0) => "step 1: flow break for no content",
            (false, 1) => "step 1: flow break for one byte",
            (false, _) => "step 1: flow break for several bytes",
            (true, 0) => "step 1: block break for no content",
            (true, 1) => "step 1: block break for one byte",
            (true, _) => "step 1: block break for several bytes",
        });
        let next = source.text.get(source.end).copied().unwrap_or(0);
        if is_block(style) && matches!(next, 9..=13 | 32 | 133 | 160) {
            self.met("step 1: block break cut by the column");
        }
    }
}

/// 0 for less, 1 for as much, 2 for more.
fn third(index: usize, other: usize) -> usize {
    1 + usize::from(index > other) - usize::from(index < other)
}

/// A piece's part of the text; it can end past it.
struct Source<'a> {
    text: &'a [u8],
    start: usize,
    end: usize,
}

impl Source<'_> {
    fn byte(&self, place: usize) -> u8 {
        self.text.get(self.start + place).copied().unwrap_or(0)
    }
}

const ALL_STYLES: [ScalarStyle; 5] = [ScalarStyle::Plain, SingleQuoted, DoubleQuoted, Literal, Folded];

fn style_name(style: ScalarStyle) -> &'static str {
    match style {
        ScalarStyle::Plain => "plain",
        SingleQuoted => "single-quoted",
        DoubleQuoted => "double-quoted",
        Literal => "literal",
        Folded => "folded",
    }
}

/// Whether a name is that of a flag of this style.
fn is_flag(name: &str, style: &str) -> bool {
    name.strip_prefix(style).is_some_and(|said| said.starts_with(", "))
}

fn is_block(style: ScalarStyle) -> bool {
    matches!(style, Literal | Folded)
}

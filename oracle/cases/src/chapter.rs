//! Chapters of a manual: a YAML text with the events that a scanner reads from it, markers where the scanner puts them.

use crate::rng::Rng;
use crate::run::{DOUBLE_QUOTED, FOLDED, LITERAL, PLAIN, SINGLE_QUOTED, record_room};
use crate::script::Script;
use framing::Case;
use framing::event::{Event, Scalar};

/// How long the scalars of a chapter are.
#[derive(Debug, Clone, Copy, PartialEq)]
pub enum Shape {
    /// Keys, numbers, words and sentences.
    Short,
    /// Both.
    Mixed,
    /// Paragraphs of some kilobytes.
    Long,
}

/// A line of a folded scalar is about so many characters.
const LINE: usize = 72;

/// A text of at least so many bytes less one section, the events, and rooms as a caller has them: a record for each
/// node, and a piece for each eight bytes of text.
pub fn chapter(shape: Shape, script: &Script, bytes: usize, seed: u64) -> Case {
    let mut chapter =
        Chapter { rng: Rng::new(seed), script, text: String::new(), index: 0, events: Vec::new(), nodes: 0 };
    chapter.root(shape, bytes);
    let piece_room = chapter.text.len() as u32 / 8 * 4;
    let record_room = record_room(chapter.nodes);
    Case { text: chapter.text.into(), events: chapter.events, record_room, piece_room }
}

struct Chapter<'a> {
    rng: Rng,
    script: &'a Script,
    text: String,
    /// How many characters the text has.
    index: u32,
    events: Vec<u8>,
    nodes: usize,
}

impl Chapter<'_> {
    fn put(&mut self, text: &str) {
        self.text += text;
        self.index += text.chars().count() as u32;
    }

    fn complete(&mut self, event: Event) {
        event.encode(&mut self.events);
        self.nodes += 1;
    }

    /// `title: ...` and `sections:`, a sequence to the end of the text.
    fn root(&mut self, shape: Shape, bytes: usize) {
        Event::MappingStart("title".len() as u32, None).encode(&mut self.events);
        self.pair("title", |chapter| chapter.sentence(2));
        self.key("sections");
        self.put("\n");
        Event::SequenceStart(self.index, None).encode(&mut self.events);
        while self.text.len() < bytes {
            self.section(shape);
        }
        self.complete(Event::SequenceEnd(self.index));
        self.complete(Event::MappingEnd(self.index));
    }

    /// An entry of the sequence: a mapping at column 2.
    fn section(&mut self, shape: Shape) {
        self.put("- ");
        Event::MappingStart(self.index + 2, None).encode(&mut self.events);
        let number = self.rng.below(10_000).to_string();
        self.pair("id", |chapter| chapter.plain(&number));
        if shape != Shape::Long {
            self.settings();
            self.steps();
        }
        if shape != Shape::Short {
            for _ in 0..2 {
                self.put("  ");
                self.pair("text", |chapter| chapter.paragraph(shape));
            }
        }
        self.complete(Event::MappingEnd(self.index));
    }

    /// Pairs with a short value: words, numbers, truth values, quoted words.
    fn settings(&mut self) {
        for _ in 0..6 {
            let key = self.script.word(&mut self.rng).to_string();
            let word = self.script.word(&mut self.rng).to_string();
            let value = match self.rng.below(6) {
                0 => self.rng.below(100_000).to_string(),
                1 => format!("{}.{}", self.rng.below(100), self.rng.below(100)),
                2 => self.rng.pick(&["true", "false", "~", "null"]).to_string(),
                _ => word,
            };
            self.put("  ");
            self.pair(&key, |chapter| match chapter.rng.below(4) {
                0 => chapter.single_quoted(&value, 4),
                1 => chapter.double_quoted(&value, 4),
                _ => chapter.plain(&value),
            });
        }
    }

    /// `steps:`, a sequence of sentences, some of them tagged.
    fn steps(&mut self) {
        self.put("  ");
        self.key("steps");
        self.put("\n");
        Event::SequenceStart(self.index + 2, None).encode(&mut self.events);
        for _ in 0..4 {
            self.put("  - ");
            self.sentence(4);
            self.put("\n");
        }
        self.complete(Event::SequenceEnd(self.index));
    }

    /// A key, its colon, a value, and the line's end.
    fn pair(&mut self, key: &str, value: impl FnOnce(&mut Self)) {
        self.key(key);
        self.put(" ");
        value(self);
        self.put("\n");
    }

    fn key(&mut self, key: &str) {
        self.plain(key);
        self.put(":");
    }

    fn sentence(&mut self, column: usize) {
        let words = 5 + self.rng.below(10);
        let sentence = self.script.sentence(&mut self.rng, words);
        self.any_flow(&sentence, column);
    }

    fn paragraph(&mut self, shape: Shape) {
        let bytes = if shape == Shape::Long { 2_000 + self.rng.below(6_000) } else { 300 + self.rng.below(600) };
        let mut sentences = String::new();
        while sentences.len() < bytes {
            let words = 5 + self.rng.below(10);
            sentences += &self.script.sentence(&mut self.rng, words);
            sentences += " ";
        }
        let sentences = sentences.trim_end().to_string();
        match self.rng.below(2) {
            0 => self.any_flow(&sentences, 4),
            _ => self.block(&sentences, 4),
        }
    }

    fn any_flow(&mut self, value: &str, column: usize) {
        match self.rng.below(3) {
            0 => self.plain_lines(value, column),
            1 => self.single_quoted(value, column),
            _ => self.double_quoted(value, column),
        }
    }

    fn plain(&mut self, value: &str) {
        self.scalar(PLAIN, 0, value, value);
    }

    fn plain_lines(&mut self, value: &str, column: usize) {
        let source = folded(value, column);
        self.scalar(PLAIN, 0, &source, value);
    }

    /// A quote after one word in twenty.
    fn single_quoted(&mut self, value: &str, column: usize) {
        let value = self.with(value, "'");
        let source = format!("'{}'", folded(&value.replace('\'', "''"), column));
        self.scalar(SINGLE_QUOTED, 0, &source, &value);
    }

    /// A newline, a quote or a sign by its number after one word in twenty.
    fn double_quoted(&mut self, value: &str, column: usize) {
        let mark = self.rng.pick(&["\n", "\"", "\u{b0}"]);
        let value = self.with(value, mark);
        let mut source = folded(&value.replace('\n', "\\n").replace('"', "\\\""), column);
        if mark == "\u{b0}" {
            source = source.replace(mark, "\\u00B0");
        }
        self.scalar(DOUBLE_QUOTED, 0, &format!("\"{source}\""), &value);
    }

    /// The lines of a value, kept or folded. The marker stands on the first content character.
    fn block(&mut self, value: &str, column: usize) {
        let lines = folded(value, column);
        let (header, style, content) = match self.rng.below(2) {
            0 => ("|\n", LITERAL, lines.lines().map(str::trim_start).collect::<Vec<_>>().join("\n")),
            _ => (">\n", FOLDED, value.to_string()),
        };
        self.put(header);
        self.put(&" ".repeat(column));
        self.scalar(style, column as u32, &lines, &format!("{content}\n"));
    }

    fn scalar(&mut self, style: u8, column: u32, source: &str, value: &str) {
        let scalar = Scalar { index: self.index, column, style, value: value.as_bytes(), ..Scalar::default() };
        self.complete(Event::Scalar(scalar));
        self.put(source);
    }

    /// The value with a mark after one word in twenty.
    fn with(&mut self, value: &str, mark: &str) -> String {
        let mut marked = String::new();
        for (number, word) in value.split(' ').enumerate() {
            if number > 0 {
                marked.push(' ');
            }
            marked += word;
            if self.rng.once_in(20) {
                marked += mark;
            }
        }
        marked
    }
}

/// The value in lines, broken at blanks, the later ones indented.
fn folded(value: &str, column: usize) -> String {
    let mut source = String::new();
    let mut line = 0;
    for (number, word) in value.split(' ').enumerate() {
        let characters = word.chars().count();
        if number > 0 && line + characters > LINE {
            source.push('\n');
            source += &" ".repeat(column);
            line = 0;
        } else if number > 0 {
            source.push(' ');
        }
        source += word;
        line += characters + 1;
    }
    source
}

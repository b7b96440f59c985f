//! The file itself with each scalar marked where it stands: by a line of marks below each line of the file, or in colours.
//!
//! Every byte has at most one mark: a piece's before a scalar's, a scalar's before a tag's. A scalar of no bytes is marked at its
//! place, on a line of its own where that has a mark already. A hidden character is shown by its code point, and all of that is marked.

use crate::document::Document;
use crate::visible::{code_point, is_hidden};
use quarto_yaml::{PieceKind, Span};
use std::collections::HashSet;
use std::io::{self, Write};

/// What a byte of the file is.
#[derive(Clone, Copy, PartialEq)]
enum Mark {
    Nothing,
    Tag,
    /// In a scalar's span and in no piece, as a quote.
    Scalar,
    Verbatim,
    Replaced,
}

impl Mark {
    fn sign(self) -> char {
        match self {
            Mark::Nothing => ' ',
            Mark::Tag => '!',
            Mark::Scalar => '-',
            Mark::Verbatim => '=',
            Mark::Replaced => '~',
        }
    }

    /// The colour, as a terminal is told it.
    fn colour(self) -> &'static str {
        match self {
            Mark::Nothing => "0",
            Mark::Tag => "35",
            Mark::Scalar => "36",
            Mark::Verbatim => "32",
            Mark::Replaced => "30;43",
        }
    }
}

/// A scalar of no bytes.
const EMPTY: char = '.';

struct Marks {
    /// One for each byte, and for the place after the last.
    bytes: Vec<Mark>,
    /// Where scalars of no bytes stand.
    empty: HashSet<usize>,
}

impl Marks {
    fn new(document: &Document) -> Marks {
        let mut marks = Marks { bytes: vec![Mark::Nothing; document.text.len() + 1], empty: HashSet::new() };
        for tag in document.catalogue.tree().nodes().filter_map(|node| node.tag()) {
            marks.set(tag.span, Mark::Tag);
        }
        for node in document.scalars() {
            marks.set(node.span(), Mark::Scalar);
            if node.span().is_empty() {
                marks.empty.insert(node.span().start as usize);
            }
        }
        for piece in document.scalars().filter_map(|node| node.pieces()).flatten() {
            marks.set(piece.source, if piece.kind == PieceKind::Verbatim { Mark::Verbatim } else { Mark::Replaced });
        }
        marks
    }

    /// The end of a piece can lie past the text.
    fn set(&mut self, span: Span, mark: Mark) {
        let end = (span.end as usize).min(self.bytes.len());
        if let Some(bytes) = self.bytes.get_mut(span.start as usize..end) {
            bytes.fill(mark);
        }
    }
}

/// Lines of the file with the byte at which each starts; a last one of no characters, if anything stands there.
fn lines<'a>(document: &Document<'a>, marks: &Marks) -> Vec<(usize, &'a str)> {
    let mut start = 0;
    let mut lines = Vec::new();
    for line in document.text.split_inclusive('\n') {
        lines.push((start, line));
        start += line.len();
    }
    if marks.empty.contains(&start) && (document.text.is_empty() || document.text.ends_with('\n')) {
        lines.push((start, ""));
    }
    lines
}

/// How many characters stand before a line's text: its number, with at least five digits' room, and ` | `.
fn gutter(lines: usize) -> usize {
    lines.to_string().len().max(5) + 3
}

/// A line without its break, a newline with the carriage return before it. Any other carriage return is a character.
fn without_break(line: &str) -> &str {
    line.strip_suffix("\r\n").or(line.strip_suffix('\n')).unwrap_or(line)
}

/// What a character is shown as. A tab is left to the terminal.
fn cells(c: char) -> String {
    if is_hidden(c) && c != '\t' { code_point(c) } else { c.to_string() }
}

/// Writes the file with lines of marks.
pub fn write_plain(document: &Document, out: &mut dyn Write) -> io::Result<()> {
    let marks = Marks::new(document);
    let lines = lines(document, &marks);
    let gutter = gutter(lines.len());
    for (i, (start, line)) in lines.into_iter().enumerate() {
        let text: String = without_break(line).chars().map(cells).collect();
        writeln!(out, "{}", format!("{:1$} | {text}", i + 1, gutter - 3).trim_end())?;
        for signs in signs(&marks, start, line, gutter) {
            if !signs.trim_end().is_empty() {
                writeln!(out, "{:1$}| {2}", "", gutter - 2, signs.trim_end())?;
            }
        }
    }
    writeln!(out)?;
    writeln!(out, "= verbatim   ~ replaced   - in the scalar, in no piece   . scalar of no bytes   ! tag")
}

/// The marks below a line, and those of no bytes that have no room among them.
fn signs(marks: &Marks, start: usize, line: &str, gutter: usize) -> [String; 2] {
    let mut below = [String::new(), String::new()];
    let text = without_break(line).len();
    let end = (start + line.len() == marks.bytes.len() - 1 && !line.ends_with('\n')).then_some((line.len(), ' '));
    for (offset, c) in line.char_indices().chain(end) {
        let sign = marks.bytes[start + offset].sign();
        let [first, second] = match (sign, marks.empty.contains(&(start + offset))) {
            (' ', true) => [EMPTY, ' '],
            (_, true) => [sign, EMPTY],
            (_, false) => [sign, ' '],
        };
        let width = if offset < text { width(c, gutter + below[0].len()) } else { 1 };
        below[0].extend(std::iter::once(first).chain(std::iter::repeat(sign)).take(width));
        below[1].extend(std::iter::once(second).chain(std::iter::repeat(' ')).take(width));
    }
    below
}

/// How many columns a terminal gives what a character at this column is shown as.
fn width(c: char, column: usize) -> usize {
    match u32::from(c) {
        0x9 => 8 - column % 8,
        _ if is_hidden(c) => code_point(c).len(),
        0x300..=0x36F => 0,
        0x1100..=0x115F | 0x2E80..=0xA4CF | 0xAC00..=0xD7A3 | 0xF900..=0xFAFF | 0xFE30..=0xFE6F => 2,
        0xFF00..=0xFF60 | 0xFFE0..=0xFFE6 | 0x1F300..=0x1F64F | 0x1F900..=0x1F9FF | 0x20000..=0x3FFFD => 2,
        _ => 1,
    }
}

/// Writes the file in colours. A line break that is replaced shows as a blank, what has no bytes as a point.
pub fn write_coloured(document: &Document, out: &mut dyn Write) -> io::Result<()> {
    let marks = Marks::new(document);
    let lines = lines(document, &marks);
    let gutter = gutter(lines.len());
    for (i, (start, line)) in lines.into_iter().enumerate() {
        write!(out, "\x1b[2m{:1$} |\x1b[0m ", i + 1, gutter - 3)?;
        let text = without_break(line).len();
        for (offset, c) in line.char_indices() {
            write_point(&marks, start + offset, out)?;
            match (c, marks.bytes[start + offset]) {
                ('\n', Mark::Replaced) => coloured(" ", Mark::Replaced, out)?,
                _ if offset >= text => {}
                (c, Mark::Nothing) => write!(out, "{}", cells(c))?,
                (c, mark) => coloured(&cells(c), mark, out)?,
            }
        }
        if !line.ends_with('\n') {
            write_point(&marks, start + line.len(), out)?;
        }
        writeln!(out)?;
    }
    writeln!(out)?;
    for (mark, name) in [
        (Mark::Verbatim, "verbatim"),
        (Mark::Replaced, "replaced"),
        (Mark::Scalar, "in the scalar, in no piece"),
        (Mark::Tag, "tag"),
    ] {
        write!(out, "\x1b[{}m{name}\x1b[0m   ", mark.colour())?;
    }
    writeln!(out, "\x1b[7m{EMPTY}\x1b[0m scalar of no bytes")
}

fn coloured(cells: &str, mark: Mark, out: &mut dyn Write) -> io::Result<()> {
    write!(out, "\x1b[{}m{cells}\x1b[0m", mark.colour())
}

fn write_point(marks: &Marks, byte: usize, out: &mut dyn Write) -> io::Result<()> {
    match marks.empty.contains(&byte) {
        true => write!(out, "\x1b[7m{EMPTY}\x1b[0m"),
        false => Ok(()),
    }
}

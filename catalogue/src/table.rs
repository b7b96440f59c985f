//! The catalogue as a table: a row for each scalar, and one more for each further piece.

use crate::document::{Document, Stretch};
use crate::quote::{quoted, word};
use quarto_yaml::{Node, PieceKind, Span};
use std::io::{self, Write};

const HEAD: [&str; 6] = ["line:col", "kind", "span", "tag", "piece", "content"];
/// How many characters of a content are shown.
const SHOWN: usize = 60;

type Row = [String; 6];

/// Writes the table, and a line that sums it up.
pub fn write(document: &Document, out: &mut dyn Write) -> io::Result<()> {
    let mut rows = vec![HEAD.map(String::from)];
    for node in document.scalars() {
        rows.extend(rows_of(document, node));
    }
    let widths: [usize; 5] = std::array::from_fn(|i| rows.iter().map(|row| row[i].chars().count()).max().unwrap_or(0));
    for row in &rows {
        let mut line = String::new();
        for (field, width) in row.iter().zip(widths) {
            line += &format!("{field:width$}  ");
        }
        line += &row[5];
        writeln!(out, "{}", line.trim_end())?;
    }
    writeln!(out)?;
    writeln!(out, "{}", summary(document))?;
    writeln!(out, "= verbatim   ~ replaced, with the bytes that it stands for   bytes of the file, counted from 0")?;
    if document.scalars().any(|node| !node.is_measured()) {
        writeln!(out, "? span assumed: as long as the value, which could not be followed through the file")?;
    }
    Ok(())
}

fn range(span: Span) -> String {
    format!("{}..{}", span.start, span.end)
}

fn rows_of(document: &Document, node: Node) -> Vec<Row> {
    let span = node.span();
    let tag = match node.tag() {
        Some(tag) => format!("{} {}", range(tag.span), word(node.tag_suffix().unwrap_or_default())),
        None => "-".to_string(),
    };
    let assumed = if node.is_measured() { "" } else { " ?" };
    let first = [document.position(span.start).to_string(), node.kind().name().to_string(), range(span) + assumed, tag];
    let pieces = pieces(document, node);
    let mut rows = Vec::new();
    for (i, [piece, content]) in pieces.into_iter().enumerate() {
        let [at, kind, span, tag] = if i == 0 { first.clone() } else { Default::default() };
        rows.push([at, kind, span, tag, piece, content]);
    }
    rows
}

/// Each piece with its content; one line also where there is none.
fn pieces(document: &Document, node: Node) -> Vec<[String; 2]> {
    let Some(value) = document.value(node) else {
        return vec![["no list".into(), "(alias)".into()]];
    };
    let Some(stretches) = document.stretches(node) else {
        return vec![["no list".into(), shown(value)]];
    };
    if stretches.is_empty() {
        return vec![["no pieces".into(), shown(value)]];
    }
    stretches.iter().map(|stretch| [piece(stretch), shown(stretch.content)]).collect()
}

fn piece(stretch: &Stretch) -> String {
    let range = range(stretch.piece.source);
    match stretch.piece.kind {
        PieceKind::Verbatim => format!("= {range}"),
        PieceKind::Replacement => format!("~ {range} > {}", stretch.piece.content),
    }
}

/// A content between quotes, cut where it is long.
fn shown(content: &str) -> String {
    match content.char_indices().nth(SHOWN) {
        Some((cut, _)) => quoted(&content[..cut]) + " ...",
        None => quoted(content),
    }
}

fn summary(document: &Document) -> String {
    let scalars = document.scalars().count();
    let listed = document.scalars().filter(|node| node.piece_list().is_some()).count();
    let pieces = document.scalars().filter_map(|node| node.pieces()).flatten();
    let (verbatim, replaced): (Vec<_>, Vec<_>) = pieces.partition(|piece| piece.kind == PieceKind::Verbatim);
    let assumed = match document.scalars().filter(|node| !node.is_measured()).count() {
        0 => String::new(),
        1 => "; 1 span assumed".to_string(),
        assumed => format!("; {assumed} spans assumed"),
    };
    format!(
        "{scalars} scalars, {listed} with a list of pieces: {} verbatim, {} replaced{assumed}",
        verbatim.len(),
        replaced.len()
    )
}

//! The catalogue as JSON lines: one object for each node, in the order of the records, children before their collection.

use crate::document::{Document, Stretch};
use crate::quote::quoted;
use quarto_yaml::{Kind, Node, Payload, PieceKind, Span};
use std::io::{self, Write};

/// Writes a line for each node.
pub fn write(document: &Document, out: &mut dyn Write) -> io::Result<()> {
    document.catalogue.tree().nodes().try_for_each(|node| writeln!(out, "{{{}}}", fields(document, node).join(",")))
}

fn range(span: Span) -> String {
    format!("[{},{}]", span.start, span.end)
}

fn fields(document: &Document, node: Node) -> Vec<String> {
    let span = node.span();
    let position = document.position(span.start);
    let tag = node.tag().map(|tag| {
        format!("{{\"span\":{},\"suffix\":{}}}", range(tag.span), quoted(node.tag_suffix().unwrap_or_default()))
    });
    let parent = node.parent().map(|parent| parent.number().to_string());
    let mut fields = vec![
        format!("\"record\":{}", node.number()),
        format!("\"parent\":{}", parent.as_deref().unwrap_or("null")),
        format!("\"kind\":{}", quoted(node.kind().name())),
        format!("\"line\":{},\"column\":{}", position.line, position.column),
        format!("\"span\":{},\"measured\":{}", range(span), node.is_measured()),
        format!("\"tag\":{}", tag.as_deref().unwrap_or("null")),
    ];
    match node.kind() {
        Kind::Array => fields.push(format!("\"items\":{}", items(node))),
        Kind::Hash => fields.push(format!("\"pairs\":{}", pairs(node))),
        _ => fields.extend(scalar(document, node)),
    }
    fields
}

fn list(parts: impl Iterator<Item = String>) -> String {
    format!("[{}]", parts.collect::<Vec<_>>().join(","))
}

fn items(node: Node) -> String {
    list(node.children().map(|child| child.number().to_string()))
}

fn pairs(node: Node) -> String {
    list(node.pairs().map(|pair| {
        let (key, value) = (pair.key.number(), pair.value.number());
        format!("{{\"key\":{key},\"value\":{value},\"span\":{}}}", range(pair.span()))
    }))
}

/// The decoded text, none for an alias; what it resolves to, if that is true, false or an integer; the pieces.
fn scalar(document: &Document, node: Node) -> Vec<String> {
    let text = document.value(node).map(quoted);
    let mut fields = vec![format!("\"text\":{}", text.as_deref().unwrap_or("null"))];
    match node.payload() {
        Payload::Boolean(value) => fields.push(format!("\"value\":{value}")),
        Payload::Integer(value) => fields.push(format!("\"value\":{value}")),
        _ => {}
    }
    let pieces = document.stretches(node).map(|stretches| list(stretches.iter().map(piece)));
    fields.push(format!("\"pieces\":{}", pieces.as_deref().unwrap_or("null")));
    fields
}

fn piece(stretch: &Stretch) -> String {
    let kind = match stretch.piece.kind {
        PieceKind::Verbatim => "verbatim",
        PieceKind::Replacement => "replacement",
    };
    format!("{{\"kind\":\"{kind}\",\"source\":{},\"content\":{}}}", range(stretch.piece.source), stretch.piece.content)
}

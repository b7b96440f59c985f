//! From libyaml's events to those that the library takes: markers by the conventions that the original's parser.rs describes.
//!
//! A marker is on the node itself, never on its tag or anchor: a scalar's first character or quote, a flow collection's bracket, a
//! block sequence's first `-`, the colon after a block mapping's first key (its `?` where it has one). A block scalar's is on the first
//! character of its content; with no content line, on what follows, with an empty span; with nothing up to the text's end, on its
//! header. A missing value's is on its colon. README.md says what is taken where parser.rs says nothing.

use crate::libyaml::{self, EventKind, Mark, Problem, Token, TokenKind};
use quarto_yaml::{Event, Style, Tag};
use std::collections::HashMap;

const STANDARD_TAG_HANDLE: &str = "tag:yaml.org,2002:";
const BYTE_ORDER_MARK: char = '\u{feff}';

/// What libyaml says of a text: the events and tokens of its first document.
pub struct Parsed<'a> {
    text: &'a str,
    /// 1 if the text starts with a byte order mark, which libyaml does not see.
    base: usize,
    events: Vec<libyaml::Event>,
    tokens: Vec<Token>,
    /// The index at which a second document starts.
    pub second: Option<usize>,
}

/// Parses the first document of a text.
pub fn parse(text: &str) -> Result<Parsed<'_>, Problem> {
    let seen = text.strip_prefix(BYTE_ORDER_MARK).unwrap_or(text);
    let base = usize::from(seen.len() < text.len());
    let moved = |problem: Problem| problem.moved(base, text.len() - seen.len());
    let (events, second) = libyaml::first_document(seen).map_err(moved)?;
    let last = events.last().map_or(0, |event| event.end.index);
    let tokens = libyaml::tokens(seen, last).map_err(moved)?;
    Ok(Parsed { text: seen, base, events, tokens, second: second.map(|mark| base + mark.index) })
}

impl Parsed<'_> {
    /// The events in the library's conventions.
    pub fn events(&self) -> Vec<Event<'_>> {
        let mut conversion = Conversion::new(self);
        self.events.iter().map(|event| conversion.event(event)).collect()
    }
}

/// Whether an open collection is a mapping that awaits a value.
#[derive(Clone, Copy, PartialEq)]
enum Open {
    Sequence,
    Key,
    Value,
}

struct Conversion<'a> {
    parsed: &'a Parsed<'a>,
    lookup: Lookup<'a>,
    open: Vec<Open>,
}

impl<'a> Conversion<'a> {
    fn new(parsed: &'a Parsed<'a>) -> Conversion<'a> {
        Conversion { parsed, lookup: Lookup::new(parsed.text, &parsed.tokens), open: Vec::new() }
    }

    fn event(&mut self, event: &'a libyaml::Event) -> Event<'a> {
        match event.kind {
            EventKind::SequenceStart => {
                let at = self.lookup.collection(event);
                self.open.push(Open::Sequence);
                Event::SequenceStart { index: self.index(at), tag: self.lookup.tag(event.start, event.end) }
            }
            EventKind::MappingStart => {
                let at = self.lookup.collection(event);
                self.open.push(Open::Key);
                Event::MappingStart { index: self.index(at), tag: self.lookup.tag(event.start, event.end) }
            }
            EventKind::SequenceEnd => {
                self.close();
                Event::SequenceEnd { index: self.index(event.start) }
            }
            EventKind::MappingEnd => {
                self.close();
                Event::MappingEnd { index: self.index(event.start) }
            }
            EventKind::Alias => {
                self.complete();
                Event::Alias { index: self.index(event.start) }
            }
            _ => self.scalar(event),
        }
    }

    fn scalar(&mut self, event: &'a libyaml::Event) -> Event<'a> {
        let awaited = self.open.last().copied();
        self.complete();
        let token = self.lookup.scalar(event);
        let (mark, empty_span) = match (token, event.style) {
            (None, _) => (self.lookup.missing(event, awaited), true),
            (Some(token), Style::Literal | Style::Folded) => self.lookup.block(token),
            (Some(token), _) => (token.start, false),
        };
        Event::Scalar {
            index: self.index(mark),
            column: mark.column as u32,
            style: event.style,
            empty_span,
            tag: self.lookup.tag(event.start, token.map_or(event.end, |token| token.start)),
            value: &event.value,
        }
    }

    /// A text has at most 2^20 bytes: longer ones are refused before they are parsed.
    fn index(&self, mark: Mark) -> u32 {
        (self.parsed.base + mark.index) as u32
    }

    fn close(&mut self) {
        self.open.pop();
        self.complete();
    }

    /// A node is complete: a key is followed by its value, a value by the next key.
    fn complete(&mut self) {
        if let Some(open) = self.open.last_mut() {
            *open = match open {
                Open::Sequence => Open::Sequence,
                Open::Key => Open::Value,
                Open::Value => Open::Key,
            };
        }
    }
}

/// The tokens by where they start and end.
struct Lookup<'a> {
    text: &'a str,
    tokens: &'a [Token],
    /// Scalars, brackets, block starts and entries by the index of their end, which no two of one kind share.
    by_end: HashMap<(u8, usize), usize>,
    /// For each block mapping's start its colon, and for each scalar the column of the innermost block around it.
    colons: HashMap<usize, Mark>,
    columns: HashMap<usize, Option<usize>>,
    prefixes: HashMap<&'a str, &'a str>,
    /// The byte of every character, and of the end.
    bytes: Vec<usize>,
}

impl<'a> Lookup<'a> {
    fn new(text: &'a str, tokens: &'a [Token]) -> Lookup<'a> {
        let by_end = tokens.iter().enumerate().map(|(i, token)| ((token.kind as u8, token.end.index), i)).collect();
        let directives = tokens.iter().filter(|token| token.kind == TokenKind::TagDirective);
        let bytes = text.char_indices().map(|(byte, _)| byte).chain([text.len()]).collect();
        Lookup {
            text,
            tokens,
            by_end,
            colons: colons(tokens),
            columns: columns(tokens),
            prefixes: directives.map(|token| (token.handle.as_str(), token.suffix.as_str())).collect(),
            bytes,
        }
    }

    fn ending(&self, kind: TokenKind, end: Mark) -> Option<(usize, &'a Token)> {
        let i = *self.by_end.get(&(kind as u8, end.index))?;
        Some((i, &self.tokens[i]))
    }

    /// The token of a scalar that is written; a plain scalar of no characters has none.
    fn scalar(&self, event: &libyaml::Event) -> Option<&'a Token> {
        if event.style == Style::Plain && event.value.is_empty() {
            return None;
        }
        self.ending(TokenKind::Scalar, event.end).map(|(_, token)| token)
    }

    /// Where a collection starts. A single pair in a flow sequence has no token of its own and starts with its key.
    fn collection(&self, event: &libyaml::Event) -> Mark {
        let kinds: &[TokenKind] = match event.kind {
            EventKind::SequenceStart => {
                &[TokenKind::FlowSequenceStart, TokenKind::BlockSequenceStart, TokenKind::BlockEntry]
            }
            _ => &[TokenKind::FlowMappingStart, TokenKind::BlockMappingStart],
        };
        let Some((i, token)) = kinds.iter().find_map(|kind| self.ending(*kind, event.end)) else {
            return event.start;
        };
        self.colons.get(&i).copied().unwrap_or(token.start)
    }

    /// Where a node of no characters stands. (libyaml gives every place at the text's end the column 0.)
    fn missing(&self, event: &libyaml::Event, awaited: Option<Open>) -> Mark {
        let Mark { index, column } = self.indicator(event, awaited);
        if index + 1 < self.bytes.len() {
            return Mark { index, column };
        }
        let line = self.text.rfind(is_break).map_or(0, |byte| self.bytes.partition_point(|other| *other <= byte));
        Mark { index, column: index - line }
    }

    /// After its tag or anchor; for a value on its colon, for a key after its `?`.
    fn indicator(&self, event: &libyaml::Event, awaited: Option<Open>) -> Mark {
        if event.start != event.end {
            return event.end;
        }
        let after = self.tokens.partition_point(|token| token.start.index < event.start.index);
        let before = self.tokens[..after].iter().rev().find(|token| token.start != token.end);
        match (awaited, before) {
            (Some(Open::Value), Some(token)) if token.kind == TokenKind::Value => token.start,
            (Some(Open::Key), Some(token)) if token.kind == TokenKind::Key => token.end,
            _ => event.start,
        }
    }

    /// The tag written from `start` up to `end`, its handle replaced by what it stands for.
    fn tag(&self, start: Mark, end: Mark) -> Option<Tag<'a>> {
        let from = self.tokens.partition_point(|token| token.start.index < start.index);
        let mut within = self.tokens[from..].iter().take_while(|token| token.start.index < end.index);
        let token = within.find(|token| token.kind == TokenKind::Tag)?;
        let handle = match token.handle.as_str() {
            handle if self.prefixes.contains_key(handle) => self.prefixes[handle],
            "!!" => STANDARD_TAG_HANDLE,
            handle => handle,
        };
        Some(Tag { handle, suffix: &token.suffix })
    }

    /// Where a block scalar's content starts, and whether its span is empty.
    fn block(&self, token: &Token) -> (Mark, bool) {
        let header = self.bytes[token.start.index];
        let (indicators, content) = self.text[header..].split_at(header_len(&self.text[header..]));
        let explicit = indicators[1..].chars().take(2).find_map(|indicator| indicator.to_digit(10));
        let parent = self.columns[&token.start.index];
        let indent = explicit.map(|digit| parent.unwrap_or(0) + digit as usize);
        let found = first_content(content, indent);
        if found.byte == content.len() {
            return (token.start, false);
        }
        let least = parent.map_or(1, |column| column + 1);
        let column = indent.unwrap_or(found.widest.max(least));
        let index = self.bytes.partition_point(|byte| *byte < header + indicators.len() + found.byte);
        (Mark { index, column: found.column }, found.column != column)
    }
}

/// The colon after the first key of each block mapping, by the number of the mapping's token. A key after `?` has none.
fn colons(tokens: &[Token]) -> HashMap<usize, Mark> {
    let mut colons = HashMap::new();
    let mut open: Vec<Option<usize>> = Vec::new();
    for (i, token) in tokens.iter().enumerate() {
        match token.kind {
            TokenKind::BlockMappingStart => {
                let implicit = tokens.get(i + 1).is_some_and(|key| key.start == key.end);
                open.push(implicit.then_some(i));
            }
            TokenKind::BlockSequenceStart | TokenKind::FlowSequenceStart | TokenKind::FlowMappingStart => {
                open.push(None)
            }
            TokenKind::BlockEnd | TokenKind::FlowSequenceEnd | TokenKind::FlowMappingEnd => {
                open.pop();
            }
            TokenKind::Value => {
                if let Some(mapping) = open.last_mut().and_then(Option::take) {
                    colons.insert(mapping, token.start);
                }
            }
            _ => {}
        }
    }
    colons
}

/// The column of the innermost block collection around each scalar, by the scalar's index.
fn columns(tokens: &[Token]) -> HashMap<usize, Option<usize>> {
    let mut columns = HashMap::new();
    let mut open = Vec::new();
    for token in tokens {
        match token.kind {
            TokenKind::BlockSequenceStart | TokenKind::BlockMappingStart => open.push(token.start.column),
            TokenKind::BlockEnd => {
                open.pop();
            }
            TokenKind::Scalar => {
                columns.insert(token.start.index, open.last().copied());
            }
            _ => {}
        }
    }
    columns
}

/// What libyaml takes for a line break, as YAML 1.1 does.
fn is_break(c: char) -> bool {
    matches!(c, '\r' | '\n' | '\u{85}' | '\u{2028}' | '\u{2029}')
}

/// The bytes of a block scalar's header line, its break counted in.
fn header_len(text: &str) -> usize {
    let line = text.find(is_break).unwrap_or(text.len());
    line + break_len(&text[line..])
}

fn break_len(text: &str) -> usize {
    match text.chars().next() {
        _ if text.starts_with("\r\n") => 2,
        Some(c) if is_break(c) => c.len_utf8(),
        _ => 0,
    }
}

/// The first character that is neither indentation nor the break of an empty line.
struct Found {
    byte: usize,
    column: usize,
    /// The most blanks that any line up to it starts with.
    widest: usize,
}

fn first_content(text: &str, indent: Option<usize>) -> Found {
    let mut found = Found { byte: 0, column: 0, widest: 0 };
    loop {
        let blanks = text[found.byte..].bytes().take_while(|byte| *byte == b' ').count();
        found.column = indent.map_or(blanks, |indent| blanks.min(indent));
        found.widest = found.widest.max(found.column);
        found.byte += found.column;
        let passed = break_len(&text[found.byte..]);
        if passed == 0 {
            return found;
        }
        found.byte += passed;
    }
}

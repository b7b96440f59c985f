//! The calls over a text through the archive: cases of the scope document, every refusal, the room that is lent, and the cursor's travel.

use quarto_yaml::call::{EVENTS_LIMIT, MARKERS_LIMIT, TEXT_LIMIT, piece_room, record_room};
use quarto_yaml::event::{Event, Style, Tag, encode};
use quarto_yaml::record::NONE;
use quarto_yaml::{
    Kind, Payload, PieceKind, Refusal, ScalarEvent, Span, build, build_in, cursor_travel, scalar, scalar_in, scan_error,
};

fn event(index: u32, style: Style, value: &str) -> Event<'_> {
    Event::Scalar { index, column: 0, style, empty_span: false, tag: None, value }
}

fn plain(value: &str) -> Event<'_> {
    event(0, Style::Plain, value)
}

/// Kind letter, start, end and content of each piece.
type Piece = (char, u32, u32, u32);

/// The span of one scalar, and its pieces.
fn read(text: &str, index: u32, column: u32, style: Style, value: &str) -> (Span, Option<Vec<Piece>>) {
    let event = ScalarEvent { index, column, style, empty_span: false, value: value.as_bytes() };
    let scalar = scalar(text.as_bytes(), &event).unwrap();
    let short = |piece: quarto_yaml::Piece| {
        let letter = if piece.kind == PieceKind::Verbatim { 'v' } else { 'r' };
        (letter, piece.source.start, piece.source.end, piece.content)
    };
    (scalar.record.span, scalar.pieces().map(|pieces| pieces.map(short).collect()))
}

fn span(start: u32, end: u32) -> Span {
    Span { start, end }
}

#[test]
fn spans_and_pieces_of_one_scalar() {
    let folded = read("a \n  b", 0, 0, Style::Plain, "a b");
    assert_eq!(folded, (span(0, 6), Some(vec![('v', 0, 1, 1), ('r', 1, 5, 1), ('v', 5, 6, 1)])));
    let quoted = read("'it''s'", 0, 0, Style::SingleQuoted, "it's");
    assert_eq!(quoted, (span(0, 7), Some(vec![('v', 1, 3, 2), ('r', 3, 5, 1), ('v', 5, 6, 1)])));
    let escape = read("\"\\u20AC\"", 0, 0, Style::DoubleQuoted, "A");
    assert_eq!(escape, (span(0, 8), Some(vec![('r', 1, 7, 3)])));
    let block = read("a: |\n  b", 7, 2, Style::Literal, "b\n");
    assert_eq!(block, (span(7, 8), Some(vec![('v', 7, 8, 1), ('r', 8, 8, 1)])));
    assert_eq!(read("a", 0, 0, Style::Plain, "b"), (span(0, 1), None));
    assert_eq!(read("", 0, 0, Style::Plain, ""), (span(0, 0), Some(vec![])));
}

/// Escapes of YAML 1.2.2 that document 01's grammar does not have, or has otherwise: the span is found, a list is not.
#[test]
fn escapes_that_the_grammar_does_not_have() {
    let escapes = [
        ("\\e", "\u{1b}"),
        ("\\v", "\u{b}"),
        ("\\f", "\u{c}"),
        ("\\_", "\u{a0}"),
        ("\\N", "\u{85}"),
        ("\\L", "\u{2028}"),
        ("\\P", "\u{2029}"),
        ("\\U0001F600", "\u{1f600}"),
        ("a\\ b", "a b"),
        ("\\xe9", "\u{e9}"),
    ];
    for (written, value) in escapes {
        let text = format!("\"{written}\"");
        let (found, pieces) = read(&text, 0, 0, Style::DoubleQuoted, value);
        assert_eq!((found, pieces), (span(0, text.len() as u32), None), "{text}");
    }
    let (_, pieces) = read("\"\\x41\"", 0, 0, Style::DoubleQuoted, "A");
    assert_eq!(pieces.map(|pieces| pieces.len()), Some(1));
}

/// Where the value of the key `a` starts.
fn value_start(text: &str, value: Event<'_>) -> u32 {
    let events = [Event::MappingStart { index: 0, tag: None }, plain("a"), value, Event::MappingEnd { index: 0 }];
    let bytes = encode(&events).unwrap();
    build(text.as_bytes(), &bytes).unwrap().root().get("a").unwrap().span().start
}

/// Never past the text and never inside a character, wherever the marker stands; a missing value steps past its colon.
#[test]
fn every_scalar_starts_at_a_character() {
    for text in ["", "a", "a:", ":é", "é::", "€:\n", "😀 :", ":\0:", "::€"] {
        let characters: Vec<usize> = text.char_indices().map(|(byte, _)| byte).collect();
        for index in (0..characters.len() + 2).chain([u32::MAX as usize]) {
            let start = characters.get(index).copied().unwrap_or(text.len());
            for style in [Style::Plain, Style::SingleQuoted, Style::DoubleQuoted, Style::Literal, Style::Folded] {
                for value in ["", "a"] {
                    let steps = style == Style::Plain && value.is_empty() && text[start..].starts_with(':');
                    let alone = read(text, index as u32, 0, style, value).0.start;
                    let awaited = value_start(text, event(index as u32, style, value));
                    let expected = [start, start + usize::from(steps)].map(|byte| byte as u32);
                    assert_eq!([alone, awaited], expected, "{text:?} {index} {style:?} {value:?}");
                    assert!(text.is_char_boundary(awaited as usize));
                }
            }
        }
    }
}

#[test]
fn the_record_of_one_scalar() {
    let of = |value: &'static str| {
        let event =
            ScalarEvent { index: 0, column: 0, style: Style::Plain, empty_span: false, value: value.as_bytes() };
        let record = scalar(value.as_bytes(), &event).unwrap().record;
        assert_eq!((record.subtree, record.tag, record.parent, record.measured), (1, None, None, true));
        (record.kind, record.payload)
    };
    assert_eq!(of("~"), (Kind::Null, Payload::Nothing));
    assert_eq!(of("true"), (Kind::Boolean, Payload::Boolean(true)));
    assert_eq!(of("-9223372036854775808"), (Kind::Integer, Payload::Integer(i64::MIN)));
    assert_eq!(of("0o17"), (Kind::Integer, Payload::Integer(15)));
    assert_eq!(of("9223372036854775808"), (Kind::Real, Payload::Text { place: 0, len: 19 }));
    assert_eq!(of("+.nan"), (Kind::String, Payload::Text { place: 0, len: 5 }));
}

#[test]
fn one_scalar_that_is_measured_or_assumed() {
    let of = |text: &'static str, style, value: &'static str| {
        let event = ScalarEvent { index: 0, column: 0, style, empty_span: false, value: value.as_bytes() };
        let record = scalar(text.as_bytes(), &event).unwrap().record;
        assert_eq!(record.parent, None);
        record.measured
    };
    assert!(of("a", Style::Plain, "a") && !of("a", Style::Plain, "b"));
    assert!(of("a \n  b", Style::Plain, "a b") && !of("a\n\n\nb", Style::Plain, "a\n\nb"));
    assert!(of("", Style::Plain, "") && !of("", Style::DoubleQuoted, ""));
    assert!(of("'a'", Style::SingleQuoted, "a") && !of("'a", Style::SingleQuoted, "a"));
    assert!(of("\"\\e\"", Style::DoubleQuoted, "\u{1b}") && !of("\"a\\\"", Style::DoubleQuoted, "a\""));
    assert!(of("a", Style::Literal, "b") && of("", Style::Folded, "a\n"));
}

#[test]
fn one_scalar_with_more_pieces_than_the_first_room() {
    let text = format!("\"{}\"", "\\n".repeat(100));
    let (all, pieces) = read(&text, 0, 0, Style::DoubleQuoted, &"\n".repeat(100));
    assert_eq!((all, pieces.unwrap().len()), (span(0, 202), 100));
    let event =
        ScalarEvent { index: 0, column: 0, style: Style::DoubleQuoted, empty_span: false, value: &b"\n".repeat(100) };
    let mut room = [7; 4 * 99 + 3];
    assert_eq!(scalar_in(text.as_bytes(), &event, &mut room), Err(Refusal::NoPieceRoom { event: 0 }));
    assert!(room.iter().all(|number| *number == 0));
    let mut room = [7; 4 * 100];
    assert_eq!(scalar_in(text.as_bytes(), &event, &mut room).unwrap().pieces.unwrap().count, 100);
}

#[test]
fn one_scalar_is_refused() {
    let event = |value| ScalarEvent { index: 0, column: 0, style: Style::Plain, empty_span: false, value };
    let long = vec![b'a'; TEXT_LIMIT + 1];
    let longest = &long[1..];
    assert_eq!(scalar(longest, &event(longest)).unwrap().record.span, span(0, TEXT_LIMIT as u32));
    assert_eq!(scalar(&long, &event(b"")).unwrap_err(), Refusal::TooLong);
    assert_eq!(scalar(b"", &event(&long)).unwrap_err(), Refusal::TooLong);
    assert_eq!(scalar(b"\xC3", &event(b"")).unwrap_err(), Refusal::NotUtf8);
    assert_eq!(scalar(b"", &event(b"\xC3")).unwrap_err(), Refusal::NotUtf8);
}

#[test]
fn a_build_is_refused() {
    let refused = |text: &[u8], events: &[u8]| build(text, events).unwrap_err();
    let of = |events: &[Event]| refused(b"", &encode(events).unwrap());
    let sequence = Event::SequenceStart { index: 0, tag: None };
    let mapping = Event::MappingStart { index: 0, tag: None };
    assert_eq!(refused(&vec![b'a'; TEXT_LIMIT + 1], &[]), Refusal::TooLong);
    assert_eq!(refused(b"", &vec![6; EVENTS_LIMIT + 1]), Refusal::TooLong);
    assert_eq!(refused(b"\xFF", &[]), Refusal::NotUtf8);
    assert_eq!(refused(b"", &[6, 0, 4, 0, 0, 0, 0, 9, 0, 0]), Refusal::Malformed { event: 1 });
    assert_eq!(refused(b"", &[6, 0]), Refusal::Malformed { event: 0 });
    assert_eq!(of(&[sequence, Event::MappingEnd { index: 0 }]), Refusal::Mismatched { event: 1 });
    assert_eq!(of(&[mapping, plain(""), Event::MappingEnd { index: 0 }]), Refusal::Mismatched { event: 2 });
    assert_eq!(of(&[plain(""), plain("")]), Refusal::AfterRoot { event: 1 });
    assert_eq!(of(&[sequence; 65]), Refusal::TooDeep { event: 64 });
    assert_eq!(of(&[sequence; 64]), Refusal::Unfinished { events: 64 });
    assert_eq!(of(&[]), Refusal::Unfinished { events: 0 });
}

#[test]
fn a_buffer_that_is_full_or_one_short() {
    let text = b"[a, 'b''c']";
    let events = encode(&[
        Event::SequenceStart { index: 0, tag: None },
        event(1, Style::Plain, "a"),
        event(4, Style::SingleQuoted, "b'c"),
        Event::SequenceEnd { index: 10 },
    ])
    .unwrap();
    let (mut records, mut pieces) = ([9; 3 * 14], [9; 4 * 4]);
    let built = build_in(text, &events, &mut records, &mut pieces).unwrap();
    assert_eq!((built.nodes, built.pieces), (3, 4));
    assert_eq!(records[..14], [5, 1, 2, NONE, NONE, NONE, NONE, 1, 0, 1, 22, 1, 2, 1]);
    assert_eq!(records[28..], [7, 0, 11, NONE, NONE, NONE, NONE, 3, NONE, 0, 2, 0, NONE, 1]);
    assert_eq!(pieces[4..], [1, 5, 6, 1, 2, 6, 8, 1, 1, 8, 9, 1]);

    let short = build_in(text, &events, &mut records[..41], &mut pieces);
    assert_eq!(short, Err(Refusal::NoRecordRoom { event: 3 }));
    assert!(records[..41].iter().chain(&pieces).all(|number| *number == 0));
    assert_eq!(records[41], 1, "it was not lent");
    assert_eq!(build_in(text, &events, &mut records, &mut pieces[..15]), Err(Refusal::NoPieceRoom { event: 2 }));

    let mut large = ([9; 46], [9; 30]);
    build_in(text, &events, &mut large.0, &mut large.1).unwrap();
    assert_eq!((&large.0[42..], &large.1[16..]), (&[0; 4][..], &[0; 14][..]));
    let catalogue = build(text, &events).unwrap();
    assert_eq!((catalogue.records(), catalogue.pieces()), (&large.0[..42], &large.1[..16]));
}

#[test]
fn the_room_that_is_always_enough() {
    let events = encode(&[
        Event::SequenceStart { index: 0, tag: None },
        plain(""),
        Event::Alias { index: 0 },
        Event::SequenceEnd { index: 0 },
    ])
    .unwrap();
    assert_eq!(record_room(&events), 3 * 14);
    assert_eq!(piece_room(b"four", &events), 4 * (4 + 1));
    assert_eq!(record_room(&events[..events.len() - 6]), 2 * 14);
    assert_eq!(record_room(&[&events[..], &[2, 0, 3, 0, 0, 0]].concat()), 3 * 14);
    assert_eq!(record_room(&[&events[..], &[7, 0, 4, 0, 0, 0, 0]].concat()), 3 * 14);
}

/// A text in which every piece is one byte of a value.
#[test]
fn a_document_that_needs_the_whole_room() {
    let text = format!("\"{}\"", "\\n".repeat(5000));
    let value = "\n".repeat(5000);
    let events = encode(&[event(0, Style::DoubleQuoted, &value)]).unwrap();
    assert_eq!(build(text.as_bytes(), &events).unwrap().built().pieces, 5000);
}

/// Events that no parser sends: 100 scalars that all read the same escapes.
#[test]
fn scalars_that_share_bytes() {
    let text = format!("\"{}\"", "\\n".repeat(50));
    let value = "\n".repeat(50);
    let mut events = vec![Event::SequenceStart { index: 0, tag: None }];
    events.extend([event(0, Style::DoubleQuoted, &value); 100]);
    events.push(Event::SequenceEnd { index: 0 });
    let events = encode(&events).unwrap();
    let room = piece_room(text.as_bytes(), &events) / 4;
    assert_eq!(room, 102 + 100);
    assert_eq!(build(text.as_bytes(), &events).unwrap_err(), Refusal::NoPieceRoom { event: 1 + 202 / 50 });
    let mut records = vec![0; record_room(&events)];
    let built = build_in(text.as_bytes(), &events, &mut records, &mut vec![0; 4 * 5000]).unwrap();
    assert_eq!(built.pieces, 5000);
}

#[test]
fn a_tag_that_is_found_and_one_that_is_guessed() {
    let tag = |suffix| Some(Tag { handle: "!", suffix });
    let found = |text: &str, index, suffix| {
        let scalar =
            Event::Scalar { index, column: 0, style: Style::Plain, empty_span: false, tag: tag(suffix), value: "a" };
        let events = [Event::SequenceStart { index: 0, tag: None }, scalar, Event::SequenceEnd { index: 0 }];
        let bytes = encode(&events).unwrap();
        let catalogue = build(text.as_bytes(), &bytes).unwrap();
        let node = catalogue.root().item(0).unwrap();
        assert_eq!(node.tag_suffix(), Some(suffix));
        node.tag().unwrap().span
    };
    assert_eq!(found("[!tag a]", 6, "tag"), span(1, 5));
    assert_eq!(found("[a,!t b]", 6, "t"), span(6, 8));
}

#[test]
fn the_character_at_a_marker() {
    let text = "é: a".as_bytes();
    assert_eq!(scan_error(text, 0), Ok(span(0, 2)));
    assert_eq!(scan_error(text, 3), Ok(span(4, 5)));
    assert_eq!(scan_error(text, 9), Ok(span(5, 5)));
    assert_eq!(scan_error(b"\x80", 0), Err(Refusal::NotUtf8));
    assert_eq!(scan_error(&vec![b'a'; TEXT_LIMIT + 1], 0), Err(Refusal::TooLong));
}

#[test]
fn the_travel_of_the_cursor() {
    let steps = |text: &str, markers: &[u32]| cursor_travel(text.as_bytes(), markers).unwrap();
    // forward, back, and where it stands
    assert_eq!(steps("é: a", &[]), 0);
    assert_eq!(steps("é: a", &[3]), 3);
    assert_eq!(steps("é: a", &[0, 1, 3, 4]), 4);
    assert_eq!(steps("é: a", &[3, 3, 3]), 3);
    assert_eq!(steps("é: a", &[3, 1]), 3 + 2);
    assert_eq!(steps("é: a", &[4, 0, 4, 0]), 16);
    // the markers of its events: of the mapping, the key, the value and the end
    assert_eq!(steps("é: a", &[1, 0, 3, 4]), 1 + 1 + 3 + 1);
    // an index past the text is its end, so these three are one place
    assert_eq!(steps("é: a", &[9, 4, u32::MAX]), 4);
    assert_eq!(steps("é: a", &[u32::MAX, 1, 9]), 4 + 3 + 3);
    // characters, not bytes
    assert_eq!(steps("€😀", &[2, 1, 2]), 2 + 1 + 1);
    assert_eq!(steps("\u{feff}", &[1, 0, 7]), 1 + 1 + 1);
    // a text that is ASCII needs no cursor
    assert_eq!(steps("ab: c", &[5, 0, 3, u32::MAX]), 0);
    assert_eq!(steps("\u{7f}", &[1, 0]), 0);
    assert_eq!(steps("\u{80}", &[1, 0]), 2);
    assert_eq!(steps("", &[0, 5, 0, u32::MAX]), 0);
    assert_eq!(steps("", &[]), 0);
}

/// Every sequence of three markers, up to two past the text.
#[test]
fn the_travel_is_the_sum_of_the_distances() {
    for text in ["é", "aé", "é: a", "日本: ü", "a: \"\u{10ffff}\""] {
        let end = text.chars().count() as u32;
        let markers: Vec<u32> = (0..end + 3).collect();
        for first in &markers {
            for second in &markers {
                for third in &markers {
                    let [at, then, last] = [first, second, third].map(|marker| (*marker).min(end));
                    let found = cursor_travel(text.as_bytes(), &[*first, *second, *third]).unwrap();
                    let expected = u64::from(at + at.abs_diff(then) + then.abs_diff(last));
                    assert_eq!(found, expected, "{text:?} {first} {second} {third}");
                    assert!(found <= end.into() || first > second || second > third);
                }
            }
        }
    }
}

/// The longest text and the most markers, to and fro: a count of 40 bits.
#[test]
fn the_longest_travel() {
    let mut text = "é".as_bytes().to_vec();
    text.resize(TEXT_LIMIT, b'a');
    let end = TEXT_LIMIT as u32 - 1;
    let markers: Vec<u32> = [end, 0].into_iter().cycle().take(MARKERS_LIMIT).collect();
    assert_eq!(cursor_travel(&text, &markers), Ok(1_048_576 * 1_048_575));
    assert_eq!(cursor_travel(&text, &vec![end; MARKERS_LIMIT]), Ok(1_048_575));
}

#[test]
fn the_travel_is_refused() {
    let (long, many) = (vec![b'a'; TEXT_LIMIT + 1], vec![0; MARKERS_LIMIT + 1]);
    assert_eq!((long.len(), many.len()), (1_048_577, 1_048_577));
    assert_eq!(cursor_travel(&long[1..], &many[1..]), Ok(0));
    assert_eq!(cursor_travel(&long, &[]), Err(Refusal::TooLong));
    assert_eq!(cursor_travel(b"", &many), Err(Refusal::TooLong));
    assert_eq!(cursor_travel("é".as_bytes(), &many), Err(Refusal::TooLong));
    for text in [&b"\x80"[..], b"\xC3", b"a\xFF", b"\xED\xA0\x80"] {
        assert_eq!(cursor_travel(text, &[]), Err(Refusal::NotUtf8));
        assert_eq!(cursor_travel(text, &[1, 0]), Err(Refusal::NotUtf8));
        assert_eq!(cursor_travel(text, &many), Err(Refusal::TooLong), "sizes come first");
    }
    assert_eq!(cursor_travel(&vec![0xFF; TEXT_LIMIT + 1], &[]), Err(Refusal::TooLong));
    assert_eq!(cursor_travel(&vec![0xFF; TEXT_LIMIT], &[]), Err(Refusal::NotUtf8));
}

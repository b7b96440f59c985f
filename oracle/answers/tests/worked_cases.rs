//! K1 to K12 of document 01, a small input for each row of its table, the listed panic, the corpus, and document 02's (b) and (c).

use answers::answer;
use framing::event::{Event, Scalar, encode};
use framing::{Answer, Case, RECORD_NUMBERS};

const NONE: u32 = u32::MAX;

const PLAIN: u8 = 0;
const SINGLE_QUOTED: u8 = 1;
const DOUBLE_QUOTED: u8 = 2;
const LITERAL: u8 = 3;

/// Kinds of a record.
const INTEGER: u32 = 3;
const REAL: u32 = 4;
const STRING: u32 = 5;

fn case(text: &str, events: &[Event]) -> Case {
    Case { text: text.into(), events: encode(events), record_room: 1_000, piece_room: 1_000 }
}

fn scalar(style: u8, value: &str) -> Scalar<'_> {
    Scalar { style, value: value.as_bytes(), ..Scalar::default() }
}

/// The answer to a document of one scalar.
fn one_scalar(text: &str, scalar: Scalar) -> Answer {
    let answer = answer(&case(text, &[Event::Scalar(scalar)]));
    assert_eq!(answer.returned[..2], [0, 1]);
    answer
}

fn span(answer: &Answer) -> [u32; 2] {
    [answer.records[1], answer.records[2]]
}

/// The parent and the flag of a document of one scalar.
fn last_two(answer: &Answer) -> [u32; 2] {
    let [.., parent, flag] = answer.records[..] else { panic!("a record") };
    [parent, flag]
}

fn pieces(answer: &Answer) -> &[[u32; 4]] {
    answer.pieces.as_chunks().0
}

/// The kind and the payload of an untagged plain scalar.
fn resolved(value: &str) -> (u32, i64) {
    let answer = one_scalar(value, scalar(PLAIN, value));
    let [high, low] = [answer.records[10], answer.records[11]].map(i64::from);
    (answer.records[0], high << 32 | low)
}

fn kind(value: &str) -> u32 {
    resolved(value).0
}

/// The row and place of a refusal.
fn refusal(case: &Case) -> [u32; 2] {
    let answer = answer(case);
    assert!(answer.records.is_empty() && answer.pieces.is_empty());
    [answer.returned[0], answer.returned[1]]
}

#[test]
fn k1_marker_offsets() {
    for (index, offset) in [(3, 4), (9, 5)] {
        let answer = answer(&case("é: a", &[Event::Alias(index)]));
        let record = [1, offset, offset, NONE, NONE, NONE, NONE, 1, NONE, 0, 0, 0, NONE, 1];
        assert_eq!(answer.records, record);
    }
}

#[test]
fn k2_to_k6_plain_resolution() {
    assert_eq!(resolved("9223372036854775807"), (INTEGER, i64::MAX));
    assert_eq!(kind("9223372036854775808"), REAL);
    assert_eq!(resolved("-9223372036854775808"), (INTEGER, i64::MIN));
    assert_eq!(kind("0xFFFFFFFFFFFFFFFF"), STRING);
    assert_eq!(kind("+.nan"), STRING);
    assert_eq!(kind("+.inf"), REAL);
    assert_eq!(resolved("0o17"), (INTEGER, 15));
    assert_eq!(resolved("-0"), (INTEGER, 0));
    assert_eq!(resolved("007"), (INTEGER, 7));
}

#[test]
fn k7_plain_fold() {
    let answer = one_scalar("a \n  b", scalar(PLAIN, "a b"));
    assert_eq!(span(&answer), [0, 6]);
    assert_eq!(last_two(&answer), [NONE, 1]);
    assert_eq!(pieces(&answer), [[1, 0, 1, 1], [2, 1, 5, 1], [1, 5, 6, 1]]);
}

#[test]
fn k8_second_newline_without_a_run() {
    let answer = one_scalar("a\n\n\nb", scalar(PLAIN, "a\n\nb"));
    assert_eq!(span(&answer), [0, 4]);
    assert_eq!(last_two(&answer), [NONE, 0]);
    assert_eq!(pieces(&answer).last().map(|piece| piece[2]), Some(5));
}

#[test]
fn k9_single_quotes() {
    let answer = one_scalar("'it''s'", scalar(SINGLE_QUOTED, "it's"));
    assert_eq!(span(&answer), [0, 7]);
    assert_eq!(last_two(&answer), [NONE, 1]);
    assert_eq!(pieces(&answer), [[1, 1, 3, 2], [2, 3, 5, 1], [1, 5, 6, 1]]);
}

#[test]
fn k10_escape_past_the_value() {
    let answer = one_scalar(r#""\u20AC""#, scalar(DOUBLE_QUOTED, "A"));
    assert_eq!(last_two(&answer), [NONE, 1]);
    assert_eq!(pieces(&answer), [[2, 1, 7, 3]]);
}

#[test]
fn k11_block() {
    let block = Scalar { index: 7, column: 2, ..scalar(LITERAL, "b\n") };
    let answer = one_scalar("a: |\n  b", block);
    assert_eq!(span(&answer), [7, 8]);
    assert_eq!(last_two(&answer), [NONE, 1]);
    assert_eq!(pieces(&answer), [[1, 7, 8, 1], [2, 8, 8, 1]]);
}

#[test]
fn k12_tag_spans() {
    let tag_span = |text, index, suffix: &str| {
        let tagged = Scalar { index, tag: Some((b"!", suffix.as_bytes())), ..scalar(PLAIN, "a") };
        let answer = one_scalar(text, tagged);
        [answer.records[3], answer.records[4]]
    };
    assert_eq!(tag_span("[a,!t b]", 6, "t"), [6, 8]);
    assert_eq!(tag_span("[!tag a]", 6, "tag"), [1, 5]);
}

#[test]
fn rows_of_the_table() {
    let alias = [Event::Alias(0)];
    let long = "a".repeat(1_048_577);
    assert_eq!(refusal(&case(&long, &alias)), [1, 0]);

    let mut not_utf8 = case("", &alias);
    not_utf8.text.push(0x80);
    assert_eq!(refusal(&not_utf8), [2, 0]);

    let unknown_style = Event::Scalar(scalar(5, ""));
    assert_eq!(refusal(&case("", &[unknown_style])), [3, 0]);
    assert_eq!(refusal(&case("", &[Event::SequenceEnd(0)])), [4, 0]);
    assert_eq!(refusal(&case("", &[alias[0], Event::SequenceEnd(0)])), [4, 1]);

    let key_only = [Event::MappingStart(0, None), alias[0], Event::MappingEnd(0)];
    assert_eq!(refusal(&case("", &key_only)), [4, 2]);
    assert_eq!(refusal(&case("", &[alias[0], alias[0]])), [5, 1]);

    let deep = [Event::SequenceStart(0, None); 65];
    assert_eq!(refusal(&case("", &deep)), [6, 64]);
    assert_eq!(refusal(&case("", &deep[..64])), [9, 64]);

    let mut no_record = case("", &alias);
    no_record.record_room = 13;
    assert_eq!(refusal(&no_record), [7, 0]);

    let mut no_piece = case("a", &[Event::Scalar(scalar(PLAIN, "a"))]);
    no_piece.piece_room = 3;
    assert_eq!(refusal(&no_piece), [8, 0]);
    assert_eq!(refusal(&case("", &[])), [9, 0]);
}

#[test]
fn row_8_comes_before_a_later_refusal() {
    let list = [Event::MappingStart(0, None), Event::Scalar(scalar(PLAIN, "a")), Event::SequenceEnd(0)];
    let mut case = case("a", &list);
    assert_eq!(refusal(&case), [4, 2]);
    case.piece_room = 0;
    assert_eq!(refusal(&case), [8, 1]);
}

#[test]
fn the_listed_panic() {
    let answer = answer(&case("\"\\u123é\"", &[Event::Scalar(scalar(DOUBLE_QUOTED, "a"))]));
    assert_eq!(answer.returned, [Answer::PANICKED, 0, 0]);
}

#[test]
fn row_8_comes_before_a_later_panic() {
    let list = [
        Event::SequenceStart(0, None),
        Event::Scalar(scalar(SINGLE_QUOTED, "\\u")),
        Event::Scalar(scalar(DOUBLE_QUOTED, "a")),
    ];
    let mut case = case("\"\\u123é\"", &list);
    assert_eq!(refusal(&case), [Answer::PANICKED, 0]);
    case.piece_room = 0;
    assert_eq!(refusal(&case), [8, 1]);
}

#[test]
fn corpus() {
    let documents = framing::corpus::documents();
    assert_eq!(documents.len(), 91);
    let (mut leaves, mut lists) = (0, 0);
    for (text, events) in documents {
        let answer = answer(&Case { text, events, record_room: 10_000, piece_room: 10_000 });
        assert_eq!(answer.returned[0], 0);
        let (records, _) = answer.records.as_chunks::<RECORD_NUMBERS>();
        lists += records.iter().filter(|record| record[8] != NONE).count();
        leaves += records.iter().filter(|record| record[0] < 7).count();
    }
    // 440 scalars and 10 aliases.
    assert_eq!((leaves, lists), (450, 405));
}

#[test]
fn an_error_covers_one_character() {
    let indices = [0, 1, 3, 4, 9_u32];
    let events = indices.iter().flat_map(|index| index.to_be_bytes()).collect();
    let case = Case { text: "é: a".into(), events, record_room: 0, piece_room: 0 };
    assert_eq!(answers::scan_errors(&case).records.as_chunks().0, [[0, 2], [2, 3], [4, 5], [5, 5], [5, 5]]);
    let refusal = |text| answers::scan_errors(&Case { text, ..case.clone() }).returned;
    assert_eq!(refusal(b"\xc3".to_vec()), [2, 0, 0]);
    assert_eq!(refusal(vec![0xFF; 1_048_577]), [1, 0, 0]);
}

#[test]
fn flags_of_one_scalar() {
    let flag = |text: &[u8], scalar: Scalar| {
        let answer = answers::measured(&Case { text: text.into(), ..case("", &[Event::Scalar(scalar)]) });
        assert!(answer.records.len() == 1 && answer.pieces.is_empty());
        (answer.returned[0], answer.records[0])
    };
    assert_eq!(flag(b"a \n  b", scalar(PLAIN, "a b")), (0, 1));
    assert_eq!(flag(b"a\n\n\nb", scalar(PLAIN, "a\n\nb")), (0, 0));
    assert_eq!(flag("é: a".as_bytes(), Scalar { index: 3, ..scalar(PLAIN, "a") }), (0, 1));
    assert_eq!(flag(b"'it''s'", scalar(SINGLE_QUOTED, "it's")), (0, 1));
    assert_eq!(flag(b"\"a\\\"", scalar(DOUBLE_QUOTED, "a")), (0, 0));
    assert_eq!(flag(b"", scalar(LITERAL, "a")), (0, 1));
    // Rows 1, 2 and 3, in this order.
    assert_eq!(flag(&[0xFF; 1_048_577], scalar(5, "")), (1, 0));
    assert_eq!(flag(&[b'a'; 1_048_576], scalar(PLAIN, "a")), (0, 1));
    assert_eq!(flag(b"\xFF", scalar(5, "")), (2, 0));
    assert_eq!(flag(b"", Scalar { value: b"\xFF", ..scalar(5, "") }), (2, 0));
    assert_eq!(flag(b"", scalar(5, "")), (3, 0));
}

/// `{a: [b, *x], c:}` with a wrong value for `b`, so that its span is assumed, and the missing value on its colon.
#[test]
fn parents_and_flags_of_a_document() {
    let plain = |index, value| Event::Scalar(Scalar { index, ..scalar(PLAIN, value) });
    let list = [
        Event::MappingStart(0, None),
        plain(1, "a"),
        Event::SequenceStart(4, None),
        plain(5, "x"),
        Event::Alias(8),
        Event::SequenceEnd(10),
        plain(13, "c"),
        plain(14, ""),
        Event::MappingEnd(15),
    ];
    let case = case("{a: [b, *x], c:}", &list);
    let records = [
        // The value stands behind a start of eight bytes and the fourteen before a value.
        [STRING, 1, 2, NONE, NONE, NONE, NONE, 1, 0, 1, 22, 1, 6, 1],
        // `b` of value `x`: no reading.
        [STRING, 5, 6, NONE, NONE, NONE, NONE, 1, NONE, 0, 45, 1, 3, 0],
        [1, 8, 8, NONE, NONE, NONE, NONE, 1, NONE, 0, 0, 0, 3, 1],
        [7, 4, 11, NONE, NONE, NONE, NONE, 3, NONE, 0, 2, 0, 6, 1],
        [STRING, 13, 14, NONE, NONE, NONE, NONE, 1, 1, 1, 74, 1, 6, 1],
        // It steps past the colon, and has a list of no pieces.
        [1, 15, 15, NONE, NONE, NONE, NONE, 1, 2, 0, 0, 0, 6, 1],
        [8, 0, 16, NONE, NONE, NONE, NONE, 7, NONE, 0, 2, 0, NONE, 1],
    ];
    let answer = answer(&case);
    assert_eq!(answer.returned, [0, 7, 2]);
    assert_eq!(answer.records.as_chunks().0, records);
    assert_eq!(answer.pieces, [1, 1, 2, 1, 1, 13, 14, 1]);
}

#[test]
fn room_is_counted_in_fourteens() {
    let list = [Event::SequenceStart(0, None), Event::Alias(0), Event::Alias(0), Event::SequenceEnd(0)];
    let with_room = |record_room| answer(&Case { record_room, ..case("", &list) }).returned;
    assert_eq!(with_room(42), [0, 3, 0]);
    assert_eq!(with_room(41), [7, 3, 0]);
    assert_eq!(with_room(36), [7, 3, 0]);
    assert_eq!(with_room(28), [7, 3, 0]);
    assert_eq!(with_room(27), [7, 2, 0]);
    assert_eq!(with_room(13), [7, 1, 0]);
    assert_eq!(with_room(0), [7, 1, 0]);
}

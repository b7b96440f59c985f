//! The marks below a file's lines, and its colours.

use catalogue::document::with_document;
use catalogue::marked::{write_coloured, write_plain};

/// The lines below the gutter's number, without the legend.
#[track_caller]
fn plain(text: &str, expected: &[&str]) {
    let mut out = Vec::new();
    with_document(text.as_bytes(), |document| write_plain(document, &mut out)).unwrap().unwrap();
    let out = String::from_utf8(out).unwrap();
    let (lines, legend) = out.split_once("\n\n").unwrap();
    assert!(legend.starts_with("= verbatim"));
    let lines: Vec<&str> = lines.lines().map(|line| line.get(8..).unwrap_or_default()).collect();
    assert_eq!(lines, expected);
}

fn coloured(text: &str) -> String {
    let mut out = Vec::new();
    with_document(text.as_bytes(), |document| write_coloured(document, &mut out)).unwrap().unwrap();
    String::from_utf8(out).unwrap()
}

#[test]
fn a_value_of_no_bytes_at_the_end() {
    plain("a:", &["a:", "= ."]);
    plain("a:\n", &["a:", "= ."]);
    plain("? a\n", &["? a", "  =", "", "."]);
}

#[test]
fn a_value_of_no_bytes_where_the_next_key_stands() {
    plain("a: |\nb: 1\n", &["a: |", "=", "b: 1", "=  =", "."]);
}

#[test]
fn a_block_whose_last_line_has_no_newline() {
    plain("a: |\n  b", &["a: |", "=", "  b", "  ="]);
}

#[test]
fn wide_characters_and_tabs() {
    plain("日本: x", &["日本: x", "====  ="]);
    plain("a:\tb\n", &["a:\tb", "=       ="]);
    plain("\"a\tb\"\n", &["\"a\tb\"", "-========-"]);
}

/// Six digits move text, marks and tab stops alike: `b` stands at column 16.
#[test]
fn a_hundred_thousand_lines() {
    let mut out = Vec::new();
    let text = "#\n".repeat(99_999) + "a:\tb";
    with_document(text.as_bytes(), |document| write_plain(document, &mut out)).unwrap().unwrap();
    let out = String::from_utf8(out).unwrap();
    assert!(out.starts_with("     1 | #\n     2 | #\n"));
    assert!(out.contains("\n100000 | a:\tb\n       | =      =\n\n"));
}

#[test]
fn carriage_returns() {
    plain("a: b\r\n  c\r\n", &["a: b", "=  =~~", "  c", "~~="]);
}

#[test]
fn carriage_returns_that_end_no_line() {
    let lines = ["a: 'b<U+000D>c'<U+000D>", "=  ------------", "d: e<U+000D>", "=  ="];
    plain("a: 'b\rc'\r\r\nd: e\r", &lines);
}

/// Marks stand below all that a hidden character is shown as, and go on in the right column after it.
#[test]
fn hidden_characters() {
    plain("a\u{202e}b: c", &["a<U+202E>b: c", "==========  ="]);
    plain("\"\u{e0041}\tb\" # d", &["\"<U+E0041>\tb\" # d", "-================-"]);
    plain("- !t\n- \u{200b}", &["- !t", "  !!.", "- <U+200B>", "  ========"]);
    plain("\u{feff}a: b", &["<U+FEFF>a: b", "        =  ="]);
}

/// A value of no bytes has one point, however wide what stands there is.
#[test]
fn a_value_of_no_bytes_at_a_wide_place() {
    plain("a:\t\nb: c", &["a:", "= .", "b: c", "=  ="]);
}

#[test]
fn a_scalar_without_a_list() {
    plain("\"\\U0001F600\"", &["\"\\U0001F600\"", "------------"]);
}

#[test]
fn colours() {
    let out = coloured("a: !t 'b\n c'\nd:");
    let expected = [
        "\x1b[2m    1 |\x1b[0m \x1b[32ma\x1b[0m: \x1b[35m!\x1b[0m\x1b[35mt\x1b[0m \x1b[36m'\x1b[0m\x1b[32mb\x1b[0m\x1b[30;43m \x1b[0m",
        "\x1b[2m    2 |\x1b[0m \x1b[30;43m \x1b[0m\x1b[32mc\x1b[0m\x1b[36m'\x1b[0m",
        "\x1b[2m    3 |\x1b[0m \x1b[32md\x1b[0m:\x1b[7m.\x1b[0m",
    ];
    assert_eq!(out.lines().take(3).collect::<Vec<_>>(), expected);
}

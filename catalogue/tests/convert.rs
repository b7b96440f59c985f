//! Where the markers of converted events are. What is expected is read off the text by the conventions, not taken from a run.

use catalogue::convert::parse;
use quarto_yaml::{Event, Style, Tag};

fn tagged(tag: Option<Tag>) -> String {
    tag.map_or(String::new(), |tag| format!(" <{}|{}>", tag.handle, tag.suffix))
}

/// A bracket or the style's sign, the index, for a scalar the column and `e` for an empty span, the tag, the value.
fn short(event: &Event) -> String {
    match *event {
        Event::SequenceStart { index, tag } => format!("[{index}{}", tagged(tag)),
        Event::SequenceEnd { index } => format!("]{index}"),
        Event::MappingStart { index, tag } => format!("{{{index}{}", tagged(tag)),
        Event::MappingEnd { index } => format!("}}{index}"),
        Event::Alias { index } => format!("*{index}"),
        Event::Scalar { index, column, style, empty_span, tag, value } => {
            let sign = ["=", "'", "\"", "|", ">"][style as usize];
            let empty = if empty_span { "e" } else { "" };
            format!("{sign}{index}:{column}{empty}{} {}", tagged(tag), value.escape_debug())
        }
    }
}

#[track_caller]
fn check(text: &str, expected: &[&str]) {
    let parsed = parse(text).unwrap();
    let found: Vec<String> = parsed.events().iter().map(short).collect();
    assert_eq!(found, expected, "{text:?}");
}

#[test]
fn collections() {
    check("a: b\nc: d\n", &["{1", "=0:0 a", "=3:3 b", "=5:0 c", "=8:3 d", "}10"]);
    check("- a\n- b\n", &["[0", "=2:2 a", "=6:2 b", "]8"]);
    check("a:\n- b\nc: d", &["{1", "=0:0 a", "[3", "=5:2 b", "]7", "=7:0 c", "=10:3 d", "}11"]);
    check("[a, {b: c}]", &["[0", "=1:1 a", "{4", "=5:5 b", "=8:8 c", "}9", "]10"]);
    check("[a: b]", &["[0", "{1", "=1:1 a", "=4:4 b", "}5", "]5"]);
    check("? a\n: b", &["{0", "=2:2 a", "=6:2 b", "}7"]);
    check("[x]: y", &["{3", "[0", "=1:1 x", "]2", "=5:5 y", "}6"]);
    check("{a: b}: {c: d}", &["{6", "{0", "=1:1 a", "=4:4 b", "}5", "{8", "=9:9 c", "=12:12 d", "}13", "}14"]);
    check("- - a\n- b: c", &["[0", "[2", "=4:4 a", "]6", "{9", "=8:2 b", "=11:5 c", "}12", "]12"]);
}

#[test]
fn characters_are_counted() {
    check("é: ü\n€: 😀", &["{1", "=0:0 é", "=3:3 ü", "=5:0 €", "=8:3 😀", "}9"]);
}

#[test]
fn properties_are_passed_over() {
    check("!t a", &["=3:3 <!|t> a"]);
    check("&x 'a'", &["'3:3 a"]);
    check("&x !!str \"a\"", &["\"9:9 <tag:yaml.org,2002:|str> a"]);
    check("!a [!b c, *e ]", &["[3 <!|a>", "=7:7 <!|b> c", "*10", "]13"]);
    check("a: !m\n  b: c", &["{1", "=0:0 a", "{9 <!|m>", "=8:2 b", "=11:5 c", "}12", "}12"]);
    check("!!map\na: !s\n- b", &["{7 <tag:yaml.org,2002:|map>", "=6:0 a", "[12 <!|s>", "=14:2 b", "]15", "}15"]);
    check("- !s\n  - a", &["[0", "[7 <!|s>", "=9:4 a", "]10", "]10"]);
    check("!k a: b", &["{4", "=3:3 <!|k> a", "=6:6 b", "}7"]);
    check("!t |\n a\n", &["|6:1 <!|t> a\\n"]);
}

#[test]
fn tags() {
    check("!<tag:yaml.org,2002:int> 7", &["=25:25 <|tag:yaml.org,2002:int> 7"]);
    check("! a", &["=2:2 <|!> a"]);
    check("!a%21 b", &["=6:6 <!|a!> b"]);
    check("%TAG !e! tag:e,1:\n--- !e!x a", &["=27:9 <tag:e,1:|x> a"]);
    check("%TAG !! tag:e,1:\n--- !!int a", &["=27:10 <tag:e,1:|int> a"]);
    check("%TAG ! tag:e,1:\n--- !x a", &["=23:7 <tag:e,1:|x> a"]);
}

#[test]
fn nodes_of_no_characters() {
    check("a:\nb:", &["{1", "=0:0 a", "=1:1e ", "=3:0 b", "=4:1e ", "}5"]);
    check("a:   # c\nb: d", &["{1", "=0:0 a", "=1:1e ", "=9:0 b", "=12:3 d", "}13"]);
    check("{a: , b}", &["{0", "=1:1 a", "=2:2e ", "=6:6 b", "=7:7e ", "}7"]);
    check("-\n- a", &["[0", "=1:1e ", "=4:2 a", "]5"]);
    check("? a\n? b", &["{0", "=2:2 a", "=4:0e ", "=6:2 b", "=7:3e ", "}7"]);
    check("?\n: a", &["{0", "=1:1e ", "=4:2 a", "}5"]);
    check("{? , a: b}", &["{0", "=2:2e ", "=3:3e ", "=5:5 a", "=8:8 b", "}9"]);
    check("a: !t\nb: &x\n", &["{1", "=0:0 a", "=5:5e <!|t> ", "=6:0 b", "=11:5e ", "}12"]);
    check("''", &["'0:0 "]);
    check("---\n...\n", &["=4:0e "]);
}

#[test]
fn block_scalars() {
    check("|\n a\n b\n", &["|3:1 a\\nb\\n"]);
    check("a: >-  # c\n\n    b\n   \n", &["{1", "=0:0 a", ">16:4 \\nb", "}22"]);
    check("- |2\n    a\n", &["[0", "|7:2   a\\n", "]11"]);
    check("a:\n  b: |+1\n     c\n", &["{1", "=0:0 a", "{6", "=5:2 b", "|15:3   c\\n", "}19", "}19"]);
    check("a: |\n  \n", &["{1", "=0:0 a", "|3:3 ", "}8"]);
    check("a:\n- |\n  b\nc: d", &["{1", "=0:0 a", "[3", "|9:2 b\\n", "]11", "=11:0 c", "=14:3 d", "}15"]);
}

#[test]
fn block_scalars_without_content() {
    check("a: |\nb: c", &["{1", "=0:0 a", "|5:0e ", "=5:0 b", "=8:3 c", "}9"]);
    check("a: |\n    \n  # c\nb: d", &["{1", "=0:0 a", "|12:2e ", "=16:0 b", "=19:3 d", "}20"]);
    check("a: |+\n\n\n# c\nb: c", &["{1", "=0:0 a", "|8:0e \\n\\n", "=12:0 b", "=15:3 c", "}16"]);
    check("a: |+\n\n\n", &["{1", "=0:0 a", "|3:3 \\n\\n", "}8"]);
    check("a: >", &["{1", "=0:0 a", ">3:3 ", "}4"]);
    check("- |\n- >-", &["[0", "|4:0e ", ">6:2 ", "]8"]);
}

#[test]
fn byte_order_mark_and_carriage_returns() {
    check("\u{feff}a: b\nc: |\n  d", &["{2", "=1:0 a", "=4:3 b", "=6:0 c", "|13:2 d", "}14"]);
    check("a: |\r\n\r\n  b\r\nc:\r\n", &["{1", "=0:0 a", "|10:2 \\nb\\n", "=13:0 c", "=14:1e ", "}17"]);
}

#[test]
fn the_style_of_a_scalar() {
    let parsed = parse("[a, 'b', \"c\"]").unwrap();
    let events = parsed.events();
    let styles: Vec<Style> = events
        .iter()
        .filter_map(|event| match event {
            Event::Scalar { style, .. } => Some(*style),
            _ => None,
        })
        .collect();
    assert_eq!(styles, [Style::Plain, Style::SingleQuoted, Style::DoubleQuoted]);
}

#[test]
fn a_second_document() {
    assert_eq!(parse("a\n...\n").unwrap().second, None);
    assert_eq!(parse("a\n---\nb").unwrap().second, Some(2));
    assert_eq!(parse("\u{feff}a\n---\nb").unwrap().second, Some(3));
    assert!(parse("# nothing\n").unwrap().events().is_empty());
}

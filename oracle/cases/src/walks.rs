//! The walk: the pieces of a document of one scalar.

use crate::run::{DOUBLE_QUOTED, LITERAL, Run, SINGLE_QUOTED, STYLES, characters, one_scalar, opening};
use crate::{source, words};
use framing::Case;
use framing::event::Scalar;

pub fn write(run: &mut Run) {
    put_worked(run);
    let sources = words::count(&letters(0), 5);
    let values = words::count(&letters(0), 3);
    // No factor of the product divides the steps, so that they meet every style, source and value.
    for number in (0..sources * values * STYLES.len()).step_by(run.sized(12_006, 6)) {
        let style = STYLES[number % STYLES.len()];
        let number = number / STYLES.len();
        let value = words::word(&letters(style), number % values);
        let source = words::word(&letters(style), number / values);
        let (open, column) = opening(style);
        let text = format!("{open}{source}");
        run.put(&case(&text, 0, column, style, &value));
    }
    for _ in 0..run.sized(1_170, 1_000_000) {
        put_random(run);
    }
}

fn letters(style: u8) -> [&'static str; 6] {
    let quote = if style == DOUBLE_QUOTED { "\"" } else { "'" };
    ["\\", "n", quote, " ", "\n", "a"]
}

/// The worked cases of document 01, and points at which a reader goes wrong; each with every room.
fn put_worked(run: &mut Run) {
    let cases = [
        case("a \n  b", 0, 0, 0, "a b"),
        case("a\n\n\nb", 0, 0, 0, "a\n\nb"),
        case("'it''s'", 0, 0, 1, "it's"),
        case("\"\\u20AC\"", 0, 0, 2, "A"),
        case("a: |\n  b", 7, 2, 3, "b\n"),
        case("\"\\u+041\"", 0, 0, 2, "A"),
        case("\"\\u123é\"", 0, 0, 2, "a"),
        case("\"a\\x", 0, 0, 2, "ab\n"),
        case("\"a\\u", 0, 0, 2, "ab\n"),
        case("\"\\uD800\"", 0, 0, 2, "a"),
        case("a", 0, 0, 0, ""),
        case("", 0, 0, 0, ""),
        case("", 0, 0, 1, ""),
        case("é", 0, 0, 1, ""),
        case("é", 0, 0, 2, "a"),
        case("a \nb", 0, 0, 0, "a\tb"),
        case("a\n   b", 0, 2, 3, "a\n b"),
        case("a\n \n   b", 0, 2, 4, "a\n\n b"),
        case("a\n \n   b", 0, 9, 4, "a\n\n b"),
        case("a\n   b", 0, u32::MAX, 3, "a\nb"),
        case("a\n   b", 0, 0, 3, "a\nb"),
        case("a  \nb", 0, 0, 3, "a  \nb"),
        case("a  \nb", 0, 0, 0, "a  \nb"),
        case("a: |\n", 3, 0, 3, ""),
        case("a: |\n\n", 3, 0, 3, "\n"),
        case("a: >", 3, 0, 4, "\n\n"),
        case("a: |-", 3, 5, 3, "\n"),
        case("|a", 0, 0, 3, "|a"),
        case("à b", 0, 0, 0, "à b"),
        case("\"\\\n à\"", 0, 0, 2, "à"),
    ];
    for case in &cases {
        run.put(case);
        put_rooms(run, case);
    }
}

/// Rooms of 0, one short of the pieces, exact and a number more.
fn put_rooms(run: &mut Run, case: &Case) {
    let exact = 4 * answers::answer(case).returned[2];
    for piece_room in [0, exact.saturating_sub(1), exact, exact + 1] {
        run.put(&Case { piece_room, ..case.clone() });
    }
}

pub fn put_random(run: &mut Run) {
    let style = run.rng.pick(&STYLES);
    let (source, value) = source::random(&mut run.rng, style, 7);
    let before = run.rng.pick(&["", "", "- ", "é: "]);
    let header = if style >= LITERAL && run.rng.once_in(6) { run.rng.pick(&["|", ">", "|-\n", ">+\n"]) } else { "" };
    let value = if header.is_empty() { value } else { run.rng.pick(&["", "\n", "\n\n", "a"]).into() };
    let text = format!("{before}{header}{}", source::quoted(&mut run.rng, style, &source));
    let scalar = Scalar {
        index: characters(before) + u32::from(run.rng.once_in(16)),
        column: run.rng.pick(&[0, 1, 2, 2, 3, 4, 1_000, u32::MAX]),
        style,
        empty_span: run.rng.once_in(12).into(),
        tag: None,
        value: value.as_bytes(),
    };
    let mut case = one_scalar(&text, scalar);
    if run.rng.once_in(6) {
        let exact = 4 * answers::answer(&case).returned[2];
        case.piece_room = run.rng.pick(&[0, exact.saturating_sub(1), exact, exact + 3]);
    }
    run.put(&case);
}

/// White space of all kinds between letters, some of which the value lacks: breaks that few scanners would give; and escaped returns, which
/// hardly any other case has.
pub fn put_breaks(run: &mut Run) {
    let style = run.rng.pick(&STYLES);
    let source = run.rng.word(&["a", "b", "\n", "\n", " ", " ", "\t", "\r", "\\\r"], 10);
    let rng = &mut run.rng;
    let value: String = source.chars().filter(|letter| letter.is_alphabetic() || rng.once_in(2)).collect();
    let open = if style == SINGLE_QUOTED || style == DOUBLE_QUOTED { "'" } else { "" };
    let text = format!("{open}{source}");
    let column = run.rng.below(4) as u32;
    run.put(&case(&text, 0, column, style, &value));
}

fn case(text: &str, index: u32, column: u32, style: u8, value: &str) -> Case {
    let scalar = Scalar { index, column, style, value: value.as_bytes(), ..Scalar::default() };
    one_scalar(text, scalar)
}

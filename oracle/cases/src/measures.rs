//! How many bytes a scalar occupies: the span of a document of one scalar.

use crate::run::{DOUBLE_QUOTED, FOLDED, LITERAL, Run, STYLES, characters};
use crate::{source, words};
use framing::event::Scalar;

const COLUMNS: usize = 4;

pub fn write(run: &mut Run) {
    put_worked(run);
    let texts = words::count(&letters(0), 5);
    let values = words::count(&letters(0), 3);
    let cases = texts * values * STYLES.len() * COLUMNS;
    for number in (0..cases).step_by(run.sized(1_999, 1)) {
        let style = STYLES[number % STYLES.len()];
        let column = number / STYLES.len() % COLUMNS;
        let number = number / STYLES.len() / COLUMNS;
        let value = words::word(&letters(style), number % values);
        let text = words::word(&letters(style), number / values);
        put(run, &text, 0, column as u32, style, &value);
    }
    for _ in 0..run.sized(980, 500_000) {
        put_random(run);
    }
}

fn letters(style: u8) -> [&'static str; 4] {
    let quote = if style == DOUBLE_QUOTED { "\"" } else { "'" };
    ["a", " ", "\n", quote]
}

/// The worked cases of document 01, and points at which a reader goes wrong.
fn put_worked(run: &mut Run) {
    put(run, "a \n  b", 0, 0, 0, "a b");
    put(run, "a\n\n\nb", 0, 0, 0, "a\n\nb");
    put(run, "'it''s'", 0, 0, 1, "it's");
    put(run, "\"\\u20AC\"", 0, 0, 2, "A");
    put(run, "a: |\n  b", 7, 2, 3, "b\n");
    put(run, "a  b", 0, 0, 0, "a b");
    put(run, "a \u{2003}\nb", 0, 0, 0, "a b");
    put(run, "\"a\\", 0, 0, 2, "a");
    put(run, "\"a\\\"", 0, 0, 2, "a");
    put(run, "'a", 0, 0, 1, "a");
    put(run, "'é", 0, 0, 1, "a");
    put(run, "b", 1, 0, 0, "b");
    for column in [0, 1, 2, 3, 4, u32::MAX] {
        for text in
            ["a\nb", "a\n b", "a\n\u{2003}b", "a\n\u{85}b", "a\n\r\n  b\n c", " \n \n", "a \r\n\n", "a\n\t\tb\n"]
        {
            put(run, text, 0, column, LITERAL, "a\n");
            put(run, text, 0, column, FOLDED, "");
        }
    }
}

pub fn put_random(run: &mut Run) {
    let style = run.rng.pick(&STYLES);
    let (source, value) = source::random(&mut run.rng, style, 8);
    let before = run.rng.pick(&["", "", "- ", "é: "]);
    let after = run.rng.pick(&["", "", "\n", "\nb", "\n   b\n"]);
    let text = format!("{before}{}{after}", source::quoted(&mut run.rng, style, &source));
    let scalar = Scalar {
        index: characters(before) + u32::from(run.rng.once_in(16)),
        column: run.rng.pick(&[0, 1, 2, 2, 3, 4, u32::MAX]),
        style,
        empty_span: run.rng.once_in(12).into(),
        tag: None,
        value: value.as_bytes(),
    };
    run.put_scalar(&text, scalar);
}

fn put(run: &mut Run, text: &str, index: u32, column: u32, style: u8, value: &str) {
    let scalar = Scalar { index, column, style, value: value.as_bytes(), ..Scalar::default() };
    run.put_scalar(text, scalar);
}

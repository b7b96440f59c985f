//! Every byte at the places where its class is asked: white space in a break, a digit of an escape, the continuation of
//! a character. Document 02 (d) leaves each class as it was, so the original tells what is right.

use crate::run::{DOUBLE_QUOTED, Run, STYLES, ample, one_scalar, opening};
use framing::event::{Event, Scalar, encode};

pub fn write(run: &mut Run) {
    for byte in 0..=u8::MAX {
        put_continuation(run, byte);
    }
    for code in 0..=u32::from(char::MAX) {
        if let Some(letter) = char::from_u32(code).filter(|_| is_asked(code, run.full)) {
            put_white_space(run, letter);
            put_digits(run, letter);
            put_after_a_cut(run, letter);
        }
    }
}

/// Every character of one byte and of two, and of the longer ones some by each first byte that end with 85 and A0. A
/// sample has fewer of two bytes: by each first byte one, and every last byte.
fn is_asked(code: u32, full: bool) -> bool {
    match code {
        0..0x100 => true,
        0x100..0x800 => full || code % 0x40 == 0x05,
        0x800..0x1_0000 => matches!(code % 0x400, 0x05 | 0x20),
        _ => matches!(code % 0x1_0000, 0x05 | 0x20),
    }
}

/// The byte after each beginning of a character, in the text and in the value.
fn put_continuation(run: &mut Run, byte: u8) {
    for lead in [&[][..], &[0xC3], &[0xE1, 0x80], &[0xF1, 0x80, 0x80]] {
        let bytes = [lead, &[byte]].concat();
        let mut text = bytes.clone();
        text.push(b'a');
        for (index, value) in [(1, &b"a"[..]), (0, &bytes)] {
            let scalar = Scalar { index, value, ..Scalar::default() };
            run.put(&ample(text.clone(), encode(&[Event::Scalar(scalar)]), 1, value.len()));
        }
    }
}

/// Around a newline, in each style.
fn put_white_space(run: &mut Run, letter: char) {
    let sources = [
        format!("a{letter}\nb"),
        format!("a\n{letter}b"),
        format!("a {letter}\n {letter} b"),
        format!("a\\\n{letter}b"),
    ];
    let values = ["a b".into(), "a\nb".into(), "ab".into(), format!("a{letter} b"), format!("a {letter}b")];
    for style in STYLES {
        for source in &sources {
            for value in &values {
                put(run, style, source, value);
            }
        }
    }
}

/// At each place of `\x` and `\u`. What `\u` can read is three bytes of content, and what it cannot is one.
fn put_digits(run: &mut Run, letter: char) {
    for place in 0..4 {
        let mut digits = String::from("FFF");
        digits.insert(place, letter);
        for value in ["€b", "ab"] {
            put(run, DOUBLE_QUOTED, &format!("\\u{digits}b"), value);
        }
    }
    put(run, DOUBLE_QUOTED, &format!("\\x{letter}0b"), "ab");
    put(run, DOUBLE_QUOTED, &format!("\\x0{letter}b"), "ab");
}

/// `\x` takes two bytes, a part of a character if it comes to that: the walk goes on at a continuation byte.
fn put_after_a_cut(run: &mut Run, letter: char) {
    for before in ["", "1"] {
        for value in ["a b", "a\nb", "ab"] {
            put(run, DOUBLE_QUOTED, &format!("\\x{before}{letter}\nb"), value);
        }
    }
}

fn put(run: &mut Run, style: u8, source: &str, value: &str) {
    let (open, column) = opening(style);
    let scalar = Scalar { column, style, value: value.as_bytes(), ..Scalar::default() };
    run.put(&one_scalar(&format!("{open}{source}"), scalar));
}

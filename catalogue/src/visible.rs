//! Text of a file or of the command line as a terminal may have it: what it would obey, or not show, stands as `<U+001B>`.

use std::borrow::Cow;
use std::ffi::OsStr;
use std::fmt::Write;
use std::io::{self, Write as _};

/// Whether a terminal obeys a character or shows nothing of it: controls, separators of lines, format characters with those that set the
/// direction, and the rest that Unicode lets a program leave out (Cc, Zl, Zp, Cf, Default_Ignorable_Code_Point). White space is shown.
pub fn is_hidden(c: char) -> bool {
    c.is_control()
        || matches!(u32::from(c),
            0xAD | 0x34F | 0x600..=0x605 | 0x61C | 0x6DD | 0x70F | 0x890..=0x891 | 0x8E2 | 0x115F..=0x1160 | 0x17B4..=0x17B5
            | 0x180B..=0x180F | 0x200B..=0x200F | 0x2028..=0x202E | 0x2060..=0x206F | 0x3164 | 0xFE00..=0xFE0F | 0xFEFF
            | 0xFFA0 | 0xFFF0..=0xFFFB | 0x110BD | 0x110CD | 0x13430..=0x1343F | 0x1BCA0..=0x1BCA3 | 0x1D173..=0x1D17A
            | 0xE0000..=0xE0FFF)
}

/// A hidden character's code point.
pub fn code_point(c: char) -> String {
    format!("<U+{:04X}>", u32::from(c))
}

/// The text with each hidden character as its code point, on one line.
pub fn visible(text: &str) -> Cow<'_, str> {
    if !text.contains(is_hidden) {
        return Cow::Borrowed(text);
    }
    Cow::Owned(text.chars().map(|c| if is_hidden(c) { code_point(c) } else { c.to_string() }).collect())
}

/// The name of a file: visible, and each byte that is no UTF-8 as `<E9>`.
pub fn visible_name(name: &OsStr) -> String {
    let mut out = String::new();
    for chunk in name.as_encoded_bytes().utf8_chunks() {
        out += &visible(chunk.valid());
        for byte in chunk.invalid() {
            write!(out, "<{byte:02X}>").expect("a string takes every write");
        }
    }
    out
}

/// A line of the command on standard error, if that takes it.
pub fn say(words: &str) {
    let _ = writeln!(io::stderr(), "catalogue: {}", visible(words));
}

#[cfg(test)]
mod tests {
    use super::*;

    #[test]
    fn what_a_terminal_obeys_is_hidden() {
        let hidden = "\0\t\n\r\u{1b}\u{7f}\u{80}\u{85}\u{9b}\u{9f}\u{ad}\u{61c}\u{200b}\u{200d}\u{200e}\u{200f}\u{2028}\u{2029}\u{202a}\
                      \u{202e}\u{2060}\u{2066}\u{2069}\u{206f}\u{3164}\u{fe0f}\u{feff}\u{fff9}\u{e0001}\u{e0100}";
        assert!(hidden.chars().all(is_hidden));
        assert!(!" ~\u{a0}éß€日本\u{301}\u{3000}\u{2027}\u{202f}\u{fffd}\u{10ffff}😀".contains(is_hidden));
        for (first, last) in [('\0', '\x1f'), ('\x7f', '\u{9f}'), ('\u{202a}', '\u{202e}'), ('\u{2066}', '\u{2069}')] {
            assert!((first..=last).all(is_hidden));
        }
    }

    #[test]
    fn visible_text() {
        assert!(matches!(visible("a: \"\\n\" é"), Cow::Borrowed("a: \"\\n\" é")));
        assert_eq!(visible("a\u{1b}[31m\nb\u{202e}\u{e0041}"), "a<U+001B>[31m<U+000A>b<U+202E><U+E0041>");
    }

    #[cfg(unix)]
    #[test]
    fn a_name_that_is_no_utf8() {
        use std::os::unix::ffi::OsStrExt;
        assert_eq!(visible_name(OsStr::from_bytes(b"a\xE9\x1b\xC3\xA9\xF0\x9F")), "a<E9><U+001B>é<F0><9F>");
    }
}

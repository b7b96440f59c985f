//! Text between quotes, on one line, as JSON writes it.

use crate::visible::is_hidden;
use std::fmt::Write;

/// The text as a JSON string with nothing hidden in it.
pub fn quoted(text: &str) -> String {
    let mut out = String::with_capacity(text.len() + 2);
    out.push('"');
    for c in text.chars() {
        match c {
            '"' => out.push_str("\\\""),
            '\\' => out.push_str("\\\\"),
            '\n' => out.push_str("\\n"),
            '\r' => out.push_str("\\r"),
            '\t' => out.push_str("\\t"),
            _ if is_hidden(c) => {
                for unit in c.encode_utf16(&mut [0; 2]) {
                    write!(out, "\\u{unit:04x}").expect("a string takes every write");
                }
            }
            _ => out.push(c),
        }
    }
    out.push('"');
    out
}

/// The text as it is, if it is one word that has no quote, backslash or hidden character; else between quotes.
pub fn word(text: &str) -> String {
    let needs_quotes = |c: char| c.is_whitespace() || is_hidden(c) || matches!(c, '"' | '\\');
    if text.is_empty() || text.contains(needs_quotes) { quoted(text) } else { text.to_string() }
}

#[cfg(test)]
mod tests {
    use super::*;

    #[test]
    fn what_json_wants_escaped() {
        assert_eq!(
            quoted("a\"b\\c\n\r\t\u{0}\u{1b}\u{7f}\u{85}\u{2028}é€😀/"),
            r#""a\"b\\c\n\r\t\u0000\u001b\u007f\u0085\u2028é€😀/""#
        );
        assert_eq!(quoted("\u{202e}\u{200d}\u{e0041}"), r#""\u202e\u200d\udb40\udc41""#);
    }

    #[test]
    fn a_word_has_no_quotes() {
        for text in ["model", "é", "a%20b", "tag:yaml.org,2002:str", "!"] {
            assert_eq!(word(text), text);
        }
        for (text, shown) in
            [("", r#""""#), ("a b", r#""a b""#), ("a\"", r#""a\"""#), ("a\u{1b}[31m", r#""a\u001b[31m""#)]
        {
            assert_eq!(word(text), shown);
        }
    }
}

//! What a terminal would obey never reaches it, whichever part of a file or of the command line it comes from.

use std::ffi::{OsStr, OsString};
use std::fs;
use std::path::PathBuf;
use std::process::{Command, Output, Stdio};

/// Tags, values and lines with all sorts of hidden characters; what libyaml lets stand in a file, and what escapes name.
const NASTY: &str = "\
a: !x%1B%5B31m red
b: !y%0Aforged%20%20=%201..2 v
c: \"\\e[31m\\x7f\\x9b\\u202e\\u2028\\0\"
d: '\u{202a}\u{202e}\u{2066}\u{2069}\u{200e}\u{200f}\u{61c}'
e: 'x\u{2028} y\u{2029} z\u{85} w'
f: !z%E2%80%AE [\u{200b}, x\u{ad}, \u{200d}\u{fe0f}\u{2060}\u{e0041}]
g: lone\r return\r here
# in a comment: \u{202e} \u{2067} \u{85}
h: last
";

fn path(name: impl AsRef<OsStr>) -> PathBuf {
    PathBuf::from(env!("CARGO_TARGET_TMPDIR")).join(name.as_ref())
}

fn run(first: &str, file: &OsStr) -> Output {
    let mut command = Command::new(env!("CARGO_BIN_EXE_catalogue"));
    command.arg(first).arg(file).stdin(Stdio::null()).output().unwrap()
}

/// What is dangerous, as a list of its own beside the command's.
fn is_dangerous(c: char) -> bool {
    matches!(c, '\0'..='\x08' | '\x0b'..='\x1f' | '\x7f'..='\u{9f}' | '\u{ad}' | '\u{61c}' | '\u{200b}'..='\u{200f}'
        | '\u{2028}'..='\u{202e}' | '\u{2060}'..='\u{206f}' | '\u{fe00}'..='\u{fe0f}' | '\u{feff}' | '\u{e0000}'..='\u{e0fff}')
}

#[track_caller]
fn shown(form: &str, text: &str) -> String {
    let file = path(format!("nasty{form}.yaml"));
    fs::write(&file, text).unwrap();
    let output = run(form, file.as_os_str());
    assert!(output.status.success() && output.stderr.is_empty(), "{output:?}");
    let out = String::from_utf8(output.stdout).unwrap();
    assert!(!out.contains(is_dangerous), "{out:?}");
    out
}

/// The row of a table at this place of the file, its fields one blank apart.
fn row(table: &str, at: &str) -> String {
    let line = table.lines().find(|line| line.starts_with(&format!("{at} "))).unwrap();
    line.split_whitespace().collect::<Vec<_>>().join(" ")
}

#[test]
fn in_the_table() {
    let out = shown("--table", NASTY);
    assert!(!out.contains('\t'));
    assert_eq!(row(&out, "1:16"), r#"1:16 string 15..18 3..14 "x\u001b[31m" = 15..18 "red""#);
    assert!(row(&out, "2:30").contains(r#"22..47 "y\nforged = 1..2" = 48..49 "v""#));
    assert!(row(&out, "3:4").ends_with(r#" - no list "\u001b[31m\u007f\u009b\u202e\u2028\u0000""#));
    assert!(out.contains(r#""\u202a\u202e\u2066\u2069\u200e\u200f\u061c""#));
    assert!(out.contains(r#""x\u2028y\u2029z w""#));
    assert!(out.contains(r#""\u200d\ufe0f\u2060\udb40\udc41""#));
    // a line for each scalar, the head, the sum and the two of the legend: the span at 7:4 is assumed
    assert!(row(&out, "7:4").contains(" ? "));
    assert_eq!(out.lines().count(), 18 + 5);
}

#[test]
fn in_json() {
    let out = shown("--json", NASTY);
    assert!(out.contains(r#""tag":{"span":[3,14],"suffix":"x\u001b[31m"}"#));
    assert!(out.contains(r#""suffix":"z\u202e""#));
    assert!(out.lines().all(|line| line.starts_with("{\"record\":") && line.ends_with('}')));
}

#[test]
fn in_the_marked_file() {
    let out = shown("--marked", NASTY);
    let expected = [
        r#"    1 | a: !x%1B%5B31m red"#,
        r#"      | =  !!!!!!!!!!! ==="#,
        r#"    2 | b: !y%0Aforged%20%20=%201..2 v"#,
        r#"      | =  !!!!!!!!!!!!!!!!!!!!!!!!! ="#,
        r#"    3 | c: "\e[31m\x7f\x9b\u202e\u2028\0""#,
        r#"      | =  ------------------------------"#,
        r#"    4 | d: '<U+202A><U+202E><U+2066><U+2069><U+200E><U+200F><U+061C>'"#,
        r#"      | =  -========================================================-"#,
        r#"    5 | e: 'x<U+2028> y<U+2029> z<U+0085> w'"#,
        r#"      | =  ---------------------------------"#,
        r#"    6 | f: !z%E2%80%AE [<U+200B>, x<U+00AD>, <U+200D><U+FE0F><U+2060><U+E0041>]"#,
        r#"      | =  !!!!!!!!!!!  ========  =========  ================================="#,
        r#"    7 | g: lone<U+000D> return<U+000D> here"#,
        r#"      | =  ------------------------------"#,
        r#"    8 | # in a comment: <U+202E> <U+2067> <U+0085>"#,
        r#"    9 | h: last"#,
        r#"      | =  ===="#,
    ];
    assert_eq!(out.lines().take(expected.len()).collect::<Vec<_>>(), expected);
}

/// The line on standard output has numbers alone.
#[test]
fn in_the_travel() {
    let out = shown("travel", NASTY);
    let numbers = out.strip_suffix(" characters\n").and_then(|rest| rest.split_once(" steps, ")).unwrap();
    assert!([numbers.0, numbers.1].iter().all(|number| number.bytes().all(|byte| byte.is_ascii_digit())), "{out:?}");
    assert_eq!(numbers.1, NASTY.chars().count().to_string());
}

/// In colours, as on a terminal: no escape but those that set a colour.
#[test]
fn in_colours() {
    let mut out = Vec::new();
    let write = |document: &catalogue::document::Document| catalogue::marked::write_coloured(document, &mut out);
    catalogue::document::with_document(NASTY.as_bytes(), write).unwrap().unwrap();
    let out = String::from_utf8(out).unwrap();
    let rest: String = ["2", "0", "7", "32", "35", "36", "30;43"]
        .iter()
        .fold(out, |rest, colour| rest.replace(&format!("\x1b[{colour}m"), ""));
    assert!(!rest.contains(is_dangerous), "{rest:?}");
    assert!(rest.contains("    4 | d: '<U+202A><U+202E><U+2066><U+2069><U+200E><U+200F><U+061C>'\n"));
    assert!(rest.contains("    7 | g: lone<U+000D> return<U+000D> here\n"));
}

#[track_caller]
fn refused(name: &OsStr, expected: &str) {
    for first in ["--table", "--json", "--marked", "travel"] {
        let output = run(first, name);
        assert_eq!((output.status.code(), output.stdout.len()), (Some(1), 0));
        let line = String::from_utf8(output.stderr).unwrap();
        assert!(line.ends_with(expected), "{line:?}");
        let line = line.strip_suffix('\n').unwrap();
        assert!(!line.contains('\n') && !line.contains(is_dangerous), "{line:?}");
    }
}

/// Controls that libyaml does not let stand in a file, and words of the file beside what is wrong with it.
#[test]
fn in_what_is_wrong_with_a_file() {
    for control in ["\0", "\x07", "\x1b[31m", "\x7f", "\u{80}", "\u{9b}31m"] {
        let file = path("control.yaml");
        fs::write(&file, format!("a: {control}b\n")).unwrap();
        refused(file.as_os_str(), ":1:4: control characters are not allowed\n");
    }
    let file = path("handle.yaml");
    fs::write(&file, "a: !\u{202e}!b c").unwrap();
    refused(file.as_os_str(), ":1:5: while scanning a tag: did not find expected whitespace or line break\n");
}

#[test]
fn in_the_name_of_a_file() {
    let file = path("e\x1b[31m\u{202e}.yaml");
    fs::write(&file, "[").unwrap();
    refused(
        file.as_os_str(),
        "/e<U+001B>[31m<U+202E>.yaml:1:2: while parsing a flow node: did not find expected node content\n",
    );
    refused(
        path("\r\u{9b}").as_os_str(),
        "/<U+000D><U+009B>: cannot be read: No such file or directory (os error 2)\n",
    );
}

#[cfg(unix)]
#[test]
fn in_a_name_that_is_no_utf8() {
    use std::os::unix::ffi::OsStringExt;
    let name = path(OsString::from_vec(b"\xE9\x1b".to_vec()));
    refused(name.as_os_str(), "/<E9><U+001B>: cannot be read: No such file or directory (os error 2)\n");
}

#[cfg(unix)]
#[test]
fn in_an_option_that_is_no_utf8() {
    use std::os::unix::ffi::OsStringExt;
    for name in ["show", "travel"] {
        let output = run(name, &OsString::from_vec(b"-\xE9\x1b".to_vec()));
        assert_eq!((output.status.code(), output.stdout.len()), (Some(2), 0));
        let line = format!("catalogue: {name} has no option -<E9><U+001B>; {name} --help says more\n");
        assert_eq!(String::from_utf8(output.stderr).unwrap(), line);
    }
}

//! The command as a user runs it: the shipped chapter in every form, how far the cursor travels, what it says of files that have no
//! catalogue, and its subcommands.

use catalogue::convert::parse;
use std::fs;
use std::io::Write;
use std::path::PathBuf;
use std::process::{Command, Output, Stdio};

fn command(arguments: &[&str]) -> Command {
    let mut command = Command::new(env!("CARGO_BIN_EXE_catalogue"));
    command.args(arguments).stdin(Stdio::null());
    command
}

fn run(arguments: &[&str]) -> Output {
    command(arguments).output().unwrap()
}

/// What it writes on standard output.
#[track_caller]
fn shown(arguments: &[&str]) -> String {
    written(run(arguments))
}

#[track_caller]
fn written(output: Output) -> String {
    assert!(output.status.success() && output.stderr.is_empty(), "{output:?}");
    String::from_utf8(output.stdout).unwrap()
}

/// What it writes on standard output where no file is given, after it has said so.
#[track_caller]
fn shown_without_file(arguments: &[&str], input: &[u8]) -> String {
    let output = run_with_input(arguments, input);
    assert!(output.status.success(), "{output:?}");
    let line = "catalogue: no FILE is given: this is examples/chapter.yaml; FILE - reads standard input\n";
    assert_eq!(String::from_utf8(output.stderr).unwrap(), line);
    String::from_utf8(output.stdout).unwrap()
}

fn run_with_input(arguments: &[&str], input: &[u8]) -> Output {
    let mut command = command(arguments);
    command.stdin(Stdio::piped()).stdout(Stdio::piped()).stderr(Stdio::piped());
    let mut child = command.spawn().unwrap();
    // it need not read all of it, or any
    let _ = child.stdin.take().unwrap().write_all(input);
    child.wait_with_output().unwrap()
}

/// A file of the tests' own.
fn file(name: &str, bytes: &[u8]) -> String {
    let folder = PathBuf::from(env!("CARGO_TARGET_TMPDIR"));
    let path = folder.join(name);
    fs::write(&path, bytes).unwrap();
    path.into_os_string().into_string().unwrap()
}

/// The forms of `show`.
const FORMS: [&str; 3] = ["--table", "--json", "--marked"];

/// Exit status 1, nothing on standard output, and one line on standard error, by every subcommand: what follows the file's name.
#[track_caller]
fn refused(name: &str, bytes: &[u8]) -> String {
    let words = refused_after(&["travel"], name, bytes);
    assert_eq!(refused_after(&FORMS, name, bytes), words);
    words
}

/// The same after each of these first arguments.
#[track_caller]
fn refused_after(firsts: &[&str], name: &str, bytes: &[u8]) -> String {
    let path = file(name, bytes);
    let mut words = Vec::new();
    for first in firsts {
        let output = run(&[first, &path]);
        assert_eq!(output.status.code(), Some(1));
        assert!(output.stdout.is_empty());
        let line = String::from_utf8(output.stderr).unwrap();
        assert_eq!(line.matches('\n').count(), 1, "{line}");
        let rest = line.strip_prefix(&format!("catalogue: {path}:")).expect(&line);
        words.push(rest.trim_end().to_string());
    }
    assert!(words.iter().all(|other| *other == words[0]));
    words.swap_remove(0)
}

const CHAPTER: &str = concat!(env!("CARGO_MANIFEST_DIR"), "/../examples/chapter.yaml");

#[test]
fn the_chapter_as_a_table() {
    let golden = include_str!("golden/chapter.table.txt");
    assert_eq!(shown_without_file(&[], b""), golden);
    assert_eq!(shown_without_file(&["--table"], b""), golden);
    assert_eq!(shown_without_file(&["show"], b""), golden);
    assert_eq!(shown(&[CHAPTER]), golden);
    assert_eq!(shown(&["show", "--table", CHAPTER]), golden);
}

#[test]
fn the_chapter_as_json_lines() {
    let golden = include_str!("golden/chapter.jsonl");
    assert_eq!(shown_without_file(&["--json"], b""), golden);
    assert_eq!(shown(&[CHAPTER, "--json"]), golden);
    assert_eq!(shown(&["show", CHAPTER, "--json"]), golden);
}

#[test]
fn the_chapter_marked() {
    let golden = include_str!("golden/chapter.marked.txt");
    assert_eq!(shown_without_file(&["--marked"], b""), golden);
    assert_eq!(shown(&["--marked", "--", CHAPTER]), golden);
    assert_eq!(shown(&["show", "--marked", "--", CHAPTER]), golden);
}

/// Two blank lines inside a plain scalar: its span is the value's length, four bytes of the seven.
const ASSUMED: &[u8] = b"a: x\n\n\n  y\nb: 'z'\n";

#[test]
fn an_assumed_span_in_the_table() {
    let expected = r#"line:col  kind    span    tag  piece       content
1:1       string  0..1    -    = 0..1      "a"
1:4       string  3..7 ?  -    = 3..4      "x"
                               ~ 4..9 > 2  "\n\n"
                               = 9..10     "y"
5:1       string  11..12  -    = 11..12    "b"
5:4       string  14..17  -    = 15..16    "z"

4 scalars, 4 with a list of pieces: 5 verbatim, 1 replaced; 1 span assumed
= verbatim   ~ replaced, with the bytes that it stands for   bytes of the file, counted from 0
? span assumed: as long as the value, which could not be followed through the file
"#;
    assert_eq!(shown(&[&file("assumed.yaml", ASSUMED)]), expected);
    let two = shown(&[&file("assumed-two.yaml", b"- a\n\n\n  b\n- c\n\n\n  d\n")]);
    assert!(two.contains("; 2 spans assumed\n"));
}

#[test]
fn an_assumed_span_in_json_lines() {
    let expected = r#"{"record":0,"parent":4,"kind":"string","line":1,"column":1,"span":[0,1],"measured":true,"tag":null,"text":"a","pieces":[{"kind":"verbatim","source":[0,1],"content":1}]}
{"record":1,"parent":4,"kind":"string","line":1,"column":4,"span":[3,7],"measured":false,"tag":null,"text":"x\n\ny","pieces":[{"kind":"verbatim","source":[3,4],"content":1},{"kind":"replacement","source":[4,9],"content":2},{"kind":"verbatim","source":[9,10],"content":1}]}
{"record":2,"parent":4,"kind":"string","line":5,"column":1,"span":[11,12],"measured":true,"tag":null,"text":"b","pieces":[{"kind":"verbatim","source":[11,12],"content":1}]}
{"record":3,"parent":4,"kind":"string","line":5,"column":4,"span":[14,17],"measured":true,"tag":null,"text":"z","pieces":[{"kind":"verbatim","source":[15,16],"content":1}]}
{"record":4,"parent":null,"kind":"hash","line":1,"column":1,"span":[0,18],"measured":true,"tag":null,"pairs":[{"key":0,"value":1,"span":[0,7]},{"key":2,"value":3,"span":[11,17]}]}
"#;
    assert_eq!(shown(&["--json", &file("assumed-json.yaml", ASSUMED)]), expected);
}

#[test]
fn standard_input() {
    let expected = "{\"record\":0,\"parent\":null,\"kind\":\"integer\",\"line\":1,\"column\":1,\"span\":[0,1],\"measured\":true,\
                    \"tag\":null,\"text\":\"7\",\"value\":7,\"pieces\":[{\"kind\":\"verbatim\",\"source\":[0,1],\"content\":1}]}\n";
    for arguments in [["--json", "-"], ["-", "--json"]] {
        let output = run_with_input(&arguments, b"7");
        assert!(output.status.success() && output.stderr.is_empty(), "{output:?}");
        assert_eq!(String::from_utf8(output.stdout).unwrap(), expected);
    }
    let refused = run_with_input(&["-"], b"[");
    let line = "catalogue: standard input:1:2: while parsing a flow node: did not find expected node content\n";
    assert_eq!((refused.status.code(), String::from_utf8(refused.stderr).unwrap().as_str()), (Some(1), line));
}

/// A file that is piped in and not asked for is not read, and not passed over without a word.
#[test]
fn standard_input_without_a_file() {
    assert_eq!(shown_without_file(&[], b"7"), include_str!("golden/chapter.table.txt"));
    assert_eq!(shown_without_file(&["--json"], b"["), include_str!("golden/chapter.jsonl"));
}

/// The distances from one marker of a text's events to the next, from the text's start, and its characters.
fn travel_of(text: &str) -> String {
    let parsed = parse(text).unwrap();
    let (mut at, mut steps) = (0, 0);
    for event in parsed.events() {
        steps += u64::from(event.index().abs_diff(at));
        at = event.index();
    }
    format!("{steps} steps, {} characters\n", text.chars().count())
}

#[test]
fn the_travel_of_the_chapter() {
    let text = fs::read_to_string(CHAPTER).unwrap();
    let line = travel_of(&text);
    assert_eq!(line, "713 steps, 699 characters\n");
    assert_eq!(shown(&["travel", CHAPTER]), line);
    assert_eq!(shown_without_file(&["travel"], b"7"), line);
}

/// What is expected is read off the text by the conventions: marker by marker the distances, and the characters.
#[test]
fn the_travel_of_a_file() {
    let files = [
        ("é: a", 1 + 1 + 3 + 1, 4),
        ("é: ü\n€: 😀", 1 + 1 + 3 + 2 + 3 + 1, 9),
        ("[é, {b: c}]", 1 + 3 + 1 + 3 + 1 + 1, 11),
        ("é:\n  b: c\n", 1 + 1 + 6 + 1 + 3 + 2, 10),
        ("- &x é\n- *x\n", 5 + 4 + 3, 12),
        ("\u{feff}a: b", 2 + 1 + 3 + 1, 5),
        ("é", 0, 1),
    ];
    for (i, (text, steps, characters)) in files.into_iter().enumerate() {
        let line = format!("{steps} steps, {characters} characters\n");
        assert_eq!(travel_of(text), line, "{text}");
        assert_eq!(shown(&["travel", &file(&format!("travel-{i}.yaml"), text.as_bytes())]), line);
        assert_eq!(written(run_with_input(&["travel", "-"], text.as_bytes())), line);
    }
    let ascii = "a:\n  b: c\n";
    assert_eq!(travel_of(ascii), "14 steps, 10 characters\n");
    assert_eq!(shown(&["travel", &file("travel-ascii.yaml", ascii.as_bytes())]), "0 steps, 10 characters\n");
}

#[cfg(target_os = "linux")]
#[test]
fn standard_output_that_is_full() {
    for arguments in [&["--help"][..], &["show", CHAPTER], &["travel", CHAPTER]] {
        let full = fs::File::options().write(true).open("/dev/full").unwrap();
        let output = command(arguments).stdout(full).stderr(Stdio::piped()).output().unwrap();
        let line = "catalogue: standard output: No space left on device (os error 28)\n";
        assert_eq!((output.status.code(), String::from_utf8(output.stderr).unwrap().as_str()), (Some(1), line));
    }
}

#[test]
fn a_reader_that_goes_away() {
    let path = file("long.yaml", "- a\n".repeat(100_000).as_bytes());
    let mut child = command(&["--json", &path]).stdout(Stdio::piped()).stderr(Stdio::piped()).spawn().unwrap();
    drop(child.stdout.take());
    let output = child.wait_with_output().unwrap();
    assert!(output.status.success() && output.stderr.is_empty(), "{output:?}");
}

#[test]
fn bad_yaml() {
    assert_eq!(
        refused("bracket.yaml", b"a:\n  [b, c\n"),
        "3:1: while parsing a flow sequence: did not find expected ',' or ']'"
    );
    assert_eq!(
        refused("indent.yaml", "é: 1\n  ö: 2\n".as_bytes()),
        "2:4: mapping values are not allowed in this context"
    );
    assert_eq!(refused("control.yaml", "\u{feff}a: é\n  \u{1}b".as_bytes()), "2:3: control characters are not allowed");
    let unknown = "while parsing a node: found undefined tag handle";
    assert_eq!(refused("handle.yaml", b"a: !x!y z"), format!("1:4: {unknown}"));
    assert_eq!(refused("octets.yaml", b"a: !x%C0%80 z"), "1:4: the escapes here are not UTF-8");
}

#[test]
fn several_documents() {
    assert_eq!(refused("two.yaml", b"a: 1\n---\nb: 2\n"), "2:1: a second document starts here; a catalogue is of one");
    assert!(
        shown(&[&file(
            "one.yaml",
            b"%YAML 1.2
---
a: 1
...
"
        )])
        .contains("2 scalars")
    );
}

#[test]
fn no_document() {
    let words = " no document: the file is empty or has nothing but comments";
    assert_eq!(refused("empty.yaml", b""), words);
    assert_eq!(refused("comment.yaml", b"# a\n\n"), words);
}

#[test]
fn bytes_that_are_not_utf8() {
    assert_eq!(refused("latin.yaml", b"a: 1\nb: \xE9t\xE9\n"), "2:4: not UTF-8");
    assert_eq!(refused("cut.yaml", b"a: \xC3"), "1:4: not UTF-8");
}

#[test]
fn sizes() {
    let mut bytes = b"a: 1 #".to_vec();
    bytes.resize(1_048_576, b'x');
    assert!(shown(&[&file("largest.yaml", &bytes)]).contains("2 scalars"));
    bytes.push(b'x');
    assert_eq!(refused("larger.yaml", &bytes), " too large: more than 1,048,576 bytes");
}

/// Of events that a build does not take the markers still have their travel.
#[test]
fn sizes_of_events() {
    let words = " too large: its events take more than 4,194,304 bytes";
    assert_eq!(refused_after(&FORMS, "events.yaml", &b"-\n".repeat(300_000)), words);
    assert_eq!(shown(&["travel", &file("events.yaml", &b"-\n".repeat(300_000))]), "0 steps, 600000 characters\n");
    let long = format!("é: b\nc: '{}'\n", "d".repeat(70_000));
    let words = "2:4: a value or tag here takes 70011 bytes of its event, which has room for 65,535";
    assert_eq!(refused_after(&FORMS, "value.yaml", long.as_bytes()), words);
    // to the first colon, back, and on to the end: 70,011 characters
    assert_eq!(shown(&["travel", &file("value.yaml", long.as_bytes())]), "70013 steps, 70011 characters\n");
}

/// Five events in four characters: as many as the library takes, and one more. The markers never fall, so the steps are the way to the
/// last one, on the bracket at the end.
#[test]
fn as_many_events_as_there_can_be() {
    let text = |rest: &str| format!("[é,{}{rest}]", "[]:,".repeat(209_714));
    let most = file("most.yaml", text("a,a,a").as_bytes());
    assert_eq!(shown(&["travel", &most]), "838864 steps, 838865 characters\n");
    let words = " too large: it has more than 1,048,576 events";
    assert_eq!(refused_after(&["travel"], "more.yaml", text("a,a,a,a").as_bytes()), words);
}

#[test]
fn depths() {
    let nested = |depth| format!("{}{}", "[".repeat(depth), "]".repeat(depth));
    assert!(shown(&["--json", &file("deep.yaml", nested(64).as_bytes())]).lines().count() == 64);
    let words = "1:65: more than 64 collections inside each other";
    assert_eq!(refused("deeper.yaml", nested(65).as_bytes()), words);
    assert_eq!(refused("deepest.yaml", "[".repeat(1_000_000).as_bytes()), words);
    assert_eq!(
        refused("keys.yaml", "? ".repeat(500_000).as_bytes()),
        "1:129: more than 64 collections inside each other"
    );
}

#[test]
fn files_that_cannot_be_read() {
    let missing = run(&["no such\nfile.yaml"]);
    let line = String::from_utf8(missing.stderr).unwrap();
    assert_eq!(missing.status.code(), Some(1));
    assert_eq!(line, "catalogue: no such<U+000A>file.yaml: cannot be read: No such file or directory (os error 2)\n");
    let folder = run(&[env!("CARGO_TARGET_TMPDIR")]);
    assert_eq!((folder.status.code(), folder.stdout.len()), (Some(1), 0));
    assert!(String::from_utf8(folder.stderr).unwrap().ends_with(": cannot be read: Is a directory (os error 21)\n"));
}

/// Exit status 2, nothing on standard output, and the words of one line on standard error.
#[track_caller]
fn wrong(arguments: &[&str]) -> String {
    let output = run(arguments);
    assert_eq!((output.status.code(), output.stdout.len()), (Some(2), 0), "{output:?}");
    let line = String::from_utf8(output.stderr).unwrap();
    let words = line.strip_prefix("catalogue: ").and_then(|rest| rest.strip_suffix(" says more\n")).expect(&line);
    assert!(!words.contains('\n'));
    words.to_string()
}

#[test]
fn arguments() {
    assert_eq!(wrong(&["--csv"]), "unknown option --csv; --help");
    assert_eq!(wrong(&["--\x1b[2J\n"]), "unknown option --<U+001B>[2J<U+000A>; --help");
    assert_eq!(wrong(&["a", "b"]), "more than one file; --help");
    assert_eq!(wrong(&["--json", "--table"]), "more than one of --table, --json and --marked; --help");
}

#[test]
fn arguments_of_a_subcommand() {
    assert_eq!(wrong(&["travel", "--json", "a"]), "travel has no option --json; travel --help");
    assert_eq!(wrong(&["travel", "a", "--\u{202e}"]), "travel has no option --<U+202E>; travel --help");
    assert_eq!(wrong(&["show", "--csv"]), "show has no option --csv; show --help");
    assert_eq!(wrong(&["travel", "a", "b"]), "more than one file; travel --help");
    assert_eq!(wrong(&["show", "a", "b"]), "more than one file; show --help");
    assert_eq!(wrong(&["show", "--json", "--json"]), "more than one of --table, --json and --marked; show --help");
}

#[test]
fn a_subcommand_that_does_not_come_first() {
    let words = |name| format!("the subcommand {name} has to come first; a file of this name is ./{name}; --help");
    assert_eq!(wrong(&["--json", "travel"]), words("travel"));
    assert_eq!(wrong(&[CHAPTER, "travel"]), words("travel"));
    assert_eq!(wrong(&["--table", "show", CHAPTER]), words("show"));
    assert_eq!(wrong(&["--csv", "travel"]), "unknown option --csv; --help");
}

#[test]
fn files_that_have_the_name_of_a_subcommand() {
    let folder = PathBuf::from(env!("CARGO_TARGET_TMPDIR")).join("subcommands");
    fs::create_dir_all(&folder).unwrap();
    for name in ["show", "travel", "--json", "-"] {
        fs::write(folder.join(name), format!("é {name}")).unwrap();
    }
    let run = |arguments: &[&str]| written(command(arguments).current_dir(&folder).output().unwrap());
    for name in ["show", "travel", "--json", "-"] {
        let (path, content) = (format!("./{name}"), format!("= 0..{}", name.len() + 3));
        assert!(run(&["show", &path]).contains(&content) && run(&[&path]).contains(&content));
        assert_eq!(run(&["travel", &path]), format!("0 steps, {} characters\n", name.len() + 2));
    }
    // behind a subcommand each name is a file's, and behind -- an option's as well
    for name in ["show", "travel"] {
        for (given, as_path) in [("show", "show"), ("--", "show"), ("travel", "travel")] {
            assert_eq!(run(&[given, name]), run(&[as_path, &format!("./{name}")]));
        }
        assert_eq!(run(&["--json", "--", name]), run(&["show", "--json", name]));
    }
    assert_eq!(run(&["travel", "--", "--json"]), "0 steps, 8 characters\n");
    assert_eq!(run(&["--", "--json"]), run(&["show", "./--json"]));
}

#[test]
fn help() {
    let general = shown(&["--help"]);
    let (show, travel) = ("catalogue [show] [--table | --json | --marked] [FILE]\n", "catalogue travel [FILE]\n");
    assert!(general.starts_with(&format!("usage: {show}       {travel}\n  show      the ")), "{general}");
    assert!(general.contains("\n  travel    how "), "{general}");
    for arguments in [&["-h"][..], &["--json", "--help"], &[CHAPTER, "-h"], &["--help", "travel"]] {
        assert_eq!(shown(arguments), general);
    }
    for (name, usage, options) in [("show", show, &FORMS[..]), ("travel", travel, &[])] {
        let own = shown(&[name, "--help"]);
        assert!(own.starts_with(&format!("usage: {usage}\n")), "{own}");
        assert!(options.iter().all(|option| own.contains(&format!("\n  {option} "))), "{own}");
        assert_eq!(shown(&[name, CHAPTER, "-h"]), own);
    }
}

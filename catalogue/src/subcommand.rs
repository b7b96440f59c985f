//! The subcommands: what the command does, by its first argument. Each has a module with its options and its help; a new one is listed in
//! `SUBCOMMANDS`.

mod show;
mod travel;

use crate::visible::visible_name;
use std::ffi::{OsStr, OsString};
use std::io::{self, Write};

/// A subcommand.
struct Subcommand {
    name: &'static str,
    /// The options that it takes.
    options: &'static [&'static str],
    /// Its usage line, after the command's name.
    usage: &'static str,
    /// What it does, for the list of subcommands.
    summary: &'static str,
    /// What it does, and its options, for its own help.
    help: &'static str,
    run: fn(&Arguments) -> Result<(), Stop>,
}

/// All of them. The first is meant where none is given.
const SUBCOMMANDS: &[&Subcommand] = &[&show::SUBCOMMAND, &travel::SUBCOMMAND];

/// What every help says of files.
const FILES: &str = "\
FILE - is standard input. Without a FILE it takes examples/chapter.yaml of the repository, whatever standard input is,
and says so on standard error. A file whose name is a subcommand's, or starts with -, is given as ./NAME or after --;
- alone is always standard input.
";

/// Why the command stops.
pub enum Stop {
    /// The arguments are wrong: exit status 2.
    Arguments(String),
    /// The file has no answer; the line says which file, and why.
    File(String),
    /// Standard output takes no more.
    Output(io::Error),
}

impl From<io::Error> for Stop {
    fn from(error: io::Error) -> Stop {
        Stop::Output(error)
    }
}

/// What stands behind the subcommand.
struct Arguments {
    /// Its options, in their order.
    options: Vec<&'static str>,
    /// All else, in its order.
    operands: Vec<OsString>,
}

impl Arguments {
    /// The file of a subcommand that takes one and nothing else.
    fn file(&self) -> Result<Option<&OsStr>, Stop> {
        match &self.operands[..] {
            [] => Ok(None),
            [file] => Ok(Some(file)),
            _ => Err(Stop::Arguments("more than one file".to_string())),
        }
    }
}

/// Does what the command line asks for.
pub fn run(arguments: impl Iterator<Item = OsString>) -> Result<(), Stop> {
    let mut rest = arguments.peekable();
    let given = rest.peek().and_then(|first| named(first));
    if given.is_some() {
        rest.next();
    }
    let subcommand = given.unwrap_or(SUBCOMMANDS[0]);
    let answer = match parse(subcommand, given.is_some(), rest) {
        Ok(Some(arguments)) => (subcommand.run)(&arguments),
        Ok(None) => Ok(io::stdout().write_all(help(given).as_bytes())?),
        Err(stop) => Err(stop),
    };
    answer.map_err(|stop| match stop {
        Stop::Arguments(words) => {
            let name = given.map_or(String::new(), |subcommand| format!("{} ", subcommand.name));
            Stop::Arguments(format!("{words}; {name}--help says more"))
        }
        other => other,
    })
}

fn named(argument: &OsStr) -> Option<&'static Subcommand> {
    SUBCOMMANDS.iter().copied().find(|subcommand| argument == subcommand.name)
}

/// The arguments behind a subcommand, which may not be given; nothing where they ask for help. `--` ends options and subcommands.
fn parse(
    subcommand: &Subcommand,
    given: bool,
    rest: impl Iterator<Item = OsString>,
) -> Result<Option<Arguments>, Stop> {
    let mut arguments = Arguments { options: Vec::new(), operands: Vec::new() };
    let mut ended = false;
    for argument in rest {
        if ended || argument == "-" || !argument.as_encoded_bytes().starts_with(b"-") {
            match named(&argument) {
                Some(Subcommand { name, .. }) if !given && !ended => {
                    let words = format!("the subcommand {name} has to come first; a file of this name is ./{name}");
                    return Err(Stop::Arguments(words));
                }
                _ => arguments.operands.push(argument),
            }
        } else if argument == "--" {
            ended = true;
        } else if argument == "--help" || argument == "-h" {
            return Ok(None);
        } else if let Some(option) = subcommand.options.iter().find(|option| argument == **option) {
            arguments.options.push(option);
        } else {
            let option = visible_name(&argument);
            return Err(Stop::Arguments(match given {
                true => format!("{} has no option {option}", subcommand.name),
                false => format!("unknown option {option}"),
            }));
        }
    }
    Ok(Some(arguments))
}

/// The help of a subcommand, or of the command where none is given.
fn help(given: Option<&Subcommand>) -> String {
    if let Some(Subcommand { usage, help, .. }) = given {
        return format!("usage: catalogue {usage}\n\n{help}\n{FILES}");
    }
    let usages: Vec<String> =
        SUBCOMMANDS.iter().map(|Subcommand { usage, .. }| format!("catalogue {usage}\n")).collect();
    let summaries: String =
        SUBCOMMANDS.iter().map(|Subcommand { name, summary, .. }| format!("  {name:10}{summary}\n")).collect();
    format!("usage: {}\n{summaries}\nSUBCOMMAND --help says more of one.\n\n{FILES}", usages.join("       "))
}

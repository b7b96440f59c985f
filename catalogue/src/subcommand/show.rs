//! `show`: the catalogue of a file, in one of three forms.

use super::{Arguments, Stop, Subcommand};
use crate::document::with_document;
use crate::input::Input;
use crate::{json, marked, table};
use std::env;
use std::io::{self, BufWriter, IsTerminal, Write};

pub(super) const SUBCOMMAND: Subcommand = Subcommand {
    name: "show",
    options: &["--table", "--json", "--marked"],
    usage: "[show] [--table | --json | --marked] [FILE]",
    summary: "the catalogue of a YAML file (also where no subcommand is given)",
    help: "\
Shows the catalogue of a YAML file: for each scalar its kind, the bytes of the file that it occupies, where its tag is
written, and the pieces: from which bytes every stretch of its value came.

  --table     a row for each scalar and each piece (without an option); a span with ? is assumed, as long as the value,
              and was not found in the file
  --json      a JSON object for each node, one to a line, with its parent
  --marked    the file with marks below each line, or in colours on a terminal
",
    run,
};

#[derive(Clone, Copy)]
enum Form {
    Table,
    Json,
    Marked,
}

fn form(options: &[&str]) -> Result<Form, Stop> {
    match options {
        [] | ["--table"] => Ok(Form::Table),
        ["--json"] => Ok(Form::Json),
        ["--marked"] => Ok(Form::Marked),
        _ => Err(Stop::Arguments("more than one of --table, --json and --marked".to_string())),
    }
}

fn run(arguments: &Arguments) -> Result<(), Stop> {
    let form = form(&arguments.options)?;
    let input = Input::read(arguments.file()?)?;
    let stdout = io::stdout();
    let coloured = stdout.is_terminal() && env::var_os("NO_COLOR").is_none_or(|value| value.is_empty());
    let mut out = BufWriter::new(stdout.lock());
    let written = with_document(&input.bytes, |document| {
        match form {
            Form::Table => table::write(document, &mut out)?,
            Form::Json => json::write(document, &mut out)?,
            Form::Marked if coloured => marked::write_coloured(document, &mut out)?,
            Form::Marked => marked::write_plain(document, &mut out)?,
        }
        out.flush()
    });
    Ok(written.map_err(|failure| input.stop(failure))??)
}

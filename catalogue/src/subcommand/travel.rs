//! `travel`: how far the cursor goes for a file's catalogue, without building it.

use super::{Arguments, Stop, Subcommand};
use crate::document::with_events;
use crate::failure::Failure;
use crate::input::Input;
use quarto_yaml::{Event, Refusal, cursor_travel};
use std::io::{self, Write};

pub(super) const SUBCOMMAND: Subcommand = Subcommand {
    name: "travel",
    options: &[],
    usage: "travel [FILE]",
    summary: "how many steps the cursor goes at most to build the catalogue, and how many characters the file has",
    help: "\
Tells in a line how many steps the cursor goes to build the catalogue of a YAML file, without building it, and how many
characters the file has. The cursor goes from the start of the file to the marker of each event in turn, forward or
back. A step is a character; forward the library takes many at once, so its work is at most so many steps. A file that
is ASCII needs no cursor, and no step.
",
    run,
};

fn run(arguments: &Arguments) -> Result<(), Stop> {
    let input = Input::read(arguments.file()?)?;
    let (steps, characters) =
        with_events(&input.bytes, |text, events| Ok((steps(text, events)?, text.chars().count())))
            .map_err(|failure| input.stop(failure))?;
    Ok(writeln!(io::stdout(), "{steps} steps, {characters} characters")?)
}

/// The steps over the markers of all events. The events of a document that is too deep end early, with a start.
fn steps(text: &str, events: &[Event]) -> Result<u64, Failure> {
    if let Some(Event::SequenceStart { .. } | Event::MappingStart { .. }) = events.last() {
        let refusal = Refusal::TooDeep { event: events.len() as u32 - 1 };
        return Err(Failure::of_refusal(refusal, text, events));
    }
    let markers: Vec<u32> = events.iter().map(Event::index).collect();
    cursor_travel(text.as_bytes(), &markers).map_err(|refusal| match refusal {
        Refusal::TooLong => Failure::new("too large: it has more than 1,048,576 events"),
        other => Failure::new(other.to_string()),
    })
}

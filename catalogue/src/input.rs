//! The file that the command is asked about.

use crate::failure::Failure;
use crate::subcommand::Stop;
use crate::visible::{say, visible_name};
use quarto_yaml::call::TEXT_LIMIT;
use std::ffi::OsStr;
use std::fs::File;
use std::io::{self, Read};
use std::path::Path;

const CHAPTER_NAME: &str = "examples/chapter.yaml";
const CHAPTER: &[u8] = include_bytes!("../../examples/chapter.yaml");

/// A file with its name.
pub struct Input {
    name: String,
    /// The file, or one byte more than the limit of it.
    pub bytes: Vec<u8>,
}

impl Input {
    /// Reads a file, standard input for `-`; for none it takes the chapter that the command was built with, and says so.
    pub fn read(file: Option<&OsStr>) -> Result<Input, Stop> {
        let Some(file) = file else {
            say(&format!("no FILE is given: this is {CHAPTER_NAME}; FILE - reads standard input"));
            return Ok(Input { name: CHAPTER_NAME.to_string(), bytes: CHAPTER.to_vec() });
        };
        let name = if file == "-" { "standard input".to_string() } else { visible_name(file) };
        match read(file) {
            Ok(bytes) => Ok(Input { name, bytes }),
            Err(error) => Err(Stop::File(format!("{name}: cannot be read: {error}"))),
        }
    }

    /// What is said of it where it has no answer.
    pub fn stop(&self, failure: Failure) -> Stop {
        let Failure { words, position } = failure;
        Stop::File(match position {
            Some(position) => format!("{}:{position}: {words}", self.name),
            None => format!("{}: {words}", self.name),
        })
    }
}

fn read(file: &OsStr) -> io::Result<Vec<u8>> {
    let mut bytes = Vec::new();
    let limit = TEXT_LIMIT as u64 + 1;
    if file == "-" {
        io::stdin().lock().take(limit).read_to_end(&mut bytes)?;
    } else {
        File::open(Path::new(file))?.take(limit).read_to_end(&mut bytes)?;
    }
    Ok(bytes)
}

//! The worked examples of the YAML standard, as laid out in `corpus/README.md`.

use crate::{read_bytes, read_number};
use std::io;

/// The text and the event bytes of each document.
pub fn documents() -> Vec<(Vec<u8>, Vec<u8>)> {
    read(include_bytes!("../../corpus/spec-examples.bin")).expect("a corpus of whole documents")
}

fn read(mut file: &[u8]) -> io::Result<Vec<(Vec<u8>, Vec<u8>)>> {
    let count = read_number(&mut file)?;
    (0..count).map(|_| Ok((read_bytes(&mut file)?, read_bytes(&mut file)?))).collect()
}

//! The layout of case files and list files, and of document 01's event bytes.
//!
//! All numbers are four bytes, high byte first. A case file is cases to its end; a case is
//!
//!   - the length of the text and its bytes,
//!   - the length of the event bytes and these,
//!   - the room of the record buffer and that of the piece buffer, in numbers.
//!
//! A list file is answered cases to its end; an answered case is
//!
//!   - the length of all that follows in it,
//!   - the case, as above,
//!   - the three numbers of [`Answer::returned`],
//!   - the count of record numbers and these, the count of piece numbers and these.

pub mod corpus;
pub mod event;

use std::io::{self, BufRead, Read, Write};

/// How many numbers a record has.
pub const RECORD_NUMBERS: usize = 14;

pub type Record = [u32; RECORD_NUMBERS];

#[derive(Debug, Clone, PartialEq)]
pub struct Case {
    pub text: Vec<u8>,
    pub events: Vec<u8>,
    pub record_room: u32,
    pub piece_room: u32,
}

#[derive(Debug, Clone, PartialEq)]
pub struct Answer {
    /// `0, nodes, pieces`, or the number of the refusing row, its place and 0, or [`Answer::PANICKED`], 0 and 0.
    pub returned: [u32; 3],
    /// [`RECORD_NUMBERS`] for each node; none when refused.
    pub records: Vec<u32>,
    /// Four numbers for each piece; none when refused.
    pub pieces: Vec<u32>,
}

impl Case {
    /// The next case, or none at the end of the file.
    pub fn read(file: &mut impl BufRead) -> io::Result<Option<Case>> {
        if file.fill_buf()?.is_empty() {
            return Ok(None);
        }
        Ok(Some(Case {
            text: read_bytes(file)?,
            events: read_bytes(file)?,
            record_room: read_number(file)?,
            piece_room: read_number(file)?,
        }))
    }

    pub fn write(&self, file: &mut impl Write) -> io::Result<()> {
        file.write_all(&self.bytes())
    }

    fn bytes(&self) -> Vec<u8> {
        let mut bytes = Vec::new();
        for field in [&self.text, &self.events] {
            bytes.extend((field.len() as u32).to_be_bytes());
            bytes.extend(field);
        }
        bytes.extend(self.record_room.to_be_bytes());
        bytes.extend(self.piece_room.to_be_bytes());
        bytes
    }
}

impl Answer {
    /// Returned where the original panics.
    pub const PANICKED: u32 = 255;

    /// Writes the answered case.
    pub fn write(&self, case: &Case, file: &mut impl Write) -> io::Result<()> {
        let mut bytes = case.bytes();
        bytes.extend(self.returned.map(u32::to_be_bytes).as_flattened());
        for numbers in [&self.records, &self.pieces] {
            bytes.extend((numbers.len() as u32).to_be_bytes());
            bytes.extend(number_bytes(numbers));
        }
        file.write_all(&(bytes.len() as u32).to_be_bytes())?;
        file.write_all(&bytes)
    }
}

/// The numbers of a field that holds some.
pub fn numbers(bytes: &[u8]) -> Vec<u32> {
    bytes.as_chunks().0.iter().map(|bytes| u32::from_be_bytes(*bytes)).collect()
}

/// The bytes of a field that holds these numbers.
pub fn number_bytes(numbers: &[u32]) -> Vec<u8> {
    numbers.iter().flat_map(|number| number.to_be_bytes()).collect()
}

fn read_number(file: &mut impl Read) -> io::Result<u32> {
    let mut bytes = [0; 4];
    file.read_exact(&mut bytes)?;
    Ok(u32::from_be_bytes(bytes))
}

fn read_bytes(file: &mut impl Read) -> io::Result<Vec<u8>> {
    let mut bytes = vec![0; read_number(file)? as usize];
    file.read_exact(&mut bytes)?;
    Ok(bytes)
}

#[cfg(test)]
mod tests {
    use super::*;

    #[test]
    fn cases_are_read_as_written() -> io::Result<()> {
        let case = Case { text: b"a".to_vec(), events: vec![6, 0, 4, 0, 0, 0, 0], record_room: 14, piece_room: 0 };
        let mut file = Vec::new();
        case.write(&mut file)?;
        let mut file = file.as_slice();
        assert_eq!(Case::read(&mut file)?, Some(case));
        assert_eq!(Case::read(&mut file)?, None);
        Ok(())
    }
}

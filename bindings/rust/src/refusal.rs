//! The numbers with which a call refuses.

use std::error::Error;
use std::fmt;

/// Why a call was refused, with its place. Events are counted from 0.
#[derive(Clone, Copy, Debug, PartialEq, Eq)]
pub enum Refusal {
    /// 1: the text, the value of a call on one scalar, the events, or the markers of a call on the cursor's travel are above their limit.
    TooLong,
    /// 2: the text, or the value of a call on one scalar, is not UTF-8.
    NotUtf8,
    /// 3: the event is malformed. In a call on one scalar: an unknown style.
    Malformed {
        /// The number of the event.
        event: u32,
    },
    /// 4: an end that does not match the innermost open collection, or a key without a value.
    Mismatched {
        /// The number of the event.
        event: u32,
    },
    /// 5: a start, scalar or alias after the root.
    AfterRoot {
        /// The number of the event.
        event: u32,
    },
    /// 6: one open collection too many.
    TooDeep {
        /// The number of the event.
        event: u32,
    },
    /// 7: more nodes than the record buffer has room for.
    NoRecordRoom {
        /// The number of the event.
        event: u32,
    },
    /// 8: more pieces than the piece buffer has room for.
    NoPieceRoom {
        /// The number of the event.
        event: u32,
    },
    /// 9: the events ended with no root, or with one still open.
    Unfinished {
        /// How many events there were.
        events: u32,
    },
}

impl Refusal {
    /// The refusal with this number of the table and this place; none for a number outside 1 to 9.
    pub fn new(number: u32, place: u32) -> Option<Refusal> {
        Some(match number {
            1 => Refusal::TooLong,
            2 => Refusal::NotUtf8,
            3 => Refusal::Malformed { event: place },
            4 => Refusal::Mismatched { event: place },
            5 => Refusal::AfterRoot { event: place },
            6 => Refusal::TooDeep { event: place },
            7 => Refusal::NoRecordRoom { event: place },
            8 => Refusal::NoPieceRoom { event: place },
            9 => Refusal::Unfinished { events: place },
            _ => return None,
        })
    }

    /// The number of the table, 1 to 9.
    pub fn number(self) -> u32 {
        match self {
            Refusal::TooLong => 1,
            Refusal::NotUtf8 => 2,
            Refusal::Malformed { .. } => 3,
            Refusal::Mismatched { .. } => 4,
            Refusal::AfterRoot { .. } => 5,
            Refusal::TooDeep { .. } => 6,
            Refusal::NoRecordRoom { .. } => 7,
            Refusal::NoPieceRoom { .. } => 8,
            Refusal::Unfinished { .. } => 9,
        }
    }

    /// The place that comes with the number: 0 for 1 and 2, the number of the event for 3 to 8, how many events there were for 9.
    pub fn place(self) -> u32 {
        match self {
            Refusal::TooLong | Refusal::NotUtf8 => 0,
            Refusal::Malformed { event }
            | Refusal::Mismatched { event }
            | Refusal::AfterRoot { event }
            | Refusal::TooDeep { event }
            | Refusal::NoRecordRoom { event }
            | Refusal::NoPieceRoom { event } => event,
            Refusal::Unfinished { events } => events,
        }
    }
}

impl fmt::Display for Refusal {
    fn fmt(&self, f: &mut fmt::Formatter<'_>) -> fmt::Result {
        match self {
            Refusal::TooLong => f.write_str(
                "text or value above 1,048,576 bytes, events above 4,194,304 bytes, or more than 1,048,576 markers",
            ),
            Refusal::NotUtf8 => f.write_str("text or value is not UTF-8"),
            Refusal::Malformed { event } => write!(f, "event {event} is malformed"),
            Refusal::Mismatched { event } => {
                write!(
                    f,
                    "event {event} ends a collection that is not the innermost open one, or leaves a key without value"
                )
            }
            Refusal::AfterRoot { event } => write!(f, "event {event} comes after the root is complete"),
            Refusal::TooDeep { event } => write!(f, "event {event} opens a 65th collection inside 64 others"),
            Refusal::NoRecordRoom { event } => {
                write!(f, "no room for the record of the node that event {event} completes")
            }
            Refusal::NoPieceRoom { event } => write!(f, "no room for the pieces of the scalar of event {event}"),
            Refusal::Unfinished { events } => write!(f, "the {events} events end before a root is complete"),
        }
    }
}

impl Error for Refusal {}

#[cfg(test)]
mod tests {
    use super::*;

    #[test]
    fn numbers_and_places_come_back() {
        for number in 1..=9 {
            let refusal = Refusal::new(number, 7).unwrap();
            assert_eq!(refusal.number(), number);
            assert_eq!(refusal.place(), if number < 3 { 0 } else { 7 });
        }
        assert_eq!(Refusal::new(0, 0), None);
        assert_eq!(Refusal::new(10, 0), None);
    }

    #[test]
    fn every_refusal_has_words_of_its_own() {
        let words: Vec<String> = (1..=9).map(|number| Refusal::new(number, 41).unwrap().to_string()).collect();
        for (i, one) in words.iter().enumerate() {
            assert_eq!(one.contains("41"), i >= 2, "{one}");
            assert_eq!(words.iter().filter(|other| *other == one).count(), 1);
        }
    }
}

//! Rows 3 to 7 and 9 of document 01's table: which events are let through, which one is refused. Row 8 needs the
//! original's pieces and is tested on the events that these rows let through.

use crate::decode::{self, Body, Collection, Event};
use std::ops::Range;

const OPEN_COLLECTIONS: usize = 64;

/// The events before the refusing one, or all.
pub struct Admitted {
    pub events: Vec<Event>,
    /// In the order of the events, and so of the records.
    pub completed: Vec<Completed>,
    /// The collections left open, outermost first.
    pub open: Vec<Open>,
    pub refusal: Option<Refusal>,
}

pub struct Refusal {
    pub row: u32,
    pub place: usize,
}

/// A node that a scalar, an alias or an end completes, with what its record takes from the event bytes.
pub struct Completed {
    pub event: usize,
    pub suffix: Option<Range<usize>>,
    pub value: Range<usize>,
}

pub struct Open {
    pub collection: Collection,
    /// Whether this is a mapping with a key that has no value yet.
    pub awaits_value: bool,
    suffix: Option<Range<usize>>,
}

/// Tests the events in order, each from row 3 upward.
pub fn admit(bytes: &[u8], records: usize) -> Admitted {
    let mut admitted = Admitted { events: Vec::new(), completed: Vec::new(), open: Vec::new(), refusal: None };
    let mut place = 0;
    while place < bytes.len() {
        let number = admitted.events.len();
        match decode::event(bytes, place) {
            None => admitted.refuse(3, number),
            Some((event, next)) => {
                match admitted.row(&event, records) {
                    Some(row) => admitted.refuse(row, number),
                    None => admitted.take(event),
                }
                place = next;
            }
        }
        if admitted.refusal.is_some() {
            return admitted;
        }
    }
    if !admitted.has_root() {
        admitted.refuse(9, admitted.events.len());
    }
    admitted
}

impl Admitted {
    /// The first of the rows 4 to 7 that refuses the event.
    fn row(&self, event: &Event, records: usize) -> Option<u32> {
        let starts = matches!(event.body, Body::Start(..));
        let ends = matches!(event.body, Body::End(_));
        if let Body::End(collection) = event.body
            && !self.open.last().is_some_and(|open| open.may_end(collection))
        {
            return Some(4);
        }
        if !ends && self.has_root() {
            return Some(5);
        }
        if starts && self.open.len() == OPEN_COLLECTIONS {
            return Some(6);
        }
        if !starts && self.completed.len() == records {
            return Some(7);
        }
        None
    }

    fn take(&mut self, event: Event) {
        match &event.body {
            Body::Start(collection, tag) => self.open.push(Open {
                collection: *collection,
                awaits_value: false,
                suffix: tag.as_ref().map(|tag| tag.suffix.clone()),
            }),
            Body::End(_) => {
                let suffix = self.open.pop().and_then(|open| open.suffix);
                self.complete(suffix, 0..0);
            }
            Body::Scalar(scalar) => {
                let suffix = scalar.tag.as_ref().map(|tag| tag.suffix.clone());
                self.complete(suffix, scalar.value.clone());
            }
            Body::Alias => self.complete(None, 0..0),
        }
        self.events.push(event);
    }

    fn complete(&mut self, suffix: Option<Range<usize>>, value: Range<usize>) {
        let event = self.events.len();
        self.completed.push(Completed { event, suffix, value });
        if let Some(open) = self.open.last_mut() {
            // A mapping's children are keys and values in turn.
            open.awaits_value = open.is_mapping() && !open.awaits_value;
        }
    }

    fn has_root(&self) -> bool {
        self.open.is_empty() && !self.completed.is_empty()
    }

    fn refuse(&mut self, row: u32, place: usize) {
        self.refusal = Some(Refusal { row, place });
    }
}

impl Open {
    fn may_end(&self, collection: Collection) -> bool {
        self.collection == collection && !self.awaits_value
    }

    pub fn is_mapping(&self) -> bool {
        self.collection == Collection::Mapping
    }
}

//! The original's answers in document 01's numbers: the table's rows, written here a second time and as the document
//! words them, around the unchanged Rust. The last two numbers of a record, which the original does not have, are those of
//! second implementations; and where scalars start is held to one. The steps of the cursor are those of another.

pub mod accessors;
mod admit;
pub mod buffer;
mod damaged;
pub mod decode;
mod flags;
pub mod measured;
mod nodes;
mod original;
pub mod parent;
pub mod record;
mod scan_errors;
pub mod start;
pub mod travel;
mod tree;

pub use damaged::damaged;
use decode::{Body, Scalar};
pub use flags::measured;
use framing::{Answer, Case, RECORD_NUMBERS, Record};
pub use nodes::nodes;
use original::Panicked;
pub use original::{Received, silence_listed_panic};
pub use scan_errors::scan_errors;
pub use travel::travels;

const TEXT_LIMIT: usize = 1_048_576;
const EVENTS_LIMIT: usize = 4_194_304;
const PIECES_LIMIT: usize = 4_294_967_294;
const PIECE_NUMBERS: u32 = 4;

/// The answer to a case. After a panic of the original, rows 3 to 9 are no longer tested: whether row 8 refuses the
/// scalar is not known.
pub fn answer(case: &Case) -> Answer {
    if case.text.len() > TEXT_LIMIT || case.events.len() > EVENTS_LIMIT {
        return refused(1, 0);
    }
    let Ok(text) = str::from_utf8(&case.text) else {
        return refused(2, 0);
    };
    let admitted = admit::admit(&case.events, case.record_room as usize / RECORD_NUMBERS);
    let tree = match original::build(text, &case.events, &admitted) {
        Ok(tree) => tree,
        Err(Panicked(event)) => return answer_before(case, event.place),
    };

    let piece_room = PIECES_LIMIT.min((case.piece_room / PIECE_NUMBERS) as usize);
    let mut originals = Vec::new();
    let mut pieces = Vec::new();
    // Nodes past the completed ones belong to collections that were left open.
    let nodes = tree.as_ref().map(record::nodes).unwrap_or_default();
    for (node, completed) in nodes.iter().zip(&admitted.completed) {
        let list = record::pieces(node.node);
        let first = pieces.len() as u32;
        let count = list.as_ref().map(|list| list.len() as u32);
        originals.push(record::original(node, completed, first, count));
        pieces.extend(list.unwrap_or_default());
        if pieces.len() > piece_room {
            return refused(8, completed.event);
        }
    }
    if let Some(refusal) = admitted.refusal {
        return refused(refusal.row, refusal.place);
    }
    let places = parent::places(&admitted.events);
    let starts = start::starts(text, &admitted.events, &places);
    let flags = measured::flags(text, &case.events, &admitted.events, &starts);
    assert_eq!([places.len(), starts.len(), flags.len()], [originals.len(); 3], "one of each for each node");
    assert_eq!(start::differing(&starts, &originals), None, "a scalar that the original starts elsewhere, in {case:?}");
    let last_two = places.iter().zip(flags);
    let records: Vec<Record> = originals
        .into_iter()
        .zip(last_two)
        .map(|(original, (place, flag))| record::whole(original, place.parent, flag))
        .collect();
    Answer {
        returned: [0, records.len() as u32, pieces.len() as u32],
        records: records.into_flattened(),
        pieces: pieces.into_flattened(),
    }
}

/// The events that document 01's table lets through, as the original receives them.
pub fn received(events: &[u8]) -> Vec<Received> {
    let admitted = admit::admit(events, usize::MAX);
    admitted.events.iter().map(|event| original::received(event, events)).collect()
}

/// The scalars that document 01's table lets through, with their marker indices. The rooms are not looked at.
pub fn scalars(events: &[u8]) -> Vec<(u32, Scalar)> {
    let admitted = admit::admit(events, usize::MAX);
    let scalars = admitted.events.into_iter().filter_map(|event| match event.body {
        Body::Scalar(scalar) => Some((event.index, scalar)),
        _ => None,
    });
    scalars.collect()
}

/// The answer where the original panics on the event at a place: row 8 may refuse one of those before it.
fn answer_before(case: &Case, place: usize) -> Answer {
    let before = answer(&Case { events: case.events[..place].to_vec(), ..case.clone() });
    if before.returned[0] == 8 { before } else { refused(Answer::PANICKED, 0) }
}

fn refused(row: u32, place: usize) -> Answer {
    Answer { returned: [row, place as u32, 0], records: Vec::new(), pieces: Vec::new() }
}

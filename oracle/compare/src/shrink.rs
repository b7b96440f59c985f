//! A case made smaller while something stays true of it.

use crate::travels::Travel;
use answers::decode;
use framing::Case;
use std::iter;
use std::ops::Range;

/// At most one less events in a row are left out at once.
const ROW: usize = 24;

/// Of a long text with its markers so few changes are tried that they come to about so many bytes, but of each kind some.
const BYTES: usize = 1_000_000;
const TRIES: usize = 64;

pub fn shrunk(case: &Case, is_kept: impl Fn(&Case) -> bool) -> Case {
    smallest(case, |case| smaller(case, &events(&case.events)).find(&is_kept))
}

pub fn shrunk_travel(travel: &Travel, is_kept: impl Fn(&Travel) -> bool) -> Travel {
    smallest(travel, |travel| smaller_travels(travel).find(&is_kept))
}

/// The smallest that is found, going on from one with one change at a time.
fn smallest<T: Clone>(from: &T, smaller: impl Fn(&T) -> Option<T>) -> T {
    let mut smallest = from.clone();
    while let Some(smaller) = smaller(&smallest) {
        smallest = smaller;
    }
    smallest
}

/// With fewer markers, with less text, then with the markers lowered by what is left out too, or with one lower marker.
fn smaller_travels(travel: &Travel) -> impl Iterator<Item = Travel> {
    let Travel { text, markers } = travel;
    let tries = (BYTES / (text.len() + 4 * markers.len() + 1)).max(TRIES);
    let fewer = parts(markers.len()).take(tries);
    let fewer = fewer.map(|part| Travel { markers: without(markers, &part), ..travel.clone() });
    let shorter = parts_of_text(text).take(tries).flat_map(move |part| {
        let taken = characters(&text[part.clone()]);
        let text = without(text, &part);
        let lowered = markers.iter().map(|marker| marker.saturating_sub(taken)).collect();
        [Travel { text: text.clone(), markers: lowered }, Travel { text, ..travel.clone() }]
    });
    let lower = (0..markers.len()).take(tries).flat_map(move |place| {
        let index = markers[place];
        let lower = [index / 2, index.saturating_sub(1)].into_iter().filter(move |lower| *lower < index);
        lower.map(move |lower| {
            let mut travel = travel.clone();
            travel.markers[place] = lower;
            travel
        })
    });
    fewer.chain(shorter).chain(lower)
}

/// Parts of whole characters, or of bytes if it is no UTF-8.
fn parts_of_text(text: &[u8]) -> impl Iterator<Item = Range<usize>> {
    let mut places: Vec<usize> = (0..=text.len()).collect();
    if let Ok(text) = str::from_utf8(text) {
        places.retain(|place| text.is_char_boundary(*place));
    }
    parts(places.len() - 1).map(move |part| places[part.start]..places[part.end])
}

/// How many characters begin in some bytes.
fn characters(bytes: &[u8]) -> u32 {
    bytes.iter().filter(|byte| !(0x80..0xC0).contains(*byte)).count() as u32
}

fn without<T: Copy>(list: &[T], part: &Range<usize>) -> Vec<T> {
    [&list[..part.start], &list[part.end..]].concat()
}

/// Cases that are smaller by one change, the largest changes first.
fn smaller<'a>(case: &'a Case, places: &'a [usize]) -> impl Iterator<Item = Case> + 'a {
    let texts = parts(case.text.len())
        .flat_map(move |part| [with_markers_moved(case, places, &part), without_text(case, &part)]);
    let values = places.iter().flat_map(|place| shorter_values(case, *place));
    let bytes = (0..case.events.len()).map(|place| without_events(case, place..place + 1));
    let rooms = [(case.record_room / 2, case.piece_room), (case.record_room, case.piece_room / 2)];
    let rooms = rooms.into_iter().filter(|rooms| *rooms != (case.record_room, case.piece_room));
    let rooms = rooms.map(|(record_room, piece_room)| Case { record_room, piece_room, ..case.clone() });
    fewer_events(case, places).chain(texts).chain(values).chain(bytes).chain(rooms)
}

/// One event alone, or all but some in a row.
fn fewer_events<'a>(case: &'a Case, places: &'a [usize]) -> impl Iterator<Item = Case> + 'a {
    let alone = |pair: &[usize]| Case { events: case.events[pair[0]..pair[1]].to_vec(), ..case.clone() };
    let alone = places.windows(2).filter(|_| places.len() > 2).map(alone);
    let counts = (1..places.len().min(ROW)).rev();
    let rows = counts.flat_map(|count| places.windows(count + 1));
    alone.chain(rows.map(|row| without_events(case, row[0]..row[row.len() - 1])))
}

fn without_events(case: &Case, part: Range<usize>) -> Case {
    Case { events: without(&case.events, &part), ..case.clone() }
}

fn without_text(case: &Case, part: &Range<usize>) -> Case {
    Case { text: without(&case.text, part), ..case.clone() }
}

/// Without a part of the text, the markers behind it moved by as many characters.
fn with_markers_moved(case: &Case, places: &[usize], part: &Range<usize>) -> Case {
    let mut case = case.clone();
    let (before, taken) = (characters(&case.text[..part.start]), characters(&case.text[part.clone()]));
    for place in &places[..places.len() - 1] {
        let index: &mut [u8; 4] = (&mut case.events[place + 3..place + 7]).try_into().expect("four bytes");
        let number = u32::from_be_bytes(*index);
        if number > before {
            *index = (number - taken.min(number - before)).to_be_bytes();
        }
    }
    without_text(&case, part)
}

/// Where the sound events start, and where the last of them ends.
fn events(bytes: &[u8]) -> Vec<usize> {
    let mut places = vec![0];
    while let Some((_, next)) = decode::event(bytes, places[places.len() - 1]) {
        places.push(next);
    }
    places
}

/// Halves, quarters and so on, down to single bytes.
fn parts(length: usize) -> impl Iterator<Item = Range<usize>> {
    let sizes = iter::successors(Some(length.div_ceil(2)), |size| Some(size / 2)).take_while(|size| *size > 0);
    sizes.flat_map(move |size| (0..length).step_by(size).map(move |start| start..length.min(start + size)))
}

/// The scalar at a place with a part of its value left out, and with the same bytes left out of the text.
fn shorter_values(case: &Case, place: usize) -> Vec<Case> {
    let Some((decode::Event { body: decode::Body::Scalar(scalar), .. }, next)) = decode::event(&case.events, place)
    else {
        return Vec::new();
    };
    let mut cases = Vec::new();
    for part in parts(scalar.value.len()) {
        let part = scalar.value.start + part.start..scalar.value.start + part.end;
        let bytes = &case.events[part.clone()];
        let mut shorter = without_events(case, part.clone());
        let body = (next - place - 3 - part.len()) as u16;
        shorter.events[place + 1..place + 3].copy_from_slice(&body.to_be_bytes());
        for start in 0..case.text.len() {
            if case.text[start..].starts_with(bytes) {
                cases.push(without_text(&shorter, &(start..start + bytes.len())));
            }
        }
        cases.push(shorter);
    }
    cases
}

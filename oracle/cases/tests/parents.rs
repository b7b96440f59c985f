//! The second implementation of (c) beside document 01's own rule for children; and faulty ones, each of which answers otherwise somewhere
//! in the sample of the family `parents`.

use answers::answer;
use answers::decode::{self, Body, Event};
use answers::record::{MEASURED, PARENT};
use cases::rng::Rng;
use cases::run::Run;
use cases::{FAMILIES, RANDOM, SEED};
use framing::{Answer, Case, Record};
use saphyr_parser::ScalarStyle;

const NONE: u32 = u32::MAX;

const KIND: usize = 0;
const START: usize = 1;
const END: usize = 2;
const SUBTREE: usize = 7;
const COUNT: usize = 10;

const ARRAY: u32 = 7;
const HASH: u32 = 8;

fn sample() -> Vec<Case> {
    let (_, family) = FAMILIES.iter().find(|(name, _)| *name == "parents").expect("the family");
    let mut cases = Vec::new();
    family(&mut Run::new(false, Rng::new(SEED), &mut |case| cases.push(case.clone())));
    cases
}

fn records(answer: &Answer) -> &[Record] {
    answer.records.as_chunks().0
}

/// The children of record `n`, from the last to the first, by document 01: the last is the record before `n`, and the child before `c` is
/// `c` less its subtree count.
fn children(records: &[Record], n: usize) -> Vec<usize> {
    let record = &records[n];
    let count = match record[KIND] {
        ARRAY => record[COUNT],
        HASH => 2 * record[COUNT],
        _ => 0,
    };
    let mut children = Vec::new();
    let mut next = n;
    for _ in 0..count {
        let child = next - children.last().map_or(1, |child: &usize| records[*child][SUBTREE] as usize);
        children.push(child);
        next = child;
    }
    children
}

#[test]
fn parents_are_those_of_the_children() {
    answers::silence_listed_panic();
    let mut held = 0;
    let mut hold = |case: &Case| {
        let answer = answer(case);
        let records = records(&answer);
        let mut parents = vec![NONE; records.len()];
        for n in 0..records.len() {
            for child in children(records, n) {
                assert!(child < n);
                parents[child] = n as u32;
            }
        }
        assert!(records.iter().map(|record| record[PARENT]).eq(parents), "{case:?}");
        held += records.len();
    };
    sample().iter().for_each(&mut hold);
    for (_, put) in RANDOM.iter().filter(|(name, _)| ["trees", "tags", "offsets"].contains(name)) {
        let mut run = Run::new(true, Rng::new(SEED), &mut hold);
        (0..2_000).for_each(|_| put(&mut run));
    }
    assert!(held > 300_000, "{held}");
}

/// What a faulty implementation makes of a case and the right answer to it.
type Fault = fn(&Case, &Answer) -> Answer;

/// The answer with something made of each record: of all of them and the number of this one.
fn changed(answer: &Answer, change: impl Fn(&[Record], usize) -> Record) -> Answer {
    let all = records(answer);
    let records: Vec<Record> = (0..all.len()).map(|n| change(all, n)).collect();
    Answer { records: records.into_flattened(), ..answer.clone() }
}

fn with_parent(answer: &Answer, parent: impl Fn(&[Record], usize, u32) -> u32) -> Answer {
    changed(answer, |records, n| {
        let mut record = records[n];
        record[PARENT] = parent(records, n, record[PARENT]);
        record
    })
}

/// Another parent for all but the root.
fn with_other_parent(answer: &Answer, parent: impl Fn(&[Record], usize, u32) -> u32) -> Answer {
    with_parent(answer, |records, n, own| if own == NONE { NONE } else { parent(records, n, own) })
}

fn with_root(answer: &Answer, parent: fn(usize) -> u32) -> Answer {
    with_parent(answer, |records, _, own| if own == NONE { parent(records.len()) } else { own })
}

/// The first later record for which something is true of both.
fn first_later(answer: &Answer, is_parent: fn(&Record, &Record) -> bool) -> Answer {
    with_other_parent(answer, |records, n, _| {
        let found = (n + 1..records.len()).find(|later| is_parent(&records[*later], &records[n]));
        found.map_or(NONE, |found| found as u32)
    })
}

/// How many collections a record is in.
fn depth(records: &[Record], n: usize) -> usize {
    match records[n][PARENT] {
        NONE => 0,
        parent => 1 + depth(records, parent as usize),
    }
}

/// Which of its parent's children a record is.
fn place(records: &[Record], n: usize) -> usize {
    let mut children = children(records, records[n][PARENT] as usize);
    children.reverse();
    children.iter().position(|child| *child == n).expect("a child of its parent")
}

/// Another flag for the nodes whose event is of a kind.
fn with_flag(case: &Case, answer: &Answer, flag: u32, is_of: fn(&Body) -> bool) -> Answer {
    let completing: Vec<Event> = decode::events(&case.events).into_iter().filter(Event::completes).collect();
    changed(answer, |records, n| {
        let mut record = records[n];
        if is_of(&completing[n].body) {
            record[MEASURED] = flag;
        }
        record
    })
}

fn is_of_style(body: &Body, style: ScalarStyle) -> bool {
    matches!(body, Body::Scalar(scalar) if scalar.style == style)
}

/// The answer in the room that a count of records has.
fn with_room(case: &Case, records: u32) -> Answer {
    answer(&Case { record_room: 14 * records, ..case.clone() })
}

const FAULTS: [(&str, Fault); 48] = [
    ("one too many", |_, answer| with_other_parent(answer, |_, _, own| own + 1)),
    ("one too few", |_, answer| with_other_parent(answer, |_, _, own| own - 1)),
    ("the grandparent", |_, answer| with_other_parent(answer, |records, _, own| records[own as usize][PARENT])),
    ("the root", |_, answer| with_other_parent(answer, |records, _, _| records.len() as u32 - 1)),
    ("the grandparent, or the root", |_, answer| {
        with_other_parent(answer, |records, _, own| records[own as usize][PARENT].min(records.len() as u32 - 1))
    }),
    ("the root its own", |_, answer| with_root(answer, |count| count as u32 - 1)),
    ("the root one past it", |_, answer| with_root(answer, |count| count as u32)),
    ("the root record 0", |_, answer| with_root(answer, |_| 0)),
    ("a root that is a scalar record 0", |_, answer| {
        with_parent(answer, |records, _, own| if records.len() == 1 { 0 } else { own })
    }),
    ("none for a root's children", |_, answer| {
        with_other_parent(answer, |records, _, own| if own as usize == records.len() - 1 { NONE } else { own })
    }),
    ("none at all", |_, answer| with_parent(answer, |_, _, _| NONE)),
    ("the next record", |_, answer| with_other_parent(answer, |_, n, _| n as u32 + 1)),
    ("the next collection", |_, answer| first_later(answer, |later, _| later[KIND] >= ARRAY)),
    ("the next with children", |_, answer| first_later(answer, |later, _| later[KIND] >= ARRAY && later[COUNT] > 0)),
    ("the next with a larger subtree", |_, answer| {
        first_later(answer, |later, record| later[SUBTREE] > record[SUBTREE])
    }),
    ("the first that starts no later", |_, answer| first_later(answer, |later, record| later[START] <= record[START])),
    ("the first that starts before", |_, answer| first_later(answer, |later, record| later[START] < record[START])),
    ("the first that ends no earlier", |_, answer| first_later(answer, |later, record| later[END] >= record[END])),
    ("the first that covers", |_, answer| {
        first_later(answer, |later, record| later[START] <= record[START] && later[END] >= record[END])
    }),
    ("the first collection that covers", |_, answer| {
        first_later(answer, |later, record| {
            later[KIND] >= ARRAY && later[START] <= record[START] && later[END] >= record[END]
        })
    }),
    ("the last child's alone", |_, answer| {
        with_other_parent(answer, |_, n, own| if own as usize == n + 1 { own } else { NONE })
    }),
    ("the first child's alone", |_, answer| {
        with_other_parent(answer, |records, n, own| if place(records, n) == 0 { own } else { NONE })
    }),
    ("not past 255 children", |_, answer| {
        with_other_parent(answer, |records, n, own| if place(records, n) > 254 { NONE } else { own })
    }),
    ("not 256 records on", |_, answer| {
        with_other_parent(answer, |_, n, own| if own as usize - n > 255 { NONE } else { own })
    }),
    ("a distance of one byte", |_, answer| {
        with_other_parent(answer, |_, n, own| n as u32 + u32::from((own - n as u32) as u8))
    }),
    ("a parent of one byte", |_, answer| with_other_parent(answer, |_, _, own| own & 0xFF)),
    ("not below 32 levels", |_, answer| {
        with_other_parent(answer, |records, n, own| if depth(records, n) > 32 { NONE } else { own })
    }),
    ("not below 63 levels", |_, answer| {
        with_other_parent(answer, |records, n, own| if depth(records, n) > 63 { NONE } else { own })
    }),
    ("a value's is its key", |_, answer| {
        with_other_parent(answer, |records, n, own| {
            if records[own as usize][KIND] == HASH && place(records, n) % 2 == 1 {
                n as u32 - records[n][SUBTREE]
            } else {
                own
            }
        })
    }),
    ("a key's is its value", |_, answer| {
        with_other_parent(answer, |records, n, own| {
            let siblings = children(records, own as usize);
            match place(records, n) {
                place if records[own as usize][KIND] == HASH && place % 2 == 0 => {
                    siblings[siblings.len() - 2 - place] as u32
                }
                _ => own,
            }
        })
    }),
    ("the collection before it", |_, answer| {
        with_other_parent(answer, |records, n, own| match (n as u32).checked_sub(records[n][SUBTREE]) {
            Some(before) if place(records, n) > 0 && records[before as usize][KIND] >= ARRAY => before,
            _ => own,
        })
    }),
    ("an empty collection behind it", |_, answer| {
        with_other_parent(answer, |records, n, own| {
            if records[n + 1][KIND] >= ARRAY && records[n + 1][COUNT] == 0 { n as u32 + 1 } else { own }
        })
    }),
    ("both exchanged", |_, answer| {
        changed(answer, |records, n| {
            let mut record = records[n];
            record.swap(PARENT, MEASURED);
            record
        })
    }),
    ("an alias assumed", |case, answer| with_flag(case, answer, 0, |body| matches!(body, Body::Alias))),
    ("a collection assumed", |case, answer| with_flag(case, answer, 0, |body| matches!(body, Body::End(_)))),
    ("an array assumed", |_, answer| {
        changed(answer, |records, n| {
            let mut record = records[n];
            record[MEASURED] &= u32::from(record[KIND] != ARRAY);
            record
        })
    }),
    ("all scalars measured", |case, answer| with_flag(case, answer, 1, |body| matches!(body, Body::Scalar(_)))),
    ("plain ones measured", |case, answer| with_flag(case, answer, 1, |body| is_of_style(body, ScalarStyle::Plain))),
    ("single-quoted ones measured", |case, answer| {
        with_flag(case, answer, 1, |body| is_of_style(body, ScalarStyle::SingleQuoted))
    }),
    ("double-quoted ones measured", |case, answer| {
        with_flag(case, answer, 1, |body| is_of_style(body, ScalarStyle::DoubleQuoted))
    }),
    ("literal ones assumed", |case, answer| with_flag(case, answer, 0, |body| is_of_style(body, ScalarStyle::Literal))),
    ("folded ones assumed", |case, answer| with_flag(case, answer, 0, |body| is_of_style(body, ScalarStyle::Folded))),
    ("tagged scalars measured", |case, answer| {
        with_flag(case, answer, 1, |body| matches!(body, Body::Scalar(scalar) if scalar.tag.is_some()))
    }),
    ("tagged scalars assumed", |case, answer| {
        with_flag(case, answer, 0, |body| matches!(body, Body::Scalar(scalar) if scalar.tag.is_some()))
    }),
    ("empty values assumed", |case, answer| {
        with_flag(case, answer, 0, |body| matches!(body, Body::Scalar(scalar) if scalar.value.is_empty()))
    }),
    ("empty values measured", |case, answer| {
        with_flag(case, answer, 1, |body| matches!(body, Body::Scalar(scalar) if scalar.value.is_empty()))
    }),
    ("room in twelves", |case, _| with_room(case, case.record_room / 12)),
    ("room rounded up", |case, _| with_room(case, case.record_room.div_ceil(14))),
];

#[test]
fn faults_answer_otherwise() {
    answers::silence_listed_panic();
    let mut left = FAULTS.to_vec();
    for case in sample() {
        let answer = answer(&case);
        left.retain(|(_, fault)| fault(&case, &answer) == answer);
        if left.is_empty() {
            return;
        }
    }
    panic!("not noticed: {:?}", left.iter().map(|(name, _)| name).collect::<Vec<_>>());
}

/// What fits is built, and what is short is refused; rooms that fit, that are one number short and one record short are met often.
#[test]
fn rooms_are_met() {
    let mut met = [0; 3];
    for case in sample() {
        let nodes = answer(&Case { record_room: u32::MAX, ..case.clone() }).returned[1];
        let exact = 14 * nodes;
        let refused = answer(&case).returned[0] == 7;
        assert!(refused == (case.record_room < exact) || answer(&case).returned[0] == 6, "{case:?}");
        for (met, room) in met.iter_mut().zip([exact, exact - 1, exact - 14]) {
            *met += u32::from(case.record_room == room);
        }
    }
    assert!(met.iter().all(|met| *met > 1_000), "{met:?}");
}

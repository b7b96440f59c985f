//! The second implementation of (b) beside the original, in what the original has of it: the length of a plain or quoted span.

use answers::measured::length;
use cases::rng::Rng;
use cases::run::Run;
use cases::{FAMILIES, RANDOM, SEED};
use framing::Case;

/// Families whose cases are one scalar.
const ONE_SCALAR: [&str; 5] = ["schema", "measures", "measured", "walks", "classes"];

const RANDOM_CASES: usize = 20_000;

/// The length of a case's plain or quoted span, by the second implementation and by the original; none for another case.
fn lengths(case: &Case) -> Option<[usize; 2]> {
    let answer = answers::answer(case);
    let scalars = answers::scalars(&case.events);
    let ([0, 1, _], [(index, scalar)]) = (answer.returned, &scalars[..]) else {
        return None;
    };
    let text = str::from_utf8(&case.text).ok()?;
    let value = str::from_utf8(&case.events[scalar.value.clone()]).ok()?;
    let second = length(text, *index as usize, scalar.style, value)?;
    Some([second, (answer.records[2] - answer.records[1]) as usize])
}

#[test]
fn lengths_are_the_originals() {
    answers::silence_listed_panic();
    let mut held = 0;
    let mut hold = |case: &Case| {
        if let Some([second, original]) = lengths(case) {
            assert_eq!(second, original, "{case:?}");
            held += 1;
        }
    };
    for (_, family) in FAMILIES.iter().filter(|(name, _)| ONE_SCALAR.contains(name)) {
        family(&mut Run::new(false, Rng::new(SEED), &mut hold));
    }
    for (_, put) in RANDOM.iter().filter(|(name, _)| ONE_SCALAR.contains(name)) {
        let mut run = Run::new(true, Rng::new(SEED), &mut hold);
        for _ in 0..RANDOM_CASES {
            put(&mut run);
        }
    }
    assert!(held > 4 * RANDOM_CASES, "{held}");
}

/// The calls refuse alike, but for a value that is no UTF-8, and there is room for every piece.
#[test]
fn room_is_ample() {
    let (_, family) = FAMILIES.iter().find(|(name, _)| *name == "measured").expect("the family");
    let mut hold = |case: &Case| {
        let refused = answers::measured(case).returned[0];
        let built = answers::answer(case).returned[0];
        assert!(built == refused || (refused, built) == (2, 3), "{case:?}");
    };
    answers::silence_listed_panic();
    family(&mut Run::new(false, Rng::new(SEED), &mut hold));
}

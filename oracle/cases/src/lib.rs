//! Cases for the port and the original, in families.
//!
//! A family is its special cases, an enumeration of short ones and random ones. The full list has them all, or evenly
//! spaced ones where an enumeration is too long; the sample has the special cases, fewer of the enumeration and the
//! first of the random ones.

pub mod chapter;
mod classes;
mod damaged;
mod events;
mod measured;
mod measures;
mod nodes;
mod offsets;
mod parents;
pub mod rng;
pub mod run;
mod scan_errors;
mod schema;
pub mod script;
mod source;
mod starts;
mod stretches;
mod tags;
mod travels;
mod trees;
mod walks;
mod words;

use run::Run;

/// Puts a family's cases.
pub type Family = fn(&mut Run);

/// The families that `build` answers, by their names.
pub const FAMILIES: [(&str, Family); 11] = [
    ("offsets", offsets::write),
    ("schema", schema::write),
    ("measures", measures::write),
    ("measured", measured::write),
    ("walks", walks::write),
    ("classes", classes::write),
    ("tags", tags::write),
    ("events", events::write),
    ("trees", trees::write),
    ("parents", parents::write),
    ("starts", starts::write),
];

/// Those that the accessors, `scan_error` and `cursor_travel` answer.
pub const OTHER_FAMILIES: [(&str, Family); 4] = [
    ("nodes", nodes::write),
    ("damaged", damaged::write),
    ("scan_errors", scan_errors::write),
    ("travels", travels::write),
];

/// Puts the next random cases of a family.
pub const RANDOM: [(&str, Family); 11] = [
    ("offsets", offsets::put_random),
    ("schema", schema::put_random),
    ("measures", measures::put_random),
    ("measured", measured::put_random),
    ("walks", walks::put_random),
    ("breaks", walks::put_breaks),
    ("stretches", stretches::put_random),
    ("tags", tags::put_random),
    ("trees", trees::put_random),
    ("parents", parents::put_random),
    ("starts", starts::put_random),
];

/// Puts the next random case of the family `travels`.
pub const RANDOM_TRAVEL: Family = travels::put_random;

/// Sizes at the limits, of documents and of the family `travels`.
pub const LIMITS: Family = trees::put_limits;
pub const TRAVEL_LIMITS: Family = travels::put_limits;

/// The seed of the committed lists.
pub const SEED: u64 = 20_261_008;

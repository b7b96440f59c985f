//! What a step of the cursor costs.
//!
//! - Aliases in a sequence, over a text of characters of two bytes, of three, of all lengths, or of ASCII but for one: markers that go back and
//!   forth over the whole text, and that go over it once in steps of eight characters. That there is no scalar leaves little but the cursor.
//!   Each is built again with all its markers at the text's start, where the cursor stands still; "moving" is the rest of the time, for a
//!   step. "back" is what is left of that without the ways to the text's end in one, which are timed apart, for a step back.
//! - Chapters as they are, whose markers fall a little at each mapping. All that is built is in the time for a step.
//!
//! The port's, the original's and the call `cursor_travel` take turns.

use crate::SEED;
use crate::timing::{Bench, Figures, median, timed};
use answers::travel::{markers, travel};
use cases::chapter::{self, Shape};
use cases::run::{aliases, characters, filled};
use cases::script::SCRIPTS;
use framing::Case;
use std::hint::black_box;

/// What texts are filled with; of the last only the first character is no ASCII.
const UNITS: [(&str, &str); 4] =
    [("two bytes", "é"), ("three bytes", "の"), ("all lengths", "aé€😀"), ("one byte, but for one", "a")];
const SIZES: [usize; 3] = [16_000, 64_000, 256_000];

/// So many markers go back and forth.
const TURNS: usize = 64;
const SMALL: usize = 8;

/// Turns that are not counted.
const BEFORE: usize = 3;

pub fn travels(repeats: usize) {
    println!("{repeats} turns, seed {SEED}. Times are medians.");
    for (name, unit) in UNITS {
        println!("\nAliases over characters of {name}");
        heading();
        for size in SIZES {
            let text = match unit {
                "a" => format!("é{}", filled(unit, size - 2)),
                _ => filled(unit, size),
            };
            let end = characters(&text);
            let forth = time(&text, end, repeats) - time(&text, 0, repeats);
            for Way { name, indices, forths, back } in ways(end) {
                let last = indices[indices.len() - 1];
                let still = aliases(&text, &vec![0; indices.len()], 0);
                let beside = Beside { still, forth: forth * forths, back };
                let case = aliases(&text, &indices, last);
                print(&format!("{} KB, {name}", size / 1_000), &case, Some(&beside), repeats);
            }
        }
    }
    println!("\nChapters as they are, mixed");
    heading();
    for script in &SCRIPTS {
        for size in SIZES {
            let case = chapter::chapter(Shape::Mixed, script, size, SEED);
            print(&format!("{} KB, {}", size / 1_000, script.name), &case, None, repeats);
        }
    }
}

/// The port's nanoseconds for one alias at an index.
fn time(text: &str, index: u32, repeats: usize) -> f64 {
    median(Bench::new(&aliases(text, &[index], index)).figures(repeats).port())
}

/// The indices of aliases.
struct Way {
    name: &'static str,
    indices: Vec<u32>,
    /// How often it goes from the text's start to its end in one, or almost.
    forths: f64,
    /// How many steps it goes back.
    back: u32,
}

/// Over a text of so many characters.
fn ways(end: u32) -> [Way; 3] {
    let rising: Vec<u32> = (0..=end).step_by(SMALL).collect();
    let falling: Vec<u32> = rising.iter().rev().copied().collect();
    let back_and_forth = (0..TURNS).map(|turn| if turn % 2 == 0 { end } else { 0 }).collect();
    let half = TURNS as u32 / 2;
    [
        Way { name: "back and forth", indices: back_and_forth, forths: f64::from(half), back: half * end },
        Way { name: "forward by 8", indices: rising, forths: 0.0, back: 0 },
        Way { name: "to the end, back by 8", back: falling[0], indices: falling, forths: 1.0 },
    ]
}

/// What a case is timed beside.
struct Beside {
    /// The same with its markers at the text's start.
    still: Case,
    /// Nanoseconds of its ways to the text's end in one.
    forth: f64,
    /// How many steps it goes back.
    back: u32,
}

fn heading() {
    println!(
        "{:32} {:>10} {:>7} {:>8} {:>9} {:>9} {:>7} {:>7} {:>7} {:>11} {:>6} {:>9}",
        "",
        "characters",
        "markers",
        "steps",
        "port µs",
        "still µs",
        "ns/step",
        "moving",
        "back",
        "original µs",
        "ratio",
        "travel µs"
    );
}

/// Nanoseconds of each turn.
#[derive(Default)]
struct Times {
    as_it_is: Figures,
    still: Figures,
    travel: Vec<f64>,
}

/// The case, the same with its markers at the text's start if there is one, and the call on its text and markers.
fn times(case: &Case, still: Option<&Case>, markers: &[u32], repeats: usize) -> Times {
    let mut bench = Bench::new(case);
    let mut still = still.map(Bench::new);
    let mut times = Times::default();
    for turn in 0..BEFORE + repeats {
        if turn == BEFORE {
            times = Times::default();
        }
        bench.turn(&mut times.as_it_is);
        if let Some(still) = &mut still {
            still.turn(&mut times.still);
        }
        times.travel.push(timed(|| _ = black_box(port::cursor_travel(black_box(&case.text), black_box(markers)))));
    }
    times
}

/// Panics where the port does not answer as the original does, or counts otherwise than the second implementation.
fn print(name: &str, case: &Case, beside: Option<&Beside>, repeats: usize) {
    let markers = markers(&case.events);
    let (row, steps) = port::cursor_travel(&case.text, &markers);
    assert_eq!((row, steps), travel(&case.text, &markers));
    let times = times(case, beside.map(|beside| &beside.still), &markers, repeats);
    let port = times.as_it_is.port();
    let moving: Vec<f64> = port.iter().zip(times.still.port()).map(|(port, still)| port - still).collect();
    let of_a_step = |times: &[f64]| match steps {
        0 => String::from("-"),
        _ => column(times, steps as f64, 2),
    };
    let of_a_step_back = match beside {
        Some(Beside { forth, back: back @ 1.., .. }) => {
            format!("{:.2}", (median(&moving) - forth) / f64::from(*back))
        }
        _ => String::from("-"),
    };
    println!(
        "{name:32} {:10} {:7} {steps:8} {:9.1} {:>9} {:>7} {:>7} {of_a_step_back:>7} {:11.1} {:6.2} {:9.1}",
        characters(str::from_utf8(&case.text).expect("the text of a document")),
        markers.len(),
        median(port) / 1e3,
        column(times.still.port(), 1e3, 1),
        of_a_step(port),
        of_a_step(&moving),
        median(&times.as_it_is.original()) / 1e3,
        times.as_it_is.ratio(),
        median(&times.travel) / 1e3,
    );
}

/// The median of some times in a unit, or none.
fn column(times: &[f64], unit: f64, digits: usize) -> String {
    if times.is_empty() { String::from("-") } else { format!("{:.digits$}", median(times) / unit) }
}

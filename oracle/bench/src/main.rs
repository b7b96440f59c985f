//! `bench [REPEATS]`: the port beside the unchanged original, and a plain sum over the same bytes, in one process. `bench travel [REPEATS]`:
//! what a step of the cursor costs.
//!
//! - Port: one call on ready bytes into ready buffers. That is the UTF-8 test of text and events, the reading of the
//!   events, the tree, the pieces, and the clearing of both buffers.
//! - Original: `parse` on a text known to be UTF-8, with the events handed in as values; then the drop of the tree. The
//!   making of the events is not counted.
//! - Sum: of all bytes of text and events, as the compiler has it.
//!
//! The three take turns. A ratio is of one turn; it is given as the median of all turns with the quartiles.

mod timing;
mod travel;

use answers::Received;
use cases::chapter::{self, Shape};
use cases::run::{DOUBLE_QUOTED, one_scalar};
use cases::script::SCRIPTS;
use framing::event::{Event, Scalar, encode};
use framing::{Case, RECORD_NUMBERS};
use std::env;
use timing::{Bench, Figures};

const SEED: u64 = 20_261_116;
const REPEATS: usize = 31;
const SHAPES: [Shape; 3] = [Shape::Short, Shape::Mixed, Shape::Long];
const SIZES: [usize; 5] = [50_000, 100_000, 200_000, 500_000, 1_000_000];
/// The scripts are compared at this size.
const SIZE: usize = 200_000;

fn main() {
    let mut arguments = env::args().skip(1).peekable();
    let travels = arguments.next_if(|argument| argument == "travel").is_some();
    let repeats = arguments.next().map_or(REPEATS, |count| count.parse().expect("a count of repeats"));
    if travels {
        return travel::travels(repeats);
    }
    println!("{repeats} turns, seed {SEED}. Times are medians; a ratio has its quartiles.");
    scripts(repeats);
    growth(repeats);
    runs(repeats);
    classes(repeats);
}

fn scripts(repeats: usize) {
    println!("\nChapters of {} KB", SIZE / 1_000);
    Figures::heading();
    let mut lowest = f64::INFINITY;
    for shape in SHAPES {
        for script in &SCRIPTS {
            let case = chapter::chapter(shape, script, SIZE, SEED);
            let figures = Bench::new(&case).figures(repeats);
            lowest = lowest.min(figures.ratio());
            figures.print(&format!("{shape:?}, {}", script.name));
        }
    }
    println!("The lowest median ratio is {lowest:.2}.");
}

fn growth(repeats: usize) {
    println!("\nGrowth with the chapter");
    Figures::heading();
    for (shape, script) in [(Shape::Short, 0), (Shape::Mixed, 1), (Shape::Long, 0), (Shape::Long, 3)] {
        for size in SIZES {
            let script = &SCRIPTS[script];
            let case = chapter::chapter(shape, script, size, SEED);
            let figures = Bench::new(&case).figures(repeats);
            figures.print(&format!("{shape:?}, {}, {} KB", script.name, size / 1_000));
        }
    }
}

/// Two letters with blanks between them: the original looks at the run from each of its blanks.
fn runs(repeats: usize) {
    println!("\nTwo letters with blanks between them");
    Figures::heading();
    for blanks in [2_000, 4_000, 8_000, 16_000] {
        let text = format!("a{}b", " ".repeat(blanks));
        let events = encode(&[Event::Scalar(Scalar { value: text.as_bytes(), ..Scalar::default() })]);
        let case = Case { text: text.into_bytes(), events, record_room: RECORD_NUMBERS as u32, piece_room: 64 };
        Bench::new(&case).figures(repeats.min(9)).print(&format!("{blanks} blanks"));
    }
}

/// Scalars of which every step asks for the class of some bytes: the digits of an escape, the white space of a break.
fn classes(repeats: usize) {
    println!("\nEscapes and breaks alone");
    Figures::heading();
    for count in [2_000, 4_000, 8_000, 16_000] {
        let value = "é".repeat(count);
        let scalar = Scalar { style: DOUBLE_QUOTED, value: value.as_bytes(), ..Scalar::default() };
        let case = one_scalar(&format!("\"{}\"", "\\u00e9".repeat(count)), scalar);
        Bench::new(&case).figures(repeats).print(&format!("{count} escapes"));
        let value = "a ".repeat(count) + "a";
        let scalar = Scalar { value: value.as_bytes(), ..Scalar::default() };
        let case = one_scalar(&("a\n  ".repeat(count) + "a"), scalar);
        Bench::new(&case).figures(repeats).print(&format!("{count} breaks"));
    }
}

/// The events as the original receives them.
fn received(case: &Case) -> Vec<Received> {
    answers::received(&case.events)
}

//! One case, answered by both alike, and then timed.

use crate::received;
use answers::Received;
use framing::{Case, RECORD_NUMBERS};
use std::hint::black_box;
use std::time::Instant;

pub struct Bench<'a> {
    case: &'a Case,
    text: &'a str,
    events: Vec<Received>,
    records: Vec<u32>,
    pieces: Vec<u32>,
}

/// Nanoseconds of each turn.
#[derive(Default)]
pub struct Figures {
    bytes: usize,
    nodes: u32,
    port: Vec<f64>,
    build: Vec<f64>,
    drop: Vec<f64>,
    sum: Vec<f64>,
}

impl<'a> Bench<'a> {
    /// Panics where the two do not answer alike, or refuse.
    pub fn new(case: &'a Case) -> Self {
        let expected = answers::answer(case);
        let mut records = vec![u32::MAX; case.record_room as usize];
        let mut pieces = vec![u32::MAX; case.piece_room as usize];
        let returned = port::build(&case.text, &case.events, &mut records, &mut pieces);
        assert_eq!(returned[0], 0, "the port builds the chapter");
        assert_eq!(returned, expected.returned);
        assert!(holds(&records, &expected.records) && holds(&pieces, &expected.pieces), "the buffers differ");
        let text = str::from_utf8(&case.text).expect("a text that both let in");
        Self { case, text, events: received(case), records, pieces }
    }

    pub fn figures(&mut self, repeats: usize) -> Figures {
        for _ in 0..3 {
            self.turn(&mut Figures::default());
        }
        let nodes = self.case.record_room / RECORD_NUMBERS as u32;
        let mut figures = Figures { bytes: self.case.text.len(), nodes, ..Figures::default() };
        for _ in 0..repeats {
            self.turn(&mut figures);
        }
        figures
    }

    pub fn turn(&mut self, figures: &mut Figures) {
        figures.port.push(timed(|| {
            black_box(port::build(&self.case.text, &self.case.events, &mut self.records, &mut self.pieces));
        }));
        saphyr_parser::hand_in(self.events.clone());
        let mut tree = None;
        figures.build.push(timed(|| tree = Some(quarto_yaml::parse(black_box(self.text)))));
        figures.drop.push(timed(|| drop(black_box(tree.take()))));
        figures.sum.push(timed(|| {
            black_box(sum(black_box(&self.case.text)) + sum(black_box(&self.case.events)));
        }));
    }
}

impl Figures {
    pub fn heading() {
        println!(
            "{:32} {:>8} {:>7} {:>9} {:>9} {:>9} {:>8} {:>7} {:>6} {:>14} {:>7}",
            "",
            "bytes",
            "nodes",
            "port µs",
            "build µs",
            "drop µs",
            "sum µs",
            "ns/byte",
            "ratio",
            "quartiles",
            "no drop"
        );
    }

    pub fn print(&self, name: &str) {
        let [low, middle, high] = quartiles(&self.ratios());
        println!(
            "{name:32} {:8} {:7} {:9.1} {:9.1} {:9.1} {:8.1} {:7.2} {middle:6.2} {low:6.2}..{high:6.2} {:7.2}",
            self.bytes,
            self.nodes,
            median(&self.port) / 1e3,
            median(&self.build) / 1e3,
            median(&self.drop) / 1e3,
            median(&self.sum) / 1e3,
            median(&self.port) / self.bytes as f64,
            median(&self.build) / median(&self.port),
        );
    }

    /// The original's time, its drop counted in, over the port's.
    pub fn ratio(&self) -> f64 {
        median(&self.ratios())
    }

    /// Those of the port.
    pub fn port(&self) -> &[f64] {
        &self.port
    }

    /// Those of the original, its drop counted in.
    pub fn original(&self) -> Vec<f64> {
        self.build.iter().zip(&self.drop).map(|(build, drop)| build + drop).collect()
    }

    fn ratios(&self) -> Vec<f64> {
        self.original().iter().zip(&self.port).map(|(original, port)| original / port).collect()
    }
}

fn holds(buffer: &[u32], expected: &[u32]) -> bool {
    buffer.starts_with(expected) && buffer[expected.len()..].iter().all(|number| *number == 0)
}

pub fn timed(run: impl FnOnce()) -> f64 {
    let start = Instant::now();
    run();
    start.elapsed().as_nanos() as f64
}

fn sum(bytes: &[u8]) -> u64 {
    bytes.iter().map(|byte| u64::from(*byte)).sum()
}

pub fn median(times: &[f64]) -> f64 {
    quartiles(times)[1]
}

fn quartiles(times: &[f64]) -> [f64; 3] {
    let mut times = times.to_vec();
    times.sort_by(f64::total_cmp);
    [1, 2, 3].map(|quarter| times[(times.len() - 1) * quarter / 4])
}

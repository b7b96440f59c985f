//! `compare [--exact|--full] [CASES] [SEED]`: every number that the port hands back or leaves in a lent buffer, held to the
//! original's answer, in one process.
//!
//! First the sample of each family with the corpus, or with `--full` its full list; then sizes at the limits and chapters;
//! then CASES random ones. `--exact` puts each input and buffer into an allocation of its exact size, for a memory checker,
//! and leaves out what is large. A case that differs is shrunk and printed; the exit status says whether there was one.
//!
//! The last two numbers of a record, which the original does not have, are held to second implementations: the parent, and whether a
//! scalar's span is measured or assumed. So is the count of `cursor_travel`, on a family of its own and on every document. Where a scalar
//! starts is held to one too, which no start outside of the text can come from: an original's start that is another stops the program.

mod calls;
mod coverage;
mod held;
mod show;
mod shrink;
#[cfg(test)]
mod tests;
mod travels;

use cases::chapter::{self, Shape};
use cases::rng::Rng;
use cases::run::Run;
use cases::script::SCRIPTS;
use cases::{FAMILIES, Family, LIMITS, OTHER_FAMILIES, RANDOM, RANDOM_TRAVEL, SEED, TRAVEL_LIMITS};
use coverage::Coverage;
use framing::{Answer, Case};
use held::{Build, Memory, outcome};
use std::env;
use std::process::ExitCode;
use travels::Travel;

const CASES: u64 = 2_000_000;

/// So many cases that differ are shrunk and printed.
const PRINTED: u64 = 5;

struct Options {
    full: bool,
    memory: Memory,
    cases: u64,
    seed: u64,
}

struct Comparison {
    build: Build,
    travel: travels::Call,
    memory: Memory,
    coverage: Coverage,
    cases: u64,
    /// Those that are no documents, but a text and markers.
    travels: u64,
    panicked: u64,
    different: u64,
    /// Cases on which one of the other calls differs.
    other_calls: u64,
}

fn main() -> ExitCode {
    answers::silence_listed_panic();
    let Some(options) = options() else {
        eprintln!("usage: compare [--exact|--full] [CASES] [SEED]");
        return ExitCode::FAILURE;
    };
    let mut comparison = Comparison::new(port::build, options.memory);
    comparison.families(options.full);
    comparison.buffers(options.full);
    comparison.travels("travels", family_of_other_calls("travels"), options.full);
    if options.memory == Memory::Guarded {
        comparison.family("limits", LIMITS, false, SEED);
        comparison.travels("limits of travels", TRAVEL_LIMITS, false);
        comparison.chapters(options.seed);
    }
    println!("random cases, seed {}", options.seed);
    comparison.random(options.cases, options.seed);
    comparison.report()
}

fn options() -> Option<Options> {
    let mut options = Options { full: false, memory: Memory::Guarded, cases: CASES, seed: SEED };
    let mut numbers = Vec::new();
    for argument in env::args().skip(1) {
        match argument.as_str() {
            "--full" => options.full = true,
            "--exact" => options.memory = Memory::Exact,
            number => numbers.push(number.parse().ok()?),
        }
    }
    match numbers[..] {
        [] => {}
        [cases] => options.cases = cases,
        [cases, seed] => (options.cases, options.seed) = (cases, seed),
        _ => return None,
    }
    Some(options)
}

impl Comparison {
    fn new(build: Build, memory: Memory) -> Self {
        Self {
            build,
            travel: port::cursor_travel,
            memory,
            coverage: Coverage::new(),
            cases: 0,
            travels: 0,
            panicked: 0,
            different: 0,
            other_calls: 0,
        }
    }

    fn families(&mut self, full: bool) {
        for (name, family) in FAMILIES {
            self.family(name, family, full, SEED);
        }
    }

    fn family(&mut self, name: &str, family: Family, full: bool, seed: u64) {
        let before = self.cases;
        family(&mut Run::new(full, Rng::new(seed), &mut |case| self.compare(case)));
        println!("{:9} cases of {name}, seed {seed}", self.cases - before);
    }

    /// The buffers of the family `damaged`, read by the calls that read any buffer.
    fn buffers(&mut self, full: bool) {
        let family = family_of_other_calls("damaged");
        let mut buffers = 0;
        let mut hold = |case: &Case| {
            buffers += 1;
            if let Some(n) = calls::PORT.differing_in_buffer(case, self.memory) {
                self.other_calls += 1;
                if self.other_calls <= PRINTED {
                    println!("buffer {buffers}: parent, or is_measured, of record {n} differs");
                    show::print_buffer(case);
                }
            }
        };
        family(&mut Run::new(full, Rng::new(SEED), &mut hold));
        println!("{buffers:9} buffers of damaged, seed {SEED}");
    }

    /// Texts and markers of the family `travels`.
    fn travels(&mut self, name: &str, family: Family, full: bool) {
        let before = self.travels;
        family(&mut Run::new(full, Rng::new(SEED), &mut |case| self.compare_travel_case(case)));
        println!("{:9} cases of {name}, seed {SEED}", self.travels - before);
    }

    fn chapters(&mut self, seed: u64) {
        for shape in [Shape::Short, Shape::Mixed, Shape::Long] {
            for script in &SCRIPTS {
                for bytes in [50_000, 300_000, 1_000_000] {
                    self.compare(&chapter::chapter(shape, script, bytes, seed));
                }
            }
        }
        println!("{:9} chapters, seed {seed}", 9 * SCRIPTS.len());
    }

    /// Random cases of the families in turn, and with each one of the family `travels`; now and then also with their text damaged.
    fn random(&mut self, cases: u64, seed: u64) {
        let end = self.cases + cases;
        let mut rng = Rng::new(seed);
        let mut travels = Rng::new(seed);
        while self.cases < end {
            let (_, put) = rng.pick(&RANDOM);
            let damaged = rng.once_in(16);
            let mut damage = Rng::new(rng.number());
            let own = Rng::new(rng.number());
            put(&mut Run::new(true, own, &mut |case| {
                self.compare(case);
                if damaged && !case.text.is_empty() {
                    self.compare(&with_damaged_text(case, &mut damage));
                }
            }));
            RANDOM_TRAVEL(&mut Run::new(true, Rng::new(travels.number()), &mut |case| {
                self.compare_travel_case(case);
                if damaged && !case.text.is_empty() {
                    self.compare_travel_case(&with_damaged_text(case, &mut damage));
                }
            }));
        }
    }

    fn compare(&mut self, case: &Case) {
        let answer = answers::answer(case);
        let found = outcome(self.build, case, self.memory);
        self.cases += 1;
        self.panicked += u64::from(answer.returned[0] == Answer::PANICKED);
        self.coverage.add(case, &answer);
        let same = found.is(&answer);
        // Where the original panics, what the port leaves in the records is not known.
        let is_read = same && answer.returned[0] != Answer::PANICKED;
        let misread = if is_read { calls::PORT.differing(&answer, &found.records) } else { None };
        let other_calls = [
            (!calls::agree(case, &answer, self.memory)).then(|| "the call on one scalar, or scan_error,".into()),
            misread.map(|n| format!("parent, or is_measured, of record {n}")),
        ];
        for name in other_calls.iter().flatten() {
            self.other_calls += 1;
            if self.other_calls <= PRINTED {
                println!("case {}: {name} differs", self.cases);
                show::print(case, &found, &answer);
            }
        }
        self.compare_travel(&Travel::of_document(case));
        if !same {
            self.different += 1;
            if self.different <= PRINTED {
                self.print(case);
            }
        }
    }

    fn compare_travel_case(&mut self, case: &Case) {
        self.travels += 1;
        self.compare_travel(&Travel::of(case));
    }

    /// The call on a text and markers.
    fn compare_travel(&mut self, travel: &Travel) {
        let (call, memory) = (self.travel, self.memory);
        self.coverage.add_travel(travel, travel.expected());
        if travels::differs(call, travel, memory) {
            self.other_calls += 1;
            if self.other_calls <= PRINTED {
                let small = shrink::shrunk_travel(travel, |travel| travels::differs(call, travel, memory));
                println!("cursor_travel differs; its case made smaller:");
                show::print_travel(&small, &travels::outcome(call, &small, memory));
            }
        }
    }

    fn print(&self, case: &Case) {
        let (build, memory) = (self.build, self.memory);
        let small = shrink::shrunk(case, |case| held::differs(build, case, memory));
        println!("case {} differs; made smaller:", self.cases);
        show::print(&small, &outcome(build, &small, memory), &answers::answer(&small));
    }

    fn report(&self) -> ExitCode {
        println!("\nHow often each rule was met:");
        self.coverage.print();
        let missing = self.coverage.missing();
        if missing > 0 {
            println!("{missing} RULES WERE NEVER MET");
        }
        let [parents, flags, starts] = self.coverage.held();
        println!(
            "\n{parents} parents, {flags} flags and {starts} starts of scalars held to the second implementations"
        );
        println!("{} cases, {} of them not answered by the original", self.cases, self.panicked);
        println!("{} more of a text and markers alone", self.travels);
        let different = self.different + self.other_calls;
        println!("{different} different");
        if different == 0 { ExitCode::SUCCESS } else { ExitCode::FAILURE }
    }
}

/// A family that other calls than `build` answer.
fn family_of_other_calls(name: &str) -> Family {
    let (_, family) = OTHER_FAMILIES.iter().find(|(other, _)| *other == name).expect("the family");
    *family
}

/// The case with one byte of its text changed, which is often no UTF-8.
fn with_damaged_text(case: &Case, rng: &mut Rng) -> Case {
    let mut case = case.clone();
    let place = rng.below(case.text.len());
    case.text[place] = rng.pick(&[b'\n', b' ', b'\'', b'\\', 0x80, 0x85, 0xA0, 0xC3, 0xE2, 0xF0, 0xFF]);
    case
}

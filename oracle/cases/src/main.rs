//! `cases FAMILY sample|full [SEED]`: writes the cases of a family on standard output.

use cases::rng::Rng;
use cases::run::Run;
use cases::{FAMILIES, Family, OTHER_FAMILIES, SEED};
use std::env;
use std::io::{self, BufWriter, Write};
use std::process::ExitCode;

const USAGE: &str = "usage: cases FAMILY sample|full [SEED]
families: offsets schema measures measured walks classes tags events trees parents starts nodes damaged
          scan_errors travels";

fn main() -> ExitCode {
    answers::silence_listed_panic();
    let arguments: Vec<String> = env::args().skip(1).collect();
    let arguments: Vec<&str> = arguments.iter().map(String::as_str).collect();
    let Some((family, full, seed)) = parse(&arguments) else {
        eprintln!("{USAGE}");
        return ExitCode::FAILURE;
    };
    let mut out = BufWriter::new(io::stdout().lock());
    let mut put = |case: &framing::Case| case.write(&mut out).expect("standard output takes the cases");
    family(&mut Run::new(full, Rng::new(seed), &mut put));
    out.flush().expect("standard output takes the cases");
    ExitCode::SUCCESS
}

/// The family, whether the list is the full one, and the seed.
fn parse(arguments: &[&str]) -> Option<(Family, bool, u64)> {
    let (family, size, seed) = match *arguments {
        [family, size] => (family, size, SEED),
        [family, size, seed] => (family, size, seed.parse().ok()?),
        _ => return None,
    };
    let (_, family) = FAMILIES.iter().chain(&OTHER_FAMILIES).find(|(name, _)| *name == family)?;
    match size {
        "sample" => Some((*family, false, seed)),
        "full" => Some((*family, true, seed)),
        _ => None,
    }
}

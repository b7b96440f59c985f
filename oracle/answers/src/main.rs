//! `answers FAMILY`: reads cases on standard input, writes the list of their answers on standard output, and then says on
//! standard error how many cases there were and on how many the original panicked. The answers are those of the builder,
//! or for some families those of other calls.

use framing::{Answer, Case};
use std::env;
use std::io::{self, BufReader, BufWriter, Write};

fn main() -> io::Result<()> {
    answers::silence_listed_panic();
    let answer = match env::args().nth(1).as_deref() {
        Some("nodes") => answers::nodes,
        Some("damaged") => answers::damaged,
        Some("measured") => answers::measured,
        Some("scan_errors") => answers::scan_errors,
        Some("travels") => answers::travels,
        _ => answers::answer,
    };
    let mut input = BufReader::new(io::stdin().lock());
    let mut output = BufWriter::new(io::stdout().lock());
    let mut cases = 0;
    let mut panics = 0;
    while let Some(case) = Case::read(&mut input)? {
        let answer = answer(&case);
        answer.write(&case, &mut output)?;
        cases += 1;
        panics += u64::from(answer.returned[0] == Answer::PANICKED);
    }
    output.flush()?;
    eprintln!("{cases} cases, {panics} panics");
    Ok(())
}

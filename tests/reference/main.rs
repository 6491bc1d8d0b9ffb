// A reference implementation of the verdicts on packs and frames: the commands.
//
// It is written from the document of exact rules, the first and the seventh of the changes to it
// (Mode 1, and a format flag with nothing behind it) and the standards alone, and shares nothing
// with the code that it is compared with.
//
//     reference report             the report on lines of frames
//     reference rows               the verdicts on rows of pack bytes
//     reference make-rows          the rows that the project runs
//     reference make-again         rows of the packs of lines that are OK, to be written again
//     reference make-cuts          rows of Mode 1 packs to be cut after every byte
//     reference make-lines         lines of frames at the edges of every rule
//     reference corpus SEED COUNT  lines of frames, good and bad, from a seed
//     reference tally              how often each word and reason occurs in a report
//     reference check SEED COUNT   compares the verdicts with a search among all endings

mod address;
mod alone;
mod array;
mod check;
mod corpus;
mod frame;
mod framed;
mod lines;
mod matrix;
mod mode1;
mod order;
mod rows;
mod scaling;
mod values;
mod verdict;
mod writes;

use std::collections::BTreeMap;
use std::io::{self, BufRead, BufWriter, Write};

/// How often each word occurs in a report, and each reason behind BAD.
fn tally(input: &mut dyn BufRead, output: &mut dyn Write) -> io::Result<()> {
    let mut words: BTreeMap<String, u64> = BTreeMap::new();
    let mut reasons: BTreeMap<u32, u64> = BTreeMap::new();
    for line in input.lines() {
        let line = line?;
        let fields: Vec<&str> = line.split(' ').collect();
        if fields.len() != 5 {
            return Err(io::Error::new(
                io::ErrorKind::InvalidData,
                "not a line of a report",
            ));
        }
        *words.entry(fields[2].to_string()).or_default() += 1;
        if fields[2] == "BAD" {
            let reason = fields[3]
                .parse()
                .map_err(|_| io::Error::new(io::ErrorKind::InvalidData, "not a reason"))?;
            *reasons.entry(reason).or_default() += 1;
        }
    }
    for (word, count) in &words {
        writeln!(output, "{} {}", word, count)?;
    }
    for (reason, count) in &reasons {
        writeln!(output, "BAD {} {}", reason, count)?;
    }
    Ok(())
}

fn usage() -> ! {
    eprintln!(
        "usage: reference report | rows | make-rows | make-again | make-cuts | make-lines | corpus SEED COUNT | tally | check SEED COUNT"
    );
    std::process::exit(2);
}

fn main() {
    let arguments: Vec<String> = std::env::args().skip(1).collect();
    let number = |i: usize| -> u64 {
        arguments
            .get(i)
            .and_then(|text| text.parse().ok())
            .unwrap_or_else(|| usage())
    };
    let mut input = io::stdin().lock();
    let mut output = BufWriter::new(io::stdout().lock());
    let done = match arguments.first().map(|text| text.as_str()) {
        Some("report") => frame::report(&mut input, &mut output),
        Some("rows") => rows::run(&mut input, &mut output),
        Some("make-rows") => rows::make(&mut output),
        Some("make-again") => writes::again(&mut input, &mut output),
        Some("make-cuts") => mode1::cuts(&mut output),
        Some("make-lines") => lines::make(&mut output),
        Some("corpus") => corpus::print(number(1), number(2), &mut output),
        Some("tally") => tally(&mut input, &mut output),
        Some("check") => check::run(number(1), number(2), &mut output),
        _ => usage(),
    };
    if let Err(error) = done.and_then(|()| output.flush()) {
        eprintln!("reference: {}", error);
        std::process::exit(1);
    }
}

//! questions [--seed S] [--count N] [--family F]: writes N questions, of one family or of all, the same for the same seed.
//! questions --families: writes the table of families as JSON, which web/ask.mjs reads.

use questions::generate::Questions;
use std::io::{self, Write};
use std::process::ExitCode;

fn usage() -> ExitCode {
    eprintln!("usage: questions [--seed S] [--count N] [--family F] | --families");
    ExitCode::from(2)
}

fn main() -> ExitCode {
    let (mut seed, mut count, mut family) = (1, 1_000, None);
    if std::env::args().skip(1).eq(["--families"]) {
        print!("{}", questions::family::as_json());
        return ExitCode::SUCCESS;
    }
    let mut words = std::env::args().skip(1);
    while let Some(word) = words.next() {
        let value = words.next().unwrap_or_default();
        match (word.as_str(), value.parse::<u64>()) {
            ("--seed", Ok(n)) => seed = n,
            ("--count", Ok(n)) => count = n,
            ("--family", _) => family = Some(value),
            _ => return usage(),
        }
    }
    let questions = match family {
        None => Questions::new(seed),
        Some(family) => match Questions::of(&family, seed) {
            None => return usage(),
            Some(questions) => questions,
        },
    };
    let mut out = io::BufWriter::new(io::stdout().lock());
    let written = questions.take(count as usize).try_for_each(|question| writeln!(out, "{question}"));
    match written.and_then(|()| out.flush()) {
        Ok(()) => ExitCode::SUCCESS,
        Err(e) if e.kind() == io::ErrorKind::BrokenPipe => ExitCode::SUCCESS,
        Err(e) => {
            eprintln!("questions: {e}");
            ExitCode::from(3)
        }
    }
}

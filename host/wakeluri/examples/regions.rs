//! Reads regions of a FASTA file: `cargo run -p wakeluri --example regions -- ref.fa chr1:5-9`.

use std::io::{self, Write};
use std::process::ExitCode;
use wakeluri::{Error, Fasta, Reason};

fn read(path: &str, regions: &[String]) -> Result<Vec<u8>, Error> {
    let fasta = Fasta::open(path)?;
    let mut answer = vec![];
    for region in regions {
        answer.extend(wakeluri::write_record(region.as_bytes(), None, &fasta.read(region)?, 60)?);
    }
    Ok(answer)
}

fn main() -> ExitCode {
    let words: Vec<String> = std::env::args().skip(1).collect();
    let Some((path, regions)) = words.split_first() else {
        eprintln!("usage: regions FILE REGION ..");
        return ExitCode::from(2);
    };
    match read(path, regions) {
        Ok(answer) if io::stdout().write_all(&answer).is_ok() => ExitCode::SUCCESS,
        Ok(_) => ExitCode::from(3),
        Err(error) => {
            eprintln!("{error}");
            if let Some(Reason::PastLength { length }) = error.reason() {
                eprintln!("ask for bases up to {length}");
            }
            ExitCode::FAILURE
        }
    }
}

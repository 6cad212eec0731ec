//! speed FASTA INDEX: times the native library's indexer and checker on two files, once for each line of standard input: seconds of each,
//! with a blank between. The files are read anew each time, into memory that may be nearer or farther, as the page reads them. tools/on-web
//! asks it in turns with the page.

use std::io::{BufRead, Write};
use std::time::Instant;
use wakeluri::entry;

fn main() -> Result<(), Box<dyn std::error::Error>> {
    let mut words = std::env::args_os().skip(1);
    let (Some(fasta), Some(index), None) = (words.next(), words.next(), words.next()) else {
        return Err("usage: speed FASTA INDEX".into());
    };
    let mut table = vec![0; entry::ROW_BYTES * 1024];
    for line in std::io::stdin().lock().lines() {
        line?;
        let (fasta, index) = (std::fs::read(&fasta)?, std::fs::read(&index)?);
        // in the page's order: what comes second finds the file looked at already
        let start = Instant::now();
        let verdict = entry::check(&fasta, &index);
        let checked = start.elapsed();
        let start = Instant::now();
        let rows = entry::index_complete(&fasta, &mut table);
        let indexed = start.elapsed();
        if rows.no().is_some() || verdict.no().is_some() {
            return Err("the pair is not accepted".into());
        }
        println!("{} {}", indexed.as_secs_f64(), checked.as_secs_f64());
        std::io::stdout().flush()?;
    }
    Ok(())
}

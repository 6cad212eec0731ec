//! ask [PROGRAM]: answers questions, one to a line of standard input, through the library's entry points.
//!
//! PROGRAM, or WAKELURI_FAIDX in the environment, is the program that `prg` runs; without it such questions are skipped.
//! WAKELURI_LEVEL in the environment is the level of x86-64 whose code answers; it ends with 3 where the processor hasn't that level.

use std::io;
use std::path::PathBuf;

fn main() -> io::Result<()> {
    let named = std::env::args_os().nth(1).or_else(|| std::env::var_os("WAKELURI_FAIDX"));
    if let Some(level) = std::env::var("WAKELURI_LEVEL").ok().and_then(|level| level.parse().ok()) {
        let used = wakeluri::use_level(level);
        if used != level {
            eprintln!("ask: level {level} was asked for, and the best here is {used}");
            std::process::exit(3);
        }
    }
    let library = ask::Library { program: named.map(PathBuf::from) };
    questions::form::converse(&library, io::stdin().lock(), io::stdout().lock())
}

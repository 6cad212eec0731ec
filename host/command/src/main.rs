//! `wakeluri`: index, check and read FASTA and FASTQ files. Every answer comes from the proved library; what is here opens files, reads
//! regions as people write them, and says in words what was refused and where.

mod advice;
mod apart;
mod arguments;
mod arriving;
mod beside;
mod colour;
mod cores;
mod course;
mod faidx;
mod failure;
mod fastq;
mod fastq_faults;
mod faults;
mod header;
mod input;
mod json;
mod letters;
mod list;
mod mend;
mod names;
mod narrow;
mod nearest;
mod output;
mod place;
mod primer;
mod progress;
mod qualities;
mod read;
mod scene;
mod sheet;
mod shelf;
mod trail;
mod twins;
mod unusual;
mod usage;
mod verbs;
mod warning;
mod words;
mod work;
mod wrap;

use apart::Outputs;
use input::How;
use std::ffi::OsString;
use std::io::Write;
use std::process::ExitCode;
use words::{Common, said};

fn main() -> ExitCode {
    // a file that may not grow any further fails at its write, with a message, instead of ending the process
    // SAFETY: the call ignores a signal, and touches no memory.
    unsafe {
        libc::signal(libc::SIGXFSZ, libc::SIG_IGN);
    }
    let given: Vec<OsString> = std::env::args_os().collect();
    let matches = match usage::understood(&given) {
        Ok(matches) => matches,
        Err(status) => return status,
    };
    let how = match matches.get_one::<String>("input").map(String::as_str) {
        Some("map") => How::Map,
        Some("read") => How::Read,
        _ => How::Auto,
    };
    warning::be_quiet(matches.get_flag("quiet"));
    wakeluri::use_threads(matches.get_one("threads").copied().unwrap_or_default());
    let common = Common { how, json: matches.get_flag("json"), outputs: Outputs::standard() };
    fastq::say(matches.subcommand().is_some_and(|(command, words)| command == "fqidx" || said(words, "fastq")));
    match verbs::run(&matches, common) {
        Ok(()) => ExitCode::SUCCESS,
        Err(failure) => {
            let message = failure.told(common.json);
            let message = if common.json { message } else { colour::of_messages(place::seen(&message)) };
            let _ = std::io::stderr().write_all(message.as_bytes());
            ExitCode::from(failure.status())
        }
    }
}

//! `wakeluri complement` and `wakeluri revcomp`: of regions, of all records, or of bases without a definition line.

use crate::failure::{Failure, Refused};
use crate::header::Header;
use crate::json::Object;
use crate::letters;
use crate::place::count;
use crate::read::Turn;
use crate::sheet;
use crate::verbs::read::{Way, answer, to_output};
use crate::verbs::regions::{asked, how_for_regions, open_sheet};
use crate::words::{Common, output_of, path, said};
use crate::work;
use clap::ArgMatches;
use std::path::Path;

/// Complements what is asked for.
pub fn complement(words: &ArgMatches, turn: Turn, common: Common) -> Result<(), Failure> {
    let file = path(words, "file").unwrap_or(Path::new("-"));
    let output = output_of(words)?;
    let common = to_output(common, &output, false)?;
    let sheet = open_sheet(words, file, common)?;
    let asked = asked(words, sheet.as_ref())?;
    sheet::no_strands(&asked)?;
    let fasta = common.open(file, how_for_regions(words, file, &asked, common))?;
    let is_fasta = asked.is_empty() && matches!(fasta.bytes(), [b'>', ..] | [0xef, 0xbb, 0xbf, b'>', ..]);
    if !asked.is_empty() || is_fasta || fasta.is_fastq() {
        let header = Header { mark: None, is_full: said(words, "full-header") };
        return answer(words, file, &fasta, asked, Way { turn, header, qualities: false, to: &output }, common);
    }
    // bases without a definition line
    let text = fasta.bytes();
    if text.is_empty() {
        work::warn_of_nothing(&fasta);
        return Ok(());
    }
    let lines: Vec<&[u8]> = text.strip_suffix(b"\n").unwrap_or(text).split(|byte| *byte == b'\n').collect();
    let lines: Vec<&[u8]> = lines.into_iter().map(|line| line.strip_suffix(b"\r").unwrap_or(line)).collect();
    let sequences = if words.get_flag("joined") {
        vec![(1, lines.concat())]
    } else if words.get_flag("each-line") || lines.len() == 1 {
        (1..).zip(lines.into_iter().map(<[u8]>::to_vec)).collect()
    } else {
        let lines = count(lines.len() as u64, "line");
        return Err(Failure::Usage(format!(
            "{} has {lines} and no '>': say whether each line is a sequence (--each-line) or all are one (--joined)",
            fasta.shown
        )));
    };
    let mut answer = vec![];
    for (line, bases) in sequences {
        let turned = turn.turned(bases).map(|bases| letters::of_rna(bases, said(words, "rna"))).map_err(|refusal| {
            let words = format!("{}, line {line}: {}", fasta.shown, refusal.words());
            let next = "the letters that have one are ACGTU and MRWSYKVHDBN, small ones too";
            Failure::from(Refused::of(&fasta.shown, words, next, refusal))
        })?;
        if common.json {
            let mut object = Object::new();
            object.number("line", line).bytes("bases", &turned);
            answer.extend_from_slice(object.line().as_bytes());
        } else {
            answer.extend_from_slice(&turned);
            answer.push(b'\n');
        }
    }
    fasta.unchanged()?;
    output.give(&mut |answers| answers.write(&answer))
}

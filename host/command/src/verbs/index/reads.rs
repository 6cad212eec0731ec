//! The index of a FASTQ file, in parts on all cores. While a part's records are in a core's cache they are indexed, their lines are made, and
//! their letters and names are looked at; the lines of the parts before it are written meanwhile, so that the disk works beside the cores.

use super::{Made, not_written};
use crate::input::Input;
use crate::output::Unfilled;
use crate::progress::Progress;
use crate::verbs::remarks::{Glance, Remarks};
use crate::work;
use std::io::Write;
use std::sync::mpsc;
use std::thread;
use wakeluri::fastq::Table;
use wakeluri::{Cores, Refusal};

/// What is made of a part's records.
struct Part {
    lines: Result<Vec<u8>, Refusal>,
    glance: Glance,
    records: u64,
    bases: u64,
}

impl Part {
    fn of(fastq: &Input, rows: &Table<'_>) -> Self {
        Self {
            lines: rows.write_index(),
            glance: Glance::at(fastq, rows),
            records: rows.len() as u64,
            bases: rows.records().map(|record| record.length).sum(),
        }
    }
}

/// Makes the index of a FASTQ file, of six columns, and writes it. If something is refused, some of it may have been written.
pub fn index(fastq: &Input, strict: bool, to: &mut dyn Write) -> Result<Made, Unfilled> {
    work::warn_of_nothing(fastq);
    let (mut made, mut glances) = (Made { records: 0, bases: 0, unusual: None }, vec![]);
    let refusal = in_parts(fastq, &mut |part| {
        to.write_all(&part.lines.map_err(|refusal| not_written(&fastq.shown, refusal))?)?;
        made.records += part.records;
        made.bases += part.bases;
        glances.push(part.glance);
        Ok(())
    })?;
    if refusal.is_some() {
        // where it is, and why, the rows before it tell
        work::reads(fastq)?;
    }
    // what is written goes to the disk while names are compared
    to.flush()?;
    Remarks::in_parts(fastq, glances).say(fastq, strict)?;
    Ok(made)
}

/// Gives the parts to `take`, in their order, up to a refusal. It has a thread of its own, which only waits for parts and for the disk.
fn in_parts(fastq: &Input, take: &mut dyn FnMut(Part) -> Result<(), Unfilled>) -> Result<Option<Refusal>, Unfilled> {
    let file = fastq.bytes();
    let progress = Progress::working("indexing", &fastq.shown, file.len() as u64, fastq.is_mapped());
    let (send, parts) = mpsc::channel();
    let refusal = thread::scope(|scope| {
        // the parts end where this has sent the last
        let indexing = scope.spawn(move || {
            let work = |rows: Table<'_>| Part::of(fastq, &rows);
            Cores::default().index_fastq_in_parts(file, work, |part| drop(send.send(part)))
        });
        for part in parts {
            take(part)?;
        }
        Ok(indexing.join().unwrap_or_else(|panic| std::panic::resume_unwind(panic)))
    });
    drop(progress);
    refusal
}

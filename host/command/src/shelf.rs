//! Many files at once: `check` and `index` of a list of files and folders.
//!
//! All cores work, and each file is judged by itself: its answer is the one that the command gives of that file alone, so that a list can be
//! cut in any way, over processes and machines. What is said of each is one line, in the order of the list, on standard output; a summary
//! comes last. A file that is bad, or that is cut while it is read, hides no other: files that would be mapped are judged by a process of
//! their own, since the signal of a cut file ends a process.

use crate::apart::folder;
use crate::arguments;
use crate::failure::Failure;
use crate::input::{self, How, MAPPED_FROM};
use crate::json::Object;
use crate::output::{self, Answers};
use crate::place::{commas, count, seen};
use crate::words::Common;
use crate::{colour, fastq, warning};
use clap::ArgMatches;
use std::collections::{BTreeMap, BTreeSet, HashSet};
use std::fs::{self, File};
use std::io::{Read, Write};
use std::os::unix::fs::MetadataExt;
use std::path::{Path, PathBuf};
use std::process::{Command, Stdio};
use std::sync::atomic::{AtomicBool, AtomicUsize, Ordering};
use std::sync::mpsc;
use std::thread;

/// How the names of FASTA and FASTQ files end, in folders.
const ENDINGS: [&str; 10] = ["fa", "fasta", "fna", "ffn", "faa", "frn", "fas", "fsa", "fq", "fastq"];

/// So many times as many threads as there are cores wait for the disk.
const WAITING: usize = 8;

/// How packed files end, which are passed over in folders.
const PACKED: [&str; 6] = ["gz", "bgz", "bz2", "xz", "zst", "zip"];

/// What is done with each file.
#[derive(Clone, Copy, Debug, Eq, PartialEq)]
pub enum Work {
    /// Its index is checked.
    Check,
    /// It is indexed.
    Index,
}

impl Work {
    fn verb(self) -> &'static str {
        match self {
            Self::Check => "check",
            Self::Index => "index",
        }
    }

    fn done(self) -> &'static str {
        match self {
            Self::Check => "accepted",
            Self::Index => "indexed",
        }
    }
}

/// A file of a list, and its index if one is named; or why nothing can be done with what is named.
#[derive(Clone, Debug, Default)]
pub struct Item {
    /// As it is named.
    pub file: PathBuf,
    /// The index that is named.
    pub index: Option<PathBuf>,
    fault: Option<(String, &'static str)>,
}

/// What the words behind `check` or `index` name.
#[derive(Debug)]
pub enum Named {
    /// A file, and its index if it is named.
    One(Item),
    /// More, or a folder.
    Many(Vec<Item>, u64),
}

fn ending(path: &Path) -> Option<String> {
    path.extension().and_then(|end| end.to_str()).map(str::to_ascii_lowercase)
}

fn is_fasta_by_name(path: &Path) -> bool {
    ending(path).is_some_and(|end| ENDINGS.contains(&end.as_str()))
}

fn is_packed_fasta_by_name(path: &Path) -> bool {
    ending(path).is_some_and(|end| PACKED.contains(&end.as_str()))
        && path.file_stem().is_some_and(|stem| is_fasta_by_name(Path::new(stem)))
}

fn is_index_by_name(path: &Path) -> bool {
    ending(path).is_some_and(|end| end == "fai")
}

/// Whether a file begins as FASTA or FASTQ does; nothing is read of what is no regular file.
fn is_fasta_inside(path: &Path) -> bool {
    let mut start = [0];
    let is_file = fs::metadata(path).is_ok_and(|meta| meta.is_file());
    let mut read = || File::open(path).and_then(|mut file| file.read(&mut start));
    is_file && read().is_ok_and(|read| read == 1) && matches!(start, [b'>' | b'@'])
}

/// The files and folders that are named. Behind one file the second word is its index, unless it is a folder, or FASTA by its name or its first
/// byte; in a longer list a word that ends in .fai is the index of the file before it. With `--each` no word is an index.
pub fn named(words: &ArgMatches) -> Result<Named, Failure> {
    let given: Vec<&PathBuf> = words.get_many::<PathBuf>("files").unwrap_or_default().collect();
    let item = |file: &Path, index: Option<&Path>| Item {
        file: file.to_path_buf(),
        index: index.map(Path::to_path_buf),
        fault: None,
    };
    let each = words.get_flag("each");
    match given.as_slice() {
        _ if each => {}
        [file] if !file.is_dir() => return Ok(Named::One(item(file, None))),
        [file, index] if !file.is_dir() && !index.is_dir() && !is_fasta_by_name(index) && !is_fasta_inside(index) => {
            return Ok(Named::One(item(file, Some(index))));
        }
        _ => {}
    }
    for option in ["index-option", "output"] {
        if words.try_get_one::<PathBuf>(option).ok().flatten().is_some() {
            let what = "one index is named, and several files or a folder: each has its index beside it";
            return Err(Failure::Usage(what.to_string()));
        }
    }
    let (mut items, mut passed_over) = (Vec::<Item>::new(), 0);
    let mut rest = given.into_iter().peekable();
    while let Some(path) = rest.next() {
        if input::is_placeless(path) {
            return Err(Failure::Usage(format!("{} can't be one of several files", input::shown(path))));
        }
        if is_index_by_name(path) && !each {
            let shown = input::shown(path);
            return Err(Failure::Usage(format!(
                "{shown}: an index stands behind its file, and here no file is before it"
            )));
        }
        if path.is_dir() {
            passed_over += of_folder(path, &mut items);
        } else {
            let index = rest.next_if(|next| is_index_by_name(next) && !each);
            items.push(item(path, index.map(PathBuf::as_path)));
        }
    }
    Ok(Named::Many(items, passed_over))
}

/// The FASTA files in a folder and those in it, in the order of their names; returns how many packed ones are passed over.
fn of_folder(folder: &Path, items: &mut Vec<Item>) -> u64 {
    let before = items.len();
    let mut passed_over = 0;
    walk(folder, &mut HashSet::new(), items, &mut passed_over);
    if items.len() == before {
        let ends = ENDINGS.map(|end| format!(".{end}")).join(", ");
        let what = format!("there is no FASTA or FASTQ file in this folder, by its name ({ends})");
        let next = "name the files themselves, whatever they are called";
        items.push(Item { file: folder.to_path_buf(), index: None, fault: Some((what, next)) });
    }
    passed_over
}

fn walk(folder: &Path, been: &mut HashSet<(u64, u64)>, items: &mut Vec<Item>, passed_over: &mut u64) {
    let itself = fs::metadata(folder).map(|meta| (meta.dev(), meta.ino()));
    // a link may lead back
    if itself.is_ok_and(|itself| !been.insert(itself)) {
        return;
    }
    let listed = fs::read_dir(folder).and_then(Iterator::collect::<Result<Vec<_>, _>>);
    let Ok(listed) = listed else {
        let what = "this folder can't be read".to_string();
        items.push(Item { file: folder.to_path_buf(), index: None, fault: Some((what, "ask who owns it")) });
        return;
    };
    let mut paths: Vec<PathBuf> = listed.into_iter().map(|entry| entry.path()).collect();
    paths.sort_unstable();
    for path in paths {
        if path.file_name().is_some_and(|name| name.as_encoded_bytes().starts_with(b".")) {
            continue;
        }
        if path.is_dir() {
            walk(&path, been, items, passed_over);
        } else if is_fasta_by_name(&path) {
            items.push(Item { file: path, index: None, fault: None });
        } else if is_packed_fasta_by_name(&path) {
            *passed_over += 1;
        }
    }
}

/// What is said of a file.
struct Said {
    status: u8,
    /// On standard output.
    line: String,
    /// On standard error.
    warnings: String,
}

/// A list of files, and what is done with each.
#[derive(Clone, Copy, Debug)]
pub struct Shelf<'s> {
    /// The files.
    pub items: &'s [Item],
    /// Packed files that were passed over.
    pub passed_over: u64,
    /// What is done.
    pub work: Work,
    /// As the command was given it.
    pub strict: bool,
}

impl Shelf<'_> {
    /// Does it with all of them, by a function that does it with one and gives its line. Fails with the worst status.
    pub fn run(
        self,
        common: Common<'_>,
        one: &(dyn Fn(&Item, Common<'_>) -> Result<String, Failure> + Sync),
    ) -> Result<(), Failure> {
        let cores = thread::available_parallelism().map_or(1, usize::from);
        // an index is on the disk before its line is printed, and disks take many at a time
        let threads = if self.work == Work::Index { cores * WAITING } else { cores }.min(self.items.len());
        // with a file for each core there is none to help with a file
        if threads >= cores {
            wakeluri::use_threads(1);
        }
        let (next, over) = (AtomicUsize::new(0), AtomicBool::new(false));
        if self.work == Work::Index {
            output::sync_folders_later();
        }
        let (sender, receiver) = mpsc::channel();
        thread::scope(|scope| {
            for _ in 0..threads {
                let (sender, next, over) = (sender.clone(), &next, &over);
                scope.spawn(move || {
                    while !over.load(Ordering::Relaxed) {
                        let number = next.fetch_add(1, Ordering::Relaxed);
                        let Some(item) = self.items.get(number) else { break };
                        if sender.send((number, self.said(item, common, one))).is_err() {
                            break;
                        }
                    }
                });
            }
            drop(sender);
            let told = self.tell(receiver, common.json);
            over.store(true, Ordering::Relaxed);
            told
        })
    }

    /// Puts on the disk the folders that indexes were written to.
    fn sync_folders(self) {
        let place = |item: &Item| item.index.clone().unwrap_or_else(|| item.file.clone());
        let places: BTreeSet<PathBuf> =
            self.items.iter().map(place).map(|place| folder(&place).to_path_buf()).collect();
        places.iter().for_each(|place| output::sync_folder(place));
    }

    /// Says of each in the order of the list, as soon as all before it are done.
    fn tell(self, receiver: mpsc::Receiver<(usize, Said)>, json: bool) -> Result<(), Failure> {
        let (mut waiting, mut next) = (BTreeMap::new(), 0);
        let mut by_status = [0_u64; 4];
        for (number, said) in receiver {
            waiting.insert(number, said);
            while let Some(Said { status, line, warnings }) = waiting.remove(&next) {
                let _ = std::io::stderr().write_all(warnings.as_bytes());
                if status != 0 || !warning::is_quiet() {
                    write(line)?;
                }
                if let Some(count) = by_status.get_mut(usize::from(status)) {
                    *count += 1;
                }
                next += 1;
            }
        }
        if self.work == Work::Index {
            self.sync_folders();
        }
        let worst = by_status.iter().rposition(|count| *count > 0).unwrap_or(0) as u8;
        if !warning::is_quiet() {
            write(self.summary(by_status, worst, json))?;
        }
        if worst == 0 { Ok(()) } else { Err(Failure::Told(worst)) }
    }

    fn summary(self, by_status: [u64; 4], worst: u8, json: bool) -> String {
        let [good, refused, senseless, failed] = by_status;
        let (files, failed) = (self.items.len() as u64, senseless + failed);
        if json {
            let mut object = Object::new();
            object.number("files", files).number("files_good", good).number("files_refused", refused);
            object.number("files_failed", failed).number("files_passed_over", self.passed_over);
            return object.number("worst_status", worst.into()).line();
        }
        let part = |number: u64, what: &str| (number > 0).then(|| format!("{} {what}", commas(number)));
        let passed_over =
            (self.passed_over > 0).then(|| format!("; {} passed over", count(self.passed_over, "packed file")));
        let parts = [part(good, self.work.done()), part(refused, "refused"), part(failed, "failed")];
        let parts: Vec<String> = parts.into_iter().flatten().collect();
        format!("{}: {}{}\n", count(files, "file"), parts.join(", "), passed_over.unwrap_or_default())
    }

    /// What is said of one.
    fn said(
        self,
        item: &Item,
        common: Common<'_>,
        one: &(dyn Fn(&Item, Common<'_>) -> Result<String, Failure> + Sync),
    ) -> Said {
        if let Some((what, next)) = &item.fault {
            let words = format!("{}: {what}", input::shown(&item.file));
            let failure = Failure::InputOutput { words, next: (*next).to_string() };
            return self.of(item, Err(failure), String::new(), common.json);
        }
        let is_long = || fs::metadata(&item.file).is_ok_and(|meta| meta.is_file() && meta.size() >= MAPPED_FROM);
        if common.how == How::Map || common.how == How::Auto && is_long() {
            return self.by_a_process(item, common);
        }
        let (answer, warnings) = warning::gathered(|| one(item, common));
        self.of(item, answer, warnings, common.json)
    }

    fn of(self, item: &Item, answer: Result<String, Failure>, warnings: String, json: bool) -> Said {
        match answer {
            Ok(line) => Said { status: 0, line: self.good(item, &line, json), warnings },
            Err(failure) => {
                let status = failure.status();
                Said { status, line: bad(item, status, &failure.told(json), json), warnings }
            }
        }
    }

    /// The line of a file that is good.
    fn good(self, item: &Item, line: &str, json: bool) -> String {
        match (json, self.work) {
            (true, _) => given(item, line),
            (false, Work::Index) => format!("indexed: {line}"),
            (false, Work::Check) => line.to_string(),
        }
    }

    /// A process of its own for a file that is mapped.
    fn by_a_process(self, item: &Item, common: Common<'_>) -> Said {
        let lost = |words: String| {
            let failure =
                Failure::InputOutput { words: format!("{}: {words}", input::shown(&item.file)), next: String::new() };
            self.of(item, Err(failure), String::new(), common.json)
        };
        let Ok(itself) = std::env::current_exe() else { return lost("the command can't find itself".to_string()) };
        let mut command = Command::new(itself);
        command.arg(self.work.verb()).arg(arguments::ALONE);
        command.args(common.json.then_some("--json")).args(warning::is_quiet().then_some("--quiet"));
        command.args(self.strict.then_some("--strict")).args((common.how == How::Map).then_some("--input=map"));
        command.args(fastq::is_said().then_some("--fastq"));
        command.arg(format!("--threads={}", wakeluri::Cores::default().threads()));
        command.arg("--").arg(&item.file).args(&item.index).stdin(Stdio::null());
        let ended = match command.output() {
            Ok(ended) => ended,
            Err(error) => return lost(format!("no process could be started for it ({error})")),
        };
        let text = |bytes: &[u8]| String::from_utf8_lossy(bytes).into_owned();
        let (out, err) = (text(&ended.stdout), text(&ended.stderr));
        match ended.status.code() {
            Some(status @ 0..=3) if !out.is_empty() || status == 0 => {
                Said { status: status as u8, line: out, warnings: err }
            }
            // it had no time to say more
            Some(_) if !err.is_empty() => {
                Said { status: 3, line: bad(item, 3, &err, common.json), warnings: String::new() }
            }
            _ => lost("the process that worked on it was ended".to_string()),
        }
    }
}

/// What a process says of the one file that it was started for.
pub fn alone(item: &Item, work: Work, answer: Result<String, Failure>, json: bool) -> Result<(), Failure> {
    let shelf = Shelf { items: &[], passed_over: 0, work, strict: false };
    let Said { status, line, .. } = shelf.of(item, answer, String::new(), json);
    let mut answers = Answers::new();
    answers.write(line.as_bytes())?;
    answers.done()?;
    if status == 0 { Ok(()) } else { Err(Failure::Told(status)) }
}

/// The line of a file that is not good, from its message: the first line, and the line for a program.
fn bad(item: &Item, status: u8, told: &str, json: bool) -> String {
    if json {
        return given(item, told);
    }
    let first = told.lines().next().unwrap_or_default();
    let first = first.strip_prefix("wakeluri: ").unwrap_or(first);
    let code = told.lines().last().filter(|last| last.starts_with("refused "));
    let code = code.map_or(String::new(), |code| format!("; {code}"));
    seen(&format!("{}: {first}{code}\n", if status == 1 { "refused" } else { "failed" }))
}

/// An object, with the file as it was given before all else.
fn given(item: &Item, object: &str) -> String {
    let mut named = Object::new();
    named.bytes("given", item.file.as_os_str().as_encoded_bytes());
    let named = named.line();
    let named = named.trim_end_matches("}\n");
    let line = object.lines().next_back().unwrap_or_default();
    format!("{named},{}\n", line.strip_prefix('{').unwrap_or(line))
}

fn write(line: String) -> Result<(), Failure> {
    let mut answers = Answers::new();
    answers.write(colour::of_answers(line).as_bytes())?;
    answers.done()
}

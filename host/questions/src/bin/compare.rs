//! compare --rules original|exact [--seed S] [--family F] [--count N | --questions FILE] FIRST OURS: asks two programs the same
//! questions, of one family or of all.
//!
//! FIRST (the original or the model) and OURS answer questions on standard input, as document 04 has them. Questions are asked in
//! batches, both programs at once, and nothing is kept: memory stays the same for any count. Each difference is written, the
//! first hundred in full, then the count of each kind. Exit status: 0 no difference that isn't listed, 1 some, 2 bad usage, 3
//! a program that didn't answer.

use questions::generate::Questions;
use questions::row::WORDS;
use questions::rules::{Kind, Rules};
use std::collections::BTreeMap;
use std::io::{self, BufRead, Read, Write};
use std::process::{Child, Command, ExitCode, Stdio};

const BATCH: usize = 200_000;
const DIFFERENCES_SHOWN: u64 = 100;
const SHOWN: usize = 2_000;

struct Asked {
    rules: Rules,
    seed: u64,
    count: usize,
    family: Option<String>,
    file: Option<String>,
    speakers: [String; 2],
}

fn arguments() -> Option<Asked> {
    let (mut rules, mut seed, mut count, mut family, mut file, mut speakers) = (None, 1, 100_000, None, None, vec![]);
    let mut words = std::env::args().skip(1);
    while let Some(word) = words.next() {
        match word.as_str() {
            "--rules" => {
                rules = match words.next()?.as_str() {
                    "original" => Some(Rules::Original),
                    "exact" => Some(Rules::Exact),
                    _ => return None,
                }
            }
            "--seed" => seed = words.next()?.parse().ok()?,
            "--count" => count = words.next()?.parse().ok()?,
            "--family" => family = Some(words.next()?),
            "--questions" => file = Some(words.next()?),
            _ => speakers.push(word),
        }
    }
    Some(Asked { rules: rules?, seed, count, family, file, speakers: speakers.try_into().ok()? })
}

/// Asks one program a batch of questions, and takes all its answers.
fn answers(speaker: &str, arguments: &[&str], questions: &str) -> io::Result<String> {
    let spawned = Command::new(speaker).args(arguments).stdin(Stdio::piped()).stdout(Stdio::piped()).spawn();
    let mut child: Child = spawned.map_err(|e| io::Error::new(e.kind(), format!("{speaker}: {e}")))?;
    let (stdin, stdout) = (child.stdin.take(), child.stdout.take());
    let mut told = String::new();
    let read = std::thread::scope(|scope| {
        scope.spawn(move || stdin.map(|mut stdin| stdin.write_all(questions.as_bytes())));
        stdout.map_or(Ok(0), |mut stdout| stdout.read_to_string(&mut told))
    });
    let status = child.wait()?;
    read?;
    if !status.success() {
        let last = told.lines().last().unwrap_or("nothing");
        return Err(io::Error::other(format!("{speaker}: {status}; the last it said was {last}")));
    }
    Ok(told)
}

fn shortened(text: &str) -> &str {
    text.get(..SHOWN).unwrap_or(text)
}

#[derive(Default)]
struct Counts {
    kinds: BTreeMap<(String, Kind), u64>,
    asked: u64,
    different: u64,
}

impl Counts {
    /// Compares the answers to a batch; fails where the programs weren't asked the same.
    fn batch(&mut self, rules: Rules, questions: &str, first: &str, ours: &str) -> io::Result<()> {
        let (mut first, mut ours) = (first.lines(), ours.lines());
        let asks = |line: &&str| !line.is_empty() && !line.starts_with('#');
        for line in questions.lines().filter(asks) {
            let question = line.split(" => ").next().unwrap_or(line);
            let told = |line: Option<&'_ str>| -> Option<String> {
                line?.strip_prefix(question)?.strip_prefix(" => ").map(str::to_string)
            };
            let (Some(theirs), Some(mine)) = (told(first.next()), told(ours.next())) else {
                return Err(io::Error::other(format!("no answer to: {}", shortened(question))));
            };
            let kind = rules.judge(question, &theirs, &mine);
            let family = question.split(' ').next().unwrap_or_default();
            *self.kinds.entry((family.to_string(), kind)).or_default() += 1;
            self.asked += 1;
            if kind == Kind::Different {
                self.different += 1;
                if self.different <= DIFFERENCES_SHOWN {
                    println!("{}", shortened(question));
                    println!("    first: {}\n    ours:  {}", shortened(&theirs), shortened(&mine));
                }
            }
        }
        Ok(())
    }

    fn told(&self) {
        for ((family, kind), count) in &self.kinds {
            println!("{family:6}{:30}{count:>12}", kind.words());
        }
        println!("{} questions, {} differences that are not listed", self.asked, self.different);
    }
}

fn run(asked: &Asked) -> io::Result<bool> {
    let [first, ours] = &asked.speakers;
    let mut questions: Box<dyn Iterator<Item = io::Result<String>>> = match &asked.file {
        Some(file) => Box::new(io::BufReader::new(std::fs::File::open(file)?).lines()),
        None => {
            let made = match &asked.family {
                None => Some(Questions::new(asked.seed)),
                Some(family) => Questions::of(family, asked.seed),
            };
            let made = made.ok_or_else(|| io::Error::other("there is no such family"))?;
            Box::new(made.take(asked.count).map(Ok))
        }
    };
    // the original has to be told how many numbers a row has
    let words = WORDS.to_string();
    let told: &[&str] = if asked.rules == Rules::Original { &["--words", &words, "--places"] } else { &[] };
    let mut counts = Counts::default();
    loop {
        let mut batch = String::new();
        for question in questions.by_ref().take(BATCH) {
            batch.push_str(&question?);
            batch.push('\n');
        }
        if batch.is_empty() {
            counts.told();
            return Ok(counts.different == 0);
        }
        let (theirs, mine) = std::thread::scope(|scope| {
            let theirs = scope.spawn(|| answers(first, told, &batch));
            let mine = answers(ours, &[], &batch);
            (theirs.join().unwrap_or_else(|_| Err(io::Error::other("stopped"))), mine)
        });
        counts.batch(asked.rules, &batch, &theirs?, &mine?)?;
    }
}

fn main() -> ExitCode {
    let Some(asked) = arguments() else {
        eprintln!(
            "usage: compare --rules original|exact [--seed S] [--family F] [--count N | --questions FILE] FIRST OURS"
        );
        return ExitCode::from(2);
    };
    match run(&asked) {
        Ok(true) => ExitCode::SUCCESS,
        Ok(false) => ExitCode::FAILURE,
        Err(e) => {
            eprintln!("compare: {e}");
            ExitCode::from(3)
        }
    }
}

//! replay-list ANSWERED OUT: the fixed list of the original's answers that the program `replay` holds against this library's.
//!
//! Reads lines `family argument .. => answer ..` of the original (- is standard input) and writes the list to OUT; tells the count of
//! each family. Left out are: questions that the original doesn't answer (`skip`), families that are not replayed, and two listed
//! differences (docs/DIFFERENCES.md): a raw read with no end that reaches the greatest base position, and the line of a row whose
//! description lies outside the names. Of what is left, no question
//! twice and no record over LONGEST bytes, each family gives EACH answers: half without a refusal, and equal shares of the rest for
//! each refusal, as far as there are so many; of these the shortest half, and an even choice of the others.
//!
//! The form of the list, for which every number is low byte first: for each family, in the order of REPLAYED, a count of four bytes,
//! and for each of its answers two bytes, the length of its record, and the record: seven places of two bytes each, where its six
//! parts begin and the last of them ends, and the parts:
//!     0  the bytes that are asked about: a line, a file, an index, names, or bases
//!     1  the table that is read, eight bytes to a number
//!     2  the other numbers of the question, eight bytes each; a bound is two, 1 and the bound, or 0 and 0
//!     3  the answer in numbers, eight bytes each: the refusal and its two numbers, three times 0 for none; then what is told, where
//!        a family that may find nothing begins with 1, or has 0 alone. Where the original doesn't tell a number, the part ends there
//!     4  the output, or the table that is filled, as lent
//!     5  the same afterwards; nothing where the original doesn't tell it

use questions::family::{Family, Original, Shape};
use questions::form::{self, Value};
use questions::rules::{describes_outside, stops_at_the_greatest};
use std::collections::HashSet;
use std::io::{self, BufRead};
use std::process::ExitCode;

/// The families that the program `replay` asks, in its order. The table of families says the rest.
const REPLAYED: [&str; 14] =
    ["def", "dfc", "lin", "run", "rec", "ixc", "seq", "lim", "wrl", "rar", "cmp", "rev", "idx", "ixt"];
const EACH: usize = 1_500;
const LONGEST: usize = 288;
const PARTS: usize = 6;

type Record = Vec<u8>;

/// What was found of a family: for each record the refusal's number, 0 for none.
#[derive(Default)]
struct Found {
    asked: HashSet<String>,
    records: Vec<(String, Record)>,
}

fn put(part: &mut Vec<u8>, numbers: &[u64]) {
    part.extend(numbers.iter().flat_map(|number| number.to_le_bytes()));
}

/// The answer's numbers, and the memory afterwards; `None` for a word that isn't known.
fn answer(family: &Family, lends: bool, told: &[&str]) -> Option<(Vec<u8>, Vec<u8>)> {
    let (mut numbers, mut memory) = (vec![], vec![]);
    let words = match (told[0], family.tells) {
        ("no", _) if family.original == Original::Memory => &told[1..],
        ("no", _) => told.get(1..4)?,
        (_, Shape::Found(..)) => {
            put(&mut numbers, &[0, 0, 0, u64::from(told[1] != "none")]);
            if told[1] == "none" { &[] } else { &told[1..] }
        }
        _ => {
            put(&mut numbers, &[0, 0, 0]);
            &told[1..]
        }
    };
    let mut all_told = true;
    for word in words {
        if *word == "?" {
            all_told = false;
        } else if let Some(table) = form::table(word) {
            put(if lends { &mut memory } else { &mut numbers }, &table);
        } else if let Some(bytes) = form::bytes(word) {
            memory = bytes;
        } else if all_told {
            put(&mut numbers, &[word.parse().ok()?]);
        }
    }
    Some((numbers, memory))
}

/// The record of a question and its answer, if it is short enough.
fn record(family: &Family, arguments: &[Value], told: &[&str]) -> Option<Record> {
    let mut parts: [Vec<u8>; PARTS] = Default::default();
    let bound = |bound: Option<u64>| [u64::from(bound.is_some()), bound.unwrap_or(0)];
    for argument in arguments {
        match argument {
            Value::Bytes(bytes) => parts[0].extend(bytes),
            Value::Rows(rows) => {
                put(&mut parts[1], &rows.numbers);
                put(&mut parts[2], &[rows.in_use]);
            }
            Value::Number(number) => put(&mut parts[2], &[*number]),
            Value::Bounds((start, end)) => put(&mut parts[2], &[bound(*start), bound(*end)].concat()),
            Value::Output(out) => parts[4].extend(out),
            Value::Table(table) => put(&mut parts[4], table),
            _ => return None,
        }
    }
    let lends = arguments.iter().any(|argument| matches!(argument, Value::Output(_) | Value::Table(_)));
    (parts[3], parts[5]) = answer(family, lends, told)?;
    let mut at = 2 * (PARTS + 1);
    let mut made = vec![];
    for part in &parts {
        made.extend((at as u16).to_le_bytes());
        at += part.len();
    }
    made.extend((at as u16).to_le_bytes());
    (at <= LONGEST).then(|| [made, parts.concat()].concat())
}

/// The shortest half, and an even choice of the others by their order.
fn spread(records: Vec<Record>, many: usize) -> Vec<Record> {
    if records.len() <= many {
        return records;
    }
    let mut by_length: Vec<usize> = (0..records.len()).collect();
    by_length.sort_by_key(|k| records[*k].len());
    let mut others = by_length.split_off(many / 2);
    others.sort_unstable();
    let left = many - by_length.len();
    let mut taken = by_length;
    taken.extend((0..left).map(|k| others[k * others.len() / left]));
    taken.sort_unstable();
    taken.into_iter().map(|k| records[k].clone()).collect()
}

/// Half of EACH for answers without a refusal, and equal shares of the rest for each refusal, as far as there are so many.
fn chosen(found: Vec<(String, Record)>) -> Vec<Record> {
    let (mut fine, mut groups) = (vec![], Vec::<(String, Vec<Record>)>::new());
    for (refusal, made) in found {
        if refusal == "0" {
            fine.push(made);
        } else if let Some((_, group)) = groups.iter_mut().find(|(number, _)| *number == refusal) {
            group.push(made);
        } else {
            groups.push((refusal, vec![made]));
        }
    }
    let refused: usize = groups.iter().map(|(_, group)| group.len()).sum();
    let mut left = EACH - (EACH / 2).max(EACH.saturating_sub(refused));
    let mut taken = spread(fine, EACH - left);
    groups.sort_by_key(|(_, group)| group.len());
    for (k, shares) in (1..=groups.len()).rev().enumerate() {
        let part = spread(std::mem::take(&mut groups[k].1), left / shares);
        left -= part.len();
        taken.extend(part);
    }
    taken
}

fn run(answered: &str, out: &str) -> io::Result<()> {
    let lines: Box<dyn BufRead> = match answered {
        "-" => Box::new(io::stdin().lock()),
        file => Box::new(io::BufReader::new(std::fs::File::open(file)?)),
    };
    let mut found: [Found; REPLAYED.len()] = Default::default();
    for line in lines.lines() {
        let line = line?;
        let Some((question, told)) = line.split_once(" => ") else { continue };
        let (words, told): (Vec<&str>, Vec<&str>) = (question.split(' ').collect(), told.split(' ').collect());
        let Some(place) = REPLAYED.iter().position(|family| *family == words[0]) else { continue };
        let listed = match words[0] {
            "rar" => stops_at_the_greatest(&words[1..], &told),
            "wrl" => describes_outside(&words[1..]),
            _ => false,
        };
        if told[0] == "skip" || listed || found[place].asked.contains(question) {
            continue;
        }
        let Some((family, arguments)) = form::read_question(question) else {
            return Err(io::Error::other(format!("no question: {question}")));
        };
        if let Some(made) = record(family, &arguments, &told) {
            let refusal = if told[0] == "no" { told[1] } else { "0" };
            found[place].asked.insert(question.to_string());
            found[place].records.push((refusal.to_string(), made));
        }
    }
    let (mut list, mut total) = (vec![], 0);
    for (family, found) in REPLAYED.iter().zip(found) {
        let of = found.records.len();
        let records = chosen(found.records);
        println!("{family} {} of {of}", records.len());
        total += records.len();
        list.extend((records.len() as u32).to_le_bytes());
        for made in records {
            list.extend((made.len() as u16).to_le_bytes());
            list.extend(made);
        }
    }
    println!("{total} answers, {} bytes", list.len());
    std::fs::write(out, list)
}

fn main() -> ExitCode {
    let words: Vec<String> = std::env::args().skip(1).collect();
    let [answered, out] = &words[..] else {
        eprintln!("usage: replay-list ANSWERED OUT");
        return ExitCode::from(2);
    };
    match run(answered, out) {
        Ok(()) => ExitCode::SUCCESS,
        Err(e) => {
            eprintln!("replay-list: {e}");
            ExitCode::from(3)
        }
    }
}

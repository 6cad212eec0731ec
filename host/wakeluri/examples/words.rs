//! words table|cases: the refusals' words for programs that are not in Rust, made of `Refusal`, where they stand once.
//!
//! `table` writes JSON: for each refusal its words and its numbers as a text with `{first}` and `{second}` in it, and for some calls another.
//! `{column}` is the name of an index line's column, by the second number, and `{byte}` a byte as it is written in a sentence.
//! web/words.json is this table. `cases` writes refusals, their words and their numbers, with tabs between: web/tests/words.mjs holds what
//! the page says to them.

use std::collections::BTreeMap;
use std::process::ExitCode;
use wakeluri::{Call, Refusal};

const CALLS: [Call; 16] = [
    Call::Definition,
    Call::Index,
    Call::ReadIndex,
    Call::WriteIndex,
    Call::Check,
    Call::Find,
    Call::ReadExact,
    Call::ReadRaw,
    Call::ReadSequence,
    Call::Complement,
    Call::WriteRecord,
    Call::Exercise,
    Call::Score,
    Call::Primer,
    Call::FastqIndex,
    Call::FastqCheck,
];

/// The call whose words are those of all that have none of their own.
const ANY: Call = Call::ReadSequence;

/// Numbers over all that are given, for the words of one that is not known.
const UNKNOWN: u64 = 99;

/// Two numbers that stand in no sentence of themselves.
const FIRST: u64 = 1_000_003;
const SECOND: u64 = 2_000_003;

fn refusal(call: Call, number: u64, first: u64, second: u64) -> Refusal {
    Refusal::new(call, number, first, second)
}

/// The texts of a refusal, with names for what changes: its words, and its numbers.
fn texts(call: Call, number: u64) -> [String; 2] {
    let told = refusal(call, number, FIRST, SECOND);
    let named = |text: String| text.replace(&FIRST.to_string(), "{first}").replace(&SECOND.to_string(), "{second}");
    let words = named(told.words());
    let words = match number {
        10..=12 => words.replace("the name", "{column}"),
        24 => words.replace("{second}", "{byte}"),
        UNKNOWN => words.replace("99", "{number}"),
        _ => words,
    };
    let code = named(told.code());
    [words, if number == UNKNOWN { code.replace("99", "{number}") } else { code }]
}

/// A text in JSON.
fn quoted(text: &str) -> String {
    format!("\"{}\"", text.replace('\\', "\\\\").replace('"', "\\\""))
}

/// Lines of an object, each behind so many blanks.
fn object(entries: &BTreeMap<u64, [String; 2]>, blanks: usize) -> String {
    let line = |(number, [words, code]): (&u64, &[String; 2])| {
        format!("{}\"{number}\": [{}, {}]", " ".repeat(blanks), quoted(words), quoted(code))
    };
    entries.iter().map(line).collect::<Vec<_>>().join(",\n")
}

fn table() -> String {
    let unknown = refusal(ANY, UNKNOWN, 0, 0).words();
    let known = |number: &u64| refusal(ANY, *number, 0, 0).words() != unknown.replace("99", &number.to_string());
    let numbers: Vec<u64> = (1..UNKNOWN).filter(known).collect();
    let any: BTreeMap<u64, [String; 2]> = numbers.iter().map(|number| (*number, texts(ANY, *number))).collect();
    let own = |call: Call| {
        let differs = |number: &&u64| any.get(number) != Some(&texts(call, **number));
        numbers.iter().filter(differs).map(|number| (*number, texts(call, *number))).collect::<BTreeMap<_, _>>()
    };
    let own: Vec<String> = CALLS
        .iter()
        .map(|call| (*call, own(*call)))
        .filter(|(_, own)| !own.is_empty())
        .map(|(call, own)| format!("    \"{call:?}\": {{\n{}\n    }}", object(&own, 6)))
        .collect();
    let column = |field: u64| {
        let words = refusal(ANY, 10, 1, field).words();
        format!("\"{field}\": {}", quoted(words.rsplit(", ").next().unwrap_or_default()))
    };
    let columns: Vec<String> = (1..=6).map(column).collect();
    let [words, code] = texts(ANY, UNKNOWN);
    format!(
        "{{\n  \"any\": {{\n{}\n  }},\n  \"calls\": {{\n{}\n  }},\n  \"columns\": {{{}}},\n  \"unknown\": [{}, {}]\n}}\n",
        object(&any, 4),
        own.join(",\n"),
        columns.join(", "),
        quoted(&words),
        quoted(&code)
    )
}

fn cases() -> String {
    let numbers = [0, 1, 2, 3, 4, 5, 6, 33, 65, 126, 127, 255, 256, 12_345_678, u64::MAX];
    let mut told = String::new();
    for call in CALLS {
        for number in 1..=60 {
            for first in numbers {
                for second in numbers {
                    let refusal = refusal(call, number, first, second);
                    told += &format!("{call:?} {number} {first} {second}\t{}\t{}\n", refusal.words(), refusal.code());
                }
            }
        }
    }
    told
}

fn main() -> ExitCode {
    match std::env::args().nth(1).as_deref() {
        Some("table") => print!("{}", table()),
        Some("cases") => print!("{}", cases()),
        _ => {
            eprintln!("usage: words table|cases");
            return ExitCode::from(2);
        }
    }
    ExitCode::SUCCESS
}

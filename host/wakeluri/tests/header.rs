//! The header: it compiles as C and as C++, calls through it are answered, and the declarations in Rust are the same.

use std::path::{Path, PathBuf};
use std::process::Command;

fn root() -> PathBuf {
    Path::new(env!("CARGO_MANIFEST_DIR")).join("../..")
}

/// Runs a command, and shows what it said where it failed.
fn run(command: &mut Command) {
    let output = command.output().unwrap_or_else(|e| panic!("{command:?}: {e}"));
    let said = String::from_utf8_lossy(&output.stderr);
    assert!(output.status.success(), "{command:?}: {}\n{said}", output.status);
}

fn compiler() -> Command {
    let name = std::env::var("CC").unwrap_or_else(|_| "cc".to_string());
    let mut command = Command::new(name);
    command.arg("-I").arg(root().join("include"));
    command
}

#[test]
fn calls_from_c_are_answered() {
    let program = Path::new(env!("CARGO_TARGET_TMPDIR")).join("header");
    let source = Path::new(env!("CARGO_MANIFEST_DIR")).join("tests/header.c");
    let around = root().join("host/c/wakeluri.c");
    let warnings = ["-std=c11", "-Wall", "-Wextra", "-pedantic", "-Werror"];
    run(compiler().args(warnings).arg("-o").arg(&program).arg(source).arg(around).arg(env!("WAKELURI_LINKED")));
    run(&mut Command::new(&program));

    // in C and in Rust a refusal has the same words, and both are of one version
    let said = Command::new(program).arg("words").output().expect("words").stdout;
    let said = String::from_utf8(said).expect("text");
    let mut lines = said.lines();
    assert_eq!(lines.next(), Some(env!("CARGO_PKG_VERSION")));
    for (number, words) in lines.enumerate() {
        assert_eq!(words, wakeluri::Reason::words_of(number as u64));
    }
}

/// The program in C leaves no call out.
#[test]
fn every_call_is_made_from_c() {
    let read = |path: &str| std::fs::read_to_string(root().join(path)).expect("a file of the repository");
    let (header, program) = (read("include/wakeluri.h"), read("host/wakeluri/tests/header.c"));
    // a name stands before its '('
    let named =
        |text: &str| text.rsplit(|c: char| !c.is_ascii_alphanumeric() && c != '_').next().unwrap_or("").to_owned();
    let calls: Vec<String> = header.split('(').map(named).filter(|name| name.starts_with("wakeluri_")).collect();
    let left_out: Vec<&String> = calls.iter().filter(|call| !program.contains(&format!("{call}("))).collect();
    assert!(calls.len() > 40 && left_out.is_empty(), "{}: {left_out:?}", calls.len());
}

/// The refusals by name are those of Rust, and the version is the crate's.
#[test]
fn constants_of_the_header_are_those_of_rust() {
    let header = std::fs::read_to_string(root().join("include/wakeluri_host.h")).expect("the header");
    let constant = |line: &str| -> Option<(String, u64)> {
        let (name, rest) = line.trim().strip_prefix("WAKELURI_")?.split_once(" = ")?;
        Some((name.replace('_', "").to_lowercase(), rest.split_once(',')?.0.parse().ok()?))
    };
    let constants: Vec<(String, u64)> = header.lines().filter_map(constant).collect();
    let reason = |number| wakeluri::Refusal::new(wakeluri::Call::Check, number, 0, 0).reason();
    let named = (1..=wakeluri::Reason::LAST).map(|number| (reason(number).name().to_lowercase(), number));
    assert_eq!(constants, [("fine".to_string(), 0)].into_iter().chain(named).collect::<Vec<_>>());
    let number = |text: &str| text.split('.').fold(0, |sum, part| sum * 100 + part.parse::<u64>().expect("a number"));
    let version = format!("#define WAKELURI_VERSION {}\n", number(env!("CARGO_PKG_VERSION")));
    assert!(header.contains(&version), "{version}");
}

#[test]
fn the_header_is_good_in_every_c() {
    let header = root().join("include/wakeluri.h");
    for language in ["c", "c++"] {
        let check = ["-x", language, "-Wall", "-Wextra", "-pedantic", "-Werror", "-fsyntax-only"];
        let compiled = compiler().args(check).arg(&header).output().expect("a compiler");
        let said = String::from_utf8_lossy(&compiled.stderr);
        // a machine may have no compiler for C++
        assert!(compiled.status.success() || said.contains("cc1plus"), "{said}");
    }
}

/// A call by its name, the types and names of its parameters, and what it answers with, as the header has it.
fn in_header(text: &str) -> Vec<String> {
    let mut found = vec![];
    for line in text.lines().filter(|line| line.starts_with("struct wakeluri_") && line.ends_with(");")) {
        let (answer, rest) = line["struct wakeluri_".len()..].split_once(' ').expect("a call");
        let (name, rest) = rest.split_once('(').expect("parameters");
        let parameters = rest.trim_end_matches(");").split(", ").map(|parameter| {
            let (kind, name) = parameter.rsplit_once([' ', '*']).expect("a type and a name");
            let kind = match kind {
                "const uint8_t " => "*const u8",
                "uint8_t " => "*mut u8",
                "size_t" => "usize",
                "uint64_t " => "*mut u64",
                "uint64_t" => "u64",
                "struct wakeluri_feed" => "Feed",
                other => panic!("a type that isn't known: {other}"),
            };
            format!("{name}: {kind}")
        });
        found.push(format!("{name}({}) -> {answer}", parameters.collect::<Vec<_>>().join(", ")));
    }
    found
}

/// The same, of what is declared in Rust: its parameters as C has them.
fn in_rust(name: &str, parameters: &[(&str, &str)], answer: &str) -> String {
    let in_c = |(name, kind): &(&str, &str)| match *kind {
        "bytes" => format!("{name}: *const u8, {name}_length: usize"),
        "maybe" => format!("has_{name}: u64, {name}: *const u8, {name}_length: usize"),
        "output" | "table" | "fastq_table" => format!("{name}: *mut u8, {name}_length: usize"),
        "numbers" => format!("{name}: *mut u64, {name}_length: usize"),
        "number" => format!("{name}: u64"),
        "state" => format!("{name}: Feed"),
        "bounds" => "has_start: u64, start: u64, has_end: u64, end: u64".to_string(),
        other => panic!("a kind that isn't known: {other}"),
    };
    let parameters: Vec<String> = parameters.iter().map(in_c).collect();
    format!("wakeluri_{name}({}) -> {}", parameters.join(", "), answer.to_lowercase())
}

macro_rules! calls {
    ($($(#[$doc:meta])* fn $name:ident($($parameter:ident: $kind:ident),*) -> $answer:ident;)*) => {
        [$(in_rust(stringify!($name), &[$((stringify!($parameter), stringify!($kind))),*], stringify!($answer))),*]
    };
}

macro_rules! fields {
    ($($(#[$doc:meta])* struct $name:ident { $($field:ident),* })*) => {
        [$((stringify!($name), vec!["refusal", "first", "second", $(stringify!($field)),*])),*]
    };
}

/// The fields of each struct of the header, in order.
fn structs(header: &str) -> Vec<(String, Vec<&str>)> {
    let mut found: Vec<(String, Vec<&str>)> = vec![];
    let mut inside = false;
    for line in header.lines() {
        if let Some(name) = line.strip_prefix("struct wakeluri_").and_then(|rest| rest.strip_suffix(" {")) {
            found.push((name.to_string(), vec![]));
            inside = true;
        } else if line.starts_with('}') {
            inside = false;
        } else if inside && let Some(last) = found.last_mut() {
            let names = line.trim().trim_end_matches(';').strip_prefix("uint64_t ").expect("a number of 64 bits");
            last.1.extend(names.split(", "));
        }
    }
    found
}

#[test]
fn declarations_in_rust_are_those_of_the_header() {
    let header = std::fs::read_to_string(root().join("include/wakeluri.h")).expect("the header");
    let calls = in_header(&header);
    assert!(calls.len() >= 21, "{calls:?}");
    assert_eq!(calls, wakeluri::entry_points!(calls));

    let in_c = structs(&header);
    assert!(in_c.len() >= 4, "{in_c:?}");
    assert_eq!(in_c, wakeluri::answers!(fields).map(|(name, fields)| (name.to_lowercase(), fields)));
}

//! A whole shelf at once: `check` and `index` of many files and folders.

mod common;

use common::json::objects;
use common::{Answer, Folder, WAKELURI};
use std::fs;
use std::process::Command;
use std::time::{Duration, Instant};

/// A folder with a good pair, a stale one, a file without an index, one that no index fits, and what is no FASTA.
fn shelf(test: &str) -> Folder {
    let folder = Folder::new(test);
    fs::create_dir_all(folder.at("refs/sub/.hidden")).unwrap();
    for (name, text) in [
        ("refs/good.fa", ">s\nACGT\nAC\n"),
        ("refs/good.fa.fai", "s\t6\t3\t4\t5\n"),
        ("refs/stale.fna", ">s\nACGT\nAC\n"),
        ("refs/stale.fna.fai", "s\t6\t3\t3\t4\n"),
        ("refs/sub/alone.FASTA", ">t\nGG\n"),
        ("refs/sub/uneven.fa", ">u\nAC\nACG\nA\n"),
        ("refs/sub/notes.txt", "no FASTA"),
        ("refs/sub/packed.fa.gz", "\u{1f}"),
        ("refs/sub/.hidden/x.fa", "not looked at"),
    ] {
        folder.write(name, text);
    }
    folder
}

#[test]
fn a_line_for_each_and_a_summary() {
    let folder = shelf("shelf-lines");
    let told = folder.run(&["check", "refs"]);
    assert_eq!((told.status, told.err.as_str()), (Some(3), ""), "{told:?}");
    let lines: Vec<&str> = told.out.lines().collect();
    let starts = [
        "accepted: refs/good.fa.fai leads to every base of refs/good.fa (1 record, 6 bases)",
        "refused: refs/stale.fna.fai, line 1 (byte 0): ",
        "failed: refs/sub/alone.FASTA.fai: there is no such file",
        "failed: refs/sub/uneven.fa.fai: there is no such file",
        "4 files: 1 accepted, 1 refused, 2 failed; 1 packed file passed over",
    ];
    assert_eq!(lines.len(), starts.len(), "{told:?}");
    assert!(lines.iter().zip(starts).all(|(line, start)| line.starts_with(start)), "{told:?}");
    assert!(lines[1].ends_with("; refused 23 (record 1, base 4)"), "{told:?}");

    let told = folder.run(&["index", "refs/sub", "refs/good.fa"]);
    assert_eq!(told.status, Some(1));
    let lines: Vec<&str> = told.out.lines().collect();
    assert_eq!(lines[0], "indexed: refs/sub/alone.FASTA.fai: 1 record, 2 bases");
    assert!(lines[1].starts_with("refused: refs/sub/uneven.fa, line 3"), "{told:?}");
    assert!(lines[1].ends_with("; refused 42 (offset 8, base 5)"), "{told:?}");
    assert_eq!(
        lines[2..],
        ["indexed: refs/good.fa.fai: 1 record, 6 bases", "3 files: 2 indexed, 1 refused; 1 packed file passed over"]
    );
    assert_eq!(folder.read("refs/sub/alone.FASTA.fai"), b"t\t2\t3\t2\t3\n");

    // good ones and the summary go with -q, bad ones stay
    let told = folder.run(&["check", "-q", "refs/good.fa", "refs/stale.fna"]);
    assert_eq!((told.status, told.out.lines().count(), told.err.as_str()), (Some(1), 1, ""), "{told:?}");
    folder.run(&["check", "-q", "refs/good.fa", "refs/good.fa", "refs/good.fa"]).gave("");
}

/// Whatever else is in the list, what is said of a file is what is said of it alone.
#[test]
fn each_answer_depends_on_its_file_alone() {
    let folder = shelf("shelf-alone");
    for json in [&[][..], &["--json"]] {
        let of = |files: &[&str]| folder.run(&[json, &["check"], files].concat());
        let files = ["refs/good.fa", "refs/stale.fna", "refs/sub/alone.FASTA", "refs/sub/uneven.fa"];
        let all = of(&files);
        let without_summary = |told: &Answer| -> Vec<String> {
            let mut lines: Vec<String> = told.out.lines().map(str::to_string).collect();
            lines.pop();
            lines
        };
        let one_by_one = files.iter().flat_map(|file| without_summary(&of(&[file, "--each"])));
        assert_eq!(without_summary(&all), one_by_one.collect::<Vec<_>>());
        assert_eq!(without_summary(&all), without_summary(&of(&["refs"])));
        let turned: Vec<&str> = files.iter().rev().copied().collect();
        let back: Vec<String> = without_summary(&of(&turned)).into_iter().rev().collect();
        assert_eq!(without_summary(&all), back);
    }
}

#[test]
fn json_an_object_for_each() {
    let folder = shelf("shelf-json");
    let told = folder.run(&["--json", "check", "refs"]);
    let objects = objects(&told.out);
    assert_eq!((told.status, objects.len(), told.err.as_str()), (Some(3), 5, ""));
    let given: Vec<_> = objects.iter().filter_map(|object| object.text("given")).collect();
    assert_eq!(given, ["refs/good.fa", "refs/stale.fna", "refs/sub/alone.FASTA", "refs/sub/uneven.fa"]);
    assert_eq!(objects[1].number("refused"), Some(23));
    assert_eq!((objects[1].number("status"), objects[2].number("status")), (Some(1), Some(3)));
    let summary = ["files", "files_good", "files_refused", "files_failed", "files_passed_over", "worst_status"];
    assert_eq!(summary.map(|key| objects[4].number(key)), [Some(4), Some(1), Some(1), Some(2), Some(1), Some(3)]);
}

#[test]
fn an_index_behind_its_file() {
    let folder = shelf("shelf-index");
    folder.write("a.fai", "s\t6\t3\t4\t5\n");
    folder.run(&["check", "refs/stale.fna", "a.fai", "refs/good.fa"]).gave(concat!(
        "accepted: a.fai leads to every base of refs/stale.fna (1 record, 6 bases)\n",
        "accepted: refs/good.fa.fai leads to every base of refs/good.fa (1 record, 6 bases)\n",
        "2 files: 2 accepted\n",
    ));
    // a file of any name is one of the list, by its first byte or with --each
    fs::copy(folder.at("refs/good.fa"), folder.at("b.txt")).unwrap();
    fs::copy(folder.at("a.fai"), folder.at("b.txt.fai")).unwrap();
    let told = folder.run(&["check", "refs/good.fa", "b.txt"]);
    assert!(told.out.ends_with("b.txt (1 record, 6 bases)\n2 files: 2 accepted\n"), "{told:?}");
    folder.write("b.txt", "no FASTA");
    let told = folder.run(&["check", "--each", "refs/good.fa", "b.txt"]);
    assert!(told.out.contains("\nrefused: b.txt, line 1") && told.status == Some(1), "{told:?}");
    folder.run(&["check", "a.fai", "refs/good.fa", "refs/good.fa"]).failed(2, &["no file is before it"]);
    folder.run(&["check", "refs", "-i", "a.fai"]).failed(2, &["one index is named, and several files"]);
    folder.run(&["index", "refs", "-o", "a.fai"]).failed(2, &["one index is named, and several files"]);
    folder.run(&["check", "refs", "-"]).failed(2, &["standard input can't be one of several files"]);
    fs::create_dir(folder.at("empty")).unwrap();
    let told = folder.run(&["check", "empty"]);
    assert!(
        told.status == Some(3) && told.out.starts_with("failed: empty: there is no FASTA or FASTQ file in this folder"),
        "{told:?}"
    );
}

/// Files that are mapped are judged by processes of their own, and say the same.
#[test]
fn mapped_files_say_the_same() {
    let folder = shelf("shelf-mapped");
    for words in [&["check", "refs"][..], &["--json", "check", "refs"], &["check", "-q", "refs"]] {
        assert_eq!(folder.run(&[words, &["--input", "map"]].concat()), folder.run(words));
    }
    folder.write("refs/good.fa", ">s\nAC T\nAC\n");
    folder.write("refs/sub/odd.fa", ">s\nAC T\nAC\n");
    for words in [&["index", "refs"][..], &["index", "refs", "--strict"], &["--json", "index", "refs"]] {
        let read = folder.run(words);
        assert!(read.err.is_empty() == words.contains(&"--strict"), "{read:?}");
        assert_eq!(folder.run(&[words, &["--input", "map"]].concat()), read);
    }
}

/// A file that is cut while it is read ends the process that works on it, and no other.
#[test]
fn a_file_that_is_cut_hides_no_other() {
    let folder = Folder::new("shelf-cut");
    fs::create_dir(folder.at("refs")).unwrap();
    let lines = "ACGTACGTACGTACGTACGTACGTACGTACGTACGTACGTACGTACGTACGTACGTACGT\n".repeat(1_000_000);
    folder.write("refs/a.fa", format!(">s\n{lines}"));
    folder.write("refs/b.fa", ">s\nACGT\n");
    let child = folder.start(&["index", "refs"]);
    std::thread::sleep(Duration::from_millis(5));
    fs::OpenOptions::new().write(true).open(folder.at("refs/a.fa")).unwrap().set_len(100).unwrap();
    let told = Answer::from(child.wait_with_output().unwrap());
    // it is cut before it is opened, while it is read, or after that
    assert!(matches!(told.status, Some(0 | 1 | 3)), "{told:?}");
    assert!(told.out.contains("\nindexed: refs/b.fa.fai: 1 record, 4 bases\n2 files: "), "{told:?}");
}

/// A thousand small pairs take a second or so: thirty are allowed here, on a machine that has other work.
#[test]
fn a_thousand_pairs() {
    let folder = Folder::new("shelf-thousand");
    fs::create_dir(folder.at("refs")).unwrap();
    for number in 0..1000 {
        folder.write(&format!("refs/k{number:03}.fa"), format!(">s{number}\n{}", "ACGTACGTAC\n".repeat(50)));
    }
    let timed = |words: &[&str], last: &str| {
        let start = Instant::now();
        let told = folder.run(words);
        let taken = start.elapsed();
        assert_eq!((told.status, told.out.lines().last(), told.out.lines().count()), (Some(0), Some(last), 1001));
        assert!(taken < Duration::from_secs(30), "{words:?} took {taken:?}");
        eprintln!("{words:?}: {taken:?}");
    };
    timed(&["index", "refs"], "1,000 files: 1,000 indexed");
    timed(&["check", "refs"], "1,000 files: 1,000 accepted");
}

/// The example of the manual: another engine cuts the list.
#[test]
fn by_xargs() {
    let folder = shelf("shelf-xargs");
    let line = format!("find refs -name '*.fa' -print0 | sort -z | xargs -0 -n 1 -P 2 {WAKELURI} check -q --each");
    let told = Answer::from(Command::new("sh").args(["-c", &line]).current_dir(folder.path()).output().unwrap());
    // xargs tells 123 where one of them was not 0
    assert_eq!(told.status, Some(123), "{told:?}");
    let mut lines: Vec<&str> = told.out.lines().collect();
    lines.sort_unstable();
    let lacks = |file: &str| format!("failed: refs/sub/{file}.fai: there is no such file");
    // find looks into hidden folders too
    assert_eq!(lines, [lacks(".hidden/x.fa"), lacks("uneven.fa")], "{told:?}");
}

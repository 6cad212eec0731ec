//! Lists of many: a sheet of regions took a walk over all names for each of them. Each limit is many times what is needed, and far
//! less than what a walk for each would take.

mod common;

use common::Folder;
use std::fmt::Write;
use std::time::{Duration, Instant};

/// Runs a command and holds its time against a limit.
#[track_caller]
fn within(seconds: u64, folder: &Folder, words: &[&str]) -> common::Answer {
    let begun = Instant::now();
    let answer = folder.run(words);
    let taken = begun.elapsed();
    assert!(taken < Duration::from_secs(seconds), "{words:?} took {taken:?}");
    answer
}

fn records(names: impl Iterator<Item = String>) -> String {
    names.fold(String::new(), |mut file, name| {
        let _ = write!(file, ">{name}\nACGT\n");
        file
    })
}

#[test]
fn many_regions_of_many_records() {
    let folder = Folder::new("many");
    folder.write("f.fa", records((0..200_000).map(|number| format!("contig{number:06}"))));
    let rows = (0..20_000_usize).map(|k| k * 7_919 % 200_000);
    let sheet: String = rows.clone().map(|row| format!("contig{row:06}:2-3\n")).collect();
    folder.write("sheet.txt", &sheet);
    let expected: String = sheet.lines().map(|region| format!(">{region}\nCG\n")).collect();
    // without an index, with one that is checked, and with one that isn't
    within(20, &folder, &["read", "f.fa", "-r", "sheet.txt"]).gave(&expected);
    assert_eq!(folder.run(&["index", "f.fa"]).status, Some(0));
    within(20, &folder, &["read", "f.fa", "-r", "sheet.txt"]).gave(&expected);
    assert_eq!(within(20, &folder, &["read", "--unchecked", "f.fa", "-r", "sheet.txt"]).out, expected);
    let turned = expected.replace('\n', " reverse complement\n").replace("CG reverse complement", "CG");
    within(20, &folder, &["revcomp", "f.fa", "-r", "sheet.txt"]).gave(&turned);
    // one that isn't there among them
    folder.write("sheet.txt", format!("{sheet}contig199999x\n"));
    within(20, &folder, &["read", "f.fa", "-r", "sheet.txt"])
        .refused("refused 15", &["sheet.txt, line 20001: ", "the nearest names are: contig199999, "]);
    // one that is too long
    folder.write("sheet.txt", format!("{sheet}contig199999:4-5\n"));
    within(20, &folder, &["read", "f.fa", "-r", "sheet.txt"])
        .refused("refused 17 (length 4)", &["contig199999 has 4 bases"]);
}

#[test]
fn many_regions_of_few_records() {
    let folder = Folder::new("many-regions");
    folder.write("f.fa", records(["a", "b"].map(String::from).into_iter()));
    let sheet: String = (0..500_000).map(|k| format!("{}:{}-4\n", ["a", "b"][k % 2], k % 4 + 1)).collect();
    folder.write("sheet.txt", &sheet);
    let answer = within(30, &folder, &["read", "f.fa", "-r", "sheet.txt"]);
    assert_eq!((answer.status, answer.out.lines().count()), (Some(0), 1_000_000));
    assert!(answer.out.ends_with(">a:3-4\nGT\n>b:4-4\nT\n"));
}

/// Names that several records have, each asked for: the first is read, and not every name is told.
#[test]
fn many_names_alike() {
    let folder = Folder::new("alike");
    folder.write("f.fa", records((0..100_000).map(|number| format!("n{}", number % 50_000))));
    folder.write("sheet.txt", (0..50_000).map(|number| format!("n{number}:1-1\n")).collect::<String>());
    let told = "wakeluri: warning: records 10 and 50,010 of f.fa are both named n9: the first is read\n\
                wakeluri: warning: so it is with 49,990 more names of f.fa\n";
    for indexed in [false, true] {
        if indexed {
            assert_eq!(folder.run(&["index", "f.fa"]).status, Some(0));
        }
        let answer = within(20, &folder, &["read", "f.fa", "-r", "sheet.txt"]);
        assert_eq!((answer.status, answer.out.lines().count()), (Some(0), 100_000));
        assert!(answer.err.ends_with(told) && answer.err.lines().count() == 11, "{}", answer.err);
    }
    // one name for all of them, asked for often
    folder.write("g.fa", records((0..200_000).map(|_| "s".to_string())));
    folder.write("sheet.txt", "s:1-2\n".repeat(20_000));
    for indexed in [false, true] {
        if indexed {
            assert_eq!(folder.run(&["index", "g.fa"]).status, Some(0));
        }
        let answer = within(20, &folder, &["read", "g.fa", "-r", "sheet.txt"]);
        assert_eq!((answer.status, answer.out), (Some(0), ">s:1-2\nAC\n".repeat(20_000)));
        assert_eq!(answer.err, "wakeluri: warning: records 1 and 2 of g.fa are both named s: the first is read\n");
        within(20, &folder, &["read", "g.fa", "t"])
            .refused("refused 15", &["it has 200,000 records: s, s, s, s, s, .."]);
    }
}

/// One long line: a region that is nothing but colons, or braces, or a number without end.
#[test]
fn a_long_line_in_a_sheet() {
    let folder = Folder::new("long-line");
    folder.write("f.fa", records(["a", ":", "a:a"].map(String::from).into_iter()));
    for (status, line, words) in [
        (2, ":".repeat(2_000_000), "there is a record :, and what follows is no region of it"),
        (2, "a:".repeat(1_000_000), "there is a record a:a, and what follows is no region of it"),
        (1, "{".repeat(2_000_000), "no record is named '{{"),
        (1, format!("a:{}", "9".repeat(2_000_000)), "is past their end (and over 64 bits)"),
        (2, format!("a:{}", "1,000".repeat(400_000)), "don't part its digits in threes"),
        (1, "x".repeat(2_000_000), "no record is named 'xx"),
    ] {
        folder.write("sheet.txt", line);
        let answer = within(20, &folder, &["read", "f.fa", "-r", "sheet.txt"]);
        answer.failed(status, &[words]);
    }
}

/// More regions than one call takes: several sheets are read, and nothing is written unless all are good.
#[test]
fn a_region_that_is_refused_behind_two_hundred() {
    let folder = Folder::new("many-sheets");
    folder.write("f.fa", ">a\nACGT\n>b\nGG\n>empty\n>c\nTTT\n");
    let sheet: String = (0..450).map(|k| format!("{}\n", ["a:2-3", "b", "c:3"][k % 3])).collect();
    let expected: String = (0..450).map(|k| [">a:2-3\nCG\n", ">b\nGG\n", ">c:3\nT\n"][k % 3]).collect();
    folder.write("sheet.txt", &sheet);
    folder.run(&["read", "f.fa", "-r", "sheet.txt"]).gave(&expected);
    let turned: String = (0..450)
        .map(|k| {
            [">a:2-3 reverse complement\nCG\n", ">b reverse complement\nCC\n", ">c:3 reverse complement\nA\n"][k % 3]
        })
        .collect();
    folder.run(&["revcomp", "f.fa", "-r", "sheet.txt"]).gave(&turned);
    // an index that lies, and is not checked: bases that the file doesn't have are seen when they are read
    folder.write("f.fa.fai", "a\t4\t3\t4\t5\nb\t2\t11\t2\t3\nempty\t0\t21\t1\t2\nc\t30\t24\t3\t4\n");
    folder.write("sheet.txt", format!("{sheet}c:9\na\nc:10-12\n"));
    let answer = folder.run(&["read", "--unchecked", "f.fa", "-r", "sheet.txt"]);
    // both are told
    assert!(answer.err.contains("sheet.txt, line 451: ") && answer.err.contains("sheet.txt, line 453: "), "{answer:?}");
    assert_eq!((answer.status, answer.out.as_str()), (Some(1), ""));
}

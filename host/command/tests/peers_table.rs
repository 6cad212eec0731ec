//! Every cell of the table of other tools in docs/DIFFERENCES.md is run, where the tool is installed, and the table has just these rows.

mod common;

use common::Folder;
use std::fs::{self, File};
use std::os::unix::fs::symlink;
use std::path::Path;
use std::process::{Command, Stdio};
use std::time::{Duration, SystemTime};

/// What is looked at afterwards, of those that are given: whether it ended well, what it gave, what the file holds, the index.
#[derive(Clone, Copy, Default)]
struct Left {
    well: Option<bool>,
    out: Option<&'static str>,
    file: Option<&'static str>,
    index: Option<&'static str>,
}

/// A tool's words, what is left, and the table's words for it.
#[derive(Clone, Copy)]
struct Cell(&'static [&'static str], Left, &'static str);

/// What is run beside the file f.fa, with its index if one is given, which is older or newer.
struct Row {
    case: &'static str,
    file: &'static str,
    index: Option<(&'static str, bool)>,
    /// samtools, seqkit, pyfaidx, bedtools.
    peers: [Cell; 4],
    here: Cell,
}

const ANY: Left = Left { well: None, out: None, file: None, index: None };

const fn gives(out: &'static str) -> Left {
    Left { well: Some(true), out: Some(out), ..ANY }
}

const fn indexes(index: &'static str) -> Left {
    Left { well: Some(true), index: Some(index), ..ANY }
}

const fn refuses(out: &'static str) -> Left {
    Left { well: Some(false), out: Some(out), ..ANY }
}

const fn leaves(well: bool, file: &'static str) -> Left {
    Left { well: Some(well), file: Some(file), ..ANY }
}

/// Nothing is run: bedtools has no regions in words, and only seqkit looks for primers.
const NONE: Cell = Cell(&[], ANY, "not run");
const BED: &[&str] = &["getfasta", "-fi", "f.fa", "-bed", "s.bed"];

const ROWS: [Row; 13] = [
    Row {
        case: "`s:5-100`, where s has 10 bases",
        file: ">s\nACGTACGTAC\n",
        index: None,
        peers: [
            Cell(&["faidx", "f.fa", "s:5-100"], gives(">s:5-100\nACGTAC\n"), "the 6 that are left"),
            Cell(&["faidx", "f.fa", "s:5-100"], gives(">s:5-100\nACGTAC\n"), "the 6 that are left"),
            Cell(&["f.fa", "s:5-100"], refuses(""), "refuses, without a word"),
            Cell(BED, gives(""), "passes over it, with a warning and status 0"),
        ],
        here: Cell(&["read", "f.fa", "s:5-100"], refuses(""), "17 with the length; nothing is given"),
    },
    Row {
        case: "`chr1:5`, with records chr1 and chr1:5",
        file: ">chr1\nACGTACGTAC\n>chr1:5\nGG\n",
        index: None,
        peers: [
            Cell(&["faidx", "f.fa", "chr1:5"], refuses(">chr1:5\n"), "refuses, and gives an empty record"),
            Cell(&["faidx", "f.fa", "chr1:5"], gives(">chr1:5-5\nA\n"), "base 5 of chr1"),
            Cell(&["f.fa", "chr1:5"], gives(">chr1\nACGTACGTAC\n"), "all of chr1"),
            NONE,
        ],
        here: Cell(&["read", "f.fa", "chr1:5"], refuses(""), "15 with both forms, `{chr1:5}` and `{chr1}:5`"),
    },
    Row {
        case: "`HLA:A`, with records HLA and HLA:A",
        file: ">HLA\nACGT\n>HLA:A\nGG\n",
        index: None,
        peers: [
            Cell(&["faidx", "f.fa", "HLA:A"], refuses(">HLA:A\n"), "refuses, and gives an empty record"),
            Cell(&["faidx", "f.fa", "HLA:A"], gives(">HLA:A\nGG\n"), "HLA:A"),
            Cell(&["f.fa", "HLA:A"], gives(">HLA\nACGT\n"), "all of HLA"),
            NONE,
        ],
        here: Cell(&["read", "f.fa", "HLA:A"], gives(">HLA:A\nGG\n"), "HLA:A: there is no other way to read it"),
    },
    Row {
        case: "`{a}`, with records a and {a}",
        file: ">a\nACGT\n>{a}\nGG\n",
        index: None,
        peers: [
            Cell(&["faidx", "f.fa", "{a}"], gives(">{a}\nACGT\n"), "a"),
            Cell(&["faidx", "f.fa", "{a}"], gives(">{a}\nGG\n"), "{a}"),
            Cell(&["f.fa", "{a}"], gives(">{a}\nGG\n"), "{a}"),
            NONE,
        ],
        here: Cell(&["read", "f.fa", "{a}"], refuses(""), "15 with `a` and `{{a}}`"),
    },
    Row {
        case: "`a:`",
        file: ">a\nACGT\n",
        index: None,
        peers: [
            Cell(&["faidx", "f.fa", "a:"], gives(">a:\nACGT\n"), "all of a"),
            Cell(&["faidx", "f.fa", "a:"], gives(""), "nothing, with a warning and status 0"),
            Cell(&["f.fa", "a:"], gives(">a\nACGT\n"), "all of a"),
            NONE,
        ],
        here: Cell(&["read", "f.fa", "a:"], refuses(""), "it can't be read: status 2"),
    },
    Row {
        case: "`a:1,0`, where a has 12 bases",
        file: ">a\nACGTACGTACGT\n",
        index: None,
        peers: [
            Cell(&["faidx", "f.fa", "a:1,0"], gives(">a:1,0\nCGT\n"), "from base 10 on"),
            Cell(&["faidx", "f.fa", "a:1,0"], gives(""), "nothing, with a warning and status 0"),
            Cell(&["f.fa", "a:1,0"], gives(">a\nACGTACGTACGT\n"), "all of a"),
            NONE,
        ],
        here: Cell(&["read", "f.fa", "a:1,0"], refuses(""), "it can't be read: status 2; commas part digits in threes"),
    },
    Row {
        case: "`-o` (`-fo`) with a link to the file that is read",
        file: ">s\nACGT\n",
        index: None,
        peers: [
            Cell(
                &["faidx", "f.fa", "s:1-2", "-o", "l.fa"],
                leaves(true, ">s:1-2\nAC\n"),
                "the file is replaced by the answer",
            ),
            Cell(
                &["faidx", "f.fa", "s:1-2", "-o", "l.fa"],
                leaves(true, ""),
                "the file is emptied, with a warning and status 0",
            ),
            Cell(&["-o", "l.fa", "f.fa", "s:1-2"], leaves(false, ""), "the file is emptied"),
            Cell(
                &["getfasta", "-fi", "f.fa", "-bed", "s.bed", "-fo", "l.fa"],
                leaves(false, ""),
                "the file is emptied",
            ),
        ],
        here: Cell(
            &["read", "f.fa", "s:1-2", "-o", "l.fa"],
            leaves(false, ">s\nACGT\n"),
            "refused: no output is an input, by device and inode",
        ),
    },
    Row {
        case: "a record without bases, the last: `>s\\nACGT\\n>e\\n`",
        file: ">s\nACGT\n>e\n",
        index: None,
        peers: [
            Cell(&["faidx", "f.fa"], Left { well: Some(false), index: Some(""), ..ANY }, "refuses"),
            Cell(&["faidx", "f.fa", "s"], indexes("s\t4\t3\t4\t5\ne\t0\t11\t4\t5\n"), "the line `e 0 11 4 5`"),
            Cell(&["f.fa", "s"], indexes("s\t4\t3\t4\t5\ne\t0\t11\t0\t0\n"), "the line `e 0 11 0 0`"),
            Cell(BED, indexes("e\t0\t-1\t0\t0\ns\t4\t3\t4\t5\n"), "the line `e 0 -1 0 0`, before that of s"),
        ],
        here: Cell(
            &["index", "f.fa"],
            indexes("s\t4\t3\t4\t5\ne\t0\t11\t1\t2\n"),
            "the complete rule gives `e 0 11 1 2`, the original's refuses (5); the checker refuses zero in field 4 (12), and an index without the line (19, 21)",
        ),
    },
    Row {
        case: "the same in the middle: `>e\\n>s\\nACGT\\n`",
        file: ">e\n>s\nACGT\n",
        index: None,
        peers: [
            Cell(&["faidx", "f.fa"], indexes("s\t4\t6\t4\t5\n"), "leaves it out"),
            Cell(&["faidx", "f.fa", "s"], indexes("e\t0\t3\t0\t0\ns\t4\t6\t4\t5\n"), "the line `e 0 3 0 0`"),
            Cell(&["f.fa", "s"], indexes("e\t0\t3\t0\t0\ns\t4\t6\t4\t5\n"), "the line `e 0 3 0 0`"),
            Cell(BED, indexes("e\t0\t-1\t0\t0\ns\t4\t6\t4\t5\n"), "the line `e 0 -1 0 0`"),
        ],
        here: Cell(&["index", "f.fa"], indexes("e\t0\t3\t1\t2\ns\t4\t6\t4\t5\n"), "as above, with `e 0 3 1 2`"),
    },
    Row {
        case: "two records of one name",
        file: ">s\nACGT\n>s\nGG\n",
        index: None,
        peers: [
            Cell(&["faidx", "f.fa"], indexes("s\t4\t3\t4\t5\n"), "the second has no line"),
            Cell(&["faidx", "f.fa", "s"], indexes("s\t4\t3\t4\t5\n"), "the second has no line"),
            Cell(
                &["f.fa", "s"],
                Left { well: Some(false), index: Some("s\t4\t3\t4\t5\ns\t2\t11\t2\t3\n"), ..ANY },
                "a line for each, and refuses to read",
            ),
            Cell(BED, indexes("s\t4\t3\t4\t5\ns\t4\t3\t4\t5\n"), "the first line twice"),
        ],
        here: Cell(
            &["index", "f.fa"],
            indexes("s\t4\t3\t4\t5\ns\t2\t11\t2\t3\n"),
            "a line for each, and a warning; by the name the first is read; the checker refuses an index that lacks a line (19, 21)",
        ),
    },
    Row {
        case: "a space inside a line: `>s\\nAC GT\\n`",
        file: ">s\nAC GT\n",
        index: None,
        peers: [
            Cell(
                &["faidx", "f.fa"],
                indexes("s\t4\t3\t4\t6\n"),
                "not counted: `s 4 3 4 6`, by which base 3 is the space",
            ),
            Cell(&["faidx", "f.fa", "s"], indexes("s\t5\t3\t5\t6\n"), "a base"),
            Cell(&["f.fa", "s"], indexes("s\t5\t3\t5\t6\n"), "a base"),
            Cell(BED, indexes("s\t5\t3\t5\t6\n"), "a base"),
        ],
        here: Cell(
            &["index", "f.fa"],
            indexes("s\t5\t3\t5\t6\n"),
            "a base, with a warning of bytes that are no letters; `--strict` refuses it; the checker refuses samtools' line (22)",
        ),
    },
    Row {
        case: "an index of before ` one` was put behind the name, older than the file: `s:5-8` of `>s one\\nTTTT\\nACGT\\nGGCC\\n`, which are ACGT",
        file: ">s one\nTTTT\nACGT\nGGCC\n",
        index: Some(("s\t12\t3\t4\t5\n", false)),
        peers: [
            Cell(&["faidx", "f.fa", "s:5-8"], gives(">s:5-8\nTTTA\n"), "TTTA, without a word"),
            Cell(&["faidx", "f.fa", "s:5-8"], gives(">s:5-8\nTTTA\n"), "TTTA, without a word"),
            Cell(
                &["f.fa", "s:5-8"],
                Left { index: Some("s\t12\t7\t4\t5\n"), ..gives(">s:5-8\nACGT\n") },
                "makes the index anew, by the times",
            ),
            Cell(BED, gives(">s:4-8\nTTTT\n"), "TTTT, with a warning"),
        ],
        here: Cell(
            &["read", "f.fa", "s:5-8"],
            refuses(""),
            "refused (23), whatever the times; nothing is made anew unasked",
        ),
    },
    Row {
        case: "the same index, newer than the file by its times",
        file: ">s one\nTTTT\nACGT\nGGCC\n",
        index: Some(("s\t12\t3\t4\t5\n", true)),
        peers: [
            Cell(&["faidx", "f.fa", "s:5-8"], gives(">s:5-8\nTTTA\n"), "TTTA, without a word"),
            Cell(&["faidx", "f.fa", "s:5-8"], gives(">s:5-8\nTTTA\n"), "TTTA, without a word"),
            Cell(&["f.fa", "s:5-8"], gives(">s:5-9\nTTTT\nA\n"), "TTTTA, of s:5-9, without a word"),
            Cell(BED, gives(">s:4-8\nTTTT\n"), "TTTT, without a word"),
        ],
        here: Cell(&["read", "f.fa", "s:5-8"], refuses(""), "refused (23)"),
    },
];

const PROGRAMS: [&str; 4] = ["samtools", "seqkit", "faidx", "bedtools"];

fn is_installed(program: &str) -> bool {
    let is_there = Command::new(program).arg("--version").stdin(Stdio::null()).output().is_ok();
    if !is_there {
        eprintln!("not run: {program} isn't installed; `tools/dev setup speed-peers` installs it");
    }
    is_there
}

/// Runs a cell in a new folder, and holds what is left against it.
fn run(row: &Row, program: &str, Cell(words, left, said): Cell, number: usize) {
    let folder =
        Folder::new(&format!("peers-table-{number}-{}", Path::new(program).file_name().unwrap().to_string_lossy()));
    folder.write("f.fa", row.file);
    symlink("f.fa", folder.at("l.fa")).unwrap();
    let bed = match row.case {
        case if case.contains("5-100") => "s\t4\t100\n",
        case if case.contains("index") => "s\t4\t8\n",
        _ => "s\t0\t2\n",
    };
    folder.write("s.bed", bed);
    if let Some((index, is_newer)) = row.index {
        let long_ago = SystemTime::now() - Duration::from_secs(1_000_000);
        let indexes = ["f.fa.fai", "f.fa.seqkit.fai"];
        indexes.iter().for_each(|name| drop(folder.write(name, index)));
        for name in if is_newer { &["f.fa"][..] } else { &indexes } {
            File::options().append(true).open(folder.at(name)).unwrap().set_modified(long_ago).unwrap();
        }
    }
    let ended = Command::new(program).args(words).current_dir(folder.path()).stdin(Stdio::null()).output().unwrap();
    let what = format!("{program} {words:?} of {}: {said}: {}", row.case, String::from_utf8_lossy(&ended.stderr));
    if let Some(well) = left.well {
        assert_eq!(ended.status.success(), well, "{what}");
    }
    if let Some(out) = left.out {
        assert_eq!(String::from_utf8_lossy(&ended.stdout), out, "{what}");
    }
    if let Some(file) = left.file {
        assert_eq!(fs::read_to_string(folder.at("f.fa")).unwrap_or_default(), file, "{what}");
    }
    if let Some(index) = left.index {
        let written =
            ["f.fa.fai", "f.fa.seqkit.fai"].map(|name| fs::read_to_string(folder.at(name)).unwrap_or_default());
        assert_eq!(written.concat().replace(row.index.map_or("\0", |(index, _)| index), ""), index, "{what}");
    }
}

#[test]
fn every_cell_is_run() {
    for (place, program) in PROGRAMS.into_iter().enumerate().filter(|(_, program)| is_installed(program)) {
        for (number, row) in ROWS.iter().enumerate().filter(|(_, row)| !row.peers[place].0.is_empty()) {
            run(row, program, row.peers[place], number);
        }
    }
    for (number, row) in ROWS.iter().enumerate() {
        run(row, common::WAKELURI, row.here, number);
    }
}

#[test]
fn the_table_has_these_rows() {
    let page = fs::read_to_string(Path::new(env!("CARGO_MANIFEST_DIR")).join("../../docs/DIFFERENCES.md")).unwrap();
    let rows: Vec<String> = ROWS
        .iter()
        .map(|row| {
            let cells: Vec<&str> = row.peers.iter().chain([&row.here]).map(|Cell(.., said)| *said).collect();
            format!("| {} | {} |", row.case, cells.join(" | "))
        })
        .collect();
    let missing: Vec<&String> = rows.iter().filter(|row| !page.contains(row.as_str())).collect();
    assert!(
        missing.is_empty(),
        "docs/DIFFERENCES.md lacks:\n{}",
        missing.iter().map(|row| format!("{row}\n")).collect::<String>()
    );
    let head = "| What | samtools | seqkit | pyfaidx | bedtools | here |";
    let table = page.split(head).nth(1).unwrap_or_default().split("\n\n").next().unwrap_or_default();
    assert_eq!(table.matches("\n| ").count(), ROWS.len(), "rows that nothing runs: {table}");
}

/// What is said of one tool alone.
#[test]
fn of_one_tool_alone() {
    let folder = Folder::new("peers-table-alone");
    let run = |program: &str, words: &[&str]| {
        let ended = Command::new(program).args(words).current_dir(folder.path()).stdin(Stdio::null()).output().unwrap();
        (ended.status.success(), String::from_utf8_lossy(&ended.stdout).into_owned())
    };
    let clean = || {
        for name in ["f.fa.fai", "f.fa.seqkit.fai"] {
            let _ = fs::remove_file(folder.at(name));
        }
    };
    folder.write("f.fa", format!(">a\n{}\n", "A".repeat(1200)));
    if is_installed("samtools") {
        let (well, out) = run("samtools", &["faidx", "-n", "5000", "f.fa", "a:1k"]);
        assert_eq!((well, out.lines().nth(1).map(str::len)), (true, Some(201)));
        assert!(!run("samtools", &["faidx", "f.fa", "a:1-2", "-o", "f.fa"]).0);
        assert_eq!(folder.read("f.fa").len(), 1204);
    }
    folder.run(&["read", "f.fa", "a:1k"]).failed(2, &[]);
    folder.run(&["read", "f.fa", "a:1-2", "-o", "f.fa"]).failed(3, &[]);
    clean();
    folder.write("f.fa", ">s\nA\rC\r\nG\rT\r\n");
    folder.write("s.bed", "s\t0\t4\n");
    for (program, words, out, index) in [
        ("samtools", &["faidx", "f.fa", "s"][..], ">s\nACGT\n", "s\t4\t3\t2\t5\n"),
        ("seqkit", &["faidx", "f.fa", "s"], ">s\nACGT\n", "s\t6\t3\t3\t5\n"),
        ("faidx", &["f.fa", "s"], ">s\nACG\nT\n", "s\t6\t3\t3\t5\n"),
        ("bedtools", BED, ">s:0-4\nA\rC\r\n", "s\t8\t3\t4\t5\n"),
    ] {
        if is_installed(program) {
            assert_eq!(run(program, words), (true, out.to_string()), "{program}");
            let written =
                ["f.fa.fai", "f.fa.seqkit.fai"].map(|name| fs::read_to_string(folder.at(name)).unwrap_or_default());
            assert_eq!(written.concat(), index, "{program}");
        }
        clean();
    }
    assert_eq!(folder.run(&["index", "-q", "f.fa", "-o", "-"]).out, "s\t6\t3\t3\t5\n");
    folder.write("f.fa", ">s\nACNRUacgt-\n");
    if is_installed("seqkit") {
        let places = |primer: &str| {
            let (_, out) = run("seqkit", &["locate", "-d", "-P", "--bed", "-p", primer, "f.fa"]);
            out.lines().map(|line| line.split('\t').nth(1).unwrap().to_string()).collect::<Vec<_>>().join(" ")
        };
        assert_eq!((places("N"), places("R")), ("0 1 4".to_string(), "0".to_string()));
    }
    let places = |primer: &str| {
        let told = folder.run(&["primer", "-q", "--bed", primer, "f.fa"]).out;
        let plus = told.lines().filter(|line| line.ends_with('+'));
        plus.map(|line| line.split('\t').nth(1).unwrap().to_string()).collect::<Vec<_>>().join(" ")
    };
    assert_eq!((places("N"), places("R")), ("0 1 2 3 4 5 6 7 8".to_string(), "0 3 5 7".to_string()));
}

//! `--threads`: a large file of several records is indexed and checked in parts, and the answer is the one of a single thread.

mod common;

use common::Folder;

/// Records of a megabyte each, the last but one of them with a fault if that is asked for.
fn file(records: usize, fault: bool) -> String {
    let line = "ACGTN".repeat(12) + "\n";
    let record = |number: usize| {
        let bad = if fault && number == records - 1 { "AC\n\n" } else { "" };
        format!(">r{number} > here\n{bad}{}AC\n", line.repeat(17_000))
    };
    (1..=records).map(record).collect()
}

#[test]
fn as_one_thread() {
    let folder = Folder::new("threads");
    folder.write("f.fa", file(9, false));
    folder.write("bad.fa", file(9, true));
    folder.run(&["index", "--threads", "1", "f.fa"]);
    let index = folder.read("f.fa.fai");
    assert_eq!(index.iter().filter(|byte| **byte == b'\n').count(), 9);
    // another length in the last line
    let mut wrong = index.clone();
    let end = wrong.len() - 8;
    wrong[end] ^= 1;
    folder.write("wrong.fai", &wrong);
    let each = |threads: &str| {
        let run = |words: &[&str]| folder.run(&[words, &["--threads", threads]].concat());
        let indexed = run(&["index", "-o", "-", "f.fa"]);
        assert_eq!(indexed.out.as_bytes(), index, "{threads}");
        let read = run(&["read", "f.fa", "r9:1019990-"]);
        [indexed, read, run(&["check", "f.fa"]), run(&["check", "f.fa", "wrong.fai"]), run(&["index", "bad.fa"])]
    };
    let one = each("1");
    assert_eq!(one.iter().map(|answer| answer.status).collect::<Vec<_>>(), [0, 0, 0, 1, 1].map(Some));
    for threads in ["2", "3", "8", "0"] {
        assert_eq!(each(threads), one, "{threads} threads");
    }
    folder.run(&["check", "--threads", "two", "f.fa"]).failed(2, &["--threads"]);
}

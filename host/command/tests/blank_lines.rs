//! Fault 4: what a blank line does, here and in each peer that is installed; docs/DIFFERENCES.md has the same table.

mod common;

use common::Folder;
use std::process::{Command, Stdio};

/// A file, our index line of its record s and what is refused if there is none; what samtools, seqkit, pyfaidx and bedtools write of s, or
/// nothing where they refuse.
type Row = (&'static str, Result<&'static str, &'static str>, [Option<&'static str>; 4]);

const ROWS: [Row; 8] = [
    (
        ">s\nACGT\nAC\n\n>t\nGG\n",
        Ok("s\t6\t3\t4\t5"),
        [Some("s\t6\t3\t4\t5"), None, Some("s\t6\t3\t4\t5"), Some("s\t6\t3\t4\t5")],
    ),
    (">s\nACGT\nAC\n\n\n", Ok("s\t6\t3\t4\t5"), [Some("s\t6\t3\t4\t5"), None, None, Some("s\t6\t3\t4\t5")]),
    (">s\r\nACGT\r\nAC\r\n\r\n>t\r\nGG\r\n", Ok("s\t6\t4\t4\t6"), [Some("s\t6\t4\t4\t6"), None, None, None]),
    (">s\n\nACGT\nAC\n>t\nGG\n", Ok("s\t6\t4\t4\t5"), [None; 4]),
    (">s\nACGT\n\nACGT\n\nAC\n>t\nGG\n", Ok("s\t10\t3\t4\t6"), [None; 4]),
    (
        ">s\nACGT\nACGT\n\nAC\n>t\nGG\n",
        Err("line 4 is blank, and bases follow it; behind the record's first line none is"),
        [None; 4],
    ),
    (">s\nACGT\n\nACGT\nAC\n>t\nGG\n", Err("line 3 is blank, and behind line 4 1 is not"), [None; 4]),
    (
        "\n>s\nACGT\nAC\n",
        Err("line 1 (byte 0): a record begins with a line such as '>name', and this line is empty"),
        [Some("s\t6\t4\t4\t5"), Some("s\t6\t3\t4\t5"), Some("s\t6\t4\t4\t5"), None],
    ),
];

#[test]
fn fault_4_the_blank_line_is_named() {
    let folder = Folder::new("fault-4");
    for (file, ours, _) in ROWS {
        folder.write("f.fa", file);
        match ours {
            Ok(line) => {
                folder.run(&["read", "f.fa", "s:1-6"]).gave(">s:1-6\nACGTAC\n");
                assert_eq!(folder.run(&["index", "f.fa", "-o", "-"]).out.lines().next(), Some(line));
                // with an index, of ours or of samtools, the answer is the same
                folder.run(&["index", "f.fa"]);
                folder.run(&["read", "f.fa", "s:1-6"]).gave(">s:1-6\nACGTAC\n");
                std::fs::remove_file(folder.at("f.fa.fai")).unwrap();
            }
            Err(words) => {
                folder.run(&["index", "f.fa"]).failed(1, &[words]);
                folder.run(&["read", "f.fa", "s"]).failed(1, &[words]);
            }
        }
    }
    folder.write("f.fa", ">s\nACGT\nAC\n\nACGT\n");
    folder.run(&["index", "f.fa"]).failed(1, &["line 4 is blank, and bases follow it", "; line 3 has 2 bases"]);
}

#[test]
fn fault_4_beside_each_peer() {
    let folder = Folder::new("fault-4-peers");
    folder.write("s.bed", "s\t0\t5\n");
    let peers: [(&str, &[&str], &str); 4] = [
        ("samtools", &["faidx", "f.fa"], "f.fa.fai"),
        ("seqkit", &["faidx", "f.fa", "s"], "f.fa.fai"),
        ("faidx", &["f.fa", "s"], "f.fa.fai"),
        ("bedtools", &["getfasta", "-fi", "f.fa", "-bed", "s.bed"], "f.fa.fai"),
    ];
    for (place, (peer, words, index)) in peers.into_iter().enumerate() {
        let run = |words: &[&str]| {
            Command::new(peer).args(words).current_dir(folder.path()).stdin(Stdio::null()).output().ok()
        };
        if run(&["--version"]).is_none() {
            eprintln!("not run: {peer} isn't installed; `tools/dev setup speed-peers` installs it");
            continue;
        }
        for (file, _, theirs) in ROWS {
            folder.write("f.fa", file);
            for index in [index, "f.fa.seqkit.fai"] {
                let _ = std::fs::remove_file(folder.at(index));
            }
            run(words);
            let written = [index, "f.fa.seqkit.fai"].map(|index| std::fs::read_to_string(folder.at(index)).ok());
            let written = written.into_iter().flatten().next().unwrap_or_default();
            let line = written.lines().find(|line| line.starts_with("s\t"));
            assert_eq!(line, theirs[place], "{peer} of {}", file.escape_default());
        }
    }
}

//! Fault 13: an empty file, nothing turned, the owner and mode of an index, packed files, a mark before '>', and RNA.

mod common;

use common::Folder;
use std::fs;
use std::os::unix::fs::{MetadataExt, PermissionsExt};

#[test]
fn fault_13_an_empty_file_is_warned_of() {
    let folder = Folder::new("fault-13-empty");
    folder.write("f.fa", "");
    let warning = "wakeluri: warning: f.fa: it is empty: there is no record in it\n";
    for (words, out) in [
        (["index", "f.fa"], "f.fa.fai: 0 records, 0 bases\n"),
        (["check", "f.fa"], "accepted: f.fa.fai leads to every base of f.fa (0 records, 0 bases)\n"),
    ] {
        let answer = folder.run(&words);
        assert_eq!((answer.status, answer.out.as_str(), answer.err.as_str()), (Some(0), out, warning));
    }
    folder.run(&["read", "f.fa", "s"]).refused("refused 15", &["it is empty", "it has 0 records"]);
}

#[test]
fn fault_13_of_nothing_comes_nothing() {
    let folder = Folder::new("fault-13-nothing");
    for command in ["revcomp", "complement"] {
        for flags in [&[][..], &["--joined"], &["--each-line"], &["--json"]] {
            let answer = folder.piped(&[&[command], flags].concat(), b"", 1);
            assert_eq!((answer.status, answer.out.as_str()), (Some(0), ""));
            assert!(answer.err.contains("standard input: it is empty"), "{answer:?}");
        }
    }
}

#[test]
fn fault_13_owner_and_mode_of_an_index_stay() {
    let folder = Folder::new("fault-13-mode");
    folder.write("f.fa", ">s\nAC\n");
    folder.write("f.fa.fai", "s\t1\t1\t1\t1\n");
    for mode in [0o600, 0o664, 0o444] {
        fs::set_permissions(folder.at("f.fa.fai"), fs::Permissions::from_mode(mode)).unwrap();
        // only the first of all users may give a file away
        let given = std::os::unix::fs::chown(folder.at("f.fa.fai"), Some(1234), Some(1235)).is_ok();
        let before = fs::metadata(folder.at("f.fa.fai")).unwrap();
        folder.run(&["index", "f.fa"]).gave("f.fa.fai: 1 record, 2 bases\n");
        let after = fs::metadata(folder.at("f.fa.fai")).unwrap();
        assert_ne!(before.ino(), after.ino());
        assert_eq!((after.mode() & 0o7777, after.mode()), (mode, before.mode()));
        assert_eq!((after.uid(), after.gid()), (before.uid(), before.gid()), "given away: {given}");
    }
}

#[test]
fn fault_13_packed_files_are_named() {
    let folder = Folder::new("fault-13-packed");
    for (start, name, unpack) in [
        (&b"BZh91AY&SY"[..], "bzip2", "`bzip2 -dc FILE"),
        (b"\xfd7zXZ\0", "xz", "`xz -dc FILE"),
        (b"\x28\xb5\x2f\xfd", "zstd", "`zstd -dc FILE"),
        (b"PK\x03\x04", "zip", "`unzip -p FILE"),
    ] {
        folder.write("f.fa", [start, b"rest\n"].concat());
        for words in [&["index", "f.fa"][..], &["read", "f.fa", "s"], &["wrap", "f.fa"]] {
            let of = format!("this is a compressed file (of {name}), and FASTA or FASTQ text is needed");
            folder.run(words).failed(1, &[&of, unpack]);
        }
    }
}

#[test]
fn fault_13_a_mark_before_the_first_line_is_named() {
    let folder = Folder::new("fault-13-mark");
    let file = b"\xef\xbb\xbf>s\nAC\n";
    for words in [&["index", "-"][..], &["read", "-", "s"], &["wrap", "-"], &["revcomp"], &["complement", "-"]] {
        folder
            .piped(words, file, 3)
            .failed(1, &["standard input, line 1", "save the file as UTF-8 without a byte order mark"]);
    }
}

#[test]
fn fault_13_rna() {
    let folder = Folder::new("fault-13-rna");
    folder.piped(&["revcomp"], b"AACGUuan\n", 9).gave("ntaACGTT\n");
    folder.piped(&["revcomp", "--rna"], b"AACGUuan\n", 9).gave("nuaACGUU\n");
    folder.write("f.fa", ">s\nACGU\nR\n");
    folder.run(&["complement", "--rna", "f.fa"]).gave(">s complement\nUGCAY\n");
    folder.run(&["revcomp", "--rna", "f.fa", "s:1-2"]).gave(">s:1-2 reverse complement\nGU\n");
    folder.run(&["read", "--rna", "f.fa", "s"]).failed(2, &["--rna"]);
}

//! The three things that have hurt classes.

mod common;

use common::Folder;

/// A sheet asked for a hundred bases where fifty were left.
#[test]
fn a_region_past_the_end_is_refused_with_the_length() {
    let folder = Folder::new("past-the-end");
    let bases = "ACGTACGTAC".repeat(15);
    folder.write("key.fa", format!(">key\n{}\n{}\n{}\n", &bases[..60], &bases[60..120], &bases[120..]));
    folder.run(&["read", "key.fa", "key:101-150"]).gave(&format!(">key:101-150\n{}\n", &bases[100..150]));
    let words = [
        "key.fa: key:101-200 was asked for, and key has 150 bases: base 200 is past their end",
        "to read to the end: key:101-150",
    ];
    folder.run(&["read", "key.fa", "key:101-200"]).refused("refused 17 (length 150)", &words);
    // with an index too, and no region before it is answered
    assert_eq!(folder.run(&["index", "key.fa"]).status, Some(0));
    folder.run(&["read", "key.fa", "key:1-10", "key:101-200"]).refused("refused 17 (length 150)", &words);
    folder.run(&["read", "--unchecked", "key.fa", "key:101-200"]).refused("refused 17 (length 150)", &words);
    // one base too many is too many
    folder.run(&["read", "key.fa", "key:101-151"]).refused("refused 17 (length 150)", &["base 151"]);
}

/// An index that was made when the file had LF alone slid every key by some bases.
#[test]
fn an_index_older_than_its_file_by_other_line_ends_is_refused() {
    let folder = Folder::new("older-index");
    folder.write("key.fa", ">a\nACGTAC\nGT\n>b\nTTTTTT\nCC\n");
    assert_eq!(folder.run(&["index", "key.fa"]).status, Some(0));
    folder.run(&["read", "key.fa", "b:5-8"]).gave(">b:5-8\nTTCC\n");
    // the file gets other line ends, and the index stays
    folder.write("key.fa", ">a\r\nACGTAC\r\nGT\r\n>b\r\nTTTTTT\r\nCC\r\n");
    let words =
        ["key.fa.fai, line 1 (byte 0): by this line base 1 of a is at byte 3, and it is at byte 4 (line 2) of key.fa"];
    folder.run(&["check", "key.fa"]).refused("refused 23 (record 1, base 1)", &words);
    folder.run(&["read", "key.fa", "b:5-8"]).refused("refused 23 (record 1, base 1)", &words);
    // unchecked it is said aloud
    let aloud = folder.run(&["read", "--unchecked", "key.fa", "b:5-8"]);
    assert_eq!(aloud.status, Some(0));
    assert!(aloud.err.contains("warning: key.fa.fai was not checked with key.fa"), "{aloud:?}");
    assert_ne!(aloud.out, ">b:5-8\nTTCC\n");
    // what the message says to do helps
    assert_eq!(folder.run(&["index", "key.fa"]).status, Some(0));
    folder.run(&["read", "key.fa", "b:5-8"]).gave(">b:5-8\nTTCC\n");
}

/// The answer depended on how a buffer was filled, at '>' and at CR.
#[test]
fn the_same_bytes_by_file_pipe_and_pieces() {
    let folder = Folder::new("pieces");
    let files: [&[u8]; 4] = [
        b">s one\r\nAC>G\r\nT>CA\r\nG\r\n>t\r\nGGGG\r\n",
        b">s\nAC\rG\nA\rGT\n>t\nG\n",
        b">s\n\nACGT\n",
        b">s\nACGT\nAC\n>t\nGG\nG\r",
    ];
    for (number, file) in files.into_iter().enumerate() {
        let name = format!("{number}.fa");
        folder.write(&name, file);
        for regions in [&["s:2-4", "t:1-1"][..], &["s"], &["t"], &["s:3-6"], &["s:5-900"]] {
            let words = |file, how| [&["--input", how, "read", file], regions].concat();
            let mut by_file = folder.run(&words(&name, "read"));
            assert_eq!(by_file, folder.run(&words(&name, "map")), "{number} {regions:?}");
            assert_eq!(by_file, folder.run(&words(&name, "auto")), "{number} {regions:?}");
            by_file.err = by_file.err.replace(&name, "standard input");
            for piece in [1, 2, 3, 7, 1000] {
                assert_eq!(by_file, folder.piped(&words("-", "auto"), file, piece), "{number} {regions:?} {piece}");
            }
            // a pipe that has a name
            let pipe = format!("{number}.pipe");
            let _ = std::fs::remove_file(folder.at(&pipe));
            let made = std::process::Command::new("mkfifo").arg(folder.at(&pipe)).status();
            if made.is_ok_and(|status| status.success()) {
                let child = folder.start(&words(&pipe, "auto"));
                std::fs::write(folder.at(&pipe), file).unwrap();
                let mut answer = common::Answer::from(child.wait_with_output().unwrap());
                answer.err = answer.err.replace(&pipe, "standard input");
                assert_eq!(by_file, answer, "{number} {regions:?} by a named pipe");
            }
        }
        let mut index = folder.run(&["index", "-o", "-", &name]);
        index.err = index.err.replace(&name, "standard input");
        for piece in [1, 5, 1000] {
            assert_eq!(index, folder.piped(&["index", "-"], file, piece));
        }
    }
}

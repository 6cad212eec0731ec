//! A region of a file whose index is used unchecked: just the bytes between its first base and its last are read, however long the file is.

mod common;

use common::Folder;
use std::fs::File;
use std::os::unix::fs::FileExt;
use std::process::Command;

/// 1 TiB less a byte: the longest file but one.
const BYTES: u64 = (1 << 40) - 1;

/// A record in lines of 60 whose last ends with the file; of its bases only the last 12,000 are written. None where a file system doesn't
/// hold so long a file.
fn sparse(folder: &Folder) -> Option<u64> {
    let file = File::create(folder.at("f.fa")).expect("a file");
    file.set_len(BYTES).ok()?;
    let line = "ACGTN".repeat(12) + "\n";
    file.write_all_at(line.repeat(200).as_bytes(), BYTES - 200 * 61).expect("room");
    let length = BYTES / 61 * 60;
    folder.write("f.fa.fai", format!("s\t{length}\t{}\t60\t61\n", BYTES % 61));
    Some(length)
}

/// What a command reads, and what it writes: the shell adds up what its children read. At most so many KiB may be mapped.
fn counted(folder: &Folder, words: &[&str], most: u64) -> (u64, String) {
    let script = format!("ulimit -v {most}; \"$@\" || exit 1; cat /proc/$$/io");
    let program = env!("CARGO_BIN_EXE_wakeluri");
    let run = Command::new("sh").args(["-c", &script, "sh", program]).args(words).current_dir(folder.path()).output();
    let out = run.expect("a shell").stdout;
    let out = String::from_utf8(out).expect("text");
    let (answer, io) = out.split_once("rchar: ").expect("a count of bytes");
    let read = io.lines().next().and_then(|count| count.parse().ok()).expect("a count");
    (read, answer.to_string())
}

#[test]
fn only_the_bytes_of_a_region_are_read() {
    let folder = Folder::new("parts");
    let Some(length) = sparse(&folder) else { return };
    let read = |from: u64, to: u64, words: &[&str]| {
        let region = format!("s:{from}-{to}");
        let words = [&["read", "--quiet", "--unchecked", "--width", "0", "f.fa", &region], words].concat();
        // far less than the file is long: it can't be mapped
        let (bytes, answer) = counted(&folder, &words, 400_000);
        let bases: String = "ACGTN".chars().cycle().take((to - from + 1) as usize).collect();
        assert_eq!(answer, format!(">{region}\n{bases}\n"));
        bytes
    };
    // what is read beside the region: the program, its index, and what the shell reads
    let one = read(length - 11_999, length - 11_999, &[]);
    assert!(one < 100_000, "{one} bytes are read for a base");
    let many = read(length - 10_029, length - 30, &[]);
    assert_eq!(many - one, 10_167 - 1, "beside {one} bytes");
}

/// Turned, as JSON, and where the index is wrong: as of a file that is mapped.
#[test]
fn answers_are_those_of_a_mapped_file() {
    let folder = Folder::new("parts-alike");
    folder.write("f.fa", ">s one\nACGT\nACGT\nAC\n>t\nGG\n");
    for index in [
        "s\t10\t7\t4\t5\nt\t2\t22\t2\t3\n",
        "s\t10\t7\t4\t3\nt\t2\t22\t2\t3\n",
        "s\t90\t7\t4\t5\nt\t2\t22\t2\t3\n",
        "s\t3\t7\t1\t9\n",
    ] {
        folder.write("f.fa.fai", index);
        for words in [&["read"][..], &["revcomp"], &["--json", "read"], &["complement"]] {
            for region in ["s", "s:3-7", "t", "s:9-", "s:1-20", "s:0", "u", "s:30-31"] {
                let asked = |how| folder.run(&[words, &["--input", how, "--unchecked", "f.fa", region]].concat());
                let (parts, mapped, plain) = (asked("auto"), asked("map"), asked("read"));
                assert_eq!(
                    (&parts.out, &parts.err, parts.status),
                    (&mapped.out, &mapped.err, mapped.status),
                    "{words:?} {region}"
                );
                assert_eq!(
                    (&parts.out, &parts.err, parts.status),
                    (&plain.out, &plain.err, plain.status),
                    "{words:?} {region}"
                );
            }
        }
    }
}

/// An index whose lines are 256 GiB apart: three bases are three bytes.
#[test]
fn bases_that_lie_far_apart() {
    let folder = Folder::new("parts-far");
    if sparse(&folder).is_none() {
        return;
    }
    let file = File::options().write(true).open(folder.at("f.fa")).expect("a file");
    for (line, base) in (0..).zip(b"ACG") {
        file.write_all_at(&[*base], 3 + (line << 38)).expect("room");
    }
    folder.write("f.fa.fai", format!("s\t3\t3\t1\t{}\n", 1_u64 << 38));
    let (bytes, answer) = counted(&folder, &["read", "--quiet", "--unchecked", "f.fa", "s"], 400_000);
    assert_eq!(answer, ">s\nACG\n");
    assert!(bytes < 100_000, "{bytes}");
}

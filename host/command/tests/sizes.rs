//! A record that is longer than what is read at a time, mapped and read.

mod common;

use common::Folder;
use std::process::Stdio;

#[test]
fn a_long_record_is_whole() {
    let folder = Folder::new("long");
    // 130 MiB of bases in lines of 64, in an order that no piece has twice
    let mut state = 1_u64;
    let mut bases = Vec::with_capacity(130 << 20);
    while bases.len() < 130 << 20 {
        state = state.wrapping_mul(6364136223846793005).wrapping_add(1442695040888963407);
        bases.extend((0..32).map(|place| b"ACGT"[(state >> (place * 2)) as usize & 3]));
    }
    let mut file = b">first\nACGT\n>long\n".to_vec();
    for line in bases.chunks(64) {
        file.extend_from_slice(line);
        file.push(b'\n');
    }
    folder.write("f.fa", &file);
    let read = |words: &[&str]| -> Vec<u8> {
        let output = folder.command(words).stdout(Stdio::piped()).output().unwrap();
        assert!(output.status.success(), "{}", String::from_utf8_lossy(&output.stderr));
        let lines = output.stdout.split(|byte| *byte == b'\n').skip(1);
        lines.flatten().copied().collect()
    };
    assert!(read(&["read", "f.fa", "long"]) == bases, "mapped");
    assert!(read(&["--input", "read", "read", "-w", "0", "f.fa", "long"]) == bases, "read");
    let (from, to) = (60 << 20, 129 << 20);
    assert!(read(&["read", "-w", "7", "f.fa", &format!("long:{}-{to}", from + 1)]) == bases[from..to], "a part");
    let turned: Vec<u8> =
        bases.iter().rev().map(|base| b"TGCA"[b"ACGT".iter().position(|b| b == base).unwrap()]).collect();
    assert!(read(&["revcomp", "f.fa", "long"]) == turned, "reversed");
}

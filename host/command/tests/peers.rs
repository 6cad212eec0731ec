//! The same answers as samtools, where both give one.

mod common;

use common::Folder;
use std::process::{Command, Stdio};

/// Numbers without end, the same for the same start.
struct Numbers(u64);

impl Numbers {
    /// One below `limit`.
    fn below(&mut self, limit: u64) -> u64 {
        self.0 = self.0.wrapping_mul(6364136223846793005).wrapping_add(1442695040888963407);
        (self.0 >> 33) % limit
    }
}

/// A well-formed file, and its records' names and lengths.
fn file(numbers: &mut Numbers) -> (Vec<u8>, Vec<(String, u64)>) {
    let end = if numbers.below(3) == 0 { "\r\n" } else { "\n" };
    let (mut file, mut records) = (String::new(), vec![]);
    for record in 0..1 + numbers.below(5) {
        let name = ["chr", "HLA:A*", "s-", "NM_"][numbers.below(4) as usize].to_string() + &record.to_string();
        let (width, length) = (1 + numbers.below(70), 1 + numbers.below(400));
        file += &format!(">{name}{}{end}", ["", " a description", "\ttab"][numbers.below(3) as usize]);
        for base in 0..length {
            file.push(char::from(b"ACGTNacgtnRYKM"[numbers.below(14) as usize]));
            if base % width == width - 1 || base == length - 1 {
                file += end;
            }
        }
        // a blank line behind a record, as in genomes of an archive
        if numbers.below(3) == 0 {
            file += end;
        }
        records.push((name, length));
    }
    if numbers.below(4) == 0 {
        file.truncate(file.len() - end.len());
    }
    (file.into_bytes(), records)
}

fn samtools(folder: &Folder, words: &[&str]) -> Option<(bool, Vec<u8>)> {
    let output = Command::new("samtools").args(words).current_dir(folder.path()).stdin(Stdio::null()).output().ok()?;
    Some((output.status.success(), output.stdout))
}

#[test]
fn the_same_index_and_the_same_reads_as_samtools() {
    let folder = Folder::new("samtools");
    if samtools(&folder, &["--version"]).is_none() {
        eprintln!("skipped: samtools isn't installed; `tools/dev setup peers` installs it");
        return;
    }
    let mut numbers = Numbers(7);
    for turn in 0..60 {
        let (file, records) = file(&mut numbers);
        folder.write("f.fa", &file);
        let _ = std::fs::remove_file(folder.at("f.fa.fai"));
        let (good, _) = samtools(&folder, &["faidx", "f.fa"]).unwrap();
        assert!(good);
        let theirs = folder.read("f.fa.fai");
        assert_eq!(folder.run(&["check", "f.fa"]).status, Some(0), "file {turn}");
        assert_eq!(folder.run(&["index", "f.fa"]).status, Some(0), "file {turn}");
        // a record of one line without its end has the width of that line here, and a byte more there: both lead to every base
        if file.ends_with(b"\n") {
            assert_eq!(folder.read("f.fa.fai"), theirs, "file {turn}");
        }
        let mut regions = vec![];
        for _ in 0..6 {
            let (name, length) = &records[numbers.below(records.len() as u64) as usize];
            let start = 1 + numbers.below(*length);
            let end = start + numbers.below(length - start + 1);
            regions.push(match numbers.below(6) {
                0 => name.clone(),
                1 => format!("{name}:{start}"),
                2 => format!("{name}:{start}-"),
                3 => format!("{name}:-{end}"),
                4 => format!("{{{name}}}:{start}-{end}"),
                _ => format!("{name}:{start}-{end}"),
            });
        }
        let regions: Vec<&str> = regions.iter().map(String::as_str).collect();
        let (good, theirs) = samtools(&folder, &[&["faidx", "f.fa"], &regions[..]].concat()).unwrap();
        assert!(good);
        folder.run(&[&["read", "f.fa"], &regions[..]].concat()).gave(&String::from_utf8(theirs).unwrap());
    }
}

/// Where samtools gives fewer bases and a warning, there is a refusal here.
#[test]
fn no_clipped_read_where_samtools_clips() {
    let folder = Folder::new("clips");
    folder.write("f.fa", ">s\nACGT\nAC\n");
    let Some((_, theirs)) = samtools(&folder, &["faidx", "f.fa", "s:5-100"]) else {
        eprintln!("skipped: samtools isn't installed; `tools/dev setup peers` installs it");
        return;
    };
    assert_eq!(theirs, b">s:5-100\nAC\n");
    folder.run(&["read", "f.fa", "s:5-100"]).refused("refused 17 (length 6)", &[]);
}

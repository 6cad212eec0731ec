//! The samples do what their README says, and the manual page names every word of the command.

mod common;

use common::Folder;
use std::fs;
use std::path::Path;

/// A folder with the samples.
fn samples(test: &str) -> Folder {
    let folder = Folder::new(test);
    let samples = Path::new(env!("CARGO_MANIFEST_DIR")).join("../../samples");
    for sample in fs::read_dir(samples).expect("the samples").map(Result::unwrap) {
        fs::copy(sample.path(), folder.at(&sample.file_name().into_string().unwrap())).unwrap();
    }
    folder
}

#[test]
fn the_samples() {
    let folder = samples("samples");
    folder.run(&["read", "two.fa", "sq1:3-6"]).gave(">sq1:3-6\nNNNN\n");
    folder.run(&["index", "-o", "-", "two.fa"]).gave("sq0\t4\t5\t4\t5\nsq1\t10\t15\t4\t5\n");
    let keys = ">T7\nTAATACGACTCACTATAGGG\n>M13-rev:1-6\nCAGGAA\n>key:55-66\nTTAGATGGTGAT\n";
    folder.run(&["read", "primers.fa", "--regions", "regions.txt"]).gave(keys);
    folder.run(&["read", "crlf.fa", "--regions", "regions.txt"]).gave(keys);
    let ends = "its lines end in CR and LF, and the index is of lines that end in LF alone";
    folder.run(&["check", "stale.fa"]).refused("refused 23 (record 1, base 1)", &[ends]);
    folder.run(&["read", "stale.fa", "--regions", "regions.txt"]).refused("refused 23 (record 1, base 1)", &[ends]);
    folder.run(&["index", "genome.fa"]).gave("genome.fa.fai: 2 records (2 with blank lines), 266 bases\n");
    folder.run(&["read", "genome.fa", "plasmid:66-75"]).gave(">plasmid:66-75\nTGCCGATTTG\n");
    folder
        .run(&["index", "--strict", "genome.fa"])
        .refused("refused 6 (found 31, expected 70)", &["genome.fa, line 4"]);
    folder.run(&["index", "uneven.fa"]).refused("refused 42 (offset 14, base 9)", &["uneven.fa, line 5 (byte 14)"]);
}

#[test]
fn the_manual_names_every_word() {
    let folder = Folder::new("manual");
    let manual = fs::read_to_string(Path::new(env!("CARGO_MANIFEST_DIR")).join("man/wakeluri.1")).unwrap();
    let manual = manual.replace("\\-", "-");
    for command in
        ["index", "check", "read", "list", "wrap", "faidx", "fqidx", "complement", "revcomp", "primer", "mend"]
    {
        assert!(manual.contains(command));
        let help = folder.run(&[command, "--help"]).out;
        for word in help
            .split_whitespace()
            .map(|word| word.trim_end_matches(['.', ',', ')']).split('[').next().unwrap_or_default())
        {
            assert!(!word.starts_with("--") || manual.contains(word), "{word} of {command} is not in the manual");
        }
    }
}

//! Faults 8 and 9: bounds that can't be read, and sheets as people have them.

mod common;

use common::Folder;
use common::json::objects;

const FASTA: &str = ">s\nACGTAC\n>t\nGGCC\n";

#[test]
fn fault_8_bounds_that_cannot_be_read_are_a_usage_error() {
    let folder = Folder::new("fault-8");
    folder.write("f.fa", FASTA);
    for (region, words) in [
        (
            "s:1..5",
            "f.fa: s:1..5 was asked for, and there is a record s, and what follows is no region of it: '1..5' is no number",
        ),
        ("s:five", "'five' is no number"),
        ("s:1,0-20", "the commas of '1,0' don't part its digits in threes"),
        ("s:", "nothing stands after the colon"),
        ("s:x:5", "there is a record s"),
    ] {
        let answer = folder.run(&["read", "f.fa", "t", region]);
        answer.failed(2, &[words, "\n  write it as s:5-9\n"]);
        assert!(!answer.err.contains("refused"), "{answer:?}");
        let json = folder.run(&["--json", "read", "f.fa", region]);
        let object = &objects(&json.err)[0];
        assert_eq!((object.number("status"), object.text("region")), (Some(2), Some(region)));
        assert_eq!((object.get("refused"), object.text("file")), (None, Some("f.fa")));
    }
    // a name that isn't there is a refusal none the less
    folder.run(&["read", "f.fa", "u:1..5"]).refused("refused 15", &["no record is named"]);
}

#[test]
fn fault_9_sheets_of_any_editor() {
    let folder = Folder::new("fault-9-editors");
    folder.write("f.fa", FASTA);
    let sheet = "# primers\ns:1-3\n\n  t:2\n#t:3";
    let wide = |text: &str, order: fn(u16) -> [u8; 2]| -> Vec<u8> {
        std::iter::once(0xfeff).chain(text.encode_utf16()).flat_map(order).collect()
    };
    for (number, bytes) in [
        sheet.as_bytes().to_vec(),
        format!("\u{feff}{sheet}").into_bytes(),
        sheet.replace('\n', "\r\n").into_bytes(),
        sheet.replace('\n', "\r").into_bytes(),
        wide(sheet, u16::to_le_bytes),
        wide(sheet, u16::to_be_bytes),
        wide(&sheet.replace('\n', "\r\n"), u16::to_le_bytes),
    ]
    .iter()
    .enumerate()
    {
        folder.write("sheet.txt", bytes);
        let answer = folder.run(&["read", "f.fa", "-r", "sheet.txt"]);
        assert_eq!((answer.out.as_str(), answer.err.as_str()), (">s:1-3\nACG\n>t:2\nGCC\n", ""), "{number}");
    }
    folder.write("sheet.txt", b"s\0:\x001\0\n\0");
    folder.run(&["read", "f.fa", "-r", "sheet.txt"]).failed(2, &["sheet.txt: it holds zero bytes", "UTF-16"]);
    folder.write("sheet.txt", b"\xff\xfes\0:");
    folder.run(&["read", "f.fa", "-r", "sheet.txt"]).failed(2, &["it begins as UTF-16, and is broken"]);
}

#[test]
fn fault_9_labels_are_kept() {
    let folder = Folder::new("fault-9-labels");
    folder.write("f.fa", FASTA);
    folder.write("sheet.txt", "s:1-3\tT7 forward\nt key \n");
    folder.run(&["read", "f.fa", "-r", "sheet.txt"]).gave(">s:1-3 T7 forward\nACG\n>t key\nGGCC\n");
    let json = folder.run(&["--json", "read", "f.fa", "-r", "sheet.txt"]);
    assert_eq!(objects(&json.out)[0].text("label"), Some("T7 forward"));
    folder
        .run(&["revcomp", "f.fa", "-r", "sheet.txt"])
        .gave(">s:1-3 reverse complement T7 forward\nCGT\n>t reverse complement key\nGGCC\n");
    // what may be bounds is no label
    for line in ["s:1 -3", "s 1 3", "s:1 000", "s :1-3", "s: 1-3", "s:1- 3", "s:1 -"] {
        folder.write("sheet.txt", line);
        let words = ["sheet.txt, line 1: '", "no label, but may be a part of the region"];
        folder.run(&["read", "f.fa", "-r", "sheet.txt"]).failed(2, &words);
    }
    folder.write("sheet.txt", "s\t1\t3\n");
    folder.run(&["read", "f.fa", "-r", "sheet.txt"]).failed(2, &["--bed"]);
}

#[test]
fn fault_9_bed() {
    let folder = Folder::new("fault-9-bed");
    folder.write("f.fa", ">s\nACGTAC\n>t:1-2\nGGCC\n>t\nTT\n>{t}\nA\n");
    folder.write("sheet.bed", "track name=x\n#c\ns\t0\t3\tT7 x\t0\t+\nt:1-2\t1\t4\n{t}\t0\t1\nt 1 2 key\n");
    let answer = ">s:1-3 T7 x\nACG\n>t:1-2:2-4\nGCC\n>{t}:1-1\nA\n>t:2-2 key\nT\n";
    folder.run(&["read", "f.fa", "-r", "sheet.bed", "--bed"]).gave(answer);
    let json = folder.run(&["--json", "read", "f.fa", "-r", "sheet.bed", "--bed"]);
    let first = &objects(&json.out)[0];
    assert_eq!((first.number("start"), first.number("end"), first.text("bases")), (Some(1), Some(3), Some("ACG")));
    folder.write("sheet.bed", "s\t0\t3\tx\t0\t-\n");
    let strand = folder.run(&["read", "f.fa", "-r", "sheet.bed", "--bed"]);
    strand.gave(">s:1-3 reverse complement x\nCGT\n");
    folder.write("sheet.txt", "s:1-3 -\n");
    let both = folder.run(&["primer", "ACG", "f.fa", "-r", "sheet.txt"]);
    assert!(both.err.contains("warning: sheet.txt, line 1: the strand '-' is passed over"), "{both:?}");
    folder.write("sheet.bed", "s\t3\t3\ns\t0\ns\tx\t3\ns\t0\t-3\n");
    let faults = folder.run(&["read", "f.fa", "-r", "sheet.bed", "--bed"]);
    faults.failed(2, &["line 1: ", "it has no bases", "line 2: ", "three columns", "line 3: ", "line 4: "]);
    folder.write("sheet.bed", "s\t3\t7\n");
    folder
        .run(&["read", "f.fa", "-r", "sheet.bed", "--bed"])
        .refused("refused 17 (length 6)", &["sheet.bed, line 1: "]);
    folder.run(&["read", "f.fa", "s", "--bed"]).failed(2, &["--bed is said of a sheet"]);
}

#[test]
fn fault_9_all_faults_are_told_at_once() {
    let folder = Folder::new("fault-9-all");
    folder.write("f.fa", FASTA);
    folder.write("sheet.txt", "s:1-3\ns:9\nS:1\n\nt:4-2\nt\n");
    let words = ["sheet.txt, line 2: ", "sheet.txt, line 3: ", "the nearest name", "sheet.txt, line 5: "];
    for index in [false, true] {
        let answer = folder.run(&["read", "f.fa", "-r", "sheet.txt"]);
        answer.refused("refused 16", &words);
        assert_eq!(answer.err.matches("wakeluri: ").count(), 3, "{answer:?}");
        let json = folder.run(&["--json", "read", "f.fa", "-r", "sheet.txt"]);
        let lines: Vec<_> = objects(&json.err).iter().map(|fault| fault.number("sheet_line")).collect();
        assert_eq!((json.out.as_str(), lines), ("", vec![Some(2), Some(3), Some(5)]));
        assert!(index || folder.run(&["index", "f.fa"]).status == Some(0));
    }
    // with a line that is no region the status is that of words that make no sense
    folder.write("sheet.txt", "s:9\ns 1 3\nt:1..2\n");
    folder.run(&["read", "f.fa", "-r", "sheet.txt"]).failed(2, &["line 1: ", "refused 17", "line 2: ", "line 3: "]);
    // what has no complement is told of each region too
    folder.write("g.fa", ">s\nAC-GT\n>t\n*\n");
    let answer = folder.run(&["revcomp", "g.fa"]);
    answer.refused("refused 24 (place 0, byte 42)", &["base 3 of s is '-'", "base 1 of t is '*'"]);
    // many of them take no time for each
    folder.write("f.fa", (0..50_000).map(|n| format!(">contig{n:06}\nA\n")).collect::<String>());
    std::fs::remove_file(folder.at("f.fa.fai")).unwrap();
    folder.write("sheet.txt", (0..50_000).map(|n| format!("contig{n:06}x\n")).collect::<String>());
    let answer = folder.run(&["read", "f.fa", "-r", "sheet.txt"]);
    assert_eq!((answer.status, answer.err.matches("refused 15\n").count()), (Some(1), 50_000));
}

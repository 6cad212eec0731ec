//! Files written anew in lines of one width, and what `read` prints: both by the proved writer.

mod common;

use common::Folder;

const FASTA: &str = ">s one  two \nACGT\nAC\n\n>t\n>u\r\nGGG\r\nG\r\n";
const WRAPPED: &str = ">s one  two\nACG\nTAC\n>t\n>u\nGGG\nG\n";

#[test]
fn names_descriptions_and_bases_are_kept() {
    let folder = Folder::new("wrap");
    folder.write("f.fa", FASTA);
    folder.run(&["wrap", "f.fa", "--width", "3"]).gave(WRAPPED);
    folder.piped(&["wrap", "-", "-w", "3"], FASTA.as_bytes(), 1).gave(WRAPPED);
    let told = "new.fa: 3 records, 10 bases, in lines of 3\n";
    folder.run(&["wrap", "f.fa", "-w", "3", "-o", "new.fa", "--index"]).gave(told);
    assert_eq!(folder.read("new.fa"), WRAPPED.as_bytes());
    // the index is the one that would be made of the new file, and is accepted
    folder.run(&["index", "new.fa", "-o", "other.fai"]);
    assert_eq!(folder.read("new.fa.fai"), folder.read("other.fai"));
    assert_eq!(folder.run(&["check", "new.fa"]).status, Some(0));
    // what is wrapped already stays as it is
    folder.run(&["wrap", "new.fa", "-w", "3"]).gave(WRAPPED);
    let json = "{\"file\":\"f.fa\",\"output\":\"new.fa\",\"width\":60,\"records\":3,\"bases\":10}\n";
    folder.run(&["--json", "wrap", "f.fa", "-o", "new.fa"]).gave(json);
    assert_eq!(folder.names(), ["f.fa", "new.fa", "new.fa.fai", "other.fai"]);
}

#[test]
fn a_file_that_no_index_fits_can_be_indexed_afterwards() {
    let folder = Folder::new("wrap-uneven");
    folder.write("f.fa", ">s\nAC\nACGT\nACG\r");
    folder.run(&["index", "f.fa"]).refused("refused 42 (offset 8, base 5)", &["wrap its bases anew"]);
    folder.run(&["wrap", "f.fa", "-w", "4", "-o", "new.fa", "--index"]);
    assert_eq!(folder.read("new.fa"), b">s\nACAC\nGTAC\nG\n");
    assert_eq!(folder.run(&["check", "new.fa"]).status, Some(0));
}

#[test]
fn a_bad_definition_line_is_told_before_a_byte_is_written() {
    let folder = Folder::new("wrap-bad");
    folder.write("f.fa", ">s\nAC\n> t\nAC\n");
    let answer = folder.run(&["wrap", "f.fa", "-o", "new.fa"]);
    assert!(answer.status == Some(1) && answer.err.contains("f.fa, line 3 (byte 7)"), "{answer:?}");
    folder.write("g.fa", "ACGT\n");
    assert!(folder.run(&["wrap", "g.fa"]).err.contains("is it a FASTA file?"));
    folder.write("empty.fa", "");
    folder.run(&["wrap", "empty.fa"]).gave("");
    assert_eq!(folder.names(), ["empty.fa", "f.fa", "g.fa"]);
}

#[test]
fn pieces_join_at_every_width() {
    let folder = Folder::new("wrap-pieces");
    // longer than a piece, and of a length that no width divides
    let bases: Vec<u8> = (0..200_003_u32).map(|n| b"ACGTN"[(n.wrapping_mul(n) / 7 % 5) as usize]).collect();
    let in_lines = |width: usize| {
        let lines: Vec<&[u8]> = bases.chunks(width).collect();
        [b">s\n", lines.join(&b'\n').as_slice(), b"\n"].concat()
    };
    folder.write("f.fa", in_lines(61));
    for width in [1, 2, 60, 61, 65_535, 65_536, 65_537, 200_002, 200_003, 200_004] {
        let wrapped = folder.run(&["wrap", "f.fa", "-w", &width.to_string()]);
        assert!(wrapped.status == Some(0) && wrapped.out.as_bytes() == in_lines(width), "{width}");
    }
}

#[test]
fn what_would_not_read_back_is_refused() {
    let folder = Folder::new("wrap-refused");
    folder.write("f.fa", ">s\nAC\n>t\nAC>GT\n");
    let words = ["f.fa, line 4 (byte 9): base 3 of the line is a '>' or a carriage return", "nothing was written"];
    folder.run(&["wrap", "f.fa", "-w", "2", "-o", "new.fa"]).refused("refused 30", &words);
    folder.run(&["wrap", "f.fa"]).refused("refused 30", &words);
    folder.run(&["read", "f.fa", "s", "t"]).refused("refused 30", &["with --json the bases are written as they are"]);
    let json = folder.run(&["--json", "read", "f.fa", "t:3-4"]);
    assert!(json.out.contains("\"bases\":\">G\""), "{json:?}");
    folder.run(&["read", "f.fa", "t:4-5"]).gave(">t:4-5\nGT\n");
    assert_eq!(folder.names(), ["f.fa"]);
}

#[test]
fn nothing_is_lost() {
    let folder = Folder::new("wrap-lost");
    folder.write("f.fa", FASTA);
    folder.write("notes.txt", "my notes\n");
    let over = "the new file would take the place of f.fa, which is read";
    for output in ["f.fa", "./f.fa"] {
        folder.run(&["wrap", "f.fa", "-o", output]).failed(3, &[over]);
    }
    folder.run(&["wrap", "f.fa", "-o", "notes.txt"]).failed(3, &["a file that is not FASTA"]);
    // OUT.fai is held against what is read, and against other files
    folder.write("new.fa.fai", FASTA);
    folder.run(&["wrap", "f.fa", "-o", "new.fa", "--index"]).failed(3, &["file of sequences"]);
    folder.run(&["wrap", "new.fa.fai", "-o", "new.fa", "--index"]).failed(3, &["the index would take the place"]);
    folder.run(&["wrap", "f.fa", "--index"]).failed(2, &["--index needs --output"]);
    folder.run(&["wrap", "f.fa", "-w", "0"]).failed(2, &["--width is 1 at least"]);
    assert_eq!((folder.read("f.fa"), folder.read("notes.txt")), (FASTA.into(), b"my notes\n".to_vec()));
    assert_eq!(folder.names(), ["f.fa", "new.fa.fai", "notes.txt"]);
}

#[test]
fn reads_in_lines_of_a_width() {
    let folder = Folder::new("wrap-read");
    folder.write("f.fa", ">s\nACGT\nAC\n");
    folder.run(&["read", "f.fa", "s", "-w", "4"]).gave(">s\nACGT\nAC\n");
    folder.run(&["read", "f.fa", "s:2-5", "-w", "3"]).gave(">s:2-5\nCGT\nA\n");
    folder.run(&["read", "f.fa", "s", "-w", "0"]).gave(">s\nACGTAC\n");
    folder.run(&["revcomp", "f.fa", "s:1-3", "-w", "2"]).gave(">s:1-3 reverse complement\nCG\nT\n");
}

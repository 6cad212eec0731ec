//! The records of a file with their descriptions.

mod common;

use common::Folder;

const FASTA: &str = ">chrM  Homo sapiens mitochondrion \nACGT\nAC\n>t\nGG\n>u \n\n>v a\tb\r\nA\r\n";

#[test]
fn name_length_and_description_of_each() {
    let folder = Folder::new("list");
    folder.write("f.fa", FASTA);
    folder.run(&["list", "f.fa"]).gave("chrM\t6\tHomo sapiens mitochondrion\nt\t2\t\nu\t0\t\nv\t1\ta\tb\n");
    folder.piped(&["list", "-"], FASTA.as_bytes(), 3).gave(&folder.run(&["list", "f.fa"]).out);
    assert_eq!(folder.names(), ["f.fa"], "it needs no index, and makes none");
}

#[test]
fn those_that_hold_a_text() {
    let folder = Folder::new("list-pattern");
    folder.write("f.fa", FASTA);
    folder.run(&["list", "f.fa", "MITO"]).gave("chrM\t6\tHomo sapiens mitochondrion\n");
    folder.run(&["list", "f.fa", "chrm"]).gave("chrM\t6\tHomo sapiens mitochondrion\n");
    folder.run(&["list", "f.fa", "nothing of it"]).gave("");
    let json = "{\"record\":2,\"name\":\"t\",\"length\":2,\"description\":\"\"}\n";
    let only_t = folder.run(&["--json", "list", "f.fa", "t"]);
    assert!(only_t.out.contains(json) && only_t.out.lines().count() == 2, "{only_t:?}");
}

#[test]
fn a_file_that_has_a_fault_is_refused_whole() {
    let folder = Folder::new("list-refused");
    folder.write("f.fa", ">s\nAC\n> t\nAC\n");
    let answer = folder.run(&["list", "f.fa"]);
    assert!(answer.status == Some(1) && answer.out.is_empty() && answer.err.contains("f.fa, line 3"), "{answer:?}");
}

/// A million records in a second or so; the time here is for a machine with other work.
#[test]
fn a_million_records() {
    let folder = Folder::new("list-many");
    let text: String = (0..1_000_000).map(|n| format!(">r{n} number {n}\nACGT\n")).collect();
    folder.write("f.fa", text);
    let start = std::time::Instant::now();
    let listed = folder.run(&["list", "f.fa", "r999999"]);
    listed.gave("r999999\t4\tnumber 999999\n");
    assert!(start.elapsed().as_secs() < 10, "{:?}", start.elapsed());
}

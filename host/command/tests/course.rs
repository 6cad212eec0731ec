//! `wakeluri exercise` and `wakeluri score`: exercises written and shown, one answer in words and explained, a class as a spreadsheet.

mod common;

use common::Folder;

/// A record of a hundred bases in lines of forty, one with codes, and one of fifty bases.
fn drilled(test: &str) -> Folder {
    let folder = Folder::new(test);
    let lines = [&b"ACGT".repeat(10)[..], &b"ACGT".repeat(10), &b"ACGT".repeat(5)].join(&b'\n');
    let fasta = [b">s a drill\n", &lines[..], b"\n>codes\nANTR\n>half\n", &b"A".repeat(50), b"\n"].concat();
    folder.write("f.fa", fasta);
    folder
}

fn typed(right: usize, wrong: &str) -> String {
    format!("{}{wrong}\n", String::from_utf8_lossy(&b"acgt".repeat(25)[..right]))
}

#[test]
fn written_and_shown() {
    let folder = drilled("exercise");
    let said =
        "drill: s, bases 1 to 100 (100 bases), edition 1: a letter is right if it is the key's, in either case\n";
    folder.run(&["exercise", "s:1-100", "-o", "drill"]).gave(said);
    assert_eq!(
        folder.read("drill"),
        b"\x01\0\x01s\x02\0\x08\0\0\0\0\0\0\0\x01\x03\0\x08\0\0\0\0\0\0\0\x64\x04\0\x01\x01"
    );
    folder.run(&["exercise", "--show", "drill"]).gave(said);
    folder.run(&["-q", "exercise", "s:1-100", "-e", "2", "-o", "drill"]).gave("");
    folder
        .run(&["exercise", "--show", "drill", "--json"])
        .gave("{\"exercise\":\"drill\",\"name\":\"s\",\"start\":1,\"end\":100,\"asked\":100,\"edition\":2}\n");
    // to standard output, and from there
    let bytes = folder.run(&["exercise", "{a:b}:5-9"]).out;
    folder
        .piped(&["exercise", "--show", "-"], bytes.as_bytes(), 7)
        .gave("standard input: a:b, bases 5 to 9 (5 bases), edition 1: a letter is right if it is the key's, in either case\n");
}

#[test]
fn no_exercise() {
    let folder = drilled("exercise-not");
    for asked in ["s", "s:5", "s:5-", "s:-5", "s:0-5", "s:9-5", "s:x-5", "s:1-18446744073709551616"] {
        folder.run(&["exercise", asked, "-o", "drill"]).failed(2, &["NAME:START-END"]);
    }
    folder.run(&["exercise", "s:1-5", "--edition", "3"]).failed(2, &[]);
    folder.run(&["exercise"]).failed(2, &[]);
    folder.run(&["--json", "exercise", "s:1-5"]).failed(2, &["--json needs --output"]);
    // what is there and is no exercise stays
    folder.run(&["exercise", "s:1-5", "-o", "f.fa"]).failed(3, &["not an exercise"]);
    assert!(folder.read("f.fa").starts_with(b">s"));
    assert_eq!(folder.names(), ["f.fa"]);
    let long = format!("{}:1-2", "n".repeat(65_536));
    folder.run(&["exercise", &long]).refused("refused 31 (offset 0)", &[]);
    // bytes that are no exercise, each with the offset of its field
    folder.run(&["exercise", "--show", "f.fa"]).refused("refused 31 (offset 0)", &["is it an exercise?"]);
    folder.write("needed", b"\x01\0\x01s\x80");
    folder.run(&["exercise", "--show", "needed"]).refused("refused 32 (offset 4)", &["newer program"]);
    folder.write("newer", b"\x01\0\x01s\x02\0\x08\0\0\0\0\0\0\0\x01\x03\0\x08\0\0\0\0\0\0\0\x64\x04\0\x01\x03");
    folder.run(&["score", "f.fa", "newer", "f.fa"]).refused("refused 33 (offset 26)", &["neither 1 nor 2"]);
}

#[test]
fn the_users_case() {
    let folder = drilled("score");
    folder.run(&["-q", "exercise", "s:1-100", "-o", "drill"]).gave("");
    folder.write("typed.txt", typed(49, "x"));
    let said = "s, bases 1 to 100: 49.0 % of 100 asked (49 right, 1 wrong, 50 missing, 0 surplus), by edition 1\n";
    folder.run(&["score", "f.fa", "drill", "typed.txt"]).gave(said);
    // from standard input, with white space between the letters, and after an index was checked
    let spaced: String = typed(49, "x").chars().flat_map(|letter| [letter, ' ', '\t']).collect();
    folder.piped(&["score", "f.fa", "drill"], spaced.as_bytes(), 5).gave(said);
    folder.run(&["-q", "index", "f.fa"]).gave("");
    folder.piped(&["score", "f.fa", "drill", "-"], typed(49, "x").as_bytes(), 64).gave(said);
    folder.run(&["score", "f.fa", "drill", "typed.txt", "--json"]).gave(concat!(
        "{\"answer\":\"typed.txt\",\"exercise\":\"drill\",\"name\":\"s\",\"start\":1,\"end\":100,\"edition\":1,\"asked\":100,",
        "\"right\":49,\"wrong\":1,\"missing\":50,\"surplus\":0,\"tenths_of_a_percent\":490}\n"
    ));
    // all right, and more
    folder.write("typed.txt", typed(100, ""));
    let said = "s, bases 1 to 100: 100.0 % of 100 asked (100 right, 0 wrong, 0 missing, 0 surplus), by edition 1\n";
    folder.run(&["score", "f.fa", "drill", "typed.txt"]).gave(said);
    folder.write("typed.txt", typed(100, "A"));
    let said = "s, bases 1 to 100: 99.0 % of 100 asked (100 right, 0 wrong, 0 missing, 1 surplus), by edition 1\n";
    folder.run(&["score", "f.fa", "drill", "typed.txt"]).gave(said);
}

#[test]
fn refused_and_no_score() {
    let folder = drilled("score-refused");
    folder.write("typed.txt", typed(49, "x"));
    // where only fifty are left
    folder.run(&["-q", "exercise", "half:1-100", "-o", "drill"]).gave("");
    let told = folder.run(&["score", "f.fa", "drill", "typed.txt"]);
    told.refused("refused 17 (length 50)", &["asks for half, bases 1 to 100", "has 50 bases", "no score"]);
    // a name that is not there
    folder.run(&["-q", "exercise", "halv:1-5", "-o", "drill"]).gave("");
    folder.run(&["score", "f.fa", "drill", "typed.txt"]).refused("refused 15", &["'halv'", "names like it: half"]);
    // an index that is wrong is not used, but with --unchecked
    folder.run(&["-q", "exercise", "half:1-5", "-o", "drill"]).gave("");
    folder.write("f.fa.fai", "s\t100\t11\t40\t41\ncodes\t4\t120\t4\t5\nhalf\t50\t130\t50\t51\n");
    folder.run(&["score", "f.fa", "drill", "typed.txt"]).refused("refused 23 (record 2, base 1)", &[]);
    let told = folder.run(&["score", "f.fa", "drill", "typed.txt", "--unchecked"]);
    assert!(told.err.contains("was not checked"), "{}", told.err);
    assert!(told.out.starts_with("half, bases 1 to 5: "), "{}", told.out);
    // words that make no sense together
    folder.run(&["score", "f.fa", "-", "-"]).failed(2, &["standard input"]);
    folder.run(&["score", "f.fa", "drill", "typed.txt", "typed.txt", "--explain"]).failed(2, &["one answer"]);
    folder.run(&["score", "f.fa", "drill", "typed.txt", "--json", "--csv"]).failed(2, &["two forms"]);
    folder.run(&["score", "f.fa", "drill", "f.fa"]).failed(2, &["begins with '>'"]);
    folder.run(&["score", "f.fa", "drill", "no.txt"]).failed(3, &["no such file"]);
}

#[test]
fn explained_by_each_edition() {
    let folder = drilled("score-explained");
    folder.write("typed.txt", "acuy");
    folder.run(&["-q", "exercise", "codes:1-4", "-o", "one"]).gave("");
    folder.run(&["-q", "exercise", "codes:1-4", "-e", "2", "-o", "two"]).gave("");
    folder.run(&["score", "f.fa", "one", "typed.txt", "--explain"]).gave(concat!(
        "codes, bases 1 to 4: 25.0 % of 4 asked (1 right, 3 wrong, 0 missing, 0 surplus), by edition 1\n\n",
        "    1  ANTR\ntyped  acuy\n       |xxx\n\n    |  the same letter\n    x  wrong\n",
        "edition 1: a letter is right if it is the key's, in either case\n"
    ));
    folder.run(&["score", "f.fa", "two", "typed.txt", "--explain"]).gave(concat!(
        "codes, bases 1 to 4: 75.0 % of 4 asked (3 right, 1 wrong, 0 missing, 0 surplus), by edition 2\n\n",
        "    1  ANTR\ntyped  acuy\n       |::x\n\n    |  the same letter\n",
        "    :  right: its bases lie among those of the key's letter\n    x  wrong\n",
        "edition 2: a letter is right if its bases lie among those of the key's letter\n"
    ));
    let told = folder.run(&["score", "f.fa", "two", "typed.txt", "--explain", "--json"]);
    assert!(told.out.ends_with(",\"key\":\"ANTR\",\"typed\":\"acuy\",\"marks\":\"|::x\"}\n"), "{}", told.out);
    // ten to a block, sixty to a line, what is missing and what is past the end
    folder.run(&["-q", "exercise", "s:31-92", "-o", "long"]).gave("");
    folder.write("typed.txt", &"GTACGTACGTAC".repeat(6)[..71]);
    let told = folder.run(&["score", "f.fa", "long", "typed.txt", "--explain"]).out;
    let block = "GTACGTACGT ACGTACGTAC";
    let line = [block; 3].join(" ");
    assert!(told.contains(&format!("   31  {line}\ntyped  {line}\n       ||||||||||")), "{told}");
    assert!(told.contains("   91  GT\ntyped  GTACGTACGT A\n       ||++++++++ +\n"), "{told}");
    folder.write("typed.txt", "GT");
    let told = folder.run(&["score", "f.fa", "long", "typed.txt", "--explain"]).out;
    assert!(told.contains(&format!("   31  {line}\ntyped  GT\n       ||-------- ----------")), "{told}");
}

#[test]
fn a_class() {
    let folder = drilled("score-class");
    folder.run(&["-q", "exercise", "s:1-100", "-o", "drill"]).gave("");
    std::fs::create_dir(folder.at("class")).unwrap();
    folder.write("class/ben, b.txt", typed(100, ""));
    folder.write("class/anna.txt", typed(49, "x"));
    folder.write("class/-c.txt", typed(0, ""));
    folder.write("class/.hidden", typed(1, ""));
    const CLASS: &str = concat!(
        "answer,percent,right,wrong,missing,surplus,asked,edition\n",
        "'-c.txt,0.0,0,0,100,0,100,1\nanna.txt,49.0,49,1,50,0,100,1\n\"ben, b.txt\",100.0,100,0,0,0,100,1\n"
    );
    folder.run(&["score", "f.fa", "drill", "--answers", "class"]).gave(CLASS);
    folder.run(&["score", "f.fa", "drill", "class/-c.txt", "class/anna.txt", "class/ben, b.txt"]).gave(CLASS);
    let told = folder.run(&["score", "f.fa", "drill", "-a", "class", "--json"]).out;
    assert_eq!(told.lines().count(), 3);
    assert!(told.starts_with("{\"answer\":\"-c.txt\","), "{told}");
    folder
        .run(&["score", "f.fa", "drill", "class/anna.txt", "--csv"])
        .gave("answer,percent,right,wrong,missing,surplus,asked,edition\nanna.txt,49.0,49,1,50,0,100,1\n");
    // all of them, or nothing
    folder.write("class/dan.txt", ">dan\nACGT\n");
    let told = folder.run(&["score", "f.fa", "drill", "--answers", "class"]);
    told.failed(2, &["dan.txt"]);
    assert_eq!(told.out, "");
    std::fs::create_dir(folder.at("empty")).unwrap();
    folder.run(&["score", "f.fa", "drill", "--answers", "empty"]).failed(2, &["there is no file in it"]);
    folder.run(&["score", "f.fa", "drill", "--answers", "none"]).failed(3, &[]);
}

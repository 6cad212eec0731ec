//! A region that can be read in two ways: with records `chr1` and `chr1:5`, `chr1:5` was answered with the whole of the second.

mod common;

use common::Folder;
use std::process::{Command, Stdio};

/// A file of some records of one base each: A, C, G.
fn folder(test: &str, names: &[&str]) -> Folder {
    let folder = Folder::new(test);
    let records = names.iter().zip(["A", "C", "G"]);
    folder.write("f.fa", records.map(|(name, base)| format!(">{name}\n{base}\n")).collect::<String>());
    folder
}

#[test]
fn an_ambiguous_region_is_refused_with_both_forms() {
    let folder = Folder::new("ambiguous");
    folder.write("f.fa", ">chr1\nACGTACGTAC\n>chr1:5\nGGGGGGGGGG\n");
    let words = [
        "f.fa: chr1:5 was asked for, and it can be read in two ways: the whole of chr1:5, or '5' of chr1",
        "say which is meant: {chr1:5} or {chr1}:5",
    ];
    for indexed in [false, true] {
        if indexed {
            assert_eq!(folder.run(&["index", "f.fa"]).status, Some(0));
        }
        for command in ["read", "complement", "revcomp"] {
            folder.run(&[command, "f.fa", "chr1:5"]).refused("refused 15", &words);
            folder.run(&[command, "f.fa", "chr1", "chr1:5"]).refused("refused 15", &words);
        }
        folder.run(&["read", "f.fa", "{chr1}:5"]).gave(">{chr1}:5\nACGTAC\n");
        folder.run(&["read", "f.fa", "{chr1:5}"]).gave(">{chr1:5}\nGGGGGGGGGG\n");
        // these can be read in one way
        folder
            .run(&["read", "f.fa", "chr1:5-6", "chr1:5:9", "chr1"])
            .gave(">chr1:5-6\nAC\n>chr1:5:9\nGG\n>chr1\nACGTACGTAC\n");
    }
    // all records are all: none is asked for by its name
    folder.run(&["complement", "f.fa"]).gave(">chr1 complement\nTGCATGCATG\n>chr1:5 complement\nCCCCCCCCCC\n");
    let json = folder.run(&["--json", "read", "f.fa", "chr1:5"]);
    json.failed(1, &["{\"status\":1,\"file\":\"f.fa\",\"region\":\"chr1:5\",\"refused\":15,", "{chr1:5} or {chr1}:5"]);
}

#[test]
fn in_a_sheet_too() {
    let folder = Folder::new("ambiguous-sheet");
    folder.write("f.fa", ">chr1\nACGTACGTAC\n>chr1:5\nGGGGGGGGGG\n");
    folder.write("sheet.txt", "chr1:1-2\n\nchr1:5\nchr1:5\n");
    folder.run(&["read", "f.fa", "-r", "sheet.txt"]).refused(
        "refused 15",
        &["sheet.txt, line 3: f.fa: chr1:5 was asked for, and it can be read in two ways", "{chr1:5} or {chr1}:5"],
    );
    folder.write("sheet.txt", "chr1:1-2\n{chr1:5}:1-2\n{chr1}:9\n");
    folder.run(&["read", "f.fa", "-r", "sheet.txt"]).gave(">chr1:1-2\nAC\n>{chr1:5}:1-2\nGG\n>{chr1}:9\nAC\n");
}

/// What can't be seen in a sheet: a mark before its text, line ends of other systems, blanks around a region.
#[test]
fn what_cannot_be_seen_in_a_sheet() {
    let folder = folder("unseen", &["a", "b"]);
    for sheet in ["\u{feff}a\nb:1-1\n", "a\r\nb:1-1\r\n", "\n\n  a\t\n\n b:1-1", "\u{feff}\r\na\nb:1-1", "a\rb:1-1\r"] {
        folder.write("sheet.txt", sheet);
        folder.run(&["read", "f.fa", "-r", "sheet.txt"]).gave(">a\nA\n>b:1-1\nC\n");
    }
    // what parts a line in another way is no region
    for sheet in ["a b", "a b:1-1", "a\t1\t1", "a:1 - 1", "a: 1", "a:1–1", "a:1:1"] {
        folder.write("sheet.txt", sheet);
        folder.run(&["read", "f.fa", "-r", "sheet.txt"]).failed(2, &["sheet.txt, line 1: "]);
    }
    folder.write("sheet.txt", "a,b");
    folder.run(&["read", "f.fa", "-r", "sheet.txt"]).refused("refused 15", &["sheet.txt, line 1: "]);
    for sheet in ["#a", "a\0"] {
        folder.write("sheet.txt", sheet);
        folder.run(&["read", "f.fa", "-r", "sheet.txt"]).failed(2, &["sheet.txt: "]);
    }
}

/// What other tools take for bounds, and names in braces.
#[test]
fn other_texts_with_two_meanings() {
    for (names, region, forms) in [
        (&["a", "a:"][..], "a:", "{a:} or {a}:"),
        (&["a", "a:-1"], "a:-1", "{a:-1} or {a}:-1"),
        (&["a", "a:1,0"], "a:1,0", "{a:1,0} or {a}:1,0"),
        (&["a", "a:1k"], "a:1k", "{a:1k} or {a}:1k"),
        (&["a", "a:1-1"], "a:1-1", "{a:1-1} or {a}:1-1"),
        (&["a", "{a}"], "{a}", "a or {{a}}"),
        (&["a", "{a}"], "{a}:1", "a:1 or {{a}}:1"),
        (&["a", "{a}", "{a}:1"], "{a}:1", "a:1 or {{a}:1} or {{a}}:1"),
        (&["a", "a:1", "{a:1}"], "a:1", "a:1:1-1 or {a}:1"),
    ] {
        let folder = folder("two-meanings", names);
        folder.run(&["read", "f.fa", region]).refused("refused 15", &[&format!("say which is meant: {forms}\n")]);
        // what is offered is taken, or refused for what it is; never in two ways again
        for form in forms.split(" or ") {
            let answer = folder.run(&["read", "f.fa", form]);
            assert!(!answer.err.contains("ways"), "{form} of {names:?}: {answer:?}");
        }
    }
    // one meaning
    for (names, region, base) in [
        (&["a", "a:b"][..], "a:b", 'C'),
        (&["a:1", "a:1:1"], "{a:1}", 'A'),
        (&["a:1-1"], "a:1-1", 'A'),
        (&["{a}"], "{a}", 'A'),
        (&["{a}"], "{{a}}", 'A'),
        (&["{a"], "{a:1", 'A'),
        (&["a", "A"], "A:1", 'C'),
    ] {
        let folder = folder("one-meaning", names);
        folder.run(&["read", "f.fa", region]).gave(&format!(">{region}\n{base}\n"));
    }
}

/// Where both answer, samtools gives the same bases, whatever the names; and what it calls ambiguous is not answered here, unless it can
/// be read in one way.
#[test]
fn beside_samtools() {
    let folder = Folder::new("ambiguous-samtools");
    let samtools = |words: &[&str]| {
        Command::new("samtools").args(words).current_dir(folder.path()).stdin(Stdio::null()).output().ok()
    };
    if samtools(&["--version"]).is_none() {
        eprintln!("skipped: samtools isn't installed; `tools/dev setup peers` installs it");
        return;
    }
    let all = ["a", "a:1", "a:1-2", "a:b", "a:b:1", "{a}", "{a}:1", "a:1:1"];
    let mut compared = 0;
    for (number, skipped) in all.iter().enumerate() {
        let names: Vec<&str> = all.iter().copied().filter(|name| name != skipped).collect();
        let names = if number % 2 == 0 { &names[..] } else { &names[2..] };
        let records = names.iter().zip(["ACG", "CCT", "GTT", "TGA", "AAG", "CTC", "GGA"]);
        folder.write("f.fa", records.map(|(name, bases)| format!(">{name}\n{bases}\n")).collect::<String>());
        assert_eq!(folder.run(&["index", "f.fa"]).status, Some(0));
        for region in all
            .iter()
            .flat_map(|name| [name.to_string(), format!("{name}:2"), format!("{{{name}}}"), format!("{{{name}}}:2-3")])
        {
            let ours = folder.run(&["read", "f.fa", &region]);
            let theirs = samtools(&["faidx", "f.fa", &region]).unwrap();
            if String::from_utf8_lossy(&theirs.stderr).contains("ambiguous") {
                assert!(ours.status == Some(1) || region.ends_with('b'), "{region} of {names:?}: {ours:?}");
            }
            if ours.status == Some(0) && theirs.status.success() {
                assert_eq!(ours.out.as_bytes(), theirs.stdout, "{region} of {names:?}");
                compared += 1;
            }
        }
    }
    assert!(compared > 80, "{compared}");
}

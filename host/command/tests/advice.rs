//! Fault 7: advice was tried. What a message says to run is run here, and answers.

mod common;

use common::Folder;
use std::process::Command;

/// Runs each command that a message names, and returns how many there were.
#[track_caller]
fn follow(folder: &Folder, message: &str) -> usize {
    let commands: Vec<&str> = message.split('`').skip(1).step_by(2).collect();
    let path = std::path::Path::new(common::WAKELURI).parent().unwrap();
    for command in &commands {
        let output = Command::new("sh")
            .args(["-c", command])
            .env("PATH", format!("{}:/usr/bin:/bin", path.display()))
            .current_dir(folder.path())
            .output()
            .unwrap();
        assert!(output.status.success(), "{command} of {message}: {output:?}");
    }
    commands.len()
}

#[test]
fn fault_7_advice_was_tried() {
    let folder = Folder::new("fault-7");
    let good = ">s\nACGT\nAC\n";
    let uneven = ">s\nACGT\nAC\nACGT\n";
    for (name, file, index, advised) in [
        ("f.fa", good, "s\t5\t3\t4\t5\n", "`wakeluri index f.fa`"),
        ("my file's.fa", good, "s\t5\t3\t4\t5\n", "`wakeluri index 'my file'\\''s.fa'`"),
        ("f.fa", uneven, "s\t10\t3\t4\t5\n", "`wakeluri wrap f.fa -o new.fa --index`"),
        ("f.fa", "> s\nACGT\n", "s\t4\t4\t4\t5\n", "`wakeluri wrap --repair f.fa -o new.fa --index`"),
        (
            "f.fa",
            ">t\nA\n>  s x\nACGT\nAC\nACG\n",
            "t\t1\t3\t1\t2\n",
            "`wakeluri wrap --repair f.fa -o new.fa --index`",
        ),
    ] {
        folder.write(name, file);
        folder.write("i.fai", index);
        for words in [
            &["check", name, "i.fai"][..],
            &["read", name, "-i", "i.fai", "s"],
            &["index", name],
            &["index", "--strict", name],
            &["read", name, "s:1-1"],
        ] {
            let answer = folder.run(words);
            if answer.status == Some(0) {
                continue;
            }
            assert!(answer.err.contains(advised), "{words:?} {answer:?}");
            assert_eq!(follow(&folder, &answer.err), 1, "{words:?} {answer:?}");
            if advised.contains("new.fa") {
                assert_eq!(folder.run(&["check", "new.fa"]).status, Some(0));
                std::fs::remove_file(folder.at("new.fa")).unwrap();
            }
            let _ = std::fs::remove_file(folder.at(&format!("{name}.fai")));
        }
    }
    // an index that is used unchecked
    folder.write("f.fa", uneven);
    folder.write("i.fai", "s\t600\t3\t4\t5\n");
    let answer = folder.run(&["read", "--unchecked", "f.fa", "-i", "i.fai", "s:1-300"]);
    assert_eq!(follow(&folder, &answer.err), 1, "{answer:?}");
    // where nothing helps, no command is named but the one that says why
    folder.write("f.fa", "ACGT\n");
    folder.write("i.fai", "");
    let answer = folder.run(&["index", "f.fa"]);
    assert!(!answer.err.contains('`') && answer.err.contains("is it a FASTA file?"), "{answer:?}");
}

#[test]
fn fault_7_wrap_repair() {
    let folder = Folder::new("wrap-repair");
    folder.write("f.fa", ">s\nAC\n> t one  two \r\nAC\n>\tu\nG\n");
    folder.run(&["wrap", "f.fa"]).failed(1, &["f.fa, line 3", "`wakeluri wrap --repair f.fa -o new.fa --index`"]);
    folder.run(&["wrap", "--repair", "f.fa"]).gave(">s\nAC\n>t one  two\nAC\n>u\nG\n");
    folder
        .run(&["wrap", "--repair", "f.fa", "-o", "new.fa"])
        .gave("new.fa: 3 records (2 mended), 5 bases, in lines of 60\n");
    let json = folder.run(&["--json", "wrap", "--repair", "f.fa", "-o", "new.fa"]);
    assert!(json.out.contains("\"records_mended\":2"), "{json:?}");
    // a line without a name stays one
    folder.write("f.fa", ">s\nAC\n> \nAC\n");
    folder.run(&["wrap", "--repair", "f.fa"]).failed(1, &["f.fa, line 3"]);
    // what needs nothing is not touched
    folder.write("f.fa", ">s > t\nAC\n");
    folder.run(&["wrap", "--repair", "f.fa"]).gave(">s > t\nAC\n");
}

//! Fault 5: bytes that are no letters count as bases, and it is said.

mod common;

use common::Folder;
use common::json::objects;

#[test]
fn fault_5_bytes_that_are_no_letters() {
    let folder = Folder::new("fault-5");
    folder.write("f.fa", ">s one 1\nACGT\nACG \n>t\nACGTN\r\nN-*n1\r\n");
    folder.run(&["index", "f.fa", "-o", "kept.fai"]);
    let said = "f.fa, line 3, column 4: ' ' stands among the bases, and is no letter of one; there are 2 such bytes";
    let warning = format!("wakeluri: warning: {said}\n  each counts as a base: take out what is none\n");
    for words in [&["index", "f.fa"][..], &["check", "f.fa"], &["check", "f.fa", "kept.fai"]] {
        let answer = folder.run(words);
        assert_eq!((answer.status, answer.err.as_str()), (Some(0), warning.as_str()), "{words:?}");
        // the answer stays as it is
        assert_eq!(folder.read("kept.fai"), b"s\t8\t9\t4\t5\nt\t10\t22\t5\t7\n");
        let strict: Vec<&str> = words.iter().copied().chain(["--strict"]).collect();
        if words[0] == "check" {
            folder.run(&strict).refused("refused by --strict (line 3, column 4)", &[said]);
        }
    }
    // of a read it is said of what is read
    folder.run(&["read", "f.fa", "s:1-7"]).gave(">s:1-7\nACGTACG\n");
    let answer = folder.run(&["read", "f.fa", "s:5-8"]);
    assert_eq!((answer.status, answer.out.as_str()), (Some(0), ">s:5-8\nACG \n"));
    assert!(answer.err.contains("f.fa, line 3, column 4: ' ' stands among the bases"), "{answer:?}");
    let answer = folder.run(&["read", "f.fa", "t"]);
    assert!(answer.err.contains("f.fa, line 6, column 5: '1' stands among the bases"), "{answer:?}");
    folder
        .run(&["read", "--strict", "f.fa", "s:1-1", "s:5-8"])
        .refused("refused by --strict (line 3, column 4)", &["f.fa, line 3, column 4"]);
    let json = folder.run(&["--json", "read", "--strict", "f.fa", "s:8"]);
    let object = &objects(&json.err)[0];
    assert_eq!((object.number("status"), object.number("line"), object.number("column")), (Some(1), Some(3), Some(4)));
    // nothing is written of a file that is refused
    folder.write("g.fa", ">s\nAC T\n");
    folder.run(&["index", "--strict", "g.fa"]).refused("refused by --strict (line 2, column 3)", &["g.fa, line 2"]);
    assert!(!folder.at("g.fa.fai").exists());
    // letters of all cases, gaps and stops are letters
    folder.write("h.fa", ">s 1 2 3\nACGTUMRWSYKVHDBNacgtumrwsykvhdbn-*\n");
    assert_eq!(folder.run(&["index", "--strict", "h.fa"]).err, "");
}

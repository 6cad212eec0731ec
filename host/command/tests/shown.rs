//! Faults 10, 11 and 12: what is shown of names. Control bytes are escaped, long names are cut, two records of one name are told, and the
//! nearest names are those of all names.

mod common;

use common::Folder;
use std::fs;
use std::os::unix::ffi::OsStringExt;

#[test]
fn fault_10_control_bytes_are_escaped_everywhere() {
    let folder = Folder::new("fault-10");
    let odd = "\u{1b}[31mred\u{7}\u{9b}\u{202e}";
    fs::write(folder.at("f.fa"), format!(">s{odd}\nACGT\nA\nACG\n")).unwrap();
    fs::write(folder.at("g.fa"), format!(">s{odd}\nACGT\n>s{odd}\nA\n")).unwrap();
    fs::write(folder.at(&format!("{odd}.fa")), ">s\nAC\nA\nACG\n").unwrap();
    fs::write(folder.at("sheet.txt"), format!("s{odd}:1{odd}\n{odd}\n")).unwrap();
    fs::write(folder.at("i.fai"), format!("s{odd}\t6\t3\t4\t5\n")).unwrap();
    let file = format!("{odd}.fa");
    let region = format!("s{odd}:1-{odd}");
    let flag = format!("--{odd}");
    let output = format!("no{odd}/x.fai");
    for words in [
        &["index", "f.fa"][..],
        &["index", "g.fa"],
        &["check", "f.fa", "i.fai"],
        &["check", "g.fa", "i.fai"],
        &["index", &file],
        &["wrap", &file, "-o", &output],
        &["index", "g.fa", "-o", &output],
        &["read", "g.fa", &region],
        &["read", "g.fa", odd],
        &["read", "g.fa", "-r", "sheet.txt"],
        &["read", &flag],
        &["index", &format!("no{odd}")],
        &["check", "f.fa", &format!("no{odd}")],
    ] {
        for json in [false, true] {
            let words: Vec<&str> = words.iter().copied().chain(json.then_some("--json")).collect();
            let answer = folder.run(&words);
            assert!(!answer.err.is_empty(), "{words:?}");
            let unseen = |letter: char| letter != '\n' && (letter.is_control() || letter == '\u{202e}' && !json);
            assert!(!answer.err.contains(unseen) && !answer.out.contains(unseen), "{words:?} {answer:?}");
        }
    }
    // a name of any bytes, on a line of its own
    let name = std::ffi::OsString::from_vec(b"new\nline\xff.fa".to_vec());
    let answer = std::process::Command::new(common::WAKELURI).arg("index").arg(name).output().unwrap();
    let said = String::from_utf8(answer.stderr).unwrap();
    assert!(said.starts_with("wakeluri: new\\nline\\xff.fa: there is no such file\n"), "{said}");
}

#[test]
fn fault_10_a_long_name_is_cut() {
    let folder = Folder::new("fault-10-long");
    let long = "x".repeat(50_000);
    folder.write("f.fa", format!(">{long}\nAC\nA\nACG\n>{long}\nA\n"));
    folder.write("i.fai", format!("{long}\t900000\t9\t9\t9\n"));
    for words in [
        &["index", "f.fa"][..],
        &["check", "f.fa", "i.fai"],
        &["read", "f.fa", "--unchecked", "-i", "i.fai", &long],
        &["read", "f.fa", "--unchecked", "-i", "i.fai", &format!("{long}:0")],
        &["read", "f.fa", "--unchecked", "-i", "i.fai", &format!("{long}:{long}")],
        &["read", "f.fa", "--unchecked", "-i", "i.fai", &long.replace('x', "y")],
    ] {
        let answer = folder.run(words);
        assert_eq!(answer.out, "");
        assert!(
            answer.err.len() < 2000 && answer.err.contains("xxx.. (50,000 bytes)") || answer.err.contains("yyy.. (")
        );
    }
}

#[test]
fn fault_11_records_of_one_name() {
    let folder = Folder::new("fault-11");
    folder.write("f.fa", ">s\nAC\n>t\nG\n>s\nTT\n>u\nA\n");
    let warning = "wakeluri: warning: records 1 and 3 of f.fa are both named s: by its name the first is read\n";
    for words in [["index", "f.fa"], ["check", "f.fa"]] {
        let answer = folder.run(&words);
        assert_eq!((answer.status, answer.err.as_str()), (Some(0), warning));
    }
    // as samtools has it, without the second
    let likely = "; record 1 has that name too, and samtools and others leave out the second record of a name";
    folder.write("f.fa.fai", "s\t2\t3\t2\t3\nt\t1\t9\t1\t2\nu\t1\t20\t1\t2\n");
    let words = format!("this line is about 'u', and record 3 of f.fa is 's'{likely}");
    folder.run(&["check", "f.fa"]).refused("refused 21 (record 3)", &[&words]);
    folder.write("f.fa", ">s\nAC\n>t\nG\n>s\nTT\n");
    folder.write("f.fa.fai", "s\t2\t3\t2\t3\nt\t1\t9\t1\t2\n");
    folder.run(&["check", "f.fa"]).refused("refused 19 (record 3)", &["record 3 of f.fa is s", likely]);
    // and not where it is no cause
    folder.write("f.fa", ">s\nAC\n>t\nG\n");
    folder.write("f.fa.fai", "s\t2\t3\t2\t3\nu\t1\t9\t1\t2\n");
    assert!(!folder.run(&["check", "f.fa"]).err.contains("that name too"));
    // many of them are told in few lines
    folder.write("g.fa", (0..2000).map(|n| format!(">n{}\nA\n", n % 1000)).collect::<String>());
    let answer = folder.run(&["index", "g.fa"]);
    assert_eq!((answer.status, answer.err.lines().count()), (Some(0), 11));
    assert!(answer.err.ends_with("so it is with 990 more names of g.fa\n"), "{answer:?}");
}

#[test]
fn fault_12_the_nearest_of_all_names() {
    let folder = Folder::new("fault-12");
    // many long names that are alike, and the nearest one is the last
    let name = |n: u32| format!("{}{n:06}{}", "scaffold_of_something_long_".repeat(2), "AB".repeat(40));
    let wanted = format!("{}999999{}", "scaffold_of_something_long_".repeat(2), "BA".repeat(40));
    let mut file: String = (0..100_000).map(|n| format!(">{}\nA\n", name(n))).collect();
    file.push_str(&format!(">{}x\nA\n", wanted));
    folder.write("f.fa", file);
    let begun = std::time::Instant::now();
    let answer = folder.run(&["read", "f.fa", &wanted]);
    assert!(answer.err.contains("the nearest name"), "{}", answer.err);
    let nearest = answer.err.lines().nth(1).unwrap();
    assert!(nearest.contains(": scaffold_of_something_long_scaffold_of_something_long_999999BABA"), "{nearest}");
    assert!(begun.elapsed() < std::time::Duration::from_secs(30));
}

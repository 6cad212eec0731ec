//! What is read is never written to: an index over its own file was data lost. Every output of every command is tried against every
//! input: the file itself, links to it, other names of open files, and redirections of a shell.

mod common;

use common::{Answer, Folder, WAKELURI};
use std::fs;
use std::os::unix::fs::symlink;
use std::process::{Command, Stdio};
use std::time::{Duration, Instant};

const FASTA: &str = ">s\nACGT\nAC\n>t\nGG\n";
const INDEX: &str = "s\t6\t3\t4\t5\nt\t2\t14\t2\t3\n";

fn folder(test: &str) -> Folder {
    let folder = Folder::new(test);
    folder.write("f.fa", FASTA);
    folder
}

/// Runs a line of a shell in which `wakeluri` is the command.
fn shell(folder: &Folder, line: &str) -> Answer {
    let line = format!("wakeluri() {{ \"$0\" \"$@\"; }}; {line}");
    let mut command = Command::new("sh");
    command.args(["-c", &line, WAKELURI]).current_dir(folder.path()).stdin(Stdio::null());
    command.output().expect("a shell").into()
}

/// It refused to write where it reads, and nothing has changed.
#[track_caller]
fn kept(folder: &Folder, answer: &Answer, words: &str) {
    answer.failed(3, &[words]);
    assert!(!answer.err.contains("refused"), "{answer:?}");
    assert_eq!(folder.read("f.fa"), FASTA.as_bytes(), "{answer:?}");
}

#[test]
fn an_index_over_its_own_file() {
    let folder = folder("over-itself");
    let names = folder.names();
    for output in ["f.fa", "./f.fa", &folder.at("f.fa").display().to_string()] {
        let answer = folder.run(&["index", "f.fa", "-o", output]);
        kept(&folder, &answer, "the index would take the place of f.fa, which is read");
        assert!(answer.err.contains("name another file with --output"), "{answer:?}");
    }
    assert_eq!(folder.names(), names, "nothing is left behind");
    let json = folder.run(&["--json", "index", "f.fa", "-o", "f.fa"]);
    kept(&folder, &json, "{\"status\":3,\"words\":\"f.fa: the index would take the place of f.fa, which is read\"");
}

#[test]
fn an_index_over_a_link_to_its_file() {
    let folder = folder("over-link");
    fs::create_dir(folder.at("sub")).unwrap();
    symlink("f.fa", folder.at("soft.fai")).unwrap();
    symlink("../f.fa", folder.at("sub/soft.fai")).unwrap();
    symlink("sub/soft.fai", folder.at("softer.fai")).unwrap();
    fs::hard_link(folder.at("f.fa"), folder.at("hard.fai")).unwrap();
    let words = "the index would take the place of f.fa, which is read: it is the very same file";
    for output in ["soft.fai", "sub/soft.fai", "softer.fai", "hard.fai"] {
        kept(&folder, &folder.run(&["index", "f.fa", "-o", output]), words);
    }
    // the default name too
    symlink("f.fa", folder.at("f.fa.fai")).unwrap();
    kept(&folder, &folder.run(&["index", "f.fa"]), words);
    fs::remove_file(folder.at("f.fa.fai")).unwrap();
    fs::hard_link(folder.at("f.fa"), folder.at("f.fa.fai")).unwrap();
    kept(&folder, &folder.run(&["index", "f.fa"]), words);
    // and the file under the name of a link
    let answer = folder.run(&["index", "soft.fai", "-o", "f.fa"]);
    kept(&folder, &answer, "f.fa: the index would take the place of soft.fai, which is read");
}

#[test]
fn names_of_open_files() {
    let folder = folder("open-files");
    for line in [
        "wakeluri index - -o f.fa < f.fa",
        "wakeluri index /dev/stdin -o f.fa < f.fa",
        "wakeluri index /proc/self/fd/0 -o f.fa < f.fa",
        "wakeluri index f.fa -o /dev/fd/3 3>> f.fa",
        "wakeluri index /dev/fd/4 -o f.fa 4< f.fa",
        "wakeluri index /dev/fd/4 -o /dev/fd/3 4< f.fa 3>> f.fa",
    ] {
        kept(&folder, &shell(&folder, line), "the index would take the place of");
    }
    for line in [
        "wakeluri index f.fa -o /dev/stdout >> f.fa",
        "wakeluri index f.fa -o /proc/self/fd/1 >> f.fa",
        "wakeluri index /dev/stdin < f.fa >> f.fa",
        "wakeluri index - < f.fa 1<> f.fa",
    ] {
        kept(&folder, &shell(&folder, line), "standard output is the very same file");
    }
    assert_eq!(folder.names(), ["f.fa"]);
}

/// Standard output is a file that is read, in every command and for every input.
#[test]
fn an_answer_to_what_is_read() {
    let folder = folder("answer");
    folder.write("f.fa.fai", INDEX);
    folder.write("sheet.txt", "s:1-2\n");
    folder.write("bases.txt", "ACGT\n");
    for (words, inputs) in [
        ("index f.fa -o -", &["f.fa"][..]),
        ("index f.fa -o other.fai", &["f.fa"]),
        ("check f.fa", &["f.fa", "f.fa.fai"]),
        ("check f.fa f.fa.fai", &["f.fa", "f.fa.fai"]),
        ("read f.fa s", &["f.fa", "f.fa.fai"]),
        ("read f.fa -r sheet.txt", &["f.fa", "f.fa.fai", "sheet.txt"]),
        ("read f.fa -i f.fa.fai --unchecked s", &["f.fa", "f.fa.fai"]),
        ("complement f.fa", &["f.fa", "f.fa.fai"]),
        ("complement f.fa -r sheet.txt", &["f.fa", "f.fa.fai", "sheet.txt"]),
        ("revcomp f.fa s:1-2", &["f.fa", "f.fa.fai"]),
        ("revcomp bases.txt", &["bases.txt"]),
        ("--json complement bases.txt", &["bases.txt"]),
    ] {
        for input in inputs {
            let before = folder.read(input);
            for redirected in [">>", "1<>"] {
                let answer = shell(&folder, &format!("wakeluri {words} {redirected} {input}"));
                answer
                    .failed(3, &[&format!("{input}: this is what is read, and standard output is the very same file")]);
                assert_eq!(folder.read(input), before, "{words} {redirected} {input}");
                // where messages go there too, there is the status alone
                let answer = shell(&folder, &format!("wakeluri {words} {redirected} {input} 2>&1"));
                assert_eq!(
                    (answer.status, folder.read(input)),
                    (Some(3), before.clone()),
                    "{words} {redirected} {input}"
                );
                let answer = shell(&folder, &format!("wakeluri {words} 2>> {input}"));
                assert_eq!((answer.status, folder.read(input)), (Some(3), before.clone()), "{words} 2>> {input}");
            }
        }
    }
    assert!(!folder.at("other.fai").exists());
    // what a shell has emptied before is gone, and it is said
    let answer = shell(&folder, "wakeluri read f.fa s > f.fa");
    answer.failed(3, &["a shell empties the file behind `>` before the command begins"]);
}

/// A pipe that is read and written by the same command would never end.
#[test]
fn a_named_pipe_that_is_both() {
    let folder = folder("pipe-both");
    if !Command::new("mkfifo").arg(folder.at("p")).status().is_ok_and(|made| made.success()) {
        eprintln!("skipped: no named pipe can be made here");
        return;
    }
    let begun = Instant::now();
    for line in ["wakeluri index p -o p <> p", "wakeluri revcomp 1<> p < p", "wakeluri read p s 1<> p"] {
        shell(&folder, line).failed(3, &["the "]);
    }
    assert!(begun.elapsed() < Duration::from_secs(15), "it waited for what it is to write itself");
}

/// What may be read and written at once, and outputs that are no files.
#[test]
fn devices_folders_and_places_that_are_free() {
    let folder = folder("devices");
    let answer = shell(&folder, "wakeluri revcomp < /dev/null > /dev/null");
    assert_eq!((answer.status, answer.out.as_str()), (Some(0), ""), "{answer:?}");
    folder.run(&["index", "f.fa", "-o", "/dev/null"]).gave("/dev/null: 2 records, 8 bases\n");
    folder.run(&["index", "f.fa", "-o", "/"]).failed(3, &["/: this is a folder, and what is written is a file"]);
    fs::create_dir(folder.at("g.fa.fai")).unwrap();
    folder.write("g.fa", FASTA);
    folder.run(&["index", "g.fa"]).failed(3, &["g.fa.fai: this is a folder, and what is written is a file"]);
    if let Some(disk) =
        ["/dev/loop0", "/dev/sda", "/dev/vda", "/dev/nvme0n1"].into_iter().find(|disk| fs::metadata(disk).is_ok())
    {
        folder.run(&["index", "f.fa", "-o", disk]).failed(3, &["this is a disk, and all that is on it would be lost"]);
    }
    // standard output by another name is standard output: nothing is replaced, and nothing is made beside it
    folder.run(&["index", "f.fa", "-o", "/dev/stdout"]).gave(INDEX);
    folder.write("log", "before\n");
    shell(&folder, "wakeluri index f.fa -o /dev/stdout >> log").gave("");
    assert_eq!(folder.read("log"), format!("before\n{INDEX}").as_bytes());
    shell(&folder, "wakeluri index f.fa -o /dev/fd/3 3>> log").gave("/dev/fd/3: 2 records, 8 bases\n");
    assert_eq!(folder.read("log"), format!("before\n{INDEX}{INDEX}").as_bytes());
    folder.run(&["--json", "index", "f.fa", "-o", "/dev/stdout"]).failed(2, &["--json needs --output FILE"]);
    // a file that has no place has no index beside it: it goes to standard output
    shell(&folder, "wakeluri index /dev/stdin < f.fa").gave(INDEX);
    shell(&folder, "wakeluri index /dev/fd/5 5< f.fa").gave(INDEX);
    shell(&folder, "wakeluri check /dev/fd/5 5< f.fa")
        .failed(2, &["name the index that /dev/fd/5 is to be checked with"]);
    // standard input is one input, by whatever name
    for line in [
        "read - -r /dev/stdin",
        "read /dev/stdin -r -",
        "read - s -i -",
        "read f.fa -r - -i /dev/stdin",
        "check /dev/stdin -",
    ] {
        shell(&folder, &format!("wakeluri {line} < f.fa")).failed(2, &["can't both come from standard input"]);
    }
    // both are outputs: the index is whole
    shell(&folder, "wakeluri index f.fa > f.fa.fai").gave("");
    assert_eq!(folder.read("f.fa.fai"), INDEX.as_bytes());
}

/// A slip in the name of an index doesn't cost another file of sequences.
#[test]
fn an_index_over_another_file_of_sequences() {
    let folder = folder("over-another");
    for (name, bytes, what) in [
        ("g.fa", &b">u\nAC\n"[..], "this is a file of sequences"),
        ("f.fa.fai", b">u\nAC\n", "this is a file of sequences"),
        ("one", b">", "this is a file of sequences"),
        ("packed.gz", b"\x1f\x8b\x08rest", "this is a packed file or a program"),
        ("program", b"\x7fELF\x02\0\0", "this is a packed file or a program"),
    ] {
        folder.write(name, bytes);
        symlink(name, folder.at("link")).unwrap();
        for output in [name, "link"] {
            let answer = folder.run(&["index", "f.fa", "-o", output]);
            answer.failed(3, &[&format!("{what}, and the index would take its place"), "with --output"]);
            assert_eq!(folder.read(name), bytes);
        }
        fs::remove_file(folder.at("link")).unwrap();
    }
    folder.run(&["index", "f.fa"]).failed(3, &["f.fa.fai: this is a file of sequences"]);
    // an index whose first name begins with '>' is an index
    folder.write("odd.fa", ">>u\nAC\n");
    folder.run(&["index", "odd.fa"]).gave("odd.fa.fai: 1 record, 2 bases\n");
    folder.run(&["index", "odd.fa"]).gave("odd.fa.fai: 1 record, 2 bases\n");
}

/// A link that leads to nothing yet is followed, and stays a link; what has the name of a file that is being written stays too.
#[test]
fn links_to_nothing_and_names_in_use() {
    let folder = folder("to-nothing");
    fs::create_dir(folder.at("elsewhere")).unwrap();
    symlink("elsewhere/new.fai", folder.at("f.fa.fai")).unwrap();
    folder.run(&["index", "f.fa"]).gave("f.fa.fai: 2 records, 8 bases\n");
    assert!(folder.at("f.fa.fai").is_symlink());
    assert_eq!(folder.read("elsewhere/new.fai"), INDEX.as_bytes());
    symlink("nowhere/new.fai", folder.at("lost.fai")).unwrap();
    folder
        .run(&["index", "f.fa", "-o", "lost.fai"])
        .failed(3, &["lost.fai: it can't be written", "make that folder first"]);
    symlink("b.fai", folder.at("a.fai")).unwrap();
    symlink("a.fai", folder.at("b.fai")).unwrap();
    folder
        .run(&["index", "f.fa", "-o", "a.fai"])
        .failed(3, &["a.fai: it can't be written (Too many levels of symbolic links)"]);
    // a name as long as can be
    let long = "n".repeat(251);
    folder.write(&long, FASTA);
    assert_eq!(folder.run(&["index", &long]).status, Some(0));
    assert_eq!(folder.read(&format!("{long}.fai")), INDEX.as_bytes());
    // the number of a process may come again: what has the name stays
    for line in [
        "echo mine > wakeluri-$$-0.new; exec \"$0\" index f.fa -o x.fai",
        "echo mine > wakeluri-$$-0.new; ln -s f.fa wakeluri-$$-1.new; exec \"$0\" index f.fa -o y.fai",
    ] {
        let output = Command::new("sh").args(["-c", line, WAKELURI]).current_dir(folder.path()).output().unwrap();
        assert_eq!(Answer::from(output).status, Some(0));
    }
    let mine = folder.names().into_iter().filter(|name| name.ends_with("-0.new"));
    let mine: Vec<Vec<u8>> = mine.map(|name| folder.read(&name)).collect();
    assert_eq!(mine, [b"mine\n", b"mine\n"]);
    assert_eq!((folder.read("x.fai"), folder.read("f.fa")), (INDEX.into(), FASTA.into()));
}

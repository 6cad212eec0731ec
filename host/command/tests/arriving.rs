//! `index -`: a file that comes by a pipe is indexed as it arrives; `--save FILE` saves it on the way.

mod common;

use common::{Answer, Folder, WAKELURI};
use std::fs;
use std::io::Write;
use std::process::{Child, ChildStdin, Command, Stdio};
use std::time::{Duration, Instant};

const FASTA: &[u8] = b">s one\nACGT\nAC\n>t\nA\n";
const INDEX: &str = "s\t6\t7\t4\t5\nt\t1\t18\t1\t2\n";

/// The command, and the pipe that it reads from.
fn started(folder: &Folder, words: &[&str]) -> (Child, ChildStdin) {
    let mut child = folder.command(words).stdin(Stdio::piped()).spawn().expect("the command runs");
    let pipe = child.stdin.take().expect("a pipe");
    (child, pipe)
}

/// Makes a pipe that has a name, if that can be done here.
fn has_pipe(folder: &Folder, name: &str) -> bool {
    let made = Command::new("mkfifo").arg(folder.at(name)).status().is_ok_and(|status| status.success());
    if !made {
        eprintln!("skipped: there is no `mkfifo` here");
    }
    made
}

/// Waits for something, for 20 seconds at most.
fn wait_for(what: &str, mut is_there: impl FnMut() -> bool) {
    let begun = Instant::now();
    while !is_there() {
        assert!(begun.elapsed() < Duration::from_secs(20), "{what} does not come");
        std::thread::sleep(Duration::from_millis(5));
    }
}

#[test]
fn the_file_and_its_index_are_put_in_place() {
    let folder = Folder::new("arriving");
    for piece in [1, 3, 1000] {
        folder.piped(&["index", "-", "--save", "ref.fa"], FASTA, piece).gave("ref.fa.fai: 2 records, 7 bases\n");
        assert_eq!(folder.read("ref.fa"), FASTA);
        assert_eq!(folder.read("ref.fa.fai"), INDEX.as_bytes());
        folder.run(&["check", "ref.fa"]);
    }
    // the same index as of the file
    folder.run(&["index", "ref.fa", "-o", "-"]).gave(INDEX);
    folder.piped(&["index", "-"], FASTA, 5).gave(INDEX);
    folder.piped(&["--json", "index", "-", "--save", "b.fa"], b">s\nAC\n\n>t\n", 2).gave(
        "{\"file\":\"b.fa\",\"index\":\"b.fa.fai\",\"records\":2,\"bases\":2,\"records_with_blank_lines\":1,\"records_without_bases\":1}\n",
    );
}

/// What is warned of a file is warned of it on its way.
#[test]
fn warnings_are_those_of_the_file() {
    let folder = Folder::new("arriving-warned");
    let file: &[u8] = b">s\nAC GT\nA1CGT\n>s\nA\n>e\n";
    folder.write("f.fa", file);
    let mut by_file = folder.run(&["index", "f.fa"]);
    by_file.err = by_file.err.replace("f.fa", "standard input");
    assert_eq!(by_file.err.lines().count(), 3, "{by_file:?}");
    for piece in [1, 4, 1000] {
        let saved = folder.piped(&["index", "-", "--save", "f.fa"], file, piece);
        assert_eq!(saved, by_file);
    }
    folder
        .piped(&["index", "-", "--save", "g.fa", "--strict"], b">s\nAC GT\nA1CGT\n", 4)
        .failed(1, &["line 2, column 3", "there are 2 such bytes", "refused by --strict", "nothing was saved"]);
    assert!(!folder.at("g.fa").exists());
}

#[test]
fn a_refusal_leaves_nothing() {
    let folder = Folder::new("arriving-refused");
    let words = ["standard input, line 3 (byte 8): base 9 of s", "here stands 'ACGTA'", "nothing was saved"];
    folder
        .piped(&["index", "-", "--save", "ref.fa"], b">s\nACGT\nACGTA\nA\n", 2)
        .refused("refused 42 (offset 12, base 9)", &words);
    assert!(folder.names().is_empty());
    folder
        .piped(&["index", "-", "--save", "ref.fa", "--strict"], b">s\nA\n> \nA\n", 2)
        .refused("refused 4 (offset 6)", &["line 3 (byte 6)", "\n  >\n   ^\n", "nothing was saved"]);
    // what was there stays
    folder.write("ref.fa", FASTA);
    folder
        .piped(&["index", "-", "--save", "ref.fa"], b"ACGT\n", 2)
        .failed(1, &["line 1 (byte 0)", "here stands 'ACGT'"]);
    assert_eq!((folder.read("ref.fa"), folder.names()), (FASTA.to_vec(), vec!["ref.fa".to_string()]));
}

/// The writer has not ended, and waits: the refusal is there.
#[test]
fn a_refusal_is_told_when_it_is_met() {
    let folder = Folder::new("arriving-at-once");
    for words in [&["index", "-"][..], &["index", "-", "--save", "ref.fa"]] {
        let (mut child, mut pipe) = started(&folder, words);
        // a line is judged with the byte behind it
        pipe.write_all(b">s\nACGT\nAC\nA\nC").unwrap();
        wait_for("the refusal", || child.try_wait().is_ok_and(|status| status.is_some()));
        let answer = Answer::from(child.wait_with_output().unwrap());
        answer.refused("refused 42 (offset 11, base 7)", &["standard input, line 4 (byte 11)"]);
        assert!(folder.names().is_empty());
    }
}

#[test]
fn only_what_arrives_is_saved() {
    let folder = Folder::new("arriving-file");
    folder.write("f.fa", FASTA);
    folder.run(&["index", "f.fa", "--save", "g.fa"]).failed(2, &["--save"]);
    let mut same = folder.command(&["index", "-", "--save", "f.fa"]);
    let same = Answer::from(same.stdin(fs::File::open(folder.at("f.fa")).unwrap()).output().unwrap());
    same.failed(3, &["the saved file would take the place of standard input"]);
    assert_eq!(folder.names(), ["f.fa"]);
}

/// Stopped in the middle: both places are as they were, and nothing else is left.
#[test]
fn a_stop_in_the_middle_changes_nothing() {
    let folder = Folder::new("arriving-stopped");
    folder.write("ref.fa", ">old\nA\n");
    folder.write("ref.fa.fai", "old\t1\t5\t1\t2\n");
    let (mut child, mut pipe) = started(&folder, &["index", "-", "--save", "ref.fa"]);
    for _ in 0..40 {
        pipe.write_all(&[b">s\n".to_vec(), b"ACGTACGT\n".repeat(1000)].concat()).unwrap();
    }
    child.kill().unwrap();
    child.wait().unwrap();
    assert_eq!(folder.read("ref.fa"), b">old\nA\n");
    assert_eq!(folder.read("ref.fa.fai"), b"old\t1\t5\t1\t2\n");
    assert_eq!(folder.names(), ["ref.fa", "ref.fa.fai"]);
}

/// Stopped between the two: the file is there whole, and its index is not. A pipe without a reader keeps the index from being written.
#[test]
fn a_stop_between_the_file_and_its_index() {
    let folder = Folder::new("arriving-between");
    if !has_pipe(&folder, "slow.fai") {
        return;
    }
    let (mut child, mut pipe) = started(&folder, &["index", "-", "--save", "ref.fa", "-o", "slow.fai"]);
    pipe.write_all(FASTA).unwrap();
    assert!(!folder.at("ref.fa").exists());
    drop(pipe);
    wait_for("the file", || folder.at("ref.fa").exists());
    assert_eq!(folder.read("ref.fa"), FASTA);
    child.kill().unwrap();
    child.wait().unwrap();
    assert_eq!(folder.read("ref.fa"), FASTA);
    assert_eq!(folder.names(), ["ref.fa", "slow.fai"]);
}

/// 40 MB go by, and a tenth of that is held at most.
#[test]
fn memory_for_the_rows_the_names_and_a_piece() {
    let folder = Folder::new("arriving-memory");
    let (child, mut pipe) = started(&folder, &["index", "-"]);
    let line = b"ACGTACGTACGTACGTACGTACGTACGTACGTACGTACGTACGTACGTACGTACGTACGT\n".repeat(1000);
    pipe.write_all(b">s\n").unwrap();
    for _ in 0..656 {
        pipe.write_all(&line).unwrap();
    }
    let told = fs::read_to_string(format!("/proc/{}/status", child.id())).unwrap_or_default();
    let most =
        told.lines().find_map(|line| line.strip_prefix("VmHWM:")?.trim().strip_suffix(" kB")?.parse::<u64>().ok());
    drop(pipe);
    Answer::from(child.wait_with_output().unwrap()).gave("s\t39360000\t3\t60\t61\n");
    assert!(most.is_none_or(|most| most < 12_000), "{most:?} kB");
}

#[test]
fn a_pipe_with_a_name() {
    let folder = Folder::new("arriving-named");
    if !has_pipe(&folder, "f.pipe") {
        return;
    }
    for (bytes, status) in [(FASTA, 0), (b">s\nACGT\nAC\nA\n", 1)] {
        let child = folder.start(&["index", "f.pipe", "-o", "-"]);
        let _ = fs::write(folder.at("f.pipe"), bytes);
        let answer = Answer::from(child.wait_with_output().unwrap());
        assert_eq!(answer.status, Some(status), "{answer:?}");
        assert!(if status == 0 { answer.out == INDEX } else { answer.err.contains("f.pipe, line 4 (byte 11)") });
    }
}

/// On a terminal bytes, records and speed are shown, and a record is before the writer has ended.
#[test]
fn progress_shows_a_record_before_the_writer_ends() {
    let folder = Folder::new("arriving-progress");
    let slow = format!("(printf '>s\\nACGT\\n>t\\n'; sleep 2; printf 'A\\n') | {WAKELURI} index -");
    let shown = Command::new("script").args(["-qec", &slow, "/dev/null"]).current_dir(folder.path()).output();
    let Ok(shown) = shown else {
        eprintln!("skipped: there is no `script` here, which makes a terminal");
        return;
    };
    let shown = String::from_utf8_lossy(&shown.stdout).into_owned();
    assert!(shown.contains("indexing standard input: 11 bytes, 1 record, 0.0 MB/s, 1s"), "{shown:?}");
    assert!(shown.ends_with("s\t4\t3\t4\t5\r\nt\t1\t11\t1\t2\r\n"), "{shown:?}");
}

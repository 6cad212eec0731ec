//! Sudden ends and bad files: each ends clearly, and nothing is lost.

mod common;

use common::{Answer, Folder, WAKELURI};
use std::fs::{self, File, OpenOptions, Permissions};
use std::io::{Read, Seek, SeekFrom, Write};
use std::os::unix::fs::{PermissionsExt, symlink};
use std::os::unix::process::{CommandExt, ExitStatusExt};
use std::process::{Child, Command};
use std::thread::sleep;
use std::time::{Duration, Instant};

fn signal(child: &Child, signal: libc::c_int) {
    // SAFETY: a signal to a child of this test, which has not been waited for.
    unsafe {
        libc::kill(child.id() as libc::pid_t, signal);
    }
}

/// Many short records, whose index is longer than the file.
fn many_records(records: usize) -> Vec<u8> {
    (0..records).flat_map(|record| format!(">r{record}\nA\n").into_bytes()).collect()
}

#[test]
fn killed_in_the_middle_of_index_the_old_one_is_whole() {
    let folder = Folder::new("killed");
    // so many records that there is a middle to be stopped in
    let mut whole_time = Duration::ZERO;
    let mut records = 2_000;
    while whole_time < Duration::from_millis(100) && records < 1_000_000 {
        folder.write("f.fa", many_records(records));
        let begun = Instant::now();
        assert_eq!(folder.run(&["index", "f.fa"]).status, Some(0));
        whole_time = begun.elapsed();
        records *= 2;
    }
    let new = folder.read("f.fa.fai");
    let mut killed = 0;
    for step in 0..25 {
        folder.write("f.fa.fai", "the old index");
        let mut child = folder.start(&["index", "f.fa"]);
        sleep(whole_time * step / 20);
        signal(&child, libc::SIGKILL);
        let ended = child.wait().unwrap();
        killed += usize::from(ended.signal() == Some(libc::SIGKILL));
        let now = folder.read("f.fa.fai");
        assert!(now == b"the old index" || now == new, "step {step}: neither the old index nor the whole new one");
    }
    assert!(killed > 0, "none was killed in time");
    // and the next run is not disturbed by what they left
    assert_eq!(folder.run(&["index", "f.fa"]).status, Some(0));
    assert_eq!(folder.read("f.fa.fai"), new);
}

#[test]
fn a_full_disk_leaves_the_old_index() {
    let folder = Folder::new("full");
    folder.write("f.fa", ">s\nACGT\n");
    folder.write("f.fa.fai", "the old index");
    // no file may get longer than nothing
    let limited = |words: &str| -> Answer {
        let shell = format!("ulimit -f 0; exec \"$0\" {words}");
        Command::new("sh").args(["-c", &shell, WAKELURI]).current_dir(folder.path()).output().unwrap().into()
    };
    let words = "f.fa.fai: it can't be written, and the old index is as it was (File too large)";
    limited("index f.fa").failed(3, &[words, "make room on the disk, or write it elsewhere with --output"]);
    assert_eq!(folder.read("f.fa.fai"), b"the old index");
    assert_eq!(folder.names(), ["f.fa", "f.fa.fai"], "nothing is left behind");
    fs::remove_file(folder.at("f.fa.fai")).unwrap();
    limited("index f.fa").failed(3, &["no index was written (File too large)"]);
    assert_eq!(folder.names(), ["f.fa"]);

    // a device that is always full, for the index and for answers
    folder
        .run(&["index", "-o", "/dev/full", "f.fa"])
        .failed(3, &["/dev/full: it can't be written (No space left on device)"]);
    let full = || OpenOptions::new().write(true).open("/dev/full").unwrap();
    for words in [
        &["read", "f.fa", "s"][..],
        &["index", "-o", "-", "f.fa"],
        &["revcomp", "f.fa"],
        &["index", "f.fa"],
        &["check", "f.fa"],
    ] {
        let answer = Answer::from(folder.command(words).stdout(full()).output().unwrap());
        answer.failed(3, &["standard output: the answer can't be written (No space left on device)"]);
    }
}

/// A small disk of its own, where this may be made.
#[test]
fn a_small_disk_that_is_full() {
    let folder = Folder::new("small-disk");
    fs::create_dir(folder.at("disk")).unwrap();
    let disk = folder.at("disk").display().to_string();
    let mounted = Command::new("mount").args(["-t", "tmpfs", "-o", "size=64k", "tmpfs", &disk]).output();
    if !mounted.is_ok_and(|output| output.status.success()) {
        eprintln!("skipped: no small disk can be made here");
        return;
    }
    folder.write("f.fa", many_records(20_000));
    folder.write("disk/f.fai", "the old index");
    let answer = folder.run(&["index", "f.fa", "-o", "disk/f.fai"]);
    let (old, left) = (folder.read("disk/f.fai"), fs::read_dir(folder.at("disk")).unwrap().count());
    let _ = Command::new("umount").arg(&disk).status();
    answer.failed(3, &["disk/f.fai: it can't be written, and the old index is as it was (No space left on device)"]);
    assert_eq!((old.as_slice(), left), (&b"the old index"[..], 1));
}

/// Starts a command, stops it when `begun` says that it is at work, does something to the file, and lets it go on.
fn meanwhile(folder: &Folder, words: &[&str], begun: impl Fn(u32) -> bool, act: impl Fn()) -> Option<Answer> {
    let mut child = folder.start(words);
    let limit = Instant::now() + Duration::from_secs(20);
    while !begun(child.id()) {
        if child.try_wait().unwrap().is_some() || Instant::now() > limit {
            let _ = child.kill();
            let _ = child.wait();
            return None;
        }
    }
    signal(&child, libc::SIGSTOP);
    sleep(Duration::from_millis(20));
    // it may have gone on for a while before it stopped
    let running = child.try_wait().unwrap().is_none() && begun(child.id());
    act();
    signal(&child, libc::SIGCONT);
    let answer = child.wait_with_output().unwrap().into();
    running.then_some(answer)
}

/// A record of one line of so many bytes, which take no room on the disk.
fn sparse(folder: &Folder, bytes: u64) -> File {
    let mut file = File::create(folder.at("f.fa")).unwrap();
    file.write_all(b">s\n").unwrap();
    file.set_len(bytes).unwrap();
    file
}

fn is_mapped(child: u32) -> bool {
    fs::read_to_string(format!("/proc/{child}/maps")).unwrap_or_default().contains("f.fa")
}

fn is_half_read(child: u32) -> bool {
    let open = fs::read_dir(format!("/proc/{child}/fd")).into_iter().flatten().flatten();
    let file = open.into_iter().find(|item| fs::read_link(item.path()).is_ok_and(|file| file.ends_with("f.fa")));
    let Some(file) = file else { return false };
    let told = fs::read_to_string(format!("/proc/{child}/fdinfo/{}", file.file_name().to_string_lossy()));
    let place = told.unwrap_or_default().lines().find_map(|line| line.strip_prefix("pos:\t")?.parse::<u64>().ok());
    let length = fs::metadata(file.path()).map_or(0, |meta| meta.len());
    place.is_some_and(|place| 0 < place && place < length)
}

const CHANGED: &str = "f.fa: the file was changed while it was read, so there is no answer";

/// Tries with longer and longer files until the command is caught at work.
fn caught(folder: &Folder, words: &[&str], begun: fn(u32) -> bool, act: impl Fn(&File)) {
    for bytes in [1 << 27, 1 << 29, 1 << 30] {
        let file = sparse(folder, bytes);
        if let Some(answer) = meanwhile(folder, words, begun, || act(&file)) {
            answer.failed(3, &[CHANGED, "wait until nobody writes to it"]);
            return;
        }
    }
    eprintln!("skipped: the command was always done before it could be disturbed");
}

#[test]
fn a_mapped_file_that_shrinks_while_it_is_read() {
    let folder = Folder::new("shrinks-mapped");
    folder.write("f.fa.fai", "the old index");
    caught(&folder, &["index", "f.fa"], is_mapped, |file| file.set_len(1000).unwrap());
    assert_eq!(folder.read("f.fa.fai"), b"the old index");
    fs::remove_file(folder.at("f.fa.fai")).unwrap();
    caught(&folder, &["read", "f.fa", "s:5-9"], is_mapped, |file| file.set_len(0).unwrap());
}

#[test]
fn a_file_that_shrinks_while_it_is_read_plainly() {
    let folder = Folder::new("shrinks-read");
    caught(&folder, &["--input", "read", "read", "f.fa", "s:5-9"], is_half_read, |file| file.set_len(1000).unwrap());
}

#[test]
fn a_file_that_is_written_to_while_it_is_read() {
    let folder = Folder::new("written");
    for words in [&["index", "f.fa"][..], &["read", "f.fa", "s:5-9"]] {
        caught(&folder, words, is_mapped, |mut file| {
            file.seek(SeekFrom::Start(5)).unwrap();
            file.write_all(b"ACGT").unwrap();
        });
    }
    assert_eq!(folder.names(), ["f.fa"], "no index of a file that is another by now");
}

#[test]
fn an_unreadable_file_a_folder_and_no_file() {
    let folder = Folder::new("unreadable");
    folder.write("f.fa", ">s\nACGT\n");
    fs::create_dir(folder.at("sub")).unwrap();
    for words in
        [&["list", "sub"][..], &["read", "sub", "s"], &["check", "f.fa", "-i", "sub"], &["read", "f.fa", "-r", "sub"]]
    {
        folder.run(words).failed(3, &["sub: this is a folder, and a file is needed"]);
    }
    for words in
        [&["index", "no.fa"][..], &["read", "no.fa", "s"], &["revcomp", "no.fa"], &["read", "f.fa", "-r", "no.fa"]]
    {
        folder.run(words).failed(3, &["no.fa: there is no such file"]);
    }
    folder
        .run(&["check", "f.fa"])
        .failed(3, &["f.fa.fai: there is no such file", "make the index with `wakeluri index f.fa`"]);
    folder.run(&["read", "f.fa", "--index", "no.fai", "s"]).failed(3, &["no.fai: there is no such file"]);
    folder.run(&["index", "f.fa", "-o", "sub"]).failed(3, &["sub: this is a folder, and what is written is a file"]);
    folder
        .run(&["index", "f.fa", "-o", "no/f.fai"])
        .failed(3, &["no/f.fai: it can't be written", "make that folder first"]);

    fs::set_permissions(folder.at("f.fa"), Permissions::from_mode(0o000)).unwrap();
    let mut command = folder.command(&["read", "f.fa", "s"]);
    // SAFETY: it only asks for a number.
    if unsafe { libc::geteuid() } == 0 {
        // whoever may read everything becomes nobody, with a command that nobody may run
        fs::copy(WAKELURI, folder.at("wakeluri")).unwrap();
        command = Command::new(folder.at("wakeluri"));
        command.args(["read", "f.fa", "s"]).current_dir(folder.path()).uid(65534).gid(65534);
    }
    match command.output() {
        Ok(output) => Answer::from(output).failed(3, &["f.fa: you may not read it"]),
        Err(error) => eprintln!("skipped: the command can't be run as nobody: {error}"),
    }
}

#[test]
fn an_index_without_its_last_lf() {
    let folder = Folder::new("no-lf");
    folder.write("f.fa", ">s\nACGT\n>t\nGG\nG\n");
    folder.write("f.fa.fai", "s\t4\t3\t4\t5\nt\t3\t11\t2\t3");
    folder.run(&["check", "f.fa"]).gave("accepted: f.fa.fai leads to every base of f.fa (2 records, 7 bases)\n");
    folder.run(&["read", "f.fa", "t:2-3"]).gave(">t:2-3\nGG\n");
    // cut in the middle of its last number it is another index, and refused
    folder.write("f.fa.fai", "s\t4\t3\t4\t5\nt\t3\t1");
    folder.run(&["read", "f.fa", "t:2-3"]).refused("refused 10 (record 2, field 4)", &["f.fa.fai, line 2 (byte 10)"]);
}

#[test]
fn a_reader_that_goes_away() {
    let folder = Folder::new("goes-away");
    let lines = "ACGTACGTACGTACGTACGTACGTACGTACGTACGTACGTACGTACGTACGTACGTACGT\n".repeat(20_000);
    folder.write("f.fa", format!(">s\n{lines}"));
    let mut child = folder.start(&["read", "f.fa", "s"]);
    let mut some = [0; 10];
    child.stdout.take().unwrap().read_exact(&mut some).unwrap();
    let answer = Answer::from(child.wait_with_output().unwrap());
    assert_eq!((answer.status, answer.err.as_str()), (Some(3), ""));
}

/// A bar for work over a second on a terminal, and none elsewhere.
#[test]
fn progress_on_a_terminal() {
    let folder = Folder::new("progress");
    folder.write("f.fa", ">s\nACGT\n");
    let slow = format!("(sleep 1.7; cat f.fa) | {WAKELURI} list -");
    let quiet = Answer::from(Command::new("sh").args(["-c", &slow]).current_dir(folder.path()).output().unwrap());
    quiet.gave("s\t4\t\n");
    let in_terminal = |line: &str| -> Option<String> {
        let output =
            Command::new("script").args(["-qec", line, "/dev/null"]).current_dir(folder.path()).output().ok()?;
        Some(String::from_utf8_lossy(&output.stdout).into_owned())
    };
    let Some(shown) = in_terminal(&slow) else {
        eprintln!("skipped: there is no `script` here, which makes a terminal");
        return;
    };
    assert!(shown.contains("reading standard input"), "{shown:?}");
    assert!(shown.ends_with("s\t4\t\r\n"), "{shown:?}");
    assert_eq!(
        in_terminal(&format!("{WAKELURI} index -o - f.fa")).unwrap(),
        "s\t4\t3\t4\t5\r\n",
        "quick work shows none"
    );
}

#[test]
fn an_index_behind_a_link_is_replaced_where_it_is() {
    let folder = Folder::new("link");
    folder.write("f.fa", ">s\nACGT\n");
    fs::create_dir(folder.at("elsewhere")).unwrap();
    folder.write("elsewhere/kept.fai", "old");
    symlink("elsewhere/kept.fai", folder.at("f.fa.fai")).unwrap();
    folder.run(&["index", "f.fa"]).gave("f.fa.fai: 1 record, 4 bases\n");
    assert!(folder.at("f.fa.fai").is_symlink());
    assert_eq!(folder.read("elsewhere/kept.fai"), b"s\t4\t3\t4\t5\n");
}

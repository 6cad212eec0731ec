//! Colour in messages: on a terminal, and where NO_COLOR isn't set.

mod common;

use common::{Folder, WAKELURI};
use std::process::Command;

#[test]
fn colour_on_a_terminal_alone() {
    let folder = Folder::new("colour");
    folder.write("f.fa", ">s\nACGT\n");
    folder.write("g.fa", ">s\nAC T\n");
    let in_terminal = |words: &str, set: &[(&str, &str)]| -> Option<String> {
        let line = format!("{WAKELURI} {words}");
        let mut command = Command::new("script");
        command
            .args(["-qec", &line, "/dev/null"])
            .current_dir(folder.path())
            .env_remove("NO_COLOR")
            .env("TERM", "xterm");
        let output = command.envs(set.iter().copied()).output().ok()?;
        Some(String::from_utf8_lossy(&output.stdout).into_owned())
    };
    let Some(shown) = in_terminal("read f.fa s:9", &[]) else {
        eprintln!("skipped: there is no `script` here, which makes a terminal");
        return;
    };
    assert!(shown.starts_with("\x1b[1m\x1b[31mwakeluri:\x1b[0m f.fa: s:9 was asked for"), "{shown:?}");
    assert!(shown.ends_with("\x1b[1mrefused 17 (length 4)\x1b[0m\r\n"), "{shown:?}");
    let usage = in_terminal("read --nonsense", &[]).unwrap();
    assert!(usage.starts_with("\x1b[1m\x1b[31merror:\x1b[0m "), "{usage:?}");
    let warned = in_terminal("read g.fa s:1-4", &[]).unwrap();
    assert!(warned.contains("\x1b[33mwakeluri: warning:\x1b[0m g.fa"), "{warned:?}");
    let shelf = in_terminal("index f.fa f.fa", &[]).unwrap();
    assert!(shelf.starts_with("\x1b[1m\x1b[32mindexed:\x1b[0m f.fa.fai"), "{shelf:?}");
    for (words, set) in [
        ("read f.fa s:9", &[("NO_COLOR", "1")][..]),
        ("read f.fa s:9", &[("TERM", "dumb")]),
        ("--json read f.fa s:9", &[]),
        ("check f.fa f.fa", &[("NO_COLOR", "1")]),
        ("read f.fa s:9 2>&1 | cat", &[]),
    ] {
        let plain = in_terminal(words, set).unwrap();
        assert!(!plain.is_empty() && !plain.contains('\x1b'), "{words}: {plain:?}");
    }
}

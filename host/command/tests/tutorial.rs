//! What README.md shows is what the command says: each command of its blocks is run in a copy of the samples. And docs/JSON.md has every
//! field, and the manual every command.

mod common;

use common::{Folder, WAKELURI};
use std::fs;
use std::path::{Path, PathBuf};
use std::process::Command;

fn top() -> PathBuf {
    Path::new(env!("CARGO_MANIFEST_DIR")).join("../..")
}

/// The commands of a page's blocks, each with what it says.
fn commands(page: &str) -> Vec<(String, String)> {
    let mut all: Vec<(String, String)> = vec![];
    let mut inside = false;
    for line in page.lines() {
        match (inside, line) {
            (false, "```console") => inside = true,
            (true, "```") => inside = false,
            (true, line) => match (line.strip_prefix("$ "), all.last_mut()) {
                (Some(command), _) => all.push((command.to_string(), String::new())),
                (None, Some((_, says))) => *says += &format!("{line}\n"),
                (None, None) => panic!("'{line}' stands before a command"),
            },
            _ => {}
        }
    }
    all
}

#[test]
fn the_tutorial_says_what_the_command_says() {
    let folder = Folder::new("tutorial");
    for sample in fs::read_dir(top().join("samples")).expect("the samples").map(Result::unwrap) {
        let name = sample.file_name().into_string().unwrap();
        if name != "README.md" && !name.ends_with(".fa.fai") || name == "stale.fa.fai" {
            fs::copy(sample.path(), folder.at(&name)).unwrap();
        }
    }
    let page = fs::read_to_string(top().join("README.md")).unwrap();
    let commands = commands(&page);
    assert!(commands.len() >= 15, "{}", commands.len());
    let path = format!("{}:/usr/bin:/bin", Path::new(WAKELURI).parent().unwrap().display());
    for (command, says) in commands {
        let run = Command::new("sh")
            .args(["-c", &format!("exec 2>&1; {command}")])
            .current_dir(folder.path())
            .env("PATH", &path)
            .env("LC_ALL", "C")
            .output()
            .unwrap();
        assert_eq!(String::from_utf8_lossy(&run.stdout), says, "$ {command}");
    }
}

#[test]
fn the_page_of_fields_has_every_field() {
    let page = fs::read_to_string(top().join("docs/JSON.md")).unwrap();
    let test = fs::read_to_string(Path::new(env!("CARGO_MANIFEST_DIR")).join("tests/json_kept.rs")).unwrap();
    let parts = test.split("const ").filter(|part| part.starts_with("NUMBERS") || part.starts_with("TEXTS"));
    let lists: String = parts.filter_map(|part| part.split("];").next()).collect();
    let keys: Vec<&str> = lists.split('"').skip(1).step_by(2).collect();
    assert!(keys.len() > 40 && keys.contains(&"worst_status"), "{keys:?}");
    for key in keys {
        let known = key.strip_suffix("_hex").unwrap_or(key);
        assert!(page.contains(&format!("`{known}`")), "{key} is not in docs/JSON.md");
    }
}

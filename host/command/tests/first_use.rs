//! The first use of tools/wakeluri, in a copy of tools/ with stand-ins for the kit, cargo and Debian's tools: it says how long it takes, shows
//! a line for each crate, keeps the log in a file, works through a link, and never runs sudo or installs anything.

mod common;

use common::{Answer, Folder};
use std::fs;
use std::os::unix::fs::{PermissionsExt, symlink};
use std::path::Path;
use std::process::Command;

/// A copy of what tools/wakeluri needs, with a library that is not there yet.
fn repository(test: &str) -> Folder {
    let folder = Folder::new(test);
    let top = Path::new(env!("CARGO_MANIFEST_DIR")).join("../..");
    for name in
        ["top/tools/dev.d", "top/crates/a", "top/host/command/src", "top/host/wakeluri/src", "stubs", "elsewhere"]
    {
        fs::create_dir_all(folder.at(name)).unwrap();
    }
    for name in ["tools/wakeluri", "tools/dev", "tools/dev.d/setup"] {
        fs::copy(top.join(name), folder.at(&format!("top/{name}"))).unwrap();
    }
    for name in ["crates.txt", "host/command/Cargo.toml", "host/wakeluri/build.rs", "host/wakeluri/Cargo.toml"] {
        folder.write(&format!("top/{name}"), "");
    }
    let library = "target/$(uname -m)-unknown-linux-gnu/libwakeluri.a";
    script(
        &folder,
        "top/tools/dev.d/staticlib",
        &format!(
            "for n in 1 2 3 4; do echo \"fn a::f$n: proved\"; done; echo 'crate a: modules loaded=0 checked=9'; echo 'logic=proved functions=4'\n\
         echo 'crate b: modules loaded=9 checked=0'; echo 'logic=proved functions=4'\n\
         echo noise >&2; cd \"$(dirname \"$0\")/../..\"; [ ! -e fails ] || exit 1; mkdir -p \"$(dirname \"{library}\")\" && : >\"{library}\""
        ),
    );
    symlink("../top/tools/wakeluri", folder.at("elsewhere/wl")).unwrap();
    for name in ["sudo", "apt-get"] {
        script(&folder, &format!("stubs/{name}"), "echo \"$0 $*\" >>\"$(dirname \"$0\")/called\"");
    }
    folder
}

fn script(folder: &Folder, name: &str, text: &str) {
    fs::set_permissions(folder.write(name, format!("#!/bin/sh\n{text}\n")), PermissionsExt::from_mode(0o755)).unwrap();
}

/// As whoever is not root, if that can be done: then there is a sudo to be run, or not.
fn run(folder: &Folder) -> Answer {
    let path = format!("{}:/usr/bin:/bin", folder.at("stubs").display());
    let mut command = Command::new("sh");
    command.args(["-c", "exec ./wl read x"]).current_dir(folder.at("elsewhere")).env("PATH", path);
    command.env_remove("WAKELURI_LIB").env_remove("CRATES_IO").output().unwrap().into()
}

#[test]
fn what_is_missing_is_said_and_nothing_is_installed() {
    let folder = repository("first-use-missing");
    run(&folder).failed(3, &["the Rattle kit is needed", "rt has to be found on PATH"]);
    script(&folder, "stubs/rt", "exit 9");
    script(&folder, "stubs/cargo", "exit 9");
    script(&folder, "stubs/dpkg-query", "echo not-installed");
    script(&folder, "stubs/id", "echo 1000");
    run(&folder).failed(
        3,
        &["these packages of Debian are missing:", "install them with: sudo apt-get install", "librust-clap-dev"],
    );
    // as root too
    script(&folder, "stubs/id", "echo 0");
    run(&folder).failed(3, &["install them with: apt-get install"]);
    // the verb that installs asks for --sudo, where one is not root
    script(&folder, "stubs/id", "echo 1000");
    let setup = |words: &[&str]| -> Answer {
        let path = format!("{}:/usr/bin:/bin", folder.at("stubs").display());
        let mut command = Command::new(folder.at("top/tools/dev"));
        command
            .arg("setup")
            .args(words)
            .arg("command")
            .env("PATH", path)
            .env_remove("CRATES_IO")
            .output()
            .unwrap()
            .into()
    };
    setup(&[]).failed(1, &["install them with: sudo apt-get install"]);
    assert!(!folder.at("stubs/called").exists());
    setup(&["--sudo"]);
    assert!(String::from_utf8(folder.read("stubs/called")).unwrap().contains("/sudo apt-get"));
}

#[test]
fn a_line_for_each_crate_and_a_log() {
    let folder = repository("first-use-log");
    script(&folder, "stubs/rt", "exit 9");
    script(&folder, "stubs/dpkg-query", "echo installed");
    script(
        &folder,
        "stubs/cargo",
        "mkdir -p target/release; printf '#!/bin/sh\\necho ran \"$@\"\\n' >target/release/wakeluri; chmod +x target/release/wakeluri",
    );
    let told = run(&folder);
    assert_eq!((told.status, told.out.as_str()), (Some(0), "ran read x\n"), "{told:?}");
    let lines: Vec<&str> = told.err.lines().collect();
    assert_eq!(lines.len(), 5, "{told:?}");
    assert!(lines[0].contains("this takes some seven minutes, once"), "{told:?}");
    assert!(lines[1].contains("the whole log is in") && lines[1].ends_with("/top/target/first-use.log"), "{told:?}");
    assert_eq!(lines[2..4], ["  a proved", "  b proved (as before)"]);
    let log = String::from_utf8(folder.read("top/target/first-use.log")).unwrap();
    assert!(log.contains("fn a::f4: proved") && log.contains("noise"), "{log}");
    // once
    run(&folder).gave("ran read x\n");
    // a crate that changed and can't be proved
    let later = std::time::SystemTime::now() + std::time::Duration::from_secs(5);
    fs::File::create(folder.at("top/crates/a/x.rt")).unwrap().set_modified(later).unwrap();
    folder.write("top/fails", "");
    run(&folder).failed(3, &["could not be proved or compiled; the end of the log:", "noise"]);
    assert!(!folder.at("stubs/called").exists());
}

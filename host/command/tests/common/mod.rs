//! What the tests share: a folder for each, and the real command.

#![allow(dead_code)]

pub mod json;

use std::fs;
use std::io::Write;
use std::path::{Path, PathBuf};
use std::process::{Child, Command, Output, Stdio};

/// The command that is tested.
pub const WAKELURI: &str = env!("CARGO_BIN_EXE_wakeluri");

/// A folder of a test's own, which goes with it.
pub struct Folder(PathBuf);

impl Folder {
    pub fn new(test: &str) -> Self {
        let folder = std::env::temp_dir().join(format!("wakeluri-{test}-{}", std::process::id()));
        let _ = fs::remove_dir_all(&folder);
        fs::create_dir_all(&folder).expect("a folder for the test");
        Self(folder)
    }

    pub fn path(&self) -> &Path {
        &self.0
    }

    pub fn at(&self, name: &str) -> PathBuf {
        self.0.join(name)
    }

    pub fn write(&self, name: &str, bytes: impl AsRef<[u8]>) -> PathBuf {
        fs::write(self.at(name), bytes).expect("a file of the test");
        self.at(name)
    }

    pub fn read(&self, name: &str) -> Vec<u8> {
        fs::read(self.at(name)).expect("a file that should be there")
    }

    /// The names of all that is in it.
    pub fn names(&self) -> Vec<String> {
        let mut names: Vec<String> =
            fs::read_dir(&self.0).unwrap().map(|item| item.unwrap().file_name().into_string().unwrap()).collect();
        names.sort();
        names
    }

    pub fn command(&self, words: &[&str]) -> Command {
        let mut command = Command::new(WAKELURI);
        command.args(words).current_dir(&self.0).stdin(Stdio::null()).stdout(Stdio::piped()).stderr(Stdio::piped());
        command
    }

    pub fn run(&self, words: &[&str]) -> Answer {
        self.command(words).output().expect("the command runs").into()
    }

    pub fn start(&self, words: &[&str]) -> Child {
        self.command(words).spawn().expect("the command runs")
    }

    /// Hands bytes to standard input, so many at a time.
    pub fn piped(&self, words: &[&str], input: &[u8], piece: usize) -> Answer {
        let mut child = self.command(words).stdin(Stdio::piped()).spawn().expect("the command runs");
        let mut pipe = child.stdin.take().unwrap();
        for piece in input.chunks(piece.max(1)) {
            if pipe.write_all(piece).and_then(|()| pipe.flush()).is_err() {
                break;
            }
        }
        drop(pipe);
        child.wait_with_output().expect("the command ends").into()
    }
}

impl Drop for Folder {
    fn drop(&mut self) {
        let _ = fs::remove_dir_all(&self.0);
    }
}

/// How the command ended, and what it said.
#[derive(Debug, Eq, PartialEq)]
pub struct Answer {
    pub status: Option<i32>,
    pub out: String,
    pub err: String,
}

impl From<Output> for Answer {
    fn from(output: Output) -> Self {
        let text = |bytes| String::from_utf8_lossy(bytes).into_owned();
        Self { status: output.status.code(), out: text(&output.stdout), err: text(&output.stderr) }
    }
}

impl Answer {
    /// It answered this, and said nothing else.
    #[track_caller]
    pub fn gave(&self, out: &str) {
        assert_eq!((self.status, self.out.as_str(), self.err.as_str()), (Some(0), out, ""));
    }

    /// It refused with this code on the last line and these words before it, and answered nothing.
    #[track_caller]
    pub fn refused(&self, code: &str, words: &[&str]) {
        assert_eq!((self.status, self.out.as_str()), (Some(1), ""), "{self:?}");
        assert_eq!(self.err.lines().last(), Some(code), "{self:?}");
        for words in words {
            assert!(self.err.contains(words), "no '{words}' in {}", self.err);
        }
    }

    /// It ended with this status and these words, and answered nothing.
    #[track_caller]
    pub fn failed(&self, status: i32, words: &[&str]) {
        assert_eq!((self.status, self.out.as_str()), (Some(status), ""), "{self:?}");
        for words in words {
            assert!(self.err.contains(words), "no '{words}' in {}", self.err);
        }
    }
}

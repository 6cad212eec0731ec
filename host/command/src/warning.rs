//! What is said on standard error beside an answer; and whether all that is said is JSON.

use crate::colour;
use crate::json::Object;
use crate::place::seen;
use std::cell::RefCell;
use std::io::Write;
use std::sync::atomic::{AtomicBool, Ordering};

/// Whether everything is said in JSON. It is known before the words of the command are understood, so that what is wrong with them is
/// said so too.
static JSON: AtomicBool = AtomicBool::new(false);

/// Whether only what keeps the command from answering is said.
static QUIET: AtomicBool = AtomicBool::new(false);

/// From now on warnings and summaries are left out, or none is.
pub fn be_quiet(quiet: bool) {
    QUIET.store(quiet, Ordering::Relaxed);
}

/// Whether warnings and summaries are left out.
pub fn is_quiet() -> bool {
    QUIET.load(Ordering::Relaxed)
}

/// From now on everything is said in JSON, or nothing is.
pub fn say_in_json(json: bool) {
    JSON.store(json, Ordering::Relaxed);
}

thread_local! {
    /// What would be said, where it is gathered.
    static GATHERED: RefCell<Option<String>> = const { RefCell::new(None) };
}

/// Does something, and gathers what is said beside its answer by this thread.
pub fn gathered<T>(work: impl FnOnce() -> T) -> (T, String) {
    GATHERED.set(Some(String::new()));
    let answer = work();
    (answer, GATHERED.take().unwrap_or_default())
}

/// Whether this thread gathers what is said.
pub fn is_gathered() -> bool {
    GATHERED.with_borrow(Option::is_some)
}

/// Whether everything is said in JSON.
pub fn in_json() -> bool {
    JSON.load(Ordering::Relaxed)
}

/// A warning: the answer stands, and somebody may want to know this.
#[derive(Debug)]
pub struct Warning<'w> {
    /// The file that it is about.
    pub file: &'w str,
    /// What is to be known, with the file's name.
    pub words: String,
    /// What to do next, if there is something to do.
    pub next: String,
    /// The line of the file and the place in it, both counted from 1.
    pub place: Option<(u64, u64)>,
}

impl<'w> Warning<'w> {
    /// Of some words.
    pub fn new(file: &'w str, words: String) -> Self {
        Self { file, words, next: String::new(), place: None }
    }

    /// What stands on standard error.
    fn told(&self, json: bool) -> String {
        if !json {
            let next: String = self.next.lines().map(|line| format!("  {line}\n")).collect();
            return seen(&format!("wakeluri: warning: {}\n{next}", self.words));
        }
        let mut object = Object::new();
        object.text("warning", &self.words).text("file", self.file);
        if let Some((line, column)) = self.place {
            object.number("line", line).number("column", column);
        }
        if !self.next.is_empty() {
            object.text("next", &self.next);
        }
        object.line()
    }

    /// Says it.
    pub fn say(&self) {
        if is_quiet() {
            return;
        }
        let told = self.told(in_json());
        let told = if in_json() { told } else { colour::of_messages(told) };
        let rest = GATHERED.with_borrow_mut(|gathered| match gathered {
            Some(gathered) => {
                gathered.push_str(&told);
                None
            }
            None => Some(told),
        });
        if let Some(told) = rest {
            let _ = std::io::stderr().write_all(told.as_bytes());
        }
    }
}

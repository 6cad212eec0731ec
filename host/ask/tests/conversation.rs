//! The library answers the examples as they stand, and as the model does.

use ask::Library;
use questions::family::examples;
use questions::form::answered;
use questions::generate::Questions;

const LIBRARY: Library = Library { program: None };

/// Questions that the library has no answer to, or that are none.
const SKIPPED: &str = "\
prg x3e730a41 => skip
fed t x => skip
exn x3e730a4143 x73 t0,1,2,3,2,2 1 x73 2 - x2e2e => skip
ran x3e730a4143 x73 t0,1,2,3,2,2 1 x74 2 - x2e2e => skip
def y => skip
def x0 => skip
def x41 x41 => skip";

#[test]
fn the_examples() {
    // without its program, the library has no answer for one family
    let asked = examples().filter(|line| !line.starts_with("prg "));
    for line in asked.chain(SKIPPED.lines()) {
        assert_eq!(answered(&LIBRARY, line).as_deref(), Some(line));
    }
}

#[test]
fn lines_that_ask_nothing() {
    assert_eq!(answered(&LIBRARY, ""), None);
    assert_eq!(answered(&LIBRARY, "# a remark"), None);
}

#[test]
fn the_model_says_the_same() {
    let asked = Questions::new(42).filter(|question| !question.starts_with("prg "));
    for question in asked.take(200_000) {
        let told = answered(&LIBRARY, &question);
        assert_eq!(told, answered(&model::Model, &question));
        assert!(told.is_some_and(|told| !told.ends_with(" => skip")), "{question}");
    }
}

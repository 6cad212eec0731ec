//! The comparison lets through what is listed, and nothing that only looks like it.

use questions::rules::{Kind, Rules};

fn original(question: &str, theirs: &str, ours: &str) -> Kind {
    Rules::Original.judge(question, theirs, ours)
}

#[test]
fn equal_answers() {
    assert_eq!(original("idx x t", "ok 0 t", "ok 0 t"), Kind::Same);
    assert_eq!(original("idx x t", "ok 0 t", "ok 1 t"), Kind::Different);
    assert_eq!(Rules::Exact.judge("idx x t", "ok 0 t", "ok 0 t"), Kind::Same);
    assert_eq!(Rules::Exact.judge("idx x t", "ok 0 t", "no 8 0 0 0 t"), Kind::Different);
}

#[test]
fn an_added_refusal_stands_only_where_the_original_has_no_answer() {
    assert_eq!(original("rar x t 0 0 0 - x", "skip", "no 16 0 0 0 x"), Kind::Added);
    assert_eq!(original("rar x t 0 0 1 - x", "ok 0 x", "no 16 0 0 0 x"), Kind::Different);
    assert_eq!(original("ixt xff t", "skip", "no 10 1 2 0 t"), Kind::Skipped);
}

/// The complete indexer is no call of the original: nothing can differ.
#[test]
fn a_family_that_the_original_lacks() {
    assert_eq!(original("fit x t", "skip", "ok 0 t"), Kind::Skipped);
    assert_eq!(original("fit x3e73 t", "skip", "no 8 0 0 0 t"), Kind::Added);
    assert_eq!(original("fit x3e730a410a4141 t", "skip", "no 42 6 3 0 t"), Kind::Added);
    assert_eq!(original("fit x3e t", "skip", "no 4 0 0 0 t"), Kind::Skipped);
    assert_eq!(Rules::Exact.judge("fit x3e73 t", "no 8 0 0 0 t", "skip"), Kind::Different);
}

#[test]
fn numbers_that_the_original_does_not_tell() {
    assert_eq!(original("ixc x7309", "no 11 1 ?", "no 11 1 2"), Kind::SameAsToldOf);
    assert_eq!(original("ixc x7309", "no 11 1 ?", "no 12 1 2"), Kind::Different);
}

#[test]
fn memory_after_a_refusal() {
    let question = "idx x3e730a t1,2,3,4,5,6";
    assert_eq!(original(question, "no 5 3 0 0 t1,2,3,4,5,6", "no 5 3 0 0 t1,2,3,4,5,6"), Kind::Same);
    assert_eq!(original(question, "no 5 3 0 0 t1,2,3,4,5,6", "no 5 3 0 1 t1,2,3,4,5,6"), Kind::Different);
    assert_eq!(original(question, "no 5 3 0 0 t1,2,3,4,5,6", "no 5 3 0 0 t1,2,3,4,5,7"), Kind::Different);
}

#[test]
fn a_plus_is_no_difference() {
    // `s`, tab, `+4`, and so on
    let question = "ixc x73092b34093309340935";
    assert_eq!(original(question, "ok t0,1,4,3,4,5", "ok t0,1,4,3,4,5"), Kind::Same);
    assert_eq!(original(question, "ok t0,1,4,3,4,5", "no 11 1 2"), Kind::Different);
}

#[test]
fn the_program_at_its_limit_of_rows() {
    let told = |text: &str| {
        let mut line = String::new();
        questions::form::tell_bytes(&mut line, text.as_bytes());
        line
    };
    let question = "prg x3e";
    let rows = "s\t1\t3\t1\t2\n".repeat(1_024);
    let (theirs, ours) = (told(&rows.repeat(2)), told(&format!("{rows}refused 8 1024 0\n")));
    assert_eq!(original(question, &theirs, &ours), Kind::ProgramLimit);
    assert_eq!(original(question, &told(&rows), &ours), Kind::Different);
    assert_eq!(original(question, &theirs, &told("refused 8 1024 0\n")), Kind::Different);
    assert_eq!(original(question, &theirs, "skip"), Kind::NotAsked);
}

#[test]
fn an_absent_end() {
    let question = "rar x41 t0,0,4,0,9223372036854775807,1 1 0 18446744073709551615 - x2e2e2e2e";
    assert_eq!(original(question, "ok 1 x412e2e2e", "ok 4 x41434754"), Kind::NoLimit);
    assert_eq!(original(question, "ok 1 x412e2e2e", "ok 4 x43434754"), Kind::Different);
    assert_eq!(
        original(&question.replace(" - ", " 18446744073709551615 "), "ok 1 x412e", "ok 2 x4143"),
        Kind::Different
    );
}

#[test]
fn silence_is_a_difference() {
    assert_eq!(original("idx x t", "ok 0 t", "skip"), Kind::Different);
    assert_eq!(Rules::Exact.judge("chk x x", "ok", "skip"), Kind::Different);
}

//! The model's own examples, and that the questions reach every family and every refusal.

use model::Model;
use questions::family::{examples, families};
use questions::form::{Speaker, Value, answered};
use questions::generate::Questions;
use std::collections::BTreeSet;

#[test]
fn a_seed_gives_the_same_questions() {
    let some = |seed| Questions::new(seed).take(5_000).collect::<Vec<_>>();
    assert_eq!(some(7), some(7));
    assert_ne!(some(7), some(8));
}

/// Each family, and of each its answers and its refusals but for the one of size.
#[test]
fn every_refusal_of_every_family_is_reached() {
    let mut reached = BTreeSet::new();
    for question in Questions::new(1).take(400_000) {
        let line = answered(&Model, &question).expect("a question");
        let (question, answer) = line.split_once(" => ").expect("an answer");
        let family = question.split(' ').next().expect("a family").to_string();
        // each step of a file that is fed tells its refusal
        for step in answer.split(' ').filter(|word| word.contains(':')) {
            let number = step.split(':').next().expect("a number").parse().expect("a number");
            reached.insert((family.clone(), number));
        }
        let mut words = answer.split(' ');
        let number = match words.next() {
            Some("no") => words.next().expect("a number").parse().expect("a number"),
            Some("skip") | None => panic!("{question}: the model has no answer"),
            // some families tell their answer without an `ok`; the program tells refusals in its output
            Some(_) => 0,
        };
        reached.insert((family, number));
    }
    for family in families() {
        let found: Vec<u64> = reached.iter().filter(|(name, _)| name == family.name).map(|(_, n)| *n).collect();
        let expected = [&[0], family.refuses].concat();
        assert_eq!(found, expected, "{}", family.name);
    }
}

#[test]
fn the_examples() {
    for line in examples() {
        assert_eq!(answered(&Model, line).as_deref(), Some(line));
    }
    let asked: BTreeSet<_> = examples().filter_map(|line| line.split(' ').next()).collect();
    assert!(families().all(|family| asked.contains(family.name)), "a family without an example");
}

/// M1 to M8 through the program, which indexes.
#[test]
fn the_marked_examples() {
    let program = |input: &[u8]| {
        let answer = Model.answer("prg", &mut [Value::Bytes(input.to_vec())]).expect("a model of the program");
        let [Value::Bytes(output)] = &answer.told[..] else { panic!("{answer:?}") };
        String::from_utf8(output.clone()).expect("text")
    };
    assert_eq!(program(b">sq0\nACGT\n>sq1\nNNNN\nNNNN\nNN\n"), "sq0\t4\t5\t4\t5\nsq1\t10\t15\t4\t5\n");
    assert_eq!(program(b">s\nACGT\n\n"), "s\t4\t3\t4\t5\n");
    assert_eq!(program(b">s\nACGT\n\n\n"), "refused 6 0 4\n");
    assert_eq!(program(b">s\nACGT\nACGT\r\n"), "refused 7 6 5\n");
    assert_eq!(program(b">s\n\nACGT\n"), "refused 5 4 0\n");
    assert_eq!(program(b">s\nACGT\r\nACGTA"), "refused 6 5 4\n");
    assert_eq!(program(b">s"), "refused 5 2 0\n");
    assert_eq!(program(b">s\nACGT\r"), "s\t4\t3\t4\t5\n");
}

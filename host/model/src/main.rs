//! Answers questions, one to a line of standard input, by the model.

use std::io;

fn main() -> io::Result<()> {
    questions::form::converse(&model::Model, io::stdin().lock(), io::stdout().lock())
}

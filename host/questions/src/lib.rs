//! Questions to a FASTA index library and their answers, one to a line of text.
//!
//! [`family`] says what a family of questions is and has all of them, which stand in `families`, a file to each group; [`form`]
//! reads a question and tells its answer as any [`form::Speaker`] gives it; [`generate`] makes questions without end; [`rules`] says
//! whether two speakers said the same; [`row`] says how many numbers a row has. The programs `questions`, `compare` and
//! `replay-list` stand on these.

mod families;
pub mod family;
pub mod form;
pub mod generate;
pub mod row;
pub mod rules;

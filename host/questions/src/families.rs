//! The groups of families, a file to each.

mod bases;
mod checker;
mod course;
mod fastq;
mod files;
mod index;
mod lines;
mod reads;
mod written;

use crate::family::Group;

/// Every group. Their order and that inside of them is a part of what a seed gives.
pub(crate) const GROUPS: &[Group] = &[
    lines::GROUP,
    files::GROUP,
    index::GROUP,
    reads::GROUP,
    bases::GROUP,
    written::GROUP,
    course::GROUP,
    fastq::GROUP,
    checker::GROUP,
];

//! The three programs of a trace and the second ones, compared over whole inputs.
//!
//! `program` runs one and compares, `cases` are those of the readings, `by_hand` what
//! they print, the others bring the inputs: `files` broken ones, `sheet` lines. What is
//! drawn by chance is drawn as in tests/compare.

#[path = "../compare/blocks.rs"]
mod blocks;
// It draws ids too, and no trace has one.
#[allow(dead_code)]
#[path = "../compare/chance.rs"]
mod chance;
#[path = "../compare/notation.rs"]
mod notation;
#[path = "../compare/report.rs"]
mod report;
#[path = "../compare/trace/notation.rs"]
mod trace_notation;

mod bad_lines;
mod broken;
mod by_hand;
mod cases;
mod count;
mod each_octet;
mod failing;
mod files;
mod laws;
mod live;
mod long;
mod pieces;
mod program;
mod sheet;
mod sizes;
mod typed;

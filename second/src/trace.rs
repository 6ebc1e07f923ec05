//! A trace file: blocks of 512 octets, each with its records, use count and sum.
//!
//! `record` and `block` are the layout, `calls` the two calls from C, `file` writes and
//! reads whole files, `salvage` mends one, `lines` are records as lines, `programs` the
//! three programs, from a whole input to all that is printed.

pub mod block;
pub mod calls;
pub mod file;
pub mod lines;
pub mod programs;
pub mod record;
pub mod salvage;

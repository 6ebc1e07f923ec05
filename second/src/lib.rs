//! A second program for the rules of 01, with the requests of 02 that have landed,
//! written from the papers alone.
//!
//! A whole message is parsed into owned values; a call returns an owned outcome
//! and changes nothing that it was lent. `ffi` calls the proved archives.

pub mod alphabet;
pub mod batch;
pub mod bench;
pub mod call;
pub mod cells;
pub mod component;
pub mod element;
pub mod errors;
pub mod ffi;
pub mod message;
pub mod operation;
pub mod parameter;
pub mod part;
pub mod receive;
pub mod septets;
pub mod step6;
pub mod table;
pub mod trace;
pub mod view;
pub mod write;

pub use batch::{batch, Batched};
pub use call::{begin, error, invoke, release, result, Called};
pub use receive::{receive, Received};

//! The proved bench and the second one, compared over whole inputs.
//!
//! `proved` runs the program and compares, `worked` has answers made by hand, the
//! others bring the inputs. What is drawn by chance is drawn as in tests/compare.

#[path = "../compare/call.rs"]
mod call;
#[path = "../compare/carried.rs"]
mod carried;
#[path = "../compare/cells/notation.rs"]
mod cells_notation;
#[path = "../compare/chance.rs"]
mod chance;
#[path = "../compare/codes.rs"]
mod codes;
#[path = "../compare/components.rs"]
mod components;
#[path = "../compare/damage.rs"]
mod damage;
#[path = "../compare/errors.rs"]
mod errors;
#[path = "../compare/growing.rs"]
mod growing;
#[path = "../compare/messages.rs"]
mod messages;
#[path = "../compare/met.rs"]
mod met;
#[path = "../compare/notation.rs"]
mod notation;
#[path = "../compare/parameters.rs"]
mod parameters;
#[path = "../compare/passwords.rs"]
mod passwords;
#[path = "../compare/rare.rs"]
mod rare;
#[path = "../compare/records.rs"]
mod records;
#[path = "../compare/report.rs"]
mod report;
#[path = "../compare/tables.rs"]
mod tables;
#[path = "../compare/texts.rs"]
mod texts;
#[path = "../compare/waiting.rs"]
mod waiting;
#[path = "../compare/wishes.rs"]
mod wishes;

mod batch;
mod cells;
mod conversations;
mod each_code;
mod grammar;
mod occurrences;
mod proved;
mod reading;
mod samples;
mod sizes;
mod talk;
mod worked;
mod writing;

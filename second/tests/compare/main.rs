//! The proved archives and the second program, compared call by call.
//!
//! Each module is one idea: `both` runs a call on the two and compares them, `batch` a
//! batch, `cells` does so for text on forty cells, `trace` for the blocks of a trace, the
//! others bring the calls.

mod batch;
mod blocks;
mod both;
mod call;
mod calls;
mod carried;
mod cases;
mod cells;
mod chance;
mod changes;
mod codes;
mod components;
mod damage;
mod each_code;
mod each_digit;
mod each_place;
mod errors;
mod extent;
mod growing;
mod histories;
mod images;
mod later;
mod lent;
mod messages;
mod met;
mod notation;
mod parameters;
mod passwords;
mod rare;
mod records;
mod report;
mod short;
mod small;
mod tables;
mod talks;
mod tally;
mod texts;
mod trace;
mod waiting;
mod wishes;

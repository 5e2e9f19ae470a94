//! States that no trace reaches: a record and two maps with any numbers in them, and the calls on such a state.
//! Here everything that 01 names is stored, windows and counts as well, and a call goes by them, right or wrong.

pub mod cases;
mod machine;
mod record;
mod shape;

//! A second reading of the store, pattern, plan and listing rules, worlds to try them on, and the
//! library's own calls to compare with.

pub mod boundary;
pub mod reading;
pub mod worlds;

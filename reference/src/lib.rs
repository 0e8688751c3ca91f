//! A second, unproved implementation of the NPS-F listing program.
//!
//! It exists to be compared byte for byte with the proved one, so it is kept
//! plain: every value is computed from its formula, and nothing is shared with
//! the crates of this repository.

pub mod cases;
pub mod file;
pub mod framing;
pub mod layout;
pub mod listing;
pub mod plan;
pub mod runner;

//! A replayer in plain Rust, with nothing proved: the same plan text in and the same outcome text out as
//! `partial replay`, for lawful plans (docs/reference/plans-and-outcomes.md). What is no plan is refused without its line and cause.
//! The steps are those of docs/reference/words-and-steps.md. An outcome keeps what that of the proved program keeps,
//! the trace of all steps and the words too, so that their times can be compared.

mod embedded;
mod get_set;
pub mod large;
pub mod memory;
mod number;
pub mod outcome;
mod places;
pub mod plan;
pub mod port;
pub mod replay;
#[cfg(test)]
mod tests;

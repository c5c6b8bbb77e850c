//! A plain model of the adaptive loop filter of H.266, clause 8.8.5.
//!
//! It serves to test a faster implementation. Each sample is worked out alone:
//! its clip positions, the padded position of each neighbour and the sum are found
//! afresh, in the order in which the clause tells it. The scope paper, cited as "01",
//! decides wherever it speaks, and the change requests, cited as "02", add to it;
//! equation and table numbers are those of H.266.
//!
//! Every operation first judges what it is given. It returns the number of the
//! lowest cause of 01's table, with what 02 adds to it, that applies (of a bank file, that
//! applies to its first faulty field) and then leaves its output alone, or it returns 0
//! and fills its output.

mod bank_file;
mod causes;
mod classes;
mod cross_coefficients;
mod edges;
mod filters;
mod judge;
mod layout;
mod region;
mod taps;

#[cfg(test)]
mod tests;

pub use bank_file::{bank_read, bank_write};
pub use causes::clip_causes;
pub use classes::{class_of_sums, classes, Sums};
pub use cross_coefficients::offending_cross_filters;
pub use filters::{chroma, cross_component, luma};
pub use layout::{FixedTables, Layout, Parameters};
pub use region::isolated;

//! Holds the proved library against the independent model: random pictures, damaged input, memory that ends at an inaccessible page.
pub mod bank_files;
pub mod coverage;
pub mod cross_filters;
pub mod damage;
pub mod field_damage;
pub mod guarded;
pub mod input;
pub mod layout;
pub mod picture;
pub mod position;
pub mod random;
pub mod region;
pub mod run;
pub mod seeds;

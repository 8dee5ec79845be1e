//! Stands in for zakuro-common's lib.rs.

pub mod bits;

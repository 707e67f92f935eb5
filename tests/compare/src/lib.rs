//! Compares the proved library with the oracle, case by case, in every answer, entry and byte.

pub mod alone;
pub mod cases;
pub mod edges;
pub mod judge;
pub mod lend;
pub mod random;
pub mod run;
pub mod service;
pub mod subject;

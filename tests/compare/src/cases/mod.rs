//! The cases of each service: lawful and damaged inputs, short and long.

pub mod chain;
pub mod damage;
pub mod deep;
pub mod docinfo;
pub mod faults;
pub mod fills;
pub mod nests;
pub mod packing;
pub mod paragraphs;
pub mod records;
pub mod sections;
pub mod strays;
pub mod trees;

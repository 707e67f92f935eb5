//! The rules of document 01, with what document 02 has widened and the places that it has moved, in plain Rust, apart
//! from the proved library: the tests compare the two.

pub mod answer;
pub mod docinfo;
pub mod fields;
pub mod lister;
pub mod records;
pub mod section;
pub mod text;

pub use answer::{answer, Refusal};
pub use docinfo::read_docinfo;
pub use fields::{field_text, fill};
pub use lister::list;
pub use records::{pack, read, read_into, Row, LIMIT, LISTS};
pub use section::{check, read_section};

//! The lister: what it prints for the bytes of its input.

use crate::answer::{demand, Refusal};
use crate::section::{lawful, Section};
use std::fmt::Write;

/// The most bytes that the lister reads.
pub const INPUT: usize = 65_536;

/// The section that is listed: 1 is given for more bytes than are read, else what check gives.
pub fn judged(input: &[u8]) -> Result<Section<'_>, Refusal> {
    demand(input.len() <= INPUT, 1, 0)?;
    lawful(input)
}

/// What is printed of a section, or of its refusal.
pub fn listing(judged: &Result<Section, Refusal>) -> String {
    match judged {
        Err(refusal) => format!("refused {} at {}\n", refusal.number, refusal.place),
        Ok(section) => {
            let mut lines = String::new();
            for row in &section.rows {
                let header = row.header();
                let _ = writeln!(lines, "{header} {} {} {}", row.tag, row.level, row.length);
            }
            let _ = writeln!(lines, "ok {}", section.rows.len());
            lines
        }
    }
}

pub fn list(input: &[u8]) -> String {
    listing(&judged(input))
}

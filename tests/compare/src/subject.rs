//! The subject under comparison: the services as the library exports them.

use crate::lend::{Given, Room};
use oracle::answer::{answer, answer_of, answer_of_part};
use oracle::{check, field_text, fill, list, pack, read, read_docinfo, read_section};
use oracle::{Refusal, Row, LISTS};

/// The three reads.
#[derive(Clone, Copy, Debug, PartialEq, Eq)]
pub enum Kind {
    Records,
    Section,
    DocInfo,
}

/// The lists that read writes: tags, levels, places, lengths, parents.
pub type Lists = [Room<u32>; LISTS];

/// The same lists where pack reads them.
pub type Table = [Given<u32>; LISTS];

/// Every call answers with the host's number. Pointers are of lent memory, as at the C face.
pub trait Subject {
    fn read(&self, kind: Kind, stream: Given<u8>, lists: Lists) -> u64;
    fn pack(&self, count: u64, lists: Table, bytes: Given<u8>, out: Room<u8>) -> u64;
    fn check(&self, section: Given<u8>) -> u64;
    fn field_text(&self, section: Given<u8>, id: u32) -> u64;
    fn fill(&self, section: Given<u8>, id: u32, value: Given<u8>, sheet: Room<u8>) -> u64;

    /// The program lister: what it prints of its input, where each read and write moves at most so many bytes.
    fn list(&self, input: &[u8], most: usize) -> Vec<u8>;
}

/// The rows of one of the three reads.
pub fn rows_of(kind: Kind, stream: &[u8], room: usize) -> Result<Vec<Row>, Refusal> {
    match kind {
        Kind::Records => read(stream, room),
        Kind::Section => read_section(stream, room),
        Kind::DocInfo => read_docinfo(stream, room),
    }
}

/// Writes rows into the first entries of the lists.
pub fn write_rows(rows: &[Row], mut lists: [&mut [u32]; LISTS]) {
    for (index, row) in rows.iter().enumerate() {
        for (list, entry) in lists.iter_mut().zip(row.entries()) {
            list[index] = entry;
        }
    }
}

pub fn answer_of_rows(result: &Result<Vec<Row>, Refusal>) -> u64 {
    match result {
        Ok(rows) => answer(0, rows.len(), 0),
        Err(refusal) => answer(refusal.number, refusal.place, 0),
    }
}

/// The oracle itself as a subject: the comparator's own tests start from it.
pub struct Oracle;

impl Subject for Oracle {
    fn read(&self, kind: Kind, stream: Given<u8>, lists: Lists) -> u64 {
        // SAFETY: the caller lends the memory for the length of the call.
        let (stream, lists) = unsafe { (stream.slice(), lists.map(|list| list.slice())) };
        let room = lists.iter().map(|list| list.len()).min().unwrap_or(0);
        let result = rows_of(kind, stream, room);
        if let Ok(rows) = &result {
            write_rows(rows, lists);
        }
        answer_of_rows(&result)
    }

    fn pack(&self, count: u64, lists: Table, bytes: Given<u8>, out: Room<u8>) -> u64 {
        // SAFETY: as above.
        unsafe {
            let lists = lists.map(|list| list.slice());
            answer_of(pack(count, lists, bytes.slice(), out.slice()))
        }
    }

    fn check(&self, section: Given<u8>) -> u64 {
        // SAFETY: as above.
        answer_of(check(unsafe { section.slice() }))
    }

    fn field_text(&self, section: Given<u8>, id: u32) -> u64 {
        // SAFETY: as above.
        answer_of_part(field_text(unsafe { section.slice() }, id))
    }

    fn fill(&self, section: Given<u8>, id: u32, value: Given<u8>, sheet: Room<u8>) -> u64 {
        // SAFETY: as above.
        unsafe { answer_of(fill(section.slice(), id, value.slice(), sheet.slice())) }
    }

    fn list(&self, input: &[u8], _: usize) -> Vec<u8> {
        list(input).into_bytes()
    }
}

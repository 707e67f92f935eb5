//! The proved library as a subject: the functions that its archives export.

// It stands beside this file also where another program has this file by its path.
#[path = "lister.rs"]
mod lister;

use compare::lend::{Given, Room};
use compare::subject::{Kind, Lists, Subject, Table};

/// The C face of the three reads.
type Read = unsafe extern "C" fn(
    stream: *const u8,
    stream_length: usize,
    tags: *mut u32,
    tags_length: usize,
    levels: *mut u32,
    levels_length: usize,
    places: *mut u32,
    places_length: usize,
    lengths: *mut u32,
    lengths_length: usize,
    parents: *mut u32,
    parents_length: usize,
) -> u64;

/// Says that the library has reads with these names.
macro_rules! reads {
    ($($name:ident)*) => {
        extern "C" {
            $(fn $name(
                stream: *const u8,
                stream_length: usize,
                tags: *mut u32,
                tags_length: usize,
                levels: *mut u32,
                levels_length: usize,
                places: *mut u32,
                places_length: usize,
                lengths: *mut u32,
                lengths_length: usize,
                parents: *mut u32,
                parents_length: usize,
            ) -> u64;)*
        }
    };
}

reads!(hwp_read hwp_read_section hwp_read_docinfo);

extern "C" {
    fn hwp_pack(
        count: usize,
        tags: *const u32,
        tags_length: usize,
        levels: *const u32,
        levels_length: usize,
        places: *const u32,
        places_length: usize,
        lengths: *const u32,
        lengths_length: usize,
        parents: *const u32,
        parents_length: usize,
        bytes: *const u8,
        bytes_length: usize,
        out: *mut u8,
        out_length: usize,
    ) -> u64;
    fn hwp_check(section: *const u8, length: usize) -> u64;
    fn hwp_field_text(section: *const u8, length: usize, id: u32) -> u64;
    fn hwp_fill(
        section: *const u8,
        length: usize,
        id: u32,
        value: *const u8,
        value_length: usize,
        sheet: *mut u8,
        sheet_length: usize,
    ) -> u64;
}

pub struct Native;

fn read_of(kind: Kind) -> Read {
    match kind {
        Kind::Records => hwp_read,
        Kind::Section => hwp_read_section,
        Kind::DocInfo => hwp_read_docinfo,
    }
}

impl Subject for Native {
    fn read(&self, kind: Kind, stream: Given<u8>, lists: Lists) -> u64 {
        let [tags, levels, places, lengths, parents] = lists;
        // SAFETY: the memory is lent for the length of the call.
        unsafe {
            read_of(kind)(
                stream.pointer,
                stream.length,
                tags.pointer,
                tags.length,
                levels.pointer,
                levels.length,
                places.pointer,
                places.length,
                lengths.pointer,
                lengths.length,
                parents.pointer,
                parents.length,
            )
        }
    }

    fn pack(&self, count: u64, lists: Table, bytes: Given<u8>, out: Room<u8>) -> u64 {
        let [tags, levels, places, lengths, parents] = lists;
        // SAFETY: as above.
        unsafe {
            hwp_pack(
                count as usize,
                tags.pointer,
                tags.length,
                levels.pointer,
                levels.length,
                places.pointer,
                places.length,
                lengths.pointer,
                lengths.length,
                parents.pointer,
                parents.length,
                bytes.pointer,
                bytes.length,
                out.pointer,
                out.length,
            )
        }
    }

    fn check(&self, section: Given<u8>) -> u64 {
        // SAFETY: as above.
        unsafe { hwp_check(section.pointer, section.length) }
    }

    fn field_text(&self, section: Given<u8>, id: u32) -> u64 {
        // SAFETY: as above.
        unsafe { hwp_field_text(section.pointer, section.length, id) }
    }

    fn fill(&self, section: Given<u8>, id: u32, value: Given<u8>, sheet: Room<u8>) -> u64 {
        let (start, length) = (section.pointer, section.length);
        // SAFETY: as above.
        unsafe {
            hwp_fill(
                start,
                length,
                id,
                value.pointer,
                value.length,
                sheet.pointer,
                sheet.length,
            )
        }
    }

    fn list(&self, input: &[u8], most: usize) -> Vec<u8> {
        lister::list(input, most)
    }
}

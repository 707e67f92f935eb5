//! Another library in the same program, built before a change: the functions that a spool host calls.

use compare::lend::{Given, Room};
use compare::subject::{Kind, Lists, Subject, Table};

extern "C" {
    fn before_hwp_check(section: *const u8, length: usize) -> u64;
    fn before_hwp_field_text(section: *const u8, length: usize, id: u32) -> u64;
    fn before_hwp_fill(
        section: *const u8,
        length: usize,
        id: u32,
        value: *const u8,
        value_length: usize,
        sheet: *mut u8,
        sheet_length: usize,
    ) -> u64;
}

pub struct Before;

impl Subject for Before {
    fn read(&self, _: Kind, _: Given<u8>, _: Lists) -> u64 {
        unreachable!("only what a spool host calls is measured")
    }

    fn pack(&self, _: u64, _: Table, _: Given<u8>, _: Room<u8>) -> u64 {
        unreachable!("only what a spool host calls is measured")
    }

    fn check(&self, section: Given<u8>) -> u64 {
        // SAFETY: the memory is lent for the length of the call.
        unsafe { before_hwp_check(section.pointer, section.length) }
    }

    fn field_text(&self, section: Given<u8>, id: u32) -> u64 {
        // SAFETY: as above.
        unsafe { before_hwp_field_text(section.pointer, section.length, id) }
    }

    fn fill(&self, section: Given<u8>, id: u32, value: Given<u8>, sheet: Room<u8>) -> u64 {
        let (start, length) = (section.pointer, section.length);
        // SAFETY: as above.
        unsafe {
            before_hwp_fill(
                start,
                length,
                id,
                value.pointer,
                value.length,
                sheet.pointer,
                sheet.length,
            )
        }
    }

    fn list(&self, _: &[u8], _: usize) -> Vec<u8> {
        unreachable!("only what a spool host calls is measured")
    }
}

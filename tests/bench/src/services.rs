//! The services that are measured: the library's call and the oracle's on one stream. Both give the host's answer.

use crate::native::Native;
use crate::shape;
use compare::lend::{Given, Room};
use compare::subject::{write_rows, Kind, Oracle, Subject};
use oracle::LISTS;

/// A call that can be made again and again.
pub type Call<'a> = Box<dyn FnMut() -> u64 + 'a>;

/// The library's call, and the oracle's.
pub type Pair<'a> = [Call<'a>; 2];

/// A subject's call on a stream.
pub type Service = for<'a> fn(&'a dyn Subject, &'a [u8]) -> Call<'a>;

pub fn pair(service: Service, stream: &[u8]) -> Pair<'_> {
    [service(&Native, stream), service(&Oracle, stream)]
}

pub fn check<'a>(subject: &'a dyn Subject, section: &'a [u8]) -> Call<'a> {
    Box::new(|| subject.check(Given::of(section)))
}

pub fn field_text<'a>(subject: &'a dyn Subject, section: &'a [u8]) -> Call<'a> {
    Box::new(|| subject.field_text(Given::of(section), shape::ID))
}

pub fn fill<'a>(subject: &'a dyn Subject, section: &'a [u8]) -> Call<'a> {
    let value = [65, 0].repeat(15);
    let mut sheet = vec![0; section.len() + 4096];
    Box::new(move || {
        let (given, value) = (Given::of(section), Given::of(&value));
        subject.fill(given, shape::ID, value, Room::of(&mut sheet))
    })
}

/// The calls of a spool host.
pub const OF_HOST: [(&str, Service); 3] =
    [("check", check), ("field text", field_text), ("fill", fill)];

/// The lists of a table with room for the records of a stream; they are written once, so that their pages are there.
fn lists_for(stream: &[u8]) -> [Vec<u32>; LISTS] {
    let records = oracle::read(stream, usize::MAX).map_or(0, |rows| rows.len());
    [(); LISTS].map(|()| vec![u32::MAX; records])
}

/// The table of a stream packed again.
pub fn pack<'a>(subject: &'a dyn Subject, stream: &'a [u8]) -> Call<'a> {
    let mut lists = lists_for(stream);
    let rows = oracle::read(stream, usize::MAX).unwrap_or_default();
    write_rows(&rows, lists.each_mut().map(Vec::as_mut_slice));
    let mut out = vec![0; stream.len()];
    Box::new(move || {
        let table = lists.each_ref().map(|list| Given::of(list));
        let (bytes, out) = (Given::of(stream), Room::of(&mut out));
        subject.pack(rows.len() as u64, table, bytes, out)
    })
}

fn read_of<'a>(kind: Kind, subject: &'a dyn Subject, stream: &'a [u8]) -> Call<'a> {
    let mut lists = lists_for(stream);
    Box::new(move || {
        let rooms = lists.each_mut().map(|list| Room::of(list));
        subject.read(kind, Given::of(stream), rooms)
    })
}

pub fn read<'a>(subject: &'a dyn Subject, stream: &'a [u8]) -> Call<'a> {
    read_of(Kind::Records, subject, stream)
}

/// A read whose lists have no room: it goes over the headers, answers 7 and enters nothing.
pub fn reading<'a>(subject: &'a dyn Subject, stream: &'a [u8]) -> Call<'a> {
    let mut lists: [Vec<u32>; LISTS] = [(); LISTS].map(|()| Vec::new());
    Box::new(move || {
        let rooms = lists.each_mut().map(|list| Room::of(list));
        subject.read(Kind::Records, Given::of(stream), rooms)
    })
}

pub fn section_read<'a>(subject: &'a dyn Subject, stream: &'a [u8]) -> Call<'a> {
    read_of(Kind::Section, subject, stream)
}

/// The oracle's read that answers into lent lists and has no vector of its own.
pub fn read_into(stream: &[u8]) -> Call<'_> {
    let mut lists = lists_for(stream);
    Box::new(move || {
        let lent = lists.each_mut().map(Vec::as_mut_slice);
        oracle::read_into(stream, lent).map_or(0, |count| count as u64)
    })
}

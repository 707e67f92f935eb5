//! Records: header, tiling, read and pack.

use crate::answer::{demand, refuse, Refusal};

/// The most bytes that a stream has.
pub const LIMIT: usize = 16_777_216;
/// The size that says that a 32-bit length follows.
pub const LONG: u32 = 4095;
const LOWEST_TAG: u32 = 16;
const HIGHEST: u32 = 1023;
/// The lists of a table: tags, levels, places, lengths, parents.
pub const LISTS: usize = 5;

/// One record: the place is that of its body, the parent is an index.
#[derive(Clone, Copy, Debug, PartialEq, Eq)]
pub struct Row {
    pub tag: u32,
    pub level: u32,
    pub place: u32,
    pub length: u32,
    pub parent: u32,
}

impl Row {
    /// Its entries in the lists of a table.
    #[inline]
    pub fn entries(&self) -> [u32; LISTS] {
        [self.tag, self.level, self.place, self.length, self.parent]
    }

    pub fn header(&self) -> usize {
        self.place as usize - header_length(self.length)
    }

    pub fn end(&self) -> usize {
        self.place as usize + self.length as usize
    }

    pub fn body<'a>(&self, stream: &'a [u8]) -> &'a [u8] {
        &stream[self.place as usize..self.end()]
    }
}

pub fn word(bytes: &[u8], place: usize) -> u32 {
    let part = &bytes[place..place + 4];
    u32::from_le_bytes([part[0], part[1], part[2], part[3]])
}

pub fn half(bytes: &[u8], place: usize) -> u16 {
    let part = &bytes[place..place + 2];
    u16::from_le_bytes([part[0], part[1]])
}

fn header_length(length: u32) -> usize {
    if length < LONG {
        4
    } else {
        8
    }
}

/// The header of a record in its long form; the first four bytes are the short one.
fn long_header(tag: u32, level: u32, length: u32) -> [u8; 8] {
    let first = tag | level << 10 | length.min(LONG) << 20;
    (u64::from(first) | u64::from(length) << 32).to_le_bytes()
}

/// The header of a record in the form that its length asks for.
pub fn header_of(tag: u32, level: u32, length: u32) -> Vec<u8> {
    long_header(tag, level, length)[..header_length(length)].to_vec()
}

/// The level rule: the first level is 0, each later one at most one above the record before it.
fn level_rule(before: Option<u32>, level: u32) -> bool {
    match before {
        None => level == 0,
        Some(before) => level <= before + 1,
    }
}

/// The index of the last record met at each level.
struct LastAt([u32; HIGHEST as usize + 1]);

impl LastAt {
    fn none() -> LastAt {
        LastAt([0; HIGHEST as usize + 1])
    }

    /// The parent of a record that keeps the level rule. The nearest earlier record of smaller level is then one level
    /// above it, and the last one met there; a level 0 record has its own index.
    #[inline]
    fn parent(&mut self, index: usize, level: u32) -> u32 {
        self.0[level as usize] = index as u32;
        self.0[level.saturating_sub(1) as usize]
    }
}

/// The record whose header stands at `at`, after a record of level `before`; its parent is left open. A header cut
/// short is refused at the end of the stream, where its next byte is lacking.
#[inline]
fn read_record(stream: &[u8], at: usize, before: Option<u32>) -> Result<Row, Refusal> {
    demand(stream.len() - at >= 4, 2, stream.len())?;
    let header = word(stream, at);
    let (tag, level, size) = (header & 1023, header >> 10 & 1023, header >> 20);
    demand(tag >= LOWEST_TAG, 5, at)?;
    demand(level_rule(before, level), 6, at)?;
    let (length, place) = if size == LONG {
        demand(stream.len() - at >= 8, 2, stream.len())?;
        let length = word(stream, at + 4);
        demand(length >= LONG, 3, at + 4)?;
        (length, at + 8)
    } else {
        (size, at + 4)
    };
    demand(length as usize <= stream.len() - place, 4, at)?;
    Ok(Row {
        tag,
        level,
        place: place as u32,
        length,
        parent: 0,
    })
}

/// Visits every record of the stream, up to the first refusal; 7 is not asked. Gives the record count.
pub fn each_record(stream: &[u8], mut visit: impl FnMut(usize, Row)) -> Result<usize, Refusal> {
    demand(stream.len() <= LIMIT, 1, 0)?;
    let (mut at, mut count, mut before) = (0, 0, None);
    let mut last = LastAt::none();
    while at < stream.len() {
        let mut row = read_record(stream, at, before)?;
        row.parent = last.parent(count, row.level);
        visit(count, row);
        at = row.end();
        before = Some(row.level);
        count += 1;
    }
    Ok(count)
}

/// Every record of the stream, or the first refusal; 7 is not asked.
pub fn tile(stream: &[u8]) -> Result<Vec<Row>, Refusal> {
    let mut rows: Vec<Row> = Vec::new();
    each_record(stream, |_, row| rows.push(row))?;
    Ok(rows)
}

/// Read: the records of a stream, for lists with room for `room` records.
pub fn read(stream: &[u8], room: usize) -> Result<Vec<Row>, Refusal> {
    let rows = tile(stream)?;
    match rows.get(room) {
        Some(row) => refuse(7, row.header()),
        None => Ok(rows),
    }
}

/// Read into the lent lists of a table: one pass judges, a second writes.
pub fn read_into(stream: &[u8], lists: [&mut [u32]; LISTS]) -> Result<usize, Refusal> {
    let room = lists.iter().map(|list| list.len()).min().unwrap_or(0);
    let mut over = 0;
    let count = each_record(stream, |index, row| {
        if index == room {
            over = row.header();
        }
    })?;
    demand(count <= room, 7, over)?;
    let mut lists = lists.map(|list| &mut list[..count]);
    each_record(stream, |index, row| {
        for (list, entry) in lists.iter_mut().zip(row.entries()) {
            list[index] = entry;
        }
    })
}

/// Pack: writes `count` records whose bodies stand in `bytes`, and gives the length written.
pub fn pack(
    count: u64,
    lists: [&[u32]; LISTS],
    bytes: &[u8],
    out: &mut [u8],
) -> Result<usize, Refusal> {
    let shortest = lists.iter().map(|list| list.len()).min().unwrap_or(0);
    demand(count <= shortest as u64, 27, 0)?;
    let count = count as usize;
    let [tags, levels, places, lengths, parents] = lists.map(|list| &list[..count]);
    let mut total: u128 = 0;
    let mut last = LastAt::none();
    for index in 0..count {
        demand((LOWEST_TAG..=HIGHEST).contains(&tags[index]), 5, index)?;
        let before = index.checked_sub(1).map(|before| levels[before]);
        let level = levels[index];
        demand(level <= HIGHEST && level_rule(before, level), 6, index)?;
        demand(parents[index] == last.parent(index, level), 28, index)?;
        let end = u64::from(places[index]) + u64::from(lengths[index]);
        demand(end <= bytes.len() as u64, 4, index)?;
        total += (header_length(lengths[index]) as u128) + u128::from(lengths[index]);
    }
    demand(total <= LIMIT as u128, 1, 0)?;
    let total = total as usize;
    demand(total <= out.len(), 26, 0)?;
    let mut at = 0;
    for index in 0..count {
        let (place, length) = (places[index] as usize, lengths[index]);
        let header = long_header(tags[index], levels[index], length);
        let body = &bytes[place..place + length as usize];
        for part in [&header[..header_length(length)], body] {
            out[at..at + part.len()].copy_from_slice(part);
            at += part.len();
        }
    }
    Ok(total)
}

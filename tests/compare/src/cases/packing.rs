//! Lists and bytes for pack: lawful, and with each kind of wrong entry, count and buffer.

use crate::cases::records::{filler, good_level, good_tag, low_tag};
use crate::cases::trees;
use crate::judge::Case;
use crate::random::Random;
use oracle::{read, Row, LIMIT, LISTS};

pub type Lists = [Vec<u32>; LISTS];

pub const TAGS: usize = 0;
pub const LEVELS: usize = 1;
pub const PLACES: usize = 2;
pub const LENGTHS: usize = 3;
pub const PARENTS: usize = 4;

fn how_many(random: &mut Random) -> usize {
    match random.below(12) {
        0 => 0,
        1 => random.from_to(20, 1500),
        2 => 1,
        _ => random.from_to(2, 20),
    }
}

fn bytes(random: &mut Random) -> Vec<u8> {
    let length = match random.below(6) {
        0 => 0,
        1 => random.from_to(4090, 4100),
        2 => random.from_to(5000, 12_000),
        _ => random.below(200),
    };
    random.bytes(length)
}

/// A body inside the bytes: anywhere, so that bodies overlap, repeat and stand in any order.
fn body(random: &mut Random, bytes: usize) -> (u32, u32) {
    let most = if random.once_in(4) {
        bytes
    } else {
        bytes.min(60)
    };
    let length = match random.below(8) {
        0 => most,
        1 => random.pick(&[4093, 4094, 4095, 4096]).min(most),
        2 => 0,
        _ => random.below(most + 1),
    };
    let slack = bytes - length;
    let any = random.below(slack + 1);
    (random.pick(&[0, slack, any]) as u32, length as u32)
}

/// Levels that the level rule allows, but for a chain that goes on past the deepest.
fn levels(random: &mut Random) -> Vec<u32> {
    if random.once_in(40) {
        let count = random.from_to(1020, 1030);
        return (0..count as u32).collect();
    }
    if random.once_in(10) {
        let count = trees::how_many(random);
        return trees::levels(random, count);
    }
    let climb = random.pick(&[1, 2, 3, 8]);
    let mut levels: Vec<u32> = Vec::new();
    for _ in 0..how_many(random) {
        levels.push(good_level(random, levels.last().copied(), climb));
    }
    levels
}

/// Records of these levels; bodies are short where there are many.
fn good_lists(random: &mut Random, levels: Vec<u32>, bytes: usize) -> Lists {
    let bytes = if levels.len() > 1000 {
        bytes.min(3)
    } else {
        bytes
    };
    let mut lists: Lists = Default::default();
    for _ in 0..levels.len() {
        let (place, length) = body(random, bytes);
        lists[TAGS].push(good_tag(random));
        lists[PLACES].push(place);
        lists[LENGTHS].push(length);
    }
    lists[PARENTS] = trees::parents(&levels);
    lists[LEVELS] = levels;
    lists
}

fn wrong_tag(random: &mut Random) -> u32 {
    let low = low_tag(random);
    random.pick(&[
        low,
        low,
        15,
        1024,
        1025,
        1024 + 66,
        66 << 10,
        65_536 + 66,
        u32::MAX,
    ])
}

fn wrong_level(random: &mut Random, before: Option<u32>) -> u32 {
    let least = before.map_or(1, |before| before + 2);
    random.pick(&[
        least,
        least,
        least + 1,
        1024,
        1024 << 10,
        65_536,
        1 << 31,
        u32::MAX,
    ])
}

/// A body that is not inside the bytes, also where 32 bits would wrap.
fn wrong_body(random: &mut Random, bytes: usize) -> (u32, u32) {
    let bytes = bytes as u32;
    let part = random.below(bytes as usize + 1) as u32;
    match random.below(8) {
        0 => (bytes + 1, 0),
        1 => (0, bytes + 1),
        2 => (part, bytes - part + 1),
        3 => (u32::MAX, 1),
        4 => (u32::MAX, u32::MAX),
        5 => (u32::MAX - part, part + 1),
        6 => (1 << 31, 1 << 31),
        _ => (bytes, u32::MAX),
    }
}

/// A wrong parent for the record, where these are the right ones: the record before, the parent's parent, its own
/// index, the first record, one beside the right one, the record before on its level, or no record at all.
fn wrong_parent(random: &mut Random, levels: &[u32], right: &[u32], index: usize) -> u32 {
    let (own, parent) = (index as u32, right[index]);
    let (count, more) = (levels.len() as u32, random.from_to(1, 9) as u32);
    let mut before = (0..index).rev();
    let beside = before.find(|&before| levels[before] == levels[index]);
    let ways = [
        own.wrapping_sub(1),
        right[parent as usize],
        own,
        0,
        parent + 1,
        parent.wrapping_sub(1),
        beside.map_or(own + 1, |beside| beside as u32),
        count,
        count + more,
        u32::MAX,
    ];
    let wrong: Vec<u32> = ways.into_iter().filter(|&way| way != parent).collect();
    random.pick(&wrong)
}

/// What of a record is made wrong. The parents come last: the right ones go by the levels as they then are.
#[derive(Clone, Copy, PartialEq, Eq, PartialOrd, Ord)]
enum Part {
    Tag,
    Level,
    Body,
    Parent,
}

fn break_part(random: &mut Random, lists: &mut Lists, part: Part, index: usize, bytes: usize) {
    match part {
        Part::Tag => lists[TAGS][index] = wrong_tag(random),
        Part::Level => {
            let before = index.checked_sub(1).map(|before| lists[LEVELS][before]);
            if before.is_none_or(|before| before < 1023) {
                lists[LEVELS][index] = wrong_level(random, before);
                lists[PARENTS] = trees::parents(&lists[LEVELS]);
            }
        }
        Part::Body => (lists[PLACES][index], lists[LENGTHS][index]) = wrong_body(random, bytes),
        Part::Parent => {
            let right = trees::parents(&lists[LEVELS]);
            lists[PARENTS][index] = wrong_parent(random, &lists[LEVELS], &right, index);
        }
    }
}

/// The first, a middle, the last or the deepest record, or any.
fn some_record(random: &mut Random, levels: &[u32]) -> usize {
    let deepest = (0..levels.len()).max_by_key(|&index| levels[index]);
    let any = random.below(levels.len());
    let (middle, last) = (levels.len() / 2, levels.len() - 1);
    random.pick(&[0, middle, last, deepest.unwrap_or(0), any])
}

/// Makes so many entries wrong, most of them of one record.
fn break_entries(random: &mut Random, lists: &mut Lists, bytes: usize, times: usize) {
    if lists[TAGS].is_empty() {
        return;
    }
    let one = some_record(random, &lists[LEVELS]);
    let mut faults: Vec<(Part, usize)> = Vec::new();
    for _ in 0..times {
        let part = random.pick(&[
            Part::Tag,
            Part::Level,
            Part::Body,
            Part::Parent,
            Part::Parent,
        ]);
        let any = some_record(random, &lists[LEVELS]);
        faults.push((part, random.pick(&[one, one, any])));
    }
    faults.sort();
    for (part, index) in faults {
        break_part(random, lists, part, index, bytes);
    }
}

/// Entries past the count, which are never looked at.
fn lengthen(random: &mut Random, lists: &mut Lists) {
    for list in lists {
        for _ in 0..random.below(4) {
            let any = random.next() as u32;
            list.push(random.pick(&[0, 1, 15, u32::MAX, any]));
        }
    }
}

/// A count that some list is too short for.
fn wrong_count(random: &mut Random, count: usize, lists: &mut Lists) -> u64 {
    let count = count as u64;
    let shortest = lists.iter().map(Vec::len).min().unwrap_or(0) as u64;
    let counts = [
        shortest + 1,
        shortest + 1,
        shortest + 2,
        (1 << 32) + count,
        1 << 32,
        1 << 61,
        1 << 62,
        1 << 63,
        (1 << 63) + count,
        u64::MAX,
    ];
    if count > 0 && random.once_in(2) {
        lists[random.below(LISTS)].truncate(count as usize - 1);
        return count;
    }
    random.pick(&counts)
}

/// The length that pack would write, where nothing but the buffer stands against it.
fn total(count: u64, lists: &Lists) -> usize {
    let lengths = lists[LENGTHS].iter().take(count.min(1 << 23) as usize);
    let sum: u64 = lengths
        .map(|&length| u64::from(length) + if length < 4095 { 4 } else { 8 })
        .sum();
    sum.min(LIMIT as u64) as usize
}

fn out_length(random: &mut Random, total: usize) -> usize {
    match random.below(8) {
        0 | 1 => total.saturating_sub(1),
        2 | 3 => total,
        4 => random.below(total + 1),
        5 => 0,
        6 => total + 1,
        _ => total + random.below(100),
    }
}

pub fn case(random: &mut Random) -> Case {
    let bytes = bytes(random);
    let levels = levels(random);
    let mut lists = good_lists(random, levels, bytes.len());
    let mut count = lists[TAGS].len() as u64;
    let breaks = random.pick(&[0, 0, 0, 1, 1, 1, 2, 3]);
    break_entries(random, &mut lists, bytes.len(), breaks);
    if random.once_in(2) {
        lengthen(random, &mut lists);
    }
    if random.once_in(8) {
        count = wrong_count(random, count as usize, &mut lists);
    }
    let total = total(count, &lists).min(1 << 20);
    let out = out_length(random, total);
    Case::Pack {
        count,
        lists,
        bytes,
        out,
    }
}

/// As many records of one length as are asked for.
fn alike(count: usize, length: u32) -> Lists {
    [
        vec![77; count],
        vec![0; count],
        vec![0; count],
        vec![length; count],
        (0..count as u32).collect(),
    ]
}

/// What read gave, packed again.
fn round_trip(random: &mut Random, longest: usize) -> Case {
    let (stream, count) = filler(random, LIMIT, longest);
    let rows = read(&stream, count).unwrap_or_default();
    let entries: Vec<[u32; LISTS]> = rows.iter().map(Row::entries).collect();
    let lists = std::array::from_fn(|nth| entries.iter().map(|row| row[nth]).collect());
    Case::Pack {
        count: rows.len() as u64,
        lists,
        bytes: stream,
        out: LIMIT + random.below(3),
    }
}

/// The number of kinds of long cases.
pub const LONG_KINDS: usize = 10;

/// Outputs at and over the limit, and totals past 32 bits.
pub fn long_case(random: &mut Random, which: usize) -> Case {
    let mega = 1 << 20;
    let whole = LIMIT / 16 - 8;
    let (lists, bytes, out) = match which % LONG_KINDS {
        0 => return round_trip(random, 60),
        1 => return round_trip(random, 70_000),
        // 2 to the power 32, which 32 bits would take for 0
        2 => (alike(4096, mega - 8), mega as usize, 100),
        // past 32 bits, which 32 bits would take for a short one
        3 => (alike(4097, mega - 8), mega as usize, LIMIT),
        4 => (alike(LIMIT / 4, 0), 0, LIMIT),
        5 => (alike(LIMIT / 4 + 1, 0), 0, LIMIT + 100),
        6 => (alike(16, whole as u32), whole, LIMIT),
        7 => (alike(16, whole as u32), whole, LIMIT - 1),
        8 => {
            let mut lists = alike(16, whole as u32);
            lists[LENGTHS][random.below(16)] += 1;
            (lists, whole + 1, LIMIT + 8)
        }
        _ => {
            let mut lists = alike(16, whole as u32);
            let index = random.below(16);
            lists[LENGTHS][index] += 2;
            lists[TAGS][15] = wrong_tag(random);
            (lists, whole + 1, LIMIT + 8)
        }
    };
    Case::Pack {
        count: lists[TAGS].len() as u64,
        lists,
        bytes: random.bytes(bytes),
        out,
    }
}

/// A table of many records whose output has all of the limit.
fn long_tree(random: &mut Random) -> Lists {
    const COUNT: usize = LIMIT / 64;
    let levels = trees::levels(random, COUNT);
    let parents = trees::parents(&levels);
    [
        vec![77; COUNT],
        levels,
        vec![0; COUNT],
        vec![60; COUNT],
        parents,
    ]
}

/// Long tables, of which the first has right parents; the parent of the last record is wrong in the others.
pub fn long_fault(random: &mut Random, which: usize) -> Case {
    let (mut lists, bytes) = match which % 3 {
        0 | 1 => (long_tree(random), 60),
        // over the limit too
        _ => (alike(4097, (1 << 20) - 8), 1 << 20),
    };
    if let (1.., Some(last)) = (which % 3, lists[PARENTS].last_mut()) {
        *last = random.pick(&[*last + 1, u32::MAX]);
    }
    Case::Pack {
        count: lists[TAGS].len() as u64,
        lists,
        bytes: random.bytes(bytes),
        out: LIMIT,
    }
}

//! Record streams for read: lawful tilings, faults in each part of a header, and cut ends.

use crate::cases::trees;
use crate::judge::Case;
use crate::random::Random;
use crate::subject::Kind;
use oracle::{LIMIT, LISTS};

/// A record to be written: what its header says and the body that follows.
#[derive(Clone, Debug)]
pub struct Draft {
    pub tag: u32,
    pub level: u32,
    /// The long form is written where this is set, whatever the length.
    pub force_long: bool,
    pub body: Vec<u8>,
}

impl Draft {
    pub fn new(tag: u32, level: u32, body: Vec<u8>) -> Draft {
        Draft {
            tag,
            level,
            force_long: false,
            body,
        }
    }
}

/// Writes a record, in the form that its length asks for unless the draft says otherwise.
pub fn write_record(stream: &mut Vec<u8>, draft: &Draft) {
    let length = draft.body.len();
    let long = draft.force_long || length > 4094;
    let size = if long { 4095 } else { length as u32 };
    let header = draft.tag % 1024 + draft.level % 1024 * 1024 + size * 1_048_576;
    stream.extend_from_slice(&header.to_le_bytes());
    if long {
        stream.extend_from_slice(&(length as u32).to_le_bytes());
    }
    stream.extend_from_slice(&draft.body);
}

pub fn write_stream(drafts: &[Draft]) -> Vec<u8> {
    let mut stream = Vec::new();
    for draft in drafts {
        write_record(&mut stream, draft);
    }
    stream
}

pub fn good_tag(random: &mut Random) -> u32 {
    match random.below(4) {
        0 => random.pick(&[16, 17, 18, 19, 92, 1022, 1023]),
        1 => random.from_to(66, 72) as u32,
        _ => random.from_to(16, 1023) as u32,
    }
}

pub fn low_tag(random: &mut Random) -> u32 {
    let any = random.below(16) as u32;
    random.pick(&[0, 15, any])
}

/// A level that the level rule allows after `before`; `climb` of 8 nearly always goes up.
pub fn good_level(random: &mut Random, before: Option<u32>, climb: usize) -> u32 {
    let Some(before) = before else { return 0 };
    if random.below(8) < climb {
        return (before + 1).min(1023);
    }
    match random.below(4) {
        0 => 0,
        1 => random.below(before as usize + 1) as u32,
        2 => before.saturating_sub(1),
        _ => before,
    }
}

/// A level that the level rule forbids after `before`; none where every level is allowed.
pub fn bad_level(random: &mut Random, before: Option<u32>) -> Option<u32> {
    let least = before.map_or(1, |before| before + 2);
    if least > 1023 {
        return None;
    }
    let any = random.from_to(least as usize, 1023) as u32;
    Some(random.pick(&[least, least, 1023, any]))
}

fn length(random: &mut Random) -> usize {
    match random.below(40) {
        0 => random.from_to(4090, 4100),
        1 => random.pick(&[4094, 4095, 4096]),
        2 => random.from_to(4097, 9000),
        3..=6 => random.below(300),
        7..=14 => 0,
        _ => random.below(40),
    }
}

fn how_many(random: &mut Random) -> usize {
    match random.below(16) {
        0 => 0,
        1..=3 => 1,
        4 => random.from_to(100, 2500),
        5..=6 => random.from_to(12, 100),
        _ => random.from_to(2, 12),
    }
}

/// A lawful list of records.
pub fn good_drafts(random: &mut Random, count: usize) -> Vec<Draft> {
    let climb = random.pick(&[1, 2, 3, 5, 8]);
    let empty = count > 200 || random.once_in(8);
    let mut drafts: Vec<Draft> = Vec::with_capacity(count);
    for _ in 0..count {
        let level = good_level(random, drafts.last().map(|draft| draft.level), climb);
        let length = if empty {
            random.below(5)
        } else {
            length(random)
        };
        let body = random.bytes(length);
        drafts.push(Draft::new(good_tag(random), level, body));
    }
    drafts
}

/// Breaks one part of one header: tag, level or the long form.
fn break_header(random: &mut Random, drafts: &mut [Draft]) {
    if drafts.is_empty() {
        return;
    }
    let late = random.once_in(3);
    let index = if late {
        drafts.len() - 1
    } else {
        random.below(drafts.len())
    };
    let before = index.checked_sub(1).map(|before| drafts[before].level);
    let draft = &mut drafts[index];
    match random.below(3) {
        0 => draft.tag = low_tag(random),
        1 => {
            if let Some(level) = bad_level(random, before) {
                draft.level = level;
            }
        }
        _ => {
            let any = random.below(4095);
            let length = random.pick(&[0, 1, 4093, 4094, 4094, 4095, any]);
            draft.body = random.bytes(length);
            draft.force_long = true;
        }
    }
}

/// The header places of drafts in the stream they make, and the stream's length at the end.
fn header_places(drafts: &[Draft]) -> Vec<usize> {
    let mut places = vec![0];
    let mut at = 0;
    for draft in drafts {
        let long = draft.force_long || draft.body.len() > 4094;
        at += draft.body.len() + if long { 8 } else { 4 };
        places.push(at);
    }
    places
}

/// Makes the header at a place say a length that ends at, shortly past or far past the stream's end.
fn stretch(random: &mut Random, stream: &mut [u8], at: usize) {
    if stream.len() < at + 4 {
        return;
    }
    let header = u32::from_le_bytes([stream[at], stream[at + 1], stream[at + 2], stream[at + 3]]);
    let more = random.pick(&[0, 1, 1, 1, 2, 3, 4, 100]);
    if header >> 20 == 4095 && stream.len() >= at + 8 {
        let rest = (stream.len() - at - 8 + more) as u32;
        let wrap = 0u32.wrapping_sub(at as u32 + 8);
        let length = random.pick(&[
            rest,
            rest,
            rest,
            u32::MAX,
            1 << 31,
            wrap,
            wrap.wrapping_add(4),
        ]);
        stream[at + 4..at + 8].copy_from_slice(&length.to_le_bytes());
    } else {
        let rest = (stream.len() - at - 4 + more).min(4095) as u32;
        let header = header & ((1 << 20) - 1) | rest << 20;
        stream[at..at + 4].copy_from_slice(&header.to_le_bytes());
    }
}

/// Cuts the stream: inside a header, inside a long length, inside the last body, or anywhere.
fn cut(random: &mut Random, stream: &mut Vec<u8>, places: &[usize]) {
    let at = random.pick(places);
    let end = match random.below(4) {
        0 => at + random.from_to(1, 3),
        1 => at + random.from_to(4, 7),
        2 => stream.len().saturating_sub(random.from_to(1, 3)),
        _ => random.below(stream.len() + 1),
    };
    stream.truncate(end);
}

/// Damages the bytes of a stream whose headers stand at the places.
pub fn damage_bytes(random: &mut Random, stream: &mut Vec<u8>, places: &[usize]) {
    let at = random.pick(places);
    match random.below(5) {
        0 | 1 => cut(random, stream, places),
        2 | 3 => stretch(random, stream, at),
        _ => {
            let tail = random.from_to(1, 9);
            stream.extend(random.bytes(tail));
        }
    }
}

/// One more header whose parts are each right or wrong by chance, and a few bytes behind it.
fn messy_end(random: &mut Random, stream: &mut Vec<u8>, before: Option<u32>) {
    let tag = if random.once_in(3) {
        low_tag(random)
    } else {
        good_tag(random)
    };
    let bad = bad_level(random, before).filter(|_| random.once_in(3));
    let level = bad.unwrap_or_else(|| good_level(random, before, 3));
    let size = random.pick(&[0, 1, 4, 12, 4094, 4095, 4095, 4095]);
    stream.extend((tag | level << 10 | size << 20).to_le_bytes());
    let any = random.below(4095) as u32;
    let length = random.pick(&[0, 1, 4, 4094, 4095, 4096, any, u32::MAX]);
    let behind = [length.to_le_bytes().to_vec(), random.bytes(8)].concat();
    let kept = random.pick(&[0, 1, 2, 3, 4, 5, 12]);
    stream.extend_from_slice(&behind[..kept]);
}

/// A stream, lawful or damaged, and the number of records that it was made of.
pub fn stream(random: &mut Random) -> (Vec<u8>, usize) {
    if random.once_in(40) {
        let length = random.below(40);
        return (random.bytes(length), 4);
    }
    let mut drafts = if random.once_in(10) {
        trees::drafts(random)
    } else {
        let count = how_many(random);
        good_drafts(random, count)
    };
    let damage = random.below(10);
    let breaks = match damage {
        0..=3 => 0,
        4..=6 => 1,
        _ => random.below(4),
    };
    for _ in 0..breaks {
        break_header(random, &mut drafts);
    }
    let places = header_places(&drafts);
    let mut bytes = write_stream(&drafts);
    if damage == 3 || damage >= 7 {
        damage_bytes(random, &mut bytes, &places);
    } else if random.once_in(8) {
        messy_end(random, &mut bytes, drafts.last().map(|draft| draft.level));
    }
    (bytes, drafts.len())
}

/// Lengths of the lists for a stream of about `count` records.
pub fn rooms(random: &mut Random, count: usize) -> [usize; LISTS] {
    let mut rooms = [count; LISTS];
    match random.below(8) {
        0 => {}
        1 => rooms[random.below(LISTS)] = count.saturating_sub(1),
        2 => rooms[random.below(LISTS)] = random.below(count + 1),
        3 => rooms = rooms.map(|_| random.below(count + 3)),
        4 => rooms[random.below(LISTS)] = 0,
        5 => rooms = [count + 1; LISTS],
        _ => rooms = rooms.map(|room| room + random.below(20)),
    }
    rooms
}

/// Read of a short or middling stream.
pub fn case(random: &mut Random) -> Case {
    let (stream, count) = stream(random);
    let rooms = rooms(random, count);
    Case::Read {
        kind: Kind::Records,
        stream,
        rooms,
    }
}

/// One record whose stream has exactly `length` bytes.
fn single(random: &mut Random, length: usize) -> Vec<u8> {
    let body = random.bytes(length - 8);
    write_stream(&[Draft::new(good_tag(random), 0, body)])
}

/// A lawful stream of exactly `length` bytes, with bodies of up to `longest` bytes; gives the record count too.
pub fn filler(random: &mut Random, length: usize, longest: usize) -> (Vec<u8>, usize) {
    let mut stream = Vec::with_capacity(length);
    let (mut count, mut before) = (0, None);
    while stream.len() < length {
        let rest = length - stream.len();
        let body = random.below(longest + 1);
        let needs = if body < 4095 { body + 4 } else { body + 8 };
        let body = match rest {
            _ if needs + 8 <= rest => body,
            0..=4098 => rest - 4,
            4099..=4106 => 30,
            _ => rest - 8,
        };
        let level = good_level(random, before, 2);
        let draft = Draft::new(good_tag(random), level, random.bytes(body));
        write_record(&mut stream, &draft);
        before = Some(level);
        count += 1;
    }
    (stream, count)
}

/// The number of kinds of long streams.
pub const LONG_KINDS: usize = 10;

/// Streams of many megabytes, at and over the limit.
pub fn long_case(random: &mut Random, which: usize) -> Case {
    let mut rooms = [1; LISTS];
    let stream = match which % LONG_KINDS {
        0 => single(random, LIMIT),
        1 => single(random, LIMIT + 1),
        2 => {
            let levels = trees::levels(random, LIMIT / 4);
            rooms = [levels.len(); LISTS];
            let headers = levels.iter().map(|level| 200 + level * 1024);
            headers.flat_map(u32::to_le_bytes).collect()
        }
        3 => {
            let (stream, count) = filler(random, LIMIT, 0);
            rooms = [count + 3; LISTS];
            rooms[random.below(LISTS)] = count - 1;
            stream
        }
        4 => {
            let (stream, count) = filler(random, LIMIT, 9000);
            rooms = [count, count + 1, count + 2, count + 7, count + 3];
            stream
        }
        5 => {
            let (mut stream, count) = filler(random, LIMIT, 9000);
            rooms = [count + 1; LISTS];
            stream.push(0);
            stream
        }
        6 => {
            let (mut stream, count) = filler(random, LIMIT - 3, 60);
            rooms = [count + 1; LISTS];
            stream.extend([66, 0, 0]);
            stream
        }
        7 => {
            let (mut stream, count) = filler(random, LIMIT - 4, 60);
            rooms = [count + 1; LISTS];
            stream.extend(low_tag(random).to_le_bytes());
            stream
        }
        8 => random.bytes(LIMIT + 1),
        _ => {
            let longest = random.pick(&[200_000, 5_000_000]);
            let length = random.from_to(LIMIT - 5000, LIMIT - 8);
            let (mut stream, count) = filler(random, length, longest);
            rooms = [count + 1; LISTS];
            if random.once_in(2) {
                let end = stream.len() - random.from_to(1, 3);
                stream.truncate(end);
            }
            stream
        }
    };
    Case::Read {
        kind: Kind::Records,
        stream,
        rooms,
    }
}

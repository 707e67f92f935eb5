//! Sections for check and the section read, lawful and damaged.

use crate::cases::damage::damage;
use crate::cases::paragraphs::{deep, section, Builder, Style, MIXED, REAL};
use crate::cases::records::{damage_bytes, rooms, stream, write_stream, Draft};
use crate::cases::trees;
use crate::judge::Case;
use crate::random::Random;
use crate::subject::Kind;
use oracle::lister::INPUT;
use oracle::{LIMIT, LISTS};

/// Damages the records of a section once or more; half of the sections stay lawful.
pub fn damaged(random: &mut Random, drafts: &mut Vec<Draft>) {
    let times = random.pick(&[0, 1, 1, 1, 2, 3]);
    for _ in 0..times {
        damage(random, drafts);
    }
}

/// The bytes of a section, lawful or damaged, and the number of records that it was made of.
fn any_section(random: &mut Random, style: Style) -> (Vec<u8>, usize) {
    if random.once_in(30) {
        return stream(random);
    }
    let mut drafts = if random.once_in(60) {
        let any = random.from_to(2, 1024) as u32;
        let deepest = random.pick(&[1022, 1023, 1024, any]);
        deep(random, deepest)
    } else {
        section(random, style).0
    };
    damaged(random, &mut drafts);
    drafts.retain(|draft| draft.level < 1024);
    if random.once_in(16) {
        drafts.extend(trees::drafts(random));
    }
    let mut bytes = write_stream(&drafts);
    if random.once_in(16) {
        let places: Vec<usize> = (0..4).map(|_| random.below(bytes.len() + 1)).collect();
        damage_bytes(random, &mut bytes, &places);
    }
    (bytes, drafts.len())
}

pub fn read_case(random: &mut Random) -> Case {
    let (stream, count) = any_section(random, MIXED);
    let rooms = if random.once_in(4) {
        rooms(random, count)
    } else {
        [count + 3; LISTS]
    };
    Case::Read {
        kind: Kind::Section,
        stream,
        rooms,
    }
}

pub fn check_case(random: &mut Random) -> Case {
    let (section, _) = any_section(random, MIXED);
    Case::Check { section }
}

/// A record of a tag that no rule is about, which makes a section as long as is asked.
pub fn padding(random: &mut Random, length: usize) -> Draft {
    let tag = random.pick(&[16, 73, 200, 1023]);
    padding_of(random, tag, length)
}

/// A record with the tag, of so many bytes with its header.
pub fn padding_of(random: &mut Random, tag: u32, length: usize) -> Draft {
    let body = if length < 4103 {
        length - 4
    } else {
        length - 8
    };
    Draft::new(tag, 0, random.bytes(body))
}

/// A lawful section of real shape of exactly this many bytes, and the ids of its fields.
pub fn real(random: &mut Random, length: usize) -> (Vec<u8>, Vec<u32>) {
    let mut stream = Vec::with_capacity(length);
    let mut ids = Vec::new();
    loop {
        let mut builder = Builder::new(random, REAL);
        builder.paragraph(0, 4);
        let more = write_stream(&builder.drafts);
        if stream.len() + more.len() + 5000 > length {
            break;
        }
        ids.append(&mut builder.ids);
        stream.extend(more);
    }
    let rest = length - stream.len();
    let pad = padding(random, rest);
    stream.extend(write_stream(&[pad]));
    (stream, ids)
}

/// Paragraphs nested nearly a thousand deep, and below them as many short records as fit.
pub fn hostile(random: &mut Random, length: usize) -> Vec<u8> {
    let mut drafts = Vec::new();
    for level in 0..1000 {
        let mut header = vec![0; 22];
        header[12] = 1;
        drafts.push(Draft::new(66, level, header));
        drafts.push(Draft::new(68, level + 1, vec![0; 8]));
    }
    let mut stream = write_stream(&drafts);
    let small = write_stream(&[Draft::new(random.pick(&[73, 87, 200]), 1000, Vec::new())]);
    while stream.len() + 4 <= length {
        stream.extend_from_slice(&small);
    }
    stream
}

/// The search for a field goes over the records below a paragraph for each paragraph above them, so hostile nesting is
/// kept short here; the benchmark measures check of more of it (docs/DECISIONS.md has the bound).
pub const HOSTILE: usize = 100_000;

/// The number of kinds of long sections.
pub const LONG_KINDS: usize = 6;

/// A long section, lawful or not.
pub fn long_section(random: &mut Random, which: usize) -> Vec<u8> {
    match which % LONG_KINDS {
        0 => real(random, LIMIT).0,
        1 => real(random, LIMIT + 1).0,
        2 => hostile(random, HOSTILE),
        3 => {
            let mut section = real(random, LIMIT - 26).0;
            section.extend(write_stream(&[Draft::new(66, 0, vec![0; 22])]));
            section
        }
        4 => {
            let mut section = hostile(random, HOSTILE);
            section.extend(write_stream(&[Draft::new(67, 990, vec![0; 6])]));
            section
        }
        _ => {
            let length = random.from_to(1_000_000, 3_000_000);
            one_bit_off(random, length)
        }
    }
}

/// A section of real shape with one bit wrong.
fn one_bit_off(random: &mut Random, length: usize) -> Vec<u8> {
    let mut section = real(random, length).0;
    let at = random.below(section.len());
    section[at] ^= 1 << random.below(8);
    section
}

pub fn long_read_case(random: &mut Random, which: usize) -> Case {
    let stream = long_section(random, which);
    let count = oracle::read(&stream, usize::MAX).map_or(1000, |rows| rows.len());
    let room = random.pick(&[count, count, count, count - 1]);
    Case::Read {
        kind: Kind::Section,
        stream,
        rooms: [room, count, count + 1, count + 2, count],
    }
}

pub fn long_check_case(random: &mut Random, which: usize) -> Case {
    let section = long_section(random, which);
    Case::Check { section }
}

/// An input of the lister, which comes whole or in parts.
pub fn listed(random: &mut Random, input: Vec<u8>) -> Case {
    let most = random.pick(&[usize::MAX, usize::MAX, 4096, 7, 1]);
    Case::List { input, most }
}

pub fn list_case(random: &mut Random) -> Case {
    let (input, _) = any_section(random, MIXED);
    listed(random, input)
}

/// Inputs at the most that the lister reads, and over it.
pub fn long_list_case(random: &mut Random, which: usize) -> Case {
    let input = match which % 4 {
        0 => real(random, INPUT).0,
        1 => real(random, INPUT + 1).0,
        2 => hostile(random, INPUT),
        _ => one_bit_off(random, INPUT),
    };
    listed(random, input)
}

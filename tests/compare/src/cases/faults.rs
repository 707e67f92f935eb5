//! Streams whose first wrong byte is chosen: the end behind a cut header, a long length, a unit, an entry or a count.

use crate::cases::docinfo::childless;
use crate::cases::paragraphs::{control, ordinary, section, units_to_bytes, Builder};
use crate::cases::paragraphs::{CONTROL, EXTENDED, INLINE, LIST, MARKS, MIXED, ONE};
use crate::cases::paragraphs::{PARAGRAPH, SHAPES, TEXT};
use crate::cases::records::{good_level, good_tag, write_record, write_stream, Draft};
use crate::cases::sections::{padding_of, real};
use crate::random::Random;
use oracle::text::Wrong;

/// What is wrong first.
#[derive(Clone, Copy, Debug, PartialEq, Eq)]
pub enum Fault {
    FirstFourCut,
    LongLengthCut,
    LongLengthShort,
    Text(Wrong),
    Shape,
    Mark,
    NegativeCount,
    UnmatchedCount,
}

/// The ways to break the rules of a text.
pub const TEXTS: [Wrong; 5] = [
    Wrong::Zero,
    Wrong::EndBeforeTheEnd,
    Wrong::ControlCutShort,
    Wrong::ClosingCode,
    Wrong::EndLacking,
];

/// The faults of a section, those of any stream of records first.
pub const OF_SECTIONS: [Fault; 10] = [
    Fault::FirstFourCut,
    Fault::LongLengthCut,
    Fault::LongLengthShort,
    Fault::Text(TEXTS[0]),
    Fault::Text(TEXTS[1]),
    Fault::Text(TEXTS[2]),
    Fault::Text(TEXTS[3]),
    Fault::Text(TEXTS[4]),
    Fault::Shape,
    Fault::Mark,
];

pub const OF_RECORDS: &[Fault] = OF_SECTIONS.split_at(3).0;

pub const OF_DOCINFO: [Fault; 5] = [
    Fault::FirstFourCut,
    Fault::LongLengthCut,
    Fault::LongLengthShort,
    Fault::NegativeCount,
    Fault::UnmatchedCount,
];

/// A header with a fault, behind a record of level `before`; `last` where nothing may follow a short long length.
fn header(random: &mut Random, fault: Fault, before: Option<u32>, last: bool) -> Vec<u8> {
    let any = random.below(4095);
    let length = random.pick(&[0, 1, 4093, 4094, 4094, any]);
    let climb = random.pick(&[2, 8]);
    let level = good_level(random, before, climb);
    let draft = Draft {
        force_long: true,
        ..Draft::new(good_tag(random), level, random.bytes(length))
    };
    let mut bytes = Vec::new();
    write_record(&mut bytes, &draft);
    match fault {
        Fault::FirstFourCut => bytes.truncate(random.from_to(1, 3)),
        Fault::LongLengthCut => bytes.truncate(random.from_to(4, 7)),
        _ if last || random.once_in(2) => bytes.truncate(8),
        _ => {}
    }
    bytes
}

fn any_control(random: &mut Random) -> [u16; 8] {
    let (inline, extended) = (random.pick(&INLINE), random.pick(&EXTENDED));
    let code = random.pick(&[3, inline, extended]);
    control(random, code)
}

/// Units that break no rule, but for the end that they lack; at times as many as make a long record.
fn units_of(random: &mut Random) -> Vec<u16> {
    let long = if random.once_in(6) {
        random.from_to(2040, 2060)
    } else {
        0
    };
    let mut units: Vec<u16> = (0..long).map(|_| ordinary(random)).collect();
    for _ in 0..random.pick(&[0, 0, 1, 3]) {
        match random.below(4) {
            0 => units.push(random.pick(&ONE)),
            1 => units.extend(any_control(random)),
            _ => units.extend((0..random.below(9)).map(|_| ordinary(random))),
        }
    }
    units
}

/// The units of a text that breaks the rules first in this way; what stands behind may break them again.
fn wrong_units(random: &mut Random, wrong: Wrong) -> Vec<u16> {
    let mut units = units_of(random);
    let mut whole = any_control(random);
    let any = ordinary(random);
    let ends: [&[u16]; 5] = [&[], &[13], &[any, 13], &[0, 13], &[any]];
    let end = random.pick(&ends);
    match wrong {
        Wrong::Zero => units.push(0),
        Wrong::EndBeforeTheEnd => units.extend([13, random.pick(&[13, 0, 3, any])]),
        Wrong::ControlCutShort => {
            units.extend(&whole[..random.from_to(1, 7)]);
            return units;
        }
        Wrong::ClosingCode => {
            let others = [0, 13, 4, 5, any, whole[0] + 256];
            whole[7] = random.pick(&others.map(|other| other + u16::from(other == whole[0])));
            units.extend(whole);
        }
        Wrong::EndLacking => {
            let last: [&[u16]; 3] = [&[any], &[10], &whole];
            units.extend(random.pick(&last));
            return units;
        }
    }
    units.extend(end);
    units
}

/// How many entries a record has, at times more than so many, which make it long.
fn how_many(random: &mut Random, long: usize) -> usize {
    if random.once_in(6) {
        return long + random.below(9);
    }
    random.pick(&[1, 2, 3, 5, 9])
}

/// An entry among so many: often the first, the second or the last.
fn which(random: &mut Random, entries: usize) -> usize {
    let any = random.below(entries);
    random.pick(&[0, 1 % entries, entries / 2, entries - 1, any])
}

/// Starts of which one is at fault; at times a later one does not rise either.
fn wrong_starts(random: &mut Random, entries: usize, count: usize) -> Vec<u32> {
    let rising = (0..entries).map(|nth| (nth * count / entries) as u32);
    let mut starts: Vec<u32> = rising.collect();
    let (nth, count) = (which(random, entries), count as u32);
    let high = random.pick(&[count + 1, 1 << 31, u32::MAX]);
    starts[nth] = match nth.checked_sub(1).map(|before| starts[before]) {
        None => random.pick(&[1, count, high]),
        Some(before) => {
            let below = before.saturating_sub(1);
            random.pick(&[before, below, below, count, high])
        }
    };
    if random.once_in(3) && nth + 1 < entries {
        starts[random.from_to(nth + 1, entries - 1)] = 0;
    }
    starts
}

/// Marks of which one is at fault, by either rule or both; at times a later one's start is above its end too.
fn wrong_marks(random: &mut Random, entries: usize, count: usize) -> Vec<[u32; 2]> {
    let count = count as u32;
    let mut marks = vec![[0, 0]; entries];
    for mark in &mut marks {
        *mark = random.pick(&[[0, count], [0, 0], [count, count], [count / 2, count]]);
    }
    let nth = which(random, entries);
    let high = random.pick(&[count + 1, 1 << 31, u32::MAX]);
    marks[nth] = random.pick(&[
        [1, 0],
        [high, count],
        [count + 1, count],
        [0, high],
        [high, high],
        [u32::MAX, count + 1],
    ]);
    if random.once_in(3) && nth + 1 < entries {
        marks[random.from_to(nth + 1, entries - 1)] = [1, 0];
    }
    marks
}

/// What stands in a paragraph.
struct Parts {
    units: Vec<u16>,
    starts: Vec<u32>,
    marks: Vec<[u32; 2]>,
}

impl Parts {
    fn lawful(units: Vec<u16>) -> Parts {
        Parts {
            units,
            starts: vec![0],
            marks: Vec::new(),
        }
    }

    /// A paragraph whose first fault is this one.
    fn with(random: &mut Random, fault: Fault) -> Parts {
        if let Fault::Text(wrong) = fault {
            return Parts::lawful(wrong_units(random, wrong));
        }
        let long = if fault == Fault::Shape { 512 } else { 342 };
        let entries = how_many(random, long);
        let count = entries + random.below(9);
        let ordinary = (1..count).map(|_| ordinary(random));
        let mut parts = Parts::lawful(ordinary.chain([13]).collect());
        if fault == Fault::Shape {
            parts.starts = wrong_starts(random, entries, count);
        }
        if fault == Fault::Mark || random.once_in(3) {
            parts.marks = wrong_marks(random, entries.min(400), count);
        }
        parts
    }

    /// Its records at a level; the record with the tag is the last, or they stand in any order.
    fn drafts(self, random: &mut Random, level: u32, last: Option<u32>) -> Vec<Draft> {
        let mut builder = Builder::new(random, MIXED);
        let numbers = [self.starts.len(), self.marks.len(), 0];
        let header = builder.header_body(self.units.len(), numbers);
        let shapes = builder.shapes_body(&self.starts);
        let mut own = vec![
            Draft::new(TEXT, level + 1, units_to_bytes(&self.units)),
            Draft::new(SHAPES, level + 1, shapes),
        ];
        if !self.marks.is_empty() {
            let words = self.marks.iter().flat_map(|[start, end]| [*start, *end, 9]);
            let body = words.flat_map(u32::to_le_bytes).collect();
            own.push(Draft::new(MARKS, level + 1, body));
        }
        random.shuffle(&mut own);
        own.sort_by_key(|draft| last == Some(draft.tag));
        [vec![Draft::new(PARAGRAPH, level, header)], own].concat()
    }
}

/// Paragraphs of one control each, which holds the next in a list; one more may stand at the level that is given.
fn tables(random: &mut Random, depth: u32) -> (Vec<Draft>, u32) {
    let mut drafts = Vec::new();
    for level in (0..depth).map(|outer| 2 * outer) {
        let code = random.pick(&EXTENDED);
        let units = [&control(random, code)[..], &[13]].concat();
        drafts.extend(Parts::lawful(units).drafts(random, level, None));
        drafts.push(Draft::new(CONTROL, level + 1, random.bytes(8)));
        for _ in 0..random.below(3) {
            drafts.push(Draft::new(LIST, level + 2, random.bytes(6)));
            let cell = Parts::lawful(vec![65, 13]);
            drafts.extend(cell.drafts(random, level + 2, None));
        }
        drafts.push(Draft::new(LIST, level + 2, random.bytes(6)));
    }
    (drafts, 2 * depth)
}

/// Records with the fault, in tables or not; where it is `last`, nothing stands behind what is at fault.
fn end(random: &mut Random, fault: Fault, last: bool) -> Vec<u8> {
    if let Fault::NegativeCount | Fault::UnmatchedCount = fault {
        let negative = fault == Fault::NegativeCount;
        return write_stream(&childless(random, negative, last));
    }
    let depth = random.pick(&[0, 0, 0, 1, 3, 5]);
    let (mut drafts, level) = tables(random, depth);
    let tag = match fault {
        Fault::Text(_) => TEXT,
        Fault::Shape => SHAPES,
        Fault::Mark => MARKS,
        _ => {
            let before = drafts.last().map(|draft| draft.level);
            let cut = header(random, fault, before, last);
            return [write_stream(&drafts), cut].concat();
        }
    };
    let parts = Parts::with(random, fault);
    drafts.extend(parts.drafts(random, level, last.then_some(tag)));
    write_stream(&drafts)
}

/// A short stream with the fault, at times with lawful records in front of it, and behind it where they can be.
pub fn short(random: &mut Random, fault: Fault) -> Vec<u8> {
    let more = |random: &mut Random| match random.below(2) {
        0 => Vec::new(),
        _ => write_stream(&section(random, MIXED).0),
    };
    let last = random.once_in(3);
    let end = end(random, fault, last);
    match fault {
        Fault::NegativeCount | Fault::UnmatchedCount => end,
        Fault::FirstFourCut | Fault::LongLengthCut => [more(random), end].concat(),
        _ if last => [more(random), end].concat(),
        _ => [more(random), end, more(random)].concat(),
    }
}

/// The most bytes of records in front of the one that makes a stream long.
const FRONT: usize = 200_000;

/// A stream of exactly so many bytes, with the fault at its end.
pub fn long(random: &mut Random, fault: Fault, length: usize) -> Vec<u8> {
    let end = end(random, fault, true);
    let front = match fault {
        Fault::NegativeCount | Fault::UnmatchedCount => Vec::new(),
        _ => real(random, FRONT.min(length / 4)).0,
    };
    let rest = length - front.len() - end.len();
    let tag = random.pick(&[73, 200, 1023]);
    let pad = padding_of(random, tag, rest);
    [front, write_stream(&[pad]), end].concat()
}

//! DocInfo streams: records 16 and 17 with children and counts, and what can be wrong with them.

use crate::cases::records::{good_drafts, rooms, stream, write_stream, Draft};
use crate::cases::trees;
use crate::judge::Case;
use crate::random::Random;
use crate::subject::Kind;
use oracle::{LIMIT, LISTS};

const GROUPS: [u32; 10] = [18, 19, 20, 21, 22, 23, 24, 25, 26, 92];

/// A part of a DocInfo stream: record 16, record 17 with all below it, or other records.
type Part = Vec<Draft>;

/// Sixteen counts for the numbers of children of the ten groups; the second group is split over seven.
fn counts(random: &mut Random, groups: &[usize; 10]) -> [i64; 16] {
    let mut counts = [0; 16];
    counts[0] = groups[0] as i64;
    for _ in 0..groups[1] {
        counts[random.from_to(1, 7)] += 1;
    }
    for group in 2..10 {
        counts[group + 6] = groups[group] as i64;
    }
    counts
}

/// How record 17 is written: the bytes of a count, and those of the body.
#[derive(Clone, Copy)]
struct Form {
    width: usize,
    length: usize,
}

impl Form {
    /// A form that DocInfo read takes; behind sixteen wide counts stand any others.
    fn right(random: &mut Random) -> Form {
        let several = 4 * random.from_to(15, 40);
        match random.below(40) {
            0..=13 => NARROW,
            14 => wide(random.pick(&[4092, 4096, 4100])),
            15..=18 => wide(several),
            _ => wide(random.pick(&[60, 60, 60, 64, 64, 64, 68, 72, 72, 76, 80])),
        }
    }

    /// Either width with any length about those that are right, those of the other width more often.
    fn any(random: &mut Random) -> Form {
        match random.below(10) {
            0 => wide(random.pick(&[0, 4, 16, 4095, 4097, 4098])),
            1 => wide(NARROW.length),
            2 => Form {
                length: random.pick(&[60, 64]),
                ..NARROW
            },
            _ => Form {
                width: random.pick(&[2, 4]),
                length: random.from_to(28, 80),
            },
        }
    }

    /// The highest count of the width.
    fn highest(self) -> i64 {
        (1 << (8 * self.width - 1)) - 1
    }

    /// The counts, cut at the length; where it is longer, later counts of 32 bits, the signs and the ends among them.
    fn body(self, random: &mut Random, counts: &[i64; 16]) -> Vec<u8> {
        let bytes = |count: &i64| count.to_le_bytes()[..self.width].to_vec();
        let mut body: Vec<u8> = counts.iter().flat_map(bytes).collect();
        while body.len() < self.length {
            let any = random.next() as i32;
            let later = random.pick(&[0, 0, 1, -1, i32::MIN, i32::MAX, any]);
            body.extend_from_slice(&later.to_le_bytes());
        }
        body.truncate(self.length);
        body
    }
}

const NARROW: Form = Form {
    width: 2,
    length: 32,
};

const fn wide(length: usize) -> Form {
    Form { width: 4, length }
}

/// A child of record 17, at times with children of its own, which no count is about.
fn child(random: &mut Random, tag: u32) -> Part {
    let length = random.below(12);
    let mut part = vec![Draft::new(tag, 1, random.bytes(length))];
    if random.once_in(5) {
        for _ in 0..random.from_to(1, 3) {
            let tag = random.pick(&GROUPS);
            let level = random.from_to(2, part.last().map_or(2, |above| above.level as usize + 1));
            part.push(Draft::new(tag, level as u32, Vec::new()));
        }
    }
    part
}

/// Record 17 with this body, and children for the groups.
fn counted(random: &mut Random, groups: &[usize; 10], body: Vec<u8>) -> Part {
    let mut children: Vec<Part> = Vec::new();
    for (group, &tag) in groups.iter().zip(&GROUPS) {
        for _ in 0..*group {
            children.push(child(random, tag));
        }
    }
    for _ in 0..random.below(3) {
        let tag = random.pick(&[27, 91, 93, 67, 200]);
        children.push(child(random, tag));
    }
    if random.once_in(2) {
        random.shuffle(&mut children);
    }
    let mut part = vec![Draft::new(17, 0, body)];
    part.extend(children.into_iter().flatten());
    part
}

/// Records of other tags, a few levels deep; some have the tags that are counted below 17.
fn others(random: &mut Random) -> Part {
    let count = random.below(4);
    let mut part = good_drafts(random, count);
    for draft in &mut part {
        if draft.tag == 16 || draft.tag == 17 {
            draft.tag = 27;
        }
        if random.once_in(3) {
            draft.tag = random.pick(&GROUPS);
        }
        draft.body.truncate(40);
    }
    part
}

fn properties(random: &mut Random) -> Part {
    let length = random.pick(&[30, 30, 31, 60, 5000]);
    vec![Draft::new(16, 0, random.bytes(length))]
}

/// Adds to the six counts of faces beside this one, as much to each as leaves it at most `most`.
fn add_beside(counts: &mut [i64; 16], beside: usize, mut more: i64, most: i64) {
    for step in 1..7 {
        let count = &mut counts[1 + (beside - 1 + step) % 7];
        let part = more.min(most - *count);
        *count += part;
        more -= part;
    }
}

/// Counts at a sign bit: of the narrow width, and for the wide one also of its own and of the half below it.
const AT_SIGNS: [i64; 8] = [
    -1,
    -32_768,
    32_767,
    32_768,
    65_535,
    0x1_8000,
    -(1 << 31),
    (1 << 31) - 1,
];

/// Those that a count of so many bytes can be.
pub fn at_signs(width: usize) -> &'static [i64] {
    match width {
        2 => &AT_SIGNS[..3],
        _ => &AT_SIGNS,
    }
}

/// Makes counts wrong: off by one, at a sign bit, with only half of the bits right, swapped, negative with the sum kept,
/// or with a sum that is right only where it wraps at either width.
fn break_counts(random: &mut Random, counts: &mut [i64; 16], form: Form) {
    let (any, face) = (random.below(16), random.from_to(1, 7));
    let highest = form.highest();
    match random.below(9) {
        0 => counts[any] += 1,
        1 => counts[any] -= 1,
        2 | 3 => counts[any] = random.pick(at_signs(form.width)),
        4 => counts[any] += 1 << (4 * form.width),
        5 => counts.swap(any, random.below(16)),
        6 => {
            let negative = random.pick(&[-1, -highest - 1]);
            let more = counts[face] - negative;
            counts[face] = negative;
            add_beside(counts, face, more, highest);
        }
        7 => add_beside(counts, face, 1 << 16, highest),
        _ => {
            let most = random.pick(&[highest, highest / 2 + 1]);
            add_beside(counts, face, 2 * (highest + 1), most);
        }
    }
}

/// Makes the body's length wrong, or just right.
fn break_length(random: &mut Random, draft: &mut Draft) {
    let length = if draft.tag == 16 {
        random.pick(&[0, 1, 28, 29, 29, 30])
    } else {
        Form::any(random).length
    };
    draft.body.resize(length, 0);
}

/// Takes away, doubles, nests or moves a record 16 or 17.
fn break_place(random: &mut Random, parts: &mut Vec<Part>) {
    let tag = random.pick(&[16, 17]);
    let found = parts
        .iter()
        .position(|part| part.first().is_some_and(|d| d.tag == tag));
    let Some(index) = found else { return };
    match random.below(6) {
        0 => {
            parts.remove(index);
        }
        1 => {
            let copy = parts[index].clone();
            parts.insert(random.below(parts.len() + 1), copy);
        }
        2 => {
            let nested = parts[index].iter().cloned();
            let nested = nested.map(|draft| Draft {
                level: draft.level + 1,
                ..draft
            });
            let above = Draft::new(random.pick(&[27, 16, 17]), 0, vec![0; 32]);
            parts[index] = std::iter::once(above).chain(nested).collect();
        }
        3 => {
            let draft = Draft::new(tag, 1, parts[index][0].body.clone());
            let onto = random.below(parts.len());
            if !parts[onto].is_empty() {
                parts[onto].push(draft);
            }
        }
        4 => {
            let draft = Draft::new(random.pick(&[16, 17]), 0, vec![0; 32]);
            parts.insert(random.below(parts.len() + 1), vec![draft]);
        }
        _ => parts[index][0].tag = random.pick(&[16, 17, 27]),
    }
}

/// Records 16 and 17 with what belongs to them; the damage says what is wrong with the counts.
fn two_parts(random: &mut Random, damage: usize) -> Vec<Part> {
    let groups = [0; 10].map(|_| random.pick(&[0, 0, 1, 2, 3, 7]));
    let mut counts = counts(random, &groups);
    let mut form = Form::right(random);
    let mut present = groups;
    match damage {
        0..=2 => {
            for _ in 0..random.pick(&[1, 1, 1, 2, 3]) {
                break_counts(random, &mut counts, form);
            }
        }
        3 => present[random.pick(&[0, 1, 2, 3, 4, 5, 6, 7, 8, 8, 9, 9])] += 1,
        4..=6 => form = Form::any(random),
        _ => {}
    }
    let body = form.body(random, &counts);
    vec![properties(random), counted(random, &present, body)]
}

fn parts(random: &mut Random) -> Vec<Part> {
    let damage = random.below(16);
    let mut parts = two_parts(random, damage);
    if random.once_in(4) {
        parts.swap(0, 1);
    }
    for index in [2, 1, 0] {
        if random.once_in(3) {
            let part = others(random);
            parts.insert(index, part);
        }
    }
    if matches!(damage, 7 | 8) {
        let all = random.once_in(3);
        let found = parts.iter_mut().flatten();
        for draft in found.filter(|draft| draft.tag == 16 || draft.tag == 17) {
            if all || random.once_in(2) {
                break_length(random, draft);
            }
        }
    }
    if matches!(damage, 8..=10) {
        for _ in 0..random.from_to(1, 2) {
            break_place(random, &mut parts);
        }
    }
    parts
}

pub fn case(random: &mut Random) -> Case {
    let (stream, count) = if random.once_in(8) {
        stream(random)
    } else {
        let mut drafts: Vec<Draft> = parts(random).concat();
        if random.once_in(10) {
            drafts.extend(trees::drafts(random));
        }
        let mut bytes = write_stream(&drafts);
        if random.once_in(20) {
            bytes.truncate(random.below(bytes.len() + 1));
        }
        (bytes, drafts.len())
    };
    let rooms = if random.once_in(4) {
        rooms(random, count)
    } else {
        [count + 4; LISTS]
    };
    Case::Read {
        kind: Kind::DocInfo,
        stream,
        rooms,
    }
}

/// Records 16 and 17 without children, so that every count is 0 but one or two: negative ones, or groups that do not
/// match. The last that is asked is one of them where it must be the `last`.
pub fn childless(random: &mut Random, negative: bool, last: bool) -> Part {
    let long = wide(if last { 64 } else { 4096 });
    let form = random.pick(&[NARROW, NARROW, NARROW, wide(60), wide(64), long]);
    let asked = (form.length / form.width).min(16);
    let mut counts = [0; 16];
    if !last {
        counts[random.below(asked)] = 1;
    }
    let any = random.below(asked);
    counts[if last { asked - 1 } else { any }] = match negative {
        true => random.pick(&[-1, -form.highest() - 1]),
        false => random.pick(&[1, form.highest()]),
    };
    let mut part = properties(random);
    part.push(Draft::new(17, 0, form.body(random, &counts)));
    part
}

/// The number of kinds of long cases.
pub const LONG_KINDS: usize = 8;

/// The form of record 17, its counts other than 0, and the numbers of children by tag.
type Long = (Form, &'static [(usize, i64)], &'static [(u32, usize)]);

/// As many children as the counts can say, and more than 16 bits can count.
const LONG: [Long; LONG_KINDS] = [
    // the seven counts at their highest
    (
        NARROW,
        &[
            (1, 32_767),
            (2, 32_767),
            (3, 32_767),
            (4, 32_767),
            (5, 32_767),
            (6, 32_767),
            (7, 32_767),
        ],
        &[(19, 7 * 32_767)],
    ),
    // more than one count could say, and a count at its highest
    (
        NARROW,
        &[(2, 32_767), (7, 7233), (15, 32_767)],
        &[(19, 40_000), (92, 32_767)],
    ),
    // a number of children that 16 bits would take for the count
    (NARROW, &[(8, 5)], &[(20, 65_536 + 5)]),
    // a count that would say the number of children if it had no sign
    (NARROW, &[(9, 40_000)], &[(21, 40_000)]),
    (NARROW, &[(3, 3)], &[(19, 65_536 + 3)]),
    // over the limit
    (NARROW, &[], &[(18, LIMIT / 4)]),
    // wide counts with a sign in their lower half, and beyond it
    (
        wide(64),
        &[(3, 65_536 + 3), (8, 40_000), (15, 65_535)],
        &[(19, 65_536 + 3), (20, 40_000), (92, 65_535)],
    ),
    // as many children as only the absent sixteenth count would say
    (wide(60), &[(14, 65_536)], &[(26, 65_536), (92, 65_537)]),
];

pub fn long_case(random: &mut Random, which: usize) -> Case {
    let (form, counted, children) = LONG[which % LONG_KINDS];
    let mut counts = [0; 16];
    for &(nth, count) in counted {
        counts[nth] = count;
    }
    let mut drafts = properties(random);
    drafts.push(Draft::new(17, 0, form.body(random, &counts)));
    for &(tag, number) in children {
        drafts.extend((0..number).map(|_| Draft::new(tag, 1, Vec::new())));
    }
    Case::Read {
        kind: Kind::DocInfo,
        stream: write_stream(&drafts),
        rooms: [drafts.len() + 1; LISTS],
    }
}

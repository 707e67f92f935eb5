//! Damage to the records of a section: each rule of a paragraph is broken, and nearly broken.

use crate::cases::paragraphs::{control, EXTENDED, INLINE, ONE};
use crate::cases::paragraphs::{CONTROL, DATA, LAYOUT, LIST, MARKS, PARAGRAPH, SHAPES, TEXT};
use crate::cases::records::Draft;
use crate::random::Random;

const OWN: [u32; 4] = [TEXT, SHAPES, LAYOUT, MARKS];

fn with_tag(drafts: &[Draft], tag: u32) -> Vec<usize> {
    let drafts = drafts.iter().enumerate();
    let found = drafts.filter(|(_, draft)| draft.tag == tag);
    found.map(|(index, _)| index).collect()
}

fn any_of(random: &mut Random, indexes: &[usize]) -> Option<usize> {
    if indexes.is_empty() {
        return None;
    }
    Some(random.pick(indexes))
}

/// The index behind the last record below a record.
fn end_of(drafts: &[Draft], index: usize) -> usize {
    let below = drafts[index + 1..].iter();
    let below = below.take_while(|draft| draft.level > drafts[index].level);
    index + 1 + below.count()
}

fn child(drafts: &[Draft], parent: usize, tag: u32) -> Option<usize> {
    let level = drafts[parent].level + 1;
    let below = parent + 1..end_of(drafts, parent);
    below
        .into_iter()
        .find(|&index| drafts[index].level == level && drafts[index].tag == tag)
}

fn half_at(body: &[u8], place: usize) -> Option<u16> {
    let bytes = body.get(place..place + 2)?;
    Some(u16::from_le_bytes([bytes[0], bytes[1]]))
}

fn set(body: &mut [u8], place: usize, bytes: &[u8]) {
    if let Some(part) = body.get_mut(place..place + bytes.len()) {
        part.copy_from_slice(bytes);
    }
}

fn word_at(body: &[u8], place: usize) -> Option<u32> {
    let bytes = body.get(place..place + 4)?;
    Some(u32::from_le_bytes([bytes[0], bytes[1], bytes[2], bytes[3]]))
}

fn shorten_header(random: &mut Random, draft: &mut Draft) {
    let any = random.below(22);
    let length = random.pick(&[0, 3, 12, 21, 21, 22, any]);
    draft.body.truncate(length);
}

/// A record 67 to 70 where it must not stand, or a second one, or one with a child.
fn misplace(random: &mut Random, drafts: &mut Vec<Draft>) {
    let index = random.below(drafts.len());
    let draft = drafts[index].clone();
    let own = random.pick(&OWN);
    match random.below(7) {
        0 => drafts[index].tag = own,
        1 => drafts.insert(index, Draft::new(own, draft.level, Vec::new())),
        2 => drafts.insert(index + 1, Draft::new(own, draft.level + 1, Vec::new())),
        3 => drafts.push(Draft::new(own, 0, vec![0; 8])),
        4 => {
            let found = with_tag(drafts, own);
            if let Some(index) = any_of(random, &found) {
                let copy = drafts[index].clone();
                drafts.insert(index + 1, copy);
            }
        }
        5 => {
            let found = with_tag(drafts, PARAGRAPH);
            if let Some(parent) = any_of(random, &found) {
                let level = drafts[parent].level + 1;
                let end = end_of(drafts, parent);
                drafts.insert(end, Draft::new(own, level, vec![0; 8]));
            }
        }
        _ => {
            let found = with_tag(drafts, own);
            if let Some(index) = any_of(random, &found) {
                let tag = random.pick(&[PARAGRAPH, TEXT, SHAPES, CONTROL, LIST, DATA, 16, 200]);
                let level = drafts[index].level + 1;
                for _ in 0..random.from_to(1, 2) {
                    drafts.insert(index + 1, Draft::new(tag, level, vec![0; 8]));
                }
            }
        }
    }
}

/// Takes a record away from a paragraph, or adds one that its number says is not there.
fn take_or_add(random: &mut Random, drafts: &mut Vec<Draft>, paragraph: usize) {
    let tag = random.pick(&OWN);
    match child(drafts, paragraph, tag) {
        Some(index) => {
            drafts.remove(index);
        }
        None => {
            let level = drafts[paragraph].level + 1;
            let length = random.pick(&[0, 0, 2, 12]);
            let draft = Draft::new(tag, level, vec![0; length]);
            drafts.insert(paragraph + 1, draft);
        }
    }
}

/// Changes one of the numbers in a paragraph header.
fn change_number(random: &mut Random, body: &mut [u8]) {
    let place = random.pick(&[0, 12, 14, 16]);
    let Some(number) = half_at(body, place) else {
        return;
    };
    let (more, less) = (number.wrapping_add(1), number.wrapping_sub(1));
    let number = random.pick(&[0, 1, 2, more, less, 0x8000 | number]);
    set(body, place, &number.to_le_bytes());
    if place == 0 && random.once_in(4) {
        let high = random.pick(&[0u16, 1, 0x7FFF, 0x8000, 0xFFFF]);
        set(body, 2, &high.to_le_bytes());
    }
}

/// Makes a body longer or shorter by a little.
fn change_length(random: &mut Random, body: &mut Vec<u8>) {
    let by = random.pick(&[1, 2, 4, 8, 12]);
    let length = if random.once_in(2) {
        body.len() + by
    } else {
        body.len().saturating_sub(by)
    };
    body.resize(length, 0);
}

/// Changes units of a text: any unit, the last, or the closing code of a control.
fn change_text(random: &mut Random, body: &mut [u8]) {
    let units = body.len() / 2;
    if units == 0 {
        return;
    }
    let code = random.below(32) as u16;
    let unit = random.pick(&[0, 13, 3, 4, 31, 32, 10, code, code]);
    let starts = (0..units).filter(|&at| half_at(body, 2 * at).is_some_and(|unit| unit < 32));
    let starts: Vec<usize> = starts.collect();
    let below = any_of(random, &starts).unwrap_or(0);
    let any = random.below(units);
    let at = random.pick(&[any, any, units - 1, below, below + 7]);
    set(body, 2 * at, &unit.to_le_bytes());
}

/// Ends a paragraph's text otherwise, and makes its count fit: a cut control, no 13, 13 twice, or right.
fn end_text(random: &mut Random, drafts: &mut [Draft], paragraph: usize) {
    let Some(text) = child(drafts, paragraph, TEXT) else {
        return;
    };
    let code = random.pick(&[INLINE[1], EXTENDED[2], 3, 9]);
    let whole = control(random, code);
    let kept = random.from_to(1, 8);
    let one = random.pick(&ONE);
    let ends: [&[u16]; 7] = [
        &whole[..kept],
        &whole,
        &[],
        &[13, 13],
        &[65],
        &[0, 13],
        &[one, 13],
    ];
    let end = random.pick(&ends);
    let body = &mut drafts[text].body;
    body.truncate(body.len().saturating_sub(2));
    body.extend(end.iter().flat_map(|unit| unit.to_le_bytes()));
    let count = (body.len() / 2) as u32;
    set(&mut drafts[paragraph].body, 0, &count.to_le_bytes());
}

/// Changes a shape start or a mark, to the edge or past it.
fn change_entry(random: &mut Random, drafts: &mut [Draft], paragraph: usize) {
    let tag = random.pick(&[SHAPES, SHAPES, MARKS]);
    let Some(index) = child(drafts, paragraph, tag) else {
        return;
    };
    let count = word_at(&drafts[paragraph].body, 0).unwrap_or(0) & 0x7FFF_FFFF;
    let width = if tag == SHAPES { 8 } else { 12 };
    let body = &mut drafts[index].body;
    let entries = body.len() / width;
    if entries == 0 {
        return;
    }
    let entry = random.below(entries);
    let place = width * entry
        + if tag == MARKS {
            random.pick(&[0, 4])
        } else {
            0
        };
    let near = random.pick(&[entry.saturating_sub(1), entry, (entry + 1) % entries]);
    let other = word_at(body, width * near).unwrap_or(0);
    let beside = word_at(body, width * entry + 4).unwrap_or(0);
    let own = word_at(body, place).unwrap_or(0);
    let number = random.pick(&[
        0,
        1,
        other,
        other.wrapping_add(1),
        other.wrapping_sub(1),
        own.wrapping_add(1),
        beside.wrapping_add(1),
        count,
        count,
        count.wrapping_sub(1),
        count + 1,
        u32::MAX,
        1 << 31,
    ]);
    set(body, place, &number.to_le_bytes());
}

/// Takes a control header away, adds one, or moves one a level down.
fn change_controls(random: &mut Random, drafts: &mut Vec<Draft>, paragraph: usize) {
    let level = drafts[paragraph].level + 1;
    let below = paragraph + 1..end_of(drafts, paragraph);
    let found = below.filter(|&index| drafts[index].level == level && drafts[index].tag == CONTROL);
    let found: Vec<usize> = found.collect();
    let chosen = any_of(random, &found);
    match (random.below(4), chosen) {
        (0, Some(index)) => {
            let end = end_of(drafts, index);
            drafts.drain(index..end);
        }
        (1, Some(index)) => {
            let end = end_of(drafts, index);
            let body = drafts[index].body.clone();
            drafts.insert(end, Draft::new(CONTROL, level, body));
        }
        (2, Some(index)) => drafts[index].tag = random.pick(&[LIST, DATA, 73]),
        _ => {
            let at = end_of(drafts, paragraph);
            let length = random.pick(&[0, 15, 20]);
            let draft = Draft::new(CONTROL, level, vec![0; length]);
            let at = random.pick(&[at, paragraph + 1]);
            drafts.insert(at, draft);
        }
    }
}

/// Shortens a control header, or changes its command length: to the edge or past it.
fn change_control(random: &mut Random, draft: &mut Draft) {
    let command = usize::from(half_at(&draft.body, 9).unwrap_or(0));
    if random.once_in(2) {
        let exact = 15 + 2 * command;
        let length = random.pick(&[0, 8, 10, 14, 14, 15, exact - 1, exact - 1, exact]);
        draft.body.truncate(length);
    } else {
        let fits = draft.body.len().saturating_sub(15) / 2;
        let command = random.pick(&[fits, fits + 1, fits + 1, 0, 65_535]);
        set(&mut draft.body, 9, &(command as u16).to_le_bytes());
    }
}

/// Moves a record with all below it up or down a level.
fn change_level(random: &mut Random, drafts: &mut [Draft]) {
    let index = random.below(drafts.len());
    let end = end_of(drafts, index);
    let down = random.once_in(2);
    for draft in &mut drafts[index..end] {
        draft.level = if down {
            draft.level + 1
        } else {
            draft.level.saturating_sub(1)
        };
    }
}

/// Breaks, or nearly breaks, one rule.
pub fn damage(random: &mut Random, drafts: &mut Vec<Draft>) {
    let paragraphs = with_tag(drafts, PARAGRAPH);
    let Some(paragraph) = any_of(random, &paragraphs) else {
        if !drafts.is_empty() {
            misplace(random, drafts);
        }
        return;
    };
    match random.below(13) {
        0 => shorten_header(random, &mut drafts[paragraph]),
        1 => misplace(random, drafts),
        2 => take_or_add(random, drafts, paragraph),
        3 => change_number(random, &mut drafts[paragraph].body),
        4 => {
            let tag = random.pick(&OWN);
            if let Some(index) = child(drafts, paragraph, tag) {
                change_length(random, &mut drafts[index].body);
            }
        }
        5 => {
            if let Some(index) = child(drafts, paragraph, TEXT) {
                change_text(random, &mut drafts[index].body);
            }
        }
        6 => end_text(random, drafts, paragraph),
        7 | 8 => change_entry(random, drafts, paragraph),
        9 => change_controls(random, drafts, paragraph),
        10 | 11 => {
            let found = with_tag(drafts, CONTROL);
            if let Some(index) = any_of(random, &found) {
                change_control(random, &mut drafts[index]);
            }
        }
        _ => change_level(random, drafts),
    }
}

//! Paragraphs nested in each other at any level: lawful ones, with fields, and ones that break rules 8 and 10 to 15.

use crate::cases::chain::{edge_levels, level_between, Chain, Links};
use crate::cases::paragraphs::{control, deep, field_body, ordinary, units_to_bytes, Text};
use crate::cases::paragraphs::{CONTROL, EXTENDED, LAYOUT, MARKS, PARAGRAPH, SHAPES, TEXT};
use crate::cases::records::Draft;
use crate::cases::trees::DEEPEST;
use crate::random::Random;

/// The numbers of a paragraph's rules.
pub const NUMBERS: [u8; 7] = [8, 10, 11, 12, 13, 14, 15];

/// The deepest level of a paragraph: below it there is room for its shapes.
pub const LAST: u32 = DEEPEST - 1;

/// A paragraph: the body of its header, and tag and body of each record below it.
struct Paragraph {
    header: Vec<u8>,
    below: Vec<(u32, Vec<u8>)>,
}

/// An extended control, or a field with its id.
fn piece(random: &mut Random, field: bool, text: &mut Text) {
    if !field {
        let code = random.pick(&EXTENDED);
        text.units.extend(control(random, code));
        return text.controls.push(None);
    }
    text.units.extend(control(random, 3));
    let value = random.below(4);
    text.units.extend((0..value).map(|_| ordinary(random)));
    text.units.extend(control(random, 4));
    text.controls.push(Some(random.next() as u32));
}

/// A text for a paragraph with the fault: one with a field for 15, one with two units or more for 12.
fn text(random: &mut Random, fault: Option<u8>) -> Text {
    let mut text = Text {
        units: Vec::new(),
        controls: Vec::new(),
    };
    let kind = match fault {
        Some(15) => 3,
        Some(12) => random.from_to(1, 3),
        _ => random.pick(&[0, 1, 2, 3, 3, 3]),
    };
    if kind == 0 {
        return text;
    }
    text.units.push(ordinary(random));
    for nth in 1..kind {
        let field = nth == 2 || random.once_in(2);
        piece(random, field, &mut text);
    }
    text.units.push(13);
    text
}

impl Paragraph {
    /// A paragraph whose first fault has the number, or a lawful one; the ids of its fields are noted.
    fn new(random: &mut Random, fault: Option<u8>, ids: &mut Vec<u32>) -> Paragraph {
        let text = text(random, fault);
        let mut header = vec![0; 22];
        header[0..4].copy_from_slice(&(text.units.len() as u32).to_le_bytes());
        header[12] = 1;
        let mut below = vec![(SHAPES, vec![0; 8])];
        if !text.units.is_empty() {
            below.push((TEXT, units_to_bytes(&text.units)));
        }
        if random.once_in(4) {
            header[16] = 1;
            below.push((LAYOUT, Vec::new()));
        }
        // a field beside marks is not filled
        if random.once_in(3) && text.controls.iter().all(Option::is_none) {
            header[14] = 1;
            below.push((MARKS, vec![0; 12]));
        }
        random.shuffle(&mut below);
        let mut paragraph = Paragraph { header, below };
        for id in text.controls {
            paragraph.control(random, id);
            ids.extend(id);
        }
        if let Some(number) = fault {
            paragraph.break_rule(random, number);
        }
        paragraph
    }

    /// A control header behind those that are there, at times before another record.
    fn control(&mut self, random: &mut Random, id: Option<u32>) {
        let body = id.map_or(Vec::new(), |id| field_body(random, id));
        let end = self.below.len();
        let last = self.below.iter().rposition(|(tag, _)| *tag == CONTROL);
        let at = random.pick(&[end, end, end - 1]);
        let at = last.map_or(at, |last| at.max(last + 1));
        self.below.insert(at, (CONTROL, body));
    }

    /// The body of its last record with the tag.
    fn body(&mut self, tag: u32) -> Option<&mut Vec<u8>> {
        let mut below = self.below.iter_mut().rev();
        below.find(|(other, _)| *other == tag).map(|(_, body)| body)
    }

    fn remove(&mut self, tag: u32) {
        self.below.retain(|(other, _)| *other != tag);
    }

    fn break_rule(&mut self, random: &mut Random, number: u8) {
        let text = self.body(TEXT).is_some();
        match number {
            8 => self.header.truncate(random.below(22)),
            10 if text && random.once_in(3) => self.remove(TEXT),
            10 => self.remove(SHAPES),
            11 if self.header[16] == 0 && random.once_in(3) => {
                self.below.push((LAYOUT, Vec::new()));
            }
            14 if self.body(CONTROL).is_none() || random.once_in(2) => {
                self.below.push((CONTROL, Vec::new()));
            }
            14 => {
                let last = self.below.iter().rposition(|(tag, _)| *tag == CONTROL);
                self.below.remove(last.unwrap_or(0));
            }
            _ => self.break_body(random, number),
        }
    }

    /// 11 and 13 by the shapes or the marks, 12 by the text, which lacks its end, 15 by the last field.
    fn break_body(&mut self, random: &mut Random, number: u8) {
        let short = random.below(15);
        let tag = match number {
            12 => TEXT,
            15 => CONTROL,
            _ if self.header[14] > 0 && random.once_in(2) => MARKS,
            _ => SHAPES,
        };
        let Some(body) = self.body(tag) else { return };
        match number {
            11 => body.extend([1; 8]),
            12 => {
                let last = body.len() - 2;
                body[last] = 65;
            }
            13 => body[0] = 1,
            _ => body.truncate(short),
        }
    }
}

/// Paragraphs at levels, each nested in the one before it.
type Nest = Vec<(u32, Paragraph)>;

impl Chain<'_> {
    /// A nest on a chain from a level down; what is nested stands before, behind or between a paragraph's own records.
    fn nest(&mut self, from: u32, mut nest: std::vec::IntoIter<(u32, Paragraph)>) {
        let Some((level, paragraph)) = nest.next() else {
            return;
        };
        self.down(from, level);
        self.twin(level);
        let Paragraph { header, mut below } = paragraph;
        let any = self.random.below(below.len() + 1);
        let behind = below.split_off(self.random.pick(&[0, 0, any, below.len()]));
        self.put(PARAGRAPH, level, header);
        for (tag, body) in below {
            self.put(tag, level + 1, body);
        }
        let inner = nest.as_slice().first().map(|(inner, _)| *inner);
        let control = self.drafts.last().is_some_and(|last| last.tag == CONTROL);
        let below_control = control && inner > Some(level + 1);
        self.nest(level + 1 + u32::from(below_control), nest);
        for (tag, body) in behind {
            self.put(tag, level + 1, body);
        }
        self.twin(level);
    }

    /// At times a lawful paragraph with as many records as another at the same level; its fields are nobody's.
    fn twin(&mut self, level: u32) {
        if self.random.once_in(2) {
            return;
        }
        let twin = Paragraph::new(self.random, None, &mut Vec::new());
        self.put(PARAGRAPH, level, twin.header);
        for (tag, body) in twin.below {
            self.put(tag, level + 1, body);
        }
    }
}

/// The records of nests that stand side by side, and the ids of their fields.
fn section(random: &mut Random, nests: &[&[(u32, Option<u8>)]]) -> (Vec<Draft>, Vec<u32>) {
    use Links::*;
    let mut ids = Vec::new();
    let many = random.once_in(3) && nests.len() == 1;
    let links = if many {
        Paragraphs
    } else {
        random.pick(&[Other, Other, Other, Mixed])
    };
    let mut chain = Chain::new(random, links);
    let mut reached = 0;
    for levels in nests {
        let paragraph = |&(level, fault)| (level, Paragraph::new(chain.random, fault, &mut ids));
        let nest: Nest = levels.iter().map(paragraph).collect();
        let most = reached.min(levels[0].0);
        let from = chain.random.pick(&[0, most]);
        chain.nest(from, nest.into_iter());
        reached = levels[0].0;
    }
    (chain.drafts, ids)
}

/// A section with one paragraph at fault or two, of which the first in the stream is the one to name. It goes through
/// the numbers, and through the levels at the edges of blocks, as `which` rises.
pub fn faulty(random: &mut Random, which: usize) -> (Vec<Draft>, Vec<u32>) {
    let levels = edge_levels();
    let level = levels[which % (levels.len() - 1)];
    let number = Some(NUMBERS[which % NUMBERS.len()]);
    let another = Some(random.pick(&NUMBERS));
    let any = level_between(random, 0, LAST);
    let named = (level, number);
    match random.below(6) {
        0 if level < LAST => {
            let inner = level_between(random, level + 1, LAST);
            section(random, &[&[named, (inner, another)]])
        }
        1 if level < LAST => {
            let inner = level_between(random, level + 1, LAST);
            section(random, &[&[named, (inner, None)]])
        }
        2 if level > 0 => {
            let outer = level_between(random, 0, level - 1);
            section(random, &[&[(outer, None), named]])
        }
        3 => section(random, &[&[(any, None)], &[named]]),
        _ => section(random, &[&[named], &[(any, another)]]),
    }
}

/// A lawful section of two paragraphs or more, nested to any level or to the last.
pub fn lawful(random: &mut Random) -> (Vec<Draft>, Vec<u32>) {
    let mut level = level_between(random, 0, LAST);
    let mut levels = vec![(level, None)];
    for _ in 0..random.from_to(1, 4) {
        if level < LAST {
            level = level_between(random, level + 1, LAST);
            levels.push((level, None));
        }
    }
    let any = level_between(random, 0, LAST);
    match random.once_in(2) {
        true => section(random, &[&levels]),
        false => section(random, &[&levels, &[(any, None)]]),
    }
}

/// Paragraphs at every level to the last or at every second or third, without a field.
pub fn whole(random: &mut Random) -> Vec<Draft> {
    deep(random, DEEPEST)
}

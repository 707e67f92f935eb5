//! Field text and fill: sections with fields, values at their edges, sheets at theirs.

use crate::cases::damage::damage;
use crate::cases::nests;
use crate::cases::paragraphs::{control, ordinary, section, units_to_bytes};
use crate::cases::paragraphs::{Builder, Style, Text, FIELDS, MIXED};
use crate::cases::records::{stream, write_stream, Draft};
use crate::cases::sections::{hostile, padding, real};
use crate::judge::{Case, Filling};
use crate::random::Random;
use oracle::{fill, LIMIT};

/// A style with plain fields alone, each with its own id, and no marks.
const PLAIN: Style = Style {
    fields: 3,
    marks: 1_000_000,
    nests: 2,
    long: 40,
    open: 1_000_000,
    twice: 1_000_000,
    order: 3,
};

fn plain_text(random: &mut Random, units: usize) -> Vec<u16> {
    (0..units).map(|_| ordinary(random)).collect()
}

/// One field with a value between ordinary units, so that the text has this many units.
fn text_of(random: &mut Random, before: usize, value: usize, units: usize) -> Vec<u16> {
    let mut text = plain_text(random, before);
    text.extend(control(random, 3));
    text.extend(plain_text(random, value));
    text.extend(control(random, 4));
    while text.len() + 1 < units {
        text.push(ordinary(random));
    }
    text.push(13);
    text
}

/// A section of one paragraph with one field, and its id.
fn one_field(random: &mut Random, units: Vec<u16>, starts: &[u32]) -> (Vec<Draft>, u32) {
    let id = random.next() as u32;
    let mut builder = Builder::new(random, PLAIN);
    let text = Text {
        units,
        controls: vec![Some(id)],
    };
    builder.paragraph_with(0, 0, text, starts);
    (builder.drafts, id)
}

/// A text record whose length is near 4095 bytes, and a value that may take it over the edge, up or down.
fn text_at_the_edge(random: &mut Random) -> (Vec<Draft>, Filling) {
    let before = random.pick(&[0, 1, 500]);
    let value = random.pick(&[0, 1, 3, 10, 1024]);
    let units = random.from_to(2044, 2052);
    let text = text_of(random, before, value, units);
    let end = text.len() as u32;
    let (drafts, id) = one_field(random, text, &[0, 5, end - 1]);
    let by = random.below(7);
    let units = (value + by).saturating_sub(3).min(1024);
    let value = units_to_bytes(&plain_text(random, units));
    (drafts, Filling { id, value })
}

/// More than 511 shapes, some of them inside the value: the record's length may fall below 4095 bytes.
fn shapes_at_the_edge(random: &mut Random) -> (Vec<Draft>, Filling) {
    let before = random.from_to(0, 20);
    let inside = random.from_to(0, 40);
    let text = text_of(random, before, inside, 700);
    let wanted = random.from_to(508, 540) as u32;
    let mut starts: Vec<u32> = (0..wanted).collect();
    if random.once_in(2) {
        starts = starts.iter().map(|start| start + start / 100).collect();
    }
    let (drafts, id) = one_field(random, text, &starts);
    let units = random.pick(&[0, 1, inside, 100]);
    let value = units_to_bytes(&plain_text(random, units));
    (drafts, Filling { id, value })
}

/// A value, good or not: its length in units, and at times half a unit or a unit below 32.
fn value(random: &mut Random) -> Vec<u8> {
    let units = match random.below(12) {
        0 | 1 => 0,
        2 => 1,
        3 => 1024,
        4 => 1023,
        5 => random.pick(&[1025, 1024, 1200, 4000]),
        _ => random.below(40),
    };
    let mut units = plain_text(random, units);
    if random.once_in(12) && !units.is_empty() {
        let at = random.below(units.len());
        let any = random.below(32) as u16;
        units[at] = random.pick(&[0, 13, 31, 31, any]);
    }
    let mut value = units_to_bytes(&units);
    if random.once_in(16) {
        value.push(65);
    }
    value
}

fn id_of(random: &mut Random, ids: &[u32]) -> u32 {
    if ids.is_empty() || random.once_in(12) {
        let any = random.next() as u32;
        return random.pick(&[any, 0, 1, 255]);
    }
    random.pick(ids)
}

/// A section with fields and one of their ids, or another.
fn section_and_id(random: &mut Random) -> (Vec<Draft>, u32) {
    let style = if random.once_in(5) { MIXED } else { FIELDS };
    let (mut drafts, mut ids) = section(random, style.clone());
    while ids.is_empty() && !random.once_in(3) {
        (drafts, ids) = section(random, style.clone());
    }
    if random.once_in(6) {
        damage(random, &mut drafts);
        drafts.retain(|draft| draft.level < 1024);
    }
    (drafts, id_of(random, &ids))
}

/// The section's bytes, at times damaged.
fn bytes_of(random: &mut Random, drafts: &[Draft]) -> Vec<u8> {
    let mut section = write_stream(drafts);
    if random.once_in(16) {
        let (stream, _) = stream(random);
        section.extend(stream);
    } else if random.once_in(30) {
        section.truncate(random.below(section.len() + 1));
    }
    section
}

/// The length of the sheet that a fill writes; the section's where it is refused.
fn sheet_length(section: &[u8], filling: &Filling) -> usize {
    let mut sheet = vec![0; section.len() + 4096];
    fill(section, filling.id, &filling.value, &mut sheet).unwrap_or(section.len())
}

fn sheet_for(random: &mut Random, length: usize) -> usize {
    match random.below(8) {
        0 | 1 => length,
        2 => length.saturating_sub(1),
        3 => random.below(length + 1),
        4 => length + 1,
        5 => 0,
        _ => length + random.below(3000),
    }
}

pub fn field_text_case(random: &mut Random) -> Case {
    let (drafts, id) = match random.below(10) {
        0 => {
            let (drafts, filling) = text_at_the_edge(random);
            (drafts, filling.id)
        }
        _ => section_and_id(random),
    };
    let section = bytes_of(random, &drafts);
    Case::FieldText { section, id }
}

pub fn fill_case(random: &mut Random) -> Case {
    let (drafts, filling) = match random.below(12) {
        0 => text_at_the_edge(random),
        1 => shapes_at_the_edge(random),
        _ => {
            let (drafts, id) = section_and_id(random);
            let value = value(random);
            (drafts, Filling { id, value })
        }
    };
    let section = bytes_of(random, &drafts);
    fill_with(random, section, filling)
}

/// Field text of one of the fields of a section, or of another id.
pub fn field_text_of(random: &mut Random, section: Vec<u8>, ids: &[u32]) -> Case {
    let id = id_of(random, ids);
    Case::FieldText { section, id }
}

/// A fill of one of the fields of a section, or of another id; most of the values are good.
pub fn fill_of(random: &mut Random, section: Vec<u8>, ids: &[u32]) -> Case {
    let id = id_of(random, ids);
    let value = if random.once_in(4) {
        value(random)
    } else {
        good_value(random)
    };
    fill_with(random, section, Filling { id, value })
}

fn fill_with(random: &mut Random, section: Vec<u8>, filling: Filling) -> Case {
    let length = sheet_length(&section, &filling);
    let sheet = sheet_for(random, length);
    Case::Fill {
        section,
        filling,
        sheet,
    }
}

/// A section that a fill of its last paragraph brings to so many bytes.
fn filled_to(random: &mut Random, result: usize) -> (Vec<u8>, Filling) {
    let units = random.pick(&[20, 60]);
    let text = text_of(random, 0, 3, units);
    let (drafts, id) = one_field(random, text, &[0]);
    let end = write_stream(&drafts);
    let value = plain_text(random, 100);
    let filling = Filling {
        id,
        value: units_to_bytes(&value),
    };
    let rest = result - sheet_length(&end, &filling);
    let section = [write_stream(&[padding(random, rest)]), end].concat();
    (section, filling)
}

/// The number of kinds of long fills.
pub const LONG_KINDS: usize = 8;

/// A long section, a filling of a field, and the length of a sheet.
fn long_fill(random: &mut Random, which: usize) -> (Vec<u8>, Filling, usize) {
    let near = LIMIT + random.from_to(0, 4) - 2;
    let (result, sheet) = match which % LONG_KINDS {
        0 => (LIMIT, LIMIT),
        1 => (LIMIT + 1, LIMIT + 10),
        2 => (LIMIT + 1, 100),
        3 => (LIMIT, LIMIT - 1),
        4 => (near, LIMIT + 10),
        which => return long_section(random, which),
    };
    let (section, filling) = filled_to(random, result);
    (section, filling, sheet)
}

/// A section of many paragraphs, or of many records below deep ones, or one over the limit.
fn long_section(random: &mut Random, which: usize) -> (Vec<u8>, Filling, usize) {
    let (section, ids) = match which {
        5 => (hostile(random, LIMIT), vec![0]),
        6 => {
            let length = LIMIT - random.from_to(1000, 3000);
            real(random, length)
        }
        _ => real(random, LIMIT + 1),
    };
    let filling = Filling {
        id: random.pick(&ids),
        value: units_to_bytes(&plain_text(random, 5)),
    };
    (section, filling, LIMIT)
}

pub fn long_field_text_case(random: &mut Random, which: usize) -> Case {
    let (section, filling, _) = long_fill(random, which);
    Case::FieldText {
        section,
        id: filling.id,
    }
}

pub fn long_fill_case(random: &mut Random, which: usize) -> Case {
    let (section, filling, sheet) = long_fill(random, which);
    Case::Fill {
        section,
        filling,
        sheet,
    }
}

fn good_value(random: &mut Random) -> Vec<u8> {
    let units = random.pick(&[0, 1, 4, 12, 30, 1024]);
    units_to_bytes(&plain_text(random, units))
}

/// A section with at least two plain fields, and two of their ids.
fn two_fields(
    random: &mut Random,
    section: impl Fn(&mut Random) -> (Vec<Draft>, Vec<u32>),
) -> (Vec<Draft>, [u32; 2]) {
    loop {
        let (drafts, ids) = section(random);
        if ids.len() >= 2 {
            let first = random.below(ids.len());
            let second = (first + random.from_to(1, ids.len() - 1)) % ids.len();
            return (drafts, [ids[first], ids[second]]);
        }
    }
}

pub fn two_fills_case(random: &mut Random) -> Case {
    let fields = two_fields(random, |random| section(random, PLAIN));
    two_fills_of(random, fields)
}

/// Two fills in a section that goes deep.
pub fn deep_two_fills_case(random: &mut Random) -> Case {
    let fields = two_fields(random, nests::lawful);
    two_fills_of(random, fields)
}

/// Two fills of different ids; the sheet is long enough for both, or for one, or for none.
fn two_fills_of(random: &mut Random, (drafts, ids): (Vec<Draft>, [u32; 2])) -> Case {
    let fillings = ids.map(|id| Filling {
        id,
        value: good_value(random),
    });
    let section = write_stream(&drafts);
    let lengths = fillings.each_ref().map(|one| sheet_length(&section, one));
    let both = (lengths[0] + lengths[1]).saturating_sub(section.len()) + 16;
    let one = lengths[0].max(lengths[1]);
    let sheet = match random.below(8) {
        0 => one,
        1 => both - random.from_to(8, 24).min(both),
        _ => both.max(one),
    };
    Case::TwoFills {
        section,
        fillings,
        sheet,
    }
}

/// Two fills that fit the limit one by one and not together.
pub fn long_two_fills_case(random: &mut Random) -> Case {
    let result = LIMIT - random.pick(&[0, 1, 4, 20]);
    let (section, first) = filled_to(random, result);
    let second = Filling {
        id: first.id.wrapping_add(1),
        value: good_value(random),
    };
    let text = text_of(random, 0, 3, 0);
    let (mut drafts, _) = one_field(random, text, &[0]);
    for draft in drafts.iter_mut().filter(|draft| draft.tag == 71) {
        let command = usize::from(draft.body[9]) + 256 * usize::from(draft.body[10]);
        let place = 11 + 2 * command;
        draft.body[place..place + 4].copy_from_slice(&second.id.to_le_bytes());
    }
    let more = write_stream(&drafts);
    let section = replace_padding(random, &section, &more);
    Case::TwoFills {
        section,
        fillings: [first, second],
        sheet: LIMIT + 5000,
    }
}

/// The section with a paragraph more and its padding shorter by the same number of bytes.
fn replace_padding(random: &mut Random, section: &[u8], more: &[u8]) -> Vec<u8> {
    let padding_end = oracle::read(section, usize::MAX).map_or(0, |rows| rows[0].end());
    let pad = padding(random, padding_end - more.len());
    [
        write_stream(&[pad]),
        more.to_vec(),
        section[padding_end..].to_vec(),
    ]
    .concat()
}

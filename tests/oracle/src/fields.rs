//! Fields: the search, field text and fill.

use crate::answer::{demand, refuse, Refusal};
use crate::records::{half, header_of, word, LIMIT};
use crate::section::{field_id_place, lawful, Paragraph, Section};
use crate::section::{FLAG, LAYOUT, SHAPES, TEXT};
use crate::text::{extended, next_control, FIELD, FIELD_END};

/// The most units of a value.
pub const LONGEST_VALUE: usize = 1024;
/// Bit 15 of the field's properties: contents altered.
const ALTERED: u32 = 1 << 15;

/// A field: its paragraph, the index of its control header, and the position of its first unit.
#[derive(Clone, Copy)]
struct Field<'a> {
    paragraph: &'a Paragraph,
    control: usize,
    at: usize,
}

/// The positions between a plain field's control and its end: from `a` up to but not including `b`.
#[derive(Clone, Copy)]
struct Span {
    a: usize,
    b: usize,
}

/// The fields of a section with the id, in search order.
fn fields_with<'a>(section: &'a Section<'a>, id: u32) -> impl Iterator<Item = Field<'a>> + 'a {
    let holding = |paragraph: &&Paragraph| !paragraph.controls.is_empty();
    let paragraphs = section.paragraphs.iter().filter(holding);
    paragraphs.flat_map(move |paragraph| {
        extended(section.text(paragraph))
            .zip(&paragraph.controls)
            .filter(|((_, code), _)| *code == FIELD)
            .map(move |((at, _), &control)| Field {
                paragraph,
                control: control as usize,
                at,
            })
            .filter(move |field| field_id(section, field.control) == Some(id))
    })
}

fn field_id(section: &Section, control: usize) -> Option<u32> {
    let body = section.body(control);
    field_id_place(body).map(|place| word(body, place))
}

/// 21 and 22: exactly one field has the id.
fn one_field<'a>(section: &'a Section<'a>, id: u32) -> Result<Field<'a>, Refusal> {
    let mut fields = fields_with(section, id);
    let Some(field) = fields.next() else {
        return refuse(21, 0);
    };
    match fields.next() {
        Some(second) => refuse(22, section.place(second.control)),
        None => Ok(field),
    }
}

/// 23: the next unit below 32 after the field is code 4.
fn plain(section: &Section, field: &Field) -> Result<Span, Refusal> {
    let a = field.at + 8;
    match next_control(section.text(field.paragraph), a) {
        Some((b, FIELD_END)) => Ok(Span { a, b }),
        _ => refuse(23, section.place(field.control)),
    }
}

/// Field text: start and length of the value's bytes.
pub fn field_text(stream: &[u8], id: u32) -> Result<(usize, usize), Refusal> {
    let section = lawful(stream)?;
    let field = one_field(&section, id)?;
    let span = plain(&section, &field)?;
    let text = field.paragraph.child(TEXT).unwrap_or_default();
    let start = section.unit_place(text, span.a);
    Ok((start, 2 * (span.b - span.a)))
}

/// 20: whole units, at most 1,024, each 32 or more.
fn rule_20(value: &[u8]) -> Result<(), Refusal> {
    let whole = value.len().is_multiple_of(2) && value.len() <= 2 * LONGEST_VALUE;
    let good = whole && value.chunks_exact(2).all(|unit| half(unit, 0) >= 32);
    demand(good, 20, 0)
}

/// The body of the text with the value from a to b.
fn new_text(old: &[u8], span: Span, value: &[u8]) -> Vec<u8> {
    [&old[..2 * span.a], value, &old[2 * span.b..]].concat()
}

/// The body of the shapes: of the starts from a to b inclusive only the last is kept, at a + v.
fn new_shapes(old: &[u8], span: Span, units: usize) -> Vec<u8> {
    let inside = |entry: &[u8]| {
        let start = word(entry, 0) as usize;
        span.a <= start && start <= span.b
    };
    let mut body = Vec::with_capacity(old.len());
    let mut entries = old.chunks_exact(8).peekable();
    while let Some(entry) = entries.next() {
        let start = word(entry, 0) as usize;
        let start = if start < span.a {
            start
        } else if start > span.b {
            start - (span.b - span.a) + units
        } else if entries.peek().is_some_and(|next| inside(next)) {
            continue;
        } else {
            span.a + units
        };
        body.extend_from_slice(&(start as u32).to_le_bytes());
        body.extend_from_slice(&entry[4..]);
    }
    body
}

/// The body of the paragraph header: new count and number of shapes, no lines.
fn new_header(old: &[u8], count: usize, shapes: usize) -> Vec<u8> {
    let mut body = old.to_vec();
    let flag = word(old, 0) & FLAG;
    body[0..4].copy_from_slice(&(count as u32 | flag).to_le_bytes());
    body[12..14].copy_from_slice(&(shapes as u16).to_le_bytes());
    body[16..18].copy_from_slice(&[0, 0]);
    body
}

/// The body of the field's control header with bit 15 of the properties set.
fn new_control(old: &[u8]) -> Vec<u8> {
    let mut body = old.to_vec();
    body[4..8].copy_from_slice(&(word(old, 4) | ALTERED).to_le_bytes());
    body
}

/// The records that a fill changes, by index: the new body, or none where the record goes.
fn changes(
    section: &Section,
    field: &Field,
    span: Span,
    value: &[u8],
) -> Vec<(usize, Option<Vec<u8>>)> {
    let paragraph = field.paragraph;
    let header = paragraph.header as usize;
    let mut changes = vec![(
        field.control,
        Some(new_control(section.body(field.control))),
    )];
    let text = new_text(section.text(paragraph), span, value);
    let count = text.len() / 2;
    if let Some(index) = paragraph.child(TEXT) {
        changes.push((index, Some(text)));
    }
    if let Some(index) = paragraph.child(SHAPES) {
        let shapes = new_shapes(section.body(index), span, value.len() / 2);
        let body = new_header(section.body(header), count, shapes.len() / 8);
        changes.push((index, Some(shapes)));
        changes.push((header, Some(body)));
    }
    if let Some(index) = paragraph.child(LAYOUT) {
        changes.push((index, None));
    }
    changes.sort_by_key(|(index, _)| *index);
    changes
}

/// The filled sheet as parts in a row: parts of the old stream and new records between them.
fn parts<'a>(
    section: &Section<'a>,
    changes: &'a [(usize, Option<Vec<u8>>)],
    headers: &'a [Vec<u8>],
) -> Vec<&'a [u8]> {
    let mut parts: Vec<&[u8]> = Vec::new();
    let mut from = 0;
    for ((index, body), header) in changes.iter().zip(headers) {
        let row = &section.rows[*index];
        parts.push(&section.stream[from..row.header()]);
        if let Some(body) = body {
            parts.push(header);
            parts.push(body);
        }
        from = row.end();
    }
    parts.push(&section.stream[from..]);
    parts
}

/// Fill: writes the sheet with the value (bytes, two for each unit), and gives its length.
pub fn fill(stream: &[u8], id: u32, value: &[u8], sheet: &mut [u8]) -> Result<usize, Refusal> {
    let section = lawful(stream)?;
    rule_20(value)?;
    let field = one_field(&section, id)?;
    let span = plain(&section, &field)?;
    let marks = section.numbers(field.paragraph).marks;
    demand(
        marks == 0,
        24,
        section.place(field.paragraph.header as usize),
    )?;
    let changes = changes(&section, &field, span, value);
    let headers: Vec<Vec<u8>> = changes
        .iter()
        .map(|(index, body)| {
            let row = &section.rows[*index];
            let length = body.as_ref().map_or(0, Vec::len);
            header_of(row.tag, row.level, length as u32)
        })
        .collect();
    let parts = parts(&section, &changes, &headers);
    let total = parts.iter().map(|part| part.len()).sum();
    demand(total <= LIMIT, 25, 0)?;
    demand(total <= sheet.len(), 26, 0)?;
    let mut at = 0;
    for part in parts {
        sheet[at..at + part.len()].copy_from_slice(part);
        at += part.len();
    }
    Ok(total)
}

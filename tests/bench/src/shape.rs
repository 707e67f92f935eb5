//! Sections of the shape of real documents: text, shapes, layout, controls, and tables in tables.

use compare::cases::records::{write_record, Draft};
use compare::random::Random;
use oracle::LIMIT;

/// The id of the one field that is asked for.
pub const ID: u32 = 0x5EED;

fn text(random: &mut Random, control: Option<u16>) -> Vec<u16> {
    let mut units: Vec<u16> = Vec::new();
    if let Some(code) = control {
        units.extend([code, 0x6C62, 0x7462, 0, 0, 0, 0, code]);
    }
    let length = random.from_to(0, 90);
    units.extend((0..length).map(|_| random.from_to(0xAC00, 0xD7A3) as u16));
    units.push(13);
    units
}

fn header(units: usize, shapes: u16, lines: u16) -> Vec<u8> {
    let mut body = vec![0; 24];
    body[0..4].copy_from_slice(&(units as u32 | 1 << 31).to_le_bytes());
    body[12..14].copy_from_slice(&shapes.to_le_bytes());
    body[16..18].copy_from_slice(&lines.to_le_bytes());
    body
}

fn put(stream: &mut Vec<u8>, tag: u32, level: u32, body: Vec<u8>) {
    write_record(stream, &Draft::new(tag, level, body));
}

fn put_paragraph(stream: &mut Vec<u8>, level: u32, units: &[u16]) {
    let second = units.len() > 20;
    let lines = 1 + units.len() / 40;
    let mut shapes = vec![0; 8];
    if second {
        shapes.extend([12, 0, 0, 0, 7, 0, 0, 0]);
    }
    let header = header(units.len(), shapes.len() as u16 / 8, lines as u16);
    put(stream, 66, level, header);
    let text = units.iter().flat_map(|unit| unit.to_le_bytes()).collect();
    put(stream, 67, level + 1, text);
    put(stream, 68, level + 1, shapes);
    put(stream, 69, level + 1, vec![0x11; 36 * lines]);
}

/// A paragraph; one in six holds a table, whose cells hold paragraphs.
fn paragraph(random: &mut Random, stream: &mut Vec<u8>, level: u32, depth: usize) {
    let table = depth > 0 && random.once_in(6);
    let units = text(random, table.then_some(11));
    put_paragraph(stream, level, &units);
    if table {
        put(stream, 71, level + 1, vec![0x22; 46]);
        put(stream, 77, level + 2, vec![0x33; 34]);
        for _ in 0..random.from_to(2, 12) {
            put(stream, 72, level + 2, vec![0x44; 47]);
            for _ in 0..random.from_to(1, 2) {
                paragraph(random, stream, level + 2, depth - 1);
            }
        }
    }
}

/// The paragraph with the field.
fn field(random: &mut Random, stream: &mut Vec<u8>) {
    let mut units = vec![3, 0, 0, 0, 0, 0, 0, 3];
    units.extend([0xAC00; 12]);
    units.extend([4, 0, 0, 0, 0, 0, 0, 4]);
    units.extend(text(random, None));
    put_paragraph(stream, 0, &units);
    let mut body = vec![0; 11];
    body.extend(ID.to_le_bytes());
    put(stream, 71, 1, body);
}

/// The level of a record by its index.
pub type Levels = fn(usize) -> u32;

/// The levels of a chain; then the next chain starts.
pub const CHAIN: u32 = 1000;

pub const FLAT: Levels = |_| 0;
pub const CHAINS: Levels = |index| index as u32 % CHAIN;

/// A record 67 at level 0, which 9 names.
pub const STRAY: [u8; 4] = [67, 0, 0, 0];

/// How the levels of many small records go.
pub const SMALL: [(&str, Levels); 3] = [
    ("all at level 0", FLAT),
    ("chains of 1,000 levels", CHAINS),
    ("children of one at level 1,000", |index| {
        index.min(1001) as u32
    }),
];

/// A lawful stream of records with bodies of so many bytes, as many as fit into a length.
pub fn small(length: usize, body: usize, level: Levels) -> Vec<u8> {
    let mut stream = Vec::with_capacity(length);
    for index in 0..length / (4 + body) {
        put(&mut stream, 200, level(index), vec![0x55; body]);
    }
    stream
}

/// A lawful section of nearly so many bytes, and never more; its field stands at the end.
pub fn section(length: usize) -> Vec<u8> {
    let random = &mut Random::new(1);
    let mut stream = Vec::with_capacity(length);
    for depth in [4, 0] {
        loop {
            let before = stream.len();
            paragraph(random, &mut stream, 0, depth);
            if stream.len() + 2000 > length {
                stream.truncate(before);
                break;
            }
        }
    }
    field(random, &mut stream);
    assert!(stream.len() <= length.min(LIMIT));
    stream
}

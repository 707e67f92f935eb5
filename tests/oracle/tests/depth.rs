//! Rule 9 and the paragraphs' rules at depth, made by hand: the number and the place that document 01 asks for, by every
//! call on a section.

use oracle::records::header_of;
use oracle::{check, field_text, fill, list, read_section, Refusal};

/// A record: tag, level, body.
type Record = (u32, u32, Vec<u8>);

fn stream(records: &[Record]) -> Vec<u8> {
    let mut stream = Vec::new();
    for (tag, level, body) in records {
        stream.extend(header_of(*tag, *level, body.len() as u32));
        stream.extend(body);
    }
    stream
}

/// Refused at the header of the record with this index.
fn refused(records: &[Record], number: u8, index: usize) {
    let place = stream(&records[..index]).len();
    let refusal = Refusal { number, place };
    let section = stream(records);
    assert_eq!(check(&section), Err(refusal));
    assert_eq!(read_section(&section, records.len()), Err(refusal));
    assert_eq!(field_text(&section, 1), Err(refusal));
    assert_eq!(fill(&section, 1, &[], &mut []), Err(refusal));
    assert_eq!(list(&section), format!("refused {number} at {place}\n"));
}

fn accepted(records: &[Record]) {
    let section = stream(records);
    assert_eq!(check(&section), Ok(records.len()));
    let rows = read_section(&section, records.len());
    assert_eq!(rows.map(|rows| rows.len()), Ok(records.len()));
}

/// The levels at the edges of windows of 64 and of 200 levels, and the last.
const LEVELS: [u32; 12] = [63, 64, 65, 127, 128, 199, 200, 201, 399, 400, 1022, 1023];

/// Records of a tag that no rule is about, at the levels from one up to but not including another: four bytes each.
fn down(from: u32, to: u32) -> Vec<Record> {
    (from..to).map(|level| (200, level, vec![])).collect()
}

/// The header of a paragraph without text and with one shape.
fn header(level: u32) -> Record {
    let mut body = vec![0; 22];
    body[12] = 1;
    (66, level, body)
}

fn shapes(level: u32) -> Record {
    (68, level, vec![0; 8])
}

fn join(parts: &[&[Record]]) -> Vec<Record> {
    parts.concat()
}

#[test]
fn a_leaf_below_a_record_that_is_no_header() {
    for level in LEVELS {
        for tag in 67..=70 {
            let records = join(&[&down(0, level), &[(tag, level, vec![])]]);
            refused(&records, 9, level as usize);
        }
    }
}

#[test]
fn the_parent_counts_and_not_what_stood_there_before() {
    for level in LEVELS {
        let paragraph = [header(level - 1), shapes(level)];
        let chain = down(0, level - 1);
        // a paragraph, then another record in its place
        let records = join(&[
            &chain,
            &paragraph,
            &down(level - 1, level),
            &[shapes(level)],
        ]);
        refused(&records, 9, level as usize + 2);
        // the other way round, and two paragraphs with the same leaf, are lawful
        let other = [(200, level - 1, vec![]), (200, level, vec![])];
        accepted(&join(&[&chain, &other, &paragraph]));
        accepted(&join(&[&chain, &paragraph, &paragraph]));
        accepted(&join(&[&chain, &paragraph, &other, &paragraph]));
    }
}

#[test]
fn the_second_leaf_of_a_tag() {
    for level in LEVELS {
        let paragraph = [header(level - 1), shapes(level)];
        let chain = join(&[&down(0, level - 1), &paragraph]);
        accepted(&chain);
        let records = join(&[&chain, &[shapes(level)]]);
        refused(&records, 9, level as usize + 1);
        // behind a chain to the last level, which leads through the next windows
        let below = down(level, 1024);
        let records = join(&[&chain, &below, &[shapes(level)]]);
        refused(&records, 9, level as usize + 1 + below.len());
        // behind a paragraph with a leaf of the tag
        if level < 1023 {
            let inner = [header(level), shapes(level + 1)];
            let records = join(&[&chain, &inner, &[shapes(level)]]);
            refused(&records, 9, level as usize + 3);
            let outer = join(&[
                &down(0, level - 1),
                &paragraph[..1],
                &inner,
                &[shapes(level)],
            ]);
            accepted(&outer);
        }
    }
}

#[test]
fn a_record_below_a_leaf() {
    for level in LEVELS {
        let chain = down(0, level - 2);
        let paragraph = [header(level - 2), shapes(level - 1)];
        for tag in [16, 66, 68, 71] {
            let records = join(&[&chain, &paragraph, &[(tag, level, vec![])]]);
            refused(&records, 9, level as usize);
        }
        // below the record beside the leaf
        let beside = down(level - 1, level + 1);
        accepted(&join(&[&chain, &paragraph, &beside]));
    }
}

/// A leaf at a level, on a chain down from another.
fn stray(from: u32, level: u32) -> Vec<Record> {
    join(&[&down(from, level), &[(69, level, vec![])]])
}

#[test]
fn the_earlier_of_two_strays_is_named() {
    for first in LEVELS {
        for second in [0, 1, 62].into_iter().chain(LEVELS) {
            let from = first.min(second);
            let records = join(&[&stray(0, first), &stray(from, second)]);
            refused(&records, 9, first as usize);
        }
    }
}

#[test]
fn a_deep_stray_comes_before_an_earlier_fault_of_a_paragraph() {
    for level in LEVELS {
        let short = [(66, 0, vec![0; 21])];
        let records = join(&[&short, &down(1, level), &[(70, level, vec![])]]);
        refused(&records, 9, level as usize);
        // without the stray the fault is named
        refused(&join(&[&short, &down(1, level)]), 8, 0);
    }
}

#[test]
fn the_outer_paragraph_is_named_before_the_inner() {
    for level in [63, 64, 65, 127, 128, 1022] {
        let chain = down(1, level);
        let inner = [header(level), shapes(level + 1)];
        let lacking = [header(level)];
        // lawful, with the outer one's shapes behind the inner one
        accepted(&join(&[&[header(0)], &chain, &inner, &[shapes(1)]]));
        // both lack their shapes: the outer one's header stands first, though the inner one ends first
        refused(&join(&[&[header(0)], &chain, &lacking]), 10, 0);
        // the inner one alone
        let records = join(&[&[header(0)], &chain, &lacking, &[shapes(1)]]);
        refused(&records, 10, level as usize);
        // the outer one alone, behind the inner one
        refused(&join(&[&[header(0)], &chain, &inner]), 10, 0);
        let behind = [shapes(1), (71, 1, vec![])];
        refused(&join(&[&[header(0)], &chain, &inner, &behind]), 14, 0);
        // side by side the earlier one, be it the deeper or not
        let first = join(&[&[header(0)], &down(0, level), &lacking]);
        refused(&first, 10, 0);
        let first = join(&[&down(0, level), &lacking, &[header(0)]]);
        refused(&first, 10, level as usize);
    }
}

#[test]
fn paragraphs_at_every_level() {
    let mut records: Vec<Record> = Vec::new();
    for level in 0..1023 {
        records.extend([header(level), shapes(level + 1)]);
    }
    accepted(&records);
    // the last of them lacks its shapes
    records.pop();
    refused(&records, 10, records.len() - 1);
    // all of them have their shapes behind what is nested
    let mut records: Vec<Record> = (0..1023).map(header).collect();
    records.extend((1..=1023).rev().map(shapes));
    accepted(&records);
    // the outermost lacks them: nothing before the end shows it
    records.pop();
    refused(&records, 10, 0);
}

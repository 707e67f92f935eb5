//! The rules of a section, each at its edge: number and place, for 12 and 13 that of the byte.

use oracle::records::header_of;
use oracle::{check, field_text, fill, list, Refusal};

/// A record: tag, level, body.
type Record = (u32, u32, Vec<u8>);

fn stream(records: &[Record]) -> Vec<u8> {
    let mut stream = Vec::new();
    for (tag, level, body) in records {
        stream.extend(header_of(*tag, *level, body.len() as u32));
        stream.extend(body);
    }
    stream
}

/// The place of the header of the record with this index.
fn place(records: &[Record], index: usize) -> usize {
    stream(&records[..index]).len()
}

fn refused(records: &[Record], number: u8, index: usize) {
    let place = place(records, index);
    assert_eq!(check(&stream(records)), Err(Refusal { number, place }));
}

/// Refused so many bytes behind the start of the body of the record with this index, by every call on a section.
fn refused_in(records: &[Record], number: u8, index: usize, behind: usize) {
    let (_, _, body) = &records[index];
    let place = place(records, index + 1) - body.len() + behind;
    let refusal = Refusal { number, place };
    let section = stream(records);
    assert_eq!(check(&section), Err(refusal));
    assert_eq!(field_text(&section, 1), Err(refusal));
    assert_eq!(fill(&section, 1, &[], &mut []), Err(refusal));
    assert_eq!(list(&section), format!("refused {number} at {place}\n"));
}

fn accepted(records: &[Record]) {
    assert_eq!(check(&stream(records)), Ok(records.len()));
}

fn header(level: u32, count: u32, shapes: u16, marks: u16, lines: u16) -> Record {
    let mut body = vec![0; 22];
    body[0..4].copy_from_slice(&count.to_le_bytes());
    body[12..14].copy_from_slice(&shapes.to_le_bytes());
    body[14..16].copy_from_slice(&marks.to_le_bytes());
    body[16..18].copy_from_slice(&lines.to_le_bytes());
    (66, level, body)
}

fn text(level: u32, units: &[u16]) -> Record {
    let body = units.iter().flat_map(|unit| unit.to_le_bytes()).collect();
    (67, level, body)
}

fn words(words: &[u32]) -> Vec<u8> {
    words.iter().flat_map(|word| word.to_le_bytes()).collect()
}

fn shapes(level: u32, starts: &[u32]) -> Record {
    let entries: Vec<u32> = starts.iter().flat_map(|&start| [start, 9]).collect();
    (68, level, words(&entries))
}

fn marks(level: u32, ranges: &[(u32, u32)]) -> Record {
    let entries: Vec<u32> = ranges
        .iter()
        .flat_map(|&(from, to)| [from, to, 9])
        .collect();
    (70, level, words(&entries))
}

fn field(level: u32, command: u16, id: u32) -> Record {
    let mut body = vec![0; 9];
    body.extend(command.to_le_bytes());
    body.extend(vec![0; 2 * usize::from(command)]);
    body.extend(id.to_le_bytes());
    (71, level, body)
}

fn control(code: u16) -> Vec<u16> {
    vec![code, 0, 13, 3, 4, 1, 2, code]
}

/// A paragraph of three units with one shape.
fn plain() -> Vec<Record> {
    vec![
        header(0, 3, 1, 0, 0),
        text(1, &[65, 66, 13]),
        shapes(1, &[0]),
    ]
}

#[test]
fn number_8() {
    let mut records = plain();
    accepted(&records);
    records[0].2.truncate(21);
    refused(&records, 8, 0);
    let mut records = plain();
    records[0].2.resize(40, 1);
    accepted(&records);
}

#[test]
fn number_9() {
    refused(&[shapes(0, &[0])], 9, 0);
    refused(&[(71, 0, vec![]), shapes(1, &[0])], 9, 1);
    let mut records = plain();
    records.push(shapes(1, &[0]));
    refused(&records, 9, 3);
    let mut records = plain();
    records.insert(2, (200, 2, vec![]));
    refused(&records, 9, 2);
    // a late 9 comes before an early 8
    let mut records = plain();
    records[0].2.truncate(21);
    records.push(text(0, &[]));
    refused(&records, 9, 3);
    // a misplaced record that is a parent too is named itself
    refused(&[text(0, &[]), (200, 1, vec![])], 9, 0);
}

#[test]
fn number_10() {
    refused(&[header(0, 2, 1, 0, 0), shapes(1, &[0])], 10, 0);
    accepted(&[header(0, 1, 1, 0, 0), shapes(1, &[0])]);
    accepted(&[header(0, 1 | 1 << 31, 1, 0, 0), shapes(1, &[0])]);
    accepted(&[header(0, 0, 1, 0, 0), shapes(1, &[0])]);
    refused(&[header(0, 0, 0, 0, 0)], 10, 0);
    refused(&[header(0, 0, 1, 0, 1), shapes(1, &[0])], 10, 0);
    refused(&[header(0, 0, 1, 1, 0), shapes(1, &[0])], 10, 0);
    // 10 of any tag comes before 11 of any
    refused(
        &[header(0, 2, 1, 1, 0), text(1, &[13]), shapes(1, &[0])],
        10,
        0,
    );
}

#[test]
fn number_11() {
    let with = |header: Record| vec![header, text(1, &[65, 66, 13]), shapes(1, &[0])];
    refused(&with(header(0, 4, 1, 0, 0)), 11, 1);
    refused(&with(header(0, 0, 1, 0, 0)), 11, 1);
    refused(&with(header(0, 3, 2, 0, 0)), 11, 2);
    refused(&with(header(0, 3, 0, 0, 0)), 11, 2);
    refused(
        &[header(0, 0, 1, 0, 0), text(1, &[]), shapes(1, &[0])],
        11,
        1,
    );
    refused(&[header(0, 0, 0, 0, 0), shapes(1, &[])], 11, 1);
    refused(
        &[header(0, 0, 1, 0, 0), shapes(1, &[0]), (69, 1, vec![])],
        11,
        2,
    );
    accepted(&[header(0, 0, 1, 0, 7), shapes(1, &[0]), (69, 1, vec![])]);
    refused(
        &[header(0, 0, 1, 0, 0), shapes(1, &[0]), marks(1, &[])],
        11,
        2,
    );
    refused(
        &[header(0, 0, 1, 2, 0), shapes(1, &[0]), marks(1, &[(0, 0)])],
        11,
        2,
    );
    // in tag order, not in stream order
    let mixed = [header(0, 2, 2, 0, 0), shapes(1, &[0]), text(1, &[13])];
    refused(&mixed, 11, 2);
}

/// A paragraph of these units with one shape; its text is the last record.
fn of_units(level: u32, units: &[u16]) -> Vec<Record> {
    let shapes = shapes(level + 1, &[0]);
    let header = header(level, units.len() as u32, 1, 0, 0);
    vec![header, shapes, text(level + 1, units)]
}

/// Refused with 12 at this position, where the text is the last record and where others follow.
fn refused_unit(units: &[u16], position: usize) {
    let records = of_units(0, units);
    refused_in(&records, 12, 2, 2 * position);
    refused_in(&[records, plain()].concat(), 12, 2, 2 * position);
}

#[test]
fn number_12_at_a_unit_0() {
    refused_unit(&[0], 0);
    refused_unit(&[0, 13], 0);
    refused_unit(&[65, 0, 13], 1);
    refused_unit(&[65, 13 + 256, 0], 2);
    // the first of two
    refused_unit(&[65, 0, 0, 13], 1);
    // 0 inside a control is nothing, and the one behind it is the unit that breaks the rule
    refused_unit(&[&control(9)[..], &[0, 13]].concat(), 8);
}

#[test]
fn number_12_at_a_13_before_the_end() {
    refused_unit(&[13, 13], 0);
    refused_unit(&[65, 13, 66], 1);
    refused_unit(&[65, 66, 13, 13, 13], 2);
    // before what stands behind it
    refused_unit(&[13, 0], 0);
    refused_unit(&[&[13][..], &control(9)[..3]].concat(), 0);
    // behind a control that holds another
    refused_unit(&[&control(9)[..], &[13, 65, 13]].concat(), 8);
}

#[test]
fn number_12_at_a_control_cut_short() {
    for code in [9, 3, 23] {
        for kept in 1..8 {
            let cut = &control(code)[..kept];
            refused_unit(cut, 0);
            refused_unit(&[&[65, 66][..], cut].concat(), 2);
        }
        // whatever the units that are left: a 13 at the end, or the control's own code
        refused_unit(&[65, code, 66, 66, 66, 66, 66, 13], 1);
        refused_unit(&[65, code, 66, 66, 66, 66, 66, code], 1);
    }
}

#[test]
fn number_12_at_a_wrong_closing_code() {
    for (code, closing) in [(9, 8), (9, 0), (9, 13), (3, 4), (23, 65), (3, 3 + 256)] {
        let mut units = control(code);
        units[7] = closing;
        refused_unit(&units, 7);
        refused_unit(&[&units[..], &[13]].concat(), 7);
        refused_unit(&[&[65, 10][..], &units, &[0, 13]].concat(), 9);
    }
}

#[test]
fn number_12_at_the_end_of_a_text_without_13() {
    refused_unit(&[65], 1);
    refused_unit(&[65, 66], 2);
    refused_unit(&[65, 10], 2);
    // a whole control that ends the text, with 13 inside
    refused_unit(&control(9), 8);
    refused_unit(&[&[65][..], &control(3)].concat(), 9);
}

#[test]
fn number_12_behind_a_long_header_and_deep_in_tables() {
    let units = [vec![65; 2100], vec![0, 13]].concat();
    refused_unit(&units, 2100);
    let mut table = control(11);
    table.push(13);
    let mut records = Vec::new();
    for level in [0, 2, 4, 6] {
        records.extend(of_units(level, &table));
        records.extend([(71, level + 1, vec![]), (72, level + 2, vec![])]);
    }
    records.extend(of_units(8, &[65, 66]));
    refused_in(&records, 12, records.len() - 1, 4);
}

/// A paragraph of three units with these starts.
fn with_starts(starts: &[u32]) -> Vec<Record> {
    let number = starts.len() as u16;
    let text = text(1, &[65, 66, 13]);
    vec![header(0, 3, number, 0, 0), text, shapes(1, starts)]
}

#[test]
fn number_13_at_a_shape() {
    let refused = |starts: &[u32], nth: usize| refused_in(&with_starts(starts), 13, 2, 8 * nth);
    accepted(&with_starts(&[0, 1, 2]));
    refused(&[1], 0);
    refused(&[1, 2], 0);
    refused(&[3], 0);
    refused(&[0, 3], 1);
    refused(&[0, u32::MAX, 2], 1);
    refused(&[0, 1, 2, 3], 3);
    // of two starts that do not rise the later is at fault
    refused(&[0, 0], 1);
    refused(&[0, 0, 1], 1);
    refused(&[0, 2, 1], 2);
    refused(&[0, 1, 2, 2], 3);
    // entry by entry, not rule by rule: the second is above the count, the third does not rise
    refused(&[0, 3, 1], 1);
    refused(&[1, 0, 3], 0);
    refused_in(&[header(0, 0, 2, 0, 0), shapes(1, &[0, 1])], 13, 1, 8);
    refused_in(&[header(0, 0, 1, 0, 0), shapes(1, &[1])], 13, 1, 0);
}

/// A paragraph of three units with these marks.
fn with_marks(ranges: &[(u32, u32)]) -> Vec<Record> {
    let number = ranges.len() as u16;
    let (text, marks) = (text(1, &[65, 66, 13]), marks(1, ranges));
    vec![header(0, 3, 1, number, 0), text, shapes(1, &[0]), marks]
}

#[test]
fn number_13_at_a_mark() {
    let refused =
        |ranges: &[(u32, u32)], nth: usize| refused_in(&with_marks(ranges), 13, 3, 12 * nth);
    accepted(&with_marks(&[(0, 3), (3, 3), (2, 2)]));
    refused(&[(2, 1)], 0);
    // the entry, not its end
    refused(&[(0, 4)], 0);
    refused(&[(0, 4), (0, 0), (0, 0)], 0);
    refused(&[(0, 3), (0, 4)], 1);
    refused(&[(0, 3), (3, 2), (0, 0)], 1);
    refused(&[(0, 0), (0, 0), (0, u32::MAX)], 2);
    // entry by entry, not rule by rule
    refused(&[(0, 0), (0, 4), (1, 0)], 1);
    refused(&[(0, 0), (1, 0), (0, 4)], 1);
}

#[test]
fn number_13_of_shapes_before_marks() {
    let mut records = with_marks(&[(2, 1)]);
    records[2] = shapes(1, &[1]);
    refused_in(&records, 13, 2, 0);
    // also where the marks stand first
    records.swap(2, 3);
    refused_in(&records, 13, 3, 0);
    records[3] = shapes(1, &[0]);
    refused_in(&records, 13, 2, 0);
    // 12 before 13
    records[1] = text(1, &[65, 66, 67]);
    refused_in(&records, 12, 1, 6);
}

/// A paragraph of one control and the end, with what stands below it.
fn with_control(code: u16, below: &[Record]) -> Vec<Record> {
    let mut units = control(code);
    units.push(13);
    let mut records = vec![header(0, 9, 1, 0, 0), text(1, &units), shapes(1, &[0])];
    records.extend_from_slice(below);
    records
}

#[test]
fn number_14() {
    let control_header = (71, 1, vec![]);
    accepted(&with_control(11, &[control_header.clone()]));
    accepted(&with_control(9, &[]));
    refused(&with_control(11, &[]), 14, 0);
    refused(&with_control(9, &[control_header.clone()]), 14, 0);
    refused(
        &with_control(11, &[control_header.clone(), control_header.clone()]),
        14,
        0,
    );
    refused(
        &with_control(11, &[(72, 1, vec![]), (71, 2, vec![])]),
        14,
        0,
    );
    accepted(&with_control(
        11,
        &[control_header.clone(), (71, 2, vec![])],
    ));
    refused(
        &[header(0, 1, 1, 0, 0), shapes(1, &[0]), control_header],
        14,
        0,
    );
}

#[test]
fn number_15() {
    accepted(&with_control(3, &[field(1, 0, 5)]));
    accepted(&with_control(3, &[field(1, 7, 5)]));
    let short = |command, length| {
        let mut field = field(1, command, 5);
        field.2.truncate(length);
        with_control(3, &[field])
    };
    refused(&short(0, 14), 15, 3);
    refused(&short(7, 28), 15, 3);
    refused(&short(0, 0), 15, 3);
    accepted(&with_control(2, &[(71, 1, vec![])]));
}

#[test]
fn any_order_and_nesting() {
    let mut units = control(11);
    units.push(13);
    accepted(&[
        header(0, 9 | 1 << 31, 1, 0, 0),
        (71, 1, vec![]),
        (72, 2, vec![]),
        header(2, 1, 1, 0, 0),
        shapes(3, &[0]),
        shapes(1, &[0]),
        (200, 1, vec![]),
        text(1, &units),
    ]);
}

#[test]
fn the_second_field_is_that_of_the_search() {
    let field_end = [control(3), control(4)].concat();
    let mut outer = [field_end.clone(), field_end.clone()].concat();
    outer.push(13);
    let mut inner = field_end;
    inner.push(13);
    // the first control header holds a paragraph with a field of the id that the second one has
    let records = [
        header(0, 33, 1, 0, 0),
        text(1, &outer),
        shapes(1, &[0]),
        field(1, 0, 1),
        header(2, 17, 1, 0, 0),
        text(3, &inner),
        shapes(3, &[0]),
        field(3, 0, 2),
        field(1, 0, 2),
    ];
    accepted(&records);
    let place = place(&records, 7);
    let number = 22;
    assert_eq!(
        field_text(&stream(&records), 2),
        Err(Refusal { number, place })
    );
    assert_eq!(field_text(&stream(&records), 1).map(|part| part.1), Ok(0));
}

//! Document 01's examples: the pairs at each edge and the lister's input; and of document 02 the counts' two widths,
//! the places that point at the byte, and the parents in the table.

use oracle::records::header_of;
use oracle::{answer, check, field_text, fill, list, pack, read, read_docinfo, read_section};
use oracle::{read_into, Refusal, Row, LIMIT, LISTS};

fn refused<T>(number: u8, place: usize) -> Result<T, Refusal> {
    Err(Refusal { number, place })
}

fn record(tag: u32, level: u32, body: &[u8]) -> Vec<u8> {
    [header_of(tag, level, body.len() as u32), body.to_vec()].concat()
}

fn halves(units: &[u16]) -> Vec<u8> {
    units.iter().flat_map(|unit| unit.to_le_bytes()).collect()
}

fn control(code: u16) -> Vec<u16> {
    vec![code, 1, 2, 13, 4, 5, 6, code]
}

fn header_body(count: u32, shapes: u16, marks: u16, lines: u16) -> Vec<u8> {
    let mut body = vec![0; 22];
    body[0..4].copy_from_slice(&count.to_le_bytes());
    body[12..14].copy_from_slice(&shapes.to_le_bytes());
    body[14..16].copy_from_slice(&marks.to_le_bytes());
    body[16..18].copy_from_slice(&lines.to_le_bytes());
    body
}

fn shapes_body(starts: &[u32]) -> Vec<u8> {
    let entries = starts.iter().enumerate();
    entries
        .flat_map(|(nth, start)| [start.to_le_bytes(), (100 + nth as u32).to_le_bytes()].concat())
        .collect()
}

fn field_body(id: u32) -> Vec<u8> {
    let mut body = b"klc%\0\0\0\0\0\0\0".to_vec();
    body.extend_from_slice(&id.to_le_bytes());
    body
}

/// A paragraph with the units as text and one control header of id 7 for each field.
fn paragraph(units: &[u16], starts: &[u32], fields: usize) -> Vec<u8> {
    let header = header_body(units.len() as u32, starts.len() as u16, 0, 0);
    let mut stream = record(66, 0, &header);
    stream.extend(record(67, 1, &halves(units)));
    stream.extend(record(68, 1, &shapes_body(starts)));
    for _ in 0..fields {
        stream.extend(record(71, 1, &field_body(7)));
    }
    stream
}

/// A field at position 0 with a value, then `tail` ordinary units and the end.
fn field_text_units(value: usize, tail: usize) -> Vec<u16> {
    let mut units = control(3);
    units.extend(vec![0xAC00; value]);
    units.extend(control(4));
    units.extend(vec![65; tail]);
    units.push(13);
    units
}

fn sheet_of(stream: &[u8], id: u32, value: &[u16]) -> Vec<u8> {
    let mut sheet = vec![0x5A; stream.len() + 4096];
    let length = fill(stream, id, &halves(value), &mut sheet).unwrap();
    assert!(sheet[length..].iter().all(|&byte| byte == 0x5A));
    sheet.truncate(length);
    sheet
}

fn starts_of(stream: &[u8]) -> Vec<(u32, u32)> {
    let rows = read(stream, usize::MAX).unwrap();
    let row = rows.iter().find(|row| row.tag == 68).unwrap();
    let word = |entry: &[u8]| u32::from_le_bytes(entry.try_into().unwrap());
    let entries = row.body(stream).chunks_exact(8);
    entries.map(|e| (word(&e[..4]), word(&e[4..]))).collect()
}

#[test]
fn empty_stream_and_three_bytes() {
    assert_eq!(read(&[], 0), Ok(vec![]));
    assert_eq!(read(&[0x42, 0, 0], 9), refused(2, 3));
    assert_eq!(check(&[]), Ok(0));
}

#[test]
fn body_of_4094_and_4095() {
    let row = |place, length| Row {
        tag: 20,
        level: 0,
        place,
        length,
        parent: 0,
    };
    assert_eq!(read(&record(20, 0, &[1; 4094]), 1), Ok(vec![row(4, 4094)]));
    assert_eq!(read(&record(20, 0, &[1; 4095]), 1), Ok(vec![row(8, 4095)]));
    assert_eq!(record(20, 0, &[1; 4094]).len(), 4098);
    assert_eq!(record(20, 0, &[1; 4095]).len(), 4103);
    let mut long = record(20, 0, &[1; 4095]);
    long[4..8].copy_from_slice(&4094u32.to_le_bytes());
    assert_eq!(read(&long, 1), refused(3, 4));
    assert_eq!(read(&long[..7], 1), refused(2, 7));
}

#[test]
fn a_cut_header_is_named_by_the_streams_end() {
    let before = record(20, 0, &[1; 9]);
    for (start, level) in [(&[][..], 0), (&before, 1)] {
        let long = header_of(20, level, 4095);
        for left in 1..8 {
            let stream = [start, &long[..left]].concat();
            assert_eq!(read(&stream, 9), refused(2, stream.len()), "{left}");
        }
    }
    let most = record(20, 0, &vec![0; LIMIT - 11]);
    assert_eq!(read(&[most, vec![66, 0, 0]].concat(), 9), refused(2, LIMIT));
}

#[test]
fn a_short_long_length_is_named_itself() {
    let before = record(20, 0, &[1; 9]);
    for (start, level, length) in [(&[][..], 0, 0u32), (&before, 1, 4094), (&before, 0, 1)] {
        let mut header = header_of(20, level, 4095);
        header[4..].copy_from_slice(&length.to_le_bytes());
        let stream = [start, &header].concat();
        assert_eq!(read(&stream, 9), refused(3, start.len() + 4));
        // the stream ends behind the length, or bytes follow that would fit it
        let longer = [stream, vec![0; 4094]].concat();
        assert_eq!(read(&longer, 9), refused(3, start.len() + 4));
    }
}

/// A stream of empty records of these levels.
fn of_levels(levels: &[u32]) -> Vec<u8> {
    let records = levels.iter().map(|&level| record(20, level, &[]));
    records.collect::<Vec<_>>().concat()
}

#[test]
fn levels() {
    let count = |levels: &[u32]| read(&of_levels(levels), 9).map(|rows| rows.len());
    assert_eq!(count(&[1]), refused(6, 0));
    assert_eq!(count(&[0, 1, 0]), Ok(3));
    assert_eq!(count(&[0, 2]), refused(6, 4));
    assert_eq!(read(&of_levels(&[0, 1, 0]), 2), refused(7, 8));
}

fn parents_of(rows: &[Row]) -> Vec<u32> {
    rows.iter().map(|row| row.parent).collect()
}

/// The parents in the document's own words; a record without one has its own index.
fn nearest_earlier_of_smaller_level(levels: &[u32]) -> Vec<u32> {
    let parent = |index: usize| {
        let mut earlier = (0..index).rev();
        let found = earlier.find(|&earlier| levels[earlier] < levels[index]);
        found.unwrap_or(index) as u32
    };
    (0..levels.len()).map(parent).collect()
}

#[test]
fn parents() {
    let parents = |levels: &[u32]| parents_of(&read(&of_levels(levels), 99).unwrap());
    assert_eq!(parents(&[]), [0; 0]);
    assert_eq!(parents(&[0, 0, 0]), [0, 1, 2]);
    assert_eq!(parents(&[0, 1, 1, 2, 1, 0]), [0, 0, 0, 2, 0, 5]);
    assert_eq!(parents(&[0, 1, 2, 3, 1, 2, 0, 1]), [0, 0, 1, 2, 0, 4, 6, 6]);
    // chains to the deepest level that come back by one, by many and to 0
    let chain = 0..1024;
    let back: Vec<u32> = chain.clone().rev().collect();
    let several = [chain.collect(), back, (0..1024).collect(), vec![300, 301]];
    let levels = [several.concat(), vec![0, 1, 1, 0]].concat();
    let rows = read(&of_levels(&levels), levels.len()).unwrap();
    assert_eq!(parents_of(&rows), nearest_earlier_of_smaller_level(&levels));
}

#[test]
fn each_read_has_the_parents() {
    let rows = read_section(&listed(), 3).unwrap();
    assert_eq!(parents_of(&rows), [0, 0, 0]);
    let rows = read_docinfo(&docinfo_with(&counts(2, &RIGHT)), 5).unwrap();
    assert_eq!(parents_of(&rows), [0, 1, 1, 2, 1]);
}

#[test]
fn read_into_lists() {
    let stream = [record(20, 0, &[1, 2]), record(21, 1, &[3; 4095])].concat();
    let with_rooms = |rooms: [usize; LISTS]| {
        let mut lists = rooms.map(|room| vec![7; room]);
        let lent = lists.each_mut().map(Vec::as_mut_slice);
        (read_into(&stream, lent), lists)
    };
    let written: [&[u32]; LISTS] = [
        &[20, 21],
        &[0, 1, 7],
        &[4, 14],
        &[2, 4095, 7, 7],
        &[0, 0, 7],
    ];
    let written = written.map(<[u32]>::to_vec);
    assert_eq!(with_rooms([2, 3, 2, 4, 3]), (Ok(2), written));
    for shortest in 0..LISTS {
        let mut rooms = [4; LISTS];
        rooms[shortest] = 1;
        let (result, lists) = with_rooms(rooms);
        assert_eq!(result, refused(7, 6), "{shortest}");
        assert!(lists.concat().iter().all(|&entry| entry == 7));
    }
}

#[test]
fn limit() {
    let whole = record(20, 0, &vec![0; LIMIT - 8]);
    assert_eq!(read(&whole, 1).map(|rows| rows.len()), Ok(1));
    assert_eq!(read(&vec![0; LIMIT + 1], 1), refused(1, 0));
}

/// Packs records, each of the five entries of a row of the table.
fn pack_rows(rows: &[[u32; LISTS]], bytes: &[u8], out: &mut [u8]) -> Result<usize, Refusal> {
    let list = |nth: usize| rows.iter().map(|row| row[nth]).collect();
    let lists: [Vec<u32>; LISTS] = std::array::from_fn(list);
    pack(
        rows.len() as u64,
        lists.each_ref().map(Vec::as_slice),
        bytes,
        out,
    )
}

#[test]
fn pack_and_its_numbers() {
    let bytes = [9, 8, 7];
    let mut out = [0xEE; 16];
    let good = pack_rows(&[[20, 0, 1, 2, 0], [21, 1, 0, 3, 0]], &bytes, &mut out);
    assert_eq!(good, Ok(13));
    let written = [
        record(20, 0, &[8, 7]),
        record(21, 1, &[9, 8, 7]),
        vec![0xEE; 3],
    ];
    assert_eq!(out.to_vec(), written.concat());
    let mut try_pack = |count, row: [u32; LISTS], room: usize| {
        let lists = row.each_ref().map(std::slice::from_ref);
        pack(count, lists, &bytes, &mut out[..room])
    };
    assert_eq!(try_pack(1, [20, 0, 3, 0, 0], 4), Ok(4));
    assert_eq!(try_pack(0, [1, 9, 9, 9, 9], 0), Ok(0));
    assert_eq!(try_pack(2, [1, 9, 9, 9, 9], 0), refused(27, 0));
    assert_eq!(try_pack(1 << 63, [20, 0, 0, 0, 0], 16), refused(27, 0));
    assert_eq!(try_pack(1, [15, 1, 9, 9, 9], 0), refused(5, 0));
    assert_eq!(try_pack(1, [1024, 1, 9, 9, 9], 0), refused(5, 0));
    assert_eq!(try_pack(1, [1023, 1, 9, 9, 9], 0), refused(6, 0));
    assert_eq!(try_pack(1, [1023, 0, 9, 9, 9], 0), refused(28, 0));
    assert_eq!(try_pack(1, [20, 0, 0, 0, u32::MAX], 0), refused(28, 0));
    assert_eq!(try_pack(1, [20, 0, 4, 0, 0], 0), refused(4, 0));
    assert_eq!(try_pack(1, [20, 0, 1, 3, 0], 0), refused(4, 0));
    assert_eq!(
        try_pack(1, [20, 0, u32::MAX, u32::MAX, 0], 0),
        refused(4, 0)
    );
    assert_eq!(try_pack(1, [20, 0, 0, 3, 0], 6), refused(26, 0));
    let many = |index| [20, 0, 0, (1 << 20) - 8, index];
    let many: Vec<[u32; LISTS]> = (0..4096).map(many).collect();
    let sum = pack_rows(&many, &vec![0; 1 << 20], &mut out);
    assert_eq!(sum, refused(1, 0));
}

#[test]
fn pack_asks_for_each_of_the_lists() {
    let (entry, none): (&[u32], &[u32]) = (&[16], &[]);
    for short in 0..LISTS {
        let mut lists = [entry; LISTS];
        lists[short] = none;
        assert_eq!(pack(1, lists, &[], &mut []), refused(27, 0), "{short}");
        assert_eq!(pack(0, lists, &[], &mut []), Ok(0));
    }
}

#[test]
fn pack_checks_the_parents() {
    let right = [0, 0, 1, 2, 1, 0, 6];
    let levels = [0, 1, 2, 3, 2, 1, 0];
    let row = |index: usize| [20, levels[index], 0, 0, right[index]];
    let rows: Vec<[u32; LISTS]> = (0..levels.len()).map(row).collect();
    let say = |changes: &[(usize, usize, u32)]| {
        let mut rows = rows.clone();
        for &(index, list, entry) in changes {
            rows[index][list] = entry;
        }
        pack_rows(&rows, &[], &mut [0; 28])
    };
    let [tag, level, place, parent] = [0, 1, 2, 4];
    assert_eq!(say(&[]), Ok(28));
    for index in 0..levels.len() {
        // any other index, in the table or past it
        for other in (0..9)
            .chain([u32::MAX])
            .filter(|&other| other != right[index])
        {
            assert_eq!(say(&[(index, parent, other)]), refused(28, index));
        }
        // of one record 5, 6, 28, 4
        let wrong = [(index, parent, 9), (index, place, 1)];
        assert_eq!(say(&wrong), refused(28, index));
        assert_eq!(say(&wrong[1..]), refused(4, index));
        let deeper = [&wrong[..], &[(index, level, 9)]].concat();
        assert_eq!(say(&deeper), refused(6, index));
        assert_eq!(
            say(&[&deeper[..], &[(index, tag, 15)]].concat()),
            refused(5, index)
        );
    }
    // record by record
    assert_eq!(say(&[(3, place, 1), (4, parent, 0)]), refused(4, 3));
    assert_eq!(say(&[(3, parent, 0), (4, tag, 15)]), refused(28, 3));
}

#[test]
fn the_round_trip_has_the_parents() {
    let stream = [docinfo_with(&[3; 5000]), record(20, 0, &[1]), listed()].concat();
    let rows = read(&stream, 99).unwrap();
    let table: Vec<[u32; LISTS]> = rows.iter().map(Row::entries).collect();
    let mut out = vec![0; stream.len()];
    assert_eq!(pack_rows(&table, &stream, &mut out), Ok(stream.len()));
    assert_eq!(out, stream);
}

#[test]
fn text_pairs() {
    assert_eq!(check(&paragraph(&[13], &[0], 0)), Ok(3));
    let mut nine = control(9);
    nine.push(13);
    assert_eq!(check(&paragraph(&nine, &[0], 0)), Ok(3));
    nine[7] = 8;
    // the eighth unit, of a body that stands at 30
    assert_eq!(check(&paragraph(&nine, &[0], 0)), refused(12, 30 + 14));
}

#[test]
fn fill_pairs() {
    let units = field_text_units(3, 8);
    let value = [65, 66, 67, 68];
    let ids = |starts: &[(u32, u32)]| starts.iter().map(|&(start, _)| start).collect::<Vec<_>>();
    let filled = |starts: &[u32], value: &[u16]| {
        let stream = paragraph(&units, starts, 1);
        starts_of(&sheet_of(&stream, 7, value))
    };
    assert_eq!(
        filled(&[0, 8, 19], &value),
        [(0, 100), (12, 101), (20, 102)]
    );
    assert_eq!(filled(&[0, 9, 11], &value), [(0, 100), (12, 102)]);
    assert_eq!(ids(&filled(&[0, 9], &[])), [0, 8]);
}

#[test]
fn text_and_bit_15_after_a_fill() {
    let stream = paragraph(&field_text_units(3, 8), &[0], 1);
    let (start, length) = field_text(&stream, 7).unwrap();
    assert_eq!((start, length), (30 + 16, 6));
    let sheet = sheet_of(&stream, 7, &[65, 66, 67, 68]);
    assert_eq!(field_text(&sheet, 7), Ok((30 + 16, 8)));
    assert_eq!(sheet[46..54], halves(&[65, 66, 67, 68]));
    assert_eq!(sheet[0..4], stream[0..4]);
    assert_eq!(u32::from(sheet[4]), 29);
    let row = read(&sheet, 9).unwrap()[3];
    assert_eq!(row.body(&sheet)[4..8], [0, 0x80, 0, 0]);
    assert_eq!(check(&sheet), Ok(4));
}

#[test]
fn from_2047_to_2048_units() {
    let stream = paragraph(&field_text_units(3, 2047 - 20), &[0, 5], 1);
    assert_eq!(read(&stream, 9).unwrap()[1].length, 4094);
    let sheet = sheet_of(&stream, 7, &[65, 66, 67, 68]);
    assert_eq!(sheet.len(), stream.len() + 6);
    assert_eq!(sheet_of(&sheet, 7, &[65, 66, 67]).len(), stream.len());
}

#[test]
fn fill_numbers() {
    let stream = paragraph(&field_text_units(3, 8), &[0], 1);
    let mut sheet = vec![0; 4096];
    let mut try_fill =
        |stream: &[u8], id, value: &[u8], room: usize| fill(stream, id, value, &mut sheet[..room]);
    assert_eq!(try_fill(&stream, 8, &[65], 0), refused(20, 0));
    assert_eq!(try_fill(&stream, 8, &[31, 0], 0), refused(20, 0));
    assert_eq!(try_fill(&stream, 8, &[65; 2050], 0), refused(20, 0));
    assert_eq!(try_fill(&stream, 8, &[32, 0], 0), refused(21, 0));
    assert_eq!(
        try_fill(&stream, 7, &[32, 0], stream.len() - 5),
        refused(26, 0)
    );
    assert_eq!(
        try_fill(&stream, 7, &[32, 0], stream.len() - 4),
        Ok(stream.len() - 4)
    );
    let twice = [stream.clone(), stream.clone()].concat();
    assert_eq!(field_text(&twice, 7), refused(22, 2 * stream.len() - 19));
    let mut open = control(3);
    open.extend([65, 13]);
    let open = paragraph(&open, &[0], 1);
    assert_eq!(try_fill(&open, 7, &[], 4096), refused(23, open.len() - 19));
}

/// Record 16, record 17 with the body, then a child 19 with one below it and a child 92.
fn docinfo_with(counts: &[u8]) -> Vec<u8> {
    let children = [(19, 1), (19, 2), (92, 1)].map(|(tag, level)| record(tag, level, &[]));
    let records = [record(16, 0, &[0; 30]), record(17, 0, counts)];
    [records.concat(), children.concat()].concat()
}

/// The right sixteen counts of these children.
const RIGHT: [i64; 16] = [0, 0, 0, 1, 0, 0, 0, 0, 0, 0, 0, 0, 0, 0, 0, 1];

/// The counts in so many bytes each.
fn counts(width: usize, counts: &[i64]) -> Vec<u8> {
    let counts = counts.iter();
    counts
        .flat_map(|count| count.to_le_bytes()[..width].to_vec())
        .collect()
}

/// The refusal at the count with this index, in the body of record 17, which stands at 38.
fn wrong_count(width: usize, nth: usize) -> Result<usize, Refusal> {
    refused(18, 38 + width * nth)
}

/// What DocInfo read says where the right counts are changed, in so many bytes.
fn changed(width: usize, length: usize, changes: &[(usize, i64)]) -> Result<usize, Refusal> {
    let mut values = [RIGHT.to_vec(), vec![0; 16]].concat();
    for &(nth, value) in changes {
        values[nth] = value;
    }
    let body = &counts(width, &values)[..length];
    read_docinfo(&docinfo_with(body), 5).map(|rows| rows.len())
}

#[test]
fn docinfo() {
    let stream = docinfo_with(&counts(2, &RIGHT));
    assert_eq!(read_docinfo(&stream, 5).map(|rows| rows.len()), Ok(5));
    assert_eq!(read_docinfo(&stream, 4), refused(7, 34 + 36 + 8));
    assert_eq!(read_docinfo(&record(17, 0, &[]), 5), refused(16, 0));
    let swapped = [record(17, 0, &[0; 32]), record(16, 0, &[0; 29])].concat();
    assert_eq!(read_docinfo(&swapped, 5), refused(17, 36));
}

#[test]
fn lengths_of_the_counts() {
    for length in 28..=80 {
        let asked = match length {
            60 | 64 | 68 | 72 | 76 | 80 => Ok(5),
            // eight counts of 32 bits are not sixteen of 16: the last says no child with tag 92
            32 => wrong_count(2, 15),
            _ => refused(17, 34),
        };
        assert_eq!(changed(4, length, &[]), asked, "{length}");
    }
    assert_eq!(changed(2, 32, &[]), Ok(5));
    // sixteen counts of 16 bits are not those of 32: the second says 65,536
    assert_eq!(changed(2, 64, &[]), wrong_count(4, 1));
    let long = |length| read_docinfo(&docinfo_with(&vec![0; length]), 5);
    // the body of a long record stands four bytes later
    assert_eq!(long(4096), refused(18, 42 + 4));
    assert_eq!(long(4097), refused(17, 34));
}

#[test]
fn one_rule_over_the_width() {
    for (width, length, lowest) in [(2, 32, -32_768), (4, 64, -(1 << 31)), (4, 72, -(1 << 31))] {
        let say = |changes: &[(usize, i64)]| changed(width, length, changes);
        for (nth, right) in RIGHT.into_iter().enumerate() {
            // of the seven that are asked together the first is named
            let first = if nth < 8 { nth.min(1) } else { nth };
            let one_more = say(&[(nth, right + 1)]);
            assert_eq!(one_more, wrong_count(width, first), "{nth}");
            assert_eq!(say(&[(nth, lowest)]), wrong_count(width, nth), "{nth}");
        }
        // the sum alone is asked of the seven, but none of them is negative
        assert_eq!(say(&[(3, 0), (7, 1)]), Ok(5));
        assert_eq!(say(&[(3, 2), (4, -1)]), wrong_count(width, 4));
        let highest = -lowest - 1;
        let kept = [(1, lowest), (2, highest), (3, 1), (4, 1)];
        assert_eq!(say(&kept), wrong_count(width, 1));
        // a sum that is right only where it wraps
        let wrapped = [(1, highest), (2, highest), (3, 3)];
        assert_eq!(say(&wrapped), wrong_count(width, 1));
    }
    let quarter = 1 << 30;
    let four = [1, 2, 4, 5].map(|nth| (nth, quarter));
    assert_eq!(changed(4, 60, &four), wrong_count(4, 1));
    assert_eq!(changed(4, 64, &[(8, 1 << 16)]), wrong_count(4, 8));
}

#[test]
fn a_negative_count_is_named_before_any_group() {
    for (width, length) in [(2, 32), (4, 64)] {
        let say = |changes: &[(usize, i64)]| changed(width, length, changes);
        let named = |nth| wrong_count(width, nth);
        assert_eq!(say(&[(0, 1), (15, -1)]), named(15));
        assert_eq!(say(&[(3, 9), (8, 1), (9, -1)]), named(9));
        // within the seven too, where the first of them would be the group's
        assert_eq!(say(&[(1, 9), (7, -1)]), named(7));
        assert_eq!(say(&[(9, -1), (12, -1)]), named(9));
        // of groups that do not match the first
        assert_eq!(say(&[(7, 1), (8, 1), (15, 0)]), named(1));
        assert_eq!(say(&[(14, 1), (15, 0)]), named(14));
    }
    assert_eq!(changed(4, 60, &[(0, 1), (14, -1)]), wrong_count(4, 14));
}

#[test]
fn the_sixteenth_count_and_later_ones() {
    assert_eq!(changed(4, 60, &[(15, 7)]), Ok(5));
    assert_eq!(changed(4, 60, &[(14, 1)]), wrong_count(4, 14));
    assert_eq!(changed(4, 64, &[(15, 0)]), wrong_count(4, 15));
    assert_eq!(changed(4, 64, &[(16, -1)]), Ok(5));
    assert_eq!(changed(4, 72, &[(16, -(1 << 31)), (17, 9)]), Ok(5));
    // without the count, no child with tag 92 is right too
    let none = [record(16, 0, &[0; 30]), record(17, 0, &[0; 60])].concat();
    assert_eq!(read_docinfo(&none, 2).map(|rows| rows.len()), Ok(2));
}

/// Document 01's input of the lister.
fn listed() -> Vec<u8> {
    let mut input = vec![0x42, 0x00, 0x60, 0x01, 2, 0, 0, 0];
    input.extend([0; 8]);
    input.extend([1, 0]);
    input.extend([0; 8]);
    input.extend([0x43, 0x04, 0x40, 0x00, 0x41, 0x00, 0x0D, 0x00]);
    input.extend([0x44, 0x04, 0x80, 0x00]);
    input.extend([0; 8]);
    input
}

#[test]
fn lister() {
    let input = listed();
    assert_eq!(input.len(), 46);
    assert_eq!(list(&input), "0 66 0 22\n26 67 1 4\n34 68 1 8\nok 3\n");
    assert_eq!(list(&input[..45]), "refused 4 at 34\n");
    assert_eq!(list(&[]), "ok 0\n");
    assert_eq!(list(&vec![0; 65_537]), "refused 1 at 0\n");
    assert_eq!(read_section(&input, 2), refused(7, 34));
}

#[test]
fn the_lister_points_at_the_byte() {
    let mut input = listed();
    assert_eq!(list(&input[..37]), "refused 2 at 37\n");
    input[38] = 1;
    assert_eq!(list(&input), "refused 13 at 38\n");
    input[32] = 65;
    assert_eq!(list(&input), "refused 12 at 34\n");
    input[30] = 0;
    assert_eq!(list(&input), "refused 12 at 30\n");
}

#[test]
fn the_hosts_number() {
    assert_eq!(answer(12, 26, 0), 12 + 256 * 26);
    assert_eq!(answer(0, LIMIT, 2048), 256 * (1 << 24) + 2048 * (1 << 36));
}

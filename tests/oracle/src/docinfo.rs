//! DocInfo: records 16 and 17, and the counts in 17 against its children.

use crate::answer::{demand, refuse, Refusal};
use crate::records::{half, read, word, Row};
use std::ops::Range;

const PROPERTIES: u32 = 16;
const COUNTS: u32 = 17;
const SHORTEST_PROPERTIES: u32 = 30;
/// The counts that are asked about children; later ones are ignored.
const MOST_ASKED: u32 = 16;

/// How a record 17 holds its counts: the bytes of each, and how many are asked about children.
#[derive(Clone, Copy, Debug, PartialEq, Eq)]
pub struct Layout {
    pub width: u32,
    pub asked: u32,
}

/// 16 of one tag: exactly one record, at level 0. Gives its index.
fn rule_16(rows: &[Row], tag: u32) -> Result<usize, Refusal> {
    let mut found = None;
    for (index, row) in rows.iter().enumerate().filter(|(_, row)| row.tag == tag) {
        demand(found.is_none() && row.level == 0, 16, row.header())?;
        found = Some(index);
    }
    found.map_or_else(|| refuse(16, 0), Ok)
}

/// 32 bytes hold 16-bit counts; from 60 up, in multiples of four, 32-bit counts. No other length is right.
pub fn layout(length: u32) -> Option<Layout> {
    let width = match length {
        32 => 2,
        60.. if length.is_multiple_of(4) => 4,
        _ => return None,
    };
    let asked = MOST_ASKED.min(length / width);
    Some(Layout { width, asked })
}

/// 17 of both records. Gives the layout of the counts.
fn rule_17(properties: &Row, counts: &Row) -> Result<Layout, Refusal> {
    let long_enough = properties.length >= SHORTEST_PROPERTIES;
    demand(long_enough, 17, properties.header())?;
    layout(counts.length).map_or_else(|| refuse(17, counts.header()), Ok)
}

/// How many children the record has for each of the ten groups of counts.
pub fn children(rows: &[Row], parent: usize) -> [i64; 10] {
    let mut groups = [0; 10];
    let level = rows[parent].level;
    let below = rows[parent + 1..]
        .iter()
        .take_while(|row| row.level > level);
    for row in below.filter(|row| row.level == level + 1) {
        match row.tag {
            18..=26 => groups[row.tag as usize - 18] += 1,
            92 => groups[9] += 1,
            _ => {}
        }
    }
    groups
}

/// The counts that are asked, each with the sign of its width.
pub fn counts(body: &[u8], layout: Layout) -> Vec<i64> {
    let count = |place: u32| match layout.width {
        2 => i64::from(half(body, place as usize) as i16),
        _ => i64::from(word(body, place as usize) as i32),
    };
    (0..layout.asked)
        .map(|nth| count(layout.width * nth))
        .collect()
}

/// The groups of so many counts: the first, the next seven together, and each one behind those.
pub fn group_ranges(asked: usize) -> impl Iterator<Item = Range<usize>> {
    let single = |nth| nth..nth + 1;
    [0..1, 1..8].into_iter().chain((8..asked).map(single))
}

/// The sum of each group of counts.
pub fn groups(counts: &[i64]) -> Vec<i64> {
    let ranges = group_ranges(counts.len());
    ranges.map(|range| counts[range].iter().sum()).collect()
}

/// 18: no count is negative, refused at that count; then each group is the number of its children, refused at the
/// group's first count. Where the sixteenth count is absent there is no tenth group, and its children are not asked
/// about.
fn rule_18(counts: &[i64], children: &[i64], place: usize, width: usize) -> Result<(), Refusal> {
    for (nth, &count) in counts.iter().enumerate() {
        demand(count >= 0, 18, place + width * nth)?;
    }
    let groups = group_ranges(counts.len()).zip(groups(counts));
    for ((group, count), &number) in groups.zip(children) {
        demand(count == number, 18, place + width * group.start)?;
    }
    Ok(())
}

/// DocInfo read.
pub fn read_docinfo(stream: &[u8], room: usize) -> Result<Vec<Row>, Refusal> {
    let rows = read(stream, room)?;
    let properties = rule_16(&rows, PROPERTIES)?;
    let record = rule_16(&rows, COUNTS)?;
    let layout = rule_17(&rows[properties], &rows[record])?;
    let counts = counts(rows[record].body(stream), layout);
    let children = children(&rows, record);
    let place = rows[record].place as usize;
    rule_18(&counts, &children, place, layout.width as usize)?;
    Ok(rows)
}

//! Deliberately wrong section reads, checks, DocInfo reads, field texts, fills and listers: the comparison catches each.
//!
//! A twist is put on the oracle's own answer, or on the sheet or the list that it wrote.

use compare::judge::{number_of, place_of};
use compare::lend::{Given, Room};
use compare::run::run;
use compare::service::Service;
use compare::subject::{Kind, Lists, Oracle, Subject, Table};
use oracle::docinfo::{children, counts, group_ranges, groups, layout, Layout};
use oracle::lister::INPUT;
use oracle::records::{half, tile, word};
use oracle::section::field_id_place;
use oracle::{answer, field_text, Row, LIMIT};
use std::cell::Cell;

type OnRead = fn(&[u8], u64) -> u64;
type OnFieldText = fn(&[u8], u32, u64) -> u64;
type OnFill = fn(Fill, u64) -> u64;
type OnList = fn(&[u8], usize, String) -> String;

/// A fill after the oracle: what it was given, and the sheet.
struct Fill<'a> {
    section: &'a [u8],
    id: u32,
    value: &'a [u8],
    sheet: &'a mut [u8],
    nth: u32,
}

/// How record 17's counts are taken.
#[derive(Clone, Copy)]
struct Counting {
    layout: fn(u32) -> Option<Layout>,
    /// What a count is taken for.
    count: fn(i64) -> i64,
    /// What the sum of the seven counts is taken for.
    sum: fn(i64) -> i64,
    /// Whether a negative count is refused.
    sign: bool,
}

/// As the oracle takes them.
const RIGHT: Counting = Counting {
    layout,
    count: |count| count,
    sum: |sum| sum,
    sign: true,
};

/// The oracle with twists.
struct Twisted {
    counting: Counting,
    read: OnRead,
    field_text: OnFieldText,
    fill: OnFill,
    fills: Cell<u32>,
    list: OnList,
}

const STRAIGHT: Twisted = Twisted {
    counting: RIGHT,
    read: |_, answer| answer,
    field_text: |_, _, answer| answer,
    fill: |_, answer| answer,
    fills: Cell::new(0),
    list: |_, _, text| text,
};

impl Subject for Twisted {
    fn read(&self, kind: Kind, stream: Given<u8>, lists: Lists) -> u64 {
        let mut answer = Oracle.read(kind, stream, lists);
        // SAFETY: the comparator lends the memory for the length of the call.
        let stream = unsafe { stream.slice() };
        if kind == Kind::DocInfo {
            answer = recounted(stream, answer, &self.counting);
        }
        (self.read)(stream, answer)
    }

    fn pack(&self, count: u64, lists: Table, bytes: Given<u8>, out: Room<u8>) -> u64 {
        Oracle.pack(count, lists, bytes, out)
    }

    fn check(&self, section: Given<u8>) -> u64 {
        // SAFETY: as above.
        (self.read)(unsafe { section.slice() }, Oracle.check(section))
    }

    fn field_text(&self, section: Given<u8>, id: u32) -> u64 {
        let answer = Oracle.field_text(section, id);
        // SAFETY: as above.
        (self.field_text)(unsafe { section.slice() }, id, answer)
    }

    fn fill(&self, section: Given<u8>, id: u32, value: Given<u8>, sheet: Room<u8>) -> u64 {
        let answer = Oracle.fill(section, id, value, sheet);
        self.fills.set(self.fills.get() + 1);
        // SAFETY: as above.
        let fill = unsafe {
            Fill {
                section: section.slice(),
                id,
                value: value.slice(),
                sheet: sheet.slice(),
                nth: self.fills.get(),
            }
        };
        (self.fill)(fill, answer)
    }

    fn list(&self, input: &[u8], most: usize) -> Vec<u8> {
        (self.list)(input, most, oracle::list(input)).into_bytes()
    }
}

fn rows(stream: &[u8]) -> Vec<Row> {
    tile(stream).unwrap_or_default()
}

fn accept(stream: &[u8]) -> u64 {
    answer(0, rows(stream).len(), 0)
}

/// The index of the record that a refusal names, or in which it names a byte.
fn named(stream: &[u8], answer: u64) -> Option<usize> {
    let mut rows = rows(stream).into_iter();
    let place = place_of(answer);
    rows.position(|row| (row.header()..row.end()).contains(&place))
}

fn named_tag(stream: &[u8], answer: u64) -> u32 {
    named(stream, answer).map_or(0, |index| rows(stream)[index].tag)
}

fn parent_of(rows: &[Row], index: usize) -> Option<usize> {
    (0..index)
        .rev()
        .find(|&above| rows[above].level < rows[index].level)
}

fn is_own(tag: u32) -> bool {
    (67..=70).contains(&tag)
}

/// Refuses with the number at the first record that the question is true of, where the oracle accepts.
fn refuse_where(stream: &[u8], found: u64, number: u8, ask: impl Fn(&[Row], usize) -> bool) -> u64 {
    if number_of(found) != 0 {
        return found;
    }
    let rows = rows(stream);
    match (0..rows.len()).find(|&index| ask(&rows, index)) {
        Some(index) => answer(number, rows[index].header(), 0),
        None => found,
    }
}

/// Accepts what the oracle refuses with the number at a record of the tag.
fn accept_where(stream: &[u8], found: u64, number: u8, tag: u32) -> u64 {
    if number_of(found) == number && named_tag(stream, found) == tag {
        return accept(stream);
    }
    found
}

/// Whether a text, walked with every control as one unit, or only to the first 13, would be refused.
fn walked_wrongly(text: &[u8]) -> bool {
    let units = text.chunks_exact(2).map(|unit| half(unit, 0));
    let first = units.clone().position(|unit| unit == 13);
    first != Some(units.count() - 1)
}

const SECTION_TWISTS: [(&str, OnRead); 22] = [
    ("refuses all", |_, _| answer(2, 0, 0)),
    ("accepts all", |stream, _| accept(stream)),
    ("stops at a 13 inside a control", |stream, found| {
        refuse_where(stream, found, 12, |rows, index| {
            rows[index].tag == 67 && walked_wrongly(rows[index].body(stream))
        })
    }),
    ("reads the flag as count", |stream, found| {
        refuse_where(stream, found, 10, |rows, index| {
            rows[index].tag == 66 && rows[index].body(stream)[3] & 128 != 0
        })
    }),
    ("asks text of a lone 13", |stream, found| {
        refuse_where(stream, found, 10, |rows, index| {
            let count = || word(rows[index].body(stream), 0) & !(1 << 31);
            let text = |row: &Row| row.tag == 67 && row.level == rows[index].level + 1;
            rows[index].tag == 66 && count() == 1 && !rows[index + 1..].iter().any(text)
        })
    }),
    ("asks text before shapes", |stream, found| {
        refuse_where(stream, found, 9, |rows, index| {
            let parent = parent_of(rows, index);
            let before = (0..index).rev();
            let mut before = before.filter(|&other| parent_of(rows, other) == parent);
            rows[index].tag == 67 && before.any(|other| rows[other].tag == 68)
        })
    }),
    ("counts control headers below others", |stream, found| {
        refuse_where(stream, found, 14, |rows, index| {
            let below = rows[index + 1..].iter();
            let mut below = below.take_while(|row| row.level > rows[index].level);
            rows[index].tag == 66
                && below.any(|row| row.tag == 71 && row.level > rows[index].level + 1)
        })
    }),
    ("asks 15 bytes of every control header", |stream, found| {
        refuse_where(stream, found, 15, |rows, index| {
            rows[index].tag == 71 && rows[index].length < 15
        })
    }),
    ("knows 512 levels", |stream, found| {
        refuse_where(stream, found, 9, |rows, index| rows[index].level > 512)
    }),
    ("takes no paragraph below a paragraph", |stream, found| {
        refuse_where(stream, found, 9, |rows, index| {
            let parent = parent_of(rows, index);
            rows[index].tag == 66 && parent.is_some_and(|parent| rows[parent].tag == 66)
        })
    }),
    ("takes short headers", |stream, found| {
        accept_where(stream, found, 8, 66)
    }),
    ("takes a misplaced layout", |stream, found| {
        accept_where(stream, found, 9, 69)
    }),
    ("takes absent shapes", |stream, found| {
        accept_where(stream, found, 10, 66)
    }),
    ("takes any layout", |stream, found| {
        accept_where(stream, found, 11, 69)
    }),
    ("takes any marks", |stream, found| {
        accept_where(stream, found, 13, 70)
    }),
    ("takes any shape starts", |stream, found| {
        accept_where(stream, found, 13, 68)
    }),
    ("takes any number of control headers", |stream, found| {
        accept_where(stream, found, 14, 66)
    }),
    ("takes short fields", |stream, found| {
        accept_where(stream, found, 15, 71)
    }),
    ("names the parent for its child", |stream, found| {
        let rows = rows(stream);
        let index = named(stream, found).filter(|_| number_of(found) == 9);
        let parent = index.and_then(|index| parent_of(&rows, index));
        match parent.filter(|&parent| is_own(rows[parent].tag)) {
            Some(parent) => answer(9, rows[parent].header(), 0),
            None => found,
        }
    }),
    ("names the first of two", |stream, found| {
        let rows = rows(stream);
        let Some(index) = named(stream, found).filter(|_| number_of(found) == 9) else {
            return found;
        };
        let parent = parent_of(&rows, index);
        let alike = |&other: &usize| {
            rows[other].tag == rows[index].tag && parent_of(&rows, other) == parent
        };
        match (0..index).find(alike) {
            Some(first) if is_own(rows[first].tag) => answer(9, rows[first].header(), 0),
            _ => found,
        }
    }),
    ("gives 8 before 9", |stream, found| {
        let rows = rows(stream);
        let short = rows.iter().find(|row| row.tag == 66 && row.length < 22);
        match short.filter(|_| number_of(found) == 9) {
            Some(row) => answer(8, row.header(), 0),
            None => found,
        }
    }),
    ("names the text for 14", |_, found| match number_of(found) {
        14 => answer(14, place_of(found) + 26, 0),
        _ => found,
    }),
];

/// Judges record 17 by another way to take its counts, where the oracle came to it.
fn recounted(stream: &[u8], found: u64, counting: &Counting) -> u64 {
    let rows = rows(stream);
    let judged = match number_of(found) {
        0 | 18 => true,
        17 => named_tag(stream, found) == 17,
        _ => false,
    };
    let index = rows.iter().position(|row| row.tag == 17);
    let Some(index) = index.filter(|_| judged) else {
        return found;
    };
    let Some(layout) = (counting.layout)(rows[index].length) else {
        return answer(17, rows[index].header(), 0);
    };
    let counts = counts(rows[index].body(stream), layout).into_iter();
    let counts: Vec<i64> = counts.map(counting.count).collect();
    let mut groups = groups(&counts);
    groups[1] = (counting.sum)(groups[1]);
    let negative = counts.iter().position(|&count| count < 0);
    let mut groups = group_ranges(counts.len())
        .zip(groups)
        .zip(children(&rows, index));
    let unmatched = groups.find(|((_, count), number)| count != number);
    let unmatched = unmatched.map(|((counts, _), _)| counts.start);
    match negative.filter(|_| counting.sign).or(unmatched) {
        Some(nth) => answer(
            18,
            rows[index].place as usize + layout.width as usize * nth,
            0,
        ),
        None => accept(stream),
    }
}

/// Takes one length more, as that of wide counts.
fn takes<const LENGTH: u32>(length: u32) -> Option<Layout> {
    match length == LENGTH {
        true => Some(Layout {
            width: 4,
            asked: 16.min(length / 4),
        }),
        false => layout(length),
    }
}

fn refuses<const LENGTH: u32>(length: u32) -> Option<Layout> {
    layout(length).filter(|_| length != LENGTH)
}

/// Takes what should be wide counts for others.
fn wide_as(length: u32, width: u32, asked: u32) -> Option<Layout> {
    layout(length).map(|right| match right.width {
        4 => Layout { width, asked },
        _ => right,
    })
}

const fn by_layout(layout: fn(u32) -> Option<Layout>) -> Counting {
    Counting { layout, ..RIGHT }
}

const fn by_count(count: fn(i64) -> i64) -> Counting {
    Counting { count, ..RIGHT }
}

const fn by_sum(sum: fn(i64) -> i64) -> Counting {
    Counting { sum, ..RIGHT }
}

const WRONG_COUNTINGS: [(&str, Counting); 19] = [
    (
        "knows no wide counts",
        by_layout(|length| layout(length).filter(|right| right.width == 2)),
    ),
    ("knows no narrow counts", by_layout(refuses::<32>)),
    (
        "reads wide counts as narrow",
        by_layout(|length| wide_as(length, 2, 16)),
    ),
    ("reads narrow counts as wide", by_layout(takes::<32>)),
    ("takes 36 bytes", by_layout(takes::<36>)),
    ("takes 56 bytes", by_layout(takes::<56>)),
    ("takes 62 bytes", by_layout(takes::<62>)),
    ("takes 63 bytes", by_layout(takes::<63>)),
    ("refuses 60 bytes", by_layout(refuses::<60>)),
    ("refuses 80 bytes", by_layout(refuses::<80>)),
    (
        "refuses the long form",
        by_layout(|length| layout(length).filter(|_| length < 4095)),
    ),
    (
        "asks no fifteenth count",
        by_layout(|length| wide_as(length, 4, 14)),
    ),
    (
        "asks no sixteenth count",
        by_layout(|length| wide_as(length, 4, 15)),
    ),
    (
        "asks the sign of later counts",
        by_layout(|length| wide_as(length, 4, length / 4)),
    ),
    ("adds in 32 bits", by_sum(|sum| i64::from(sum as i32))),
    ("adds in 16 bits", by_sum(|sum| i64::from(sum as i16))),
    (
        "takes the lower half of a count",
        by_count(|count| i64::from(count as i16)),
    ),
    (
        "takes 16 bits without a sign",
        by_count(|count| match count {
            -32_768..=-1 => count + 65_536,
            _ => count,
        }),
    ),
    (
        "takes negative counts",
        Counting {
            sign: false,
            ..RIGHT
        },
    ),
];

const DOCINFO_TWISTS: [(&str, OnRead); 8] = [
    ("asks the sixteenth of 60 bytes", |stream, found| {
        refuse_where(stream, found, 18, |rows, index| {
            let short = rows[index].tag == 17 && rows[index].length == 60;
            short && children(rows, index)[9] > 0
        })
    }),
    ("takes a longer 17", |stream, found| {
        let row = named(stream, found).map(|index| rows(stream)[index]);
        match row.filter(|row| number_of(found) == 17 && row.tag == 17 && row.length > 32) {
            Some(_) => accept(stream),
            None => found,
        }
    }),
    ("takes a short 16", |stream, found| {
        accept_where(stream, found, 17, 16)
    }),
    ("counts children of children", |stream, found| {
        refuse_where(stream, found, 18, |rows, index| {
            let below = rows[index + 1..].iter();
            let mut below = below.take_while(|row| row.level > 0);
            rows[index].tag == 17 && below.any(|row| row.level > 1 && (18..=26).contains(&row.tag))
        })
    }),
    ("counts in 16 bits", |stream, found| {
        let many = rows(stream).len() > 65_536;
        if number_of(found) == 18 && many {
            return accept(stream);
        }
        found
    }),
    ("names the first of two", |stream, found| {
        let tag = named_tag(stream, found);
        let rows = rows(stream);
        let first = rows.iter().find(|row| row.tag == tag);
        match first.filter(|_| number_of(found) == 16 && place_of(found) > 0) {
            Some(row) => answer(16, row.header(), 0),
            None => found,
        }
    }),
    ("judges 17's place first", |stream, found| {
        let mut seen = 0;
        for row in rows(stream).iter().filter(|row| row.tag == 17) {
            seen += 1;
            if number_of(found) == 16 && (row.level > 0 || seen > 1) {
                return answer(16, row.header(), 0);
            }
        }
        found
    }),
    ("judges 17's length first", |stream, found| {
        let rows = rows(stream);
        let wrong = |row: &&Row| row.tag == 17 && layout(row.length).is_none();
        let counts = rows.iter().find(wrong);
        match counts.filter(|_| number_of(found) == 17) {
            Some(row) => answer(17, row.header(), 0),
            None => found,
        }
    }),
];

/// The fields with the id by the stream order of their control headers.
fn headers_with(stream: &[u8], id: u32) -> Vec<usize> {
    let rows = rows(stream);
    let fields = rows.iter().filter(|row| {
        let body = row.body(stream);
        row.tag == 71 && field_id_place(body).is_some_and(|place| word(body, place) == id)
    });
    fields.map(|row| row.header()).collect()
}

fn second_by_stream(stream: &[u8], id: u32, found: u64) -> u64 {
    match headers_with(stream, id).get(1) {
        Some(&place) if number_of(found) == 22 => answer(22, place, 0),
        _ => found,
    }
}

const FIELD_TEXT_TWISTS: [(&str, OnFieldText); 7] = [
    ("gives the length in units", |_, _, found| {
        answer(number_of(found), place_of(found), (found >> 37) as usize)
    }),
    ("gives no length", |_, _, found| found & ((1 << 36) - 1)),
    ("gives the control's place", |_, _, found| {
        match number_of(found) {
            0 => found - (16 << 8),
            _ => found,
        }
    }),
    (
        "answers 0 for an unknown id",
        |_, _, found| match number_of(found) {
            21 => 0,
            _ => found,
        },
    ),
    (
        "names the first field for 22",
        |stream, id, found| match headers_with(stream, id).first() {
            Some(&place) if number_of(found) == 22 => answer(22, place, 0),
            _ => found,
        },
    ),
    (
        "names the second header of the stream for 22",
        second_by_stream,
    ),
    ("gives 23 before 22", |stream, id, found| {
        let two = number_of(found) == 22;
        match headers_with(stream, id).first() {
            Some(&place) if two && place_of(found) % 3 == 0 => answer(23, place, 0),
            _ => found,
        }
    }),
];

/// Where the field's paragraph stands in a sheet: header, shapes, control header, and the end of the value.
struct Where {
    header: Row,
    shapes: Row,
    control: Row,
    end: u32,
}

fn locate(sheet: &[u8], id: u32) -> Where {
    let rows = rows(sheet);
    let (start, length) = field_text(sheet, id).unwrap();
    let inside = |row: &Row| row.tag == 67 && row.header() < start && start <= row.end();
    let text = rows.iter().position(inside).unwrap();
    let header = parent_of(&rows, text).unwrap();
    let is_shapes =
        |&index: &usize| rows[index].tag == 68 && parent_of(&rows, index) == Some(header);
    let shapes = (header..rows.len()).find(is_shapes).unwrap();
    let control = headers_with(sheet, id)[0];
    Where {
        header: rows[header],
        shapes: rows[shapes],
        control: *rows.iter().find(|row| row.header() == control).unwrap(),
        end: ((start + length - rows[text].place as usize) / 2) as u32,
    }
}

/// Puts a twist on an accepted sheet, given where the filled paragraph stands.
fn on_sheet(fill: Fill, found: u64, twist: impl Fn(&mut [u8], Where)) -> u64 {
    if number_of(found) == 0 {
        let length = place_of(found);
        let place = locate(&fill.sheet[..length], fill.id);
        twist(&mut fill.sheet[..length], place);
    }
    found
}

/// Changes the starts that the question is true of.
fn change_starts(sheet: &mut [u8], place: &Where, change: impl Fn(u32) -> u32) {
    let from = place.shapes.place as usize;
    for entry in sheet[from..place.shapes.end()].chunks_exact_mut(8) {
        let start = change(word(entry, 0));
        entry[..4].copy_from_slice(&start.to_le_bytes());
    }
}

fn template(fill: Fill, found: u64) -> u64 {
    let length = fill.section.len();
    if number_of(found) == 0 && length <= fill.sheet.len() {
        fill.sheet[..length].copy_from_slice(fill.section);
        return answer(0, length, 0);
    }
    found
}

fn bad_value(value: &[u8]) -> bool {
    value.len() > 2048
        || value.len() % 2 == 1
        || value.chunks_exact(2).any(|unit| half(unit, 0) < 32)
}

const FILL_TWISTS: [(&str, OnFill); 19] = [
    ("hands back the template", template),
    ("fills once, then copies", |fill, found| {
        if fill.nth == 1 {
            return found;
        }
        template(fill, found)
    }),
    ("leaves bit 15", |fill, found| {
        on_sheet(fill, found, |sheet, place| {
            sheet[place.control.place as usize + 5] &= 127
        })
    }),
    ("drops the flag", |fill, found| {
        on_sheet(fill, found, |sheet, place| {
            sheet[place.header.place as usize + 3] &= 127
        })
    }),
    ("leaves lines", |fill, found| {
        on_sheet(fill, found, |sheet, place| {
            sheet[place.header.place as usize + 16] = 1
        })
    }),
    ("leaves starts above the value", |fill, found| {
        let by = (fill.value.len() / 2) as u32;
        on_sheet(fill, found, |sheet, place| {
            change_starts(sheet, &place, |start| {
                if start > place.end {
                    start - by
                } else {
                    start
                }
            })
        })
    }),
    ("puts the kept start at the value's start", |fill, found| {
        let by = (fill.value.len() / 2) as u32;
        on_sheet(fill, found, |sheet, place| {
            change_starts(sheet, &place, |start| {
                if start == place.end {
                    start - by
                } else {
                    start
                }
            })
        })
    }),
    ("keeps another shape", |fill, found| {
        on_sheet(fill, found, |sheet, place| {
            let from = place.shapes.place as usize;
            for entry in sheet[from..place.shapes.end()].chunks_exact_mut(8) {
                if word(entry, 0) == place.end {
                    entry[4] ^= 1;
                }
            }
        })
    }),
    ("counts another number of shapes", |fill, found| {
        on_sheet(fill, found, |sheet, place| {
            sheet[place.header.place as usize + 12] ^= 1
        })
    }),
    ("writes past the new length", |fill, found| {
        if number_of(found) == 0 && place_of(found) < fill.sheet.len() {
            fill.sheet[place_of(found)] ^= 1;
        }
        found
    }),
    ("writes on a refusal", |fill, found| {
        if number_of(found) == 23 && !fill.sheet.is_empty() {
            fill.sheet[0] ^= 1;
        }
        found
    }),
    ("judges the buffer before the limit", |fill, found| {
        if number_of(found) == 25 && fill.sheet.len() <= LIMIT {
            return answer(26, 0, 0);
        }
        found
    }),
    ("judges the value before the section", |fill, found| {
        if bad_value(fill.value) {
            return answer(20, 0, 0);
        }
        found
    }),
    ("judges half a unit before the section", |fill, found| {
        if fill.value.len() % 2 == 1 {
            return answer(20, 0, 0);
        }
        found
    }),
    ("judges the id before the value", |fill, found| {
        if number_of(found) == 20 && headers_with(fill.section, fill.id).is_empty() {
            return answer(21, 0, 0);
        }
        found
    }),
    ("answers 0 for an unknown id", |_, found| {
        match number_of(found) {
            21 => 0,
            _ => found,
        }
    }),
    (
        "names the control header for 24",
        |fill, found| match headers_with(fill.section, fill.id).first() {
            Some(&place) if number_of(found) == 24 => answer(24, place, 0),
            _ => found,
        },
    ),
    (
        "names the second header of the stream for 22",
        |fill, found| second_by_stream(fill.section, fill.id, found),
    ),
    (
        "takes a result over the limit",
        |fill, found| match number_of(found) {
            25 => template(fill, 0),
            _ => found,
        },
    ),
];

/// The list with another line for each record.
fn lines_of(input: &[u8], text: String, line: impl Fn(&Row) -> [u32; 4]) -> String {
    let Some(ok) = text.lines().last().filter(|last| last.starts_with("ok")) else {
        return text;
    };
    let lines = rows(input).into_iter().map(|row| {
        let [place, tag, level, length] = line(&row);
        format!("{place} {tag} {level} {length}\n")
    });
    lines.chain([format!("{ok}\n")]).collect()
}

const LIST_TWISTS: [(&str, OnList); 10] = [
    ("gives places of bodies", |input, _, text| {
        lines_of(input, text, |row| {
            [row.place, row.tag, row.level, row.length]
        })
    }),
    ("gives the level before the tag", |input, _, text| {
        lines_of(input, text, |row| {
            [row.header() as u32, row.level, row.tag, row.length]
        })
    }),
    ("gives the size for the length", |input, _, text| {
        lines_of(input, text, |row| {
            [
                row.header() as u32,
                row.tag,
                row.level,
                row.length.min(4095),
            ]
        })
    }),
    ("lists before it judges", |input, _, text| {
        let lines = rows(input).into_iter().take(1);
        let lines = lines.filter(|_| text.starts_with("refused"));
        let first: String = lines.map(|row| format!("0 {}\n", row.tag)).collect();
        first + &text
    }),
    ("leaves out the number of records", |_, _, text| {
        text.lines()
            .filter(|line| !line.starts_with("ok"))
            .map(|line| format!("{line}\n"))
            .collect()
    }),
    ("does not end the last line", |_, _, text| {
        text.trim_end().to_string()
    }),
    ("refuses the longest input", |input, _, text| {
        match input.len() {
            INPUT => "refused 1 at 0\n".to_string(),
            _ => text,
        }
    }),
    ("cuts a longer input", |input, _, text| {
        match input.len() > INPUT {
            true => oracle::list(&input[..INPUT]),
            false => text,
        }
    }),
    ("stops at a short read", |input, most, _| {
        oracle::list(&input[..most.min(input.len())])
    }),
    ("stops at a short write", |_, most, text| {
        text[..most.min(text.len())].to_string()
    }),
];

/// Whether some case tells the subject from the oracle: short cases, then one long case of each kind.
fn caught(service: Service, subject: &Twisted) -> bool {
    let short = (0..8).any(|part| {
        let from = 1000 * part + 501;
        run(service, 1, from, from + 499, subject).differing > 0
    });
    short || {
        let mut long = (0..8).map(|which| 1000 * which + 500);
        long.any(|index| run(service, 1, index, index + 1, subject).differing > 0)
    }
}

#[test]
fn the_straight_oracle_passes() {
    for service in [
        Service::DocInfo,
        Service::Section,
        Service::Check,
        Service::FieldText,
        Service::Fill,
        Service::TwoFills,
        Service::Lister,
    ] {
        assert_eq!(
            run(service, 1, 501, 1500, &STRAIGHT).differing,
            0,
            "{service:?}"
        );
    }
}

#[test]
fn each_wrong_section_read_is_caught() {
    for (name, read) in SECTION_TWISTS {
        let subject = Twisted { read, ..STRAIGHT };
        assert!(caught(Service::Section, &subject), "section: {name}");
        assert!(caught(Service::Check, &subject), "check: {name}");
    }
}

#[test]
fn a_section_read_that_gives_7_last_is_caught() {
    let read: OnRead = |stream, found| match (number_of(found), oracle::check(stream)) {
        (7, Err(refusal)) => answer(refusal.number, refusal.place, 0),
        _ => found,
    };
    assert!(caught(Service::Section, &Twisted { read, ..STRAIGHT }));
}

#[test]
fn each_wrong_docinfo_read_is_caught() {
    assert!(!caught(Service::DocInfo, &STRAIGHT), "the right counting");
    for (name, read) in DOCINFO_TWISTS {
        let subject = Twisted { read, ..STRAIGHT };
        assert!(caught(Service::DocInfo, &subject), "{name}");
    }
    for (name, counting) in WRONG_COUNTINGS {
        let subject = Twisted {
            counting,
            ..STRAIGHT
        };
        assert!(caught(Service::DocInfo, &subject), "{name}");
    }
}

#[test]
fn each_wrong_field_text_is_caught() {
    for (name, field_text) in FIELD_TEXT_TWISTS {
        let subject = Twisted {
            field_text,
            ..STRAIGHT
        };
        assert!(caught(Service::FieldText, &subject), "{name}");
    }
}

#[test]
fn each_wrong_fill_is_caught() {
    for (name, fill) in FILL_TWISTS {
        let subject = Twisted { fill, ..STRAIGHT };
        assert!(caught(Service::Fill, &subject), "{name}");
    }
}

/// A fill is read back by check and by field text, and either may be the wrong one.
#[test]
fn a_sheet_that_is_not_read_back_is_caught() {
    let field_text: OnFieldText = |_, _, answer| match number_of(answer) {
        0 => answer + 256,
        _ => answer,
    };
    assert!(caught(
        Service::Fill,
        &Twisted {
            field_text,
            ..STRAIGHT
        }
    ));
    let read: OnRead = |_, _| answer(1, 0, 0);
    assert!(caught(Service::Fill, &Twisted { read, ..STRAIGHT }));
}

#[test]
fn each_wrong_lister_is_caught() {
    for (name, list) in LIST_TWISTS {
        let subject = Twisted { list, ..STRAIGHT };
        assert!(caught(Service::Lister, &subject), "{name}");
    }
}

#[test]
fn fills_that_copy_later_are_caught_in_two_fills() {
    let fill = FILL_TWISTS[1].1;
    assert!(caught(Service::TwoFills, &Twisted { fill, ..STRAIGHT }));
}

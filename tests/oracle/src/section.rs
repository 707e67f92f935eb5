//! Sections: where the records of a paragraph stand, and the rules of each paragraph.

use crate::answer::{demand, refuse, Refusal};
use crate::records::{half, read, tile, word, Row};
use crate::text::{text_rules, FIELD};

pub const PARAGRAPH: u32 = 66;
pub const TEXT: u32 = 67;
pub const SHAPES: u32 = 68;
pub const LAYOUT: u32 = 69;
pub const MARKS: u32 = 70;
pub const CONTROL: u32 = 71;

const LEVELS: usize = 1024;

/// A paragraph: the indexes of its header, of its records 67 to 70 and of its control headers.
#[derive(Clone, Debug, Default)]
pub struct Paragraph {
    pub header: u32,
    own: [Option<u32>; 4],
    pub controls: Vec<u32>,
}

impl Paragraph {
    pub fn child(&self, tag: u32) -> Option<usize> {
        self.own[(tag - TEXT) as usize].map(|index| index as usize)
    }
}

/// A section whose records are read and whose paragraphs are found.
pub struct Section<'a> {
    pub stream: &'a [u8],
    pub rows: Vec<Row>,
    pub paragraphs: Vec<Paragraph>,
}

fn is_own(tag: u32) -> bool {
    (TEXT..=MARKS).contains(&tag)
}

/// The last record met at a level: its tag, and its paragraph's index where it is a header.
#[derive(Clone, Copy)]
struct Open {
    tag: u32,
    paragraph: usize,
}

/// Rule 9 over all records; on the way each paragraph gets its children.
fn gather(rows: &[Row]) -> Result<Vec<Paragraph>, Refusal> {
    let mut paragraphs: Vec<Paragraph> = Vec::new();
    let mut open = [Open {
        tag: 0,
        paragraph: 0,
    }; LEVELS];
    for (index, row) in rows.iter().enumerate() {
        let level = row.level as usize;
        let parent = level.checked_sub(1).map(|above| open[above]);
        place_record(row, index as u32, parent, &mut paragraphs)?;
        if row.tag == PARAGRAPH {
            paragraphs.push(Paragraph {
                header: index as u32,
                ..Paragraph::default()
            });
        }
        open[level] = Open {
            tag: row.tag,
            paragraph: paragraphs.len().wrapping_sub(1),
        };
    }
    Ok(paragraphs)
}

/// Rule 9 of one record below its parent.
fn place_record(
    row: &Row,
    index: u32,
    parent: Option<Open>,
    paragraphs: &mut [Paragraph],
) -> Result<(), Refusal> {
    demand(
        !parent.is_some_and(|above| is_own(above.tag)),
        9,
        row.header(),
    )?;
    let owner = parent.filter(|above| above.tag == PARAGRAPH);
    match owner {
        None => demand(!is_own(row.tag), 9, row.header()),
        Some(owner) if is_own(row.tag) => {
            let slot = &mut paragraphs[owner.paragraph].own[(row.tag - TEXT) as usize];
            demand(slot.is_none(), 9, row.header())?;
            *slot = Some(index);
            Ok(())
        }
        Some(owner) => {
            if row.tag == CONTROL {
                paragraphs[owner.paragraph].controls.push(index);
            }
            Ok(())
        }
    }
}

/// The numbers of a paragraph header.
pub struct Numbers {
    pub count: u32,
    pub shapes: u16,
    pub marks: u16,
    pub lines: u16,
}

pub const SHORTEST_HEADER: u32 = 22;
/// The bit of the first four bytes that is no part of the count.
pub const FLAG: u32 = 1 << 31;

impl Section<'_> {
    pub fn body(&self, index: usize) -> &[u8] {
        self.rows[index].body(self.stream)
    }

    pub fn place(&self, index: usize) -> usize {
        self.rows[index].header()
    }

    /// The byte place of a position in the text record with this index.
    pub fn unit_place(&self, text: usize, position: usize) -> usize {
        self.rows[text].place as usize + 2 * position
    }

    /// The byte place of the nth entry of a record whose entries are all as long as this one.
    fn entry_place(&self, index: usize, nth: usize, entry: &[u8]) -> usize {
        self.rows[index].place as usize + entry.len() * nth
    }

    pub fn numbers(&self, paragraph: &Paragraph) -> Numbers {
        let body = self.body(paragraph.header as usize);
        Numbers {
            count: word(body, 0) & !FLAG,
            shapes: half(body, 12),
            marks: half(body, 14),
            lines: half(body, 16),
        }
    }

    /// The bytes of a paragraph's text record; none where it is absent.
    pub fn text(&self, paragraph: &Paragraph) -> &[u8] {
        paragraph.child(TEXT).map_or(&[], |index| self.body(index))
    }

    /// 8: the header has at least 22 bytes.
    fn rule_8(&self, paragraph: &Paragraph) -> Result<(), Refusal> {
        let row = &self.rows[paragraph.header as usize];
        demand(row.length >= SHORTEST_HEADER, 8, row.header())
    }

    /// 10: the records that the numbers ask for are there.
    fn rule_10(&self, paragraph: &Paragraph, numbers: &Numbers) -> Result<(), Refusal> {
        let needed = [
            (TEXT, numbers.count >= 2),
            (SHAPES, true),
            (LAYOUT, numbers.lines > 0),
            (MARKS, numbers.marks > 0),
        ];
        let lacking = needed
            .iter()
            .any(|&(tag, needed)| needed && paragraph.child(tag).is_none());
        demand(!lacking, 10, self.place(paragraph.header as usize))
    }

    /// 11: each record that is there has the length that its number asks for, and a number above 0.
    fn rule_11(&self, paragraph: &Paragraph, numbers: &Numbers) -> Result<(), Refusal> {
        let asked = [
            (TEXT, u64::from(numbers.count), Some(2)),
            (SHAPES, u64::from(numbers.shapes), Some(8)),
            (LAYOUT, u64::from(numbers.lines), None),
            (MARKS, u64::from(numbers.marks), Some(12)),
        ];
        for (tag, number, width) in asked {
            if let Some(index) = paragraph.child(tag) {
                let length = u64::from(self.rows[index].length);
                let fits = width.is_none_or(|width: u64| length == width * number);
                demand(number > 0 && fits, 11, self.place(index))?;
            }
        }
        Ok(())
    }

    /// 12: the text rules, refused at the unit that breaks them. Gives the codes of the extended controls.
    fn rule_12(&self, paragraph: &Paragraph) -> Result<Vec<u16>, Refusal> {
        let Some(index) = paragraph.child(TEXT) else {
            return Ok(Vec::new());
        };
        let codes = text_rules(self.body(index));
        codes.or_else(|fault| refuse(12, self.unit_place(index, fault.at)))
    }

    /// 13 of the shapes: the first start is 0, starts rise and are below the count. Refused at the first entry that
    /// breaks any of the three; of two starts that do not rise that is the later.
    fn rule_13_shapes(&self, paragraph: &Paragraph, numbers: &Numbers) -> Result<(), Refusal> {
        let Some(index) = paragraph.child(SHAPES) else {
            return Ok(());
        };
        let mut least = 0;
        for (nth, entry) in self.body(index).chunks_exact(8).enumerate() {
            let start = u64::from(word(entry, 0));
            let good = start >= least
                && (nth > 0 || start == 0)
                && start < u64::from(numbers.count.max(1));
            demand(good, 13, self.entry_place(index, nth, entry))?;
            least = start + 1;
        }
        Ok(())
    }

    /// 13 of the marks: start at most end, end at most the count. Refused at the first entry that breaks either.
    fn rule_13_marks(&self, paragraph: &Paragraph, numbers: &Numbers) -> Result<(), Refusal> {
        let Some(index) = paragraph.child(MARKS) else {
            return Ok(());
        };
        for (nth, entry) in self.body(index).chunks_exact(12).enumerate() {
            let (start, end) = (word(entry, 0), word(entry, 4));
            let good = start <= end && end <= numbers.count;
            demand(good, 13, self.entry_place(index, nth, entry))?;
        }
        Ok(())
    }

    /// 14: as many extended controls as control headers.
    fn rule_14(&self, paragraph: &Paragraph, codes: &[u16]) -> Result<(), Refusal> {
        let equal = codes.len() == paragraph.controls.len();
        demand(equal, 14, self.place(paragraph.header as usize))
    }

    /// 15: the control header of a field holds a field id.
    fn rule_15(&self, paragraph: &Paragraph, codes: &[u16]) -> Result<(), Refusal> {
        for (&code, &control) in codes.iter().zip(&paragraph.controls) {
            let control = control as usize;
            let good = code != FIELD || field_id_place(self.body(control)).is_some();
            demand(good, 15, self.place(control))?;
        }
        Ok(())
    }

    fn paragraph_rules(&self, paragraph: &Paragraph) -> Result<(), Refusal> {
        self.rule_8(paragraph)?;
        let numbers = self.numbers(paragraph);
        self.rule_10(paragraph, &numbers)?;
        self.rule_11(paragraph, &numbers)?;
        let codes = self.rule_12(paragraph)?;
        self.rule_13_shapes(paragraph, &numbers)?;
        self.rule_13_marks(paragraph, &numbers)?;
        self.rule_14(paragraph, &codes)?;
        self.rule_15(paragraph, &codes)
    }
}

/// The place of the field id in the body of a field's control header; none where it is too short.
pub fn field_id_place(body: &[u8]) -> Option<usize> {
    if body.len() < 15 {
        return None;
    }
    let place = 11 + 2 * usize::from(half(body, 9));
    (body.len() >= place + 4).then_some(place)
}

/// The section's rules but read's numbers.
fn judge(stream: &[u8], rows: Vec<Row>) -> Result<Section<'_>, Refusal> {
    let paragraphs = gather(&rows)?;
    let section = Section {
        stream,
        rows,
        paragraphs,
    };
    for paragraph in &section.paragraphs {
        section.paragraph_rules(paragraph)?;
    }
    Ok(section)
}

/// A section that all rules hold of, 7 aside.
pub fn lawful(stream: &[u8]) -> Result<Section<'_>, Refusal> {
    judge(stream, tile(stream)?)
}

/// Check: the record count of a section that all rules hold of.
pub fn check(stream: &[u8]) -> Result<usize, Refusal> {
    Ok(lawful(stream)?.rows.len())
}

/// Section read: 7 is among read's numbers, so it comes before 9.
pub fn read_section(stream: &[u8], room: usize) -> Result<Vec<Row>, Refusal> {
    Ok(judge(stream, read(stream, room)?)?.rows)
}

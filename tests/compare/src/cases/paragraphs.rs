//! Lawful sections: paragraphs with text, shapes, layout, marks, controls and fields, nested in each other.

use crate::cases::records::Draft;
use crate::random::Random;

pub const PARAGRAPH: u32 = 66;
pub const TEXT: u32 = 67;
pub const SHAPES: u32 = 68;
pub const LAYOUT: u32 = 69;
pub const MARKS: u32 = 70;
pub const CONTROL: u32 = 71;
pub const LIST: u32 = 72;
pub const DATA: u32 = 87;

pub const ONE: [u16; 9] = [10, 24, 25, 26, 27, 28, 29, 30, 31];
pub const INLINE: [u16; 8] = [4, 5, 6, 7, 8, 9, 19, 20];
/// The extended codes but 3.
pub const EXTENDED: [u16; 12] = [1, 2, 11, 12, 14, 15, 16, 17, 18, 21, 22, 23];

/// How a section is made.
#[derive(Clone)]
pub struct Style {
    /// One piece of text in this many is a field.
    pub fields: usize,
    /// One paragraph in this many has marks.
    pub marks: usize,
    /// One control header in this many holds paragraphs.
    pub nests: usize,
    /// One text in this many is long.
    pub long: usize,
    /// One field in this many is not plain.
    pub open: usize,
    /// One field in this many has the id of an earlier one.
    pub twice: usize,
    /// One paragraph in this many has its records in an unusual order.
    pub order: usize,
}

pub const MIXED: Style = Style {
    fields: 6,
    marks: 4,
    nests: 4,
    long: 60,
    open: 4,
    twice: 6,
    order: 4,
};

/// Sections for fills: more fields, fewer marks.
pub const FIELDS: Style = Style {
    fields: 2,
    marks: 20,
    nests: 4,
    long: 40,
    open: 16,
    twice: 10,
    order: 4,
};

/// The shape of real documents.
pub const REAL: Style = Style {
    fields: 40,
    marks: 50,
    nests: 3,
    long: 200,
    open: 16,
    twice: 1_000_000,
    order: 1_000_000,
};

/// A section in the making, and the ids of its fields.
pub struct Builder<'a> {
    pub random: &'a mut Random,
    pub style: Style,
    pub drafts: Vec<Draft>,
    pub ids: Vec<u32>,
}

/// An eight-unit control: between its codes anything may stand, 13, 3 and 4 too.
pub fn control(random: &mut Random, code: u16) -> [u16; 8] {
    let mut units = [code; 8];
    for unit in &mut units[1..7] {
        let any = random.next() as u16;
        *unit = random.pick(&[0, 3, 4, 13, 13, 11, 65, any]);
    }
    units
}

pub fn ordinary(random: &mut Random) -> u16 {
    let any = random.from_to(32, 0xFFFF) as u16;
    random.pick(&[32, 65, 0xFFFF, 0xAC00, any, any])
}

pub fn units_to_bytes(units: &[u16]) -> Vec<u8> {
    units.iter().flat_map(|unit| unit.to_le_bytes()).collect()
}

/// The body of a field's control header.
pub fn field_body(random: &mut Random, id: u32) -> Vec<u8> {
    let command = match random.below(30) {
        0 => random.from_to(2030, 2050),
        1..=9 => 0,
        _ => random.below(12),
    };
    let mut body = random.bytes(9);
    body.extend((command as u16).to_le_bytes());
    body.extend(random.bytes(2 * command));
    body.extend(id.to_le_bytes());
    let tail = random.pick(&[0, 0, 1, 4, 9]);
    body.extend(random.bytes(tail));
    body
}

/// What a text needs of control headers: its extended codes, with the id of each field.
pub struct Text {
    pub units: Vec<u16>,
    pub controls: Vec<Option<u32>>,
}

impl Builder<'_> {
    pub fn new(random: &mut Random, style: Style) -> Builder<'_> {
        Builder {
            random,
            style,
            drafts: Vec::new(),
            ids: Vec::new(),
        }
    }

    /// The id of a new field.
    fn new_id(&mut self) -> u32 {
        if !self.ids.is_empty() && self.random.once_in(self.style.twice) {
            return self.random.pick(&self.ids);
        }
        loop {
            let any = self.random.next() as u32;
            let id = self.random.pick(&[any, any, any % 100, 0, u32::MAX]);
            if !self.ids.contains(&id) {
                self.ids.push(id);
                return id;
            }
        }
    }

    fn run_of_units(&mut self, most: usize, text: &mut Text) {
        for _ in 0..self.random.below(most + 1) {
            let unit = ordinary(self.random);
            text.units.push(unit);
        }
    }

    /// A field: control 3, its value, and code 4; or something else where it is not plain.
    pub fn field(&mut self, value: usize, text: &mut Text) {
        let id = self.new_id();
        text.controls.push(Some(id));
        text.units.extend(control(self.random, 3));
        for _ in 0..value {
            let unit = ordinary(self.random);
            text.units.push(unit);
        }
        if self.random.once_in(self.style.open) {
            match self.random.below(4) {
                0 => return,
                1 => text.units.push(self.random.pick(&ONE)),
                2 => {
                    let code = self.random.pick(&[5, 6, 9, 20]);
                    text.units.extend(control(self.random, code));
                }
                _ => self.extended(text),
            }
            self.run_of_units(3, text);
        }
        text.units.extend(control(self.random, 4));
    }

    fn extended(&mut self, text: &mut Text) {
        let code = self.random.pick(&EXTENDED);
        text.units.extend(control(self.random, code));
        text.controls.push(None);
    }

    fn piece(&mut self, text: &mut Text) {
        if self.random.once_in(self.style.fields) {
            let value = match self.random.below(12) {
                0..=2 => 0,
                3 => 1,
                4 => self.random.below(80),
                _ => self.random.below(12),
            };
            return self.field(value, text);
        }
        match self.random.below(10) {
            0 => text.units.push(self.random.pick(&ONE)),
            1 => {
                let code = self.random.pick(&INLINE);
                text.units.extend(control(self.random, code));
            }
            2 => self.extended(text),
            _ => self.run_of_units(12, text),
        }
    }

    /// A text with its end.
    pub fn text(&mut self) -> Text {
        let mut text = Text {
            units: Vec::new(),
            controls: Vec::new(),
        };
        for _ in 0..self.random.below(5) {
            self.piece(&mut text);
        }
        if self.random.once_in(self.style.long) {
            self.lengthen(&mut text);
        }
        text.units.push(13);
        text
    }

    /// Makes a text long, often so that the record's length is near 4095.
    fn lengthen(&mut self, text: &mut Text) {
        let any = self.random.from_to(2000, 4000);
        let near = self.random.from_to(2040, 2050);
        let to = self.random.pick(&[near, near, any]);
        let before = self.random.once_in(2);
        let mut more: Vec<u16> = Vec::new();
        while text.units.len() + more.len() + 1 < to {
            more.push(ordinary(self.random));
        }
        if before {
            more.append(&mut text.units);
            text.units = more;
        } else {
            text.units.append(&mut more);
        }
    }

    /// Rising starts below the count, the first of them 0.
    fn starts(&mut self, count: usize) -> Vec<u32> {
        let end = count.max(1);
        let mut starts = vec![0];
        let dense = self.random.pick(&[1, 2, 4, 30]);
        let wanted = self.random.pick(&[0, 1, 3, end / 2, end]).min(600);
        let mut at = 0;
        while starts.len() <= wanted {
            at += self.random.from_to(1, dense);
            if at >= end {
                break;
            }
            starts.push(at as u32);
        }
        if self.random.once_in(3) && end > 1 && starts.last() != Some(&(end as u32 - 1)) {
            starts.push(end as u32 - 1);
        }
        starts
    }

    pub fn shapes_body(&mut self, starts: &[u32]) -> Vec<u8> {
        let mut body = Vec::with_capacity(8 * starts.len());
        for start in starts {
            body.extend(start.to_le_bytes());
            body.extend((self.random.next() as u32).to_le_bytes());
        }
        body
    }

    fn marks_body(&mut self, marks: usize, count: usize) -> Vec<u8> {
        let mut body = Vec::new();
        for _ in 0..marks {
            let any = self.random.below(count + 1);
            let end = self.random.pick(&[count, any]);
            let any = self.random.below(end + 1);
            let start = self.random.pick(&[0, end, any]);
            body.extend((start as u32).to_le_bytes());
            body.extend((end as u32).to_le_bytes());
            body.extend((self.random.next() as u32).to_le_bytes());
        }
        body
    }

    /// The records below a paragraph's control header: control data, or a list of paragraphs.
    fn below_control(&mut self, level: u32, depth: usize) {
        if self.random.once_in(3) {
            let length = self.random.below(20);
            let body = self.random.bytes(length);
            self.drafts.push(Draft::new(DATA, level, body));
        }
        if depth > 0 && level < 1000 && self.random.once_in(self.style.nests) {
            for _ in 0..self.random.from_to(1, 2) {
                if self.random.once_in(2) {
                    let body = self.random.bytes(6);
                    self.drafts.push(Draft::new(LIST, level, body));
                }
                for _ in 0..self.random.from_to(1, 2) {
                    self.paragraph(level, depth - 1);
                }
            }
        }
    }

    /// A record that no rule of a paragraph is about, at times with a record or a paragraph below it.
    fn other(&mut self, level: u32, depth: usize) {
        let tag = self
            .random
            .pick(&[16, 17, 65, LIST, 73, 77, DATA, 200, 1023]);
        let length = self.random.below(10);
        let body = self.random.bytes(length);
        self.drafts.push(Draft::new(tag, level, body));
        if depth > 0 && self.random.once_in(4) {
            if self.random.once_in(3) {
                let body = self.random.bytes(20);
                self.drafts.push(Draft::new(CONTROL, level + 1, body));
            } else {
                self.paragraph(level + 1, depth - 1);
            }
        }
    }

    pub fn header_body(&mut self, count: usize, numbers: [usize; 3]) -> Vec<u8> {
        let mut body = self.random.bytes(22);
        let flag = self.random.pick(&[0u32, 0, 1 << 31]);
        body[0..4].copy_from_slice(&(count as u32 | flag).to_le_bytes());
        for (nth, number) in numbers.into_iter().enumerate() {
            let place = 12 + 2 * nth;
            body[place..place + 2].copy_from_slice(&(number as u16).to_le_bytes());
        }
        let tail = self.random.pick(&[0, 0, 2, 2, 10, 4080]);
        if tail < 100 || self.random.once_in(40) {
            body.extend(self.random.bytes(tail));
        }
        body
    }

    /// A paragraph at a level, with what its controls hold down to a depth.
    pub fn paragraph(&mut self, level: u32, depth: usize) {
        let text = match self.random.below(16) {
            0 => Text {
                units: Vec::new(),
                controls: Vec::new(),
            },
            _ => self.text(),
        };
        self.paragraph_of(level, depth, text);
    }

    /// A paragraph with the text.
    pub fn paragraph_of(&mut self, level: u32, depth: usize, text: Text) {
        let starts = self.starts(text.units.len());
        self.paragraph_with(level, depth, text, &starts);
    }

    /// A paragraph with the text and the shape starts.
    pub fn paragraph_with(&mut self, level: u32, depth: usize, text: Text, starts: &[u32]) {
        let count = text.units.len();
        let lines = self.random.pick(&[0, 1, 1, 2, 65_535]);
        let marks = if self.random.once_in(self.style.marks) {
            self.random.from_to(1, 3)
        } else {
            0
        };
        let header = self.header_body(count, [starts.len(), marks, lines]);
        let absent = count == 0 || (count == 1 && self.random.once_in(2));
        let mut own = Vec::new();
        if !absent {
            own.push(Draft::new(TEXT, level + 1, units_to_bytes(&text.units)));
        }
        let body = self.shapes_body(starts);
        own.push(Draft::new(SHAPES, level + 1, body));
        if lines > 0 {
            let length = self.random.pick(&[0, 36, 36, 7]);
            let body = self.random.bytes(length);
            own.push(Draft::new(LAYOUT, level + 1, body));
        }
        if marks > 0 {
            let body = self.marks_body(marks, count);
            own.push(Draft::new(MARKS, level + 1, body));
        }
        self.drafts.push(Draft::new(PARAGRAPH, level, header));
        self.children(level + 1, depth, own, &text.controls);
    }

    /// The children in the usual order, or mixed; control headers keep their order in both.
    fn children(&mut self, level: u32, depth: usize, own: Vec<Draft>, controls: &[Option<u32>]) {
        let mut own = own.into_iter();
        let mut controls = controls.iter();
        let mixed = self.random.once_in(self.style.order);
        let mut turns: Vec<u8> = vec![0; own.len()];
        turns.extend(vec![1; controls.len()]);
        turns.extend(vec![2; self.random.pick(&[0, 0, 0, 1, 2])]);
        if mixed {
            self.random.shuffle(&mut turns);
            let mut rest: Vec<Draft> = own.collect();
            self.random.shuffle(&mut rest);
            own = rest.into_iter();
        }
        for turn in turns {
            match turn {
                0 => self.drafts.extend(own.next()),
                1 => {
                    let body = match controls.next() {
                        Some(Some(id)) => field_body(self.random, *id),
                        _ => {
                            let length = self.random.below(40);
                            self.random.bytes(length)
                        }
                    };
                    self.drafts.push(Draft::new(CONTROL, level, body));
                    self.below_control(level + 1, depth);
                }
                _ => self.other(level, depth),
            }
        }
    }
}

/// A lawful section of some paragraphs; gives its records and the ids of its fields.
pub fn section(random: &mut Random, style: Style) -> (Vec<Draft>, Vec<u32>) {
    let paragraphs = random.pick(&[0, 1, 1, 2, 3, 5]);
    let depth = random.pick(&[0, 1, 2, 4]);
    let mut builder = Builder::new(random, style);
    for _ in 0..paragraphs {
        if builder.random.once_in(8) {
            builder.other(0, depth);
        }
        builder.paragraph(0, depth);
    }
    (builder.drafts, builder.ids)
}

/// Paragraphs nested in each other down to a level; the shapes stand before what is nested, or behind it.
pub fn deep(random: &mut Random, deepest: u32) -> Vec<Draft> {
    let mut drafts = Vec::new();
    let mut behind = Vec::new();
    let through = random.pick(&[1, 1, 2, 3]);
    let mut level = 0;
    while level < deepest {
        let last = random.once_in(4);
        drafts.push(Draft::new(
            PARAGRAPH,
            level,
            empty_header(random, through > 1),
        ));
        let mut own = vec![Draft::new(SHAPES, level + 1, vec![0; 8])];
        if through > 1 {
            let code = random.pick(&EXTENDED);
            let units = [control(random, code).as_slice(), &[13]].concat();
            own.push(Draft::new(TEXT, level + 1, units_to_bytes(&units)));
        }
        if last {
            behind.push(own);
        } else {
            drafts.append(&mut own);
            behind.push(own);
        }
        if through > 1 {
            drafts.push(Draft::new(CONTROL, level + 1, Vec::new()));
        }
        if through > 2 && level + 2 <= 1023 {
            drafts.push(Draft::new(LIST, level + 2, Vec::new()));
        }
        level += through;
    }
    drafts.extend(behind.into_iter().rev().flatten());
    drafts
}

/// The header of a paragraph with one shape; with nine units of text, or none.
fn empty_header(random: &mut Random, text: bool) -> Vec<u8> {
    let mut body = random.bytes(22);
    let count: u32 = if text { 9 } else { 0 };
    body[0..4].copy_from_slice(&count.to_le_bytes());
    body[12..18].copy_from_slice(&[1, 0, 0, 0, 0, 0]);
    body
}

//! Edges of 13: which entry is at fault, of the shapes or of the marks, and by which rule.

use super::{tables_above, Among, FIRST, LAST, MIDDLE, SEVERAL};
use oracle::records::{tile, word};
use oracle::Row;

type Edge = super::Edge<Entry>;

const SHAPES: u32 = 68;
const MARKS: u32 = 70;

/// The entries of a record of shapes or marks, in a paragraph of so many units.
pub struct Entries {
    pub row: Row,
    pub width: usize,
    words: Vec<[u32; 2]>,
    count: u32,
}

impl Entries {
    fn of(stream: &[u8], row: Row, header: &Row) -> Entries {
        let width = if row.tag == SHAPES { 8 } else { 12 };
        let entries = row.body(stream).chunks_exact(width);
        Entries {
            row,
            width,
            words: entries
                .map(|entry| [word(entry, 0), word(entry, 4)])
                .collect(),
            count: word(header.body(stream), 0) & !(1 << 31),
        }
    }

    pub fn start(&self, nth: usize) -> u32 {
        self.words[nth][0]
    }

    fn end(&self, nth: usize) -> u32 {
        self.words[nth][1]
    }

    /// A start that is not above the one before it.
    pub fn falls(&self, nth: usize) -> bool {
        self.row.tag == SHAPES && nth > 0 && self.start(nth) <= self.start(nth - 1)
    }

    fn start_above_end(&self, nth: usize) -> bool {
        self.row.tag == MARKS && self.start(nth) > self.end(nth)
    }

    pub fn end_above_count(&self, nth: usize) -> bool {
        self.row.tag == MARKS && self.end(nth) > self.count
    }

    /// The first entry that breaks a rule which does not ask the count, behind the first start, which has its own.
    pub fn first_askew(&self) -> Option<usize> {
        let mut entries = 0..self.words.len();
        entries.find(|&nth| self.falls(nth) || self.start_above_end(nth))
    }

    fn above_count(&self) -> bool {
        let mut entries = 0..self.words.len();
        entries.any(|nth| self.end_above_count(nth))
    }
}

/// The entry at fault.
pub struct Entry {
    pub of: Entries,
    pub nth: usize,
    stream: usize,
    tables: usize,
    /// The marks beside shapes: whether one is at fault too, and whether they stand before the shapes.
    marks: Option<(bool, bool)>,
}

impl Entry {
    /// The entry with the place.
    pub fn of(stream: &[u8], place: usize) -> Option<Entry> {
        let rows = tile(stream).ok()?;
        let holds = |row: &Row| (row.place as usize..row.end()).contains(&place);
        let index = rows.iter().position(holds)?;
        let row = rows[index];
        let parent = rows[..index]
            .iter()
            .rposition(|other| other.level < row.level)?;
        let entries = Entries::of(stream, row, &rows[parent]);
        let below = rows[parent + 1..].iter();
        let mut below = below.take_while(|other| other.level >= row.level);
        let marks = below.find(|other| other.level == row.level && other.tag == MARKS);
        let marks = marks.filter(|_| row.tag == SHAPES).map(|&marks| {
            let beside = Entries::of(stream, marks, &rows[parent]);
            let wrong = beside.first_askew().is_some() || beside.above_count();
            (wrong, marks.place < row.place)
        });
        Some(Entry {
            nth: (place - row.place as usize) / entries.width,
            of: entries,
            stream: stream.len(),
            tables: tables_above(&rows, index),
            marks,
        })
    }

    fn is(&self, tag: u32) -> bool {
        self.of.row.tag == tag
    }

    fn start(&self) -> u32 {
        self.of.start(self.nth)
    }

    /// By how much the start is above the one before it, below it or equal.
    fn rise(&self) -> Option<i64> {
        let before = self.nth.checked_sub(1).filter(|_| self.is(SHAPES))?;
        Some(i64::from(self.start()) - i64::from(self.of.start(before)))
    }

    /// By how much the start of a shape behind the first is above the count.
    fn above(&self) -> Option<i64> {
        self.rise()
            .filter(|&rise| rise > 0)
            .map(|_| i64::from(self.start()) - i64::from(self.of.count))
    }

    fn among(&self, among: Among) -> bool {
        among(self.nth, self.of.words.len())
    }

    /// The entry is the last in the stream.
    fn ends_stream(&self) -> bool {
        self.among(LAST.1) && self.of.row.end() == self.stream
    }

    /// The entry is at fault by the count, and a later one by a rule that could be asked before it.
    fn before_askew(&self) -> bool {
        let own_rule = self.is(SHAPES) && self.nth == 0;
        !own_rule && self.of.first_askew() > Some(self.nth)
    }
}

type Rule = (
    &'static str,
    fn(&Entry) -> bool,
    &'static [(&'static str, Among)],
);

/// The rules that an entry breaks, and where it can stand.
const RULES: [Rule; 8] = [
    (
        "first start not 0",
        |it| it.is(SHAPES) && it.nth == 0,
        &[FIRST, LAST],
    ),
    (
        "start equal to that before",
        |it| it.rise() == Some(0),
        &[MIDDLE, LAST],
    ),
    (
        "start below that before",
        |it| it.rise().is_some_and(|rise| rise < 0),
        &[MIDDLE, LAST],
    ),
    (
        "start equal to the count",
        |it| it.above() == Some(0),
        &[MIDDLE, LAST],
    ),
    (
        "start above the count",
        |it| it.above().is_some_and(|above| above > 0),
        &[MIDDLE, LAST],
    ),
    (
        "second start",
        |it| it.is(SHAPES) && it.nth == 1,
        &[MIDDLE, LAST],
    ),
    (
        "mark's start above its end",
        |it| it.of.start_above_end(it.nth) && !it.of.end_above_count(it.nth),
        &[FIRST, MIDDLE, LAST],
    ),
    (
        "mark's end above the count",
        |it| it.of.end_above_count(it.nth) && !it.of.start_above_end(it.nth),
        &[FIRST, MIDDLE, LAST],
    ),
];

fn by_rule() -> Vec<Edge> {
    let edges = RULES.iter().flat_map(|&(rule, breaks, standing)| {
        standing.iter().map(move |&(what, among)| {
            Edge::new(format!("13, {rule}: {what}"), 13, move |it| {
                breaks(it) && it.among(among)
            })
        })
    });
    edges.collect()
}

/// The edges of either kind of entry.
fn of(kind: &str, tag: u32, most: usize) -> Vec<Edge> {
    let edge = |what: &str, holds: Box<dyn Fn(&Entry) -> bool>| {
        Edge::new(format!("13, {kind}: {what}"), 13, move |it| {
            it.is(tag) && holds(it)
        })
    };
    vec![
        edge("last in the stream", Box::new(Entry::ends_stream)),
        edge("records behind", Box::new(|it| it.of.row.end() < it.stream)),
        edge("long record", Box::new(|it| it.of.row.length >= 4095)),
        edge("in tables", Box::new(|it| it.tables >= SEVERAL)),
        edge(
            "by the count before a later one by another rule",
            Box::new(Entry::before_askew),
        ),
        edge(
            &format!("record last of {most}"),
            Box::new(move |it| it.of.row.end() == it.stream && it.stream == most),
        ),
    ]
}

/// Shapes are asked before marks, whichever stand first.
fn before_marks() -> Vec<Edge> {
    vec![
        Edge::new("13, shape: a mark behind too", 13, |it| {
            it.marks == Some((true, false))
        }),
        Edge::new("13, shape: a mark before it too", 13, |it| {
            it.marks == Some((true, true))
        }),
    ]
}

/// The edges of streams of at most so many bytes.
pub fn edges(most: usize) -> Vec<Edge> {
    let all = [
        by_rule(),
        of("shape", SHAPES, most),
        of("mark", MARKS, most),
        before_marks(),
    ];
    all.into_iter().flatten().collect()
}

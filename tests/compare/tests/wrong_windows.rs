//! Deliberately wrong ways to judge a section in windows of levels, or its paragraphs as they end: the deep cases of the
//! comparison catch each of them.

use compare::alone::{paragraphs, refusal, refused, Paragraph};
use compare::cases::chain::{edge_levels, BLOCKS};
use compare::cases::nests::{LAST, NUMBERS};
use compare::cases::strays::{at_edges, Way};
use compare::edges::{way, Stray};
use compare::judge::{judge, number_of};
use compare::lend::{Given, Room};
use compare::service::Service;
use compare::subject::{Kind, Lists, Oracle, Subject, Table};
use oracle::answer;
use oracle::answer::answer_of;
use oracle::lister::judged;
use oracle::records::tile;
use oracle::{Refusal, Row};
use std::collections::BTreeSet;

/// What a section is refused with behind read's numbers.
type Judge<'a> = Box<dyn Fn(&[u8], &[Row]) -> Option<Refusal> + 'a>;

/// The oracle with another way to judge a section.
struct Judged<'a>(Judge<'a>);

impl Judged<'_> {
    fn instead(&self, stream: &[u8], found: u64) -> u64 {
        let number = number_of(found);
        if (1..8).contains(&number) {
            return found;
        }
        let rows = tile(stream).unwrap_or_default();
        match (self.0)(stream, &rows) {
            Some(refusal) => answer(refusal.number, refusal.place, 0),
            None if (8..16).contains(&number) => answer(0, rows.len(), 0),
            None => found,
        }
    }

    fn of(&self, stream: Given<u8>, found: u64) -> u64 {
        // SAFETY: the comparator lends the memory for the length of the call.
        self.instead(unsafe { stream.slice() }, found)
    }
}

impl Subject for Judged<'_> {
    fn read(&self, kind: Kind, stream: Given<u8>, lists: Lists) -> u64 {
        self.of(stream, Oracle.read(kind, stream, lists))
    }

    fn pack(&self, count: u64, lists: Table, bytes: Given<u8>, out: Room<u8>) -> u64 {
        Oracle.pack(count, lists, bytes, out)
    }

    fn check(&self, section: Given<u8>) -> u64 {
        self.of(section, Oracle.check(section))
    }

    fn field_text(&self, section: Given<u8>, id: u32) -> u64 {
        self.of(section, Oracle.field_text(section, id))
    }

    fn fill(&self, section: Given<u8>, id: u32, value: Given<u8>, sheet: Room<u8>) -> u64 {
        self.of(section, Oracle.fill(section, id, value, sheet))
    }

    fn list(&self, input: &[u8], most: usize) -> Vec<u8> {
        let found = answer_of(judged(input).map(|section| section.rows.len()));
        let refusal = self.instead(input, found);
        match (number_of(refusal), refusal == found) {
            (_, true) => Oracle.list(input, most),
            (0, _) => format!("ok {}\n", refusal >> 8).into_bytes(),
            (number, _) => format!("refused {number} at {}\n", refusal >> 8).into_bytes(),
        }
    }
}

fn is_leaf(tag: u32) -> bool {
    (67..=70).contains(&tag)
}

/// The last record of a level: its tag, and the tags of the leaves below it.
#[derive(Clone, Default)]
struct Last {
    tag: u32,
    leaves: BTreeSet<u32>,
}

/// What a pass takes for the record above its first level.
#[derive(Clone, Copy, PartialEq, Eq)]
enum Above {
    Right,
    /// Some record that no rule is about.
    Other,
    /// A paragraph header with no leaf yet, whatever stands there.
    Header,
    /// The last paragraph header that stood there, whatever stands there now.
    LastHeader,
    /// The first record that stood there.
    First,
    /// The right one, with the leaves of those before it.
    AllLeaves,
}

/// Rule 9 in windows of levels, one pass for each.
#[derive(Clone, Copy)]
struct Windows {
    width: u32,
    above: Above,
    /// Whether a level is judged, by its number in the window and the window's width.
    level: fn(u32, u32) -> bool,
    /// Whether a window is looked at, by its number and how many there are.
    window: fn(u32, u32) -> bool,
    /// Which of the strays of the windows is named, each the earliest of its window.
    named: fn(&[usize]) -> Option<usize>,
}

fn windows(width: u32) -> Windows {
    Windows {
        width,
        above: Above::Right,
        level: |_, _| true,
        window: |_, _| true,
        named: |strays| strays.iter().min().copied(),
    }
}

impl Windows {
    /// Puts a record above the first level of a pass.
    fn note_above(&self, last: &mut Last, tag: u32) {
        match self.above {
            Above::LastHeader if tag != 66 => {}
            Above::First if last.tag != 0 => {}
            Above::Other | Above::Header => {}
            Above::AllLeaves => last.tag = tag,
            _ => {
                let leaves = BTreeSet::new();
                *last = Last { tag, leaves };
            }
        }
    }

    /// The first stray of the levels of a window.
    fn pass(&self, rows: &[Row], nth: u32) -> Option<usize> {
        let from = nth * self.width;
        let tag = u32::from(self.above == Above::Header) * 66;
        let mut last = vec![Last::default(); self.width as usize + 1];
        last[0].tag = tag;
        rows.iter().position(|row| {
            if row.level + 1 == from {
                self.note_above(&mut last[0], row.tag);
            }
            let Some(level) = row.level.checked_sub(from).filter(|at| *at < self.width) else {
                return false;
            };
            let parent = &mut last[level as usize];
            let below_header = row.level > 0 && parent.tag == 66;
            let below_leaf = row.level > 0 && is_leaf(parent.tag);
            let stray = is_leaf(row.tag) && !(below_header && parent.leaves.insert(row.tag));
            let (tag, leaves) = (row.tag, BTreeSet::new());
            last[level as usize + 1] = Last { tag, leaves };
            (stray || below_leaf) && (self.level)(level, self.width)
        })
    }

    fn first_stray(&self, rows: &[Row]) -> Option<usize> {
        let deepest = rows.iter().map(|row| row.level).max()?;
        let windows = deepest / self.width + 1;
        let looked_at = (0..windows).filter(|&nth| (self.window)(nth, windows));
        let strays: Vec<usize> = looked_at.filter_map(|nth| self.pass(rows, nth)).collect();
        (self.named)(&strays)
    }

    fn judge<'a>(self) -> Judge<'a> {
        Box::new(move |stream, rows| match self.first_stray(rows) {
            Some(index) => stray_at(rows, index),
            None => first_fault(stream, rows),
        })
    }
}

fn stray_at(rows: &[Row], index: usize) -> Option<Refusal> {
    let (number, place) = (9, rows[index].header());
    Some(Refusal { number, place })
}

/// The fault of the first paragraph that has one.
fn first_fault(stream: &[u8], rows: &[Row]) -> Option<Refusal> {
    let paragraphs = paragraphs(rows);
    let mut faults = paragraphs.iter().map(|one| refused(stream, rows, one));
    faults.find_map(|fault| fault)
}

fn wrong_windows(width: u32) -> Vec<(&'static str, Windows)> {
    let right = windows(width);
    let above = |above| Windows { above, ..right };
    let level = |level| Windows { level, ..right };
    let window = |window| Windows { window, ..right };
    let named = |named| Windows { named, ..right };
    vec![
        ("nothing is known above a window", above(Above::Other)),
        ("any record may have leaves", above(Above::Header)),
        ("a header above stays for good", above(Above::LastHeader)),
        ("the first record above stays", above(Above::First)),
        ("leaves stay where the header goes", above(Above::AllLeaves)),
        ("no last level", level(|at, width| at + 1 < width)),
        ("no first level", level(|at, _| at > 0)),
        ("no second level", level(|at, _| at != 1)),
        ("the first window alone", window(|nth, _| nth == 0)),
        ("no last window", window(|nth, of| nth == 0 || nth + 1 < of)),
        ("no fifth window and none below", window(|nth, _| nth < 4)),
        ("no window but even ones", window(|nth, _| nth % 2 == 0)),
        (
            "the later stray",
            named(|strays| strays.iter().max().copied()),
        ),
        (
            "the shallower stray",
            named(|strays| strays.first().copied()),
        ),
        ("the deeper stray", named(|strays| strays.last().copied())),
    ]
}

/// A paragraph's number among all, and what is taken for its parts.
type Parts = fn(&[Row], &[Paragraph], usize) -> Vec<usize>;

/// Which of the paragraphs at fault is named.
type Named = fn(&[Row], &[(Paragraph, Refusal)]) -> Option<usize>;

const RIGHT_PARTS: Parts = |_, all, nth| all[nth].parts.clone();
const RIGHT_NAMED: Named = |_, faulty| (!faulty.is_empty()).then_some(0);

/// Rule 9 as it is, and paragraphs with these parts, of which this one is named.
fn gather<'a>(parts: Parts, named: Named) -> Judge<'a> {
    Box::new(move |stream, rows| {
        let stray = (0..rows.len()).find(|&index| way(rows, index).is_some());
        if let Some(index) = stray {
            return stray_at(rows, index);
        }
        let all = paragraphs(rows);
        let fault = |nth: usize| {
            let parts = parts(rows, &all, nth);
            let refusal = refusal(stream, rows, all[nth].header, &parts)?;
            Some((all[nth].clone(), refusal))
        };
        let faulty: Vec<(Paragraph, Refusal)> = (0..all.len()).filter_map(fault).collect();
        named(rows, &faulty).map(|nth| faulty[nth].1)
    })
}

/// The paragraph at fault that has the least key.
fn least<K: Ord>(faulty: &[(Paragraph, Refusal)], key: impl Fn(&Paragraph) -> K) -> Option<usize> {
    (0..faulty.len()).min_by_key(|&nth| key(&faulty[nth].0))
}

/// The first paragraph at fault of those at the levels that the question is true of.
fn at_levels(
    rows: &[Row],
    faulty: &[(Paragraph, Refusal)],
    holds: impl Fn(u32) -> bool,
) -> Option<usize> {
    let mut faulty = faulty.iter();
    faulty.position(|(paragraph, _)| holds(rows[paragraph.header].level))
}

fn level_of(rows: &[Row], paragraph: &Paragraph) -> u32 {
    rows[paragraph.header].level
}

const WRONG_NAMES: [(&str, Named); 12] = [
    ("the one that ends first", |_, faulty| {
        least(faulty, |one| (one.end, usize::MAX - one.header))
    }),
    ("the last", |_, faulty| faulty.len().checked_sub(1)),
    ("the shallowest", |rows, faulty| {
        least(faulty, |one| level_of(rows, one))
    }),
    ("the deepest", |rows, faulty| {
        least(faulty, |one| LAST - level_of(rows, one))
    }),
    ("that of the first window of 16", |rows, faulty| {
        least(faulty, |one| level_of(rows, one) / 16)
    }),
    ("that of the first window of 64", |rows, faulty| {
        least(faulty, |one| level_of(rows, one) / 64)
    }),
    ("that of the last window of 64", |rows, faulty| {
        least(faulty, |one| LAST - level_of(rows, one) / 64)
    }),
    ("none below the first window of 16", |rows, faulty| {
        at_levels(rows, faulty, |level| level < 16)
    }),
    ("none below the first window of 64", |rows, faulty| {
        at_levels(rows, faulty, |level| level < 64)
    }),
    ("none in the last window of 16", |rows, faulty| {
        at_levels(rows, faulty, |level| level < 1008)
    }),
    ("none at the last level of a window", |rows, faulty| {
        at_levels(rows, faulty, |level| level % 16 != 15)
    }),
    ("none at the first level of a window", |rows, faulty| {
        at_levels(rows, faulty, |level| level % 16 != 0)
    }),
];

/// The parts of a paragraph that the question is true of.
fn parts_that(one: &Paragraph, holds: impl Fn(usize) -> bool) -> Vec<usize> {
    let parts = one.parts.iter().copied();
    parts.filter(|&part| holds(part)).collect()
}

/// The first paragraph inside another.
fn inner(all: &[Paragraph], nth: usize) -> Option<&Paragraph> {
    let next = all.get(nth + 1)?;
    (next.header < all[nth].end).then_some(next)
}

/// A paragraph's parts with those of another where it lacks them; every control header counts.
fn with_lacking(rows: &[Row], one: &Paragraph, other: Option<&Paragraph>) -> Vec<usize> {
    let lacks = |tag: u32| !one.parts.iter().any(|&part| rows[part].tag == tag);
    let more = other.map_or(Vec::new(), |other| {
        parts_that(other, |part| rows[part].tag == 71 || lacks(rows[part].tag))
    });
    let mut parts = [one.parts.clone(), more].concat();
    parts.sort();
    parts
}

/// The parts of any paragraph that stand behind the header of one and before the next header.
fn up_to_next_header(all: &[Paragraph], nth: usize) -> impl Iterator<Item = usize> + '_ {
    let next = all.get(nth + 1).map_or(usize::MAX, |next| next.header);
    let own = all[nth].header..next;
    let parts = all.iter().flat_map(|one| &one.parts).copied();
    parts.filter(move |part| own.contains(part))
}

const WRONG_PARTS: [(&str, Parts); 11] = [
    ("none behind an inner paragraph", |_, all, nth| {
        let inner = inner(all, nth).map_or(usize::MAX, |inner| inner.header);
        parts_that(&all[nth], |part| part < inner)
    }),
    ("none at the last level", |rows, all, nth| {
        parts_that(&all[nth], |part| rows[part].level <= LAST)
    }),
    (
        "none at the first level of a window of 16",
        |rows, all, nth| parts_that(&all[nth], |part| rows[part].level % 16 != 0),
    ),
    (
        "none at the first level of a window of 64",
        |rows, all, nth| parts_that(&all[nth], |part| rows[part].level % 64 != 0),
    ),
    ("none behind a deeper window", |rows, all, nth| {
        let header = all[nth].header;
        let window = (rows[header].level + 1) / 16;
        let deeper = |row: &Row| row.level / 16 > window;
        parts_that(&all[nth], |part| !rows[header..part].iter().any(deeper))
    }),
    ("those of the one before at its level", |rows, all, nth| {
        let level = level_of(rows, &all[nth]);
        let mut before = all[..nth].iter().rev();
        let before = before.find(|one| level_of(rows, one) == level);
        with_lacking(rows, &all[nth], before)
    }),
    ("those of the one behind at its level", |rows, all, nth| {
        let level = level_of(rows, &all[nth]);
        let mut behind = all[nth + 1..].iter();
        let behind = behind.find(|one| level_of(rows, one) == level);
        with_lacking(rows, &all[nth], behind)
    }),
    ("those of an inner one too", |rows, all, nth| {
        with_lacking(rows, &all[nth], inner(all, nth))
    }),
    ("control headers of the last header", |rows, all, nth| {
        let leaves = parts_that(&all[nth], |part| rows[part].tag != 71);
        let controls = up_to_next_header(all, nth).filter(|&part| rows[part].tag == 71);
        leaves.into_iter().chain(controls).collect()
    }),
    ("control headers below what follows it", |rows, all, nth| {
        let (header, end) = (all[nth].header, all[nth].end);
        let level = rows[header].level;
        let follows = rows[end..].iter();
        let follows = follows.take_while(|row| row.tag != 66 && row.level >= level);
        let behind = end..end + follows.count();
        let controls = behind.filter(|&at| rows[at].tag == 71 && rows[at].level == level + 1);
        all[nth].parts.iter().copied().chain(controls).collect()
    }),
    (
        "control headers below a control header",
        |rows, all, nth| {
            let (header, end) = (all[nth].header, all[nth].end);
            let deeper =
                |at: &usize| rows[*at].tag == 71 && rows[*at].level == rows[header].level + 2;
            let deeper = (header + 1..end).filter(deeper);
            let mut parts = all[nth].parts.clone();
            parts.extend(deeper);
            parts
        },
    ),
];

const SERVICES: [Service; 5] = [
    Service::Section,
    Service::Check,
    Service::FieldText,
    Service::Fill,
    Service::Lister,
];

/// As many cases as the run of the gate has.
const CASES: u64 = 10_000;

/// The deep cases of a service among the first so many.
fn deep(service: Service, cases: u64) -> impl Iterator<Item = u64> {
    (0..cases).filter(move |&index| service.deep(index).is_some())
}

/// Whether a case tells the subject from the oracle.
fn differs(service: Service, index: u64, subject: &dyn Subject) -> bool {
    let (case, shift) = service.case(1, index);
    !judge(&case, shift, subject).differences.is_empty()
}

/// Whether some deep case tells the way to judge from the oracle's.
fn caught(service: Service, judge: Judge, cases: u64) -> bool {
    let subject = Judged(judge);
    deep(service, cases).any(|index| differs(service, index, &subject))
}

fn each_is_caught<'a>(wrong: impl Fn() -> Vec<(String, Judge<'a>)>) {
    for service in SERVICES {
        for (name, judge) in wrong() {
            assert!(caught(service, judge, CASES), "{service:?}: {name}");
        }
    }
}

#[test]
fn right_windows_pass() {
    for service in SERVICES {
        for width in [1, 16, 32, 64, 200, 1024] {
            let judge = windows(width).judge();
            assert!(!caught(service, judge, 2000), "{service:?}: {width}");
        }
        let judge = gather(RIGHT_PARTS, RIGHT_NAMED);
        assert!(!caught(service, judge, CASES), "{service:?}");
    }
}

#[test]
fn each_wrong_window_is_caught() {
    for width in BLOCKS {
        each_is_caught(|| {
            let wrong = wrong_windows(width).into_iter();
            let named =
                |(name, wrong): (&str, Windows)| (format!("{width}: {name}"), wrong.judge());
            wrong.map(named).collect()
        });
    }
}

#[test]
fn each_wrong_name_is_caught() {
    each_is_caught(|| {
        let wrong = WRONG_NAMES.iter();
        let judge = |&(name, named): &(&str, Named)| (name.to_string(), gather(RIGHT_PARTS, named));
        wrong.map(judge).collect()
    });
}

#[test]
fn each_wrong_gathering_is_caught() {
    each_is_caught(|| {
        let wrong = WRONG_PARTS.iter();
        let judge = |&(name, parts): &(&str, Parts)| (name.to_string(), gather(parts, RIGHT_NAMED));
        wrong.map(judge).collect()
    });
}

/// Right but where a section is refused with this number.
fn only<'a>(number: u8, wrong: Judge<'a>) -> Judge<'a> {
    let right = gather(RIGHT_PARTS, RIGHT_NAMED);
    Box::new(move |stream, rows| {
        let right = right(stream, rows);
        match right {
            Some(refusal) if refusal.number == number => wrong(stream, rows),
            _ => right,
        }
    })
}

/// A program that is wrong where one number is right, and nowhere else, is caught, whichever the number.
#[test]
fn each_wrong_name_is_caught_by_each_number() {
    for number in NUMBERS {
        each_is_caught(|| {
            let names = WRONG_NAMES[..7].iter();
            let wrong = names.map(|&(name, named)| (name, gather(RIGHT_PARTS, named)));
            let (name, parts) = WRONG_PARTS[0];
            let parts = (number != 8).then(|| (name, gather(parts, RIGHT_NAMED)));
            let wrong = wrong.chain(parts);
            wrong
                .map(|(name, judge)| (format!("{number}, {name}"), only(number, judge)))
                .collect()
        });
    }
}

/// A program that has room for so many open paragraphs is caught.
#[test]
fn too_little_room_for_open_paragraphs_is_caught() {
    for room in [64, 512, 1000, 1022] {
        each_is_caught(|| {
            let judge: Judge = Box::new(move |stream, rows| {
                let headers = rows.iter().filter(|row| row.tag == 66);
                let levels: BTreeSet<u32> = headers.map(|row| row.level).collect();
                match levels.len() > room {
                    true => stray_at(rows, 0),
                    false => gather(RIGHT_PARTS, RIGHT_NAMED)(stream, rows),
                }
            });
            vec![(format!("{room}"), judge)]
        });
    }
}

/// The oracle that does not find a field whose text stands at some levels.
struct Unfound(fn(u32) -> bool);

impl Unfound {
    fn of(&self, section: Given<u8>, id: u32, found: u64) -> u64 {
        // SAFETY: as above.
        let section = unsafe { section.slice() };
        let place = oracle::field_text(section, id).map_or(usize::MAX, |part| part.0);
        let rows = tile(section).unwrap_or_default();
        let mut rows = rows.iter();
        let text = rows.find(|row| (row.place as usize..row.end()).contains(&place));
        match text.filter(|text| number_of(found) == 0 && (self.0)(text.level)) {
            Some(_) => answer(21, 0, 0),
            None => found,
        }
    }
}

impl Subject for Unfound {
    fn read(&self, kind: Kind, stream: Given<u8>, lists: Lists) -> u64 {
        Oracle.read(kind, stream, lists)
    }

    fn pack(&self, count: u64, lists: Table, bytes: Given<u8>, out: Room<u8>) -> u64 {
        Oracle.pack(count, lists, bytes, out)
    }

    fn check(&self, section: Given<u8>) -> u64 {
        Oracle.check(section)
    }

    fn field_text(&self, section: Given<u8>, id: u32) -> u64 {
        self.of(section, id, Oracle.field_text(section, id))
    }

    fn fill(&self, section: Given<u8>, id: u32, value: Given<u8>, sheet: Room<u8>) -> u64 {
        self.of(section, id, Oracle.fill(section, id, value, sheet))
    }

    fn list(&self, input: &[u8], most: usize) -> Vec<u8> {
        Oracle.list(input, most)
    }
}

#[test]
fn each_field_that_is_not_found_is_caught() {
    const LEVELS: [fn(u32) -> bool; 4] = [
        |level| level == LAST + 1,
        |level| level % 16 == 0,
        |level| level % 32 == 0,
        |level| level % 64 == 0,
    ];
    for service in [Service::FieldText, Service::Fill] {
        for (nth, levels) in LEVELS.into_iter().enumerate() {
            let subject = Unfound(levels);
            let mut cases = deep(service, CASES);
            assert!(
                cases.any(|index| differs(service, index, &subject)),
                "{service:?}: {nth}"
            );
        }
    }
}

/// Rule 9 without one way at one level.
fn blind<'a>(to: (Way, u32)) -> Judge<'a> {
    Box::new(move |stream, rows| {
        let seen = |index: &usize| {
            let way = way(rows, *index);
            way.is_some_and(|way| (way, rows[*index].level) != to)
        };
        match (0..rows.len()).find(seen) {
            Some(index) => stray_at(rows, index),
            None => first_fault(stream, rows),
        }
    })
}

/// A program that misses one way at one level alone is caught, whichever of those at the edges of blocks it is.
#[test]
fn each_blind_level_of_9_is_caught() {
    for service in SERVICES {
        let mut caught = BTreeSet::new();
        for index in deep(service, CASES) {
            let (case, shift) = service.case(1, index);
            let right = judge(&case, shift, &Oracle);
            let stream = case.stream().unwrap_or_default();
            let Some(stray) = Stray::of(stream, right.place).filter(|_| right.number == 9) else {
                continue;
            };
            let at = (stray.way, stray.level);
            if !judge(&case, shift, &Judged(blind(at)))
                .differences
                .is_empty()
            {
                caught.insert(at);
            }
        }
        let missed: Vec<(Way, u32)> = at_edges()
            .into_iter()
            .filter(|at| !caught.contains(at))
            .collect();
        assert_eq!(missed, [], "{service:?}");
    }
}

/// Paragraphs as they are but for those of one level, which are never at fault.
fn lenient<'a>(to: u32) -> Judge<'a> {
    Box::new(move |stream, rows| {
        let all = paragraphs(rows);
        let mut judged = all.iter().filter(|one| level_of(rows, one) != to);
        judged.find_map(|one| refused(stream, rows, one))
    })
}

/// A program that judges no paragraph of one level is caught, whichever of those at the edges of blocks it is.
#[test]
fn each_lenient_level_is_caught() {
    for service in SERVICES {
        let mut caught = BTreeSet::new();
        for index in deep(service, CASES) {
            let (case, shift) = service.case(1, index);
            let right = judge(&case, shift, &Oracle);
            let rows = case.stream().and_then(|stream| tile(stream).ok());
            let Some(rows) = rows.filter(|_| matches!(right.number, 8 | 10..=15)) else {
                continue;
            };
            let all = paragraphs(&rows);
            let mut all = all.iter();
            let stream = case.stream().unwrap_or_default();
            let Some(named) = all.find(|one| refused(stream, &rows, one).is_some()) else {
                continue;
            };
            let level = level_of(&rows, named);
            if !judge(&case, shift, &Judged(lenient(level)))
                .differences
                .is_empty()
            {
                caught.insert(level);
            }
        }
        let levels = edge_levels().into_iter().filter(|level| *level <= LAST);
        let missed: Vec<u32> = levels.filter(|level| !caught.contains(level)).collect();
        assert_eq!(missed, [], "{service:?}");
    }
}

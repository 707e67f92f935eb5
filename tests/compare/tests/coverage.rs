//! The cases reach what they are meant to reach: edges that no number tells apart.

use compare::judge::Case;
use compare::run::run;
use compare::service::{is_short, Service, ALL};
use compare::subject::Oracle;
use oracle::records::{tile, word};
use oracle::{check, field_text, fill, read_docinfo, Row, LISTS};
use std::collections::BTreeMap;

const CASES: u64 = 6000;

/// Counts of what was seen.
#[derive(Default)]
struct Seen(BTreeMap<&'static str, u64>);

impl Seen {
    fn note(&mut self, what: &'static str, holds: bool) {
        *self.0.entry(what).or_default() += u64::from(holds);
    }

    fn all_at_least(&self, least: u64) {
        let lacking: Vec<_> = self.0.iter().filter(|(_, &times)| times < least).collect();
        assert!(
            lacking.is_empty(),
            "too few: {lacking:?}; all: {:?}",
            self.0
        );
    }
}

fn cases(service: Service) -> impl Iterator<Item = Case> {
    let short = (0..CASES).filter(|&index| is_short(index));
    short.map(move |index| service.case(1, index).0)
}

fn rows(stream: &[u8]) -> Vec<Row> {
    tile(stream).unwrap_or_default()
}

fn long(row: &Row) -> bool {
    row.length >= 4095
}

/// The text record with the field's value, and the shapes beside it.
fn text_and_shapes(stream: &[u8], start: usize) -> (Row, Row) {
    let rows = rows(stream);
    let inside = |row: &Row| row.tag == 67 && (row.place as usize) < start && start <= row.end();
    let text = rows.iter().position(inside).unwrap();
    let level = rows[text].level;
    let header = (0..text)
        .rev()
        .find(|&index| rows[index].level < level)
        .unwrap();
    let mut below = rows[header + 1..].iter();
    let shapes = below
        .find(|row| row.tag == 68 && row.level == level)
        .unwrap();
    (rows[text], *shapes)
}

#[test]
fn fills_reach_the_edges() {
    let mut seen = Seen::default();
    for case in cases(Service::Fill) {
        let Case::Fill {
            section,
            filling,
            sheet,
        } = case
        else {
            panic!("no fill");
        };
        let mut room = vec![0; sheet];
        let Ok(length) = fill(&section, filling.id, &filling.value, &mut room) else {
            continue;
        };
        let filled = &room[..length];
        let (start, old) = field_text(&section, filling.id).unwrap();
        let (new_start, _) = field_text(filled, filling.id).unwrap();
        let (text, shapes) = text_and_shapes(&section, start);
        let (new_text, new_shapes) = text_and_shapes(filled, new_start);
        let lines = rows(&section).len() - rows(filled).len();
        let position = (start - text.place as usize) / 2;
        let end = position + old / 2;
        let starts: Vec<usize> = shapes
            .body(&section)
            .chunks_exact(8)
            .map(|entry| word(entry, 0) as usize)
            .collect();
        let inside = starts
            .iter()
            .filter(|&&at| position <= at && at <= end)
            .count();
        seen.note("text to the long form", !long(&text) && long(&new_text));
        seen.note("text to the short form", long(&text) && !long(&new_text));
        seen.note(
            "shapes to the short form",
            long(&shapes) && !long(&new_shapes),
        );
        seen.note("shapes stay long", long(&new_shapes));
        seen.note("layout goes", lines == 1);
        seen.note("no layout", lines == 0);
        seen.note("old value empty", old == 0);
        seen.note("new value empty", filling.value.is_empty());
        seen.note("new value of 1,024", filling.value.len() == 2048);
        seen.note("field at the start", position == 8);
        seen.note("field at the end", 2 * (end + 9) == text.length as usize);
        seen.note("start at a", starts.contains(&position));
        seen.note("start at b", starts.contains(&end));
        seen.note("start behind b", starts.contains(&(end + 1)));
        seen.note("several starts inside", inside > 1);
        seen.note("no start inside", inside == 0);
        seen.note("sheet exact", sheet == length);
        seen.note("sheet longer by one", sheet == length + 1);
        seen.note("nested paragraph", text.level > 2);
        seen.note("shapes before text", shapes.place < text.place);
    }
    seen.all_at_least(5);
}

#[test]
fn sections_reach_the_edges() {
    let mut seen = Seen::default();
    for case in cases(Service::Check) {
        let Case::Check { section } = case else {
            panic!("no check");
        };
        if check(&section).is_err() {
            continue;
        }
        let rows = rows(&section);
        let deepest = rows.iter().map(|row| row.level).max().unwrap_or(0);
        let headers = || rows.iter().filter(|row| row.tag == 66);
        let flag = |row: &Row| row.body(&section)[3] & 128 != 0;
        let count = |row: &Row| word(row.body(&section), 0) & !(1 << 31);
        let after = |first: u32, second: u32| {
            let mut pairs = rows.windows(2);
            pairs.any(|pair| pair[0].tag == first && pair[1].tag == second)
        };
        seen.note("empty", rows.is_empty());
        seen.note("level 1023", deepest == 1023);
        seen.note(
            "four levels of paragraphs",
            headers().any(|row| row.level > 7),
        );
        seen.note("bit 31", headers().any(flag));
        seen.note("count 0", headers().any(|row| count(row) == 0));
        seen.note("count 1", headers().any(|row| count(row) == 1));
        seen.note("text behind a control", after(71, 67) || after(87, 67));
        seen.note("text behind shapes", after(68, 67));
        seen.note(
            "long text",
            rows.iter().any(|row| row.tag == 67 && long(row)),
        );
        seen.note(
            "long header",
            rows.iter().any(|row| row.tag == 66 && long(row)),
        );
        seen.note("marks", rows.iter().any(|row| row.tag == 70));
        seen.note(
            "empty layout",
            rows.iter().any(|row| row.tag == 69 && row.length == 0),
        );
        seen.note(
            "control header of no paragraph",
            after(200, 71) || after(72, 71),
        );
    }
    seen.all_at_least(5);
}

#[test]
fn docinfos_reach_the_edges() {
    let mut seen = Seen::default();
    for case in cases(Service::DocInfo) {
        let Case::Read { stream, rooms, .. } = case else {
            panic!("no read");
        };
        let room = rooms.into_iter().min().unwrap();
        let Ok(rows) = read_docinfo(&stream, room) else {
            continue;
        };
        let place = |tag| rows.iter().position(|row| row.tag == tag);
        let length = |tag| place(tag).map(|index| rows[index].length);
        let grouped = |row: &Row| (18..=26).contains(&row.tag);
        seen.note("17 before 16", place(17) < place(16));
        seen.note("16 of 30 bytes", length(16) == Some(30));
        seen.note("longer 16", length(16) > Some(30));
        let below = |row: &Row| row.level > 1 && grouped(row);
        seen.note("children of children", rows.iter().any(below));
        seen.note(
            "counted tags outside",
            rows.iter().any(|row| row.level == 0 && grouped(row)),
        );
        seen.note("lists exact", rooms == [rows.len(); LISTS]);
    }
    seen.all_at_least(5);
}

/// The edges that a run itself demands are reached by the run of the gate, and each is missed where it is not.
#[test]
fn each_edge_is_demanded() {
    let edged = ALL
        .into_iter()
        .filter(|service| !service.edges().names().is_empty());
    for service in edged {
        let mut tally = run(service, 1, 0, 10_000, &Oracle);
        assert_eq!(tally.missed(service), [""; 0], "{service:?}");
        for edge in service.edges().names() {
            let times = tally.edges.remove(&edge);
            assert_eq!(tally.missed(service), [edge.as_str()]);
            tally.edges.extend(times.map(|times| (edge, times)));
        }
    }
}

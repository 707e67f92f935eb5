//! Edges of 8 and 10 to 15: the paragraph that is named beside others, at fault or not, by the blocks of their levels.

use crate::alone::{paragraphs, refused, Paragraph};
use crate::cases::chain::{edge_levels, BLOCKS};
use crate::cases::nests::{LAST, NUMBERS};
use oracle::records::tile;

type Edge = super::Edge<Nest>;

/// Another paragraph than the one that is named.
struct Beside {
    level: u32,
    faulty: bool,
    standing: Standing,
}

#[derive(Clone, Copy, PartialEq, Eq)]
enum Standing {
    /// The one that is named stands in it.
    Around,
    Inside,
    Before,
    Behind,
}

/// The paragraph that is named.
pub struct Nest {
    level: u32,
    others: Vec<Beside>,
    /// What shows the fault stands behind the header of the last one inside it.
    shown_behind: bool,
}

/// Longer streams are not looked at: deep sections are short.
const LONGEST: usize = 1 << 17;

fn standing(named: &Paragraph, other: &Paragraph) -> Standing {
    if other.header < named.header {
        return match other.end > named.header {
            true => Standing::Around,
            false => Standing::Before,
        };
    }
    match other.header < named.end {
        true => Standing::Inside,
        false => Standing::Behind,
    }
}

impl Nest {
    /// The paragraph that the refusal is about: the first with a fault.
    pub fn of(stream: &[u8], number: u8, place: usize) -> Option<Nest> {
        let rows = (stream.len() <= LONGEST).then(|| tile(stream).ok())??;
        let all = paragraphs(&rows);
        let fault = |paragraph: &Paragraph| refused(stream, &rows, paragraph);
        let nth = all
            .iter()
            .position(|paragraph| fault(paragraph).is_some())?;
        let named = &all[nth];
        let right = fault(named).map(|refusal| (refusal.number, refusal.place));
        assert_eq!(right, Some((number, place)), "the paragraph alone");
        let others = all.iter().filter(|other| other.header != named.header);
        let others = others.map(|other| Beside {
            level: rows[other.header].level,
            faulty: fault(other).is_some(),
            standing: standing(named, other),
        });
        let mut inner = all[nth + 1..].iter().rev();
        let inner = inner.find(|other| other.header < named.end);
        let shown_behind = inner.is_some_and(|inner| match number {
            10 => true,
            14 => named.parts.last() > Some(&inner.header),
            _ => place > rows[inner.header].header(),
        });
        Some(Nest {
            level: rows[named.header].level,
            others: others.collect(),
            shown_behind,
        })
    }

    /// A paragraph that stands so, faulty or not, is in a block that compares so with that of the one that is named.
    fn has(&self, standing: Standing, faulty: bool, holds: impl Fn(u32, u32) -> bool) -> bool {
        let mut others = self.others.iter();
        others.any(|other| {
            let same = other.standing == standing && other.faulty == faulty;
            same && holds(other.level, self.level)
        })
    }

    fn is_alone(&self) -> bool {
        self.others.iter().all(|other| !other.faulty)
    }
}

/// The edges of a number and of blocks of so many levels.
fn of_blocks(number: u8, block: u32) -> Vec<Edge> {
    let edge = |what: &str, holds: Box<dyn Fn(&Nest) -> bool>| {
        let name = format!("{number}, {what}, by blocks of {block} levels");
        Edge::new(name, number, holds)
    };
    let deeper = move |other: u32, named: u32| other / block > named / block;
    let shallower = move |other: u32, named: u32| other / block < named / block;
    vec![
        edge(
            "an inner one deeper at fault too",
            Box::new(move |it| it.has(Standing::Inside, true, deeper)),
        ),
        edge(
            "in a lawful one that is shallower",
            Box::new(move |it| it.has(Standing::Around, false, shallower)),
        ),
        edge(
            "a later one deeper at fault too",
            Box::new(move |it| it.has(Standing::Behind, true, deeper)),
        ),
        edge(
            "a later one shallower at fault too",
            Box::new(move |it| it.has(Standing::Behind, true, shallower)),
        ),
    ]
}

/// The edges of a number where other paragraphs are lawful.
fn of_lawful(number: u8) -> Vec<Edge> {
    let alike = |other: u32, named: u32| other == named;
    let mut edges = vec![
        Edge::new(
            format!("{number}, behind a lawful one of its level"),
            number,
            move |it: &Nest| it.has(Standing::Before, false, alike),
        ),
        Edge::new(
            format!("{number}, before a lawful one of its level"),
            number,
            move |it: &Nest| it.is_alone() && it.has(Standing::Behind, false, alike),
        ),
    ];
    if number != 8 {
        edges.push(Edge::new(
            format!("{number}, of the outer one alone, shown behind the inner one"),
            number,
            |it: &Nest| it.is_alone() && it.shown_behind,
        ));
    }
    edges
}

pub fn edges() -> Vec<Edge> {
    let of_number = |number| {
        let blocks = BLOCKS.into_iter();
        let blocks = blocks.flat_map(move |block| of_blocks(number, block));
        blocks.chain(of_lawful(number))
    };
    let mut edges: Vec<Edge> = NUMBERS.into_iter().flat_map(of_number).collect();
    let levels = edge_levels().into_iter().filter(|&level| level <= LAST);
    edges.extend(levels.map(|level| {
        let name = format!("8 to 15, of a paragraph at level {level}");
        Edge::of_any(name, &NUMBERS, move |it| it.level == level)
    }));
    edges
}

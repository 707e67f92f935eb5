//! Edges of 9: the way and the level, at the edges of blocks of levels, and what else could be named later.

use crate::cases::chain::BLOCKS;
use crate::cases::paragraphs::PARAGRAPH;
use crate::cases::strays::{at_edges, Way, OWN};
use oracle::records::tile;
use oracle::Row;

type Edge = super::Edge<Stray>;

/// The record that 9 names.
pub struct Stray {
    pub way: Way,
    pub level: u32,
    /// The levels of the later records that 9 could name.
    later: Vec<u32>,
    /// A paragraph header stood at its parent's level before its parent.
    replaced: bool,
    /// The deepest level since the record that it doubles.
    between: u32,
}

fn parent(rows: &[Row], index: usize) -> Option<&Row> {
    let parent = rows[index].parent as usize;
    (parent != index).then(|| &rows[parent])
}

/// The record that a record doubles.
fn doubled(rows: &[Row], index: usize) -> Option<usize> {
    let row = &rows[index];
    let alike = |other: &Row| other.tag == row.tag && other.parent == row.parent;
    let before = row.parent as usize..index;
    before
        .into_iter()
        .rev()
        .find(|&other| alike(&rows[other]) && rows[other].level == row.level)
}

/// In which way 9 could name a record.
pub fn way(rows: &[Row], index: usize) -> Option<Way> {
    let above = parent(rows, index).map(|row| row.tag);
    if above.is_some_and(|tag| OWN.contains(&tag)) {
        return Some(Way::BelowLeaf);
    }
    if !OWN.contains(&rows[index].tag) {
        return None;
    }
    match above {
        Some(PARAGRAPH) => doubled(rows, index).map(|_| Way::Doubled),
        _ => Some(Way::Misplaced),
    }
}

impl Stray {
    pub fn of(stream: &[u8], place: usize) -> Option<Stray> {
        let rows = tile(stream).ok()?;
        let index = rows.iter().position(|row| row.header() == place)?;
        let level = rows[index].level;
        let way = way(&rows, index)?;
        let later = (index + 1..rows.len()).filter(|&later| self::way(&rows, later).is_some());
        let beside = |row: &&Row| row.level + 1 == level;
        let before = rows[..rows[index].parent as usize].iter().rev();
        let since = doubled(&rows, index).unwrap_or(index)..index;
        Some(Stray {
            way,
            level,
            later: later.map(|later| rows[later].level).collect(),
            replaced: before.clone().find(beside).map(|row| row.tag) == Some(PARAGRAPH),
            between: rows[since].iter().map(|row| row.level).max().unwrap_or(0),
        })
    }

    /// A later one is so many blocks deeper, or shallower where it is below 0.
    fn blocks_to_later(&self, block: u32, holds: impl Fn(i64) -> bool) -> bool {
        let number = |level: u32| i64::from(level / block);
        let mut later = self.later.iter();
        later.any(|&later| holds(number(later) - number(self.level)))
    }
}

fn say(way: Way) -> &'static str {
    match way {
        Way::Misplaced => "misplaced",
        Way::Doubled => "doubled",
        Way::BelowLeaf => "below a leaf",
    }
}

/// The edges of blocks of so many levels.
fn of_blocks(block: u32) -> Vec<Edge> {
    let edge = |what: &str, holds: Box<dyn Fn(&Stray) -> bool>| {
        Edge::new(format!("9, {what} of {block} levels"), 9, holds)
    };
    let to_later = |what: &str, holds: fn(i64) -> bool| {
        edge(
            &format!("a later one {what}"),
            Box::new(move |it| it.blocks_to_later(block, holds)),
        )
    };
    vec![
        to_later("in the next block up", |blocks| blocks == -1),
        to_later("further up, by blocks", |blocks| blocks < -1),
        to_later("in the next block down", |blocks| blocks == 1),
        to_later("further down, by blocks", |blocks| blocks > 1),
        edge(
            "misplaced where a paragraph stood before its parent, first level of a block",
            Box::new(move |it| it.way == Way::Misplaced && it.replaced && it.level % block == 0),
        ),
        edge(
            "doubled behind a deeper block",
            Box::new(move |it| it.way == Way::Doubled && it.between / block > it.level / block),
        ),
    ]
}

pub fn edges() -> Vec<Edge> {
    let at_edge = |(way, level)| {
        Edge::new(format!("9, {} at level {level}", say(way)), 9, move |it| {
            (it.way, it.level) == (way, level)
        })
    };
    let mut edges: Vec<Edge> = at_edges().into_iter().map(at_edge).collect();
    edges.extend(BLOCKS.into_iter().flat_map(of_blocks));
    edges
}

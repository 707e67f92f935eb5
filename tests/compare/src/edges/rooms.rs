//! Edges of 7: which of the lists is too short, alone, by one entry or by all; and of a section whose records just fit.

use super::strays::way;
use crate::judge::{Case, LIST_NAMES};
use oracle::records::tile;
use oracle::LISTS;

type Edge = super::Edge<Rooms>;

/// The rooms of a read and the records that they are for.
pub struct Rooms {
    rooms: [usize; LISTS],
    records: usize,
    /// There is a record that 9 could name.
    stray: bool,
}

impl Rooms {
    pub fn of(case: &Case) -> Option<Rooms> {
        let Case::Read { stream, rooms, .. } = case else {
            return None;
        };
        let rows = tile(stream).ok()?;
        Some(Rooms {
            rooms: *rooms,
            records: rows.len(),
            stray: (0..rows.len()).any(|index| way(&rows, index).is_some()),
        })
    }

    /// The shortest list has room for all records but so many.
    fn short_by(&self, missing: usize) -> bool {
        self.rooms.iter().min() == self.records.checked_sub(missing).as_ref()
    }

    /// The list has this room, and every other has enough.
    fn alone(&self, nth: usize, room: usize) -> bool {
        let mut others = (0..LISTS).filter(|&other| other != nth);
        self.rooms[nth] == room && others.all(|other| self.rooms[other] >= self.records)
    }
}

pub fn edges() -> Vec<Edge> {
    let of_list = |(nth, name): (usize, &&str)| {
        [
            Edge::new(format!("7, by the {name} alone, one short"), 7, move |it| {
                it.alone(nth, it.records - 1)
            }),
            Edge::new(format!("7, by the {name} alone, no room"), 7, move |it| {
                it.records > 1 && it.alone(nth, 0)
            }),
        ]
    };
    LIST_NAMES.iter().enumerate().flat_map(of_list).collect()
}

/// Those of a section: 7 comes before 9, and where the records just fit, the section is judged.
pub fn of_sections() -> Vec<Edge> {
    let judged = |number: u8| {
        Edge::new(format!("{number}, the records just fit"), number, |it| {
            it.short_by(0)
        })
    };
    let mut edges: Vec<Edge> = [9, 8, 10, 12, 14, 15].map(judged).into();
    edges.push(Edge::new("7, one short, and a stray", 7, |it| {
        it.short_by(1) && it.stray
    }));
    edges
}

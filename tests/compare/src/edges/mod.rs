//! Edges: what cases show that no number tells apart. A run must reach each edge of its service.

mod counts;
mod depths;
mod entries;
mod headers;
mod nests;
mod packs;
mod rooms;
mod strays;
mod texts;
mod trees;

pub use counts::Counted;
pub use entries::Entry;
pub use headers::Header;
pub use strays::{way, Stray};
pub use texts::Text;

use crate::judge::{Case, Outcome};
use depths::Depth;
use nests::Nest;
use oracle::Row;
use rooms::Rooms;
use trees::Tree;

/// An edge is reached by a case with one of these numbers of which the question is true.
pub struct Edge<T> {
    name: String,
    numbers: Vec<u8>,
    holds: Box<dyn Fn(&T) -> bool>,
}

impl<T> Edge<T> {
    fn new(name: impl Into<String>, number: u8, holds: impl Fn(&T) -> bool + 'static) -> Edge<T> {
        Edge::of_any(name, &[number], holds)
    }

    fn of_any(
        name: impl Into<String>,
        numbers: &[u8],
        holds: impl Fn(&T) -> bool + 'static,
    ) -> Edge<T> {
        Edge {
            name: name.into(),
            numbers: numbers.to_vec(),
            holds: Box::new(holds),
        }
    }
}

/// Those of the edges that a case with the number reaches, where it shows what they are asked of.
fn met<T>(edges: &[Edge<T>], number: u8, shown: impl FnOnce() -> Option<T>) -> Vec<String> {
    let asked = edges.iter().filter(|edge| edge.numbers.contains(&number));
    let asked: Vec<&Edge<T>> = asked.collect();
    if asked.is_empty() {
        return Vec::new();
    }
    let shown = shown();
    let holds = |edge: &&Edge<T>| shown.as_ref().is_some_and(|shown| (edge.holds)(shown));
    let met = asked.into_iter().filter(holds);
    met.map(|edge| edge.name.clone()).collect()
}

fn names<T>(edges: &[Edge<T>]) -> Vec<String> {
    edges.iter().map(|edge| edge.name.clone()).collect()
}

/// The edges of one service.
#[derive(Default)]
pub struct Edges {
    headers: Vec<Edge<Header>>,
    texts: Vec<Edge<Text>>,
    entries: Vec<Edge<Entry>>,
    counts: Vec<Edge<Counted>>,
    strays: Vec<Edge<Stray>>,
    nests: Vec<Edge<Nest>>,
    depths: Vec<Edge<Depth>>,
    rooms: Vec<Edge<Rooms>>,
    trees: Vec<Edge<Tree>>,
    packed: Vec<Edge<packs::Named>>,
    counted: Vec<Edge<packs::Counted>>,
}

impl Edges {
    /// Those of 2 and 3, which every read of streams of at most so many bytes has.
    pub fn of_records(most: usize) -> Edges {
        Edges {
            headers: headers::edges(most),
            ..Edges::default()
        }
    }

    pub fn of_sections(most: usize) -> Edges {
        Edges {
            texts: texts::edges(most),
            entries: entries::edges(most),
            strays: strays::edges(),
            nests: nests::edges(),
            depths: depths::edges(),
            ..Edges::of_records(most)
        }
    }

    pub fn of_docinfo(most: usize) -> Edges {
        Edges {
            counts: counts::edges(most),
            ..Edges::of_records(most)
        }
    }

    pub fn of_pack() -> Edges {
        Edges {
            trees: trees::edges(),
            packed: packs::of_records(),
            counted: packs::of_counts(),
            ..Edges::default()
        }
    }

    /// With those of a call that asks for a field.
    pub fn and_fields(mut self) -> Edges {
        self.depths.extend(depths::of_fields());
        self
    }

    /// With those of a read that writes lists.
    pub fn and_lists(mut self) -> Edges {
        self.rooms.extend(rooms::edges());
        self.trees.extend(trees::edges());
        self
    }

    /// With those of a section read.
    pub fn and_judged_lists(mut self) -> Edges {
        self.rooms.extend(rooms::of_sections());
        self.and_lists()
    }

    pub fn names(&self) -> Vec<String> {
        let names = [
            names(&self.headers),
            names(&self.texts),
            names(&self.entries),
            names(&self.counts),
            names(&self.strays),
            names(&self.nests),
            names(&self.depths),
            names(&self.rooms),
            names(&self.trees),
            names(&self.packed),
            names(&self.counted),
        ];
        names.concat()
    }

    /// The edges that a case reaches.
    pub fn reached(&self, case: &Case, outcome: &Outcome) -> Vec<String> {
        let stream = case.stream().unwrap_or_default();
        let (number, place) = (outcome.number, outcome.place);
        let met = [
            met(&self.headers, number, || Some(Header::of(stream))),
            met(&self.texts, number, || Text::of(stream, place)),
            met(&self.entries, number, || Entry::of(stream, place)),
            met(&self.counts, number, || Counted::of(stream, outcome)),
            met(&self.strays, number, || Stray::of(stream, place)),
            met(&self.nests, number, || Nest::of(stream, number, place)),
            met(&self.depths, number, || Depth::of(case)),
            met(&self.rooms, number, || Rooms::of(case)),
            met(&self.trees, number, || Tree::of(case)),
            met(&self.packed, number, || packs::Named::of(case, place)),
            met(&self.counted, number, || packs::Counted::of(case)),
        ];
        met.concat()
    }
}

/// Something has this place among so many.
type Among = fn(usize, usize) -> bool;

const FIRST: (&str, Among) = ("first", |at, _| at == 0);
const MIDDLE: (&str, Among) = ("middle", |at, of| at > 0 && at + 1 < of);
const LAST: (&str, Among) = ("last", |at, of| at + 1 == of);

/// How many control headers a record stands below: a paragraph in a table stands below that of the table.
fn tables_above(rows: &[Row], index: usize) -> usize {
    let mut level = rows[index].level;
    let mut tables = 0;
    for row in rows[..index].iter().rev() {
        if row.level < level {
            level = row.level;
            tables += usize::from(row.tag == 71);
        }
    }
    tables
}

/// So many tables around a record are several.
const SEVERAL: usize = 3;

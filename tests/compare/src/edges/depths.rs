//! Edges of accepted sections: how deep the records of paragraphs stand, and what stands between them.

use crate::alone::paragraphs;
use crate::cases::chain::BLOCKS;
use crate::cases::nests::LAST;
use crate::cases::paragraphs::{CONTROL, TEXT};
use crate::cases::strays::OWN;
use crate::cases::trees::DEEPEST;
use crate::judge::Case;
use oracle::records::tile;
use oracle::Row;

type Edge = super::Edge<Depth>;

/// A paragraph of an accepted section: its level, the tags of its parts, and the deepest level before the last of them.
struct Nested {
    level: u32,
    tags: Vec<u32>,
    deepest: u32,
    /// The paragraph before it at the same level, below the same parent or beside it, has a part of the same tag.
    twin: bool,
}

pub struct Depth {
    nested: Vec<Nested>,
    /// The level of the text with the field that is asked for.
    field: Option<u32>,
}

/// Longer streams are not looked at: deep sections are short.
const LONGEST: usize = 1 << 17;

/// The text that holds a place.
fn text_at(rows: &[Row], place: usize) -> Option<u32> {
    let holds = |row: &&Row| (row.place as usize..row.end()).contains(&place);
    let text = rows.iter().find(holds)?;
    Some(text.level)
}

impl Depth {
    pub fn of(case: &Case) -> Option<Depth> {
        let stream = case.stream().filter(|stream| stream.len() <= LONGEST)?;
        let rows = tile(stream).ok()?;
        let id = match case {
            Case::FieldText { id, .. } => Some(*id),
            Case::Fill { filling, .. } => Some(filling.id),
            _ => None,
        };
        let place = id.and_then(|id| oracle::field_text(stream, id).ok());
        let mut last: Vec<Vec<u32>> = vec![Vec::new(); DEEPEST as usize + 1];
        let nested = paragraphs(&rows).into_iter().map(|paragraph| {
            let level = rows[paragraph.header].level;
            let tags: Vec<u32> = paragraph.parts.iter().map(|&part| rows[part].tag).collect();
            let before = paragraph.header..paragraph.parts.last().map_or(0, |&part| part);
            let twin = last[level as usize].iter().any(|tag| tags.contains(tag));
            last[level as usize].clone_from(&tags);
            Nested {
                level,
                tags,
                deepest: rows[before].iter().map(|row| row.level).max().unwrap_or(0),
                twin,
            }
        });
        Some(Depth {
            nested: nested.collect(),
            field: place.and_then(|(place, _)| text_at(&rows, place)),
        })
    }

    fn any(&self, holds: impl Fn(&Nested) -> bool) -> bool {
        self.nested.iter().any(holds)
    }

    fn at_every_level(&self) -> bool {
        let mut levels = vec![false; LAST as usize + 1];
        for nested in &self.nested {
            levels[nested.level as usize] = true;
        }
        levels.into_iter().all(|met| met)
    }
}

/// The edges of paragraphs at the last level of a block of so many levels.
fn of_blocks(block: u32) -> Vec<Edge> {
    let edge = |what: &str, holds: Box<dyn Fn(&Nested) -> bool>| {
        let name = format!("accepted, last level of a block of {block}: {what}");
        Edge::new(name, 0, move |it: &Depth| {
            it.any(|nested| nested.level % block == block - 1 && holds(nested))
        })
    };
    vec![
        edge(
            "a control header",
            Box::new(|it| it.tags.contains(&CONTROL)),
        ),
        edge("a text", Box::new(|it| it.tags.contains(&TEXT))),
        edge("two with the same parts", Box::new(|it| it.twin)),
        edge(
            "a part behind a deeper block",
            Box::new(move |it| it.deepest / block > (it.level + 1) / block),
        ),
    ]
}

/// The edges of the call's own field.
pub fn of_fields() -> Vec<Edge> {
    let edge = |what: String, holds: Box<dyn Fn(u32) -> bool>| {
        let name = format!("accepted, the field's text at {what}");
        Edge::new(name, 0, move |it: &Depth| it.field.is_some_and(&holds))
    };
    let mut edges = vec![edge(
        format!("level {DEEPEST}"),
        Box::new(|level| level == DEEPEST),
    )];
    edges.extend(BLOCKS.map(|block| {
        edge(
            format!("the first level of a block of {block}"),
            Box::new(move |level| level > 0 && level % block == 0),
        )
    }));
    edges
}

pub fn edges() -> Vec<Edge> {
    let mut edges: Vec<Edge> = BLOCKS.into_iter().flat_map(of_blocks).collect();
    edges.extend(OWN.map(|tag| {
        let name = format!("accepted, record {tag} at level {DEEPEST}");
        Edge::new(name, 0, move |it: &Depth| {
            it.any(|nested| nested.level == LAST && nested.tags.contains(&tag))
        })
    }));
    edges.push(Edge::new(
        "accepted, a paragraph at every level",
        0,
        Depth::at_every_level,
    ));
    edges
}

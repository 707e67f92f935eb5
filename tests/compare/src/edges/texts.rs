//! Edges of 12: how a text breaks the rules, and where the unit stands that does.

use super::{tables_above, Among, FIRST, LAST, MIDDLE, SEVERAL};
use crate::cases::faults::TEXTS;
use oracle::records::tile;
use oracle::text::{text_rules, Wrong};
use oracle::Row;

type Edge = super::Edge<Text>;

/// A text that breaks the rules.
pub struct Text {
    pub row: Row,
    pub wrong: Wrong,
    /// The position of the unit that breaks them.
    pub at: usize,
    pub stream: usize,
    units: usize,
    tables: usize,
}

impl Text {
    /// The text with the place; a lacking 13 is behind its last unit.
    pub fn of(stream: &[u8], place: usize) -> Option<Text> {
        let rows = tile(stream).ok()?;
        let holds = |row: &Row| (row.place as usize..=row.end()).contains(&place);
        let index = rows.iter().position(|row| row.tag == 67 && holds(row))?;
        let body = rows[index].body(stream);
        let fault = text_rules(body).err()?;
        Some(Text {
            row: rows[index],
            wrong: fault.wrong,
            at: fault.at,
            stream: stream.len(),
            units: body.len() / 2,
            tables: tables_above(&rows, index),
        })
    }

    /// No byte stands behind the text.
    fn ends_stream(&self) -> bool {
        self.row.end() == self.stream
    }
}

fn say(wrong: Wrong) -> &'static str {
    match wrong {
        Wrong::Zero => "unit 0",
        Wrong::EndBeforeTheEnd => "13 before the end",
        Wrong::ControlCutShort => "control cut short",
        Wrong::ClosingCode => "closing code",
        Wrong::EndLacking => "13 lacking",
    }
}

/// Where the unit can stand in a text: the last unit may be 13, and a closing code is the eighth at the earliest.
fn standing(wrong: Wrong) -> &'static [(&'static str, Among)] {
    match wrong {
        Wrong::Zero | Wrong::ControlCutShort => &[FIRST, MIDDLE, LAST],
        Wrong::EndBeforeTheEnd => &[FIRST, MIDDLE],
        Wrong::ClosingCode => &[MIDDLE, LAST],
        Wrong::EndLacking => &[],
    }
}

/// The edges of one way to break the rules.
fn of(wrong: Wrong, most: usize) -> Vec<Edge> {
    let edge = |what: &str, holds: Box<dyn Fn(&Text) -> bool>| {
        Edge::new(format!("12, {}: {what}", say(wrong)), 12, move |it| {
            it.wrong == wrong && holds(it)
        })
    };
    let standing = standing(wrong).iter();
    let standing =
        standing.map(|&(what, among)| edge(what, Box::new(move |it| among(it.at, it.units))));
    let mut edges: Vec<Edge> = standing.collect();
    edges.extend([
        edge("text last in the stream", Box::new(Text::ends_stream)),
        edge("records behind", Box::new(|it| !it.ends_stream())),
        edge("long text", Box::new(|it| it.row.length >= 4095)),
        edge("in tables", Box::new(|it| it.tables >= SEVERAL)),
        edge(
            &format!("text last of {most}"),
            Box::new(move |it| it.ends_stream() && it.stream == most),
        ),
    ]);
    edges
}

/// The unit that breaks the rule ends the stream.
fn last_byte() -> Edge {
    Edge::new("12, unit last in the stream", 12, |it| {
        it.ends_stream() && it.at + 1 == it.units
    })
}

/// The edges of streams of at most so many bytes.
pub fn edges(most: usize) -> Vec<Edge> {
    let mut edges: Vec<Edge> = TEXTS
        .into_iter()
        .flat_map(|wrong| of(wrong, most))
        .collect();
    edges.push(last_byte());
    edges
}

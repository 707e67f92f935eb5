//! Edges of 2 and 3: how much is left of a header that is cut short, and where a long length is too short.

use oracle::records::{each_record, word};

type Edge = super::Edge<Header>;

/// The first header behind the good records, which 2 or 3 is about.
pub struct Header {
    pub at: usize,
    /// The bytes from its first to the stream's end.
    pub left: usize,
    level: u32,
    long_length: u32,
}

impl Header {
    pub fn of(stream: &[u8]) -> Header {
        let mut at = 0;
        let _ = each_record(stream, |_, row| at = row.end());
        let left = &stream[at..];
        let word_at = |place: usize| left.get(place..place + 4).map_or(0, |part| word(part, 0));
        Header {
            at,
            left: left.len(),
            level: word_at(0) >> 10 & 1023,
            long_length: word_at(4),
        }
    }

    /// The stream has as many bytes as it may have.
    fn fills(&self, most: usize) -> bool {
        self.at + self.left == most
    }
}

/// The first four bytes are cut with one to three left, the long length with four to seven.
fn cut(most: usize) -> Vec<Edge> {
    let left = |left: usize| {
        [
            Edge::new(format!("2, {left} bytes are the stream"), 2, move |it| {
                it.left == left && it.at == 0
            }),
            Edge::new(format!("2, {left} bytes left"), 2, move |it| {
                it.left == left && it.at > 0
            }),
        ]
    };
    let mut edges: Vec<Edge> = (1..8).flat_map(left).collect();
    edges.push(Edge::new(
        format!("2, first four cut at {most}"),
        2,
        move |it| it.fills(most) && it.left < 4,
    ));
    edges.push(Edge::new(
        format!("2, long length cut at {most}"),
        2,
        move |it| it.fills(most) && it.left > 3,
    ));
    edges
}

fn too_short(most: usize) -> Vec<Edge> {
    vec![
        Edge::new("3, first in the stream", 3, |it| it.at == 0),
        Edge::new("3, behind other records", 3, |it| it.at > 0),
        Edge::new("3, at level 5 or deeper", 3, |it| it.level >= 5),
        Edge::new("3, length 4094", 3, |it| it.long_length == 4094),
        Edge::new("3, length 0", 3, |it| it.long_length == 0),
        Edge::new("3, last in the stream", 3, |it| it.left == 8),
        Edge::new(format!("3, last of {most}"), 3, move |it| {
            it.fills(most) && it.left == 8
        }),
    ]
}

/// The edges of streams of at most so many bytes.
pub fn edges(most: usize) -> Vec<Edge> {
    [cut(most), too_short(most)].into_iter().flatten().collect()
}

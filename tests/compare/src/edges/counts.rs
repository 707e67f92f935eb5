//! Edges of DocInfo: the length of record 17, what makes its counts right or wrong, and which count 18 names.

use crate::cases::docinfo::at_signs;
use crate::judge::Outcome;
use oracle::docinfo::{children, counts, group_ranges, groups, layout, Layout};
use oracle::records::{tile, word};
use oracle::Row;
use std::ops::Range;

type Edge = super::Edge<Counted>;

const NARROW: Layout = Layout {
    width: 2,
    asked: 16,
};

/// Record 17 of a DocInfo in which nothing but its length or its counts is wrong.
pub struct Counted {
    pub row: Row,
    /// 0 where the length is wrong.
    pub width: u32,
    body: Vec<u8>,
    counts: Vec<i64>,
    children: [i64; 10],
    /// The length of the stream.
    end: usize,
}

/// The groups of counts that are not the number of their children.
fn unmatched(counts: &[i64], children: &[i64; 10]) -> Vec<usize> {
    let groups = groups(counts);
    let pairs = groups.iter().zip(children).enumerate();
    let wrong = pairs.filter(|(_, (count, number))| count != number);
    wrong.map(|(group, _)| group).collect()
}

fn negative(counts: &[i64]) -> bool {
    counts.iter().any(|&count| count < 0)
}

fn right(counts: &[i64], children: &[i64; 10]) -> bool {
    !negative(counts) && unmatched(counts, children).is_empty()
}

impl Counted {
    /// None where a number before 17 of record 17 was given.
    pub fn of(stream: &[u8], outcome: &Outcome) -> Option<Counted> {
        let judged = matches!((outcome.number, outcome.tag), (0 | 18, _) | (17, Some(17)));
        let rows = tile(stream).ok().filter(|_| judged)?;
        let index = rows.iter().position(|row| row.tag == 17)?;
        let body = rows[index].body(stream);
        let layout = layout(rows[index].length);
        Some(Counted {
            row: rows[index],
            width: layout.map_or(0, |layout| layout.width),
            body: body.to_vec(),
            counts: layout.map_or(Vec::new(), |layout| counts(body, layout)),
            children: children(&rows, index),
            end: stream.len(),
        })
    }

    fn is(&self, width: u32) -> bool {
        self.width == width
    }

    fn negative(&self) -> bool {
        negative(&self.counts)
    }

    pub fn first_negative(&self) -> Option<usize> {
        self.counts.iter().position(|&count| count < 0)
    }

    /// The counts of the first group that does not match.
    pub fn first_unmatched(&self) -> Option<Range<usize>> {
        let group = *self.wrong().first()?;
        group_ranges(self.counts.len()).nth(group)
    }

    /// The first negative count stands behind all counts of the first group that does not match.
    fn negative_behind_group(&self) -> bool {
        let (negative, group) = (self.first_negative(), self.first_unmatched());
        negative
            .zip(group)
            .is_some_and(|(nth, group)| nth >= group.end)
    }

    fn ends_stream(&self) -> bool {
        self.row.end() == self.end
    }

    /// The first negative count is the last that is asked, and nothing stands behind it.
    fn negative_last(&self) -> bool {
        let last = self.counts.len() - 1;
        let whole = self.body.len() == self.width as usize * self.counts.len();
        self.ends_stream() && whole && self.first_negative() == Some(last)
    }

    fn wrong(&self) -> Vec<usize> {
        unmatched(&self.counts, &self.children)
    }

    /// Only this group is wrong, and no count is negative.
    fn only(&self, group: usize) -> bool {
        !self.negative() && self.wrong() == [group]
    }

    /// This negative count is there, and every group is right.
    fn kept(&self, width: u32, count: i64) -> bool {
        self.is(width) && self.counts.contains(&count) && self.wrong().is_empty()
    }

    /// By how much a group's count is above its children.
    fn above(&self, group: usize) -> i64 {
        groups(&self.counts)[group] - self.children[group]
    }

    /// The sum of the faces is all that is wrong, and right in so many bits.
    fn wraps(&self, bits: u32) -> bool {
        self.only(1) && self.above(1) % (1 << bits) == 0
    }

    /// One count that stands for itself is all that is wrong, and right in so many bits.
    fn cut(&self, bits: u32) -> bool {
        let wrong = self.wrong();
        let single = wrong.len() == 1 && wrong != [1];
        single && !self.negative() && self.above(wrong[0]) % (1 << bits) == 0
    }

    /// This count is all that is wrong: with another in its place all would be right.
    fn alone(&self, count: i64) -> bool {
        let place = self.counts.iter().position(|&other| other == count);
        let (Some(nth), [group]) = (place, &self.wrong()[..]) else {
            return false;
        };
        let mut mended = self.counts.clone();
        mended[nth] -= self.above(*group);
        right(&mended, &self.children)
    }

    /// Counts read in this way would be right.
    fn right_as(&self, layout: Layout) -> bool {
        right(&counts(&self.body, layout), &self.children)
    }

    /// The counts behind the sixteenth.
    fn later(&self) -> Vec<i32> {
        let later = self.body.get(64..).unwrap_or_default();
        let later = later.chunks_exact(4);
        later.map(|count| word(count, 0) as i32).collect()
    }
}

/// Every length about those that are right, the right ones accepted and the others refused.
fn lengths() -> Vec<Edge> {
    let edges = (28..=80).map(|length| {
        let number = match length {
            32 | 60 | 64 | 68 | 72 | 76 | 80 => 0,
            _ => 17,
        };
        let name = format!("{length} bytes");
        Edge::new(name, number, move |it| it.body.len() == length)
    });
    edges.collect()
}

/// A count at a sign bit is all that is wrong.
fn signs() -> Vec<Edge> {
    let each = |width: u32| {
        at_signs(width as usize).iter().map(move |&count| {
            let name = format!("count {count} of {} bits", 8 * width);
            Edge::new(name, 18, move |it| it.is(width) && it.alone(count))
        })
    };
    each(2).chain(each(4)).collect()
}

/// What is wrong, and would be right in another reading; without the sign in a long case alone.
fn nearly_right() -> Vec<Edge> {
    let eight = Layout { width: 4, asked: 8 };
    vec![
        Edge::new("-1 with the sum kept, 16 bits", 18, |it| it.kept(2, -1)),
        Edge::new("-1 with the sum kept, 32 bits", 18, |it| it.kept(4, -1)),
        Edge::new("lowest with the sum kept, 16 bits", 18, |it| {
            it.kept(2, -32_768)
        }),
        Edge::new("lowest with the sum kept, 32 bits", 18, |it| {
            it.kept(4, -(1 << 31))
        }),
        Edge::new("sum wraps at 16 bits", 18, |it| it.is(2) && it.wraps(16)),
        Edge::new("wide sum wraps at 16 bits", 18, |it| {
            it.is(4) && it.wraps(16) && !it.wraps(32)
        }),
        Edge::new("wide sum wraps at 32 bits", 18, |it| it.wraps(32)),
        Edge::new("low byte right", 18, |it| it.is(2) && it.cut(8)),
        Edge::new("low half right", 18, |it| it.is(4) && it.cut(16)),
        Edge::new("32 bytes right as wide counts", 18, move |it| {
            it.is(2) && it.right_as(eight)
        }),
        Edge::new("right without the sign of 16 bits", 18, |it| {
            let counts: Vec<i64> = it.counts.iter().map(|count| count & 65_535).collect();
            it.is(2) && right(&counts, &it.children)
        }),
        Edge::new("60 bytes right as narrow counts", 18, |it| {
            it.body.len() == 60 && it.right_as(NARROW)
        }),
        Edge::new("64 bytes right as narrow counts", 18, |it| {
            it.body.len() == 64 && it.right_as(NARROW)
        }),
        Edge::new("fifteenth wrong in 60 bytes", 18, |it| {
            it.body.len() == 60 && it.only(8)
        }),
        Edge::new("sixteenth wrong in 64 bytes", 18, |it| {
            it.body.len() == 64 && it.only(9)
        }),
    ]
}

/// What is right, and would be wrong in another reading; the last three are of long cases.
fn barely_right() -> Vec<Edge> {
    let memos = |it: &Counted| it.children[9] > 0;
    vec![
        Edge::new("60 bytes with children 92", 0, move |it| {
            it.body.len() == 60 && memos(it)
        }),
        Edge::new("60 bytes without children 92", 0, move |it| {
            it.body.len() == 60 && !memos(it)
        }),
        Edge::new("64 bytes with children 92", 0, move |it| {
            it.body.len() == 64 && memos(it)
        }),
        Edge::new("later count -1", 0, |it| it.later().contains(&-1)),
        Edge::new("later count lowest", 0, |it| it.later().contains(&i32::MIN)),
        Edge::new("record 17 of the long form", 0, |it| it.body.len() > 4094),
        Edge::new("sum over 65,535, 16 bits", 0, |it| {
            it.is(2) && it.children[1] > 65_535
        }),
        Edge::new("count of 32,768 to 65,535", 0, |it| {
            let mut counts = it.counts.iter();
            counts.any(|count| (32_768..=65_535).contains(count))
        }),
        Edge::new("count over 65,535", 0, |it| {
            it.counts.iter().any(|&count| count > 65_535)
        }),
    ]
}

/// Each count as the first negative one, each group as the first that does not match with no count negative.
fn each_count(width: u32) -> Vec<Edge> {
    let bits = 8 * width;
    let negative = (0..16).map(|nth| {
        let name = format!("18, count {nth} of {bits} bits negative");
        Edge::new(name, 18, move |it| {
            it.is(width) && it.first_negative() == Some(nth)
        })
    });
    let unmatched = (0..10).map(|group| {
        let name = format!("18, group {group} of {bits} bits unmatched");
        Edge::new(name, 18, move |it| {
            it.is(width) && !it.negative() && it.wrong().first() == Some(&group)
        })
    });
    negative.chain(unmatched).collect()
}

/// Two counts at fault: a negative one goes before groups, else the first is named.
fn two_faults(width: u32) -> Vec<Edge> {
    let edge = |what: &str, holds: fn(&Counted) -> bool| {
        let name = format!("18, {what}, {} bits", 8 * width);
        Edge::new(name, 18, move |it| it.is(width) && holds(it))
    };
    vec![
        edge(
            "negative behind an unmatched group",
            Counted::negative_behind_group,
        ),
        edge("negative behind count 1 of its group", |it| {
            it.wrong() == [1] && it.first_negative() > Some(1)
        }),
        edge("two negative", |it| {
            it.counts.iter().filter(|&&count| count < 0).count() > 1
        }),
        edge("two groups unmatched", |it| {
            !it.negative() && it.wrong().len() > 1
        }),
    ]
}

/// The count at fault is the last that is asked, or the last in the stream.
fn last_count(most: usize) -> Vec<Edge> {
    vec![
        Edge::new("18, negative at the end of 60 bytes", 18, |it| {
            it.body.len() == 60 && it.first_negative() == Some(14)
        }),
        Edge::new("18, negative in the long form", 18, |it| {
            it.body.len() > 4094 && it.negative()
        }),
        Edge::new("18, negative last in the stream, 16 bits", 18, |it| {
            it.is(2) && it.negative_last()
        }),
        Edge::new("18, negative last in the stream, 32 bits", 18, |it| {
            it.is(4) && it.negative_last()
        }),
        Edge::new(format!("18, negative last of {most}"), 18, move |it| {
            it.negative_last() && it.end == most
        }),
        Edge::new(format!("18, last unmatched at {most}"), 18, move |it| {
            let last = groups(&it.counts).len() - 1;
            it.only(last) && it.ends_stream() && it.end == most
        }),
    ]
}

/// The edges of DocInfo of at most so many bytes.
pub fn edges(most: usize) -> Vec<Edge> {
    let all = [
        lengths(),
        signs(),
        nearly_right(),
        barely_right(),
        each_count(2),
        each_count(4),
        two_faults(2),
        two_faults(4),
        last_count(most),
    ];
    all.into_iter().flatten().collect()
}

//! Strays, the records that 9 names, at any level: one in each way, and two in either order of their levels.

use crate::cases::chain::{edge_levels, level_between, Chain, Links};
use crate::cases::paragraphs::{CONTROL, DATA, LAYOUT, LIST, MARKS, PARAGRAPH, SHAPES, TEXT};
use crate::cases::records::Draft;
use crate::cases::trees::DEEPEST;
use crate::random::Random;

pub const OWN: [u32; 4] = [TEXT, SHAPES, LAYOUT, MARKS];

/// How a record breaks the rule; OWN records are leaves here.
#[derive(Clone, Copy, Debug, PartialEq, Eq, PartialOrd, Ord)]
pub enum Way {
    /// A leaf that is no child of a paragraph header.
    Misplaced,
    /// The second leaf of its tag below a paragraph header.
    Doubled,
    /// A child of a leaf.
    BelowLeaf,
}

pub const WAYS: [Way; 3] = [Way::Misplaced, Way::Doubled, Way::BelowLeaf];

impl Way {
    /// The level that it needs.
    pub fn least(self) -> u32 {
        match self {
            Way::Misplaced => 0,
            Way::Doubled => 1,
            Way::BelowLeaf => 2,
        }
    }
}

/// Each way at each level at the edge of a block.
pub fn at_edges() -> Vec<(Way, u32)> {
    let pairs = edge_levels().into_iter();
    let pairs = pairs.flat_map(|level| WAYS.map(|way| (way, level)));
    pairs.filter(|(way, level)| *level >= way.least()).collect()
}

impl Chain<'_> {
    /// A stray of this way and level on a chain that goes down from a level.
    fn stray(&mut self, from: u32, way: Way, level: u32) {
        match way {
            Way::Misplaced => self.misplaced(from, level),
            Way::Doubled => self.doubled(from, level),
            Way::BelowLeaf => self.below_leaf(from, level),
        }
    }

    /// A paragraph header with a leaf of each of the tags.
    fn headed(&mut self, level: u32, tags: &[u32]) {
        let length = self.random.pick(&[0, 22]);
        self.put(PARAGRAPH, level, vec![0; length]);
        for &tag in tags {
            self.put(tag, level + 1, Vec::new());
        }
    }

    /// At times a paragraph that may have the leaf stands where the parent does, before it.
    fn misplaced(&mut self, from: u32, level: u32) {
        let tag = self.random.pick(&OWN);
        if let Some(above) = level.checked_sub(1) {
            self.down(from, above);
            if self.random.once_in(2) {
                let other = self.random.pick(&OWN);
                self.headed(above, &[other]);
            }
            self.other(above);
            if self.random.once_in(3) {
                self.other(level);
            }
        }
        self.put(tag, level, Vec::new());
    }

    /// Between the two stands nothing, another leaf, a chain, or a paragraph that has the same leaf, and a chain below.
    fn doubled(&mut self, from: u32, level: u32) {
        self.down(from, level - 1);
        let nth = self.random.below(4);
        let (tag, beside) = (OWN[nth], OWN[(nth + 1) % 4]);
        self.headed(level - 1, &[tag]);
        let room = DEEPEST - level;
        match self.random.below(4) {
            1 => self.put(beside, level, Vec::new()),
            2 if room > 0 => self.other(level),
            3 if room > 1 => {
                self.headed(level, &[tag]);
                self.other(level + 1);
            }
            _ => {}
        }
        let last = self.drafts.last().map_or(0, |draft| draft.level);
        if self.open_to_more() && last < DEEPEST {
            let to = level_between(self.random, last + 1, DEEPEST);
            self.down(last + 1, to);
        }
        self.put(tag, level, Vec::new());
    }

    /// Whether more may stand below the last record.
    fn open_to_more(&self) -> bool {
        let last = self.drafts.last();
        last.is_some_and(|draft| !OWN.contains(&draft.tag))
    }

    /// At times another child of the header stands before the leaf, with one of its own.
    fn below_leaf(&mut self, from: u32, level: u32) {
        self.down(from, level - 2);
        self.headed(level - 2, &[]);
        if self.random.once_in(3) {
            self.other(level - 1);
            self.other(level);
        }
        let leaf = self.random.pick(&OWN);
        self.put(leaf, level - 1, Vec::new());
        let tags = [PARAGRAPH, TEXT, SHAPES, CONTROL, LIST, DATA, 200];
        let tag = self.random.pick(&tags);
        self.put(tag, level, Vec::new());
    }
}

/// Links for several chains in one section.
fn links(random: &mut Random) -> Links {
    random.pick(&[Links::Other, Links::Other, Links::Headers, Links::Mixed])
}

/// Where a chain goes down again for a stray of a level, behind one that went to another: from level 0 or further down.
fn again_from(random: &mut Random, reached: u32, level: u32) -> u32 {
    let most = reached.min(level).saturating_sub(2);
    let any = random.below(most as usize + 1) as u32;
    random.pick(&[0, most, most, any])
}

/// One stray on a chain of lawful paragraphs.
fn one_in_paragraphs(random: &mut Random, way: Way, level: u32) -> Vec<Draft> {
    let mut chain = Chain::new(random, Links::Paragraphs);
    chain.stray(0, way, level);
    chain.drafts
}

/// One stray, at times behind a chain that is deeper or not, and with a chain behind it.
pub fn one(random: &mut Random, way: Way, level: u32) -> Vec<Draft> {
    if random.once_in(6) {
        return one_in_paragraphs(random, way, level);
    }
    let links = links(random);
    let (before, behind) = (random.once_in(3), random.once_in(3));
    let reached = level_between(random, 0, DEEPEST);
    let from = match before {
        true => again_from(random, reached, level),
        false => 0,
    };
    let mut chain = Chain::new(random, links);
    if before {
        chain.down(0, reached);
    }
    chain.stray(from, way, level);
    if behind {
        let from = again_from(chain.random, level, DEEPEST);
        chain.down(from, reached);
    }
    chain.drafts
}

/// A way that can be met at a level.
fn way_at(random: &mut Random, level: u32) -> Way {
    WAYS[random.below((level as usize + 1).min(3))]
}

/// Two strays and at times a third, each of any level: shallower than the one before it, deeper or neither.
pub fn two(random: &mut Random) -> Vec<Draft> {
    let mut level = level_between(random, 0, DEEPEST);
    let links = links(random);
    let mut chain = Chain::new(random, links);
    let mut from = 0;
    for _ in 0..chain.random.pick(&[2, 2, 2, 3]) {
        let way = way_at(chain.random, level);
        chain.stray(from, way, level);
        let next = match chain.random.once_in(2) {
            true => level_between(chain.random, 0, level),
            false => level_between(chain.random, level, DEEPEST),
        };
        from = again_from(chain.random, level, next);
        level = next;
    }
    chain.drafts
}

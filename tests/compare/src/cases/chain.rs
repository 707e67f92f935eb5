//! Chains: records that go down level by level, come back and go down again, with what a deep section needs on the way.

use crate::cases::paragraphs::{CONTROL, DATA, LIST, PARAGRAPH, SHAPES};
use crate::cases::records::Draft;
use crate::cases::trees::DEEPEST;
use crate::random::Random;

/// Blocks of so many levels are told apart.
pub const BLOCKS: [u32; 4] = [16, 32, 64, 200];

/// The levels at the edges of blocks, the last of one and the first two of the next, and the last two of all.
pub fn edge_levels() -> Vec<u32> {
    let of = |level: u32, block: u32| [0, 1, block - 1].contains(&(level % block));
    let edge = |level: &u32| BLOCKS.iter().any(|&block| of(*level, block));
    let edge = |level: &u32| edge(level) || *level + 1 == DEEPEST;
    (0..=DEEPEST).filter(edge).collect()
}

/// A level from one to another, both included: mostly at the edge of a block, next to either end, or by blocks from it.
pub fn level_between(random: &mut Random, first: u32, last: u32) -> u32 {
    let any = random.from_to(first as usize, last as usize) as u32;
    let edges = edge_levels();
    let block = random.pick(&BLOCKS);
    let level = match random.below(10) {
        0 => any,
        1 => first,
        2 => last,
        3 => first + block,
        4 => last.saturating_sub(block),
        5..=7 => any / block * block + random.pick(&[0, 1, block - 1]),
        _ => random.pick(&edges),
    };
    if (first..=last).contains(&level) {
        level
    } else {
        any
    }
}

/// What the records of a chain are.
#[derive(Clone, Copy, Debug, PartialEq, Eq)]
pub enum Links {
    /// Records that no rule is about, without a body.
    Other,
    /// Headers of paragraphs without a body: each is 8, so that only a section with 9 has them.
    Headers,
    /// Lawful paragraphs without text.
    Paragraphs,
    /// The first and the third.
    Mixed,
}

/// Records in the making.
pub struct Chain<'a> {
    pub random: &'a mut Random,
    pub drafts: Vec<Draft>,
    links: Links,
    /// The tags of the last record and of those that it stands below, by level.
    open: Vec<u32>,
}

impl Chain<'_> {
    pub fn new(random: &mut Random, links: Links) -> Chain<'_> {
        Chain {
            random,
            drafts: Vec::new(),
            links,
            open: Vec::new(),
        }
    }

    pub fn put(&mut self, tag: u32, level: u32, body: Vec<u8>) {
        self.open.truncate(level as usize);
        self.open.push(tag);
        self.drafts.push(Draft::new(tag, level, body));
    }

    /// Whether a record that is put at the level is the child of a paragraph header.
    fn below_header(&self, level: u32) -> bool {
        let parent = level.checked_sub(1).map(|above| self.open[above as usize]);
        parent == Some(PARAGRAPH)
    }

    /// A record that no rule is about; a control header where it is no paragraph's.
    pub fn other(&mut self, level: u32) {
        let tag = match self.below_header(level) {
            true => self.random.pick(&[LIST, 73, DATA, 200, 1023]),
            false => self.random.pick(&[CONTROL, CONTROL, LIST, 73, 200]),
        };
        self.put(tag, level, Vec::new());
    }

    /// A lawful paragraph without text; more may follow below it.
    pub fn empty_paragraph(&mut self, level: u32) {
        let mut header = vec![0; 22];
        header[12] = 1;
        self.put(PARAGRAPH, level, header);
        self.put(SHAPES, level + 1, vec![0; 8]);
    }

    fn link(&mut self, level: u32) {
        let paragraph = match self.links {
            Links::Other | Links::Headers => false,
            Links::Paragraphs => true,
            Links::Mixed => self.random.once_in(3),
        };
        if paragraph {
            self.empty_paragraph(level);
        } else if self.links == Links::Headers {
            self.put(PARAGRAPH, level, Vec::new());
        } else {
            self.other(level);
        }
    }

    /// Links at the levels from the one up to but not including the other.
    pub fn down(&mut self, from: u32, to: u32) {
        for level in from..to {
            self.link(level);
        }
    }
}

//! Edges of accepted tables: how deep the records go, how they come back, and how many one parent has.

use crate::cases::packing::LEVELS;
use crate::cases::trees::{parents, DEEPEST};
use crate::judge::Case;
use oracle::records::tile;

type Edge = super::Edge<Tree>;

/// The levels of the records of an accepted table, and their parents.
pub struct Tree {
    levels: Vec<u32>,
    parents: Vec<u32>,
}

/// So many children, records in a row, or records between.
const MANY: usize = 1000;

impl Tree {
    pub fn of(case: &Case) -> Option<Tree> {
        let levels: Vec<u32> = match case {
            Case::Read { stream, .. } => tile(stream).ok()?.iter().map(|row| row.level).collect(),
            Case::Pack { count, lists, .. } => lists[LEVELS][..*count as usize].to_vec(),
            _ => return None,
        };
        let parents = parents(&levels);
        Some(Tree { levels, parents })
    }

    /// Whether some record of the one level is followed by one of the other.
    fn steps(&self, holds: impl Fn(u32, u32) -> bool) -> bool {
        let mut pairs = self.levels.windows(2);
        pairs.any(|pair| holds(pair[0], pair[1]))
    }

    /// The most records in a row of which each follows the one before it so.
    fn longest_run(&self, follows: impl Fn(u32, u32) -> bool) -> usize {
        let (mut run, mut longest) = (1, 1);
        for pair in self.levels.windows(2) {
            run = if follows(pair[0], pair[1]) {
                run + 1
            } else {
                1
            };
            longest = longest.max(run);
        }
        longest
    }

    fn most_children(&self) -> usize {
        let mut children = vec![0; self.levels.len()];
        for (index, &parent) in self.parents.iter().enumerate() {
            children[parent as usize] += usize::from(parent as usize != index);
        }
        children.into_iter().max().unwrap_or(0)
    }

    /// Whether a parent stands many records before a child, and deeper records right before that.
    fn far_parent(&self) -> bool {
        let far = |index: &usize| index - self.parents[*index] as usize > MANY;
        let mut indexes = (1..self.levels.len()).filter(far);
        indexes.any(|index| self.levels[index - 1] > self.levels[index])
    }
}

pub fn edges() -> Vec<Edge> {
    const ALL_LEVELS: usize = DEEPEST as usize + 1;
    let edge = |name: &str, holds: fn(&Tree) -> bool| Edge::new(name, 0, holds);
    vec![
        edge("level 1023", |it| it.levels.contains(&DEEPEST)),
        edge("two records of level 1023", |it| {
            it.steps(|before, level| before == DEEPEST && level == DEEPEST)
        }),
        edge("from level 1023 back to 0", |it| {
            it.steps(|before, level| before == DEEPEST && level == 0)
        }),
        edge("from level 1023 back to 1", |it| {
            it.steps(|before, level| before == DEEPEST && level == 1)
        }),
        edge("from level 1023 back by one", |it| {
            it.steps(|before, level| before == DEEPEST && level + 1 == before)
        }),
        edge("back by many, to a level of many", |it| {
            it.steps(|before, level| level >= 100 && level + 100 <= before)
        }),
        edge("from level 0 to 1023 by ones", |it| {
            it.longest_run(|before, level| level == before + 1) == ALL_LEVELS
        }),
        edge("from level 1023 to 0 by ones", |it| {
            it.longest_run(|before, level| level + 1 == before) == ALL_LEVELS
        }),
        edge("a thousand children of one", |it| {
            it.most_children() >= MANY
        }),
        edge("a parent a thousand records before", Tree::far_parent),
        edge("a thousand of level 0 in a row", |it| {
            it.longest_run(|before, level| before == 0 && level == 0) >= MANY
        }),
    ]
}

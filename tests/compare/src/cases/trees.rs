//! Levels in the shapes of trees, deep, wide and flat, and the parents that levels give.

use crate::cases::records::Draft;
use crate::random::Random;

pub const DEEPEST: u32 = 1023;

/// The parents of records with these levels, lawful or not, as document 01 says it: the nearest earlier record of
/// smaller level, and the record's own index where there is none.
pub fn parents(levels: &[u32]) -> Vec<u32> {
    let mut open: Vec<u32> = Vec::new();
    let parent = |(index, &level): (usize, &u32)| {
        while open.last().is_some_and(|&at| levels[at as usize] >= level) {
            open.pop();
        }
        let parent = open.last().copied().unwrap_or(index as u32);
        open.push(index as u32);
        parent
    };
    levels.iter().enumerate().map(parent).collect()
}

/// Chains down by one to a deepest level, which come back by one, by many or to 0, again and again.
fn chains(random: &mut Random, count: usize) -> Vec<u32> {
    let any = random.from_to(1, DEEPEST as usize) as u32;
    let deepest = random.pick(&[DEEPEST, DEEPEST, DEEPEST, any]);
    let mut levels = Vec::with_capacity(count + 3000);
    let mut from = 0;
    while levels.len() < count {
        levels.extend(from..=deepest);
        levels.extend(vec![deepest; random.below(3)]);
        let any = random.below(deepest as usize) as u32;
        let by_one;
        (from, by_one) =
            random.pick(&[(0, false), (1, false), (any, false), (0, true), (any, true)]);
        if by_one {
            levels.extend((from + 1..deepest).rev());
        }
    }
    levels.truncate(count);
    levels
}

/// A chain of some depth, and below its last record all the others, few of them with one of their own.
fn children(random: &mut Random, count: usize) -> Vec<u32> {
    let any = random.below(DEEPEST as usize) as u32;
    let depth = random.pick(&[0, 1, DEEPEST - 1, any]);
    let below = |_| {
        let deeper = u32::from(random.once_in(9));
        (depth + 1 + deeper).min(DEEPEST)
    };
    let mut levels: Vec<u32> = (0..=depth).collect();
    levels.push(depth + 1);
    levels.extend((0..count.saturating_sub(levels.len())).map(below));
    levels
}

/// Nearly all at level 0.
fn flat(random: &mut Random, count: usize) -> Vec<u32> {
    let often = random.pick(&[50, 5000, 5000]);
    let level = |index| u32::from(index > 0 && random.once_in(often));
    (0..count).map(level).collect()
}

/// Up and down by one, and at times back by many.
fn walk(random: &mut Random, count: usize) -> Vec<u32> {
    let mut level = 0;
    let step = |_| {
        let now = level;
        let any = random.below(level as usize + 1) as u32;
        level = match random.below(64) {
            0 => any,
            1..=36 => (level + 1).min(DEEPEST),
            _ => level.saturating_sub(1),
        };
        now
    };
    (0..count).map(step).collect()
}

/// The lawful levels of about so many records, in one of the shapes.
pub fn levels(random: &mut Random, count: usize) -> Vec<u32> {
    match random.below(8) {
        0..=4 => chains(random, count),
        5 => children(random, count),
        6 => flat(random, count),
        _ => walk(random, count),
    }
}

/// As many records as show a tree at its deepest.
pub fn how_many(random: &mut Random) -> usize {
    random.from_to(1030, 4200)
}

/// A tree of records that no rule of a section or of DocInfo is about, with hardly a body.
pub fn drafts(random: &mut Random) -> Vec<Draft> {
    let count = how_many(random);
    let levels = levels(random, count);
    let draft = |level| {
        let length = random.below(16).saturating_sub(12);
        Draft::new(random.pick(&[73, 87, 200, 1023]), level, vec![7; length])
    };
    levels.into_iter().map(draft).collect()
}

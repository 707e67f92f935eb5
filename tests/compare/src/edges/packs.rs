//! Edges of pack: each way to give a wrong parent, 28 beside the other numbers, and 27 by one list alone.

use super::{Among, Edge, FIRST, LAST, MIDDLE};
use crate::cases::packing::{LENGTHS, LEVELS, PARENTS, PLACES, TAGS};
use crate::cases::trees::{parents, DEEPEST};
use crate::judge::{Case, LIST_NAMES};
use oracle::{LIMIT, LISTS};

/// The numbers of a record's faults, in the order in which they are judged.
const ORDER: [u8; 4] = [5, 6, 28, 4];
type Faults = [bool; ORDER.len()];

fn has(faults: &Faults, number: u8) -> bool {
    let mut numbered = faults.iter().zip(ORDER);
    numbered.any(|(&fault, other)| fault && other == number)
}

/// The records of a case that every list has, and their right parents.
struct Table<'a> {
    lists: [&'a [u32]; LISTS],
    right: Vec<u32>,
    bytes: usize,
}

impl Table<'_> {
    fn of(case: &Case) -> Option<Table<'_>> {
        let Case::Pack {
            count,
            lists,
            bytes,
            ..
        } = case
        else {
            return None;
        };
        let shortest = lists.iter().map(Vec::len).min()?;
        let records = shortest.min((*count).try_into().unwrap_or(shortest));
        let lists = lists.each_ref().map(|list| &list[..records]);
        Some(Table {
            lists,
            right: parents(lists[LEVELS]),
            bytes: bytes.len(),
        })
    }

    fn faults(&self, index: usize) -> Faults {
        let entry = |list: usize| u64::from(self.lists[list][index]);
        let before = index
            .checked_sub(1)
            .map(|before| self.lists[LEVELS][before]);
        let highest = before.map_or(0, |before| before.saturating_add(1).min(DEEPEST));
        [
            !(16..=1023).contains(&entry(TAGS)),
            entry(LEVELS) > highest.into(),
            entry(PARENTS) != self.right[index].into(),
            entry(PLACES) + entry(LENGTHS) > self.bytes as u64,
        ]
    }

    /// How many tags, levels, parents and bodies are wrong.
    fn wrong(&self) -> usize {
        let faults = (0..self.right.len()).flat_map(|index| self.faults(index));
        faults.filter(|&fault| fault).count()
    }

    /// The length that pack would write.
    fn total(&self) -> u64 {
        let lengths = self.lists[LENGTHS].iter();
        lengths
            .map(|&length| u64::from(length) + if length < 4095 { 4 } else { 8 })
            .sum()
    }
}

/// How long the lists are against the count, and whether an entry is wrong.
pub struct Counted {
    count: u64,
    lengths: [usize; LISTS],
    right: bool,
}

impl Counted {
    pub fn of(case: &Case) -> Option<Counted> {
        let Case::Pack { count, lists, .. } = case else {
            return None;
        };
        Some(Counted {
            count: *count,
            lengths: lists.each_ref().map(Vec::len),
            right: Table::of(case)?.wrong() == 0,
        })
    }

    /// The list lacks its last entry, and no other list is too short.
    fn short_alone(&self, nth: usize) -> bool {
        let lengths = self.lengths.map(|length| length as u64);
        let mut others = (0..LISTS).filter(|&list| list != nth);
        lengths[nth] + 1 == self.count && others.all(|list| lengths[list] >= self.count)
    }
}

/// Which list is too short, and entries past the count.
pub fn of_counts() -> Vec<Edge<Counted>> {
    let of_list = |(nth, name): (usize, &&str)| {
        [(true, "all else right"), (false, "others wrong")].map(|(right, words)| {
            let name = format!("27, by the {name} alone, {words}");
            Edge::new(name, 27, move |it: &Counted| {
                it.short_alone(nth) && it.right == right
            })
        })
    };
    let mut edges: Vec<_> = LIST_NAMES.iter().enumerate().flat_map(of_list).collect();
    let name = "entries past the count in every list";
    edges.push(Edge::new(name, 0, |it: &Counted| {
        it.lengths.iter().all(|&length| length as u64 > it.count)
    }));
    edges
}

/// The record that a refusal names.
pub struct Named {
    index: usize,
    count: usize,
    level: u32,
    given: u32,
    parent: u32,
    parents_parent: u32,
    /// The record before on its level.
    beside: Option<usize>,
    faults: Faults,
    /// Those of the records behind it.
    later: Faults,
    /// No entry of any other record is wrong, and one of its own.
    only: bool,
    /// Where every body is inside the bytes: the length that pack would write is over the limit, or else the buffer.
    over: bool,
    cramped: bool,
}

impl Named {
    pub fn of(case: &Case, index: usize) -> Option<Named> {
        let table = Table::of(case)?;
        let Case::Pack { out, .. } = case else {
            return None;
        };
        let (levels, right) = (table.lists[LEVELS], &table.right);
        let level = *levels.get(index)?;
        let mut before = (0..index).rev();
        let inside = (0..levels.len()).all(|index| !has(&table.faults(index), 4));
        let total = table.total();
        let later = (index + 1..levels.len()).map(|later| table.faults(later));
        Some(Named {
            index,
            count: levels.len(),
            level,
            given: table.lists[PARENTS][index],
            parent: right[index],
            parents_parent: right[right[index] as usize],
            beside: before.find(|&before| levels[before] == level),
            faults: table.faults(index),
            later: later.fold(Faults::default(), |all, one| {
                std::array::from_fn(|nth| all[nth] || one[nth])
            }),
            only: table.wrong() == 1,
            over: inside && total > LIMIT as u64,
            cramped: inside && (*out as u64..LIMIT as u64).contains(&(total - 1)),
        })
    }
}

type Way = (&'static str, fn(&Named) -> bool);

/// The ways to give another parent to a record below level 0, and to one at level 0.
const BELOW: [Way; 8] = [
    ("the record before", |it| it.given as usize + 1 == it.index),
    ("the parent's parent", |it| {
        it.level > 1 && it.given == it.parents_parent
    }),
    ("its own index", |it| it.given as usize == it.index),
    ("0", |it| it.given == 0),
    ("one more", |it| it.given == it.parent + 1),
    ("one less", |it| it.given.checked_add(1) == Some(it.parent)),
    ("the record before on its level", |it| {
        it.beside == Some(it.given as usize)
    }),
    ("any, at level 1023", |it| it.level == DEEPEST),
];
const AT_0: [Way; 3] = [
    ("the record before", |it| it.given as usize + 1 == it.index),
    ("the record after", |it| it.given as usize == it.index + 1),
    ("0", |it| it.given == 0),
];
const PAST: [Way; 3] = [
    ("the end of the table", |it| it.given as usize == it.count),
    ("past the table", |it| {
        it.given as usize > it.count && it.given < u32::MAX
    }),
    ("the highest number", |it| it.given == u32::MAX),
];

/// 28 in each way that a parent is wrong, and where the record stands.
fn wrong_parents() -> Vec<Edge<Named>> {
    let mut edges = Vec::new();
    for (words, ways, holds) in [
        (
            "below level 0",
            &BELOW[..],
            (|it| it.level > 0) as fn(&Named) -> bool,
        ),
        ("at level 0", &AT_0, |it| it.level == 0),
        ("below level 0", &PAST, |it| it.level > 0),
        ("at level 0", &PAST, |it| it.level == 0),
    ] {
        edges.extend(ways.iter().map(|&(name, way)| {
            Edge::new(format!("28, {words}: {name}"), 28, move |it| {
                holds(it) && way(it)
            })
        }));
    }
    let only = |(name, among): (&str, Among)| {
        Edge::new(format!("28, only the {name}"), 28, move |it: &Named| {
            it.only && it.count > 2 && among(it.index, it.count)
        })
    };
    edges.extend([FIRST, MIDDLE, LAST].map(only));
    edges
}

/// The order of the numbers: of one record 5, 6, 28, 4; record by record; all of them before 1 and 26.
fn order() -> Vec<Edge<Named>> {
    let beside = |first: u8, second: u8| {
        Edge::new(
            format!("{first} beside {second}"),
            first,
            move |it: &Named| has(&it.faults, second),
        )
    };
    let later = |first: u8, second: u8| {
        let name = format!("{first} before {second} of a later record");
        Edge::new(name, first, move |it: &Named| has(&it.later, second))
    };
    vec![
        beside(5, 28),
        beside(6, 28),
        beside(28, 4),
        later(5, 28),
        later(6, 28),
        later(4, 28),
        later(28, 5),
        later(28, 6),
        later(28, 4),
        Edge::new("6, the parent right", 6, |it: &Named| {
            it.index > 0 && !has(&it.faults, 28)
        }),
        Edge::new("28 before 1", 28, |it: &Named| it.over),
        Edge::new("28 before 26", 28, |it: &Named| it.cramped),
    ]
}

pub fn of_records() -> Vec<Edge<Named>> {
    [wrong_parents(), order()].into_iter().flatten().collect()
}

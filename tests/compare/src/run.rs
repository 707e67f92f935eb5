//! A run: the cases of each service, what was reached and what differed.

use crate::judge::{judge, Case};
use crate::service::Service;
use crate::subject::Subject;
use std::collections::BTreeMap;

/// What the cases of one service showed.
#[derive(Default)]
pub struct Tally {
    pub cases: u64,
    pub numbers: BTreeMap<u8, u64>,
    pub named: BTreeMap<(u8, u32), u64>,
    pub edges: BTreeMap<String, u64>,
    /// Index and text of the first cases that differed.
    pub shown: Vec<(u64, String)>,
    pub differing: u64,
}

const SHOWN: usize = 5;

/// Runs the cases with indexes `from` up to but not including `to`.
pub fn run(service: Service, seed: u64, from: u64, to: u64, subject: &dyn Subject) -> Tally {
    let mut tally = Tally::default();
    let edges = service.edges();
    for index in from..to {
        let (case, shift) = service.case(seed, index);
        let outcome = judge(&case, shift, subject);
        tally.cases += 1;
        *tally.numbers.entry(outcome.number).or_default() += 1;
        if let Some(tag) = outcome.tag {
            *tally.named.entry((outcome.number, tag)).or_default() += 1;
        }
        for edge in edges.reached(&case, &outcome) {
            *tally.edges.entry(edge).or_default() += 1;
        }
        if !outcome.differences.is_empty() {
            tally.differing += 1;
            if tally.shown.len() < SHOWN {
                let text = format!("{}\n{}", outcome.differences.join("; "), describe(&case));
                tally.shown.push((index, text));
            }
        }
    }
    tally
}

impl Tally {
    /// The numbers, the pairs of number and tag, and the edges that must be reached and were not.
    pub fn missed(&self, service: Service) -> Vec<String> {
        let numbers = service.numbers().iter();
        let named = service.named().iter();
        let edges = service.edges().names().into_iter();
        let missed = numbers.filter(|number| !self.numbers.contains_key(number));
        let unnamed = named.filter(|pair| !self.named.contains_key(pair));
        let unmet = edges.filter(|edge| !self.edges.contains_key(edge));
        missed
            .map(|number| format!("{number}"))
            .chain(unnamed.map(|(number, tag)| format!("{number} of a record {tag}")))
            .chain(unmet)
            .collect()
    }

    /// How many edges were reached, and which of them least often.
    pub fn edge_counts(&self) -> String {
        let least = self.edges.iter().min_by_key(|(_, times)| **times);
        let least = least.map_or(String::new(), |(name, times)| format!("{name}:{times}"));
        format!("{}, least often {least}", self.edges.len())
    }

    pub fn counts(&self) -> String {
        let counts = self.numbers.iter();
        let counts: Vec<String> = counts
            .map(|(number, times)| format!("{number}:{times}"))
            .collect();
        counts.join(" ")
    }

    pub fn named_counts(&self) -> String {
        let named = self.named.iter();
        let named: Vec<String> = named
            .map(|((number, tag), times)| format!("{number}/{tag}:{times}"))
            .collect();
        named.join(" ")
    }
}

const LONGEST_SHOWN: usize = 600;

fn hex(bytes: &[u8]) -> String {
    if bytes.len() > LONGEST_SHOWN {
        return format!("{} bytes", bytes.len());
    }
    bytes.iter().map(|byte| format!("{byte:02x}")).collect()
}

fn describe(case: &Case) -> String {
    match case {
        Case::Read {
            kind,
            stream,
            rooms,
        } => format!("read {kind:?} rooms {rooms:?} stream {}", hex(stream)),
        Case::Pack {
            count,
            lists,
            bytes,
            out,
        } => {
            let short = lists.iter().all(|list| list.len() <= 40);
            let lists = if short {
                format!("{lists:?}")
            } else {
                format!("{:?} entries", lists.each_ref().map(Vec::len))
            };
            format!(
                "pack count {count} lists {lists} bytes {} out {out}",
                hex(bytes)
            )
        }
        Case::Check { section } => format!("check {}", hex(section)),
        Case::FieldText { section, id } => format!("field text of {id} in {}", hex(section)),
        Case::Fill {
            section,
            filling,
            sheet,
        } => {
            let (id, value) = (filling.id, hex(&filling.value));
            format!(
                "fill of {id} with {value}, sheet {sheet}, in {}",
                hex(section)
            )
        }
        Case::TwoFills {
            section,
            fillings: [one, other],
            sheet,
        } => {
            let (value, second) = (hex(&one.value), hex(&other.value));
            let (id, other) = (one.id, other.id);
            let section = hex(section);
            format!(
                "fills of {id} with {value}, {other} with {second}, sheet {sheet}, in {section}"
            )
        }
        Case::List { input, most } => format!("list by {most} bytes {}", hex(input)),
    }
}

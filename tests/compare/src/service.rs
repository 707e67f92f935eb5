//! The services that are compared: their cases, and the numbers and edges that must be reached.

use crate::cases::faults::{self, Fault};
use crate::cases::records::write_stream;
use crate::cases::{deep, docinfo, fills, packing, records, sections};
use crate::edges::Edges;
use crate::judge::{Case, Filling};
use crate::random::Random;
use crate::subject::Kind;
use oracle::lister::INPUT;
use oracle::LIMIT;

#[derive(Clone, Copy, Debug, PartialEq, Eq)]
pub enum Service {
    Read,
    Pack,
    DocInfo,
    Section,
    Check,
    FieldText,
    Fill,
    TwoFills,
    Lister,
}

pub const ALL: [Service; 9] = [
    Service::Read,
    Service::Pack,
    Service::DocInfo,
    Service::Section,
    Service::Check,
    Service::FieldText,
    Service::Fill,
    Service::TwoFills,
    Service::Lister,
];

/// One case in this many has megabytes, or as much as the lister reads, and one more has as much as the service takes
/// and a chosen fault at its end.
pub const LONG_EVERY: u64 = 1000;
const LONG: u64 = 500;
const LONG_FAULT: u64 = 250;

/// One short case in this many has a chosen fault.
const FAULT_EVERY: usize = 6;

/// The first deep case of a service that judges sections.
const DEEP: u64 = 3;

/// Whether the case with this index is short.
pub fn is_short(index: u64) -> bool {
    !matches!(index % LONG_EVERY, LONG | LONG_FAULT)
}

impl Service {
    pub fn name(self) -> &'static str {
        match self {
            Service::Read => "read",
            Service::Pack => "pack",
            Service::DocInfo => "docinfo",
            Service::Section => "section",
            Service::Check => "check",
            Service::FieldText => "field-text",
            Service::Fill => "fill",
            Service::TwoFills => "two-fills",
            Service::Lister => "lister",
        }
    }

    /// The numbers that a run must reach.
    pub fn numbers(self) -> &'static [u8] {
        match self {
            Service::Read => &[0, 1, 2, 3, 4, 5, 6, 7],
            Service::Pack => &[0, 1, 4, 5, 6, 26, 27, 28],
            Service::DocInfo => &[0, 1, 2, 3, 4, 5, 6, 7, 16, 17, 18],
            Service::Section => &[0, 1, 2, 3, 4, 5, 6, 7, 8, 9, 10, 11, 12, 13, 14, 15],
            Service::Check | Service::Lister => {
                &[0, 1, 2, 3, 4, 5, 6, 8, 9, 10, 11, 12, 13, 14, 15]
            }
            Service::FieldText => &[
                0, 1, 2, 3, 4, 5, 6, 8, 9, 10, 11, 12, 13, 14, 15, 21, 22, 23,
            ],
            Service::Fill => &[
                0, 1, 2, 3, 4, 5, 6, 8, 9, 10, 11, 12, 13, 14, 15, 20, 21, 22, 23, 24, 25, 26,
            ],
            Service::TwoFills => &[0, 25, 26],
        }
    }

    /// For numbers that name records of several kinds: number and tag pairs that a run must reach.
    pub fn named(self) -> &'static [(u8, u32)] {
        const RULES: [(u8, u32); 10] = [
            (9, 67),
            (9, 68),
            (9, 69),
            (9, 70),
            (11, 67),
            (11, 68),
            (11, 69),
            (11, 70),
            (13, 68),
            (13, 70),
        ];
        match self {
            Service::DocInfo => &[(16, 16), (16, 17), (17, 16), (17, 17)],
            Service::Section | Service::Check | Service::Lister => &RULES,
            _ => &[],
        }
    }

    /// The most bytes that it reads.
    fn most(self) -> usize {
        match self {
            Service::Lister => INPUT,
            _ => LIMIT,
        }
    }

    /// The edges that a run must reach.
    pub fn edges(self) -> Edges {
        match self {
            Service::TwoFills => Edges::default(),
            Service::Pack => Edges::of_pack(),
            Service::Read => Edges::of_records(self.most()).and_lists(),
            Service::DocInfo => Edges::of_docinfo(self.most()).and_lists(),
            Service::Section => Edges::of_sections(self.most()).and_judged_lists(),
            Service::FieldText | Service::Fill => Edges::of_sections(self.most()).and_fields(),
            Service::Check | Service::Lister => Edges::of_sections(self.most()),
        }
    }

    /// The faults that are chosen for its cases.
    fn faults(self) -> &'static [Fault] {
        match self {
            Service::Pack | Service::TwoFills => &[],
            Service::Read => faults::OF_RECORDS,
            Service::DocInfo => &faults::OF_DOCINFO,
            _ => &faults::OF_SECTIONS,
        }
    }

    /// The case with this index, and the shift of its lent memory.
    pub fn case(self, seed: u64, index: u64) -> (Case, usize) {
        let mut random = Random::of_case(seed, self as u64, index);
        let shift = random.below(8);
        let which = (index / LONG_EVERY) as usize;
        let case = match index % LONG_EVERY {
            LONG_FAULT if self == Service::Pack => packing::long_fault(&mut random, which),
            LONG_FAULT if !self.faults().is_empty() => self.long_fault(&mut random, which),
            LONG => self.long_case(&mut random, which),
            _ => match self.deep(index) {
                Some(which) => self.deep_case(&mut random, which),
                None => self.short_case(&mut random),
            },
        };
        (case, shift)
    }

    /// A case of as many bytes as the service takes, which is wrong at its end.
    fn long_fault(self, random: &mut Random, which: usize) -> Case {
        let faults = self.faults();
        let stream = faults::long(random, faults[which % faults.len()], self.most());
        self.case_of(random, stream)
    }

    /// One case in so many is deep, where the service judges sections. Two fills judge theirs many times over.
    fn deep_every(self) -> Option<u64> {
        match self {
            Service::Read | Service::Pack | Service::DocInfo => None,
            Service::TwoFills => Some(50),
            _ => Some(5),
        }
    }

    /// Which of its deep cases the one with this index is, where it is one.
    pub fn deep(self, index: u64) -> Option<usize> {
        let every = self.deep_every().filter(|every| index % every == DEEP)?;
        Some((index / every) as usize)
    }

    fn deep_case(self, random: &mut Random, which: usize) -> Case {
        if self == Service::TwoFills {
            return fills::deep_two_fills_case(random);
        }
        let (drafts, ids) = deep::section(random, which);
        let section = write_stream(&drafts);
        match self {
            Service::FieldText => fills::field_text_of(random, section, &ids),
            Service::Fill => fills::fill_of(random, section, &ids),
            _ => self.case_of(random, section),
        }
    }

    /// The case of a section or another stream; its records have room, and an id and a value that the call is given are
    /// any, since the stream is refused.
    fn case_of(self, random: &mut Random, section: Vec<u8>) -> Case {
        let id = random.next() as u32;
        let value = vec![65, 0];
        match self {
            Service::Read => read_of(Kind::Records, section),
            Service::DocInfo => read_of(Kind::DocInfo, section),
            Service::Section => read_of(Kind::Section, section),
            Service::FieldText => Case::FieldText { section, id },
            Service::Fill => Case::Fill {
                section,
                filling: Filling { id, value },
                sheet: random.below(5000),
            },
            Service::Lister => sections::listed(random, section),
            Service::Check => Case::Check { section },
            Service::Pack | Service::TwoFills => unreachable!("no fault is chosen for {self:?}"),
        }
    }

    fn short_case(self, random: &mut Random) -> Case {
        if !self.faults().is_empty() && random.once_in(FAULT_EVERY) {
            let fault = random.pick(self.faults());
            let stream = faults::short(random, fault);
            return self.case_of(random, stream);
        }
        match self {
            Service::Read => records::case(random),
            Service::Pack => packing::case(random),
            Service::DocInfo => docinfo::case(random),
            Service::Section => sections::read_case(random),
            Service::Check => sections::check_case(random),
            Service::FieldText => fills::field_text_case(random),
            Service::Fill => fills::fill_case(random),
            Service::TwoFills => fills::two_fills_case(random),
            Service::Lister => sections::list_case(random),
        }
    }

    fn long_case(self, random: &mut Random, which: usize) -> Case {
        match self {
            Service::Read => records::long_case(random, which),
            Service::Pack => packing::long_case(random, which),
            Service::DocInfo => docinfo::long_case(random, which),
            Service::Section => sections::long_read_case(random, which),
            Service::Check => sections::long_check_case(random, which),
            Service::FieldText => fills::long_field_text_case(random, which),
            Service::Fill => fills::long_fill_case(random, which),
            Service::TwoFills => fills::long_two_fills_case(random),
            Service::Lister => sections::long_list_case(random, which),
        }
    }
}

/// A read with room for every record.
fn read_of(kind: Kind, stream: Vec<u8>) -> Case {
    let count = oracle::read(&stream, usize::MAX).map_or(3, |rows| rows.len());
    Case::Read {
        kind,
        stream,
        rooms: [count, count + 1, count + 2, count, count + 3],
    }
}

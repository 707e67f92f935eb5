//! Deliberately wrong places: the right number at another byte, in every call that passes it on. The comparison catches
//! each of them.

use compare::edges::{Counted, Entry, Header, Text};
use compare::judge::Outcome;
use compare::lend::{Given, Room};
use compare::run::run;
use compare::service::Service;
use compare::subject::{Kind, Lists, Oracle, Subject, Table};
use oracle::answer;
use oracle::answer::answer_of;
use oracle::lister::judged;
use oracle::text::Wrong;
use oracle::LIMIT;

/// Another place for the refusals with a number; none where the right one is kept.
#[derive(Clone, Copy)]
enum Place {
    Of2(fn(&Header) -> Option<usize>),
    Of3(fn(&Header) -> Option<usize>),
    Of12(fn(&Text) -> Option<usize>),
    Of13(fn(&Entry) -> Option<usize>),
    Of18(fn(&Counted) -> Option<usize>),
}

impl Place {
    fn of(self, stream: &[u8], refusal: &Outcome) -> Option<usize> {
        let place = refusal.place;
        match (self, refusal.number) {
            (Place::Of2(moved), 2) | (Place::Of3(moved), 3) => moved(&Header::of(stream)),
            (Place::Of12(moved), 12) => Text::of(stream, place).as_ref().and_then(moved),
            (Place::Of13(moved), 13) => Entry::of(stream, place).as_ref().and_then(moved),
            (Place::Of18(moved), 18) => Counted::of(stream, refusal).as_ref().and_then(moved),
            _ => None,
        }
    }

    /// The services whose answers have the number.
    fn services(self) -> &'static [Service] {
        const ALL: [Service; 7] = [
            Service::DocInfo,
            Service::Read,
            Service::Section,
            Service::Check,
            Service::FieldText,
            Service::Fill,
            Service::Lister,
        ];
        match self {
            Place::Of2(_) | Place::Of3(_) => &ALL,
            Place::Of12(_) | Place::Of13(_) => &ALL[2..],
            Place::Of18(_) => &ALL[..1],
        }
    }
}

/// The oracle with another place.
struct Misplaced(Place);

impl Misplaced {
    fn moved(&self, stream: Given<u8>, found: u64) -> u64 {
        // SAFETY: the comparator lends the memory for the length of the call.
        let stream = unsafe { stream.slice() };
        let refusal = Outcome::of(stream, found, Vec::new());
        let place = self.0.of(stream, &refusal);
        place.map_or(found, |place| answer(refusal.number, place, 0))
    }
}

impl Subject for Misplaced {
    fn read(&self, kind: Kind, stream: Given<u8>, lists: Lists) -> u64 {
        self.moved(stream, Oracle.read(kind, stream, lists))
    }

    fn pack(&self, count: u64, lists: Table, bytes: Given<u8>, out: Room<u8>) -> u64 {
        Oracle.pack(count, lists, bytes, out)
    }

    fn check(&self, section: Given<u8>) -> u64 {
        self.moved(section, Oracle.check(section))
    }

    fn field_text(&self, section: Given<u8>, id: u32) -> u64 {
        self.moved(section, Oracle.field_text(section, id))
    }

    fn fill(&self, section: Given<u8>, id: u32, value: Given<u8>, sheet: Room<u8>) -> u64 {
        self.moved(section, Oracle.fill(section, id, value, sheet))
    }

    fn list(&self, input: &[u8], most: usize) -> Vec<u8> {
        let found = answer_of(judged(input).map(|section| section.rows.len()));
        let refusal = Outcome::of(input, found, Vec::new());
        match self.0.of(input, &refusal) {
            Some(place) => format!("refused {} at {place}\n", refusal.number).into_bytes(),
            None => Oracle.list(input, most),
        }
    }
}

fn entry(it: &Entry, nth: usize) -> usize {
    it.of.row.place as usize + it.of.width * nth
}

fn count(it: &Counted, nth: usize) -> usize {
    it.row.place as usize + it.width as usize * nth
}

fn unit(it: &Text, position: usize) -> usize {
    it.row.place as usize + 2 * position
}

/// The right places, as the edges are told apart.
const RIGHT: [Place; 5] = [
    Place::Of2(|it| Some(it.at + it.left)),
    Place::Of3(|it| Some(it.at + 4)),
    Place::Of12(|it| Some(unit(it, it.at))),
    Place::Of13(|it| Some(entry(it, it.nth))),
    Place::Of18(|it| {
        let unmatched = it.first_unmatched().map(|group| group.start);
        it.first_negative().or(unmatched).map(|nth| count(it, nth))
    }),
];

const OF_HEADERS: [(&str, Place); 6] = [
    ("the header", Place::Of2(|it| Some(it.at))),
    (
        "the header where the long length is cut",
        Place::Of2(|it| (it.left > 3).then_some(it.at)),
    ),
    (
        "the long length where it is cut",
        Place::Of2(|it| (it.left > 3).then_some(it.at + 4)),
    ),
    ("the last byte", Place::Of2(|it| Some(it.at + it.left - 1))),
    ("the header", Place::Of3(|it| Some(it.at))),
    ("behind the long length", Place::Of3(|it| Some(it.at + 8))),
];

/// The place so many units off where the text is wrong in this way.
fn off(it: &Text, wrong: Wrong, units: isize) -> Option<usize> {
    let off = unit(it, it.at).checked_add_signed(2 * units);
    off.filter(|_| it.wrong == wrong)
}

const OF_TEXTS: [(&str, Place); 11] = [
    ("the text record", Place::Of12(|it| Some(it.row.header()))),
    ("the first unit", Place::Of12(|it| Some(unit(it, 0)))),
    (
        "the position not doubled",
        Place::Of12(|it| Some(it.row.place as usize + it.at)),
    ),
    (
        "the unit by a header of four bytes",
        Place::Of12(|it| Some(it.row.header() + 4 + 2 * it.at)),
    ),
    (
        "the unit before a 0",
        Place::Of12(|it| off(it, Wrong::Zero, -1)),
    ),
    (
        "the unit after a 13 before the end",
        Place::Of12(|it| off(it, Wrong::EndBeforeTheEnd, 1)),
    ),
    (
        "the end of a text with a control cut short",
        Place::Of12(|it| (it.wrong == Wrong::ControlCutShort).then(|| it.row.end())),
    ),
    (
        "the control's first unit for a wrong closing code",
        Place::Of12(|it| off(it, Wrong::ClosingCode, -7)),
    ),
    (
        "the unit after a wrong closing code",
        Place::Of12(|it| off(it, Wrong::ClosingCode, 1)),
    ),
    (
        "the end of the stream for a lacking 13",
        Place::Of12(|it| (it.wrong == Wrong::EndLacking).then_some(it.stream)),
    ),
    (
        "the last unit for a lacking 13",
        Place::Of12(|it| off(it, Wrong::EndLacking, -1)),
    ),
];

const OF_ENTRIES: [(&str, Place); 8] = [
    ("the record", Place::Of13(|it| Some(it.of.row.header()))),
    (
        "the entry's index as bytes",
        Place::Of13(|it| Some(it.of.row.place as usize + it.nth)),
    ),
    (
        "marks of eight bytes",
        Place::Of13(|it| Some(it.of.row.place as usize + 8 * it.nth)),
    ),
    (
        "the entry after",
        Place::Of13(|it| Some(entry(it, it.nth + 1))),
    ),
    (
        "the entry by a header of four bytes",
        Place::Of13(|it| Some(it.of.row.header() + 4 + it.of.width * it.nth)),
    ),
    (
        "a mark's end above the count",
        Place::Of13(|it| {
            let above = it.of.end_above_count(it.nth);
            above.then_some(entry(it, it.nth) + 4)
        }),
    ),
    (
        "the earlier of two starts that do not rise",
        Place::Of13(|it| it.of.falls(it.nth).then(|| entry(it, it.nth - 1))),
    ),
    (
        "the entry that breaks another rule than the count's first",
        Place::Of13(|it| {
            let askew = it.of.first_askew().filter(|_| it.nth > 0);
            askew.map(|nth| entry(it, nth))
        }),
    ),
];

const OF_COUNTS: [(&str, Place); 6] = [
    ("record 17", Place::Of18(|it| Some(it.row.header()))),
    ("count 0", Place::Of18(|it| Some(count(it, 0)))),
    (
        "an unmatched group before a negative count",
        Place::Of18(|it| it.first_unmatched().map(|group| count(it, group.start))),
    ),
    (
        "counts of two bytes",
        Place::Of18(|it| {
            let unmatched = it.first_unmatched().map(|group| group.start);
            let nth = it.first_negative().or(unmatched)?;
            Some(it.row.place as usize + 2 * nth)
        }),
    ),
    (
        "the last of counts 1 to 7",
        Place::Of18(|it| {
            let group = it
                .first_unmatched()
                .filter(|_| it.first_negative().is_none());
            group.map(|group| count(it, group.end - 1))
        }),
    ),
    (
        "the first of counts 1 to 7 for a negative one",
        Place::Of18(|it| {
            let nth = it.first_negative().filter(|nth| (1..8).contains(nth));
            nth.map(|_| count(it, 1))
        }),
    ),
];

/// Whether some short case of the service tells the subject from the oracle.
fn caught(service: Service, place: Place) -> bool {
    (0..10).any(|part| {
        let from = 1000 * part + 501;
        run(service, 1, from, from + 499, &Misplaced(place)).differing > 0
    })
}

fn each_is_caught(wrong: &[(&str, Place)]) {
    for &(name, place) in wrong {
        for &service in place.services() {
            assert!(caught(service, place), "{service:?}: {name}");
        }
    }
}

/// The end of the longest stream is a place too, and the only one that 24 bits do not hold.
#[test]
fn places_of_24_bits_are_caught_in_long_cases() {
    let in_24_bits = [
        Place::Of2(|it| Some((it.at + it.left) % LIMIT)),
        Place::Of12(|it| (it.wrong == Wrong::EndLacking).then(|| it.row.end() % LIMIT)),
    ];
    for place in in_24_bits {
        let services = place.services().iter();
        for &service in services.filter(|service| **service != Service::Lister) {
            let mut long = (0..10).map(|which| 1000 * which + 250);
            let differs = |at| run(service, 1, at, at + 1, &Misplaced(place)).differing > 0;
            assert!(long.any(differs), "{service:?}");
        }
    }
}

#[test]
fn the_right_places_pass() {
    for place in RIGHT {
        for &service in place.services() {
            assert!(!caught(service, place), "{service:?}");
        }
    }
}

#[test]
fn each_wrong_place_of_2_and_3_is_caught() {
    each_is_caught(&OF_HEADERS);
}

#[test]
fn each_wrong_place_of_12_is_caught() {
    each_is_caught(&OF_TEXTS);
}

#[test]
fn each_wrong_place_of_13_is_caught() {
    each_is_caught(&OF_ENTRIES);
}

#[test]
fn each_wrong_place_of_18_is_caught() {
    each_is_caught(&OF_COUNTS);
}

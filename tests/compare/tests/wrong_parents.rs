//! Deliberately wrong parents in the three reads and in pack: the comparison catches each of them.

use compare::cases::packing::{LEVELS, PARENTS};
use compare::cases::trees::parents;
use compare::judge::{number_of, place_of};
use compare::lend::{Given, Room};
use compare::run::run;
use compare::service::Service;
use compare::subject::{Kind, Lists, Oracle, Subject, Table};
use oracle::answer;

type Read = Box<dyn Fn(Kind, Given<u8>, Lists) -> u64>;
type Pack = Box<dyn Fn(u64, Table, Given<u8>, Room<u8>) -> u64>;

/// The oracle but for one read or for pack.
struct Wrong {
    read: Read,
    pack: Pack,
}

impl Wrong {
    fn read(read: Read) -> Wrong {
        let pack = |count, lists, bytes, out| Oracle.pack(count, lists, bytes, out);
        let pack = Box::new(pack);
        Wrong { read, pack }
    }

    fn pack(pack: Pack) -> Wrong {
        let read = |kind, stream, lists| Oracle.read(kind, stream, lists);
        let read = Box::new(read);
        Wrong { read, pack }
    }
}

impl Subject for Wrong {
    fn read(&self, kind: Kind, stream: Given<u8>, lists: Lists) -> u64 {
        (self.read)(kind, stream, lists)
    }

    fn pack(&self, count: u64, lists: Table, bytes: Given<u8>, out: Room<u8>) -> u64 {
        (self.pack)(count, lists, bytes, out)
    }

    fn check(&self, section: Given<u8>) -> u64 {
        Oracle.check(section)
    }

    fn field_text(&self, section: Given<u8>, id: u32) -> u64 {
        Oracle.field_text(section, id)
    }

    fn fill(&self, section: Given<u8>, id: u32, value: Given<u8>, sheet: Room<u8>) -> u64 {
        Oracle.fill(section, id, value, sheet)
    }

    fn list(&self, input: &[u8], most: usize) -> Vec<u8> {
        Oracle.list(input, most)
    }
}

/// The parent that is taken for a record's: its index, the levels and the right parents.
type Rule = fn(usize, &[u32], &[u32]) -> u32;

const RIGHT: Rule = |index, _, right| right[index];

const WRONG_RULES: [(&str, Rule); 4] = [
    ("the record before", |index, levels, right| {
        match levels[index] {
            0 => right[index],
            _ => index.saturating_sub(1) as u32,
        }
    }),
    ("the parent's parent", |index, _, right| {
        right[right[index] as usize]
    }),
    ("its own index below level 0", |index, _, _| index as u32),
    ("0 at level 0", |index, levels, right| match levels[index] {
        0 => 0,
        _ => right[index],
    }),
];

fn by_rule(levels: &[u32], rule: Rule) -> Vec<u32> {
    let right = parents(levels);
    let parent = |index| rule(index, levels, &right);
    (0..levels.len()).map(parent).collect()
}

/// A read that writes the parents of a rule.
fn read_by(rule: Rule) -> Read {
    Box::new(move |kind, stream, lists| {
        let found = Oracle.read(kind, stream, lists);
        if number_of(found) == 0 {
            let count = place_of(found);
            // SAFETY: the comparator lends the memory for the length of the call.
            let (levels, parents) = unsafe { (lists[LEVELS].slice(), lists[PARENTS].slice()) };
            parents[..count].copy_from_slice(&by_rule(&levels[..count], rule));
        }
        found
    })
}

/// A read that takes the room of the first four lists, and writes as many parents as fit.
fn read_uncounted() -> Read {
    Box::new(|kind, stream, mut lists| {
        // SAFETY: as above.
        let lent = unsafe { lists[PARENTS].slice() };
        let mut long = lent.to_vec();
        long.resize(lists[LEVELS].length.max(lent.len()), 0);
        lists[PARENTS] = Room::of(&mut long);
        let found = Oracle.read(kind, stream, lists);
        lent.copy_from_slice(&long[..lent.len()]);
        found
    })
}

/// A read that writes one parent more: behind as many as the answer and the list say.
fn read_that_writes(at: fn(u64, usize) -> Option<usize>) -> Read {
    Box::new(move |kind, stream, lists| {
        let found = Oracle.read(kind, stream, lists);
        let parents = lists[PARENTS];
        if let Some(index) = at(found, parents.length) {
            // SAFETY: a fault on purpose, inside the list or the guard.
            unsafe { *parents.pointer.add(index) ^= 1 };
        }
        found
    })
}

fn wrong_reads() -> Vec<(&'static str, Read)> {
    let past_the_records = |found, length| {
        let count = place_of(found);
        (number_of(found) == 0 && count < length).then_some(count)
    };
    let mut reads: Vec<(&str, Read)> = vec![
        ("the parents are not counted in room", read_uncounted()),
        ("past the records", read_that_writes(past_the_records)),
        ("past the list", read_that_writes(|_, length| Some(length))),
        (
            "on a refusal",
            read_that_writes(|found, length| (number_of(found) > 0 && length > 0).then_some(0)),
        ),
    ];
    reads.extend(WRONG_RULES.map(|(name, rule)| (name, read_by(rule))));
    reads
}

/// The oracle's pack over other parents: those made of the count of records, their levels and the parents given.
fn pack_over(other: impl Fn(usize, &[u32], &[u32]) -> Vec<u32> + 'static) -> Pack {
    Box::new(move |count, mut lists, bytes, out| {
        // SAFETY: as above.
        let (levels, given) = unsafe { (lists[LEVELS].slice(), lists[PARENTS].slice()) };
        let records = levels.len().min(count.min(1 << 32) as usize);
        let parents = other(records, &levels[..records], given);
        lists[PARENTS] = Given::of(&parents);
        Oracle.pack(count, lists, bytes, out)
    })
}

/// A pack that takes parents of another rule for right, and no others.
fn pack_by(rule: Rule) -> Pack {
    pack_over(move |_, levels, given| {
        let (asked, right) = (by_rule(levels, rule), parents(levels));
        let judged = |(index, &given): (usize, &u32)| match (asked.get(index), right.get(index)) {
            (Some(&asked), Some(&right)) if given == asked => right,
            (_, Some(&right)) => right.wrapping_add(1),
            _ => given,
        };
        given.iter().enumerate().map(judged).collect()
    })
}

/// A pack that asks nothing of the parents but how many they are.
fn pack_unchecked() -> Pack {
    pack_over(|_, levels, given| {
        let right = parents(levels).into_iter().chain([0; 4]);
        right.take(given.len()).collect()
    })
}

/// A pack that does not ask how many parents there are.
fn pack_uncounted() -> Pack {
    pack_over(|records, levels, given| {
        let mut parents = parents(levels);
        let kept = records.min(given.len());
        parents[..kept].copy_from_slice(&given[..kept]);
        parents
    })
}

/// A pack that gives 28 for records to which the oracle gives this number.
fn pack_28_before(number: u8) -> Pack {
    Box::new(move |count, lists, bytes, out| {
        let found = Oracle.pack(count, lists, bytes, out);
        let index = place_of(found);
        if number_of(found) != number {
            return found;
        }
        // SAFETY: as above.
        let (levels, given) = unsafe { (lists[LEVELS].slice(), lists[PARENTS].slice()) };
        match parents(&levels[..=index])[index] == given[index] {
            true => found,
            false => answer(28, index, 0),
        }
    })
}

/// A pack that judges a record's body before its parent.
fn pack_28_after_4() -> Pack {
    Box::new(|count, lists, bytes, out| {
        let found = Oracle.pack(count, lists, bytes, out);
        let with_right_parents = pack_unchecked()(count, lists, bytes, Room::of(&mut []));
        let body = answer(4, place_of(found), 0);
        match number_of(found) == 28 && with_right_parents == body {
            true => body,
            false => found,
        }
    })
}

fn wrong_packs() -> Vec<(&'static str, Pack)> {
    let mut packs: Vec<(&str, Pack)> = vec![
        ("the parents are not checked", pack_unchecked()),
        ("the parents are not counted", pack_uncounted()),
        ("28 before 5", pack_28_before(5)),
        ("28 before 6", pack_28_before(6)),
        ("28 after 4", pack_28_after_4()),
    ];
    packs.extend(WRONG_RULES.map(|(name, rule)| (name, pack_by(rule))));
    packs
}

/// Whether some case tells the subject from the oracle.
fn caught(service: Service, subject: &dyn Subject) -> bool {
    let differs = |part: u64| run(service, 1, 200 * part, 200 * (part + 1), subject).differing > 0;
    (0..10).any(differs)
}

const READS: [Service; 3] = [Service::Read, Service::Section, Service::DocInfo];

#[test]
fn the_right_parents_pass() {
    for service in READS {
        assert!(
            !caught(service, &Wrong::read(read_by(RIGHT))),
            "{service:?}"
        );
    }
    assert!(!caught(Service::Pack, &Wrong::pack(pack_by(RIGHT))));
}

#[test]
fn each_wrong_read_is_caught() {
    for (name, read) in wrong_reads() {
        let subject = Wrong::read(read);
        for service in READS {
            assert!(caught(service, &subject), "{name}, {service:?}");
        }
    }
}

#[test]
fn each_wrong_pack_is_caught() {
    for (name, pack) in wrong_packs() {
        assert!(caught(Service::Pack, &Wrong::pack(pack)), "{name}");
    }
}

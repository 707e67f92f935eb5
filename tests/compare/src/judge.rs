//! One case: the subject's answer and every lent entry and byte against the oracle's.

use crate::lend::{Given, Lent, Pattern, Room};
use crate::subject::{answer_of_rows, rows_of, write_rows, Kind, Subject};
use oracle::answer::{answer, answer_of, answer_of_part};
use oracle::lister::{judged, listing};
use oracle::records::tile;
use oracle::{check, field_text, fill, pack, Row, LISTS};

/// One fill: id and value, two bytes for each unit.
#[derive(Clone, Debug)]
pub struct Filling {
    pub id: u32,
    pub value: Vec<u8>,
}

/// One call, or two fills in both orders.
#[derive(Clone, Debug)]
pub enum Case {
    Read {
        kind: Kind,
        stream: Vec<u8>,
        rooms: [usize; LISTS],
    },
    Pack {
        count: u64,
        lists: [Vec<u32>; LISTS],
        bytes: Vec<u8>,
        out: usize,
    },
    Check {
        section: Vec<u8>,
    },
    FieldText {
        section: Vec<u8>,
        id: u32,
    },
    Fill {
        section: Vec<u8>,
        filling: Filling,
        sheet: usize,
    },
    TwoFills {
        section: Vec<u8>,
        fillings: [Filling; 2],
        sheet: usize,
    },
    List {
        input: Vec<u8>,
        /// The most bytes that one read or write moves.
        most: usize,
    },
}

impl Case {
    /// The stream that the case is about; none of pack and of two fills, which make one.
    pub fn stream(&self) -> Option<&[u8]> {
        match self {
            Case::Read { stream, .. } => Some(stream),
            Case::Check { section }
            | Case::FieldText { section, .. }
            | Case::Fill { section, .. } => Some(section),
            Case::List { input, .. } => Some(input),
            Case::Pack { .. } | Case::TwoFills { .. } => None,
        }
    }
}

/// What a case showed: the oracle's number and place, the tag of the record with the place where several tags have the
/// number, and all differences.
#[derive(Debug, Default)]
pub struct Outcome {
    pub number: u8,
    pub place: usize,
    pub tag: Option<u32>,
    pub differences: Vec<String>,
}

impl Outcome {
    pub fn of(stream: &[u8], asked: u64, differences: Vec<String>) -> Outcome {
        Outcome {
            number: number_of(asked),
            place: place_of(asked),
            tag: tag_at(stream, asked),
            differences,
        }
    }
}

pub fn number_of(answer: u64) -> u8 {
    (answer & 255) as u8
}

pub fn place_of(answer: u64) -> usize {
    (answer >> 8 & ((1 << 28) - 1)) as usize
}

fn spell(answer: u64) -> String {
    let (number, place) = (number_of(answer), place_of(answer));
    format!("{number} at {place} further {}", answer >> 36)
}

fn same_answer(found: u64, asked: u64, differences: &mut Vec<String>) {
    if found != asked {
        let (found, asked) = (spell(found), spell(asked));
        differences.push(format!("answer {found}, expected {asked}"));
    }
}

fn same<T: Pattern>(name: &str, found: &Lent<T>, asked: &Lent<T>, differences: &mut Vec<String>) {
    if let Some(index) = found.first_difference(asked) {
        differences.push(format!("{name} differ first at {index}"));
    }
}

/// The tag of the record with the place of a refusal, for numbers that name records of several tags.
fn tag_at(stream: &[u8], answer: u64) -> Option<u32> {
    let (number, place) = (number_of(answer), place_of(answer));
    let absent = number == 16 && place == 0;
    let several = matches!(number, 9 | 11 | 13 | 16 | 17);
    if absent || !several {
        return None;
    }
    let rows = tile(stream).ok()?;
    let holds = |row: &&Row| row.header() <= place && place < row.end();
    rows.iter().find(holds).map(|row| row.tag)
}

pub const LIST_NAMES: [&str; LISTS] = ["tags", "levels", "places", "lengths", "parents"];

/// Packing the table that the subject wrote gives the stream back.
fn packs_back(
    stream: &Lent<u8>,
    count: usize,
    lists: &[Lent<u32>; LISTS],
    subject: &dyn Subject,
    differences: &mut Vec<String>,
) {
    let mut out = vec![0; stream.own().len()];
    let table = lists.each_ref().map(Lent::as_given);
    let room = Room::of(&mut out);
    let told = subject.pack(count as u64, table, stream.as_given(), room);
    if told != answer(0, out.len(), 0) || out != stream.own() {
        differences.push("packing the table does not give the stream back".to_string());
    }
}

fn judge_read(
    kind: Kind,
    stream: &[u8],
    rooms: [usize; LISTS],
    shift: usize,
    subject: &dyn Subject,
) -> Outcome {
    let result = rows_of(kind, stream, rooms.into_iter().min().unwrap_or(0));
    let asked = answer_of_rows(&result);
    let given = Lent::given(stream, shift);
    let mut lists = rooms.map(|room| Lent::<u32>::room(room, shift));
    let found = subject.read(kind, given.as_given(), lists.each_mut().map(Lent::as_room));

    let mut differences = Vec::new();
    same_answer(found, asked, &mut differences);
    let mut expected = rooms.map(|room| Lent::<u32>::room(room, shift));
    if let Ok(rows) = &result {
        write_rows(rows, expected.each_mut().map(Lent::own_mut));
    }
    for (name, (list, expected)) in LIST_NAMES.iter().zip(lists.iter().zip(&expected)) {
        same(name, list, expected, &mut differences);
    }
    let untouched = Lent::given(stream, shift);
    same("stream bytes", &given, &untouched, &mut differences);
    if let (Ok(rows), true) = (&result, found == asked) {
        packs_back(&given, rows.len(), &lists, subject, &mut differences);
    }
    Outcome::of(stream, asked, differences)
}

/// Reading what the subject packed gives tags, levels, lengths and parents back; the places are those of the stream.
fn reads_back(
    stream: &[u8],
    count: usize,
    lists: &[Vec<u32>; LISTS],
    subject: &dyn Subject,
    differences: &mut Vec<String>,
) {
    let mut found = [(); LISTS].map(|()| vec![0; count]);
    let rooms = found.each_mut().map(|list| Room::of(list));
    let told = subject.read(Kind::Records, Given::of(stream), rooms);
    let named = LIST_NAMES.iter().zip(found.iter().zip(lists));
    let mut kept = named.filter(|(&name, _)| name != "places");
    if told != answer(0, count, 0) || !kept.all(|(_, (found, given))| *found == given[..count]) {
        differences.push("reading what was packed does not give the table back".to_string());
    }
}

fn judge_pack(
    count: u64,
    lists: &[Vec<u32>; LISTS],
    bytes: &[u8],
    out: usize,
    shift: usize,
    subject: &dyn Subject,
) -> Outcome {
    let mut expected = Lent::<u8>::room(out, shift);
    let table = lists.each_ref().map(Vec::as_slice);
    let asked = answer_of(pack(count, table, bytes, expected.own_mut()));

    let given = lists.each_ref().map(|list| Lent::given(list, shift));
    let given_bytes = Lent::given(bytes, shift);
    let mut written = Lent::<u8>::room(out, shift);
    let found = subject.pack(
        count,
        given.each_ref().map(Lent::as_given),
        given_bytes.as_given(),
        written.as_room(),
    );

    let mut differences = Vec::new();
    same_answer(found, asked, &mut differences);
    same("out bytes", &written, &expected, &mut differences);
    for (name, (list, entries)) in LIST_NAMES.iter().zip(given.iter().zip(lists)) {
        same(name, list, &Lent::given(entries, shift), &mut differences);
    }
    let untouched = Lent::given(bytes, shift);
    same("lent bytes", &given_bytes, &untouched, &mut differences);
    if found == asked && number_of(found) == 0 {
        let stream = &written.own()[..place_of(found)];
        reads_back(stream, count as usize, lists, subject, &mut differences);
    }
    Outcome::of(&[], asked, differences)
}

/// A call that only reads a section.
fn judge_question(
    section: &[u8],
    asked: u64,
    shift: usize,
    call: impl Fn(&Lent<u8>) -> u64,
) -> Outcome {
    let given = Lent::given(section, shift);
    let found = call(&given);
    let mut differences = Vec::new();
    same_answer(found, asked, &mut differences);
    let untouched = Lent::given(section, shift);
    same("section bytes", &given, &untouched, &mut differences);
    Outcome::of(section, asked, differences)
}

/// What the subject says of a sheet that it made: check accepts it, and the field's text in it is the value.
fn read_back(
    sheet: &[u8],
    filling: &Filling,
    shift: usize,
    subject: &dyn Subject,
    differences: &mut Vec<String>,
) {
    let given = Lent::given(sheet, shift);
    if number_of(subject.check(given.as_given())) != 0 {
        differences.push("check refuses the sheet".to_string());
    }
    let told = subject.field_text(given.as_given(), filling.id);
    let (place, length) = (place_of(told), (told >> 36) as usize);
    let text = sheet.get(place..place + length);
    if number_of(told) != 0 || text != Some(filling.value.as_slice()) {
        differences.push("field text of the sheet is not the value".to_string());
    }
}

/// One fill; beside the outcome the sheet, or the number of the subject's refusal.
fn judge_fill(
    section: &[u8],
    filling: &Filling,
    sheet: usize,
    shift: usize,
    subject: &dyn Subject,
) -> (Outcome, Result<Vec<u8>, u8>) {
    let mut expected = Lent::<u8>::room(sheet, shift);
    let room = expected.own_mut();
    let asked = answer_of(fill(section, filling.id, &filling.value, room));

    let given = Lent::given(section, shift);
    let value = Lent::given(&filling.value, shift);
    let mut written = Lent::<u8>::room(sheet, shift);
    let (lent, room) = (given.as_given(), written.as_room());
    let found = subject.fill(lent, filling.id, value.as_given(), room);

    let mut differences = Vec::new();
    same_answer(found, asked, &mut differences);
    same("sheet bytes", &written, &expected, &mut differences);
    let untouched = Lent::given(section, shift);
    same("section bytes", &given, &untouched, &mut differences);
    let untouched = Lent::given(&filling.value, shift);
    same("value bytes", &value, &untouched, &mut differences);
    let result = match number_of(found) {
        0 => Ok(written.own()[..place_of(found).min(sheet)].to_vec()),
        number => Err(number),
    };
    if let Ok(made) = &result {
        read_back(made, filling, shift, subject, &mut differences);
    }
    (Outcome::of(section, asked, differences), result)
}

/// Two fills of different ids, each accepted alone, in both orders: the same bytes, or the one that fails is
/// stopped with 25 or 26. The number is that of the first order that is stopped.
fn judge_two_fills(
    section: &[u8],
    fillings: &[Filling; 2],
    sheet: usize,
    shift: usize,
    subject: &dyn Subject,
) -> Outcome {
    let mut all = Outcome::default();
    let mut ends = Vec::new();
    let mut alone = true;
    for [one, other] in [[0, 1], [1, 0]] {
        let (outcome, first) = judge_fill(section, &fillings[one], sheet, shift, subject);
        all.differences.extend(outcome.differences);
        let Ok(middle) = first else {
            alone = false;
            all.number = outcome.number;
            continue;
        };
        let (outcome, end) = judge_fill(&middle, &fillings[other], sheet, shift, subject);
        all.differences.extend(outcome.differences);
        if all.number == 0 {
            all.number = outcome.number;
        }
        ends.push(end);
    }
    if alone {
        let stopped = |end: &Result<Vec<u8>, u8>| matches!(end, Err(25 | 26));
        let agree = match (&ends[0], &ends[1]) {
            (Ok(first), Ok(second)) => first == second,
            (first, second) => {
                (stopped(first) || first.is_ok()) && (stopped(second) || second.is_ok())
            }
        };
        if !agree {
            all.differences
                .push("the two orders of two fills disagree".to_string());
        }
    }
    all
}

fn same_text(found: &[u8], asked: &str, differences: &mut Vec<String>) {
    if found == asked.as_bytes() {
        return;
    }
    let found = String::from_utf8_lossy(found);
    let [mut found, mut asked] = [&found, asked].map(|text| text.split_inclusive('\n'));
    let mut number = 1;
    loop {
        let (found, asked) = (found.next(), asked.next());
        if found != asked || asked.is_none() {
            differences.push(format!("line {number} is {found:?}, expected {asked:?}"));
            return;
        }
        number += 1;
    }
}

/// The lister: every byte that it prints.
fn judge_list(input: &[u8], most: usize, subject: &dyn Subject) -> Outcome {
    let judged = judged(input);
    let mut differences = Vec::new();
    same_text(
        &subject.list(input, most),
        &listing(&judged),
        &mut differences,
    );
    let asked = answer_of(judged.map(|section| section.rows.len()));
    Outcome::of(input, asked, differences)
}

/// Puts a case to the subject.
pub fn judge(case: &Case, shift: usize, subject: &dyn Subject) -> Outcome {
    match case {
        Case::Read {
            kind,
            stream,
            rooms,
        } => judge_read(*kind, stream, *rooms, shift, subject),
        Case::Pack {
            count,
            lists,
            bytes,
            out,
        } => judge_pack(*count, lists, bytes, *out, shift, subject),
        Case::Check { section } => {
            judge_question(section, answer_of(check(section)), shift, |given| {
                subject.check(given.as_given())
            })
        }
        Case::FieldText { section, id } => {
            let asked = answer_of_part(field_text(section, *id));
            judge_question(section, asked, shift, |given| {
                subject.field_text(given.as_given(), *id)
            })
        }
        Case::Fill {
            section,
            filling,
            sheet,
        } => judge_fill(section, filling, *sheet, shift, subject).0,
        Case::TwoFills {
            section,
            fillings,
            sheet,
        } => judge_two_fills(section, fillings, *sheet, shift, subject),
        Case::List { input, most } => judge_list(input, *most, subject),
    }
}

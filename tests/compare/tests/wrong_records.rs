//! Deliberately wrong reads and packs: the comparison catches each of them.

use compare::cases::trees::parents;
use compare::lend::{Given, Room};
use compare::run::run;
use compare::service::Service;
use compare::subject::{Kind, Lists, Oracle, Subject, Table};
use oracle::answer;
use oracle::records::{header_of, word};
use oracle::{LIMIT, LISTS};

/// What a wrong read does.
#[derive(Clone, Copy, Debug, PartialEq)]
enum Read {
    Right,
    Takes4095AsPlainSize,
    TakesLongLength4094,
    TakesJumpsOfTwo,
    TakesAnyFirstLevel,
    TakesTag15,
    TakesOneByteOverTheLimit,
    RefusesTheLimitItself,
    TakesABodyOneBytePastTheEnd,
    JudgesLevelBeforeTag,
    JudgesLongCutBeforeTag,
    JudgesBodyBeforeLongLength,
    GivesHeaderPlaces,
    GivesSevenWhereItIsMet,
    TakesRoomOfTheTagsAlone,
    NamesTheLastForSeven,
    AnswersOneRecordMore,
    WritesOneEntryPastTheRecords,
    WritesOneEntryPastTheList,
    WritesBeforeItJudges,
    WritesIntoTheStream,
    LeavesTheLastLength,
    GivesAFurtherNumber,
}

fn wrong_read(wrong: Read, stream: Given<u8>, lists: Lists) -> u64 {
    // SAFETY: the comparator lends the memory for the length of the call.
    let bytes = unsafe { stream.slice() };
    if wrong == Read::WritesIntoTheStream && !bytes.is_empty() {
        // SAFETY: a fault on purpose, inside the lent memory.
        unsafe { *stream.pointer.cast_mut() ^= 1 };
        return Oracle.read(Kind::Records, stream, lists);
    }
    let limit = match wrong {
        Read::TakesOneByteOverTheLimit => LIMIT + 1,
        Read::RefusesTheLimitItself => LIMIT - 1,
        _ => LIMIT,
    };
    if bytes.len() > limit {
        return answer(1, 0, 0);
    }
    // SAFETY: as above.
    let own = lists.map(|list| unsafe { list.slice() });
    let room = match wrong {
        Read::TakesRoomOfTheTagsAlone => own[0].len(),
        _ => own.iter().map(|list| list.len()).min().unwrap(),
    };
    let mut rows: Vec<[usize; 4]> = Vec::new();
    let mut headers = Vec::new();
    let mut at = 0;
    while at < bytes.len() {
        match wrong_record(wrong, bytes, at, rows.last().map(|row| row[1])) {
            Err((number, place)) => return answer(number, place, 0),
            Ok(row) => {
                if wrong == Read::GivesSevenWhereItIsMet && rows.len() == room {
                    return answer(7, at, 0);
                }
                if wrong == Read::WritesBeforeItJudges && rows.len() < room {
                    own[0][rows.len()] = row[0] as u32;
                }
                headers.push(at);
                at = row[2] + row[3];
                rows.push(row);
            }
        }
    }
    if rows.len() > room {
        let named = match wrong {
            Read::NamesTheLastForSeven => rows.len() - 1,
            _ => room,
        };
        return answer(7, headers[named], 0);
    }
    let levels: Vec<u32> = rows.iter().map(|row| row[1] as u32).collect();
    let parents = parents(&levels);
    for (index, &[tag, level, place, length]) in rows.iter().enumerate() {
        let place = match wrong {
            Read::GivesHeaderPlaces => headers[index],
            _ => place,
        };
        let entries = [tag, level, place, length, parents[index] as usize];
        for (nth, list) in lists.iter().enumerate() {
            let last = nth == 3 && index + 1 == rows.len();
            if index >= list.length || (wrong == Read::LeavesTheLastLength && last) {
                continue;
            }
            // SAFETY: inside the list.
            unsafe { *list.pointer.add(index) = entries[nth] as u32 };
        }
    }
    let past = match wrong {
        Read::WritesOneEntryPastTheRecords if rows.len() < lists[1].length => Some(rows.len()),
        Read::WritesOneEntryPastTheList => Some(lists[1].length),
        _ => None,
    };
    if let Some(index) = past {
        // SAFETY: a fault on purpose, inside the guard.
        unsafe { *lists[1].pointer.add(index) = 0 };
    }
    let more = usize::from(wrong == Read::AnswersOneRecordMore);
    let further = usize::from(wrong == Read::GivesAFurtherNumber);
    answer(0, rows.len() + more, further)
}

fn wrong_record(
    wrong: Read,
    bytes: &[u8],
    at: usize,
    before: Option<usize>,
) -> Result<[usize; 4], (u8, usize)> {
    let rest = bytes.len() - at;
    if rest < 4 {
        return Err((2, bytes.len()));
    }
    let header = word(bytes, at) as usize;
    let (tag, level, size) = (header % 1024, header / 1024 % 1024, header >> 20);
    let highest = match (wrong, before) {
        (Read::TakesAnyFirstLevel, None) => 1023,
        (Read::TakesJumpsOfTwo, Some(before)) => before + 2,
        (_, before) => before.map_or(0, |before| before + 1),
    };
    let lowest = if wrong == Read::TakesTag15 { 15 } else { 16 };
    let mut faults = [(tag < lowest, 5), (level > highest, 6)];
    if wrong == Read::JudgesLevelBeforeTag {
        faults.reverse();
    }
    let long = size == 4095 && wrong != Read::Takes4095AsPlainSize;
    if wrong == Read::JudgesLongCutBeforeTag && long && rest < 8 {
        return Err((2, bytes.len()));
    }
    for (broken, number) in faults {
        if broken {
            return Err((number, at));
        }
    }
    if !long {
        let past = usize::from(wrong == Read::TakesABodyOneBytePastTheEnd);
        return if size > rest - 4 + past {
            Err((4, at))
        } else {
            Ok([tag, level, at + 4, size])
        };
    }
    if rest < 8 {
        return Err((2, bytes.len()));
    }
    let length = word(bytes, at + 4) as usize;
    let shortest = match wrong {
        Read::TakesLongLength4094 => 4094,
        _ => 4095,
    };
    let mut faults = [(length < shortest, 3, at + 4), (length > rest - 8, 4, at)];
    if wrong == Read::JudgesBodyBeforeLongLength {
        faults.reverse();
    }
    for (broken, number, place) in faults {
        if broken {
            return Err((number, place));
        }
    }
    Ok([tag, level, at + 8, length])
}

/// What a wrong pack does.
#[derive(Clone, Copy, Debug, PartialEq)]
enum Pack {
    Right,
    TakesAShortList,
    CutsTheCountTo32Bits,
    CutsTheTag,
    TakesTag15,
    TakesLevel1024,
    TakesAnyFirstLevel,
    WrapsPlaceAndLength,
    TakesAnEmptyBodyPastTheBytes,
    CutsTheTotalTo32Bits,
    JudgesBodyBeforeTag,
    JudgesLevelBeforeTag,
    JudgesBufferBeforeLimit,
    TakesOneByteOverTheLimit,
    RefusesTheLimitItself,
    LooksPastTheCount,
    WritesABodyOf4094Long,
    WritesOneBytePastTheEnd,
    WritesOneBytePastTheBuffer,
    WritesBeforeItJudges,
    NeedsOneByteMore,
    AnswersTheCount,
    NamesTheRecordAfter,
}

struct Packing<'a> {
    count: u64,
    lists: [&'a [u32]; LISTS],
    bytes: &'a [u8],
}

fn wrong_pack(wrong: Pack, case: Packing, out: Room<u8>) -> u64 {
    let [tags, levels, places, lengths, given_parents] = case.lists;
    let shortest = case.lists.iter().map(|list| list.len()).min().unwrap();
    let mut count = case.count;
    match wrong {
        Pack::CutsTheCountTo32Bits => count = count as u32 as u64,
        Pack::TakesAShortList => count = count.min(shortest as u64),
        _ => {}
    }
    if count > shortest as u64 {
        return answer(27, 0, 0);
    }
    let mut count = count as usize;
    if wrong == Pack::LooksPastTheCount {
        count = shortest;
    }
    // SAFETY: the comparator lends the memory for the length of the call.
    let room = unsafe { out.slice() };
    let parents = parents(&levels[..count]);
    let mut total = 0u64;
    let mut written = Vec::new();
    for index in 0..count {
        let tag = match wrong {
            Pack::CutsTheTag => tags[index] % 1024,
            _ => tags[index],
        };
        let (level, place, length) = (levels[index], places[index], lengths[index]);
        let highest = match (wrong, index) {
            (Pack::TakesAnyFirstLevel, 0) => 1023,
            (_, 0) => 0,
            (Pack::TakesLevel1024, _) => levels[index - 1] + 1,
            _ => (levels[index - 1] + 1).min(1023),
        };
        let end = match wrong {
            Pack::WrapsPlaceAndLength => u64::from(place.wrapping_add(length)),
            _ => u64::from(place) + u64::from(length),
        };
        let nothing = wrong == Pack::TakesAnEmptyBodyPastTheBytes && length == 0;
        let lowest = if wrong == Pack::TakesTag15 { 15 } else { 16 };
        let mut faults = [
            (!(lowest..=1023).contains(&tag), 5),
            (level > highest, 6),
            (given_parents[index] != parents[index], 28),
            (end > case.bytes.len() as u64 && !nothing, 4),
        ];
        match wrong {
            Pack::JudgesBodyBeforeTag => faults.rotate_right(1),
            Pack::JudgesLevelBeforeTag => faults.swap(0, 1),
            _ => {}
        }
        for (broken, number) in faults {
            if broken {
                let named = index + usize::from(wrong == Pack::NamesTheRecordAfter);
                return answer(number, named, 0);
            }
        }
        let mut header = header_of(tag, level, length);
        if wrong == Pack::WritesABodyOf4094Long && length == 4094 {
            header = header_of(tag, level, 4095);
            header[4..].copy_from_slice(&length.to_le_bytes());
        }
        total += header.len() as u64 + u64::from(length);
        if total <= 1 << 25 {
            let body = case.bytes.get(place as usize..).unwrap_or(&[]);
            written.extend_from_slice(&header);
            written.extend(body.iter().take(length as usize));
        }
        if wrong == Pack::WritesBeforeItJudges && !room.is_empty() {
            room[0] = header[0];
        }
    }
    if wrong == Pack::CutsTheTotalTo32Bits {
        total %= 1 << 32;
    }
    let limit = match wrong {
        Pack::TakesOneByteOverTheLimit => LIMIT + 1,
        Pack::RefusesTheLimitItself => LIMIT - 1,
        _ => LIMIT,
    };
    let needed = total + u64::from(wrong == Pack::NeedsOneByteMore);
    let mut faults = [(total > limit as u64, 1), (needed > room.len() as u64, 26)];
    if wrong == Pack::JudgesBufferBeforeLimit {
        faults.reverse();
    }
    for (broken, number) in faults {
        if broken {
            return answer(number, 0, 0);
        }
    }
    let length = written.len().min(total as usize);
    room[..length].copy_from_slice(&written[..length]);
    if wrong == Pack::WritesOneBytePastTheEnd && length < room.len() {
        room[length] = 0;
    }
    if wrong == Pack::WritesOneBytePastTheBuffer {
        // SAFETY: a fault on purpose, inside the guard.
        unsafe { *out.pointer.add(out.length) ^= 1 };
    }
    match wrong {
        Pack::AnswersTheCount => answer(0, count, 0),
        _ => answer(0, total as usize, 0),
    }
}

struct Wrong {
    read: Read,
    pack: Pack,
}

impl Subject for Wrong {
    fn read(&self, _: Kind, stream: Given<u8>, lists: Lists) -> u64 {
        wrong_read(self.read, stream, lists)
    }

    fn pack(&self, count: u64, lists: Table, bytes: Given<u8>, out: Room<u8>) -> u64 {
        // SAFETY: the comparator lends the memory for the length of the call.
        let (lists, bytes) = unsafe { (lists.map(|list| list.slice()), bytes.slice()) };
        let case = Packing {
            count,
            lists,
            bytes,
        };
        wrong_pack(self.pack, case, out)
    }

    fn check(&self, section: Given<u8>) -> u64 {
        Oracle.check(section)
    }

    fn field_text(&self, section: Given<u8>, id: u32) -> u64 {
        Oracle.field_text(section, id)
    }

    fn fill(&self, section: Given<u8>, id: u32, value: Given<u8>, sheet: Room<u8>) -> u64 {
        Oracle.fill(section, id, value, sheet)
    }

    fn list(&self, input: &[u8], most: usize) -> Vec<u8> {
        Oracle.list(input, most)
    }
}

/// Whether some case tells the subject from the oracle: first short cases, then one long case of each kind.
fn caught(service: Service, subject: &dyn Subject) -> bool {
    let short = run(service, 1, 0, 400, subject).differing > 0;
    short || run(service, 1, 2000, 2400, subject).differing > 0 || {
        let mut long = (0..10).map(|which| 1000 * which + 500);
        long.any(|index| run(service, 1, index, index + 1, subject).differing > 0)
    }
}

#[test]
fn the_oracle_and_the_right_copy_pass() {
    let right = Wrong {
        read: Read::Right,
        pack: Pack::Right,
    };
    for subject in [&Oracle as &dyn Subject, &right] {
        for service in [Service::Read, Service::Pack] {
            assert!(!caught(service, subject), "{service:?}");
        }
    }
}

#[test]
fn each_wrong_read_is_caught() {
    use Read::*;
    for read in [
        Takes4095AsPlainSize,
        TakesLongLength4094,
        TakesJumpsOfTwo,
        TakesAnyFirstLevel,
        TakesTag15,
        TakesOneByteOverTheLimit,
        RefusesTheLimitItself,
        TakesABodyOneBytePastTheEnd,
        JudgesLevelBeforeTag,
        JudgesLongCutBeforeTag,
        JudgesBodyBeforeLongLength,
        GivesHeaderPlaces,
        GivesSevenWhereItIsMet,
        TakesRoomOfTheTagsAlone,
        NamesTheLastForSeven,
        AnswersOneRecordMore,
        WritesOneEntryPastTheRecords,
        WritesOneEntryPastTheList,
        WritesBeforeItJudges,
        WritesIntoTheStream,
        LeavesTheLastLength,
        GivesAFurtherNumber,
    ] {
        let pack = Pack::Right;
        assert!(caught(Service::Read, &Wrong { read, pack }), "{read:?}");
    }
}

#[test]
fn each_wrong_pack_is_caught() {
    use Pack::*;
    for pack in [
        TakesAShortList,
        CutsTheCountTo32Bits,
        CutsTheTag,
        TakesTag15,
        TakesLevel1024,
        TakesAnyFirstLevel,
        WrapsPlaceAndLength,
        TakesAnEmptyBodyPastTheBytes,
        CutsTheTotalTo32Bits,
        JudgesBodyBeforeTag,
        JudgesLevelBeforeTag,
        JudgesBufferBeforeLimit,
        TakesOneByteOverTheLimit,
        RefusesTheLimitItself,
        LooksPastTheCount,
        WritesABodyOf4094Long,
        WritesOneBytePastTheEnd,
        WritesOneBytePastTheBuffer,
        WritesBeforeItJudges,
        NeedsOneByteMore,
        AnswersTheCount,
        NamesTheRecordAfter,
    ] {
        let read = Read::Right;
        assert!(caught(Service::Pack, &Wrong { read, pack }), "{pack:?}");
    }
}

#[test]
fn a_run_of_few_cases_says_what_it_did_not_reach() {
    let tally = run(Service::Read, 1, 0, 3, &Oracle);
    assert!(tally.missed(Service::Read).contains(&"1".to_string()));
}

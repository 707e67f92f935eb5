//! Answers: a refusal has a number and a place, and the host sees one unsigned 64-bit number.

#[derive(Clone, Copy, Debug, PartialEq, Eq)]
pub struct Refusal {
    pub number: u8,
    pub place: usize,
}

pub fn refuse<T>(number: u8, place: usize) -> Result<T, Refusal> {
    Err(Refusal { number, place })
}

/// Refuses with `number` at `place` unless the rule holds.
pub fn demand(holds: bool, number: u8, place: usize) -> Result<(), Refusal> {
    if holds {
        Ok(())
    } else {
        refuse(number, place)
    }
}

/// The host's form: the number, 256 times the place, 2 to the power 36 times the further number.
pub fn answer(number: u8, place: usize, further: usize) -> u64 {
    u64::from(number) + ((place as u64) << 8) + ((further as u64) << 36)
}

/// The host's form of a service that has no further number.
pub fn answer_of(result: Result<usize, Refusal>) -> u64 {
    match result {
        Ok(place) => answer(0, place, 0),
        Err(refusal) => answer(refusal.number, refusal.place, 0),
    }
}

/// The host's form of field text.
pub fn answer_of_part(result: Result<(usize, usize), Refusal>) -> u64 {
    match result {
        Ok((place, length)) => answer(0, place, length),
        Err(refusal) => answer(refusal.number, refusal.place, 0),
    }
}

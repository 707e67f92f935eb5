//! Text: the units of a paragraph, ordinary or controls, and the rules of table 6.

use crate::records::half;

#[derive(Clone, Copy, Debug, PartialEq, Eq)]
pub enum Class {
    One,
    Inline,
    Extended,
}

#[derive(Clone, Copy, Debug, PartialEq, Eq)]
pub enum Stands {
    Ordinary(u16),
    Control(Class, u16),
}

/// How a text breaks the rules.
#[derive(Clone, Copy, Debug, PartialEq, Eq)]
pub enum Wrong {
    Zero,
    EndBeforeTheEnd,
    ControlCutShort,
    ClosingCode,
    EndLacking,
}

/// How the rules are broken, and the position of the unit that breaks them; it is behind the last unit where 13 lacks.
#[derive(Clone, Copy, Debug, PartialEq, Eq)]
pub struct Fault {
    pub wrong: Wrong,
    pub at: usize,
}

fn fault<T>(wrong: Wrong, at: usize) -> Result<T, Fault> {
    Err(Fault { wrong, at })
}

/// A good step of a walk: where it stood and what stands there.
#[derive(Clone, Copy, Debug, PartialEq, Eq)]
pub struct Step {
    pub at: usize,
    pub stands: Stands,
}

pub const END: u16 = 13;
pub const FIELD: u16 = 3;
pub const FIELD_END: u16 = 4;
const EIGHT: usize = 8;

/// The class of a unit below 32; unit 0 has none.
fn class_of(code: u16) -> Option<Class> {
    match code {
        10 | 13 | 24..=31 => Some(Class::One),
        4..=9 | 19 | 20 => Some(Class::Inline),
        1..=3 | 11 | 12 | 14..=18 | 21..=23 => Some(Class::Extended),
        _ => None,
    }
}

/// A walk over the bytes of a text, from a position on.
pub struct Walk<'a> {
    text: &'a [u8],
    position: usize,
}

pub fn walk(text: &[u8]) -> Walk<'_> {
    walk_from(text, 0)
}

pub fn walk_from(text: &[u8], position: usize) -> Walk<'_> {
    Walk { text, position }
}

impl Walk<'_> {
    fn unit(&self, position: usize) -> u16 {
        half(self.text, 2 * position)
    }

    fn units(&self) -> usize {
        self.text.len() / 2
    }

    /// An eight-unit control is whole and ends with its own code.
    fn closed(&self, code: u16) -> Result<(), Fault> {
        let last = self.position + EIGHT - 1;
        if last >= self.units() {
            return fault(Wrong::ControlCutShort, self.position);
        }
        if self.unit(last) != code {
            return fault(Wrong::ClosingCode, last);
        }
        Ok(())
    }

    /// What stands at the present position, and how many positions it takes.
    fn look(&self) -> Result<(Stands, usize), Fault> {
        let unit = self.unit(self.position);
        if unit >= 32 {
            return Ok((Stands::Ordinary(unit), 1));
        }
        let Some(class) = class_of(unit) else {
            return fault(Wrong::Zero, self.position);
        };
        let stands = Stands::Control(class, unit);
        if class == Class::One {
            return Ok((stands, 1));
        }
        self.closed(unit)?;
        Ok((stands, EIGHT))
    }
}

impl Iterator for Walk<'_> {
    type Item = Result<Step, Fault>;

    /// The walk ends behind a fault: the text cannot be read on from there.
    fn next(&mut self) -> Option<Result<Step, Fault>> {
        if self.position >= self.units() {
            return None;
        }
        let at = self.position;
        let looked = self.look();
        self.position = looked.map_or(self.units(), |(_, width)| at + width);
        Some(looked.map(|(stands, _)| Step { at, stands }))
    }
}

/// The text rules: every unit can be read, and 13 stands at the end and only there.
/// Gives the codes of the extended controls where they hold.
pub fn text_rules(text: &[u8]) -> Result<Vec<u16>, Fault> {
    let mut codes = Vec::new();
    let units = text.len() / 2;
    let mut ended = false;
    for step in walk(text) {
        let Step { at, stands } = step?;
        match stands {
            Stands::Control(_, END) if at + 1 < units => return fault(Wrong::EndBeforeTheEnd, at),
            Stands::Control(_, END) => ended = true,
            Stands::Control(Class::Extended, code) => codes.push(code),
            _ => {}
        }
    }
    if !ended {
        return fault(Wrong::EndLacking, units);
    }
    Ok(codes)
}

/// The controls from a position on: position, class and code.
fn controls(text: &[u8], position: usize) -> impl Iterator<Item = (usize, Class, u16)> + '_ {
    let steps = walk_from(text, position).flatten();
    steps.filter_map(|step| match step.stands {
        Stands::Control(class, code) => Some((step.at, class, code)),
        Stands::Ordinary(_) => None,
    })
}

/// The extended controls in order: position and code.
pub fn extended(text: &[u8]) -> impl Iterator<Item = (usize, u16)> + '_ {
    let extended = controls(text, 0).filter(|(_, class, _)| *class == Class::Extended);
    extended.map(|(at, _, code)| (at, code))
}

/// The first unit below 32 from a position on, with its position.
pub fn next_control(text: &[u8], position: usize) -> Option<(usize, u16)> {
    let first = controls(text, position).next();
    first.map(|(at, _, code)| (at, code))
}

//! Lent memory: a list or buffer between two guards, all of it known before a call and compared after it.

/// What a call is handed for reading: a pointer and a number of entries.
#[derive(Clone, Copy)]
pub struct Given<T> {
    pub pointer: *const T,
    pub length: usize,
}

/// What a call is handed for writing.
#[derive(Clone, Copy)]
pub struct Room<T> {
    pub pointer: *mut T,
    pub length: usize,
}

impl<T> Given<T> {
    pub fn of(entries: &[T]) -> Given<T> {
        Given {
            pointer: entries.as_ptr(),
            length: entries.len(),
        }
    }

    /// # Safety
    /// The memory is lent for as long as the slice is used.
    pub unsafe fn slice<'a>(self) -> &'a [T] {
        std::slice::from_raw_parts(self.pointer, self.length)
    }
}

impl<T> Room<T> {
    pub fn of(entries: &mut [T]) -> Room<T> {
        Room {
            pointer: entries.as_mut_ptr(),
            length: entries.len(),
        }
    }

    /// # Safety
    /// The memory is lent for as long as the slice is used, and through nothing else.
    pub unsafe fn slice<'a>(self) -> &'a mut [T] {
        std::slice::from_raw_parts_mut(self.pointer, self.length)
    }
}

const GUARD: usize = 64;

/// Memory for one parameter of a call.
pub struct Lent<T> {
    memory: Vec<T>,
    from: usize,
    length: usize,
}

/// An entry that tells where it stands.
pub trait Pattern: Copy + PartialEq {
    fn at(index: usize) -> Self;
}

impl Pattern for u8 {
    fn at(index: usize) -> u8 {
        (index.wrapping_mul(167) ^ index >> 8) as u8 ^ 0xA5
    }
}

impl Pattern for u32 {
    fn at(index: usize) -> u32 {
        (index as u32).wrapping_mul(0x9E37_79B1) ^ 0xC3A5_5A3C
    }
}

impl<T: Pattern> Lent<T> {
    /// Room of a length, filled with the pattern; `shift` (below 8) moves where it starts.
    pub fn room(length: usize, shift: usize) -> Lent<T> {
        let memory = (0..length + 2 * GUARD).map(T::at).collect();
        let from = GUARD - shift;
        Lent {
            memory,
            from,
            length,
        }
    }

    /// A copy of what is given, between guards.
    pub fn given(entries: &[T], shift: usize) -> Lent<T> {
        let mut lent = Lent::room(entries.len(), shift);
        lent.set(entries);
        lent
    }

    /// Says that the first entries are these.
    pub fn set(&mut self, entries: &[T]) {
        self.memory[self.from..self.from + entries.len()].copy_from_slice(entries);
    }

    pub fn own(&self) -> &[T] {
        &self.memory[self.from..self.from + self.length]
    }

    pub fn own_mut(&mut self) -> &mut [T] {
        &mut self.memory[self.from..self.from + self.length]
    }

    pub fn as_given(&self) -> Given<T> {
        Given::of(self.own())
    }

    pub fn as_room(&mut self) -> Room<T> {
        Room::of(self.own_mut())
    }

    /// The first entry that differs from what is expected, counted from where the lent part starts.
    pub fn first_difference(&self, expected: &Lent<T>) -> Option<isize> {
        if self.memory == expected.memory {
            return None;
        }
        let pairs = self.memory.iter().zip(&expected.memory);
        let index = pairs.take_while(|(found, asked)| found == asked).count();
        Some(index as isize - self.from as isize)
    }
}

//! A table as it is lent, with guard entries on both sides: a call may write the lent entries
//! alone.

use std::fmt::Debug;

/// How many entries stand before and behind the lent ones.
const GUARD: usize = 16;

/// What a table may hold.
pub trait Entry: Copy + PartialEq + Debug {
    const GUARD_VALUE: Self;
}

impl Entry for u8 {
    const GUARD_VALUE: u8 = 0xA5;
}

impl Entry for u32 {
    const GUARD_VALUE: u32 = 0xA5C3_96E1;
}

impl Entry for u64 {
    const GUARD_VALUE: u64 = 0xA5C3_96E1_D2B4_8778;
}

#[derive(Clone)]
pub struct Lent<T> {
    buffer: Vec<T>,
}

impl<T: Entry> Lent<T> {
    pub fn new(content: &[T]) -> Self {
        let guard = [T::GUARD_VALUE; GUARD];
        Self {
            buffer: [&guard, content, &guard].concat(),
        }
    }

    pub fn len(&self) -> usize {
        self.buffer.len() - 2 * GUARD
    }

    pub fn is_empty(&self) -> bool {
        self.len() == 0
    }

    pub fn all(&self) -> &[T] {
        &self.buffer[GUARD..GUARD + self.len()]
    }

    pub fn all_mut(&mut self) -> &mut [T] {
        let end = GUARD + self.len();
        &mut self.buffer[GUARD..end]
    }

    /// Where the lent entries start; the guards lie in the same buffer, on both sides.
    pub fn start(&self) -> *const T {
        self.buffer.as_ptr().wrapping_add(GUARD)
    }

    pub fn start_mut(&mut self) -> *mut T {
        self.buffer.as_mut_ptr().wrapping_add(GUARD)
    }
}

/// Where two tables first differ, guards included: the index counted from the first lent entry.
pub trait Table {
    fn difference(&self, other: &Self) -> Option<String>;
}

impl<T: Entry> Table for Lent<T> {
    fn difference(&self, other: &Self) -> Option<String> {
        if self.buffer == other.buffer {
            return None;
        }
        let at = self
            .buffer
            .iter()
            .zip(&other.buffer)
            .position(|(a, b)| a != b)?;
        Some(format!(
            "entry {} of {} is {:?}, expected {:?}",
            at as i64 - GUARD as i64,
            self.len(),
            self.buffer[at],
            other.buffer[at]
        ))
    }
}

//! Memory lent to the library, with canaries on both sides.

use std::fmt::Debug;

/// How many canaries stand on each side.
const GUARD: usize = 32;

/// A number of a lent table, buffer or answer.
pub trait Number: Copy + PartialEq + Debug {
    /// One of many values that a record hardly has, by an index.
    fn odd(index: usize) -> Self;
}

macro_rules! number {
    ($($kind:ty)*) => {$(
        impl Number for $kind {
            fn odd(index: usize) -> $kind {
                (index as u64).wrapping_mul(0x9E37_79B9_7F4A_7C15).rotate_left(23) as $kind
            }
        }
    )*};
}

number!(u8 u16 i32 u64);

/// So many numbers that are known and mean nothing, as a caller's memory before a call.
pub fn filled<T: Number>(length: usize) -> Vec<T> {
    (0..length).map(|index| T::odd(index + 1)).collect()
}

/// Memory to lend, between canaries.
pub struct Lent<T> {
    memory: Vec<T>,
}

impl<T: Number> Lent<T> {
    pub fn of(content: &[T]) -> Lent<T> {
        let mut memory: Vec<T> = (0..GUARD).map(Self::canary).collect();
        memory.extend_from_slice(content);
        memory.extend((GUARD..2 * GUARD).map(Self::canary));
        Lent { memory }
    }

    pub fn filled(length: usize) -> Lent<T> {
        Lent::of(&filled(length))
    }

    fn canary(index: usize) -> T {
        T::odd(index + 1_000_003)
    }

    pub fn len(&self) -> usize {
        self.memory.len() - 2 * GUARD
    }

    pub fn content(&self) -> &[T] {
        &self.memory[GUARD..GUARD + self.len()]
    }

    /// Where the lent part starts.
    pub fn pointer(&self) -> *const T {
        self.memory[GUARD..].as_ptr()
    }

    /// Where the lent part starts, to write.
    pub fn pointer_mut(&mut self) -> *mut T {
        self.memory[GUARD..].as_mut_ptr()
    }

    /// Whether every canary is as it was.
    pub fn is_guarded(&self) -> bool {
        let behind = GUARD + self.len();
        (0..GUARD).all(|index| {
            self.memory[index] == Self::canary(index)
                && self.memory[behind + index] == Self::canary(GUARD + index)
        })
    }
}

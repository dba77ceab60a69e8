//! Lent memory between guard values, so that a write beyond it is seen.

/// How many guard values stand on either side.
const GUARDS: usize = 64;

/// A value that a fence is made of.
pub trait Guard: Copy + PartialEq {
    const GUARD: Self;
}

impl Guard for u8 {
    const GUARD: u8 = 0xA5;
}

impl Guard for u32 {
    const GUARD: u32 = 0xA5A5_A5A5;
}

/// A copy of what is lent, fenced.
pub struct Fenced<T> {
    memory: Vec<T>,
}

impl<T: Guard> Fenced<T> {
    pub fn new(lent: &[T]) -> Self {
        let mut memory = vec![T::GUARD; lent.len() + 2 * GUARDS];
        memory[GUARDS..GUARDS + lent.len()].copy_from_slice(lent);
        Fenced { memory }
    }

    pub fn lent(&self) -> &[T] {
        &self.memory[GUARDS..self.memory.len() - GUARDS]
    }

    pub fn lent_mut(&mut self) -> &mut [T] {
        let end = self.memory.len() - GUARDS;
        &mut self.memory[GUARDS..end]
    }

    /// Whether the guards stand as they were put.
    pub fn stands(&self) -> bool {
        let (before, rest) = self.memory.split_at(GUARDS);
        let after = &rest[rest.len() - GUARDS..];
        before.iter().chain(after).all(|value| *value == T::GUARD)
    }
}

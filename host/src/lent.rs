// Lent memory: filled with a pattern, with guards on both sides that are looked at after each call.

pub const GUARD: usize = 16;

/// A run of numbers or bytes that a call may write to, between two guards.
pub struct Lent<T> {
    cells: Vec<T>,
    length: usize,
}

pub trait Cell: Copy + PartialEq {
    fn pattern(index: usize) -> Self;
}

impl Cell for u32 {
    fn pattern(index: usize) -> u32 {
        0xA5C3_0000 ^ (index as u32).wrapping_mul(0x9E37_79B1)
    }
}

impl Cell for u8 {
    fn pattern(index: usize) -> u8 {
        (index as u8).wrapping_mul(0x9D) ^ 0xA5
    }
}

impl<T: Cell> Lent<T> {
    pub fn new(most: usize) -> Lent<T> {
        let cells = (0..most + 2 * GUARD).map(T::pattern).collect();
        Lent { cells, length: 0 }
    }

    /// The lent run, of this length; everything has the pattern before.
    pub fn lend(&mut self, length: usize) -> &mut [T] {
        let most = self.cells.len() - GUARD;
        let length = length.min(most - GUARD);
        self.length = length;
        &mut self.cells[GUARD..GUARD + length]
    }

    pub fn lent(&self) -> &[T] {
        &self.cells[GUARD..GUARD + self.length]
    }

    /// Whether only the first `used` of the lent run were changed, if any, and no guard.
    pub fn kept_beyond(&self, used: usize) -> bool {
        let behind = GUARD + used..GUARD + self.length + GUARD;
        let mut kept = (0..GUARD).chain(behind);
        kept.all(|index| self.cells[index] == T::pattern(index))
    }

    /// Gives the pattern back to whatever the last call was lent, guards too.
    pub fn restore(&mut self) {
        for index in 0..self.length + 2 * GUARD {
            self.cells[index] = T::pattern(index);
        }
    }
}

//! Buffers between guards. Each has an allocation of its own; while it is lent, memcheck lets nobody touch the guards, and at the
//! end they must hold what they held.

use crate::memcheck::{allow, forbid};

const GUARD: usize = 40;

/// What a guard holds at a place.
fn mark(place: usize) -> u8 {
    (place as u8).wrapping_mul(29) ^ 0xc3
}

pub struct Guarded {
    room: Vec<u8>,
    start: usize,
    end: usize,
}

impl Guarded {
    /// Bytes to lend, at an address that the shift moves.
    pub fn new(bytes: &[u8], shift: usize) -> Guarded {
        let start = GUARD + shift % 8;
        let end = start + bytes.len();
        let mut room: Vec<u8> = Vec::with_capacity(end + GUARD);
        room.extend((0..start).map(mark));
        room.extend(bytes);
        room.extend((end..end + GUARD).map(mark));
        forbid(&room[..start]);
        forbid(&room[end..]);
        Guarded { room, start, end }
    }

    pub fn lent(&self) -> &[u8] {
        &self.room[self.start..self.end]
    }

    pub fn lent_mut(&mut self) -> &mut [u8] {
        &mut self.room[self.start..self.end]
    }

    /// The bytes after the loan.
    pub fn back(self) -> Vec<u8> {
        let (before, rest) = self.room.split_at(self.start);
        let (lent, behind) = rest.split_at(self.end - self.start);
        allow(before);
        allow(behind);
        let stands = |(place, &byte): (usize, &u8)| mark(place) == byte;
        assert!(
            before.iter().enumerate().all(stands),
            "a byte before a buffer was written"
        );
        let behind_stands = (self.end..).zip(behind).all(stands);
        assert!(behind_stands, "a byte behind a buffer was written");
        lent.to_vec()
    }
}

const WORD: u64 = 0x5ac3_96e1_0f78_b42d;

/// A value to be given through a pointer, in its own allocation.
pub struct GuardedWord(Box<[u64; 5]>);

impl GuardedWord {
    /// It holds something that no answer is.
    pub fn new() -> GuardedWord {
        let room = Box::new([WORD; 5]);
        let word = GuardedWord(room);
        word.guards().iter().for_each(|g| forbid(g));
        word
    }

    fn guards(&self) -> [&[u8]; 2] {
        let bytes = |words: &[u64]| {
            // SAFETY: the bytes of words that live as long as the box.
            unsafe { std::slice::from_raw_parts(words.as_ptr().cast(), words.len() * 8) }
        };
        [bytes(&self.0[..2]), bytes(&self.0[3..])]
    }

    pub fn lent(&mut self) -> &mut u64 {
        &mut self.0[2]
    }

    pub fn back(self) -> u64 {
        self.guards().iter().for_each(|g| allow(g));
        let [a, b, value, c, d] = *self.0;
        assert_eq!([a, b, c, d], [WORD; 4], "a byte beside a value was written");
        value
    }
}

#[cfg(test)]
mod tests {
    use super::*;

    #[test]
    #[should_panic(expected = "a byte before a buffer was written")]
    fn a_byte_before_is_seen() {
        let mut lent = Guarded::new(&[1, 2, 3], 5);
        allow(&lent.room);
        lent.room[lent.start - 1] ^= 1;
        lent.back();
    }

    #[test]
    #[should_panic(expected = "a byte behind a buffer was written")]
    fn a_byte_behind_is_seen() {
        let mut lent = Guarded::new(&[1, 2, 3], 5);
        allow(&lent.room);
        lent.room[lent.end] ^= 1;
        lent.back();
    }

    #[test]
    #[should_panic(expected = "a byte beside a value was written")]
    fn a_word_beside_is_seen() {
        let mut word = GuardedWord::new();
        word.guards().iter().for_each(|g| allow(g));
        word.0[3] ^= 1;
        word.back();
    }

    /// What a memory checker must call an error: the command that runs these tests under one first sees that it does.
    #[test]
    #[ignore = "it reads a byte that it may not"]
    fn reads_a_guard() {
        let lent = Guarded::new(&[1, 2, 3], 5);
        assert!(crate::memcheck::running(), "there is nothing to see it");
        // SAFETY: the byte is a guard's, in the same allocation.
        let behind = unsafe { lent.lent().as_ptr().add(3).read_volatile() };
        assert_eq!(behind, mark(lent.end));
    }
}

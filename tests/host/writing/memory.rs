//! The memory of a call: its input and the lent buffer, with other bytes before, between and behind them, so that every
//! byte that a call has to keep is looked at.

use std::ops::Range;

use crate::random::Random;

/// Bytes before, between and behind.
const GUARD: usize = 16;

/// What may stand behind an input: a reader that goes too far finds the end of a line, or a whole item.
const BEHIND: [&[u8]; 5] = [b"", b"\n", b"0\n", b"C\t17\t16\n", b"A\0\0\0\0\0\0\0"];

/// The memory before a call, and where input and lent buffer stand in it.
#[derive(Clone)]
pub struct Before {
    pub memory: Vec<u8>,
    pub input: Range<usize>,
    pub lent: Range<usize>,
    /// What stands in *length; it is neither 0 nor the length of a text.
    pub length: usize,
    /// Whether a null pointer is given where there are no bytes.
    pub nulls: bool,
}

/// Number and length that a call answers, and the memory after it.
#[derive(PartialEq)]
pub struct After {
    pub number: u8,
    pub length: usize,
    pub memory: Vec<u8>,
}

impl Before {
    /// The input in any bytes, with a lent buffer of so many.
    pub fn random(input: &[u8], room: usize, random: &mut Random) -> Before {
        let mut memory = random_bytes(3 * GUARD + input.len() + room, random);
        let (input_start, lent_start) = match random.flip() {
            true => (GUARD, 2 * GUARD + input.len()),
            false => (2 * GUARD + room, GUARD),
        };
        let behind = [input, random.pick(&BEHIND)].concat();
        memory[input_start..][..behind.len()].copy_from_slice(&behind);
        let any = random.next() as usize | 1 << 40;
        Before {
            memory,
            input: input_start..input_start + input.len(),
            lent: lent_start..lent_start + room,
            length: random.pick(&[usize::MAX, any]),
            nulls: random.flip(),
        }
    }

    pub fn input(&self) -> &[u8] {
        &self.memory[self.input.clone()]
    }

    pub fn lent(&self) -> &[u8] {
        &self.memory[self.lent.clone()]
    }

    /// The memory with other bytes from the lent buffer's start on; they may go past its end.
    pub fn with(&self, bytes: &[u8]) -> Vec<u8> {
        let mut memory = self.memory.clone();
        memory[self.lent.start..][..bytes.len()].copy_from_slice(bytes);
        memory
    }
}

fn random_bytes(count: usize, random: &mut Random) -> Vec<u8> {
    let words = std::iter::repeat_with(|| random.next().to_le_bytes());
    words.flatten().take(count).collect()
}

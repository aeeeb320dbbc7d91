//! A pair on which other calls stand between the clocks of a line (allowed_noise.rs), as document 01 allows: 'refused
//! writes of any register may stand in the list. Calls on the record that later requests add, unless they reset, may
//! stand in it too, one that passes clocks as a run.'

use crate::call::Call;
use crate::frames::Program;
use crate::held::Holder;
use crate::model::layout::RECEIVING;
use crate::model::usart::MPCM;
use crate::model::{address, level, number};
use crate::pair::Pair;
use crate::random::Random;
use crate::tally::Tally;

/// Clocks between two other calls.
const MOST_CLOCKS: u64 = 50;
/// Registers whose reads take no frame.
const READ: [u16; 8] = [
    address::UCSR0A,
    address::UCSR0B,
    address::UCSR0C,
    address::UBRR0L,
    address::UBRR0H,
    address::SPCR,
    address::SPSR,
    address::SPDR,
];
/// Registers that are written: the SPI's, and UDR0, which is the sender's.
const WRITTEN: [u16; 5] = [
    address::UDR0,
    address::SPCR,
    address::SPSR,
    address::SPDR,
    address::DDRB,
];
/// UPM 01, which is reserved, and the bits of UPM.
const UPM_RESERVED: u8 = 0x10;
const UPM: u8 = 0x30;

pub struct Interrupted {
    pair: Pair,
    random: Random,
    /// Calls that stood between clocks, beside reads and looks.
    pub calls: u64,
}

impl Interrupted {
    pub fn new(pair: Pair, seed: u64) -> Interrupted {
        Interrupted {
            pair,
            random: Random::new(seed),
            calls: 0,
        }
    }

    /// A call that no frame of the line may depend on.
    fn call(&mut self, tally: &mut Tally) -> Result<(), String> {
        let value = self.random.byte();
        let call = match self.random.below(5) {
            0 => Call::Read {
                address: self.random.pick(&READ),
            },
            1 => Call::Write {
                address: self.random.pick(&WRITTEN),
                value,
            },
            2 => Call::TakeVector { vector: value & 3 },
            3 => Call::Run {
                levels: &[level::ILLEGAL],
                outputs_len: 1,
            },
            _ => return self.write_refused(value, tally),
        };
        self.pair.call(call, tally)?;
        Ok(())
    }

    /// A write of a serial register that must be refused, by 2, 3, or by 4 while a frame is being received.
    fn write_refused(&mut self, value: u8, tally: &mut Tally) -> Result<(), String> {
        let ubrr = match self.pair.record[RECEIVING] {
            1 => (address::UBRR0L, value),
            _ => (address::UBRR0H, value | 0xF0),
        };
        let (address, value) = self.random.pick(&[
            (address::UCSR0A, value | MPCM),
            (address::UCSR0C, value & !UPM | UPM_RESERVED),
            ubrr,
        ]);
        match self
            .pair
            .call(Call::Write { address, value }, tally)?
            .number
        {
            number::DONE => Err(format!("done: write {value:02x} to {address:02x}")),
            _ => Ok(()),
        }
    }

    /// Holds each stretch of one level on RxD. The other pins may carry anything: here each keeps its level.
    fn hold(&mut self, levels: &[u8], tally: &mut Tally) -> Result<(), String> {
        let others = self.random.byte() & !(level::ILLEGAL | level::RXD);
        for stretch in levels.chunk_by(|one, other| (one ^ other) & level::RXD == 0) {
            let level = stretch[0] & level::RXD | others;
            self.pair.hold(level, stretch.len() as u32, tally)?;
        }
        Ok(())
    }
}

impl Program for Interrupted {
    fn pass_levels(&mut self, levels: &[u8], tally: &mut Tally) -> Result<(), String> {
        let mut rest = levels;
        while !rest.is_empty() {
            self.call(tally)?;
            self.calls += 1;
            let clocks = self.random.between(1, MOST_CLOCKS) as usize;
            let (piece, left) = rest.split_at(clocks.min(rest.len()));
            match self.random.flip() {
                true => self.hold(piece, tally)?,
                false => self.pair.pass_levels(piece, tally)?,
            }
            rest = left;
        }
        Ok(())
    }

    fn read_register(&mut self, address: u16, tally: &mut Tally) -> Result<u8, String> {
        self.pair.read_register(address, tally)
    }

    fn ask_split_votes(&mut self, tally: &mut Tally) -> Result<u8, String> {
        self.pair.ask_split_votes(tally)
    }
}

impl Holder for Interrupted {
    fn expect_held(&self, unread: usize) -> Result<(), String> {
        self.pair.expect_held(unread)
    }
}

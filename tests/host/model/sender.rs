//! The sender (document 01, 'Baud clock, sender'): transmit buffer, shifter, TXC and the level of TxD.

use super::frame::Format;
use super::output;

/// A frame on the line.
#[derive(Clone, Copy, PartialEq, Debug)]
pub struct Shifting {
    /// All bits in the order of the line: start bit at bit 0, data, parity, then ones for the stop bits.
    pub bits: u16,
    /// The bit that is on the line.
    pub bit: u8,
    /// Ticks of that bit that have passed.
    pub ticks: u8,
}

#[derive(Clone, Copy, PartialEq, Debug)]
pub struct Sender {
    pub txen: bool,
    pub txb8: bool,
    pub txc: bool,
    /// The transmit buffer; UDRE is set when it is none.
    pub buffer: Option<u16>,
    pub shifter: Option<Shifting>,
}

impl Shifting {
    /// The frame of a word of D bits, at the beginning of its start bit.
    pub fn start(word: u16, format: &Format) -> Shifting {
        let stops = !format.word_mask();
        Shifting {
            bits: (word | stops) << 1,
            bit: 0,
            ticks: 0,
        }
    }

    /// The word of D bits that is being sent.
    pub fn word(&self, format: &Format) -> u16 {
        (self.bits >> 1) & format.word_mask()
    }
}

impl Sender {
    pub fn reset() -> Sender {
        Sender {
            txen: false,
            txb8: false,
            txc: false,
            buffer: None,
            shifter: None,
        }
    }

    /// A frame is in shift or buffer.
    #[inline]
    pub fn busy(&self) -> bool {
        self.shifter.is_some() || self.buffer.is_some()
    }

    /// A write to UDR0. TXB8 is taken as it now stands; without TXEN or UDRE the write is ignored.
    pub fn fill(&mut self, value: u8, format: &Format) {
        if self.txen && self.buffer.is_none() {
            let data = (self.txb8 as u16) << 8 | value as u16;
            self.buffer = Some(data & format.data_mask());
        }
    }

    /// A tick of the baud clock.
    #[inline]
    pub fn tick(&mut self, format: &Format) {
        match &mut self.shifter {
            None => self.load(format),
            Some(frame) => {
                frame.ticks += 1;
                if frame.ticks == format.ticks() {
                    self.next_bit(format);
                }
            }
        }
    }

    /// The bit on the line has ended: the next one, the next frame, or the idle line.
    fn next_bit(&mut self, format: &Format) {
        match &mut self.shifter {
            Some(frame) if frame.bit < format.last_bit() => {
                frame.bit += 1;
                frame.ticks = 0;
            }
            _ => {
                self.shifter = None;
                self.load(format);
                self.txc |= self.shifter.is_none();
            }
        }
    }

    /// Moves a full buffer to the vacant shifter.
    #[inline]
    fn load(&mut self, format: &Format) {
        if let Some(data) = self.buffer.take() {
            self.shifter = Some(Shifting::start(format.word_of(data), format));
        }
    }

    /// TxD and its mark in the output byte. It is driven with TXEN or while frames are left.
    #[inline]
    pub fn output(&self) -> u8 {
        match &self.shifter {
            Some(frame) => output::DRIVES_TXD | (frame.bits >> frame.bit & 1) as u8,
            None if self.txen || self.buffer.is_some() => output::DRIVES_TXD | output::TXD,
            None => 0,
        }
    }
}

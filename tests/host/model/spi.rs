//! The SPI as master and slave (document 01, 'SPI'): its state and what a clock does to it.

use super::{level, output};

// SPCR
pub const SPIE: u8 = 0x80;
pub const SPE: u8 = 0x40;
pub const DORD: u8 = 0x20;
pub const MSTR: u8 = 0x10;
pub const CPOL: u8 = 0x08;
pub const CPHA: u8 = 0x04;
/// Bits 5 to 0, which a write during a transfer must not change.
pub const SETTINGS: u8 = 0x3F;
// SPSR
pub const SPIF: u8 = 0x80;
pub const WCOL: u8 = 0x40;
pub const SPI2X: u8 = 0x01;
// DDRB
pub const DDRB_SS: u8 = 0x04;
pub const DDRB_MOSI: u8 = 0x08;
pub const DDRB_MISO: u8 = 0x10;
pub const DDRB_SCK: u8 = 0x20;

/// Edges of SCK in a byte.
pub const EDGES: u8 = 16;

/// Clock divisor by SPI2X, SPR1, SPR0.
pub const DIVISORS: [u8; 8] = [4, 16, 64, 128, 2, 8, 32, 64];

/// SPIF or WCOL. A read of SPSR arms one that is set; the next access to SPDR clears an armed one.
#[derive(Clone, Copy, PartialEq, Debug)]
pub enum Flag {
    Clear,
    Set,
    Armed,
}

impl Flag {
    /// Sets the flag. One already set stays as it stands, armed or not: nothing in document 01 disarms it here.
    #[inline]
    pub fn set(&mut self) {
        if *self == Flag::Clear {
            *self = Flag::Set;
        }
    }

    pub fn arm(&mut self) {
        if *self == Flag::Set {
            *self = Flag::Armed;
        }
    }

    pub fn clear_armed(&mut self) {
        if *self == Flag::Armed {
            *self = Flag::Clear;
        }
    }
}

#[derive(Clone, Copy, PartialEq, Debug)]
pub struct Spi {
    pub spcr: u8,
    pub spi2x: bool,
    pub ddrb: u8,
    pub shift: u8,
    pub buffer: u8,
    /// Edges of the byte under way that have passed, 0 to 15.
    pub edges: u8,
    /// A master's clocks left to the next edge; 0 without a transfer.
    pub clocks_left: u8,
    pub spif: Flag,
    pub wcol: Flag,
    /// Last bits put out.
    pub mosi: bool,
    pub miso: bool,
    /// SCK level at the last clock.
    pub sck: bool,
}

impl Spi {
    pub fn reset() -> Spi {
        Spi {
            spcr: 0,
            spi2x: false,
            ddrb: 0,
            shift: 0,
            buffer: 0,
            edges: 0,
            clocks_left: 0,
            spif: Flag::Clear,
            wcol: Flag::Clear,
            mosi: false,
            miso: false,
            sck: false,
        }
    }

    #[inline]
    pub fn has(&self, bit: u8) -> bool {
        self.spcr & bit != 0
    }

    /// h, half the clock divisor.
    #[inline]
    pub fn half(&self) -> u8 {
        DIVISORS[((self.spi2x as u8) << 2 | self.spcr & 3) as usize] / 2
    }

    /// 1 to 15 edges seen, or a master's transfer not yet finished.
    pub fn in_transfer(&self) -> bool {
        self.edges > 0 || self.clocks_left > 0
    }

    /// Drops a transfer; the shift register stays as it stands.
    pub fn drop_transfer(&mut self) {
        self.edges = 0;
        self.clocks_left = 0;
    }

    /// One clock; answers the SPI's bits of the output byte.
    #[inline]
    pub fn clock(&mut self, level: u8) -> u8 {
        let sck = level & level::SCK != 0;
        let edge = sck != self.sck;
        self.sck = sck;
        if !self.has(SPE) {
            return 0;
        }
        let ss_low = level & level::SS == 0;
        if !self.has(MSTR) {
            if ss_low {
                self.clock_slave(edge, level & level::MOSI != 0);
            } else {
                self.edges = 0;
            }
        } else if ss_low && self.ddrb & DDRB_SS == 0 {
            // Another master selects this one: no edge counts and nothing is put out on this clock.
            self.spcr &= !MSTR;
            self.spif.set();
            self.drop_transfer();
        } else if self.clocks_left > 0 {
            self.clock_master(level & level::MISO != 0);
        }
        self.output(ss_low)
    }

    /// A clock of a master with a transfer under way.
    #[inline]
    fn clock_master(&mut self, miso: bool) {
        self.clocks_left -= 1;
        if self.clocks_left > 0 {
            return;
        }
        if let Some(out) = self.edge(miso) {
            self.mosi = out;
        }
        if self.edges > 0 {
            self.clocks_left = self.half();
        }
    }

    /// A clock of a selected slave.
    #[inline]
    fn clock_slave(&mut self, edge: bool, mosi: bool) {
        if self.edges == 0 && !self.has(CPHA) {
            // Without an edge the first bit is put out; edge 1 puts out the same bit, which then leaves.
            self.miso = self.first_bit();
        }
        // The first edge must be a leading one, away from CPOL.
        if edge && (self.edges > 0 || self.sck != self.has(CPOL)) {
            if let Some(out) = self.edge(mosi) {
                self.miso = out;
            }
        }
    }

    /// One more edge of SCK with the level on the input pin. Answers the bit that it puts out, if any.
    #[inline]
    fn edge(&mut self, input: bool) -> Option<bool> {
        self.edges += 1;
        let odd = self.edges & 1 == 1;
        let samples = odd != self.has(CPHA);
        if samples {
            self.shift_in(input);
        }
        if self.edges == EDGES {
            self.edges = 0;
            self.buffer = self.shift;
            self.spif.set();
            return None;
        }
        if samples {
            None
        } else {
            Some(self.first_bit())
        }
    }

    /// In a byte under way: the first bit has been put out and has not left yet.
    pub fn first_bit_is_out(&self) -> bool {
        (self.edges & 1 == 1) == self.has(CPHA)
    }

    /// The level of SCK after the edges of the byte under way: CPOL, or away from it after an odd number.
    #[inline]
    pub fn sck_of_edges(&self) -> bool {
        self.has(CPOL) != (self.edges & 1 == 1)
    }

    /// The bit that leaves the shift register next.
    #[inline]
    pub fn first_bit(&self) -> bool {
        let mask = if self.has(DORD) { 0x01 } else { 0x80 };
        self.shift & mask != 0
    }

    /// The sent bit leaves and the sampled one enters.
    #[inline]
    fn shift_in(&mut self, input: bool) {
        self.shift = if self.has(DORD) {
            self.shift >> 1 | (input as u8) << 7
        } else {
            self.shift << 1 | input as u8
        };
    }

    /// MOSI, MISO and SCK with their marks, with SPE set.
    #[inline]
    fn output(&self, ss_low: bool) -> u8 {
        let mut out = 0;
        if self.has(MSTR) {
            if self.ddrb & DDRB_MOSI != 0 {
                out |= output::DRIVES_MOSI | if self.mosi { output::MOSI } else { 0 };
            }
            if self.ddrb & DDRB_SCK != 0 {
                out |= output::DRIVES_SCK | if self.sck_of_edges() { output::SCK } else { 0 };
            }
        } else if ss_low && self.ddrb & DDRB_MISO != 0 {
            out |= output::DRIVES_MISO | if self.miso { output::MISO } else { 0 };
        }
        out
    }
}

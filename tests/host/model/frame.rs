//! The frame format (document 01, 'Baud clock, sender'): data bits, parity, stop bits, and the ticks of a bit.

#[derive(Clone, Copy, PartialEq, Debug)]
pub enum Parity {
    Off,
    Even,
    Odd,
}

#[derive(Clone, Copy, PartialEq, Debug)]
pub struct Format {
    /// 5 to 9.
    pub data_bits: u8,
    pub parity: Parity,
    /// USBS: the sender adds a second stop bit.
    pub two_stops: bool,
    /// U2X.
    pub double_speed: bool,
}

impl Format {
    pub const RESET: Format = Format {
        data_bits: 8,
        parity: Parity::Off,
        two_stops: false,
        double_speed: false,
    };

    /// The size code UCSZ2:0.
    pub fn size_code(&self) -> u8 {
        if self.data_bits == 9 {
            7
        } else {
            self.data_bits - 5
        }
    }

    /// The data bits of a size code, none for the reserved ones.
    pub fn data_bits_of(code: u8) -> Option<u8> {
        match code {
            0..=3 => Some(code + 5),
            7 => Some(9),
            _ => None,
        }
    }

    /// The field UPM1:0.
    pub fn upm(&self) -> u8 {
        match self.parity {
            Parity::Off => 0,
            Parity::Even => 2,
            Parity::Odd => 3,
        }
    }

    /// The parity of a UPM field, none for the reserved one.
    pub fn parity_of(upm: u8) -> Option<Parity> {
        match upm {
            0 => Some(Parity::Off),
            2 => Some(Parity::Even),
            3 => Some(Parity::Odd),
            _ => None,
        }
    }

    /// S, the ticks (and samples) of a bit.
    #[inline]
    pub fn ticks(&self) -> u8 {
        if self.double_speed {
            8
        } else {
            16
        }
    }

    /// The number of the last voting sample; the two before it vote too.
    #[inline]
    pub fn last_vote(&self) -> u8 {
        if self.double_speed {
            6
        } else {
            10
        }
    }

    /// D, the data bits and the parity bit.
    #[inline]
    pub fn word_bits(&self) -> u8 {
        self.data_bits + (self.parity != Parity::Off) as u8
    }

    /// The number of the sender's last stop bit, the start bit being 0.
    #[inline]
    pub fn last_bit(&self) -> u8 {
        self.word_bits() + 1 + self.two_stops as u8
    }

    pub fn data_mask(&self) -> u16 {
        (1 << self.data_bits) - 1
    }

    pub fn word_mask(&self) -> u16 {
        (1 << self.word_bits()) - 1
    }

    /// Document 01: 'even: exclusive or of the data bits', here one after the other. No other bit is looked at.
    /// Not by `count_ones`: the library under test takes parity from the processor's count (M-102).
    fn even_parity(&self, data: u16) -> u16 {
        (0..self.data_bits).fold(0, |parity, bit| parity ^ (data >> bit & 1))
    }

    /// The data with its parity bit above it, if parity is on; 'odd: the opposite'.
    pub fn word_of(&self, data: u16) -> u16 {
        match self.parity {
            Parity::Off => data,
            Parity::Even => data | self.even_parity(data) << self.data_bits,
            Parity::Odd => data | (self.even_parity(data) ^ 1) << self.data_bits,
        }
    }
}

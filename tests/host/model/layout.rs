//! Where the fields of a record stand, as docs/RECORD.md describes them, how long it is, and the number of its layout.
//! A word stands at its low byte.

pub const LENGTH: usize = 64;

// The USART's settings and baud clock.
pub const UBRR: usize = 0;
pub const COUNTER: usize = 2;
/// TXC and U2X, in their places.
pub const UCSR0A: usize = 4;
/// All but RXB8.
pub const UCSR0B: usize = 5;
pub const UCSR0C: usize = 6;

// The sender.
pub const BUFFER_FULL: usize = 8;
pub const BUFFER: usize = 9;
pub const SENDING: usize = 11;
pub const SENT_WORD: usize = 12;
pub const SENT_BIT: usize = 14;
pub const SENT_TICKS: usize = 15;

// The receiver.
pub const RECEIVING: usize = 16;
pub const LAST_SAMPLE: usize = 17;
pub const SAMPLED_BIT: usize = 18;
pub const SAMPLES: usize = 19;
pub const FIRST_VOTE: usize = 20;
pub const SECOND_VOTE: usize = 21;
pub const RECEIVED_WORD: usize = 22;
pub const SPLIT_VOTES: usize = 24;
pub const FRAMES_HELD: usize = 25;
pub const FRAME_WAITS: usize = 26;
pub const FRAME_LOST: usize = 27;
/// Data bits 7 to 0 of the frames held, and of the one that waits.
pub const OLDEST_DATA: usize = 28;
pub const SECOND_DATA: usize = 31;
pub const WAITING_DATA: usize = 34;
/// The ninth data bit and the flags of each.
pub const OLDEST_FLAGS: usize = 29;
pub const SECOND_FLAGS: usize = 32;
pub const WAITING_FLAGS: usize = 35;
/// The split votes of each.
pub const OLDEST_SPLIT_VOTES: usize = 30;
pub const SECOND_SPLIT_VOTES: usize = 33;
pub const WAITING_SPLIT_VOTES: usize = 36;

// The SPI.
pub const SPCR: usize = 48;
pub const SPI2X: usize = 49;
pub const DDRB: usize = 50;
pub const SHIFT: usize = 51;
pub const SPI_BUFFER: usize = 52;
pub const EDGES: usize = 53;
pub const CLOCKS_LEFT: usize = 54;
pub const SPIF: usize = 55;
pub const WCOL: usize = 56;
pub const MOSI: usize = 57;
pub const MISO: usize = 58;
pub const SCK: usize = 59;

/// The number of the layout, and where it stands.
pub const NUMBER: u8 = 2;
pub const NUMBER_PLACE: usize = 63;

/// Bytes that are unused, or wait for a request of document 02: always 0.
pub fn is_unused(place: usize) -> bool {
    matches!(place, 7 | 37..=47 | 60..=62)
}

/// Bits of the byte that has the ninth data bit and the flags of a frame that is held or waits.
pub mod held {
    pub const NINTH: u8 = 0x01;
    pub const UPE: u8 = 0x02;
    pub const DOR: u8 = 0x04;
    pub const FE: u8 = 0x08;
    /// Values of the byte.
    pub const LIMIT: u8 = 0x10;
    /// The most split votes of such a frame, whatever the format is: those of start bit, nine data bits, parity and
    /// first stop bit.
    pub const SPLIT_VOTES_LAST: u8 = 12;
}

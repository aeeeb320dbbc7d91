//! USART0: baud clock, and the registers UCSR0A, B, C, UBRR0L, UBRR0H and UDR0 (document 01, 'Registers and their
//! writes'). A write looks for refusal 2 before 3 and 3 before 4.

use super::frame::Format;
use super::number::{RESERVED, UNDER_WAY, UNMODELLED};
use super::receiver::Receiver;
use super::sender::Sender;

// UCSR0A
pub const RXC: u8 = 0x80;
pub const TXC: u8 = 0x40;
pub const UDRE: u8 = 0x20;
pub const FE: u8 = 0x10;
pub const DOR: u8 = 0x08;
pub const UPE: u8 = 0x04;
pub const U2X: u8 = 0x02;
pub const MPCM: u8 = 0x01;
// UCSR0B
pub const RXCIE: u8 = 0x80;
pub const TXCIE: u8 = 0x40;
pub const UDRIE: u8 = 0x20;
pub const RXEN: u8 = 0x10;
pub const TXEN: u8 = 0x08;
pub const UCSZ2: u8 = 0x04;
pub const RXB8: u8 = 0x02;
pub const TXB8: u8 = 0x01;
// UCSR0C
pub const USBS: u8 = 0x08;
pub const UCPOL: u8 = 0x01;

/// UBRR has twelve bits, and so has the baud counter.
pub const UBRR_LAST: u16 = 0xFFF;

#[derive(Clone, Copy, PartialEq, Debug)]
pub struct Usart {
    pub format: Format,
    pub ubrr: u16,
    /// Clocks left to the next tick. UBRR0H does not load it, so it may be above UBRR.
    pub counter: u16,
    pub rxcie: bool,
    pub txcie: bool,
    pub udrie: bool,
    pub sender: Sender,
    pub receiver: Receiver,
}

/// A bit of a register, where the condition holds.
pub fn bit(condition: bool, mask: u8) -> u8 {
    if condition {
        mask
    } else {
        0
    }
}

impl Usart {
    pub fn reset() -> Usart {
        Usart {
            format: Format::RESET,
            ubrr: 0,
            counter: 0,
            rxcie: false,
            txcie: false,
            udrie: false,
            sender: Sender::reset(),
            receiver: Receiver::reset(),
        }
    }

    /// One clock; answers TxD and its mark in the output byte.
    #[inline]
    pub fn clock(&mut self, rxd: bool) -> u8 {
        if self.counter == 0 {
            self.counter = self.ubrr;
            self.sender.tick(&self.format);
            self.receiver.tick(rxd, &self.format);
        } else {
            self.counter -= 1;
        }
        self.sender.output()
    }

    /// A frame is in shift or buffer, or between first low sample and stop decision: settings are held.
    fn under_way(&self) -> bool {
        self.sender.busy() || self.receiver.busy()
    }

    /// A frame is being sent or received. It began at a tick and UBRR is held, so the counter is not above UBRR.
    pub fn in_frame(&self) -> bool {
        self.sender.shifter.is_some() || self.receiver.busy()
    }

    /// Sets the format; a change while a frame is under way is refused.
    fn change_format(&mut self, format: Format) -> Result<(), u8> {
        if format != self.format && self.under_way() {
            return Err(UNDER_WAY);
        }
        self.format = format;
        Ok(())
    }

    pub fn write_a(&mut self, value: u8) -> Result<(), u8> {
        if value & MPCM != 0 {
            return Err(UNMODELLED);
        }
        self.change_format(Format {
            double_speed: value & U2X != 0,
            ..self.format
        })?;
        if value & TXC != 0 {
            self.sender.txc = false;
        }
        Ok(())
    }

    pub fn write_b(&mut self, value: u8) -> Result<(), u8> {
        let code = value & UCSZ2 | self.format.size_code() & 3;
        let data_bits = Format::data_bits_of(code).ok_or(RESERVED)?;
        self.change_format(Format { data_bits, ..self.format })?;
        self.rxcie = value & RXCIE != 0;
        self.txcie = value & TXCIE != 0;
        self.udrie = value & UDRIE != 0;
        self.receiver.enable(value & RXEN != 0);
        self.sender.txen = value & TXEN != 0;
        self.sender.txb8 = value & TXB8 != 0;
        Ok(())
    }

    pub fn write_c(&mut self, value: u8) -> Result<(), u8> {
        let umsel = value >> 6;
        let code = self.format.size_code() & UCSZ2 | value >> 1 & 3;
        let parity = Format::parity_of(value >> 4 & 3).ok_or(RESERVED)?;
        let data_bits = Format::data_bits_of(code).ok_or(RESERVED)?;
        if umsel == 2 || value & UCPOL != 0 {
            return Err(RESERVED);
        }
        if umsel != 0 {
            return Err(UNMODELLED);
        }
        self.change_format(Format {
            data_bits,
            parity,
            two_stops: value & USBS != 0,
            ..self.format
        })
    }

    pub fn write_ubrr_low(&mut self, value: u8) -> Result<(), u8> {
        if self.under_way() {
            return Err(UNDER_WAY);
        }
        self.ubrr = self.ubrr & 0xF00 | value as u16;
        self.counter = self.ubrr;
        Ok(())
    }

    pub fn write_ubrr_high(&mut self, value: u8) -> Result<(), u8> {
        if value & 0xF0 != 0 {
            return Err(RESERVED);
        }
        if self.under_way() {
            return Err(UNDER_WAY);
        }
        self.ubrr = (value as u16) << 8 | self.ubrr & 0xFF;
        Ok(())
    }

    pub fn write_udr(&mut self, value: u8) -> Result<(), u8> {
        self.sender.fill(value, &self.format);
        Ok(())
    }

    pub fn read_a(&self) -> u8 {
        let flags = self
            .receiver
            .oldest
            .map_or(0, |frame| RXC | bit(frame.fe, FE) | bit(frame.dor, DOR) | bit(frame.upe, UPE));
        flags | bit(self.sender.txc, TXC) | bit(self.sender.buffer.is_none(), UDRE) | bit(self.format.double_speed, U2X)
    }

    pub fn read_b(&self) -> u8 {
        let ninth = self.receiver.oldest.is_some_and(|frame| frame.data & 0x100 != 0);
        bit(self.rxcie, RXCIE)
            | bit(self.txcie, TXCIE)
            | bit(self.udrie, UDRIE)
            | bit(self.receiver.rxen, RXEN)
            | bit(self.sender.txen, TXEN)
            | self.format.size_code() & UCSZ2
            | bit(ninth, RXB8)
            | bit(self.sender.txb8, TXB8)
    }

    pub fn read_c(&self) -> u8 {
        self.format.upm() << 4 | bit(self.format.two_stops, USBS) | (self.format.size_code() & 3) << 1
    }

    pub fn rxc_requested(&self) -> bool {
        self.rxcie && self.receiver.oldest.is_some()
    }

    pub fn udre_requested(&self) -> bool {
        self.udrie && self.sender.buffer.is_none()
    }

    pub fn txc_requested(&self) -> bool {
        self.txcie && self.sender.txc
    }
}

//! A model of the ATmega328P's USART0 (asynchronous) and SPI, one clock at a time, written from document 01, and M-101
//! and M-103 of document 02, alone. It is compared with the archive by `compare.rs`.

mod decode;
pub mod frame;
pub mod layout;
pub mod receiver;
pub mod record;
pub mod sender;
pub mod spi;
mod spi_registers;
pub mod usart;

use spi::Spi;
use usart::Usart;

/// The numbers of document 01. A device gives 0 to 4 and 8; the others belong to the record and the slices of a run.
pub mod number {
    pub const DONE: u8 = 0;
    pub const UNKNOWN: u8 = 1;
    pub const RESERVED: u8 = 2;
    pub const UNMODELLED: u8 = 3;
    pub const UNDER_WAY: u8 = 4;
    pub const RECORD: u8 = 5;
    pub const LENGTH: u8 = 6;
    pub const LEVEL: u8 = 7;
    pub const UNREQUESTED: u8 = 8;
}

/// Data addresses of the registers.
pub mod address {
    pub const DDRB: u16 = 0x24;
    pub const SPCR: u16 = 0x4C;
    pub const SPSR: u16 = 0x4D;
    pub const SPDR: u16 = 0x4E;
    pub const UCSR0A: u16 = 0xC0;
    pub const UCSR0B: u16 = 0xC1;
    pub const UCSR0C: u16 = 0xC2;
    pub const UBRR0L: u16 = 0xC4;
    pub const UBRR0H: u16 = 0xC5;
    pub const UDR0: u16 = 0xC6;
    pub const ALL: [u16; 10] = [DDRB, SPCR, SPSR, SPDR, UCSR0A, UCSR0B, UCSR0C, UBRR0L, UBRR0H, UDR0];
}

/// Bits of a level byte.
pub mod level {
    pub const RXD: u8 = 0x01;
    pub const MISO: u8 = 0x02;
    pub const MOSI: u8 = 0x04;
    pub const SCK: u8 = 0x08;
    pub const SS: u8 = 0x10;
    pub const ILLEGAL: u8 = 0xE0;
}

/// Bits of an output byte: levels, and marks of the pins that are driven.
pub mod output {
    pub const TXD: u8 = 0x01;
    pub const MOSI: u8 = 0x02;
    pub const MISO: u8 = 0x04;
    pub const SCK: u8 = 0x08;
    pub const DRIVES_TXD: u8 = 0x10;
    pub const DRIVES_MOSI: u8 = 0x20;
    pub const DRIVES_MISO: u8 = 0x40;
    pub const DRIVES_SCK: u8 = 0x80;
}

#[derive(Clone, Copy, PartialEq, Debug)]
pub struct Device {
    pub usart: Usart,
    pub spi: Spi,
}

impl Device {
    pub fn reset() -> Device {
        Device {
            usart: Usart::reset(),
            spi: Spi::reset(),
        }
    }

    /// Passes one clock with the levels on the pins; answers the output byte after it.
    #[inline]
    pub fn clock(&mut self, level: u8) -> u8 {
        self.usart.clock(level & level::RXD != 0) | self.spi.clock(level)
    }

    /// Writes a register; answers the number.
    pub fn write(&mut self, address: u16, value: u8) -> u8 {
        let written = match address {
            address::UCSR0A => self.usart.write_a(value),
            address::UCSR0B => self.usart.write_b(value),
            address::UCSR0C => self.usart.write_c(value),
            address::UBRR0L => self.usart.write_ubrr_low(value),
            address::UBRR0H => self.usart.write_ubrr_high(value),
            address::UDR0 => self.usart.write_udr(value),
            address::SPCR => self.spi.write_spcr(value),
            address::SPSR => self.spi.write_spsr(value),
            address::SPDR => self.spi.write_spdr(value),
            address::DDRB => self.spi.write_ddrb(value),
            _ => Err(number::UNKNOWN),
        };
        written.err().unwrap_or(number::DONE)
    }

    /// Reads a register; answers the number and the value.
    pub fn read(&mut self, address: u16) -> (u8, u8) {
        let value = match address {
            address::UCSR0A => self.usart.read_a(),
            address::UCSR0B => self.usart.read_b(),
            address::UCSR0C => self.usart.read_c(),
            address::UBRR0L => self.usart.ubrr as u8,
            address::UBRR0H => (self.usart.ubrr >> 8) as u8,
            address::UDR0 => self.usart.receiver.take(),
            address::SPCR => self.spi.spcr,
            address::SPSR => self.spi.read_spsr(),
            address::SPDR => self.spi.read_spdr(),
            address::DDRB => self.spi.ddrb,
            _ => return (number::UNKNOWN, 0),
        };
        (number::DONE, value)
    }

    /// Takes an interrupt vector: 0 clears TXC, 1 clears and disarms SPIF.
    pub fn take_vector(&mut self, vector: u8) -> u8 {
        match vector {
            0 if self.usart.txc_requested() => self.usart.sender.txc = false,
            1 if self.spi.requested() => self.spi.spif = spi::Flag::Clear,
            0 | 1 => return number::UNREQUESTED,
            _ => return number::UNKNOWN,
        }
        number::DONE
    }

    /// The report: RXC, UDRE, TXC and SPIF with their enables, in bits 0 to 3.
    pub fn requests(&self) -> u8 {
        self.usart.rxc_requested() as u8
            | (self.usart.udre_requested() as u8) << 1
            | (self.usart.txc_requested() as u8) << 2
            | (self.spi.requested() as u8) << 3
    }

    /// M-101: how many bits of the oldest frame held had votes that were not unanimous.
    pub fn split_votes(&self) -> u8 {
        self.usart.receiver.split_votes()
    }
}

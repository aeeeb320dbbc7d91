//! Writes and reads of SPCR, SPSR, SPDR and DDRB, and the SPI's interrupt request.

use super::number::UNDER_WAY;
use super::spi::{Flag, Spi, CPHA, MSTR, SETTINGS, SPE, SPI2X, SPIE, SPIF, WCOL};

impl Spi {
    pub fn write_spcr(&mut self, value: u8) -> Result<(), u8> {
        if self.in_transfer() {
            if value & SPE == 0 {
                self.drop_transfer();
            } else if (value ^ self.spcr) & SETTINGS != 0 {
                return Err(UNDER_WAY);
            }
        }
        self.spcr = value;
        Ok(())
    }

    pub fn write_spsr(&mut self, value: u8) -> Result<(), u8> {
        let spi2x = value & SPI2X != 0;
        if spi2x != self.spi2x && self.in_transfer() {
            return Err(UNDER_WAY);
        }
        self.spi2x = spi2x;
        Ok(())
    }

    pub fn write_spdr(&mut self, value: u8) -> Result<(), u8> {
        self.access_spdr();
        if !self.has(SPE) {
            return Ok(());
        }
        if self.in_transfer() {
            self.wcol.set();
            return Ok(());
        }
        self.shift = value;
        if self.has(MSTR) {
            self.clocks_left = self.half();
            if !self.has(CPHA) {
                self.mosi = self.first_bit();
            }
        }
        Ok(())
    }

    pub fn write_ddrb(&mut self, value: u8) -> Result<(), u8> {
        self.ddrb = value;
        Ok(())
    }

    pub fn read_spsr(&mut self) -> u8 {
        let spif = if self.spif == Flag::Clear { 0 } else { SPIF };
        let wcol = if self.wcol == Flag::Clear { 0 } else { WCOL };
        self.spif.arm();
        self.wcol.arm();
        spif | wcol | self.spi2x as u8
    }

    pub fn read_spdr(&mut self) -> u8 {
        self.access_spdr();
        self.buffer
    }

    /// What every access to SPDR does before its own work.
    fn access_spdr(&mut self) {
        self.spif.clear_armed();
        self.wcol.clear_armed();
    }

    pub fn requested(&self) -> bool {
        self.has(SPIE) && self.spif != Flag::Clear
    }
}

//! Part 5: archive devices joined by wires: sender to receiver with unequal crystals, SPI master to SPI slave.

use crate::frames::{read_frame, Frame};
use crate::model::frame::Format;
use crate::model::usart::{RXC, RXEN, TXB8, TXEN, UCSZ2, UDRE};
use crate::model::{address, level, output, spi};
use crate::pair::Pair;
use crate::random::Random;
use crate::rates::{all_formats, rate_limit};
use crate::tally::Tally;

const FRAMES: usize = 6;
const BYTES: usize = 3;

pub fn run(rounds: u64, random: &mut Random, tally: &mut Tally) -> Result<(), String> {
    for _ in 0..rounds {
        for format in all_formats() {
            let ubrr = random.pick(&[0, 1, 2, 5]);
            serial(&format, ubrr, random, tally)
                .map_err(|text| format!("{format:?}, UBRR {ubrr}: {text}"))?;
        }
        for setting in 0..64 {
            let (divisor, mode) = (setting & 7, setting >> 3);
            spi_pair(divisor, mode, random, tally).map_err(|text| {
                format!("SPI divisor code {divisor}, mode and order {mode}: {text}")
            })?;
        }
    }
    Ok(())
}

fn serial_device(format: &Format, ubrr: u8, enable: u8, tally: &mut Tally) -> Result<Pair, String> {
    let mut pair = Pair::reset(tally)?;
    let code = format.size_code();
    pair.write(address::UCSR0A, (format.double_speed as u8) << 1, tally)?;
    pair.write(
        address::UCSR0C,
        format.upm() << 4 | (format.two_stops as u8) << 3 | (code & 3) << 1,
        tally,
    )?;
    pair.write(address::UBRR0H, 0, tally)?;
    pair.write(address::UBRR0L, ubrr, tally)?;
    pair.write(address::UCSR0B, enable | code & UCSZ2, tally)?;
    Ok(pair)
}

/// TxD of one device on RxD of another.
fn serial(format: &Format, ubrr: u8, random: &mut Random, tally: &mut Tally) -> Result<(), String> {
    let data: Vec<u16> = (0..FRAMES)
        .map(|_| random.next() as u16 & format.data_mask())
        .collect();
    let sent = send(&data, format, ubrr, tally)?;
    // Half of the recommended limit, since the receiver's clocks do not begin with the sender's.
    let half_limit = rate_limit(format) / 2;
    let rate = random.between(1000 - half_limit, 1000 + half_limit);
    let mut receiver = serial_device(format, ubrr, RXEN, tally)?;
    let mut data = data.into_iter();
    let places = (0..).map(|clock: u64| (clock * rate / 1000) as usize);
    let levels: Vec<u8> = places
        .map_while(|place| sent.get(place))
        .map(|out| out & output::TXD)
        .collect();
    for piece in levels.chunks(60) {
        receiver.run(piece, tally)?;
        while receiver.read(address::UCSR0A, tally)? & RXC != 0 {
            read_frame(&mut receiver, data.next().map(Frame::plain), tally)?;
        }
    }
    if data.next().is_some() {
        return Err("a frame did not arrive".to_string());
    }
    tally.wire_frames += FRAMES as u64;
    Ok(())
}

/// The output bytes of a device that sends the frames, with idle line before and after.
fn send(data: &[u16], format: &Format, ubrr: u8, tally: &mut Tally) -> Result<Vec<u8>, String> {
    let mut sender = serial_device(format, ubrr, TXEN, tally)?;
    let idle = [level::RXD; 40];
    let mut sent = sender.run(&idle, tally)?;
    for data in data {
        while sender.read(address::UCSR0A, tally)? & UDRE == 0 {
            sent.extend(sender.run(&idle, tally)?);
        }
        let ninth = (data >> 8) as u8 & TXB8;
        sender.write(
            address::UCSR0B,
            TXEN | format.size_code() & UCSZ2 | ninth,
            tally,
        )?;
        sender.write(address::UDR0, *data as u8, tally)?;
    }
    // The last two frames and a stretch of idle line.
    let bits = 2 * (format.last_bit() as usize + 1) + 4;
    sent.extend(sender.run(
        &vec![level::RXD; bits * format.ticks() as usize * (ubrr as usize + 1)],
        tally,
    )?);
    Ok(sent)
}

/// A master and a slave exchange bytes, with the wires seen at once or a clock later.
fn spi_pair(divisor: u8, mode: u8, random: &mut Random, tally: &mut Tally) -> Result<(), String> {
    let settings = spi::SPE | (mode & 3) << 2 | (mode >> 2) << 5;
    let mut master = Pair::reset(tally)?;
    let mut slave = Pair::reset(tally)?;
    master.write(
        address::DDRB,
        spi::DDRB_SS | spi::DDRB_MOSI | spi::DDRB_SCK,
        tally,
    )?;
    master.write(address::SPCR, settings | spi::MSTR | divisor & 3, tally)?;
    master.write(address::SPSR, divisor >> 2, tally)?;
    slave.write(address::DDRB, spi::DDRB_MISO, tally)?;
    slave.write(address::SPCR, settings, tally)?;
    // With divisor 2 a clock's delay is half a bit, and the answer would come too late.
    let half = spi::DIVISORS[divisor as usize] as usize / 2;
    let delayed = half > 1 && random.flip();
    let mut wires = Wires {
        to_slave: 0,
        to_master: 0,
        delayed,
    };
    wires.pass(4, true, &mut master, &mut slave, tally)?;
    for _ in 0..BYTES {
        let (to_slave, to_master) = (random.byte(), random.byte());
        slave.write(address::SPDR, to_master, tally)?;
        wires.pass(3, false, &mut master, &mut slave, tally)?;
        master.write(address::SPDR, to_slave, tally)?;
        wires.pass(16 * half + 2, false, &mut master, &mut slave, tally)?;
        expect_byte(&mut master, to_master, tally).map_err(|text| format!("master: {text}"))?;
        expect_byte(&mut slave, to_slave, tally).map_err(|text| format!("slave: {text}"))?;
    }
    tally.wire_bytes += 2 * BYTES as u64;
    Ok(())
}

fn expect_byte(pair: &mut Pair, byte: u8, tally: &mut Tally) -> Result<(), String> {
    let status = pair.read(address::SPSR, tally)?;
    let found = pair.read(address::SPDR, tally)?;
    if status & (spi::SPIF | spi::WCOL) != spi::SPIF || found != byte {
        return Err(format!(
            "SPSR {status:02x}, byte {found:02x}, expected {byte:02x}"
        ));
    }
    Ok(())
}

/// The level that an output pin gives to the pin it is joined with.
fn joined(out: u8, from: u8, to: u8) -> u8 {
    if out & from != 0 {
        to
    } else {
        0
    }
}

/// The SPI wires between two devices.
struct Wires {
    to_slave: u8,
    to_master: u8,
    /// The slave sees the master's output of the clock before, not of the same clock.
    delayed: bool,
}

impl Wires {
    fn pass(
        &mut self,
        clocks: usize,
        ss: bool,
        master: &mut Pair,
        slave: &mut Pair,
        tally: &mut Tally,
    ) -> Result<(), String> {
        for _ in 0..clocks {
            let out = master.run(&[level::RXD | level::SS | self.to_master], tally)?[0];
            let levels =
                joined(out, output::MOSI, level::MOSI) | joined(out, output::SCK, level::SCK);
            let before = std::mem::replace(&mut self.to_slave, levels);
            let seen = if self.delayed { before } else { self.to_slave };
            let out = slave.run(&[level::RXD | seen | ss as u8 * level::SS], tally)?[0];
            self.to_master = joined(out, output::MISO, level::MISO);
        }
        Ok(())
    }
}

//! Random calls: register values that are mostly sensible for the device as it stands, and now and then anything.

use crate::call::Call;
use crate::levels::Levels;
use crate::model::{address, level, spi, usart, Device};
use crate::random::Random;

/// A random call; a run or hold is no longer than so many clocks.
pub fn random_call<'a>(
    device: &Device,
    levels: &'a mut Levels,
    longest: u64,
    random: &mut Random,
) -> Call<'a> {
    // Runs, holds, writes, reads, vectors, reports, split votes and resets.
    let kind = match random.below(1000) {
        0..=359 => 4,
        360..=419 => 6,
        420..=689 => 1,
        690..=879 => 2,
        880..=939 => 3,
        940..=967 => 5,
        968..=997 => 7,
        _ => 0,
    };
    call_of_kind(kind, device, levels, longest, random)
}

/// A random call of a kind, by its place in the tally; all but the first look at the record.
pub fn call_of_kind<'a>(
    kind: usize,
    device: &Device,
    levels: &'a mut Levels,
    longest: u64,
    random: &mut Random,
) -> Call<'a> {
    match kind {
        0 => Call::Reset,
        1 => random_write(device, random),
        2 => Call::Read {
            address: random_read_address(device, random),
        },
        3 => Call::TakeVector {
            vector: random_vector(random),
        },
        4 => random_run(device, levels, longest, random),
        5 => Call::Requests,
        6 => random_hold(device, levels, longest, random),
        _ => Call::SplitVotes,
    }
}

/// A run, now and then with a wrong output length or an illegal level byte.
fn random_run<'a>(
    device: &Device,
    levels: &'a mut Levels,
    longest: u64,
    random: &mut Random,
) -> Call<'a> {
    let clocks = if random.percent(30) {
        random.below(9)
    } else {
        random.between(0, longest)
    } as usize;
    let levels = levels.take(clocks, &device.usart, random);
    let mut outputs_len = clocks;
    if random.percent(4) && clocks > 0 {
        let place = random.below(clocks as u64) as usize;
        levels[place] |= illegal_bits(random);
    }
    if random.percent(4) {
        let any = random.between(0, longest) as usize;
        outputs_len = random.pick(&[0, clocks + 1, clocks.saturating_sub(1), any]);
    }
    Call::Run {
        levels,
        outputs_len,
    }
}

/// Bits that make a level byte illegal.
pub fn illegal_bits(random: &mut Random) -> u8 {
    random.pick(&[0x20, 0x40, 0x80, level::ILLEGAL])
}

/// A hold of what the line comes to, or of any level, now and then of an illegal one or for no clocks.
fn random_hold<'a>(
    device: &Device,
    levels: &mut Levels,
    longest: u64,
    random: &mut Random,
) -> Call<'a> {
    let mut level = if random.flip() {
        levels.take(1, &device.usart, random)[0]
    } else {
        random.byte() & !level::ILLEGAL
    };
    if random.percent(4) {
        level |= illegal_bits(random);
    }
    let clocks = match random.below(10) {
        0 => 0,
        1..=3 => random.below(9),
        _ => random.between(0, longest),
    } as u32;
    Call::Hold { level, clocks }
}

fn random_vector(random: &mut Random) -> u8 {
    if random.percent(90) {
        random.below(2) as u8
    } else {
        random.byte()
    }
}

/// Any address, and UDR0 more often while a frame waits, which a read of it moves in.
fn random_read_address(device: &Device, random: &mut Random) -> u16 {
    if device.usart.receiver.waiting.is_some() && random.percent(15) {
        return address::UDR0;
    }
    random_address(random)
}

fn random_address(random: &mut Random) -> u16 {
    if random.percent(95) {
        return random.pick(&address::ALL);
    }
    // Neighbours of the registers, I/O addresses instead of data addresses, and anything.
    match random.below(3) {
        0 => random.pick(&address::ALL) ^ 1 << random.below(16),
        1 => random.pick(&[
            0xC3, 0xBF, 0xC7, 0x4B, 0x4F, 0x23, 0x25, 0x04, 0x2C, 0x2D, 0x2E,
        ]),
        _ => random.next() as u16,
    }
}

fn random_write<'a>(device: &Device, random: &mut Random) -> Call<'a> {
    let address = random_address(random);
    let value = if random.percent(8) {
        random.byte()
    } else {
        sensible_value(address, device, random)
    };
    Call::Write { address, value }
}

/// A value that the device as it stands is likely to take.
pub fn sensible_value(address: u16, device: &Device, random: &mut Random) -> u8 {
    let byte = random.byte();
    match address {
        address::UCSR0A if random.percent(70) => byte & !(usart::MPCM | usart::U2X),
        address::UCSR0A => byte & !usart::MPCM,
        address::UCSR0B => sensible_ucsr0b(device, byte, random),
        address::UCSR0C if random.percent(60) => device.usart.read_c(),
        address::UCSR0C => random.pick(&[0x00, 0x20, 0x30]) | byte & 0x0E,
        address::UBRR0L if random.percent(90) => random.below(4) as u8,
        address::UBRR0H if random.percent(90) => 0,
        address::UBRR0H => byte & 0x0F,
        address::SPCR if random.percent(40) => device.spi.spcr ^ byte & spi::SPIE,
        address::SPCR => byte | if random.percent(85) { spi::SPE } else { 0 },
        address::DDRB if random.percent(80) => random.pick(&[0x2C, 0x3C, 0x10, 0x38]),
        _ => byte,
    }
}

/// Mostly both directions enabled and the size code kept.
fn sensible_ucsr0b(device: &Device, byte: u8, random: &mut Random) -> u8 {
    let mut value = byte & !usart::UCSZ2 | device.usart.read_b() & usart::UCSZ2;
    if random.percent(90) {
        value |= usart::RXEN;
    }
    if random.percent(75) {
        value |= usart::TXEN;
    }
    if random.percent(15) {
        value ^= usart::UCSZ2;
    }
    value
}

//! Random scenes of a history: frames and SPI bytes at settings that make them happen, and calls that are refused.

use crate::history::History;
use crate::model::{address, level, spi, usart};
use crate::random::Random;

type Scene = fn(&mut History, &mut Random);

/// A bit or half period that is longer than so many clocks is not waited for.
const LONGEST_BIT: u64 = 300;

const SCENES: [Scene; 14] = [
    send,
    send,
    receive,
    receive,
    receive,
    overrun,
    read_frame,
    be_master,
    be_slave,
    be_selected,
    meddle,
    meddle,
    look,
    noise,
];

/// A history with its settings made and so many scenes.
pub fn random_history(scenes: u64, random: &mut Random) -> History {
    let mut history = History::new();
    if random.percent(80) {
        set_up(&mut history, random);
    }
    for _ in 0..scenes {
        random.pick(&SCENES)(&mut history, random);
    }
    history
}

/// A history of few lines: receiver and sender enabled, and what the first lines of some scenes bring.
pub fn short_history(random: &mut Random) -> History {
    let mut history = History::new();
    if random.percent(70) {
        let enabled = random.pick(&[usart::RXEN | usart::TXEN, usart::RXEN, usart::TXEN]);
        history.write(address::UCSR0B, enabled | random.byte() & usart::TXCIE);
    }
    let lines = random.below(9) as usize;
    while history.items.len() < lines {
        random.pick(&SCENES)(&mut history, random);
    }
    history.cut(lines);
    history
}

/// Size bits first, since UCSZ2 alone would be a reserved code.
fn set_up(history: &mut History, random: &mut Random) {
    let format = random.pick(&[0x00, 0x20, 0x30]) | random.byte() & usart::USBS;
    let nine = random.percent(20);
    let size = if nine { 0x06 } else { random.byte() & 0x06 };
    history.write(address::UCSR0C, format | size);
    history.write(address::UCSR0A, random.byte() & usart::U2X);
    history.write(address::UBRR0L, random.below(4) as u8);
    let interrupts = random.byte() & (usart::RXCIE | usart::TXCIE | usart::UDRIE | usart::TXB8);
    let size = if nine { usart::UCSZ2 } else { 0 };
    history.write(
        address::UCSR0B,
        usart::RXEN | usart::TXEN | interrupts | size,
    );
}

/// Clocks of a bit, if it is short.
fn bit_clocks(history: &History) -> Option<u64> {
    let usart = &history.device.usart;
    let clocks = u64::from(usart.format.ticks()) * (u64::from(usart.ubrr) + 1);
    (clocks <= LONGEST_BIT).then_some(clocks)
}

/// One or two bytes to send, and some of the clocks that they take.
fn send(history: &mut History, random: &mut Random) {
    let Some(bit) = bit_clocks(history) else {
        return;
    };
    for _ in 0..random.between(1, 2) {
        history.write(address::UDR0, random.byte());
        history.hold(random.below(3));
    }
    history.hold(random.between(1, 26 * bit));
    history.read(address::UCSR0A);
    if history.device.usart.txc_requested() || random.percent(20) {
        history.take_vector(0);
    }
}

/// A byte to send with long bits, so that many clocks leave the frame under way; the settings may be refused.
pub fn send_slowly(history: &mut History, clocks: u64, random: &mut Random) {
    history.write(address::UBRR0H, random.between(4, 15) as u8);
    history.write(address::UBRR0L, random.byte());
    history.write(address::UCSR0B, usart::RXEN | usart::TXEN);
    history.write(address::UDR0, random.byte());
    history.hold(clocks);
    history.read(address::UCSR0A);
    history.set_pin(level::RXD, false);
    history.hold(random.between(1, 20_000));
    history.read(address::UBRR0L);
}

/// A frame on RxD at about the rate, now and then with a wrong parity or stop bit.
fn receive(history: &mut History, random: &mut Random) {
    send_frame(history, random);
    if random.percent(70) {
        read_frame(history, random);
    }
}

fn send_frame(history: &mut History, random: &mut Random) {
    send_frame_read(history, None, random);
}

/// The same, with what is held read after so many clocks of it, from 1, or as soon as the line is high.
fn send_frame_read(history: &mut History, mut read_after: Option<u64>, random: &mut Random) {
    let Some(bit) = bit_clocks(history) else {
        return;
    };
    let format = history.device.usart.format;
    let any = random.next() as u16;
    let data = random.pick(&[any, 0x00, 0x1FF, 0x0F]);
    let mut word = format.word_of(data & format.data_mask());
    if random.percent(15) {
        word ^= 1 << random.below(format.word_bits().into());
    }
    let stop = u16::from(!random.percent(15));
    let length = (bit * random.between(970, 1030) / 1000).max(1);
    // Start bit, word and stop bit, low bit first: equal neighbours are one stretch.
    let mut bits = word << 1 | stop << (format.word_bits() + 1);
    let mut left = u64::from(format.word_bits()) + 2;
    while left > 0 {
        let high = bits & 1 == 1;
        let same = if high {
            bits.trailing_ones()
        } else {
            bits.trailing_zeros()
        };
        let same = u64::from(same).min(left);
        history.set_pin(level::RXD, high);
        let clocks = same * length;
        let before = read_after.take().map_or(0, |read| read.min(clocks));
        history.hold(before);
        if before > 0 {
            read_frame(history, random);
        }
        history.hold(clocks - before);
        bits = bits.checked_shr(same as u32).unwrap_or(0);
        left -= same;
    }
    history.set_pin(level::RXD, true);
    history.hold(random.below(2 * bit));
}

/// Flags and ninth bit first, since the read of UDR0 takes the frame away.
fn read_frame(history: &mut History, _: &mut Random) {
    history.read(address::UCSR0A);
    history.read(address::UCSR0B);
    history.read(address::UDR0);
}

/// As M10, and around it (M-103): three frames unread, the last of which waits, or more, and one that waited is lost;
/// then reads before the next frame's start, or one within its start bit, and what is left.
fn overrun(history: &mut History, random: &mut Random) {
    if random.percent(60) {
        return receive(history, random);
    }
    (0..random.between(3, 4)).for_each(|_| send_frame(history, random));
    (0..random.below(3)).for_each(|_| read_frame(history, random));
    let bit = bit_clocks(history).unwrap_or(1);
    let read_after = random.flip().then(|| random.between(1, bit));
    send_frame_read(history, read_after, random);
    (0..random.below(4)).for_each(|_| read_frame(history, random));
}

/// A byte, or a part of one, as master with divisor 2, 4, 8 or 16, and the flags after it.
fn be_master(history: &mut History, random: &mut Random) {
    let mode = random.byte() & (spi::SPIE | spi::DORD | spi::CPOL | spi::CPHA | 0x01);
    history.set_pin(level::SS, true);
    history.write(address::DDRB, random.pick(&[0x2C, 0x2C, 0x28, 0x00]));
    history.write(address::SPSR, random.byte() & spi::SPI2X);
    history.write(address::SPCR, spi::SPE | spi::MSTR | mode);
    history.write(address::SPDR, random.byte());
    let clocks = 16 * u64::from(history.device.spi.half());
    if clocks <= 16 * LONGEST_BIT {
        for _ in 0..4 {
            history.set_pin(level::MISO, random.flip());
            history.hold(clocks / 4 + random.below(2));
        }
    }
    read_byte(history, random);
}

/// A byte, or a part of one, as slave.
fn be_slave(history: &mut History, random: &mut Random) {
    let mode = random.byte() & (spi::SPIE | spi::DORD | spi::CPOL | spi::CPHA);
    history.write(address::SPCR, spi::SPE | mode);
    history.write(address::DDRB, random.pick(&[0x10, 0x10, 0x00]));
    history.write(address::SPDR, random.byte());
    history.set_pin(level::SCK, mode & spi::CPOL != 0);
    history.hold(random.below(3));
    history.set_pin(level::SS, false);
    history.hold(random.below(3));
    let edges = if random.percent(80) {
        16
    } else {
        random.below(20)
    };
    let half = random.between(1, 4);
    for _ in 0..edges {
        history.set_pin(level::SCK, history.pins & level::SCK == 0);
        history.set_pin(level::MOSI, random.flip());
        history.hold(half);
    }
    read_byte(history, random);
    history.set_pin(level::SS, random.flip());
}

/// SPIF and WCOL, armed and cleared by the accesses or by the vector.
fn read_byte(history: &mut History, random: &mut Random) {
    if random.percent(30) {
        history.take_vector(1);
    }
    if random.percent(80) {
        history.read(address::SPSR);
    }
    if random.percent(80) {
        history.read(address::SPDR);
    }
    if random.percent(30) {
        history.read(address::SPSR);
    }
}

/// A master that another master selects.
fn be_selected(history: &mut History, random: &mut Random) {
    history.write(address::DDRB, 0x28 | random.byte() & 0x04);
    history.write(
        address::SPCR,
        spi::SPE | spi::MSTR | random.byte() & spi::SPIE,
    );
    history.write(address::SPDR, random.byte());
    history.hold(random.below(5));
    history.set_pin(level::SS, false);
    history.hold(random.between(1, 3));
    history.set_pin(level::SS, true);
    history.read(address::SPCR);
    read_byte(history, random);
}

/// Any byte to any register, or to where there is none, also while something is under way.
fn meddle(history: &mut History, random: &mut Random) {
    if random.percent(40) {
        history.write(address::UDR0, random.byte());
        history.hold(random.below(20));
    }
    for _ in 0..random.between(1, 2) {
        let address = if random.percent(80) {
            random.pick(&address::ALL)
        } else {
            random.byte().into()
        };
        // UBRR stays short, else no frame would come after it.
        let value = match address {
            address::UBRR0H => random.pick(&[0x00, 0x00, 0x10, 0xF0]),
            address::UBRR0L => random.below(8) as u8,
            _ => random.byte(),
        };
        history.write(address, value);
    }
}

/// Any register, or none, and any vector.
fn look(history: &mut History, random: &mut Random) {
    for _ in 0..random.between(1, 3) {
        let any = random.byte();
        match random.below(4) {
            0 => history.take_vector(random.pick(&[0, 1, 0, 1, 2, 255, any])),
            1 => history.read(any.into()),
            _ => history.read(random.pick(&address::ALL)),
        }
    }
}

/// Any levels, for a few clocks each.
fn noise(history: &mut History, random: &mut Random) {
    for _ in 0..random.between(1, 12) {
        history.pins = random.byte() & !level::ILLEGAL;
        history.hold(random.between(1, 30));
    }
    history.pins = level::RXD | level::SS;
}

//! Part 2: random valid devices, each field random within its range and the rules of docs/RECORD.md, also states no
//! history reaches.

use crate::choice::random_call;
use crate::levels::Levels;
use crate::model::frame::{Format, Parity};
use crate::model::layout::held;
use crate::model::receiver::{Line, Received, Receiver, Receiving};
use crate::model::sender::{Sender, Shifting};
use crate::model::spi::{Flag, Spi, EDGES, MSTR, SPE};
use crate::model::usart::{Usart, UBRR_LAST};
use crate::model::Device;
use crate::pair::Pair;
use crate::random::Random;
use crate::tally::Tally;

const CALLS: u64 = 6;
const LONGEST_RUN: u64 = 80;

pub fn run(devices: u64, random: &mut Random, tally: &mut Tally) -> Result<(), String> {
    for number in 0..devices {
        let mut pair = Pair::of(random_device(random))?;
        let mut levels = Levels::new();
        for call_number in 0..CALLS {
            let call = random_call(&pair.device, &mut levels, LONGEST_RUN, random);
            pair.call(call, tally)
                .map_err(|text| format!("device {number}, call {call_number}: {text}"))?;
        }
    }
    Ok(())
}

pub fn random_device(random: &mut Random) -> Device {
    let format = random_format(random);
    let mut usart = Usart {
        format,
        ubrr: random_baud(random),
        counter: 0,
        rxcie: random.flip(),
        txcie: random.flip(),
        udrie: random.flip(),
        sender: random_sender(&format, random),
        receiver: random_receiver(&format, random),
    };
    usart.counter = random_counter(&usart, random);
    Device {
        usart,
        spi: random_spi(random),
    }
}

pub fn random_format(random: &mut Random) -> Format {
    Format {
        data_bits: random.between(5, 9) as u8,
        parity: random.pick(&[Parity::Off, Parity::Even, Parity::Odd]),
        two_stops: random.flip(),
        double_speed: random.flip(),
    }
}

/// UBRR or the baud counter: mostly small, so that ticks come in short runs.
fn random_baud(random: &mut Random) -> u16 {
    if random.percent(75) {
        random.below(4) as u16
    } else {
        random.between(0, UBRR_LAST as u64) as u16
    }
}

/// The baud counter: not above UBRR while a frame is sent or received, and as often as not else.
pub fn random_counter(usart: &Usart, random: &mut Random) -> u16 {
    if usart.in_frame() || random.flip() {
        random.between(0, usart.ubrr as u64) as u16
    } else {
        random_baud(random)
    }
}

pub fn random_sender(format: &Format, random: &mut Random) -> Sender {
    let word = format.word_of(random.next() as u16 & format.data_mask());
    let shifting = Shifting {
        bit: random.between(0, format.last_bit() as u64) as u8,
        ticks: random.below(format.ticks() as u64) as u8,
        ..Shifting::start(word, format)
    };
    Sender {
        txen: random.flip(),
        txb8: random.flip(),
        txc: random.flip(),
        buffer: random
            .flip()
            .then_some(random.next() as u16 & format.data_mask()),
        shifter: random.flip().then_some(shifting),
    }
}

fn random_receiver(format: &Format, random: &mut Random) -> Receiver {
    if random.percent(25) {
        return Receiver::reset();
    }
    let oldest = random.percent(70).then_some(random_received(random));
    let second = random.percent(60).then_some(random_received(random));
    let second = oldest.and(second);
    let waiting = random.percent(40).then_some(random_received(random));
    let waiting = second.and(waiting);
    let line = match random.flip() {
        false => Line::Idle {
            last: random.flip(),
        },
        true => Line::Frame(random_receiving(format, waiting.is_some(), random)),
    };
    Receiver {
        rxen: true,
        line,
        oldest,
        second,
        waiting,
        lost: random.flip(),
    }
}

/// A frame under way; while another one waits, its start bit is not decided yet.
fn random_receiving(format: &Format, waits: bool, random: &mut Random) -> Receiving {
    let stop_bit = format.word_bits() + 1;
    let bit = if waits {
        0
    } else {
        random.between(0, stop_bit as u64) as u8
    };
    let first = if bit == 0 { 1 } else { 0 };
    let limit = if bit == stop_bit || waits {
        format.last_vote()
    } else {
        format.ticks()
    };
    let mut frame = Receiving {
        bit,
        samples: random.between(first, limit as u64 - 1) as u8,
        votes: [false; 2],
        word: 0,
        split_votes: 0,
    };
    for vote in 0..frame.votes_kept(format) {
        frame.votes[vote] = random.flip();
    }
    frame.word = random.next() as u16 & format.word_mask() & !frame.bits_to_come(format);
    frame.split_votes = random_split_votes(frame.bits_decided(format), random);
    frame
}

/// None, as many as there can be, or any number of them.
fn random_split_votes(most: u8, random: &mut Random) -> u8 {
    let any = random.between(0, most.into()) as u8;
    random.pick(&[0, most, any, any])
}

pub fn random_received(random: &mut Random) -> Received {
    Received {
        data: random.below(512) as u16,
        fe: random.flip(),
        upe: random.flip(),
        dor: random.flip(),
        split_votes: random_split_votes(held::SPLIT_VOTES_LAST, random),
    }
}

fn random_spi(random: &mut Random) -> Spi {
    let flags = [Flag::Clear, Flag::Set, Flag::Armed];
    let mut spi = Spi {
        spcr: random.byte() | if random.percent(60) { SPE } else { 0 },
        spi2x: random.flip(),
        ddrb: random.byte(),
        shift: random.byte(),
        buffer: random.byte(),
        spif: random.pick(&flags),
        wcol: random.pick(&flags),
        mosi: random.flip(),
        miso: random.flip(),
        sck: random.flip(),
        ..Spi::reset()
    };
    if spi.has(SPE) && random.percent(70) {
        put_into_transfer(&mut spi, random);
    }
    spi
}

/// A byte under way: the bit that is out is on its pin, and a slave's SCK where the last edge brought it.
fn put_into_transfer(spi: &mut Spi, random: &mut Random) {
    spi.edges = random.below(EDGES as u64) as u8;
    let out = spi.first_bit_is_out().then_some(spi.first_bit());
    if spi.has(MSTR) {
        spi.clocks_left = random.between(1, spi.half() as u64) as u8;
        spi.mosi = out.unwrap_or(spi.mosi);
    } else if spi.edges > 0 {
        spi.miso = out.unwrap_or(spi.miso);
        spi.sck = spi.sck_of_edges();
    }
}

//! Part 4: lines of document 01, 'The line of demand 3', with the sender's bit at the limits of the rate error.

use std::collections::VecDeque;

use crate::devices::{random_device, random_format};
use crate::frames::{read_frame, Frame};
use crate::model::frame::Format;
use crate::model::receiver::{Line, Receiver};
use crate::model::sender::Sender;
use crate::model::usart::RXC;
use crate::model::{address, layout, level, Device};
use crate::pair::Pair;
use crate::random::Random;
use crate::rates::{all_formats, bits_at_limit, check_m9, Bit};
use crate::tally::Tally;

/// UBRR and the frames of a line with it.
const LENGTHS: [(u16, usize); 4] = [(0, 12), (1, 10), (3, 8), (24, 3)];
/// 'The buffer holds two frames'.
const PLACES: usize = 2;
/// Lines outside the limits, for each round over the formats.
const OUTSIDE: usize = 60;
/// Frames of such a line.
const FRAMES_OUTSIDE: usize = 8;

pub fn run(rounds: u64, random: &mut Random, tally: &mut Tally) -> Result<(), String> {
    check_m9()?;
    for _ in 0..rounds {
        for format in all_formats() {
            for (ubrr, frames) in LENGTHS {
                for q in [1, random.between(200, 5000)] {
                    for bit in bits_at_limit(&format, ubrr, q) {
                        line_inside(&format, ubrr, bit, frames, random, tally)
                            .map_err(|text| format!("{format:?}, UBRR {ubrr}, {bit:?}: {text}"))?;
                    }
                }
            }
        }
        for _ in 0..OUTSIDE {
            line_outside(random, tally).map_err(|text| format!("outside the limits: {text}"))?;
        }
    }
    Ok(())
}

/// A line of frames with random data, the first of which starts at clock 0.
struct SentLine {
    data: Vec<u16>,
    levels: Vec<u8>,
    /// The clock at which each frame's first stop bit has ended; it must have entered before.
    ends: Vec<usize>,
}

fn random_line(frames: usize, format: &Format, bit: Bit, random: &mut Random) -> SentLine {
    let mut line = SentLine {
        data: Vec::new(),
        levels: Vec::new(),
        ends: Vec::new(),
    };
    for _ in 0..frames {
        let data = random.next() as u16 & format.data_mask();
        let word = format.word_of(data);
        for t in 0..bit.frame_clocks(format) {
            // The other pins carry noise: the SPI must not matter.
            let noise = random.byte() & !(level::ILLEGAL | level::RXD);
            line.levels
                .push(noise | bit.level(word, format, t) as u8 * level::RXD);
        }
        line.data.push(data);
        line.ends.push(line.levels.len());
        // Mostly the next frame starts at the first clock it may.
        let gap = if random.percent(25) {
            random.below(3 * bit.p / bit.q)
        } else {
            0
        };
        line.levels.extend((0..gap).map(|_| level::RXD));
    }
    line
}

/// An idle receiver that remembers high, its baud counter not above UBRR, and anything in the SPI.
pub fn receiving_device(format: &Format, ubrr: u16, random: &mut Random) -> Device {
    let mut device = random_device(random);
    device.usart.format = *format;
    device.usart.ubrr = ubrr;
    device.usart.counter = random.between(0, ubrr as u64) as u16;
    device.usart.sender = Sender::reset();
    device.usart.receiver = Receiver {
        rxen: true,
        line: Line::Idle { last: true },
        ..Receiver::reset()
    };
    device
}

/// A line within the limits: exactly its frames come out, in order, without flags or split votes. Each is held in time
/// where it finds a place free, and else waits by then; a read then moves it in before the next start is accepted.
fn line_inside(
    format: &Format,
    ubrr: u16,
    bit: Bit,
    frames: usize,
    random: &mut Random,
    tally: &mut Tally,
) -> Result<(), String> {
    let line = random_line(frames, format, bit, random);
    let mut pair = Pair::of(receiving_device(format, ubrr, random))?;
    let mut unread = VecDeque::new();
    let mut clock = 0;
    for (&end, &data) in line.ends.iter().zip(&line.data) {
        run_in_pieces(&mut pair, &line.levels[clock..end], random, tally)?;
        clock = end;
        unread.push_back(Frame::plain(data));
        expect_held(&pair, unread.len())?;
        let waits = unread.len() > PLACES;
        tally.line_frames_waited += waits as u64;
        if waits || random.percent(60) {
            read_frame(&mut pair, unread.pop_front(), tally)?;
        }
    }
    let idle = vec![level::RXD; 2 * line.ends[0]];
    run_in_pieces(&mut pair, &idle, random, tally)?;
    for frame in unread.into_iter().map(Some).chain([None]) {
        read_frame(&mut pair, frame, tally)?;
    }
    tally.line_frames += frames as u64;
    Ok(())
}

/// All frames unread are there: two are held, and one more waits.
pub fn expect_held(pair: &Pair, unread: usize) -> Result<(), String> {
    let [held, waits] = [layout::FRAMES_HELD, layout::FRAME_WAITS].map(|place| pair.record[place]);
    let expected = [unread.min(PLACES), unread.saturating_sub(PLACES)];
    if [held, waits].map(usize::from) != expected {
        return Err(format!("{held} frames held, {waits} wait, of {unread}"));
    }
    Ok(())
}

fn run_in_pieces(
    pair: &mut Pair,
    levels: &[u8],
    random: &mut Random,
    tally: &mut Tally,
) -> Result<(), String> {
    let mut rest = levels;
    while !rest.is_empty() {
        let length = random.between(1, levels.len() as u64) as usize;
        let (piece, left) = rest.split_at(length.min(rest.len()));
        pair.run(piece, tally)?;
        rest = left;
    }
    Ok(())
}

/// A line up to 14 % off the rate: frames may come out wrong, but archive and model must agree.
fn line_outside(random: &mut Random, tally: &mut Tally) -> Result<(), String> {
    let format = random_format(random);
    let n = format.ticks() as u64 * 100;
    let bit = Bit {
        p: n * random.between(88, 114) / 100,
        q: 100,
    };
    let line = random_line(FRAMES_OUTSIDE, &format, bit, random);
    let mut pair = Pair::of(receiving_device(&format, 0, random))?;
    for piece in line.levels.chunks(50) {
        pair.run(piece, tally)?;
        if pair.read(address::UCSR0A, tally)? & RXC != 0 && random.percent(60) {
            pair.read(address::UDR0, tally)?;
        }
    }
    Ok(())
}

//! Part 9: frames that are read late (document 02, M-103). Lines of frames one behind the other or with gaps, with
//! false starts, errors and split votes, are read at any clocks, and at those around the last vote of a start bit. What
//! each read has to find is reckoned in reckoning.rs from the clocks of the frames and of the reads, not by the model.

use crate::frames::{read_frame, see_frame, Frame, Program};
use crate::lines::receiving_device;
use crate::model::frame::Format;
use crate::model::receiver::{Received, Receiver};
use crate::model::{level, Device};
use crate::noisy_lines::{NoisyLine, Sent};
use crate::pair::Pair;
use crate::random::Random;
use crate::rates::{all_formats, bits_at_limit, Bit};
use crate::reckoning::{Due, Reckoning};
use crate::sampling::Sampling;
use crate::tally::Tally;

/// UBRR and the frames of a line with it.
const LENGTHS: [(u16, usize); 4] = [(0, 9), (1, 8), (2, 7), (5, 6)];
/// Reads of the frames that are left at the end: two held, one that waits, and none.
const LAST_READS: usize = 4;

pub fn run(rounds: u64, random: &mut Random, tally: &mut Tally) -> Result<(), String> {
    for _ in 0..rounds {
        round(Pair::of, random, tally)?;
    }
    Ok(())
}

/// A line for each format and UBRR, received by a program that is made of a device.
pub fn round<P: Program>(
    make: impl Fn(Device) -> Result<P, String>,
    random: &mut Random,
    tally: &mut Tally,
) -> Result<(), String> {
    for format in all_formats() {
        for (ubrr, frames) in LENGTHS {
            let bit = random_bit(&format, ubrr, random);
            let (device, first) = holding_device(&format, ubrr, random);
            let sampling = Sampling::new(&format, ubrr, device.usart.counter);
            let line = random_line(frames, NoisyLine::new(&format, bit, sampling), random);
            play(&line, first, &mut make(device)?, random, tally)
                .map_err(|text| format!("{format:?}, UBRR {ubrr}, {bit:?}: {text}"))?;
        }
    }
    Ok(())
}

fn random_bit(format: &Format, ubrr: u16, random: &mut Random) -> Bit {
    let [shortest, longest] = bits_at_limit(format, ubrr, 1);
    let p = random.between(shortest.p, longest.p);
    Bit { p, q: 1 }
}

fn random_line(frames: usize, mut line: NoisyLine, random: &mut Random) -> NoisyLine {
    for _ in 0..frames {
        line.add_gap(random);
        line.add_frame(random);
        if random.flip() {
            line.spoil(random);
        }
    }
    line
}

/// What a line finds: frames held, oldest first, the last of three waiting, and a loss that is pending.
struct First {
    frames: Vec<Frame>,
    lost: bool,
}

/// An idle receiver that remembers high, with any frames at first.
fn holding_device(format: &Format, ubrr: u16, random: &mut Random) -> (Device, First) {
    let first = First {
        frames: (0..random.pick(&[0, 0, 1, 2, 3]))
            .map(|_| random_frame(random))
            .collect(),
        lost: random.percent(25),
    };
    let mut device = receiving_device(format, ubrr, random);
    let place = |number: usize| first.frames.get(number).map(received);
    device.usart.receiver = Receiver {
        oldest: place(0),
        second: place(1),
        waiting: place(2),
        lost: first.lost,
        ..device.usart.receiver
    };
    (device, first)
}

/// Of any format: one that is held is not bound by the present one.
fn random_frame(random: &mut Random) -> Frame {
    Frame {
        data: random.below(512) as u16,
        fe: random.flip(),
        upe: random.flip(),
        dor: random.flip(),
        split_votes: random.between(0, 12) as u8,
    }
}

fn received(frame: &Frame) -> Received {
    Received {
        data: frame.data,
        fe: frame.fe,
        upe: frame.upe,
        dor: frame.dor,
        split_votes: frame.split_votes,
    }
}

/// The frames of a line behind those at first.
fn dues(line: &NoisyLine, first: &First) -> Vec<Due> {
    let at_first = first.frames.iter().map(|&frame| Due::at_first(frame));
    at_first.chain(line.frames.iter().map(Due::of)).collect()
}

/// The numbers of clocks after which UDR0 is read, in order.
fn random_reads(line: &NoisyLine, random: &mut Random) -> Vec<usize> {
    let percent = random.pick(&[20, 60, 85, 100]);
    let mut reads = Vec::new();
    let mut before = 0;
    for sent in &line.frames {
        if random.percent(percent) {
            reads.push(random_read(before, sent, random));
        }
        if random.percent(percent / 4) {
            reads.push(random_read(before, sent, random));
        }
        before = sent.completes + 1;
    }
    reads.sort_unstable();
    reads
}

/// A read until a frame completes, mostly around one of its clocks. One after as many clocks as a clock's number, from
/// 0, is the last before that clock.
fn random_read(before: usize, sent: &Sent, random: &mut Random) -> usize {
    let clock = random.pick(&[
        sent.first as usize,
        sent.accepted,
        sent.accepted,
        sent.completes,
    ]);
    let any = random.between(before as u64, sent.completes as u64) as usize;
    match random.below(6) {
        0 => any,
        1 => clock.saturating_sub(1),
        2 | 3 => clock + 1,
        _ => clock,
    }
}

fn play(
    line: &NoisyLine,
    first: First,
    program: &mut impl Program,
    random: &mut Random,
    tally: &mut Tally,
) -> Result<(), String> {
    let mut levels = line.levels.clone();
    // Nothing more comes in as much time as a frame takes.
    levels.resize(levels.len() + levels.len() / line.frames.len(), level::RXD);
    let mut reads = random_reads(line, random);
    reads.resize(reads.len() + LAST_READS, levels.len());
    let reckoning = Reckoning::new(dues(line, &first), reads, first.lost);
    let mut clock = 0;
    for (number, &read) in reckoning.reads.iter().enumerate() {
        let middle = random.between(clock as u64, read as u64) as usize;
        program.pass_levels(&levels[clock..middle], tally)?;
        see_frame(program, reckoning.oldest(middle, number), tally)
            .map_err(|text| format!("after {middle} clocks: {text}"))?;
        program.pass_levels(&levels[middle..read], tally)?;
        clock = read;
        read_frame(program, reckoning.oldest(read, number), tally)
            .map_err(|text| format!("read after {read} clocks: {text}"))?;
    }
    reckoning.count(&mut tally.late);
    tally.late.false_starts += line.false_starts;
    Ok(())
}

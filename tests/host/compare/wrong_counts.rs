//! Counts of split votes that are wrong on purpose, in the place of the archive's, and noise that no majority can mend:
//! each has to be seen, else the test could not fail. They are made of the model; what is not wrong on purpose is
//! right.

use crate::counter::{Counter, Way};
use crate::frames::Program;
use crate::lines::receiving_device;
use crate::model::frame::Format;
use crate::model::layout::held::SPLIT_VOTES_LAST;
use crate::noise;
use crate::noisy_lines::NoisyLine;
use crate::pair::Pair;
use crate::random::Random;
use crate::rates::{all_formats, bits_at_limit};
use crate::sampling::Sampling;
use crate::tally::Tally;
use crate::votes::{DATA, PARITY, START, STOP};
use crate::wrong_asks;
use crate::wrong_ways::*;

#[rustfmt::skip] // a line each
pub const WRONG: [(&str, Way); 27] = [
    ("not cleared for the next frame", Way { begin: after_any, ..RIGHT }),
    ("a dropped start's vote goes to the next frame", Way { begin: after_dropped, ..RIGHT }),
    ("a lost frame's count goes to the next frame", Way { accept: hand_on, ..RIGHT }),
    ("the start bit not counted", Way { vote: |vote| all_but(START, vote), ..RIGHT }),
    ("data bits not counted", Way { vote: |vote| all_but(DATA, vote), ..RIGHT }),
    ("the parity bit not counted", Way { vote: |vote| all_but(PARITY, vote), ..RIGHT }),
    ("the stop bit not counted", Way { vote: |vote| all_but(STOP, vote), ..RIGHT }),
    ("1 however many", Way { vote: |vote| counted(vote).min(1), ..RIGHT }),
    ("11 for 12", Way { vote: |vote| counted(vote).min(SPLIT_VOTES_LAST - 1), ..RIGHT }),
    ("three bits of the count", Way { vote: |vote| counted(vote) & 7, ..RIGHT }),
    ("votes unlike the first, not bits", Way { vote: unlike_the_first, ..RIGHT }),
    ("all samples of a bit vote", Way { vote: all_samples, ..RIGHT }),
    ("the sample before the votes votes too", Way { vote: four_samples, ..RIGHT }),
    ("the first vote not looked at", Way { vote: |vote| of_two([1, 2], vote), ..RIGHT }),
    ("the second vote not looked at", Way { vote: |vote| of_two([0, 2], vote), ..RIGHT }),
    ("the last vote not looked at", Way { vote: |vote| of_two([0, 1], vote), ..RIGHT }),
    ("low bits alone", Way { vote: |vote| voted(false, vote), ..RIGHT }),
    ("high bits alone", Way { vote: |vote| voted(true, vote), ..RIGHT }),
    ("the count of one that waits put to the second", Way { enter: enter_over_second, ..RIGHT }),
    ("no count of one that waits", Way { enter: enter_without_waiting, ..RIGHT }),
    ("the second's count lost with the one that waits", Way { accept: lose_second, ..RIGHT }),
    ("no count beside DOR", Way { enter: enter_without_dor, ..RIGHT }),
    ("a read takes the newest frame's count", Way { take: take_newest, ..RIGHT }),
    ("the newest frame's", Way { answer: |held, _| newest(held), ..RIGHT }),
    ("the one's that waits", Way { answer: |held, _| *held.get(2).unwrap_or(&oldest(held)), ..RIGHT }),
    ("the frame's under way", Way { answer: |held, under_way| under_way.unwrap_or(oldest(held)), ..RIGHT }),
    ("the frame's under way where none is held", Way { answer: oldest_or, ..RIGHT }),
];

/// Rounds in which each must be seen; the right way goes through all of them.
pub const ROUNDS: u64 = 3;

/// Answers how many there are. The means by which they are made, with nothing made wrong, must not be seen: then a
/// wrong one is seen for what is wrong with it.
pub fn all_are_seen(seed: u64) -> Result<u64, String> {
    play(RIGHT, seed).map_err(|text| format!("a count with nothing wrong: {text}"))?;
    for (name, way) in WRONG {
        if play(way, seed).is_ok() {
            return Err(format!(
                "lines with noise do not see what is wrong with: {name}"
            ));
        }
    }
    Ok(WRONG.len() as u64 + wrong_asks::all_are_seen(seed)?)
}

fn play(way: Way, seed: u64) -> Result<(), String> {
    let mut random = Random::new(seed);
    let mut tally = Tally::default();
    (0..ROUNDS).try_for_each(|_| {
        noise::round(
            |device| Ok(Counter::new(device, way)),
            &mut random,
            &mut tally,
        )
    })
}

/// Two of a bit's three votes are turned over: the vote is lost, and the frame comes out with other data or a flag, or
/// not at all. Answers how many such frames there are, of every format, bit and choice of votes. Each must be seen in
/// the same way with the archive as with the model alone.
pub fn two_turned_over_are_seen(seed: u64) -> Result<u64, String> {
    let mut random = Random::new(seed);
    let mut seen = 0;
    for format in all_formats() {
        for bit in 0..u64::from(format.word_bits()) + 2 {
            for votes in [[0, 1], [0, 2], [1, 2]] {
                is_seen(&format, bit, votes, &mut random)
                    .map_err(|text| format!("{format:?}, votes {votes:?} of bit {bit}: {text}"))?;
                seen += 1;
            }
        }
    }
    Ok(seen)
}

fn is_seen(
    format: &Format,
    bit: u64,
    votes: [usize; 2],
    random: &mut Random,
) -> Result<(), String> {
    let ubrr = random.below(3) as u16;
    let device = receiving_device(format, ubrr, random);
    let sampling = Sampling::new(format, ubrr, device.usart.counter);
    let length = random.pick(&bits_at_limit(format, ubrr, 1));
    let mut line = NoisyLine::new(format, length, sampling);
    line.add_frame(random);
    votes.iter().for_each(|&vote| line.turn_over(bit, vote));
    let seed = random.next();
    let [of_model, of_archive] = [
        play_line(&line, Counter::new(device, RIGHT), seed),
        play_line(&line, Pair::of(device)?, seed),
    ];
    match (of_model, of_archive) {
        (Err(text), Err(same)) if text == same => Ok(()),
        other => Err(format!("model and archive: {other:?}")),
    }
}

fn play_line(line: &NoisyLine, mut program: impl Program, seed: u64) -> Result<(), String> {
    noise::play(
        line,
        &mut program,
        &mut Random::new(seed),
        &mut Tally::default(),
    )
}

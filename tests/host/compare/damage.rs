//! Part 3: damaged records. 5 must be answered exactly when the model finds no device in the bytes. The long form is
//! `make compare SCALE=3`, or more: 13.5 million records, of which more than ten million differ from what they were.

use crate::call::compare;
use crate::choice::{call_of_kind, random_call};
use crate::devices::random_device;
use crate::levels::Levels;
use crate::model::layout::{self, held, LENGTH};
use crate::model::receiver::Line;
use crate::model::record::decode;
use crate::model::spi::EDGES;
use crate::model::usart::{Usart, RXB8, TXC, U2X, UBRR_LAST};
use crate::model::Device;
use crate::pair::Pair;
use crate::random::Random;
use crate::tally::{Tally, KINDS};

const LONGEST_RUN: u64 = 40;

/// Bytes that take every value whatever the others hold: no change in one of them alone can be refused.
fn is_free(place: usize) -> bool {
    matches!(place, layout::DDRB | layout::SPI_BUFFER)
}

/// Bytes that can not be changed alone: a frame being received has samples or bits, an idle line has none; the layout
/// has one number; the rest is unused.
fn is_tied(place: usize) -> bool {
    matches!(place, layout::RECEIVING | layout::NUMBER_PLACE) || layout::is_unused(place)
}

/// Answers to records with a single byte damaged, by that byte.
struct Alone {
    refused: [u64; LENGTH],
    accepted: [u64; LENGTH],
}

pub fn run(records: u64, random: &mut Random, tally: &mut Tally) -> Result<(), String> {
    let mut alone = Alone {
        refused: [0; LENGTH],
        accepted: [0; LENGTH],
    };
    let mut history = Pair::reset(tally)?;
    let mut levels = Levels::new();
    for number in 0..records {
        let call = random_call(&history.device, &mut levels, LONGEST_RUN, random);
        history
            .call(call, tally)
            .map_err(|text| format!("history, call {number}: {text}"))?;
        let device = if random.flip() {
            history.device
        } else {
            random_device(random)
        };
        let base = Pair::of(device)?;
        let mut bytes = damaged(&base, random);
        // All kinds of calls one after another, so that each of them meets every damage.
        let call = call_of_kind(
            number as usize % KINDS.len(),
            &device,
            &mut levels,
            LONGEST_RUN,
            random,
        );
        count(&base, &bytes, &mut alone, tally);
        let mut found = decode(&bytes);
        compare(&mut bytes, &mut found, call, tally)
            .map_err(|text| format!("record {number}: {text}"))?;
    }
    alone.check(tally)
}

/// The bytes of a pair's record with some of them changed, or more or fewer of them.
pub fn damaged(base: &Pair, random: &mut Random) -> Vec<u8> {
    let mut bytes = base.record.to_vec();
    match random.below(100) {
        0..=74 => damage_byte(&mut bytes, &base.device, random),
        75..=93 => {
            (0..random.between(2, 4)).for_each(|_| damage_byte(&mut bytes, &base.device, random))
        }
        94..=96 => bytes.iter_mut().for_each(|byte| *byte = random.byte()),
        97 => bytes.resize(random.pick(&[0, 1, 32, 63, 65, 128, 200]), 0),
        _ => bytes.resize(random.below(130) as usize, 0),
    }
    bytes
}

/// Changes one byte: a bit, to anything, or to the edge of its range.
fn damage_byte(bytes: &mut [u8], device: &Device, random: &mut Random) {
    let place = random.below(LENGTH as u64) as usize;
    bytes[place] = match random.below(4) {
        0 => bytes[place] ^ 1 << random.below(8),
        1 => random.byte(),
        _ => (limit(place, device) + random.pick(&[0, 1, 2])).wrapping_sub(1) as u8,
    };
}

/// The first value above a byte's range, or 256; for a byte not in use that of the field in use.
fn limit(place: usize, device: &Device) -> u16 {
    let format = &device.usart.format;
    for (word, last) in last_words(&device.usart) {
        if place == word {
            return last.min(255) + 1;
        }
        if place == word + 1 {
            return (last >> 8) + 1;
        }
    }
    match place {
        layout::UCSR0A => (TXC | U2X) as u16 + 1,
        layout::UCSR0B => !RXB8 as u16 + 1,
        layout::UCSR0C => 0x3E + 1,
        layout::SENT_BIT => format.last_bit() as u16 + 1,
        layout::SENT_TICKS => format.ticks() as u16,
        layout::SAMPLED_BIT => bit_limit(&device.usart),
        layout::SAMPLES => samples_limit(&device.usart),
        // At most D + 1 bits are decided as long as the frame is being received.
        layout::SPLIT_VOTES => match device.usart.receiver.line {
            Line::Frame(frame) => frame.bits_decided(format) as u16 + 1,
            _ => format.word_bits() as u16 + 2,
        },
        layout::OLDEST_SPLIT_VOTES | layout::SECOND_SPLIT_VOTES | layout::WAITING_SPLIT_VOTES => {
            held::SPLIT_VOTES_LAST as u16 + 1
        }
        layout::FRAMES_HELD | layout::SPIF | layout::WCOL => 3,
        layout::OLDEST_FLAGS | layout::SECOND_FLAGS | layout::WAITING_FLAGS => held::LIMIT as u16,
        layout::OLDEST_DATA | layout::SECOND_DATA | layout::WAITING_DATA => 256,
        layout::SPCR | layout::DDRB | layout::SHIFT | layout::SPI_BUFFER => 256,
        layout::EDGES => EDGES as u16,
        layout::CLOCKS_LEFT => device.spi.half() as u16 + 1,
        layout::NUMBER_PLACE => layout::NUMBER as u16 + 1,
        _ if layout::is_unused(place) => 1,
        _ => 2,
    }
}

/// Of the bit being sampled: while a frame waits, the next one's start bit is not decided yet.
fn bit_limit(usart: &Usart) -> u16 {
    match usart.receiver.waiting {
        Some(_) => 1,
        None => usart.format.word_bits() as u16 + 2,
    }
}

/// Of the samples taken of that bit.
fn samples_limit(usart: &Usart) -> u16 {
    let format = &usart.format;
    match usart.receiver.line {
        Line::Frame(frame) if frame.bit > format.word_bits() => format.last_vote() as u16,
        _ if usart.receiver.waiting.is_some() => format.last_vote() as u16,
        _ => format.ticks() as u16,
    }
}

/// The greatest value of each field that is a word, at the field's place.
fn last_words(usart: &Usart) -> [(usize, u16); 5] {
    let format = &usart.format;
    let counter = if usart.in_frame() {
        usart.ubrr
    } else {
        UBRR_LAST
    };
    [
        (layout::UBRR, UBRR_LAST),
        (layout::COUNTER, counter),
        (layout::BUFFER, format.data_mask()),
        (layout::SENT_WORD, format.word_mask()),
        (layout::RECEIVED_WORD, format.word_mask()),
    ]
}

fn count(base: &Pair, bytes: &[u8], alone: &mut Alone, tally: &mut Tally) {
    let refused = decode(bytes).is_none();
    if *bytes == base.record[..] {
        return;
    }
    if refused {
        tally.damaged_refused += 1;
    } else {
        tally.damaged_accepted += 1;
    }
    if bytes.len() == LENGTH {
        let changed: Vec<usize> = (0..LENGTH)
            .filter(|&place| bytes[place] != base.record[place])
            .collect();
        if let [place] = changed[..] {
            let counts = if refused {
                &mut alone.refused
            } else {
                &mut alone.accepted
            };
            counts[place] += 1;
        }
    }
}

impl Alone {
    /// Every byte must have been the only cause of a refusal, and the only change of an accepted record, where it can.
    fn check(&self, tally: &mut Tally) -> Result<(), String> {
        tally.least_refused =
            least(&self.refused, is_free).map_err(|text| format!("refusals, {text}"))?;
        tally.least_accepted =
            least(&self.accepted, is_tied).map_err(|text| format!("acceptances, {text}"))?;
        Ok(())
    }
}

/// The least of the counts; those of the excepted bytes must be 0, and no other.
fn least(counts: &[u64; LENGTH], excepted: fn(usize) -> bool) -> Result<u64, String> {
    for (place, &count) in counts.iter().enumerate() {
        if (count == 0) != excepted(place) {
            return Err(format!("byte {place} alone: {count}"));
        }
    }
    Ok(counts
        .iter()
        .copied()
        .filter(|&count| count > 0)
        .min()
        .unwrap_or(0))
}

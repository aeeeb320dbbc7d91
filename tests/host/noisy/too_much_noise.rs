//! One hit more than M-112 allows (allowed_noise.rs): two votes of a bit are turned over. Played as the lines with
//! allowed noise are, it has to be seen, in every bit of every format; and what breaks is what document 01 says of that
//! bit. A start bit 'is dropped at its last vote', a data bit comes out turned over (with UPE, where parity is on), a
//! parity bit makes UPE alone, and a stop bit FE alone.

use crate::allowed_noise::{add_frame, STOP_VOTES};
use crate::allowed_tally::AllowedTally;
use crate::frames::Frame;
use crate::model::frame::Format;
use crate::model::layout::RECEIVING;
use crate::model::Device;
use crate::noisy_lines::NoisyLine;
use crate::pair::Pair;
use crate::playing::{self, Reading};
use crate::random::Random;
use crate::rates::{all_formats, bits_at_limit};
use crate::settings::Setting;
use crate::tally::Tally;
use crate::votes::{kind_of, START, STOP};

const PAIRS: [[usize; 2]; 3] = [[0, 1], [0, 2], [1, 2]];
/// The frame that has two votes of a bit turned over, with one before it and one behind it.
const BROKEN: usize = 1;

/// Two votes of a bit of a line's frame.
struct Case {
    setting: Setting,
    bit: u64,
    kind: usize,
    votes: [usize; 2],
}

pub fn breaks_frames(seed: u64, tally: &mut AllowedTally) -> Result<(), String> {
    let mut random = Random::new(seed);
    each_two_votes(|&format, bit, votes| {
        let ubrr = random.pick(&[0, 1, 2, 7]);
        let limits = bits_at_limit(&format, ubrr, 1000);
        let case = Case {
            setting: Setting {
                format,
                ubrr,
                bit: random.pick(&limits),
            },
            bit,
            kind: kind_of(bit as u8, &format),
            votes,
        };
        let checked = case.check(&mut random);
        tally.broken[format.double_speed as usize][case.kind] += checked.is_ok() as u64;
        checked.map_err(|text| format!("{:?}: {text}", case.setting))
    })
}

/// Goes through two votes of a bit, all of them of each bit of every format.
pub fn each_two_votes(
    mut go: impl FnMut(&Format, u64, [usize; 2]) -> Result<(), String>,
) -> Result<(), String> {
    for format in all_formats() {
        for bit in 0..u64::from(format.word_bits()) + 2 {
            for votes in PAIRS {
                go(&format, bit, votes)
                    .map_err(|text| format!("{format:?}, votes {votes:?} of bit {bit}: {text}"))?;
            }
        }
    }
    Ok(())
}

impl Case {
    fn check(&self, random: &mut Random) -> Result<(), String> {
        let device = self.setting.device(random);
        let (mut line, broken) = self.line(&device, random);
        let seed = random.next();
        let Err(seen) = play(&line, device, seed) else {
            return Err("not seen".to_string());
        };
        if self.kind == START {
            return self.check_dropped(line, device, &seen, seed);
        }
        // All the rest, the count of split votes too, is as with allowed noise.
        line.frames[BROKEN].frame = broken;
        play(&line, device, seed).map_err(|text| format!("broken in another way: {text}"))
    }

    /// The line, where the frame has the bit as it was sent, and the frame as it has to come out.
    fn line(&self, device: &Device, random: &mut Random) -> (NoisyLine, Frame) {
        let Setting { format, ubrr, .. } = self.setting;
        let mut line = self.setting.line_to(device);
        add_frame(&mut line, random);
        if self.kind == START {
            line.add_frame_of(data_without_falling_edge(&format, random), random);
        } else {
            line.add_frame(random);
            let mut others = line.any_bits(random);
            others.retain(|&bit| bit != self.bit);
            line.hit_bits(&others, STOP_VOTES, random);
        }
        self.votes.iter().for_each(|&v| line.turn_over(self.bit, v));
        let sent = line.frames[BROKEN].frame;
        if self.kind != START {
            line.note_votes(self.bit, 2);
        }
        let broken = line.frames[BROKEN].frame;
        // A vote of two against one is split, whichever way it goes.
        let split_votes = sent.split_votes + 1;
        line.frames[BROKEN].frame = Frame {
            split_votes,
            ..sent
        };
        if self.kind == STOP {
            // A tick comes before the next start, so that a last vote turned over does not matter to it.
            line.add_high(u64::from(ubrr) + 1);
        }
        add_frame(&mut line, random);
        (line, broken)
    }

    /// No frame is there after the clock with which it would have completed, since none was being received after its
    /// start's last vote. Where that vote is low, as the rest of the bit is, the receiver finds no other start on this
    /// line; nor does it where the bit behind is high: a start found after a high last vote is dropped too.
    fn check_dropped(
        &self,
        mut line: NoisyLine,
        device: Device,
        seen: &str,
        seed: u64,
    ) -> Result<(), String> {
        let sent = line.frames.remove(BROKEN);
        if !seen.starts_with(&format!("after {} clocks", sent.completes + 1)) {
            return Err(format!("seen elsewhere: {seen}"));
        }
        if is_receiving_after(&line, device, sent.accepted)? {
            return Err("a start bit voted high was not dropped".to_string());
        }
        let is_lost = self.votes == [0, 1] || sent.frame.data & 1 == 1;
        match (is_lost, play(&line, device, seed)) {
            (true, Err(text)) => Err(format!("more than the frame is missing: {text}")),
            (false, Ok(())) => Err("no other start was found in the frame".to_string()),
            _ => Ok(()),
        }
    }
}

/// Plays a line to the archive.
pub fn play(line: &NoisyLine, device: Device, seed: u64) -> Result<(), String> {
    let (mut random, mut tally) = (Random::new(seed), Tally::default());
    let mut pair = Pair::of(device)?;
    playing::play(
        line,
        &Reading::default(),
        &mut pair,
        &mut random,
        &mut tally,
    )
    .map(|_| ())
}

/// After the clock with this number the archive's record says that a frame is being received.
pub fn is_receiving_after(line: &NoisyLine, device: Device, clock: usize) -> Result<bool, String> {
    let mut pair = Pair::of(device)?;
    pair.run(&line.levels[..=clock], &mut Tally::default())?;
    Ok(pair.record[RECEIVING] == 1)
}

/// Data whose word, from its first bit on, is low and then high, so that start bit, word and stop bit have no falling
/// edge but the first.
pub fn data_without_falling_edge(format: &Format, random: &mut Random) -> u16 {
    let all = (0..=format.data_bits).map(|low| format.data_mask() << low & format.data_mask());
    let fitting: Vec<u16> = all
        .filter(|&data| {
            let lows = !format.word_of(data) & format.word_mask();
            lows & (lows + 1) == 0
        })
        .collect();
    random.pick(&fitting)
}

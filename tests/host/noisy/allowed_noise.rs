//! Lines with allowed noise (document 02, M-112): 'only voting samples, at most one of the three in each bit, and never
//! the last vote of a stop bit. All other premises as they now stand.' The sender's bit is the shortest or the longest
//! within the limits of the rate error, the line is high before, between and after its frames, and reads come so that
//! none waits when a start is accepted (M-103). Exactly the line's frames come out, in order, with FE, DOR and UPE
//! clear, each in time, and its split votes are 'the number of bits so hit': a number chosen here.

use crate::allowed_lines::{AllowedLine, Chosen};
use crate::devices::{random_received, random_sender};
use crate::held::Holder;
use crate::interrupted::Interrupted;
use crate::model::frame::Format;
use crate::model::receiver::Received;
use crate::model::Device;
use crate::noisy_lines::{NoisyLine, Sent};
use crate::pair::Pair;
use crate::playing::{self, Reading};
use crate::random::Random;
use crate::rates::{all_formats, bits_at_limit, rate_limit, Bit};
use crate::settings::{self, Setting};
use crate::totals::Totals;
use crate::watched::Watched;

/// UBRR and the frames of a line with it.
const LENGTHS: [(u16, usize); 4] = [(0, 8), (1, 6), (2, 5), (7, 6)];
/// One line a round has UBRR from the first to the second of these, and so many frames: more of them, or a larger UBRR.
const LONG: [(u64, u64, usize); 4] = [(0, 3, 100), (8, 63, 4), (64, 1023, 2), (1024, 4095, 1)];
/// Rounds whose lines are watched clock by clock are so many rounds apart, and those with other calls between clocks.
const ROUNDS_APART: u64 = 20;
/// The votes of a stop bit that may be turned over, from the first: 'never the last vote of a stop bit'.
pub const STOP_VOTES: u64 = 2;

pub fn run(rounds: u64, random: &mut Random, totals: &mut Totals) -> Result<(), String> {
    (0..rounds).try_for_each(|number| {
        match number % ROUNDS_APART {
            0 => watched_round(random, totals)?,
            1 => interrupted_round(random, totals)?,
            _ => round(Pair::of, random, totals)?,
        }
        long_line(random, totals)
    })
}

/// A line for each format and UBRR.
fn each_case(
    random: &mut Random,
    mut go: impl FnMut(&Case, &mut Random) -> Result<(), String>,
) -> Result<(), String> {
    settings::each(&LENGTHS, bit_at_limit, random, |setting, frames, random| {
        go(&Case::random(setting, frames, random), random)
    })
}

/// The lines are received by a program that is made of a device.
pub fn round<P: Holder>(
    make: impl Fn(Device) -> Result<P, String>,
    random: &mut Random,
    totals: &mut Totals,
) -> Result<(), String> {
    each_case(random, |case, random| {
        case.play(&mut make(case.device)?, random, totals)
    })
}

fn watched_round(random: &mut Random, totals: &mut Totals) -> Result<(), String> {
    each_case(random, |case, random| {
        let mut watched = Watched::new(Pair::of(case.device)?, &case.line);
        case.play(&mut watched, random, totals)?;
        watched.check(&case.line, &mut totals.allowed)?;
        watched.sees_other_lines(&case.line, random)
    })
}

fn interrupted_round(random: &mut Random, totals: &mut Totals) -> Result<(), String> {
    each_case(random, |case, random| {
        let mut interrupted = Interrupted::new(Pair::of(case.device)?, random.next());
        case.play(&mut interrupted, random, totals)?;
        totals.allowed.other_calls += interrupted.calls;
        Ok(())
    })
}

fn long_line(random: &mut Random, totals: &mut Totals) -> Result<(), String> {
    let (least, greatest, frames) = random.pick(&LONG);
    let format = random.pick(&all_formats());
    let ubrr = random.between(least, greatest) as u16;
    let bit = bit_at_limit(&format, ubrr, random);
    let setting = Setting { format, ubrr, bit };
    let case = Case::random(&setting, frames, random);
    case.play(&mut Pair::of(case.device)?, random, totals)
        .map_err(|text| format!("{setting:?}: {text}"))?;
    let is_larger = LENGTHS.iter().all(|&(other, _)| other < ubrr);
    totals.allowed.larger_ubrr += is_larger as u64;
    totals.allowed.long_lines += !is_larger as u64;
    Ok(())
}

/// The shortest or the longest bit. With these Q it lies at the limit itself, or as near as whole P and Q bring it.
fn bit_at_limit(format: &Format, ubrr: u16, random: &mut Random) -> Bit {
    let r = rate_limit(format);
    let any = random.between(200, 5000);
    let q = random.pick(&[1, any, 1000 + r, 1000 - r]);
    random.pick(&bits_at_limit(format, ubrr, q))
}

/// A line, and a device that receives it.
struct Case {
    device: Device,
    line: AllowedLine,
    reading: Reading,
}

impl Case {
    /// Frames may be held at first, but 'none waits at first' (M-103); and the sender may be at work.
    fn random(setting: &Setting, frames: usize, random: &mut Random) -> Case {
        let held = random.pick(&[0, 0, 0, 1, 2]);
        let held: Vec<Received> = (0..held).map(|_| random_received(random)).collect();
        let mut device = setting.holding_device(&held, false, random);
        device.usart.sender = random_sender(&setting.format, random);
        let mut line = setting.line_to(&device);
        let chosen = (0..frames).map(|_| add_frame(&mut line, random)).collect();
        Case {
            device,
            line: AllowedLine {
                noisy: line,
                chosen,
            },
            reading: Reading {
                at_first: held.into_iter().map(Into::into).collect(),
                is_slow: false,
            },
        }
    }

    fn play(
        &self,
        program: &mut impl Holder,
        random: &mut Random,
        totals: &mut Totals,
    ) -> Result<(), String> {
        for (sent, chosen) in self.line.frames() {
            self.expect_allowed(sent, chosen)?;
            self.expect_in_time(sent, chosen)?;
        }
        let (line, tally) = (&self.line.noisy, &mut totals.tally);
        let played = playing::play(line, &self.reading, program, random, tally)?;
        if played.lost > 0 {
            return Err("one waited when a start was accepted".to_string());
        }
        totals.allowed.count(&self.line, &played);
        Ok(())
    }

    /// 'at most one of the three in each bit, and never the last vote of a stop bit'; and the count that the frame has
    /// to come out with is 'the number of bits so hit'.
    fn expect_allowed(&self, sent: &Sent, chosen: &Chosen) -> Result<(), String> {
        let hits = &chosen.hits;
        let bits = self.line.noisy.voted_bits();
        let hits_of = |bit| hits.iter().filter(|hit| hit.bit == bit).count();
        let hit = (0..bits).filter(|&bit| hits_of(bit) == 1).count();
        let is_last = |bit, vote| bit == bits - 1 && vote == 2;
        let is_allowed = hit == hits.len()
            && hit == sent.frame.split_votes as usize
            && !hits.iter().any(|hit| is_last(hit.bit, hit.vote));
        match is_allowed {
            true => Ok(()),
            false => Err(format!("noise that is not allowed: {hits:?}")),
        }
    }

    /// 'it is in time if it enters at a clock n+t with t·Q < (D+2)·P'. Where it has to wait it waits by then.
    fn expect_in_time(&self, sent: &Sent, chosen: &Chosen) -> Result<(), String> {
        let t = sent.completes as u64 - chosen.start;
        let Bit { p, q } = self.line.noisy.bit;
        if t * q >= self.line.noisy.voted_bits() * p {
            return Err(format!("reckoned to complete {t} clocks after its start"));
        }
        Ok(())
    }
}

/// A frame as close to the one before it as the rule allows, or with a pause between, and with allowed noise in none,
/// all or any number of its bits.
pub fn add_frame(line: &mut NoisyLine, random: &mut Random) -> Chosen {
    if random.percent(30) {
        line.add_pause(random);
    }
    let start = line.levels.len() as u64;
    line.add_frame(random);
    let bits = line.any_bits(random);
    Chosen {
        start,
        hits: line.hit_bits(&bits, STOP_VOTES, random),
    }
}

//! The counts of split votes that are wrong on purpose (compare/wrong_counts.rs), on lines with noise and on lines with
//! allowed noise, both played as the archive's are (playing.rs), and noise that no majority can mend: each has to be
//! seen, else the test could not fail.

use crate::allowed_noise;
use crate::counter::{Counter, Way};
use crate::held::Holder;
use crate::model::frame::Format;
use crate::noise;
use crate::noisy_lines::NoisyLine;
use crate::pair::Pair;
use crate::playing::{self, Reading};
use crate::random::Random;
use crate::rates::bits_at_limit;
use crate::settings::{self, Setting};
use crate::tally::Tally;
use crate::too_much_noise::each_two_votes;
use crate::totals::Totals;
use crate::wrong_counts::{ROUNDS, WRONG};
use crate::wrong_ways::RIGHT;

/// Seen on lines with noise alone: the others have no false start, no loss, and no noise beside the votes.
const BESIDE: [&str; 5] = [
    "a dropped start's vote goes to the next frame",
    "a lost frame's count goes to the next frame",
    "the sample before the votes votes too",
    "the second's count lost with the one that waits",
    "no count beside DOR",
];

/// What a way to count is played in.
type Scene = fn(Way, &mut Random, &mut Totals) -> Result<(), String>;

const SCENES: [(&str, Scene); 2] = [
    ("lines with noise", on_lines),
    ("lines with allowed noise", on_allowed_lines),
];

/// Answers how many there are. The means by which they are made, with nothing made wrong, must not be seen: then a
/// wrong one is seen for what is wrong with it.
pub fn all_are_seen(seed: u64) -> Result<u64, String> {
    for (place, scene) in SCENES {
        play(scene, RIGHT, seed)
            .map_err(|text| format!("{place}, a count with nothing wrong: {text}"))?;
    }
    for (name, way) in WRONG {
        let scenes = if BESIDE.contains(&name) { 1 } else { 2 };
        for (place, scene) in &SCENES[..scenes] {
            if play(*scene, way, seed).is_ok() {
                return Err(format!("{place} do not see what is wrong with: {name}"));
            }
        }
    }
    Ok(WRONG.len() as u64)
}

fn play(scene: Scene, way: Way, seed: u64) -> Result<(), String> {
    let mut random = Random::new(seed);
    let mut totals = Totals::default();
    (0..ROUNDS).try_for_each(|_| scene(way, &mut random, &mut totals))
}

fn on_lines(way: Way, random: &mut Random, totals: &mut Totals) -> Result<(), String> {
    let (lengths, random_bit) = (&noise::LENGTHS, noise::random_bit);
    settings::each(lengths, random_bit, random, |setting, frames, random| {
        let device = setting.device(random);
        let line = noise::random_line(frames, setting.line_to(&device), random);
        play_line(&line, Counter::new(device, way), random, &mut totals.tally)
    })
}

fn on_allowed_lines(way: Way, random: &mut Random, totals: &mut Totals) -> Result<(), String> {
    allowed_noise::round(|device| Ok(Counter::new(device, way)), random, totals)
}

/// Some lines are read so slowly that frames are lost.
fn play_line(
    line: &NoisyLine,
    mut program: impl Holder,
    random: &mut Random,
    tally: &mut Tally,
) -> Result<(), String> {
    let reading = Reading {
        is_slow: random.percent(noise::SLOWLY_READ),
        ..Reading::default()
    };
    playing::play(line, &reading, &mut program, random, tally).map(|_| ())
}

/// Two of a bit's three votes are turned over: the vote is lost, and the frame comes out with other data or a flag, or
/// not at all. Answers how many such frames there are, of every format, bit and choice of votes. Each must be seen in
/// the same way with the archive as with the model alone.
pub fn two_turned_over_are_seen(seed: u64) -> Result<u64, String> {
    let mut random = Random::new(seed);
    let mut seen = 0;
    each_two_votes(|format, bit, votes| {
        seen += 1;
        are_seen(format, bit, votes, &mut random)
    })?;
    Ok(seen)
}

fn are_seen(
    format: &Format,
    bit: u64,
    votes: [usize; 2],
    random: &mut Random,
) -> Result<(), String> {
    let ubrr = random.below(3) as u16;
    let setting = Setting {
        format: *format,
        ubrr,
        bit: random.pick(&bits_at_limit(format, ubrr, 1)),
    };
    let device = setting.device(random);
    let mut line = setting.line_to(&device);
    line.add_frame(random);
    votes.iter().for_each(|&vote| line.turn_over(bit, vote));
    // A vote of two against one is split, whichever way it goes: the count does not give the frame away.
    line.frames[0].frame.split_votes = 1;
    let seed = random.next();
    let [of_model, of_archive] = [
        play_alone(&line, Counter::new(device, RIGHT), seed),
        play_alone(&line, Pair::of(device)?, seed),
    ];
    match (of_model, of_archive) {
        (Err(text), Err(same)) if text == same => Ok(()),
        other => Err(format!("model and archive: {other:?}")),
    }
}

fn play_alone(line: &NoisyLine, program: impl Holder, seed: u64) -> Result<(), String> {
    let (mut random, mut tally) = (Random::new(seed), Tally::default());
    play_line(line, program, &mut random, &mut tally)
}

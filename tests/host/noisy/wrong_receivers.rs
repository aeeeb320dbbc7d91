//! Receivers that are wrong on purpose with noise (document 02, M-112), in the archive's place on lines with allowed
//! noise: each has to be seen by its answers alone, else the test could not fail.

use crate::allowed_noise;
use crate::model::Device;
use crate::noisy_clocks::*;
use crate::random::Random;
use crate::stand_in::{Alone, StandIn};
use crate::totals::Totals;

const fn clock(clock: fn(&mut Device, u8) -> u8) -> StandIn {
    StandIn { clock, ..RIGHT }
}

#[rustfmt::skip] // a line each
static WRONG: [(&str, StandIn); 23] = [
    ("the first vote decides", clock(|d, l| decide_by(d, l, |v| of_vote(0, v)))),
    ("the second vote decides", clock(|d, l| decide_by(d, l, |v| of_vote(1, v)))),
    ("the last vote decides", clock(|d, l| decide_by(d, l, |v| of_vote(2, v)))),
    ("one high vote makes a bit high", clock(|d, l| decide_by(d, l, any_high))),
    ("one low vote makes a bit low", clock(|d, l| decide_by(d, l, all_high))),
    ("a start bit with a split vote dropped", clock(|d, l| decide_by(d, l, split_start_high))),
    ("a stop bit with a split vote low", clock(|d, l| decide_by(d, l, split_stop_low))),
    ("the last vote of parity decides", clock(|d, l| decide_by(d, l, last_vote_of_parity))),
    ("the first vote of data decides", clock(|d, l| decide_by(d, l, first_vote_of_data))),
    ("a majority for one bit of a frame", clock(|d, l| decide_by(d, l, majority_once))),
    ("the stop bit's first vote remembered", clock(|d, l| remember(d, l, |v| of_vote(0, v)))),
    ("the stop bit's second vote remembered", clock(|d, l| remember(d, l, |v| of_vote(1, v)))),
    ("low remembered after a split stop bit", clock(|d, l| remember(d, l, all_high))),
    ("FE where the stop bit is split", clock(|d, l| complete(d, l, fe_of_split_stop))),
    ("UPE where a vote is split", clock(|d, l| complete(d, l, upe_of_split_votes))),
    ("DOR where a vote is split", clock(|d, l| complete(d, l, dor_of_split_votes))),
    ("FE where all votes are split", clock(|d, l| complete(d, l, fe_of_all_split))),
    ("no frame where all votes are split", clock(none_of_all_split)),
    ("a sample late where the stop bit is split", clock(late_after_split_stop)),
    ("votes a sample early", clock(|d, l| begin_with(d, l, 2))),
    ("votes a sample late", clock(|d, l| begin_with(d, l, 0))),
    ("no samples while the sender is at work", clock(one_at_a_time)),
    ("votes forgotten with a read", StandIn { read: votes_forgotten, ..RIGHT }),
];

static NOTHING_WRONG: StandIn = RIGHT;

/// Rounds in which each must be seen; the right one goes through all of them. What is remembered after a stop bit
/// matters only where no tick comes before the next start (stop_votes.rs), which is met a few times in a round.
const ROUNDS: u64 = 20;

/// Answers how many there are. The means by which they are made, with nothing made wrong, must not be seen.
pub fn all_are_seen(seed: u64) -> Result<u64, String> {
    play(&NOTHING_WRONG, seed).map_err(|text| format!("a receiver with nothing wrong: {text}"))?;
    for (name, stand_in) in &WRONG {
        if play(stand_in, seed).is_ok() {
            return Err(format!(
                "lines with allowed noise do not see what is wrong with: {name}"
            ));
        }
    }
    Ok(WRONG.len() as u64)
}

fn play(stand_in: &'static StandIn, seed: u64) -> Result<(), String> {
    let mut random = Random::new(seed);
    let mut totals = Totals::default();
    let make = |device| Ok(Alone { device, stand_in });
    (0..ROUNDS).try_for_each(|_| allowed_noise::round(make, &mut random, &mut totals))
}

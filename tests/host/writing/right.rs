//! The means by which wrong programs are made, with nothing made wrong: no part may see a difference, so that a wrong
//! program is seen for what is wrong with it.

use crate::calls::Calls;
use crate::means::{SHRINKER, WRITER};
use crate::parts;
use crate::tally::Tally;
use crate::PARTS;

pub const RIGHT: Calls = Calls {
    write: &|before| WRITER.write(before),
    shrink: &|before| SHRINKER.shrink(before),
};

/// One round in so many is done.
const FEWER: u64 = 50;

pub fn is_not_seen(seed: u64) -> Result<(), String> {
    parts::all(&PARTS, seed, |run, rounds, random| {
        run(&RIGHT, rounds.div_ceil(FEWER), random, &mut Tally::default())
    })
    .map_err(|text| format!("nothing wrong, {text}"))
}

//! Compares the archive's writing and shrinking of bench traces (document 02, M-109) with the model in listing.rs,
//! writing.rs and shrinking.rs of model/: lists and texts worked out by hand, every byte of an item, single bytes of a
//! text, buffers of every size, null pointers, random and damaged lists and texts, and what M-109 says of both calls.
//! Then programs that are wrong on purpose take the archive's place, and each has to be seen.
//!
//! writing [--seed N] [--scale K]

#[forbid(unsafe_code)]
#[path = "model/listing.rs"]
mod listing;
#[allow(dead_code)]
#[forbid(unsafe_code)]
mod model;
#[forbid(unsafe_code)]
#[path = "model/shrinking.rs"]
mod shrinking;
#[forbid(unsafe_code)]
#[path = "model/trace.rs"]
mod trace;
#[forbid(unsafe_code)]
#[path = "model/writing.rs"]
mod writing;

#[path = "writing/archive.rs"]
mod archive;
#[path = "compare/arguments.rs"]
mod arguments;
#[path = "replay/byte_damage.rs"]
mod byte_damage;
#[path = "writing/calls.rs"]
mod calls;
#[path = "writing/damaged_lists.rs"]
mod damaged_lists;
#[path = "writing/damaged_texts.rs"]
mod damaged_texts;
#[allow(dead_code)] // only the replay is called
#[path = "compare/archive.rs"]
mod device_calls;
#[path = "writing/examples.rs"]
mod examples;
#[path = "replay/field_damage.rs"]
mod field_damage;
#[allow(dead_code)] // what is seen in a history does not matter here
#[path = "replay/history.rs"]
mod history;
#[path = "writing/item_bytes.rs"]
mod item_bytes;
#[path = "writing/laws.rs"]
mod laws;
#[path = "writing/least.rs"]
mod least;
#[path = "replay/line_damage.rs"]
mod line_damage;
#[path = "writing/lists.rs"]
mod lists;
#[path = "writing/long.rs"]
mod long;
#[path = "writing/means.rs"]
mod means;
#[path = "writing/memory.rs"]
mod memory;
#[path = "writing/nulls.rs"]
mod nulls;
#[path = "replay/numbers.rs"]
mod numbers;
#[path = "writing/order.rs"]
mod order;
#[path = "replay/otherwise.rs"]
mod otherwise;
#[path = "writing/parted.rs"]
mod parted;
#[path = "writing/pieces.rs"]
mod pieces;
#[path = "compare/parts.rs"]
mod parts;
#[path = "compare/random.rs"]
mod random;
#[path = "writing/random_items.rs"]
mod random_items;
#[path = "writing/replays.rs"]
mod replays;
#[path = "writing/right.rs"]
mod right;
#[allow(dead_code)] // short histories are not needed
#[path = "replay/scenes.rs"]
mod scenes;
#[path = "writing/search.rs"]
mod search;
#[path = "replay/shown.rs"]
mod shown;
#[path = "writing/sizes.rs"]
mod sizes;
#[path = "writing/tally.rs"]
mod tally;
#[forbid(unsafe_code)]
#[path = "replay/text.rs"]
mod text;
#[path = "writing/text_bytes.rs"]
mod text_bytes;
#[path = "writing/wrong.rs"]
mod wrong;
#[path = "writing/wrong_items.rs"]
mod wrong_items;
#[path = "writing/wrong_lines.rs"]
mod wrong_lines;
#[path = "writing/wrong_order.rs"]
mod wrong_order;
#[path = "writing/wrong_puts.rs"]
mod wrong_puts;
#[path = "writing/wrong_reads.rs"]
mod wrong_reads;
#[path = "writing/wrong_sums.rs"]
mod wrong_sums;

use calls::Calls;
use random::Random;
use tally::Tally;

const SEED: u64 = 20241018;

const ARCHIVE: Calls = Calls {
    write: &archive::write,
    shrink: &archive::shrink,
};

type Run = fn(&Calls, u64, &mut Random, &mut Tally) -> Result<(), String>;
type Part = parts::Part<Run>;

const PARTS: [Part; 13] = [
    examples::PART,
    item_bytes::PART,
    text_bytes::PART,
    sizes::PART,
    order::PART,
    nulls::PART,
    lists::PART,
    damaged_texts::PART,
    damaged_lists::PART,
    laws::PART,
    replays::PART,
    least::PART,
    long::PART,
];

fn main() {
    arguments::run("writing", SEED, compare_all);
}

fn compare_all(seed: u64, scale: u64) -> Result<(), String> {
    let mut tally = Tally::default();
    parts::all(&PARTS, seed, |run, rounds, random| {
        run(&ARCHIVE, rounds * scale, random, &mut tally)
    })?;
    tally.complete()?;
    right::is_not_seen(seed)?;
    let wrong = wrong::all_are_seen(seed)?;
    tally.print(wrong);
    Ok(())
}

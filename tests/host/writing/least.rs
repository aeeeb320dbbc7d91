//! 'No text with the same clocks and calls in order is shorter': the length of a shrunk text against a search over all
//! ways to part its clocks into lines.

use crate::calls::{Call, Calls};
use crate::parted::lines_of;
use crate::pieces::{pieces, Piece};
use crate::random::Random;
use crate::random_items::{random_count, random_items, FULL_SUM};
use crate::search::{plainly, Search};
use crate::shown::shown;
use crate::tally::Tally;
use crate::text::{line, write};
use crate::trace::{Item, HEADER};
use crate::Part;

pub const PART: Part = Part {
    name: "least lengths",
    run,
    rounds: 20_000,
};

/// Full lines that the clocks at the edges come to, and levels of one digit and of two.
const MOST_FULL: u64 = 20;
const LEVELS: [u8; 2] = [7, 17];
/// Bytes of as many lines as a random list has items.
const MOST_BYTES: usize = 400 * 16;

/// Clocks for which every way is tried.
const FEW_CLOCKS: usize = 1_100;

/// For levels of one digit, and of two.
type Searches = [Search; 2];

fn run(calls: &Calls, count: u64, random: &mut Random, tally: &mut Tally) -> Result<(), String> {
    let searches = LEVELS.map(|levels| Search::new(levels, MOST_BYTES));
    search_is_right(&searches)?;
    for full in 0..=MOST_FULL {
        for rest in edges() {
            let clocks = (full * FULL_SUM + rest).max(1);
            for levels in LEVELS {
                let lines = random.between(1, full + 3);
                let items = lines_of(levels, clocks, lines, random);
                is_least(calls, &items, &searches, random, tally)?;
            }
        }
    }
    for _ in 0..count {
        let items = random_items(random_count(random), random);
        is_least(calls, &items, &searches, random, tally)?;
    }
    Ok(())
}

/// The search itself, where there are so few clocks that every way can be tried.
fn search_is_right(searches: &Searches) -> Result<(), String> {
    for (levels, search) in LEVELS.iter().zip(searches) {
        for (clocks, least) in plainly(*levels, FEW_CLOCKS).into_iter().enumerate() {
            if search.least(clocks as u64) != Some(least) {
                return Err(format!("the search is wrong about {clocks} clocks"));
            }
        }
    }
    Ok(())
}

/// Where a number gets a digit more, and where a line is nearly full.
fn edges() -> Vec<u64> {
    let tens = (0..10).map(|digits| 10u64.pow(digits));
    let near = tens.flat_map(|ten| [ten - 1, ten, ten + 1, 5 * ten]);
    let near_full = [FULL_SUM / 2, FULL_SUM - 2, FULL_SUM - 1, FULL_SUM];
    near.chain(near_full).collect()
}

fn is_least(
    calls: &Calls,
    items: &[Item],
    searches: &Searches,
    random: &mut Random,
    tally: &mut Tally,
) -> Result<(), String> {
    let text = write(items);
    let shrunk = calls.text(Call::Shrink, &text, text.len(), random)?;
    let due = least_length(items, searches).ok_or("the search is too short")?;
    if shrunk.len() != due {
        return Err(format!(
            "\ntext: {}\nshrunk: {}\nwhich has {} bytes, and {due} would do",
            shown(&text),
            shown(&shrunk),
            shrunk.len()
        ));
    }
    tally.least += 1;
    Ok(())
}

/// The first line, the calls, each of which has one spelling only, and the clocks between them.
fn least_length(items: &[Item], searches: &Searches) -> Option<usize> {
    let mut sum = HEADER.len() + 1;
    for piece in pieces(items) {
        sum += match piece {
            Piece::Call(item) => line(&item).len(),
            Piece::Clocks { levels, sum } => {
                searches[usize::from(levels > 9)].least(sum.try_into().ok()?)?
            }
        };
    }
    Some(sum)
}

//! What M-109 says of the two calls, looked at by running the program alone: no answer is compared with the model's,
//! whose reader only reads what was written.

use crate::calls::{Call, Calls};
use crate::damaged_texts::damaged_text;
use crate::listing::list;
use crate::pieces::pieces;
use crate::random::Random;
use crate::random_items::{random_count, random_items};
use crate::shown::shown;
use crate::tally::Tally;
use crate::text::write;
use crate::trace::{self, Item};
use crate::Part;

pub const PART: Part = Part {
    name: "laws",
    run,
    rounds: 60_000,
};

/// No line is longer than this one; the first is shorter.
const LONGEST_LINE: &str = "C\t31\t4294967295\n";

fn run(calls: &Calls, count: u64, random: &mut Random, tally: &mut Tally) -> Result<(), String> {
    for _ in 0..count {
        let items = random_items(random_count(random), random);
        let mut text = write(&items);
        if random.flip() {
            text = damaged_text(&text, random);
        }
        if let Ok(items) = trace::read(&text) {
            written_is_read_back(calls, &items, &text, random)?;
            shrunk_says_the_same(calls, &items, &text, random)?;
            tally.laws += 1;
        }
    }
    Ok(())
}

/// 'reading what was written gives the list back'; and writing what was read gives the text back.
fn written_is_read_back(
    calls: &Calls,
    items: &[Item],
    text: &[u8],
    random: &mut Random,
) -> Result<(), String> {
    let written = written(calls, items, random)?;
    is(
        trace::read(&written).as_deref() == Ok(items),
        "list",
        text,
        &written,
    )?;
    is(written == text, "text", text, &written)
}

/// The program's text of these items, with room for any lines.
pub fn written(calls: &Calls, items: &[Item], random: &mut Random) -> Result<Vec<u8>, String> {
    let room = (1 + items.len()) * LONGEST_LINE.len();
    calls.text(Call::Write, &list(items), room, random)
}

/// 'No text with the same clocks and calls in order is shorter', so it is no longer than the text was; 'shrinking twice
/// changes nothing'.
fn shrunk_says_the_same(
    calls: &Calls,
    items: &[Item],
    text: &[u8],
    random: &mut Random,
) -> Result<(), String> {
    let shrunk = calls.text(Call::Shrink, text, text.len(), random)?;
    let again = calls.text(Call::Shrink, &shrunk, shrunk.len(), random)?;
    is(
        again == shrunk,
        "shrunk text, shrunk again",
        &shrunk,
        &again,
    )?;
    let Ok(left) = trace::read(&shrunk) else {
        return Err(format!("\nmalformed: {}", shown(&shrunk)));
    };
    is(
        pieces(&left) == pieces(items),
        "same clocks and calls",
        text,
        &shrunk,
    )
}

fn is(holds: bool, what: &str, text: &[u8], given: &[u8]) -> Result<(), String> {
    if holds {
        return Ok(());
    }
    Err(format!(
        "\ntext: {}\ngiven: {}\nwhich is not the {what}",
        shown(text),
        shown(given)
    ))
}

//! Shrinking a trace's text, from the words of document 02, M-109, alone.

use crate::text;
use crate::trace::{self, Item};

/// The clocks of a full line: '1 to 4,294,967,295 clocks'.
pub const FULL: u32 = 4_294_967_295;

/// The shrunk text; none for a malformed one, which is 9.
pub fn shrunk(text: &[u8]) -> Option<Vec<u8>> {
    let items = trace::read(text).ok()?;
    Some(text::write(&joined(&items)))
}

/// 'neighbouring `C` lines with equal levels become one, or, past 4,294,967,295, as many full ones as go and the rest,
/// if any, in a last one.' Calls stay as they are, each by itself.
fn joined(items: &[Item]) -> Vec<Item> {
    let groups =
        items.chunk_by(|item, next| levels(item).is_some() && levels(item) == levels(next));
    groups
        .flat_map(|group| match levels(&group[0]) {
            Some(levels) => lines_of(levels, group.iter().map(clocks).sum()),
            None => group.to_vec(),
        })
        .collect()
}

/// The lines of so many clocks with these levels.
fn lines_of(levels: u8, clocks: u128) -> Vec<Item> {
    let full = u128::from(FULL);
    let mut lines = Vec::new();
    for _ in 0..clocks / full {
        lines.push(Item::Clocks {
            levels,
            clocks: FULL,
        });
    }
    let rest = (clocks % full) as u32;
    if rest > 0 {
        lines.push(Item::Clocks {
            levels,
            clocks: rest,
        });
    }
    lines
}

/// The levels of a `C` line.
pub fn levels(item: &Item) -> Option<u8> {
    match *item {
        Item::Clocks { levels, .. } => Some(levels),
        _ => None,
    }
}

/// The clocks of a line, which for a call are none.
pub fn clocks(item: &Item) -> u128 {
    match *item {
        Item::Clocks { clocks, .. } => clocks.into(),
        _ => 0,
    }
}

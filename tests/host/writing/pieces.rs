//! What a trace says, whatever its lines: its calls, and between them how many clocks pass with which levels.

use crate::shrinking::{clocks, levels};
use crate::trace::Item;

#[derive(Clone, PartialEq, Debug)]
pub enum Piece {
    Call(Item),
    Clocks { levels: u8, sum: u128 },
}

/// Neighbouring clocks with equal levels are one piece, however many they are.
pub fn pieces(items: &[Item]) -> Vec<Piece> {
    let mut pieces: Vec<Piece> = Vec::new();
    for item in items {
        match (levels(item), pieces.last_mut()) {
            (None, _) => pieces.push(Piece::Call(*item)),
            (Some(new), Some(Piece::Clocks { levels, sum })) if *levels == new => {
                *sum += clocks(item)
            }
            (Some(levels), _) => pieces.push(Piece::Clocks {
                levels,
                sum: clocks(item),
            }),
        }
    }
    pieces
}

//! What a receiver holds, where its record shows it, and frames that are held at first.

use crate::counter::Counter;
use crate::frames::{Frame, Program};
use crate::lines;
use crate::model::receiver::Received;
use crate::pair::Pair;
use crate::stand_in::Alone;

/// A program whose record, if it has one, is looked at beside its answers.
pub trait Holder: Program {
    /// All frames unread are there, as far as a record shows it.
    fn expect_held(&self, _unread: usize) -> Result<(), String> {
        Ok(())
    }
}

impl Holder for Pair {
    fn expect_held(&self, unread: usize) -> Result<(), String> {
        lines::expect_held(self, unread)
    }
}

impl Holder for Counter {}

impl Holder for Alone {}

impl From<Received> for Frame {
    fn from(received: Received) -> Frame {
        Frame {
            data: received.data,
            fe: received.fe,
            upe: received.upe,
            dor: received.dor,
            split_votes: received.split_votes,
        }
    }
}

//! The receiver (document 01, 'Receiver'): sampling and voting of RxD, and the buffer of two frames. Each frame has the
//! count of its split votes (document 02, M-101). A third one waits behind the two (document 02, M-103, which takes the
//! place of document 01's 'A frame that completes with both places full is lost').

use super::frame::{Format, Parity};

/// A frame in the receive buffer, or one that waits for a place in it.
#[derive(Clone, Copy, PartialEq, Debug)]
pub struct Received {
    pub data: u16,
    pub fe: bool,
    pub upe: bool,
    pub dor: bool,
    /// M-101: 'the count of split votes over start, data, parity and stop, 0 to 12'.
    pub split_votes: u8,
}

/// M-101: 'The majority decision must answer the level and whether all three samples agreed.' Where they did not, the
/// vote is split.
#[derive(Clone, Copy, PartialEq, Debug)]
pub struct Decision {
    pub high: bool,
    pub split: bool,
}

/// A frame between its first low sample and its stop decision.
#[derive(Clone, Copy, PartialEq, Debug)]
pub struct Receiving {
    /// The bit being sampled: 0 the start bit, D + 1 the first stop bit.
    pub bit: u8,
    /// Samples of that bit that have been taken.
    pub samples: u8,
    /// The first two votes of the bit being sampled, low until they are cast and once the bit is decided.
    pub votes: [bool; 2],
    /// The bits decided so far, shifted in at the top of D bits; those to come are 0.
    pub word: u16,
    /// Of the bits decided so far, the start bit among them, those with a split vote.
    pub split_votes: u8,
}

/// What a sample does to the frame under way.
#[derive(Clone, Copy, PartialEq)]
enum Sampled {
    GoesOn,
    /// The start bit was voted low, by its last vote.
    Accepted,
    /// The start bit was voted high.
    Dropped,
    /// The stop bit's last vote.
    Completed,
}

#[derive(Clone, Copy, PartialEq, Debug)]
pub enum Line {
    Idle { last: bool },
    Frame(Receiving),
}

#[derive(Clone, Copy, PartialEq, Debug)]
pub struct Receiver {
    pub rxen: bool,
    pub line: Line,
    pub oldest: Option<Received>,
    pub second: Option<Received>,
    /// M-103: 'with both places full a completed frame waits'. It is not seen until it has moved in.
    pub waiting: Option<Received>,
    /// A frame was lost; 'the next frame that completes carries DOR' (M-103).
    pub lost: bool,
}

impl Receiver {
    /// A disabled receiver; one just enabled differs in RXEN alone, since enabling makes it remember low.
    pub fn reset() -> Receiver {
        Receiver {
            rxen: false,
            line: Line::Idle { last: false },
            oldest: None,
            second: None,
            waiting: None,
            lost: false,
        }
    }

    /// Sets RXEN. Clearing it drops the frame under way, the buffer and a pending loss, and 'drops the waiting one too'
    /// (M-103).
    pub fn enable(&mut self, rxen: bool) {
        if rxen != self.rxen {
            *self = Receiver { rxen, ..Receiver::reset() };
        }
    }

    /// Between first low sample and stop decision; a frame that waits is past its own.
    #[inline]
    pub fn busy(&self) -> bool {
        matches!(self.line, Line::Frame(_))
    }

    /// A read of UDR0: takes the oldest frame away; 0 when there is none. M-103, of the frame that waits: 'a UDR0 read
    /// moves it in at once'.
    pub fn take(&mut self) -> u8 {
        let data = self.oldest.map_or(0, |frame| frame.data as u8);
        self.oldest = self.second.take();
        self.second = self.waiting.take();
        data
    }

    /// M-101: the split votes of the oldest frame held, '0 if empty'.
    pub fn split_votes(&self) -> u8 {
        self.oldest.map_or(0, |frame| frame.split_votes)
    }

    /// A tick of the baud clock: one sample of RxD.
    #[inline]
    pub fn tick(&mut self, rxd: bool, format: &Format) {
        if !self.rxen {
            return;
        }
        match &mut self.line {
            // A low line after a broken frame is no start: a high sample must come first.
            Line::Idle { last: true } if !rxd => {
                self.line = Line::Frame(Receiving {
                    bit: 0,
                    samples: 1,
                    votes: [false; 2],
                    word: 0,
                    split_votes: 0,
                });
            }
            Line::Idle { last } => *last = rxd,
            Line::Frame(frame) => match frame.sample(rxd, format) {
                Sampled::GoesOn => (),
                Sampled::Accepted => self.lose_waiting(),
                // Its votes belong to no frame, and it loses none.
                Sampled::Dropped => self.line = Line::Idle { last: rxd },
                Sampled::Completed => {
                    let completed = *frame;
                    self.store(&completed, !completed.majority(rxd).high, format);
                    self.line = Line::Idle { last: rxd };
                }
            },
        }
    }

    /// M-103: 'an accepted start bit (its last vote) while one waits loses that one', its flags and split votes too.
    fn lose_waiting(&mut self) {
        self.lost |= self.waiting.take().is_some();
    }

    /// Puts a completed frame into the buffer, or has it wait: 'with both places full a completed frame waits' (M-103).
    /// None waits by then, since the frame's own start was accepted. A pending loss is used up here, wherever it goes.
    fn store(&mut self, completed: &Receiving, fe: bool, format: &Format) {
        let data = completed.word & format.data_mask();
        let upe = format.parity != Parity::Off && completed.word != format.word_of(data);
        let frame = Received {
            data,
            fe,
            upe,
            dor: self.lost,
            split_votes: completed.split_votes,
        };
        self.lost = false;
        if self.oldest.is_none() {
            self.oldest = Some(frame);
        } else if self.second.is_none() {
            self.second = Some(frame);
        } else {
            self.waiting = Some(frame);
        }
    }
}

impl Receiving {
    /// What the two votes kept and the last one decide.
    #[inline]
    pub fn majority(&self, last: bool) -> Decision {
        let [first, second] = self.votes;
        Decision {
            high: first & second | last & (first | second),
            split: first != second || second != last,
        }
    }

    /// One more sample.
    #[inline]
    fn sample(&mut self, rxd: bool, format: &Format) -> Sampled {
        self.samples += 1;
        let last_vote = format.last_vote();
        if self.samples + 2 == last_vote {
            self.votes[0] = rxd;
        } else if self.samples + 1 == last_vote {
            self.votes[1] = rxd;
        } else if self.samples == last_vote {
            return self.decide(rxd, format);
        } else if self.samples == format.ticks() {
            self.bit += 1;
            self.samples = 0;
        }
        Sampled::GoesOn
    }

    /// The last vote of a bit; a split one is counted. Where the frame does not end, the votes kept have done their
    /// work.
    fn decide(&mut self, rxd: bool, format: &Format) -> Sampled {
        let Decision { high, split } = self.majority(rxd);
        self.split_votes += split as u8;
        if self.bit > format.word_bits() {
            return Sampled::Completed;
        }
        if self.bit == 0 && high {
            return Sampled::Dropped;
        }
        self.votes = [false; 2];
        if self.bit == 0 {
            return Sampled::Accepted;
        }
        self.word = self.word >> 1 | (high as u16) << (format.word_bits() - 1);
        Sampled::GoesOn
    }

    /// How many votes of the bit being sampled are kept: those that are cast, until the last one decides.
    pub fn votes_kept(&self, format: &Format) -> usize {
        match format.last_vote().saturating_sub(self.samples) {
            1 => 2,
            2 => 1,
            _ => 0,
        }
    }

    /// The bits decided so far, the start bit among them.
    pub fn bits_decided(&self, format: &Format) -> u8 {
        self.bit + (self.samples >= format.last_vote()) as u8
    }

    /// The bits of the word that have not come in: of D data and parity bits, those that are not decided.
    pub fn bits_to_come(&self, format: &Format) -> u16 {
        format.word_mask() >> self.bits_decided(format).saturating_sub(1)
    }
}

//! A valid record and the model's device that belongs to it, which go through the same calls.

use crate::call::{compare_by, Answer, Call, Calls, ARCHIVE};
use crate::model::record::{decode, encode, LENGTH};
use crate::model::{address, number, Device};
use crate::tally::Tally;

#[derive(Clone)]
pub struct Pair {
    pub record: [u8; LENGTH],
    pub device: Device,
    /// Whose calls are made on the record: the archive's, or some that are wrong on purpose.
    pub calls: Calls,
}

impl Pair {
    /// The pair of a device; its record must lead back to it.
    pub fn of(device: Device) -> Result<Pair, String> {
        let record = encode(&device);
        if decode(&record) != Some(device) {
            return Err(format!(
                "the model does not take back its own record\n{device:?}"
            ));
        }
        Ok(Pair {
            record,
            device,
            calls: ARCHIVE,
        })
    }

    /// A pair after the archive's reset.
    pub fn reset(tally: &mut Tally) -> Result<Pair, String> {
        let mut pair = Pair {
            record: [0xFF; LENGTH],
            device: Device::reset(),
            calls: ARCHIVE,
        };
        pair.call(Call::Reset, tally)?;
        Ok(pair)
    }

    /// Makes a call on both, and asks both for the report after it.
    pub fn call(&mut self, call: Call, tally: &mut Tally) -> Result<Answer, String> {
        let answer = self.call_alone(call, tally)?;
        self.call_alone(Call::Requests, tally)?;
        Ok(answer)
    }

    fn call_alone(&mut self, call: Call, tally: &mut Tally) -> Result<Answer, String> {
        let mut device = Some(self.device);
        let answer = compare_by(&self.calls, &mut self.record, &mut device, call, tally)?;
        self.device = device.unwrap_or(self.device);
        Ok(answer)
    }

    /// A call that must be done.
    fn done(&mut self, call: Call, tally: &mut Tally) -> Result<Answer, String> {
        let answer = self.call(call, tally)?;
        if answer.number != number::DONE {
            return Err(format!("refused with {}: {call}", answer.number));
        }
        Ok(answer)
    }

    pub fn write(&mut self, address: u16, value: u8, tally: &mut Tally) -> Result<(), String> {
        self.done(Call::Write { address, value }, tally).map(|_| ())
    }

    pub fn read(&mut self, address: u16, tally: &mut Tally) -> Result<u8, String> {
        self.done(Call::Read { address }, tally)
            .map(|answer| answer.value)
    }

    /// Runs a clock for each level byte; answers the output bytes.
    pub fn run(&mut self, levels: &[u8], tally: &mut Tally) -> Result<Vec<u8>, String> {
        let call = Call::Run {
            levels,
            outputs_len: levels.len(),
        };
        self.done(call, tally).map(|answer| answer.outputs)
    }

    /// Holds a level for so many clocks; answers the last output byte.
    pub fn hold(&mut self, level: u8, clocks: u32, tally: &mut Tally) -> Result<u8, String> {
        self.done(Call::Hold { level, clocks }, tally)
            .map(|answer| answer.value)
    }

    /// Asks for the split votes of the oldest frame held.
    pub fn split_votes(&mut self, tally: &mut Tally) -> Result<u8, String> {
        self.done(Call::SplitVotes, tally)
            .map(|answer| answer.value)
    }

    /// Reads all registers on a copy, since reads have side effects. A frame that moves in there may move in once more
    /// here: it is not counted.
    pub fn read_all_on_copy(&self, tally: &mut Tally) -> Result<(), String> {
        let mut copy = self.clone();
        let waits = tally.waits;
        for address in address::ALL {
            copy.read(address, tally)?;
        }
        tally.waits = waits;
        Ok(())
    }
}

//! A stand-in for the archive that is the model, but for what is wrong on purpose (wrong_waits.rs). It is compared by
//! its record's bytes, or by its answers alone.

use crate::call::{Answer, Call};
use crate::frames::Program;
use crate::hold_turns::pass;
use crate::model::record::{encode, LENGTH};
use crate::model::{level, number, Device};
use crate::tally::Tally;

/// How it does what the archive does: finds a device in the bytes, passes a clock, reads, writes, and answers the split
/// votes.
#[derive(Clone, Copy)]
pub struct StandIn {
    pub decode: fn(&[u8]) -> Option<Device>,
    pub clock: fn(&mut Device, u8) -> u8,
    pub read: fn(&mut Device, u16) -> (u8, u8),
    pub write: fn(&mut Device, u16, u8) -> u8,
    pub split_votes: fn(&Device) -> u8,
}

impl StandIn {
    /// A call on a record's bytes.
    pub fn answer(&self, record: &mut [u8], call: &Call) -> Answer {
        let mut answer = Answer {
            number: number::RECORD,
            value: 0,
            outputs: call.outputs(),
        };
        let found = match call {
            Call::Reset => (record.len() == LENGTH).then(Device::reset),
            _ => (self.decode)(record),
        };
        let Some(mut device) = found else {
            return answer;
        };
        (answer.number, answer.value) = self.call(&mut device, call, &mut answer.outputs);
        if answer.number == number::DONE {
            record.copy_from_slice(&encode(&device));
        }
        answer
    }

    /// Number and value.
    fn call(&self, device: &mut Device, call: &Call, outputs: &mut [u8]) -> (u8, u8) {
        match *call {
            Call::Reset => (number::DONE, 0),
            Call::Write { address, value } => ((self.write)(device, address, value), 0),
            Call::Read { address } => (self.read)(device, address),
            Call::TakeVector { vector } => (device.take_vector(vector), 0),
            Call::Run { levels, .. } => (self.run(device, levels, outputs), 0),
            Call::Requests => (number::DONE, device.requests()),
            Call::Hold { level, .. } if level & level::ILLEGAL != 0 => (number::LEVEL, 0),
            Call::Hold { level, clocks } => (number::DONE, pass(device, level, clocks, self.clock)),
            Call::SplitVotes => (number::DONE, (self.split_votes)(device)),
        }
    }

    fn run(&self, device: &mut Device, levels: &[u8], outputs: &mut [u8]) -> u8 {
        if levels.len() != outputs.len() {
            return number::LENGTH;
        }
        if levels.iter().any(|level| level & level::ILLEGAL != 0) {
            return number::LEVEL;
        }
        for (output, &level) in outputs.iter_mut().zip(levels) {
            *output = (self.clock)(device, level);
        }
        number::DONE
    }
}

/// Keeps its device to itself: only its answers can give it away.
pub struct Alone {
    pub device: Device,
    pub stand_in: &'static StandIn,
}

impl Program for Alone {
    fn pass_levels(&mut self, levels: &[u8], _: &mut Tally) -> Result<(), String> {
        for &level in levels {
            (self.stand_in.clock)(&mut self.device, level);
        }
        Ok(())
    }

    fn read_register(&mut self, address: u16, _: &mut Tally) -> Result<u8, String> {
        Ok((self.stand_in.read)(&mut self.device, address).1)
    }

    fn ask_split_votes(&mut self, _: &mut Tally) -> Result<u8, String> {
        Ok((self.stand_in.split_votes)(&self.device))
    }
}

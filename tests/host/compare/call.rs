//! One call on the archive and on the model, and the comparison of all that it answers and leaves.

use std::fmt;

use crate::archive;
use crate::difference::{self, hex, Records};
use crate::model::record::{self, encode};
use crate::model::{level, number, Device};
use crate::stand_in::StandIn;
use crate::tally::{Tally, KINDS};

#[derive(Clone, Copy)]
pub enum Call<'a> {
    Reset,
    Write {
        address: u16,
        value: u8,
    },
    Read {
        address: u16,
    },
    TakeVector {
        vector: u8,
    },
    Run {
        levels: &'a [u8],
        outputs_len: usize,
    },
    Requests,
    Hold {
        level: u8,
        clocks: u32,
    },
    SplitVotes,
}

/// A hold on a record's bytes: the archive's, or one that is wrong on purpose.
pub type Hold = fn(&mut [u8], u8, u32, &mut u8) -> u8;

/// The call for the split votes on a record's bytes: the archive's, or one that is wrong on purpose.
pub type SplitVotes = fn(&[u8], &mut u8) -> u8;

/// Calls of the archive in whose place wrong ones can be put: a hold, a call for the split votes, or all that look at
/// the record.
#[derive(Clone, Copy)]
pub struct Calls {
    pub hold: Hold,
    pub split_votes: SplitVotes,
    pub stand_in: Option<&'static StandIn>,
}

pub const ARCHIVE: Calls = Calls {
    hold: archive::hold,
    split_votes: archive::split_votes,
    stand_in: None,
};

/// What a call answers: the number, the value (0 where the call has none; a hold's is its output byte) and the output
/// slice after it.
#[derive(PartialEq)]
pub struct Answer {
    pub number: u8,
    pub value: u8,
    pub outputs: Vec<u8>,
}

/// What has to stand after a call: its answer and the device of the record; none where the bytes stay as they were.
pub struct After {
    pub answer: Answer,
    pub device: Option<Device>,
}

impl After {
    /// After a hold that is done: its output byte and the device that it leaves.
    pub fn hold(output: u8, device: Device) -> After {
        After {
            answer: Answer {
                number: number::DONE,
                value: output,
                outputs: Vec::new(),
            },
            device: Some(device),
        }
    }
}

/// What value and output slice hold before a call, so that untouched bytes are seen.
pub const BEFORE: u8 = 0xA5;

impl Call<'_> {
    /// The place of the call in the tally.
    pub fn kind(&self) -> usize {
        match self {
            Call::Reset => 0,
            Call::Write { .. } => 1,
            Call::Read { .. } => 2,
            Call::TakeVector { .. } => 3,
            Call::Run { .. } => 4,
            Call::Requests => 5,
            Call::Hold { .. } => 6,
            Call::SplitVotes => 7,
        }
    }

    fn has_value(&self) -> bool {
        matches!(
            self,
            Call::Read { .. } | Call::Requests | Call::Hold { .. } | Call::SplitVotes
        )
    }

    pub fn outputs(&self) -> Vec<u8> {
        match self {
            Call::Run { outputs_len, .. } => vec![BEFORE; *outputs_len],
            _ => Vec::new(),
        }
    }
}

impl fmt::Display for Call<'_> {
    fn fmt(&self, to: &mut fmt::Formatter) -> fmt::Result {
        match self {
            Call::Write { address, value } => write!(to, "write {value:02x} to {address:02x}"),
            Call::Read { address } => write!(to, "read {address:02x}"),
            Call::TakeVector { vector } => write!(to, "take vector {vector}"),
            Call::Run {
                levels,
                outputs_len,
            } => {
                write!(
                    to,
                    "run of {} clocks with {outputs_len} outputs, levels {}",
                    levels.len(),
                    hex(levels)
                )
            }
            Call::Hold { level, clocks } => {
                write!(to, "hold of level {level:02x} for {clocks} clocks")
            }
            Call::Reset | Call::Requests | Call::SplitVotes => {
                write!(to, "{}", KINDS[self.kind()])
            }
        }
    }
}

fn archive_answer(calls: &Calls, record: &mut [u8], call: &Call) -> Answer {
    if let Some(stand_in) = calls.stand_in {
        return stand_in.answer(record, call);
    }
    let mut outputs = call.outputs();
    let mut value = if call.has_value() { BEFORE } else { 0 };
    let number = match *call {
        Call::Reset => archive::reset(record),
        Call::Write { address, value } => archive::write(record, address, value),
        Call::Read { address } => archive::read(record, address, &mut value),
        Call::TakeVector { vector } => archive::take_vector(record, vector),
        Call::Run { levels, .. } => archive::run(record, levels, &mut outputs),
        Call::Requests => archive::requests(record, &mut value),
        Call::Hold { level, clocks } => (calls.hold)(record, level, clocks, &mut value),
        Call::SplitVotes => (calls.split_votes)(record, &mut value),
    };
    Answer {
        number,
        value,
        outputs,
    }
}

/// The model's answer; no device stands for a record that is not valid.
fn model_answer(
    device: &mut Option<Device>,
    record_len: usize,
    call: &Call,
    tally: &mut Tally,
) -> Answer {
    let mut outputs = call.outputs();
    let (number, value) = match (*call, device.as_mut()) {
        (Call::Reset, _) if record_len == record::LENGTH => {
            *device = Some(Device::reset());
            (number::DONE, 0)
        }
        (_, None) | (Call::Reset, _) => (number::RECORD, 0),
        (Call::Write { address, value }, Some(device)) => {
            (model_write(device, address, value, tally), 0)
        }
        (Call::Read { address }, Some(device)) => model_read(device, address, tally),
        (Call::TakeVector { vector }, Some(device)) => (device.take_vector(vector), 0),
        (Call::Run { levels, .. }, Some(device)) => {
            (model_run(device, levels, &mut outputs, tally), 0)
        }
        (Call::Requests, Some(device)) => (number::DONE, device.requests()),
        (Call::Hold { level, clocks }, Some(device)) => model_hold(device, level, clocks, tally),
        (Call::SplitVotes, Some(device)) => (number::DONE, device.split_votes()),
    };
    Answer {
        number,
        value,
        outputs,
    }
}

/// A write of the model, counted.
fn model_write(device: &mut Device, address: u16, value: u8, tally: &mut Tally) -> u8 {
    let before = device.usart;
    let number = device.write(address, value);
    tally.waits.count_call(&before, &device.usart, number);
    number
}

/// A read of the model, counted.
fn model_read(device: &mut Device, address: u16, tally: &mut Tally) -> (u8, u8) {
    let before = device.usart;
    let (number, value) = device.read(address);
    tally.waits.count_call(&before, &device.usart, number);
    (number, value)
}

fn model_run(device: &mut Device, levels: &[u8], outputs: &mut [u8], tally: &mut Tally) -> u8 {
    if levels.len() != outputs.len() {
        return number::LENGTH;
    }
    if levels.iter().any(|byte| byte & level::ILLEGAL != 0) {
        return number::LEVEL;
    }
    for (output, &level) in outputs.iter_mut().zip(levels) {
        *output = model_clock(device, level, tally);
    }
    number::DONE
}

/// M-106: 'It must equal that many single clocks', and answers 'the last output byte (0 for no clocks or refused)';
/// 'Refusals 5 and 7 apply, 7 also for no clocks'.
fn model_hold(device: &mut Device, level: u8, clocks: u32, tally: &mut Tally) -> (u8, u8) {
    if level & level::ILLEGAL != 0 {
        return (number::LEVEL, 0);
    }
    let mut output = 0;
    for _ in 0..clocks {
        output = model_clock(device, level, tally);
    }
    (number::DONE, output)
}

/// One clock of the model, counted.
#[inline]
pub fn model_clock(device: &mut Device, level: u8, tally: &mut Tally) -> u8 {
    let before = *device;
    let output = device.clock(level);
    tally.count_clock(&before, device, level);
    output
}

/// Makes the call on both and compares number, value, outputs and every byte of the record.
pub fn compare(
    record: &mut [u8],
    device: &mut Option<Device>,
    call: Call,
    tally: &mut Tally,
) -> Result<Answer, String> {
    compare_by(&ARCHIVE, record, device, call, tally)
}

/// The same with these calls in the place of the archive's.
pub fn compare_by(
    calls: &Calls,
    record: &mut [u8],
    device: &mut Option<Device>,
    call: Call,
    tally: &mut Tally,
) -> Result<Answer, String> {
    let after = After {
        answer: model_answer(device, record.len(), &call, tally),
        device: *device,
    };
    compare_with(calls, record, &after, call, tally)
}

/// Makes the call on the record alone and compares with what has to stand after it.
pub fn compare_with(
    calls: &Calls,
    record: &mut [u8],
    after: &After,
    call: Call,
    tally: &mut Tally,
) -> Result<Answer, String> {
    let before = record.to_vec();
    let given = archive_answer(calls, record, &call);
    let expected = &after.answer;
    tally.count_call(&call, expected.number);
    let expected_record = after
        .device
        .map_or(before.clone(), |device| encode(&device).to_vec());
    let untouched = expected.number == number::DONE || *record == before[..];
    if given == *expected && *record == expected_record[..] && untouched {
        return Ok(given);
    }
    let records = Records {
        before: &before,
        after: record,
        expected: &expected_record,
    };
    Err(difference::text(&call, &given, expected, &records))
}

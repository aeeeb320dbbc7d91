//! Part 6: records that break one rule of docs/RECORD.md between fields that are each within their range; of a frame
//! that waits the ranges too. From a valid device of the rule's shape just that rule is broken in the bytes: every call
//! that looks at the record must answer 5 and leave it, and the record as it was before must be taken.

use crate::broken_waits;
use crate::call::{compare_by, Calls, ARCHIVE};
use crate::choice::call_of_kind;
use crate::devices::random_device;
use crate::levels::Levels;
use crate::model::frame::Parity;
use crate::model::layout::{self, held};
use crate::model::receiver::{Line, Receiving};
use crate::model::record::{decode, Bytes};
use crate::model::spi::{CPHA, MSTR, SPE};
use crate::model::usart::UBRR_LAST;
use crate::model::Device;
use crate::pair::Pair;
use crate::random::Random;
use crate::tally::{Tally, KINDS};

const LONGEST_RUN: u64 = 40;
/// Bytes that count split votes, and the most that each can hold; no stop bit is decided while a frame is under way.
const UNDER_WAY: (usize, u8) = (layout::SPLIT_VOTES, held::SPLIT_VOTES_LAST - 1);
const OLDEST: (usize, u8) = (layout::OLDEST_SPLIT_VOTES, held::SPLIT_VOTES_LAST);
const SECOND: (usize, u8) = (layout::SECOND_SPLIT_VOTES, held::SPLIT_VOTES_LAST);

/// A rule: what breaks it, the devices in which that can be done, and how.
pub struct Rule {
    pub broken_by: &'static str,
    pub shape: fn(&Device) -> bool,
    pub damage: fn(&Device, &mut Bytes, &mut Random),
}

const RULES: [Rule; 23] = [
    Rule {
        broken_by: "a word in the shifter with a wrong parity bit",
        shape: |device| sends(device) && device.usart.format.parity != Parity::Off,
        damage: |device, bytes, _| {
            let parity_bit = 1 << device.usart.format.data_bits;
            change_word(bytes, layout::SENT_WORD, |word| word ^ parity_bit);
        },
    },
    Rule {
        broken_by: "a start bit past its last vote with two high votes",
        shape: |device| receives(device, |frame| frame.bit == 0) && is_decided(device),
        damage: |_, bytes, _| {
            bytes[layout::FIRST_VOTE] = 1;
            bytes[layout::SECOND_VOTE] = 1;
        },
    },
    Rule {
        broken_by: "a first vote kept past the last one",
        shape: is_decided,
        damage: |_, bytes, _| bytes[layout::FIRST_VOTE] = 1,
    },
    Rule {
        broken_by: "a second vote kept past the last one",
        shape: is_decided,
        damage: |_, bytes, _| bytes[layout::SECOND_VOTE] = 1,
    },
    Rule {
        broken_by: "a first vote before it is cast",
        shape: |device| is_before_vote(device, 2),
        damage: |_, bytes, _| bytes[layout::FIRST_VOTE] = 1,
    },
    Rule {
        broken_by: "a second vote before it is cast",
        shape: |device| is_before_vote(device, 1),
        damage: |_, bytes, _| bytes[layout::SECOND_VOTE] = 1,
    },
    Rule {
        broken_by: "received bits below those that came in",
        shape: |device| bits_to_come(device) != 0,
        damage: |device, bytes, random| {
            let stray = random_bits_of(bits_to_come(device), random);
            change_word(bytes, layout::RECEIVED_WORD, |word| word | stray);
        },
    },
    Rule {
        broken_by: "more split votes than bits decided, before the present bit's last vote",
        shape: |device| !is_decided(device) && can_split_more(device),
        damage: put_split_votes_above,
    },
    Rule {
        broken_by: "more split votes than bits decided, past the present bit's last vote",
        shape: |device| is_decided(device) && can_split_more(device),
        damage: put_split_votes_above,
    },
    Rule {
        broken_by: "split votes while no frame is being received",
        shape: |device| !device.usart.receiver.busy(),
        damage: |_, bytes, random| put_split_votes(bytes, UNDER_WAY, 1, random),
    },
    Rule {
        broken_by: "split votes of an oldest frame while none is held",
        shape: |device| device.usart.receiver.oldest.is_none(),
        damage: |_, bytes, random| put_split_votes(bytes, OLDEST, 1, random),
    },
    Rule {
        broken_by: "split votes of a second frame while only one is held",
        shape: holds_one,
        damage: |_, bytes, random| put_split_votes(bytes, SECOND, 1, random),
    },
    Rule {
        broken_by: "a master with CPHA 0 and no edge yet that does not show its first bit",
        shape: |device| master_at(device, false, |edges| edges == 0),
        damage: |_, bytes, _| bytes[layout::MOSI] ^= 1,
    },
    Rule {
        broken_by: "a master with CPHA 0 past an even edge that does not show its bit",
        shape: |device| master_at(device, false, |edges| edges > 0 && edges % 2 == 0),
        damage: |_, bytes, _| bytes[layout::MOSI] ^= 1,
    },
    Rule {
        broken_by: "a master with CPHA 1 past an odd edge that does not show its bit",
        shape: |device| master_at(device, true, |edges| edges % 2 == 1),
        damage: |_, bytes, _| bytes[layout::MOSI] ^= 1,
    },
    Rule {
        broken_by: "a slave with CPHA 0 past an even edge that does not show its bit",
        shape: |device| slave_at(device, false, |edges| edges > 0 && edges % 2 == 0),
        damage: |_, bytes, _| bytes[layout::MISO] ^= 1,
    },
    Rule {
        broken_by: "a slave with CPHA 1 past an odd edge that does not show its bit",
        shape: |device| slave_at(device, true, |edges| edges % 2 == 1),
        damage: |_, bytes, _| bytes[layout::MISO] ^= 1,
    },
    Rule {
        broken_by: "a slave with SCK at CPOL past an odd edge",
        shape: |device| slave_seen(device, |edges| edges % 2 == 1),
        damage: |_, bytes, _| bytes[layout::SCK] ^= 1,
    },
    Rule {
        broken_by: "a slave with SCK away from CPOL past an even edge",
        shape: |device| slave_seen(device, |edges| edges > 0 && edges % 2 == 0),
        damage: |_, bytes, _| bytes[layout::SCK] ^= 1,
    },
    Rule {
        broken_by: "a frame being sent with the baud counter above UBRR",
        shape: |device| sends(device) && !device.usart.receiver.busy() && below_last(device),
        damage: put_counter_above,
    },
    Rule {
        broken_by: "a frame being received with the baud counter above UBRR",
        shape: |device| !sends(device) && device.usart.receiver.busy() && below_last(device),
        damage: put_counter_above,
    },
    Rule {
        broken_by: "the number of layout 1, which was 0",
        shape: |_| true,
        damage: |_, bytes, _| bytes[layout::NUMBER_PLACE] = 0,
    },
    Rule {
        broken_by: "a layout number other than 2",
        shape: |_| true,
        damage: |_, bytes, random| {
            bytes[layout::NUMBER_PLACE] ^= random.between(1, 255) as u8;
        },
    },
];

/// Breaks each rule in so many devices.
pub fn run(devices: u64, random: &mut Random, tally: &mut Tally) -> Result<(), String> {
    tally.rules_broken = (RULES.len() + broken_waits::RULES.len()) as u64;
    break_rules(ARCHIVE, &RULES, devices, random, tally)?;
    break_rules(ARCHIVE, &broken_waits::RULES, devices, random, tally)
}

/// Breaks each of these rules with these calls, the archive's or some that are wrong on purpose.
pub fn break_rules(
    calls: Calls,
    rules: &[Rule],
    devices: u64,
    random: &mut Random,
    tally: &mut Tally,
) -> Result<(), String> {
    for number in 0..devices {
        for rule in rules {
            break_rule(&calls, rule, random, tally)
                .map_err(|text| format!("{}, device {number}: {text}", rule.broken_by))?;
        }
    }
    Ok(())
}

fn break_rule(
    calls: &Calls,
    rule: &Rule,
    random: &mut Random,
    tally: &mut Tally,
) -> Result<(), String> {
    let whole = Pair::of(device_of(rule.shape, random))?;
    let mut broken = whole.record;
    (rule.damage)(&whole.device, &mut broken, random);
    if decode(&broken).is_some() {
        return Err("the model takes the record".to_string());
    }
    let mut levels = Levels::new();
    // All kinds but reset look at the record.
    for kind in 1..KINDS.len() {
        let call = call_of_kind(kind, &whole.device, &mut levels, LONGEST_RUN, random);
        let mut bytes = broken;
        compare_by(calls, &mut bytes, &mut None, call, tally)?;
        let mut bytes = whole.record;
        compare_by(calls, &mut bytes, &mut Some(whole.device), call, tally)
            .map_err(|text| format!("as it was before, {text}"))?;
    }
    tally.broken_records += 1;
    Ok(())
}

/// A random device of a shape.
fn device_of(shape: fn(&Device) -> bool, random: &mut Random) -> Device {
    loop {
        let device = random_device(random);
        if shape(&device) {
            return device;
        }
    }
}

fn change_word(bytes: &mut Bytes, place: usize, change: impl Fn(u16) -> u16) {
    let word = u16::from_le_bytes([bytes[place], bytes[place + 1]]);
    bytes[place..place + 2].copy_from_slice(&change(word).to_le_bytes());
}

/// Some of the bits that are set in a mask, at least one.
fn random_bits_of(mask: u16, random: &mut Random) -> u16 {
    loop {
        let bits = mask & random.next() as u16;
        if bits != 0 {
            return bits;
        }
    }
}

fn sends(device: &Device) -> bool {
    device.usart.sender.shifter.is_some()
}

/// A frame is being received, and this holds of it.
pub fn receives(device: &Device, holds: impl Fn(&Receiving) -> bool) -> bool {
    matches!(&device.usart.receiver.line, Line::Frame(frame) if holds(frame))
}

/// The last vote of the bit being sampled has been taken.
fn is_decided(device: &Device) -> bool {
    let last_vote = device.usart.format.last_vote();
    receives(device, |frame| frame.samples >= last_vote)
}

/// A vote of the bit being sampled, so many before the last one, is still to come.
fn is_before_vote(device: &Device, before_last: u8) -> bool {
    let vote = device.usart.format.last_vote() - before_last;
    receives(device, |frame| frame.samples < vote)
}

/// The bits decided of the frame being received: those before the one being sampled, and that one past its last vote.
fn bits_decided(device: &Device) -> u8 {
    match &device.usart.receiver.line {
        Line::Frame(frame) => frame.bit + is_decided(device) as u8,
        Line::Idle { .. } => 0,
    }
}

/// The bits of the word being received that have not come in: the low D - n after n decided ones, of which the start
/// bit is none.
fn bits_to_come(device: &Device) -> u16 {
    if !device.usart.receiver.busy() {
        return 0;
    }
    let came_in = bits_decided(device).saturating_sub(1);
    (1 << (device.usart.format.word_bits() - came_in)) - 1
}

/// A frame is being received, and its split votes can be more than its bits decided, and yet within the byte's range.
fn can_split_more(device: &Device) -> bool {
    device.usart.receiver.busy() && bits_decided(device) < UNDER_WAY.1
}

fn put_split_votes_above(device: &Device, bytes: &mut Bytes, random: &mut Random) {
    put_split_votes(bytes, UNDER_WAY, bits_decided(device) + 1, random);
}

/// Puts a count within the byte's range; as often as not the least that breaks the rule.
fn put_split_votes(bytes: &mut Bytes, (place, most): (usize, u8), least: u8, random: &mut Random) {
    let any = random.between(least.into(), most.into()) as u8;
    bytes[place] = random.pick(&[least, any]);
}

pub fn holds_one(device: &Device) -> bool {
    let receiver = &device.usart.receiver;
    receiver.oldest.is_some() && receiver.second.is_none()
}

/// A master's byte is under way, after so many edges.
fn master_at(device: &Device, cpha: bool, edges: fn(u8) -> bool) -> bool {
    let spi = &device.spi;
    let waits = spi.has(SPE) && spi.has(MSTR) && spi.clocks_left > 0;
    waits && spi.has(CPHA) == cpha && edges(spi.edges)
}

/// A slave has seen so many edges of a byte.
fn slave_seen(device: &Device, edges: fn(u8) -> bool) -> bool {
    let spi = &device.spi;
    spi.has(SPE) && !spi.has(MSTR) && edges(spi.edges)
}

fn slave_at(device: &Device, cpha: bool, edges: fn(u8) -> bool) -> bool {
    device.spi.has(CPHA) == cpha && slave_seen(device, edges)
}

/// UBRR leaves room above it for the baud counter.
fn below_last(device: &Device) -> bool {
    device.usart.ubrr < UBRR_LAST
}

fn put_counter_above(device: &Device, bytes: &mut Bytes, random: &mut Random) {
    let above = random.between(device.usart.ubrr as u64 + 1, UBRR_LAST as u64) as u16;
    // As often as not the least that is above.
    let counter = random.pick(&[device.usart.ubrr + 1, above]);
    change_word(bytes, layout::COUNTER, |_| counter);
}

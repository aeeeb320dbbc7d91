//! Stand-ins that are wrong on purpose with frames that wait (document 02, M-103), in the place of the archive's calls:
//! in random histories, on lines read late by their answers alone, or on records that break a rule, each has to be
//! seen, else the test could not fail. They are made of the model; what is not wrong on purpose is right.

use crate::broken;
use crate::broken_waits;
use crate::call::{Calls, ARCHIVE};
use crate::histories;
use crate::late_reads;
use crate::model::layout::{WAITING_DATA, WAITING_FLAGS, WAITING_SPLIT_VOTES};
use crate::model::{address, Device};
use crate::random::Random;
use crate::stand_in::{Alone, StandIn};
use crate::tally::Tally;
use crate::waiting_calls::*;
use crate::waiting_clocks::*;
use crate::waiting_records::*;

const fn clock(clock: fn(&mut Device, u8) -> u8) -> StandIn {
    StandIn { clock, ..RIGHT }
}

const fn read(read: fn(&mut Device, u16) -> (u8, u8)) -> StandIn {
    StandIn { read, ..RIGHT }
}

const fn write(write: fn(&mut Device, u16, u8) -> u8) -> StandIn {
    StandIn { write, ..RIGHT }
}

const fn found(decode: fn(&[u8]) -> Option<Device>) -> StandIn {
    StandIn { decode, ..RIGHT }
}

/// DOR goes to the frame that a read moves in, and to no other.
const DOR_ON_MOVED_IN: StandIn = StandIn {
    clock: |d, l| after_clock(d, l, dor_forgotten),
    read: |d, a| after_read(d, a, |b, r| moved_in(b, r, |f| f.dor = true)),
    ..RIGHT
};

const MOVED_IN_BY_CLOCK: StandIn = StandIn {
    clock: moved_in_by_clock,
    read: |d, a| after_read(d, a, not_moved_in),
    ..RIGHT
};

const SPLIT_VOTES_OF_WAITING: StandIn = StandIn {
    split_votes: split_votes_of_waiting,
    ..RIGHT
};

/// Seen in histories by the record, and on lines read late by answers alone.
#[rustfmt::skip] // a line each
static BY_ANSWERS: [(&str, StandIn); 30] = [
    ("a third frame lost as it completes", clock(|d, l| after_clock(d, l, lost_as_it_completes))),
    ("the oldest lost at an accepted start", clock(|d, l| after_clock(d, l, oldest_lost))),
    ("the second lost at an accepted start", clock(|d, l| after_clock(d, l, second_lost))),
    ("none lost at an accepted start", clock(|d, l| after_clock(d, l, not_lost))),
    ("lost at the first low sample", clock(|d, l| after_clock(d, l, lost_at_first_low))),
    ("lost a sample before the last vote", clock(|d, l| after_clock(d, l, lost_a_sample_early))),
    ("lost a sample behind the last vote", clock(|d, l| after_clock(d, l, lost_a_sample_late))),
    ("lost as the next frame completes", clock(|d, l| after_clock(d, l, lost_as_the_next_completes))),
    ("lost at a false start too", clock(|d, l| after_clock(d, l, lost_at_false_start))),
    ("DOR forgotten", clock(|d, l| after_clock(d, l, dor_forgotten))),
    ("DOR on the frame that waits", clock(|d, l| after_clock(d, l, dor_on_waiting))),
    ("DOR on the frame moved in", DOR_ON_MOVED_IN),
    ("DOR on the oldest", clock(|d, l| after_clock(d, l, dor_on_oldest))),
    ("DOR on the second", clock(|d, l| after_clock(d, l, dor_on_second))),
    ("DOR on the next frame that finds a place", clock(|d, l| after_clock(d, l, dor_only_with_a_place))),
    ("a loss not used up by a frame that waits", clock(|d, l| after_clock(d, l, loss_not_used_up_by_waiting))),
    ("moved in by the next clock", MOVED_IN_BY_CLOCK),
    ("moved in where the buffer is empty", read(|d, a| after_read(d, a, moved_in_where_empty))),
    ("lost by a read", read(|d, a| after_read(d, a, lost_by_a_read))),
    ("a read takes the one that waits away", read(|d, a| after_read(d, a, waiting_taken))),
    ("a read clears a pending loss", read(|d, a| after_read(d, a, loss_cleared))),
    ("moved in without FE", read(|d, a| after_read(d, a, |b, r| moved_in(b, r, |f| f.fe = false)))),
    ("moved in without UPE", read(|d, a| after_read(d, a, |b, r| moved_in(b, r, |f| f.upe = false)))),
    ("moved in without DOR", read(|d, a| after_read(d, a, |b, r| moved_in(b, r, |f| f.dor = false)))),
    ("moved in without the ninth bit", read(|d, a| after_read(d, a, |b, r| moved_in(b, r, |f| f.data &= 0xFF)))),
    ("moved in without split votes", read(|d, a| after_read(d, a, |b, r| moved_in(b, r, |f| f.split_votes = 0)))),
    ("flags of the one that waits shown", read(|d, a| waiting_shown(d, a, address::UCSR0A))),
    ("ninth bit of the one that waits shown", read(|d, a| waiting_shown(d, a, address::UCSR0B))),
    ("data of the one that waits read", read(|d, a| waiting_shown(d, a, address::UDR0))),
    ("split votes of the one that waits answered", SPLIT_VOTES_OF_WAITING),
];

/// Seen on lines read late alone: no history from reset has a loss pending while a start bit is not decided.
#[rustfmt::skip] // a line each
static BY_LINES: [(&str, StandIn); 1] = [
    ("a loss used up by a false start", clock(|d, l| after_clock(d, l, loss_used_up_by_false_start))),
];

/// Seen in histories alone, since lines have no writes.
#[rustfmt::skip] // a line each
static BY_WRITES: [(&str, StandIn); 4] = [
    ("4 while a frame waits", write(waiting_is_busy)),
    ("RXEN 0 keeps the frame that waits", write(|d, a, v| after_clearing(d, a, v, |b, r| r.waiting = b.waiting))),
    ("RXEN 0 keeps it as the oldest", write(|d, a, v| after_clearing(d, a, v, |b, r| r.oldest = b.waiting))),
    ("RXEN 0 makes a loss of it", write(|d, a, v| after_clearing(d, a, v, |_, r| r.lost = true))),
];

/// Seen on records that break a rule, or on those from which they are made.
#[rustfmt::skip] // a line each
static BY_RECORDS: [(&str, StandIn); 14] = [
    ("one that waits taken with one held", found(|r| decode_changed(r, |b| forget_with_held(b, 1)))),
    ("one that waits taken with none held", found(|r| decode_changed(r, |b| forget_with_held(b, 0)))),
    ("one that waits taken with RXEN 0", found(|r| decode_changed(r, forget_with_receiver_off))),
    ("one that waits taken past the start's last vote", found(|r| decode_changed(r, |b| forget_in(b, true)))),
    ("one that waits taken behind a start bit", found(|r| decode_changed(r, |b| forget_in(b, false)))),
    ("2 that wait taken", found(|r| decode_changed(r, cut_mark))),
    ("other marks of one that waits taken", found(|r| decode_changed(r, cut_flags))),
    ("13 split votes of one that waits taken", found(|r| decode_changed(r, cut_split_votes))),
    ("data of none that waits taken", found(|r| decode_changed(r, |b| forget_without(b, WAITING_DATA)))),
    ("marks of none that waits taken", found(|r| decode_changed(r, |b| forget_without(b, WAITING_FLAGS)))),
    ("split votes of none that waits taken", found(|r| decode_changed(r, |b| forget_without(b, WAITING_SPLIT_VOTES)))),
    ("a loss refused beside one that waits", found(|r| decode_without(r, |it| it.lost && it.waiting.is_some()))),
    ("a loss refused while no frame is received", found(|r| decode_without(r, |it| it.lost && !it.busy()))),
    ("one that waits refused in a start bit", found(|r| decode_without(r, |it| it.busy() && it.waiting.is_some()))),
];

static NOTHING_WRONG: StandIn = RIGHT;

/// What a stand-in is played in.
type Scene = fn(&'static StandIn, &mut Random, &mut Tally) -> Result<(), String>;

const SCENES: [(&str, Scene); 3] = [
    ("random histories", in_histories),
    ("lines read late", on_lines),
    ("records that break one rule", on_records),
];

/// Histories, rounds of lines, and devices for each rule, in which each must be seen; the right one goes through all.
const HISTORIES: u64 = 600;
const ROUNDS: u64 = 4;
const DEVICES: u64 = 60;

/// Answers how many there are. The means by which they are made, with nothing made wrong, must not be seen: then a
/// wrong one is seen for what is wrong with it.
pub fn all_are_seen(seed: u64) -> Result<u64, String> {
    for (name, scene) in SCENES {
        scene(
            &NOTHING_WRONG,
            &mut Random::new(seed),
            &mut Tally::default(),
        )
        .map_err(|text| format!("{name}, a stand-in with nothing wrong: {text}"))?;
    }
    let mut seen = 0;
    let tables = [
        (&BY_ANSWERS[..], &SCENES[..2]),
        (&BY_LINES, &SCENES[1..2]),
        (&BY_WRITES, &SCENES[..1]),
        (&BY_RECORDS, &SCENES[2..]),
    ];
    for (table, scenes) in tables {
        for (name, stand_in) in table {
            is_seen(name, stand_in, scenes, seed)?;
            seen += 1;
        }
    }
    Ok(seen)
}

/// Each of the scenes must see it.
fn is_seen(
    name: &str,
    stand_in: &'static StandIn,
    scenes: &[(&str, Scene)],
    seed: u64,
) -> Result<(), String> {
    for (place, scene) in scenes {
        if scene(stand_in, &mut Random::new(seed), &mut Tally::default()).is_ok() {
            return Err(format!("{place} do not see what is wrong with: {name}"));
        }
    }
    Ok(())
}

fn calls(stand_in: &'static StandIn) -> Calls {
    Calls {
        stand_in: Some(stand_in),
        ..ARCHIVE
    }
}

fn in_histories(
    stand_in: &'static StandIn,
    random: &mut Random,
    tally: &mut Tally,
) -> Result<(), String> {
    histories::play(calls(stand_in), HISTORIES, random, tally)
}

fn on_lines(
    stand_in: &'static StandIn,
    random: &mut Random,
    tally: &mut Tally,
) -> Result<(), String> {
    let make = |device| Ok(Alone { device, stand_in });
    (0..ROUNDS).try_for_each(|_| late_reads::round(make, random, tally))
}

fn on_records(
    stand_in: &'static StandIn,
    random: &mut Random,
    tally: &mut Tally,
) -> Result<(), String> {
    broken::break_rules(
        calls(stand_in),
        &broken_waits::RULES,
        DEVICES,
        random,
        tally,
    )
}

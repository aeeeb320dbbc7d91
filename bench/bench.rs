//! `make bench`: times of the archive against the independent model of tests/host/model, which passes one clock at a
//! time, keeps its device by reference and pays for no record. Both do the same work on the same levels in one run of
//! one program, and must come to the same outputs, requests and records. The ratio is what counts: times vary with the
//! machine.

#[allow(dead_code)]
#[path = "../tests/host/compare/archive.rs"]
mod archive;
#[allow(dead_code)]
#[path = "../tests/host/model/mod.rs"]
mod model;
mod holds;
mod replays;

use holds::Hold;
use model::{address, level, record, spi, usart, Device};
use replays::{Line, Trace};
use std::hint::black_box;
use std::slice::{from_mut, from_ref};
use std::time::Instant;

/// Rounds of each row, unless an argument says otherwise. The fastest counts, for either side: what else the machine
/// does can only slow a round down.
const ROUNDS: usize = 400;

/// Ratios to reach: of runs, of turns on an idle device at UBRR 51, of turns with traffic or at UBRR 0, and of the hold
/// of an idle device at UBRR 51.
const RUN_LIMIT: f64 = 1.2;
const IDLE_LIMIT: f64 = 8.0;
const BUSY_LIMIT: f64 = 11.0;
const HOLD_LIMIT: f64 = 0.00001;
/// ns that no hold may take, whatever the number of clocks.
const HOLD_NS: f64 = 2000.0;

const IDLE: u8 = level::RXD | level::SS;
const TICKS: usize = 16;
const FRAME_BITS: usize = 10;
const BYTE: u8 = 0x65;
const SLOW: u8 = 51;
/// Clocks of a frame at `SLOW`, and those of a byte that an SPI master transfers at divisor 2.
const FRAME_CLOCKS: usize = 8320;
const TRANSFER_CLOCKS: usize = 16;
/// UCSR0C with parity and two stop bits and, where UCSZ2 is set, nine data bits; the divisor's bits of SPCR.
const LONGEST_FRAME: u8 = 0x2E;
const DIVISOR_128: u8 = 0x03;
/// Turns in a round: whole frames at either rate.
const TURNS: usize = 4 * FRAME_CLOCKS;

type Record = [u8; record::LENGTH];

/// What devices do, each over the levels of its row.
enum Work {
    /// One run.
    Run,
    /// Turns: a run of one clock and a report after it, as a rig that has the processor core makes them.
    Turns,
    /// The runs of the turns by themselves.
    SingleRuns,
    /// The reports of the turns by themselves.
    Reports,
}

/// What is done to a device before its work, untimed, and the levels for it.
struct Traffic {
    ready: fn(&mut Device),
    levels: Vec<u8>,
}

/// Devices that start alike and do the same in each round.
struct Row {
    name: &'static str,
    limit: Option<f64>,
    work: Work,
    start: Device,
    traffic: Traffic,
    devices: usize,
}

impl Row {
    fn of_runs(name: &'static str, start: Device, traffic: Traffic, devices: usize) -> Row {
        Row {
            name,
            limit: Some(RUN_LIMIT),
            work: Work::Run,
            start,
            traffic,
            devices,
        }
    }

    fn of_turns(name: &'static str, limit: Option<f64>, work: Work, start: Device, traffic: Traffic) -> Row {
        let devices = TURNS / traffic.levels.len();
        Row {
            limit,
            work,
            ..Row::of_runs(name, start, traffic, devices)
        }
    }
}

fn write(device: &mut Device, address: u16, value: u8) {
    assert_eq!(device.write(address, value), 0);
}

/// Sender and receiver enabled, the line seen high.
fn serial(ubrr: u8) -> Device {
    let mut device = Device::reset();
    write(&mut device, address::UBRR0L, ubrr);
    write(&mut device, address::UCSR0B, usart::RXEN | usart::TXEN);
    (0..=ubrr).for_each(|_| {
        device.clock(IDLE);
    });
    device
}

/// The device with its SPI enabled as a master that keeps SS as an output.
fn as_master(mut device: Device) -> Device {
    write(&mut device, address::DDRB, spi::DDRB_SS | spi::DDRB_MOSI | spi::DDRB_SCK);
    write(&mut device, address::SPCR, spi::SPE | spi::MSTR);
    device
}

/// A master at divisor 2.
fn fast_master() -> Device {
    let mut device = as_master(Device::reset());
    write(&mut device, address::SPSR, spi::SPI2X);
    device
}

fn idle() -> Traffic {
    Traffic {
        ready: |_| {},
        levels: vec![IDLE; FRAME_CLOCKS],
    }
}

/// A frame each way.
fn full_duplex(ubrr: u8) -> Traffic {
    Traffic {
        ready: send,
        levels: frame(ubrr),
    }
}

/// A byte that a master transfers at divisor 2.
fn transfers() -> Traffic {
    Traffic {
        ready: transfer,
        levels: vec![IDLE; TRANSFER_CLOCKS],
    }
}

/// One frame on RxD: start bit, `BYTE`, stop bit.
fn frame(ubrr: u8) -> Vec<u8> {
    let bit_clocks = TICKS * (ubrr as usize + 1);
    let bits = 1 << (FRAME_BITS - 1) | (BYTE as usize) << 1;
    let level = |clock: usize| level::SS | (bits >> (clock / bit_clocks) & 1) as u8 * level::RXD;
    (0..FRAME_BITS * bit_clocks).map(level).collect()
}

/// Takes what came in, and gives the sender a byte.
fn send(device: &mut Device) {
    device.read(address::UDR0);
    device.read(address::UDR0);
    write(device, address::UDR0, BYTE);
}

fn transfer(device: &mut Device) {
    device.read(address::SPSR);
    write(device, address::SPDR, BYTE);
}

/// What a device answered, a byte for each level; zeros where it was not asked.
#[derive(Clone, PartialEq)]
struct Seen {
    outputs: Vec<u8>,
    requests: Vec<u8>,
}

fn archive_run(bytes: &mut Record, levels: &[u8], seen: &mut Seen) {
    archive::run(bytes, levels, &mut seen.outputs);
}

#[inline(never)]
fn model_run(device: &mut Device, levels: &[u8], seen: &mut Seen) {
    for (output, level) in seen.outputs.iter_mut().zip(levels) {
        *output = device.clock(*level);
    }
}

/// Turns, of which `RUN` and `REPORT` say what is done.
fn archive_turns<const RUN: bool, const REPORT: bool>(bytes: &mut Record, levels: &[u8], seen: &mut Seen) {
    for ((level, output), requests) in levels.iter().zip(&mut seen.outputs).zip(&mut seen.requests) {
        if RUN {
            archive::run(black_box(bytes), from_ref(level), from_mut(output));
        }
        if REPORT {
            archive::requests(black_box(bytes), requests);
        }
    }
}

/// The same of the model.
fn model_turns<const RUN: bool, const REPORT: bool>(device: &mut Device, levels: &[u8], seen: &mut Seen) {
    for ((level, output), requests) in levels.iter().zip(&mut seen.outputs).zip(&mut seen.requests) {
        if RUN {
            *output = black_box(&mut *device).clock(*level);
        }
        if REPORT {
            *requests = black_box(&*device).requests();
        }
    }
}

/// The trace of a device that is sent frames and sends them back as often: a line for each bit.
fn frames_trace(ubrr: u8, count: usize) -> Trace {
    let bit_clocks = TICKS as u32 * (u32::from(ubrr) + 1);
    let mut lines = vec![
        Line::Write(address::UBRR0L as u8, ubrr),
        Line::Write(address::UCSR0B as u8, usart::RXEN | usart::TXEN),
        Line::Clocks(IDLE, bit_clocks),
    ];
    for _ in 0..count {
        lines.push(Line::Write(address::UDR0 as u8, BYTE));
        lines.extend(frame(ubrr).chunks(bit_clocks as usize).map(|bit| Line::Clocks(bit[0], bit_clocks)));
        lines.push(Line::Read(address::UDR0 as u8, BYTE));
    }
    Trace::of(&lines)
}

/// An idle device at `SLOW`.
fn idle_trace(clocks: u32) -> Trace {
    Trace::of(&[
        Line::Write(address::UBRR0L as u8, SLOW),
        Line::Write(address::UCSR0B as u8, usart::RXEN | usart::TXEN),
        Line::Clocks(IDLE, clocks),
    ])
}

fn print_replays(rounds: usize) {
    println!("{:<46}{:>9}{:>9}{:>9}", "ns a clock of a replay", "replay", "calls", "ratio");
    for (name, trace) in [
        ("50 frames each way, UBRR 0, a line a bit", frames_trace(0, 50)),
        ("50 frames each way, UBRR 51, a line a bit", frames_trace(SLOW, 50)),
        ("idle, UBRR 51, one line of 400000", idle_trace(400_000)),
    ] {
        let [replay, calls] = replays::race(&trace, rounds);
        println!("{name:<46}{replay:>9.2}{calls:>9.2}{:>9.2}", replay / calls);
    }
    let text = b"chime\t1\nW\t196\t51\t0\nW\t193\t24\t0\nC\t17\t4294967295\n";
    println!("ns of a replay, idle, 4294967295 clocks {:>15.0}", replays::whole(text, rounds));
}

/// The device with its SPI enabled as a slave.
fn as_slave(mut device: Device) -> Device {
    write(&mut device, address::DDRB, spi::DDRB_MISO);
    write(&mut device, address::SPCR, spi::SPE);
    device
}

/// The device with a byte to send, so many clocks after it was written.
fn sending(mut device: Device, clocks: usize) -> Device {
    write(&mut device, address::UDR0, BYTE);
    (0..clocks).for_each(|_| {
        device.clock(IDLE);
    });
    device
}

/// As much as a device can have to do when a hold begins: two of the longest frames to send, a byte to transfer at
/// divisor 128, and, with the line held low, a frame that comes in.
fn busiest() -> Device {
    let mut device = as_master(Device::reset());
    write(&mut device, address::SPCR, spi::SPE | spi::MSTR | DIVISOR_128);
    write(&mut device, address::UBRR0L, SLOW);
    write(&mut device, address::UCSR0C, LONGEST_FRAME);
    write(&mut device, address::UCSR0B, usart::UCSZ2 | usart::RXEN | usart::TXEN);
    let mut device = sending(device, 2 * (SLOW as usize + 1));
    write(&mut device, address::UDR0, BYTE);
    write(&mut device, address::SPDR, BYTE);
    device
}

fn holds() -> Vec<Hold> {
    let clocks = 100_000_000;
    let row = |name, start, level| Hold { name, start, level, clocks };
    let mut off = Device::reset();
    write(&mut off, address::UBRR0L, SLOW);
    vec![
        row("idle, UBRR 51", serial(SLOW), IDLE),
        row("idle, UBRR 0", serial(0), IDLE),
        row("receiver off, UBRR 51", off, IDLE),
        row("line held low, UBRR 51", serial(SLOW), level::SS),
        row("SPI slave selected and quiet", as_slave(serial(SLOW)), level::RXD),
        row("SPI master enabled and quiet", as_master(serial(SLOW)), IDLE),
        row("a frame being sent, UBRR 51", sending(serial(SLOW), 1000), IDLE),
        row("two frames to send, one comes in, an SPI byte", busiest(), level::SS),
    ]
}

fn print_holds(rounds: usize) {
    println!("{:<46}{:>9}{:>12}{:>13}", "ns of a hold of 100000000 clocks", "archive", "model", "ratio");
    for hold in holds() {
        let [archive, model] = holds::race(&hold, rounds);
        println!("{:<46}{archive:>9.0}{model:>12.0}{:>13.10}", hold.name, archive / model);
    }
    let hold = Hold { name: "idle", start: serial(SLOW), level: IDLE, clocks: u32::MAX };
    println!("{:<46}{:>9.0}", "idle, UBRR 51, 4294967295 clocks", holds::alone(&hold, rounds));
    println!("to reach: {HOLD_LIMIT} of the model at UBRR 51 idle, and no hold above {HOLD_NS:.0}");
}

/// Runs something and lowers the best time so far.
fn time(best: &mut f64, clocks: usize, run: impl FnOnce()) {
    let begun = Instant::now();
    run();
    *best = best.min(begun.elapsed().as_nanos() as f64 / clocks as f64);
}

/// The record is the device's, and the archive takes it and reports what the model does.
fn agree(bytes: &Record, device: &Device) -> bool {
    let mut requests = 0;
    archive::requests(bytes, &mut requests) == 0 && requests == device.requests() && *bytes == record::encode(device)
}

/// ns a clock of archive and model, each with its own way to do the row's work.
fn race(
    row: &Row,
    rounds: usize,
    ours: impl Fn(&mut Record, &[u8], &mut Seen),
    theirs: impl Fn(&mut Device, &[u8], &mut Seen),
) -> [f64; 2] {
    let levels = &row.traffic.levels;
    let clocks = row.devices * levels.len();
    let zeros = Seen {
        outputs: vec![0; levels.len()],
        requests: vec![0; levels.len()],
    };
    let mut seen = [zeros.clone(), zeros];
    let mut devices = vec![row.start; row.devices];
    let mut best = [f64::MAX; 2];
    for _ in 0..rounds {
        devices.iter_mut().for_each(row.traffic.ready);
        let mut records: Vec<_> = devices.iter().map(record::encode).collect();
        time(&mut best[0], clocks, || {
            for bytes in &mut records {
                ours(black_box(bytes), levels, &mut seen[0]);
            }
        });
        time(&mut best[1], clocks, || {
            for device in &mut devices {
                theirs(black_box(device), levels, &mut seen[1]);
            }
        });
        let same = seen[0] == seen[1] && records.iter().zip(&devices).all(|(bytes, device)| agree(bytes, device));
        assert!(same, "{}: a difference", row.name);
    }
    best
}

fn measure(row: &Row, rounds: usize) -> [f64; 2] {
    match row.work {
        Work::Run => race(row, rounds, archive_run, model_run),
        Work::Turns => race(row, rounds, archive_turns::<true, true>, model_turns::<true, true>),
        Work::SingleRuns => race(row, rounds, archive_turns::<true, false>, model_turns::<true, false>),
        Work::Reports => race(row, rounds, archive_turns::<false, true>, model_turns::<false, true>),
    }
}

fn runs() -> Vec<Row> {
    vec![
        Row::of_runs("idle, UBRR 51, runs of 8320", serial(SLOW), idle(), 32),
        Row::of_runs("full duplex, UBRR 0, runs of 160", serial(0), full_duplex(0), 200),
        Row::of_runs("full duplex, UBRR 51, runs of 8320", serial(SLOW), full_duplex(SLOW), 32),
        Row::of_runs("SPI master, divisor 2, runs of 16", fast_master(), transfers(), 200),
    ]
}

fn turns() -> Vec<Row> {
    let both = |name, limit, start, traffic| Row::of_turns(name, limit, Work::Turns, start, traffic);
    let part = |name, work| Row::of_turns(name, None, work, serial(SLOW), idle());
    vec![
        both("idle, UBRR 51", Some(IDLE_LIMIT), serial(SLOW), idle()),
        both("full duplex, UBRR 0", Some(BUSY_LIMIT), serial(0), full_duplex(0)),
        both("idle, UBRR 0", Some(BUSY_LIMIT), serial(0), idle()),
        both("full duplex, UBRR 51", Some(BUSY_LIMIT), serial(SLOW), full_duplex(SLOW)),
        both("idle, UBRR 51, SPI an idle master", None, as_master(serial(SLOW)), idle()),
        part("idle, UBRR 51, the run by itself", Work::SingleRuns),
        part("idle, UBRR 51, the report by itself", Work::Reports),
    ]
}

fn print_table(title: &str, rows: &[Row], rounds: usize) {
    println!("{title:<46}{:>9}{:>9}{:>9}{:>9}", "archive", "model", "ratio", "to reach");
    for row in rows {
        let [archive, model] = measure(row, rounds);
        let limit = row.limit.map_or("-".to_string(), |limit| format!("{limit:.1}"));
        println!("{:<46}{archive:>9.2}{model:>9.2}{:>9.2}{limit:>9}", row.name, archive / model);
    }
}

fn main() {
    let rounds = std::env::args().nth(1).map_or(ROUNDS, |word| word.parse().expect("a number of rounds"));
    print_table("ns a clock", &runs(), rounds);
    print_table("ns a run of one clock, each with a report", &turns(), rounds);
    print_holds(rounds);
    print_replays(rounds);
}

//! A history on the model, written down as the items of a trace with the model's answers.

use crate::model::{level, spi, Device};
use crate::trace::Item;

/// What happened in a history.
#[derive(Default)]
pub struct Seen {
    pub clocks: u64,
    pub frames_received: u64,
    /// Frames that waited (M-103), and those of them that a read moved in, or an accepted start lost.
    pub frames_waited: u64,
    pub frames_moved_in: u64,
    pub frames_lost: u64,
    pub frames_sent: u64,
    pub spi_bytes: u64,
    /// Calls by their number.
    pub numbers: [u64; 9],
}

pub struct History {
    pub device: Device,
    /// The levels on the pins.
    pub pins: u8,
    pub items: Vec<Item>,
    /// The device after each item.
    pub devices: Vec<Device>,
    pub seen: Seen,
}

impl History {
    /// After reset, with RxD and SS high, as in M-100's example.
    pub fn new() -> History {
        History {
            device: Device::reset(),
            pins: level::RXD | level::SS,
            items: Vec::new(),
            devices: Vec::new(),
            seen: Seen::default(),
        }
    }

    pub fn write(&mut self, address: u16, value: u8) {
        let answer = self.device.write(address, value);
        self.note(answer);
        self.push(Item::Write {
            address: address as u8,
            value,
            answer,
        });
    }

    pub fn read(&mut self, address: u16) {
        let one_waited = self.device.usart.receiver.waiting.is_some();
        let (answer, value) = self.device.read(address);
        let one_waits = self.device.usart.receiver.waiting.is_some();
        self.seen.frames_moved_in += (one_waited && !one_waits) as u64;
        self.note(answer);
        self.push(Item::Read {
            address: address as u8,
            value,
            answer,
        });
    }

    pub fn take_vector(&mut self, vector: u8) {
        let answer = self.device.take_vector(vector);
        self.note(answer);
        self.push(Item::Vector { vector, answer });
    }

    /// Passes clocks with the pins as they are; none are none.
    pub fn hold(&mut self, clocks: u64) {
        for _ in 0..clocks {
            let before = self.device;
            self.device.clock(self.pins);
            self.seen.count_clock(&before, &self.device, self.pins);
        }
        if clocks > 0 {
            self.push(Item::Clocks {
                levels: self.pins,
                clocks: clocks as u32,
            });
        }
    }

    pub fn set_pin(&mut self, pin: u8, high: bool) {
        self.pins = self.pins & !pin | if high { pin } else { 0 };
    }

    /// Forgets the items after the first so many.
    pub fn cut(&mut self, items: usize) {
        self.items.truncate(items);
        self.devices.truncate(items);
    }

    fn note(&mut self, answer: u8) {
        self.seen.numbers[answer as usize] += 1;
    }

    fn push(&mut self, item: Item) {
        self.items.push(item);
        self.devices.push(self.device);
    }
}

impl Seen {
    fn count_clock(&mut self, before: &Device, after: &Device, level: u8) {
        self.clocks += 1;
        let (old, new) = (&before.usart.receiver, &after.usart.receiver);
        let waits = old.waiting.is_none() && new.waiting.is_some();
        let completed = old.oldest.is_none() && new.oldest.is_some()
            || old.second.is_none() && new.second.is_some()
            || waits;
        self.frames_received += completed as u64;
        self.frames_waited += waits as u64;
        self.frames_lost += (old.waiting.is_some() && new.waiting.is_none()) as u64;
        // A buffer emptied by a clock has moved to the shifter.
        let moved = before.usart.sender.buffer.is_some() && after.usart.sender.buffer.is_none();
        self.frames_sent += moved as u64;
        // After edge 15 the count goes back to 0 by edge 16, or by SS, or because a master became a slave.
        let master = before.spi.has(spi::MSTR);
        let stayed = after.spi.spcr == before.spi.spcr && (master || level & level::SS == 0);
        self.spi_bytes += (before.spi.edges == 15 && after.spi.edges == 0 && stayed) as u64;
    }

    pub fn add(&mut self, other: &Seen) {
        self.clocks += other.clocks;
        self.frames_received += other.frames_received;
        self.frames_waited += other.frames_waited;
        self.frames_moved_in += other.frames_moved_in;
        self.frames_lost += other.frames_lost;
        self.frames_sent += other.frames_sent;
        self.spi_bytes += other.spi_bytes;
        for (sum, number) in self.numbers.iter_mut().zip(other.numbers) {
            *sum += number;
        }
    }
}

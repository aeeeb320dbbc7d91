//! Level bytes for runs: frames at about the device's rate on RxD, with clocks turned over in some runs, so that votes
//! are split, an SPI partner on SCK, SS, MOSI and MISO, and noise.

use crate::model::frame::Format;
use crate::model::level;
use crate::model::usart::Usart;
use crate::random::Random;

/// Parts of a clock in which the length of a bit is counted.
const FINE: i64 = 256;

/// So many runs in a hundred have frames with clocks turned over, one in so many: about every sixth bit then has a
/// split vote. The other runs leave the frames as they are.
const NOISY_RUNS: u64 = 30;
const TURNED_OVER_IN: u64 = 16;

#[derive(Clone, Copy)]
enum Shape {
    Partner,
    Constant,
    Noise,
}

pub struct Levels {
    /// What the line is made of in this run.
    rxd_shape: Shape,
    spi_shape: Shape,
    constant: u8,
    /// Clocks of frames are turned over.
    noisy: bool,
    /// The level bytes of the last run.
    bytes: Vec<u8>,
    /// Frame on RxD: bits still to come, low first, and their number.
    bits: u16,
    bits_left: u8,
    rxd: bool,
    fine_left: i64,
    /// SPI partner.
    sck: bool,
    ss: bool,
    sck_half: u64,
    sck_left: u64,
}

impl Levels {
    pub fn new() -> Levels {
        Levels {
            rxd_shape: Shape::Partner,
            spi_shape: Shape::Partner,
            constant: 0,
            noisy: false,
            bytes: Vec::new(),
            bits: 0,
            bits_left: 0,
            rxd: true,
            fine_left: 0,
            sck: false,
            ss: false,
            sck_half: 3,
            sck_left: 0,
        }
    }

    /// The level bytes of a run of so many clocks.
    pub fn take(&mut self, clocks: usize, usart: &Usart, random: &mut Random) -> &mut [u8] {
        self.rxd_shape = random_shape(80, random);
        self.spi_shape = random_shape(60, random);
        self.constant = random.byte();
        self.noisy = random.percent(NOISY_RUNS);
        self.bytes = (0..clocks).map(|_| self.next(usart, random)).collect();
        &mut self.bytes
    }

    fn next(&mut self, usart: &Usart, random: &mut Random) -> u8 {
        let number = random.next();
        let noise = number as u8;
        // Bits above those of the noise.
        let turned_over = self.noisy && (number >> 8) % TURNED_OVER_IN == 0;
        let rxd = match self.rxd_shape {
            Shape::Partner => (self.next_rxd(usart, random) ^ turned_over) as u8 * level::RXD,
            Shape::Constant => self.constant & level::RXD,
            Shape::Noise => noise & level::RXD,
        };
        let spi = match self.spi_shape {
            Shape::Partner => self.next_spi(noise, random),
            Shape::Constant => self.constant,
            Shape::Noise => noise,
        };
        rxd | spi & !(level::ILLEGAL | level::RXD)
    }

    fn next_rxd(&mut self, usart: &Usart, random: &mut Random) -> bool {
        self.fine_left -= FINE;
        if self.fine_left > 0 {
            return self.rxd;
        }
        let bit = usart.format.ticks() as i64 * (usart.ubrr as i64 + 1) * FINE;
        // Up to 4 % off the rate; a new length for every bit.
        self.fine_left += (bit * random.between(960, 1040) as i64 / 1000).min(1 << 20);
        if self.bits_left == 0 {
            (self.bits, self.bits_left) = random_frame(&usart.format, random);
        }
        self.rxd = self.bits & 1 == 1;
        self.bits >>= 1;
        self.bits_left -= 1;
        self.rxd
    }

    fn next_spi(&mut self, noise: u8, random: &mut Random) -> u8 {
        if self.sck_left == 0 {
            self.sck = !self.sck;
            self.sck_left = self.sck_half;
            if random.percent(6) {
                self.sck_half = random.between(1, 6);
                self.sck_left = random.between(0, 30);
            }
            if random.percent(if self.ss { 20 } else { 1 }) {
                self.ss = !self.ss;
            }
        }
        self.sck_left = self.sck_left.saturating_sub(1);
        noise & (level::MOSI | level::MISO)
            | self.sck as u8 * level::SCK
            | self.ss as u8 * level::SS
    }
}

/// The partner so many times in a hundred.
fn random_shape(percent: u64, random: &mut Random) -> Shape {
    if random.percent(percent) {
        Shape::Partner
    } else {
        random.pick(&[Shape::Constant, Shape::Noise])
    }
}

/// The bits of a frame, now and then with a wrong parity or stop bit, or a stretch of high line.
fn random_frame(format: &Format, random: &mut Random) -> (u16, u8) {
    if random.percent(20) {
        return (0xFFFF, random.between(1, 8) as u8);
    }
    let mut word = format.word_of(random.next() as u16 & format.data_mask());
    if random.percent(15) {
        word ^= 1 << random.below(format.word_bits() as u64);
    }
    let stop = !random.percent(15) as u16;
    (
        word << 1 | stop << (format.word_bits() + 1),
        format.word_bits() + 2,
    )
}

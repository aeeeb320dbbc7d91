//! Settings of lines with noise (counts_seen.rs, allowed_noise.rs): format and speed, UBRR, and the sender's bit.

use crate::lines::receiving_device;
use crate::model::frame::Format;
use crate::model::receiver::{Received, Receiver};
use crate::model::Device;
use crate::noisy_lines::NoisyLine;
use crate::random::Random;
use crate::rates::{all_formats, Bit};
use crate::sampling::Sampling;

/// Chooses the sender's bit for a format and UBRR.
pub type ChooseBit = fn(&Format, u16, &mut Random) -> Bit;

#[derive(Clone, Copy, Debug)]
pub struct Setting {
    pub format: Format,
    pub ubrr: u16,
    pub bit: Bit,
}

/// Goes through a line for each format and each UBRR, with so many frames.
pub fn each(
    lengths: &[(u16, usize)],
    choose: ChooseBit,
    random: &mut Random,
    mut go: impl FnMut(&Setting, usize, &mut Random) -> Result<(), String>,
) -> Result<(), String> {
    for format in all_formats() {
        for &(ubrr, frames) in lengths {
            let bit = choose(&format, ubrr, random);
            let setting = Setting { format, ubrr, bit };
            go(&setting, frames, random).map_err(|text| format!("{setting:?}: {text}"))?;
        }
    }
    Ok(())
}

impl Setting {
    /// An idle receiver that remembers high and holds no frame, its baud counter not above UBRR, and anything in the
    /// SPI.
    pub fn device(&self, random: &mut Random) -> Device {
        receiving_device(&self.format, self.ubrr, random)
    }

    /// The same with frames, oldest first, the third of which waits, and a loss that is pending or not.
    pub fn holding_device(&self, frames: &[Received], lost: bool, random: &mut Random) -> Device {
        let mut device = self.device(random);
        let place = |number: usize| frames.get(number).copied();
        device.usart.receiver = Receiver {
            oldest: place(0),
            second: place(1),
            waiting: place(2),
            lost,
            ..device.usart.receiver
        };
        device
    }

    /// A line to this device, with no clocks yet.
    pub fn line_to(&self, device: &Device) -> NoisyLine {
        let sampling = Sampling::new(&self.format, self.ubrr, device.usart.counter);
        NoisyLine::new(&self.format, self.bit, sampling)
    }
}

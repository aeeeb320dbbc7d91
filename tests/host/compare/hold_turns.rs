//! Any number of single clocks with one level, of which not all need be passed. A clock is a function of device and
//! level alone. So where a turn of the baud counter, UBRR + 1 clocks, leaves the device that it found, every further
//! turn does, with the same outputs, and only what is left over by whole turns is to be passed yet.

use crate::model::Device;

/// What a clock does; answers the output byte.
pub type Clock = fn(&mut Device, u8) -> u8;

/// Answers the last output byte, 0 for no clocks.
pub fn pass(device: &mut Device, level: u8, clocks: u32, clock: Clock) -> u8 {
    let turn = u32::from(device.usart.ubrr) + 1;
    let (mut left, mut output) = (clocks, 0);
    while left >= turn {
        let before = *device;
        output = pass_each(device, level, turn, clock);
        left -= turn;
        if *device == before {
            left %= turn;
        }
    }
    if left > 0 {
        output = pass_each(device, level, left, clock);
    }
    output
}

/// One by one.
pub fn pass_each(device: &mut Device, level: u8, clocks: u32, clock: Clock) -> u8 {
    let mut output = 0;
    for _ in 0..clocks {
        output = clock(device, level);
    }
    output
}

//! M-112: 'never the last vote of a stop bit'. With it the receiver 'is idle and remembers that last sample'. Turned
//! over it is low, and if the next tick already shows the next start bit, that start is not 'a low sample after a
//! remembered high one': it is missed, and the frame is lost, or another is found within it.
//!
//! Reckoned in times of UBRR + 1 clocks, the distance of two ticks: the frame's first sample comes at most UBRR clocks
//! after its start, and the tick after its last vote S * (D + 2) - 6 such times behind that at normal speed, at double
//! speed S * (D + 2) - 2. With the shortest bit the next start comes x = S * (D + 2) * r / (1000 + r) such times before
//! S * (D + 2) have passed. So it can be missed where (x - 5) * (UBRR + 1) >= 1, or (x - 1) * (UBRR + 1) >= 1 at double
//! speed. At normal speed x is 3.3 at most: never. At double speed it is 1.37, 1.25, 1.06, 1.18, 1.30 and 0.95 for D
//! from 5 to 10: with every format but those of D 10, from some UBRR on.

use crate::allowed_tally::AllowedTally;
use crate::model::frame::Format;
use crate::model::Device;
use crate::noisy_lines::NoisyLine;
use crate::random::Random;
use crate::rates::{all_formats, bits_at_limit, rate_limit};
use crate::settings::Setting;
use crate::too_much_noise::{data_without_falling_edge, is_receiving_after, play};

/// UBRR that are tried.
const UBRR_LAST: u16 = 16;
/// The least UBRR with which a frame can be missed, for D from 5 to 10, at normal and at double speed.
const LEAST_UBRR: [[Option<u16>; 6]; 2] = [
    [None; 6],
    [Some(2), Some(3), Some(15), Some(5), Some(3), None],
];

/// Tries all formats, these UBRR with every start of the baud counter, and the shortest and the longest bit.
pub fn can_lose_frames(seed: u64, tally: &mut AllowedTally) -> Result<(), String> {
    let mut random = Random::new(seed);
    let mut least = [[None; 6]; 2];
    for format in all_formats() {
        let place = &mut least[format.double_speed as usize][format.word_bits() as usize - 5];
        for ubrr in 0..=UBRR_LAST {
            let missed = frames_missed(&format, ubrr, &mut random, tally)
                .map_err(|text| format!("last vote of a stop bit: {text}"))?;
            if missed > 0 {
                *place = Some(place.map_or(ubrr, |least: u16| least.min(ubrr)));
            }
        }
    }
    if least != LEAST_UBRR {
        return Err(format!("frames are missed from these UBRR on: {least:?}"));
    }
    Ok(())
}

fn frames_missed(
    format: &Format,
    ubrr: u16,
    random: &mut Random,
    tally: &mut AllowedTally,
) -> Result<u64, String> {
    let r = rate_limit(format);
    let mut missed = 0;
    // With these Q the shortest bit, or the longest, lies at the limit itself.
    let [shortest, _] = bits_at_limit(format, ubrr, 1000 + r);
    let [_, longest] = bits_at_limit(format, ubrr, 1000 - r);
    for bit in [shortest, longest] {
        let setting = Setting {
            format: *format,
            ubrr,
            bit,
        };
        for counter in 0..=ubrr {
            let mut device = setting.device(random);
            device.usart.counter = counter;
            missed += is_missed(&setting, device, random, tally)
                .map_err(|text| format!("{setting:?}, baud counter {counter}: {text}"))?
                as u64;
        }
    }
    Ok(missed)
}

/// Two frames, the second as close as the rule allows. Where a tick comes between, the last vote of the first stop bit
/// does no harm, which is tried with the least time to spare.
fn is_missed(
    setting: &Setting,
    device: Device,
    random: &mut Random,
    tally: &mut AllowedTally,
) -> Result<bool, String> {
    let mut line = setting.line_to(&device);
    line.add_frame(random);
    let is_harmless = line.tick_is_left();
    if is_harmless && device.usart.counter < setting.ubrr {
        return Ok(false);
    }
    let mut noisy = line.clone();
    noisy.turn_over(noisy.voted_bits() - 1, 2);
    noisy.frames[0].frame.split_votes = 1;
    let data = data_without_falling_edge(&setting.format, random);
    let any = random.next() as u16 & setting.format.data_mask();
    let data = random.pick(&[data, any]);
    line.add_frame_of(data, random);
    noisy.add_frame_of(data, random);
    let seed = random.next();
    play(&line, device, seed).map_err(|text| format!("without noise: {text}"))?;
    if is_harmless {
        play(&noisy, device, seed).map_err(|text| format!("with a tick between: {text}"))?;
        tally.stop_votes_harmless += 1;
        return Ok(false);
    }
    check_missed(noisy, device, seed, tally)?;
    Ok(true)
}

/// The second frame's first low sample makes no start, and no frame is there after the clock with which it would have
/// completed. Without it, all is as the line has it: it is lost. Else another frame was found within it.
fn check_missed(
    mut line: NoisyLine,
    device: Device,
    seed: u64,
    tally: &mut AllowedTally,
) -> Result<(), String> {
    let seen = play(&line, device, seed).err();
    let second = line.frames.remove(1);
    if is_receiving_after(&line, device, second.first as usize)? {
        return Err("the start was found".to_string());
    }
    let expected = format!("after {} clocks", second.completes + 1);
    if !seen
        .as_ref()
        .is_some_and(|text| text.starts_with(&expected))
    {
        return Err(format!("seen: {seen:?}"));
    }
    match play(&line, device, seed) {
        Ok(()) => tally.stop_votes_lost += 1,
        Err(_) => tally.stop_votes_garbled += 1,
    }
    Ok(())
}

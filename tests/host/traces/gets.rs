//! The byte that the other side of the SPI gets, by document 01's rules of edges alone.

use crate::check::pin;
use crate::play::Clock;

const DORD: u8 = 0x20;
const MSTR: u8 = 0x10;
const CPOL: u8 = 0x08;
const CPHA: u8 = 0x04;

const MOSI: usize = 1;
const MISO: usize = 2;
const SCK: usize = 3;

/// From a clock on, over 16 edges of SCK, with a mode as SPCR has it.
pub fn byte(clocks: &[Clock], first: usize, mode: u8) -> Result<u8, String> {
    let mut sck = u8::from(mode & CPOL != 0);
    let mut bits = Vec::new();
    let mut edges = 0;
    for place in first..clocks.len() {
        let clock = &clocks[place];
        let level = pin(clock.output, SCK).unwrap_or(clock.levels >> SCK & 1);
        edges += u8::from(level != sck);
        if level != sck && is_sampling(mode, edges) {
            bits.push(bit(clocks, place, mode).map_err(|text| format!("edge {edges}: {text}"))?);
        }
        sck = level;
        if edges == 16 {
            return Ok(in_order(mode, &bits));
        }
    }
    Err(format!("SCK has {edges} edges only"))
}

/// With CPHA 0 odd edges sample, with CPHA 1 even ones.
fn is_sampling(mode: u8, edge: u8) -> bool {
    (edge % 2 == 1) == (mode & CPHA == 0)
}

/// The bit has to be on the pin after the clock of the edge and, where that can be seen, before it.
fn bit(clocks: &[Clock], place: usize, mode: u8) -> Result<u8, String> {
    let sent = if mode & MSTR != 0 { MOSI } else { MISO };
    let after = pin(clocks[place].output, sent).ok_or("the bit is not driven")?;
    if clocks[place].steady && pin(clocks[place - 1].output, sent) != Some(after) {
        return Err("the bit was not there before the edge".to_string());
    }
    Ok(after)
}

/// DORD 1 sends the low bit first.
fn in_order(mode: u8, bits: &[u8]) -> u8 {
    let join = |byte, bit: &u8| byte << 1 | bit;
    if mode & DORD != 0 {
        return bits.iter().rev().fold(0, join);
    }
    bits.iter().fold(0, join)
}

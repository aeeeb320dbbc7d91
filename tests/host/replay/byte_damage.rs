//! Damage to the bytes of a text: changed, put in, taken out, exchanged, cut off, and what stands after the last LF.

use crate::random::Random;

/// Bytes that mean something in a text, or might be taken for such.
const LIKELY: &[u8] = b"0123456789\t\n\r +-WRACwracXB#,.:/\0\x0B\x0C\x7F\x80\xB1\xFF";

pub fn damage_bytes(text: &mut Vec<u8>, random: &mut Random) {
    let place = random.below(text.len() as u64 + 1) as usize;
    let second = random.below(text.len() as u64 + 1) as usize;
    match random.below(16) {
        0 => text.truncate(place),
        1 => end(text, random),
        2..=6 => another_digit(text, random),
        7..=8 => text.insert(place, random_byte(random)),
        _ if place == text.len() => text.push(random_byte(random)),
        9..=10 => drop(text.remove(place)),
        11 if place + 1 < text.len() => text.swap(place, place + 1),
        12 if second < text.len() => text.swap(place, second),
        13 => text[place] ^= 1 << random.below(8),
        _ => text[place] = random_byte(random),
    }
}

fn random_byte(random: &mut Random) -> u8 {
    if random.percent(80) {
        random.pick(LIKELY)
    } else {
        random.byte()
    }
}

/// A digit behind the first line's becomes another one: most such texts stay well-formed.
fn another_digit(text: &mut [u8], random: &mut Random) {
    let mut digits: Vec<&mut u8> = text
        .iter_mut()
        .filter(|byte| byte.is_ascii_digit())
        .skip(1)
        .collect();
    if !digits.is_empty() {
        let place = random.below(digits.len() as u64) as usize;
        *digits[place] = b'0' + random.below(10) as u8;
    }
}

/// The last LF missing, doubled, or not last.
fn end(text: &mut Vec<u8>, random: &mut Random) {
    let ends: [&[u8]; 10] = [
        b"\n",
        b"\r\n",
        b"\0",
        b" ",
        b"\t",
        b"W",
        b"C\t17\t16",
        b"C\t17\t16\n",
        b"chime\t1\n",
        b"\x1A",
    ];
    match random.below(3) {
        0 => drop(text.pop()),
        _ => text.extend_from_slice(random.pick(&ends)),
    }
}

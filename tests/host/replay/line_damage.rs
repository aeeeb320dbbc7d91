//! Damage to the lines of a text: dropped, doubled, exchanged, joined, empty, put in, and to the first line.

use crate::random::Random;
use crate::text::{of_lines, NEUTRAL, OTHERWISE};
use crate::trace::HEADER;

const FIRST_LINES: [&[u8]; 16] = [
    b"",
    b"chime",
    b"chime\t",
    b"chime\t0",
    b"chime\t2",
    b"chime\t11",
    b"chime\t01",
    b"chime\t1\t",
    b"chime\t\t1",
    b"chime 1",
    b"Chime\t1",
    b"CHIME\t1",
    b"chime\t1\r",
    b" chime\t1",
    b"chimes\t1",
    b"\xEF\xBB\xBFchime\t1",
];

const PUT_IN: [&[u8]; 12] = [
    b"",
    NEUTRAL,
    NEUTRAL,
    OTHERWISE,
    HEADER,
    b"C\t17\t1",
    b"C\t17\t1",
    b"C\t31\t40",
    b"C\t0\t40",
    b"#",
    b"W",
    b"C\t17\t4294967295",
];

pub fn damage_lines(text: &mut Vec<u8>, random: &mut Random) {
    // What stands after the last LF goes with it.
    let mut lines: Vec<&[u8]> = text.split(|&byte| byte == b'\n').collect();
    lines.pop();
    if lines.is_empty() {
        return;
    }
    let place = random.below(lines.len() as u64) as usize;
    // Mostly behind the first line.
    let place = if place == 0 && random.percent(60) {
        lines.len() - 1
    } else {
        place
    };
    let second = random.below(lines.len() as u64) as usize;
    match random.below(12) {
        0..=1 => drop(lines.remove(place)),
        2..=3 => lines.insert(place, lines[place]),
        4 => lines.swap(place, second),
        5 => lines.insert(place + 1, b""),
        6 => lines[0] = random.pick(&FIRST_LINES),
        7 => return join(text, place),
        _ => lines.insert(place + 1, random.pick(&PUT_IN)),
    }
    *text = of_lines(&lines);
}

/// The LF of a line taken out.
fn join(text: &mut Vec<u8>, line: usize) {
    let ends = text.iter().enumerate().filter(|(_, &byte)| byte == b'\n');
    if let Some((place, _)) = ends.clone().nth(line) {
        text.remove(place);
    }
}

//! Damage to one field of a line: emptied, another number in or out of its range, signs, spaces, zeros, another letter.

use crate::numbers::NUMBERS;
use crate::random::Random;

const LETTERS: [&[u8]; 16] = [
    b"W", b"R", b"A", b"C", b"w", b"r", b"a", b"c", b"X", b"B", b"WW", b"Wx", b"", b" W", b"W ",
    b"#",
];

pub fn damage_field(text: &mut Vec<u8>, random: &mut Random) {
    let mut lines: Vec<Vec<u8>> = text
        .split(|&byte| byte == b'\n')
        .map(<[u8]>::to_vec)
        .collect();
    // The first line only now and then; the last piece stands after the last LF.
    let first = u64::from(!random.percent(5));
    let pieces = lines.len() as u64;
    if pieces < first + 2 {
        return;
    }
    let line = random.between(first, pieces - 2) as usize;
    let mut fields: Vec<Vec<u8>> = lines[line]
        .split(|&byte| byte == b'\t')
        .map(<[u8]>::to_vec)
        .collect();
    damage_one(&mut fields, random);
    lines[line] = fields.join(&b'\t');
    *text = lines.join(&b'\n');
}

fn damage_one(fields: &mut Vec<Vec<u8>>, random: &mut Random) {
    let any = random.below(fields.len() as u64) as usize;
    // The last field is the answer of a call, and the clocks of a line that has none.
    let number = if random.percent(40) {
        fields.len() - 1
    } else {
        any.max(1).min(fields.len() - 1)
    };
    match random.below(28) {
        0 => drop(fields.remove(any)),
        1 => fields.insert(any, fields[any].clone()),
        2 => fields.insert(any, Vec::new()),
        3 => fields.push(random.pick(&[&b""[..], b"0", b" "]).to_vec()),
        4 => fields[0] = random.pick(&LETTERS).to_vec(),
        5..=7 => spoil(&mut fields[number], random),
        8..=10 => fields[number] = random.pick(&NUMBERS).0.as_bytes().to_vec(),
        _ => fields[number] = other_number(random),
    }
}

/// No longer a decimal as M-100 has it.
fn spoil(field: &mut Vec<u8>, random: &mut Random) {
    let before = random.pick(b"00+- \t\r\0");
    let behind = random.pick(b" \t\r\0.,h");
    match random.below(5) {
        0 => field.clear(),
        1 | 2 => field.insert(0, before),
        3 => field.push(behind),
        _ => field.splice(0..0, *b"000").for_each(drop),
    }
}

/// Well-formed everywhere, or nearly.
fn other_number(random: &mut Random) -> Vec<u8> {
    let number = match random.below(5) {
        0 => random.below(256),
        1 => random.below(11),
        2 => random.between(1, 600),
        _ => random.below(32),
    };
    number.to_string().into_bytes()
}

//! Damaged lists for a write: bytes changed, taken out, put in or exchanged, fields out of their range, items doubled,
//! exchanged or dropped, and lists cut.

use crate::calls::{Call, Calls};
use crate::listing::{list, ITEM_LEN};
use crate::random::Random;
use crate::random_items::random_items;
use crate::tally::Tally;
use crate::Part;

pub const PART: Part = Part {
    name: "damaged lists",
    run,
    rounds: 50_000,
};

/// Damaged lists made of each.
const COPIES: u64 = 25;
const MOST_ITEMS: u64 = 9;

/// First bytes: letters, and what might be taken for one.
const LETTERS: &[u8] = b"WRACWRACwracXB#BDQSV@\0\x20\x7F\xC3\xD7\xFF";

fn run(calls: &Calls, count: u64, random: &mut Random, tally: &mut Tally) -> Result<(), String> {
    for _ in 0..count {
        let list = list(&random_items(random.below(MOST_ITEMS), random));
        for _ in 0..COPIES {
            let damaged = damaged_list(&list, random);
            if damaged != list {
                let text = calls.compare(Call::Write, &damaged, random, tally)?;
                tally.damaged_lists.count(text.is_some());
            }
        }
    }
    Ok(())
}

/// Damaged once, now and then more often.
pub fn damaged_list(list: &[u8], random: &mut Random) -> Vec<u8> {
    let mut list = list.to_vec();
    let times = random.pick(&[1, 1, 1, 1, 2, 3]);
    for _ in 0..times {
        match random.below(10) {
            0..=1 => damage_bytes(&mut list, random),
            2..=3 => damage_items(&mut list, random),
            _ => damage_field(&mut list, random),
        }
    }
    list
}

fn damage_bytes(list: &mut Vec<u8>, random: &mut Random) {
    let place = random.below(list.len() as u64 + 1) as usize;
    let second = random.below(list.len() as u64 + 1) as usize;
    match random.below(8) {
        0 => list.truncate(place),
        1 => list.insert(place, random.byte()),
        2 => list.push(random.pick(LETTERS)),
        _ if place == list.len() => list.extend_from_within(second..),
        3 => drop(list.remove(place)),
        4 if second < list.len() => list.swap(place, second),
        5 => list[place] ^= 1 << random.below(8),
        _ => list[place] = random.byte(),
    }
}

/// Items doubled, dropped, exchanged or put in.
fn damage_items(list: &mut Vec<u8>, random: &mut Random) {
    let mut items: Vec<Vec<u8>> = list.chunks(ITEM_LEN).map(<[u8]>::to_vec).collect();
    let place = random.below(items.len() as u64 + 1) as usize;
    let second = random.below(items.len() as u64 + 1) as usize;
    match random.below(4) {
        0 if place < items.len() => items.insert(place, items[place].clone()),
        1 if place < items.len() => drop(items.remove(place)),
        2 if place.max(second) < items.len() => items.swap(place, second),
        _ => items.insert(place, random_item(random)),
    }
    *list = items.concat();
}

/// An item of any bytes, many of them 0, since most have to be.
fn random_item(random: &mut Random) -> Vec<u8> {
    let mut item = vec![random.pick(LETTERS)];
    item.extend((1..ITEM_LEN).map(|_| random.byte() & random.pick(&[0, 0, 1, 255])));
    item
}

/// One field of an item becomes another one, in its range or out of it.
fn damage_field(list: &mut [u8], random: &mut Random) {
    let items = (list.len() / ITEM_LEN) as u64;
    if items == 0 {
        return;
    }
    let item = ITEM_LEN * random.below(items) as usize;
    let short = random.pick(&[
        0, 1, 31, 32, 99, 100, 127, 128, 255, 256, 257, 4_096, 65_535,
    ]);
    let any = random.next() as u32;
    let long = random.pick(&[short, any, 65_536, 1 << 24, 999_999_999, 1 << 31, u32::MAX]);
    match random.below(8) {
        0 => list[item] = random.pick(LETTERS),
        1..=3 => list[item + 1] = short as u8,
        4..=5 => list[item + 2..item + 4].copy_from_slice(&short.to_le_bytes()[..2]),
        _ => list[item + 4..item + 8].copy_from_slice(&long.to_le_bytes()),
    }
}

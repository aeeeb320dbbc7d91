//! How wrong programs are made: a writer and a shrink in steps, one of which is wrong. They read a list, join clocks
//! and lend a text by code of their own.

use crate::memory::{After, Before};
use crate::shrinking::levels;
use crate::text::line;
use crate::trace::{self, Item};

/// What is put into the lent buffer, and answered, for a text or, where there is none, for 9.
pub type Put = fn(&Before, Option<&[u8]>) -> After;

/// The bytes of an item as numbers: byte 0, byte 1, bytes 2 and 3, bytes 4 to 7.
#[derive(Clone, Copy)]
pub struct Raw {
    pub letter: u8,
    pub byte: u8,
    pub short: u16,
    pub long: u32,
}

#[derive(Clone, Copy)]
pub struct Writer {
    pub raws: fn(&[u8]) -> Option<Vec<Raw>>,
    /// What an item is taken for.
    pub taken_for: fn(Raw) -> Raw,
    pub takes: fn(&[Raw]) -> bool,
    pub line: fn(&Raw) -> String,
    /// All of the text, of the lines after the first.
    pub text: fn(&[String]) -> String,
    pub put: Put,
}

pub const WRITER: Writer = Writer {
    raws,
    taken_for: |raw| raw,
    takes: |raws| raws.iter().all(takes),
    line: raw_line,
    text: |lines| format!("chime\t1\n{}", lines.concat()),
    put,
};

/// An item, or a group of them that was joined, with the sum of its clocks.
pub type Group = (Item, u64);

#[derive(Clone, Copy)]
pub struct Shrinker {
    pub read: fn(&[u8]) -> Option<Vec<Item>>,
    /// The place of the group that an item joins.
    pub joins: fn(&[Group], &Item) -> Option<usize>,
    /// The clocks of each line for a sum.
    pub parts: fn(u64) -> Vec<u64>,
    pub put: Put,
}

pub const SHRINKER: Shrinker = Shrinker {
    read: |text| trace::read(text).ok(),
    joins,
    parts,
    put,
};

impl Writer {
    pub fn write(&self, before: &Before) -> After {
        let text = (self.raws)(before.input()).and_then(|raws| self.written(raws));
        (self.put)(before, text.as_ref().map(String::as_bytes))
    }

    fn written(&self, raws: Vec<Raw>) -> Option<String> {
        let raws: Vec<Raw> = raws.into_iter().map(self.taken_for).collect();
        let lines: Vec<String> = raws.iter().map(self.line).collect();
        (self.takes)(&raws).then(|| (self.text)(&lines))
    }
}

impl Shrinker {
    pub fn shrink(&self, before: &Before) -> After {
        let text = (self.read)(before.input()).map(|items| self.text(&items));
        (self.put)(before, text.as_ref().map(String::as_bytes))
    }

    fn text(&self, items: &[Item]) -> String {
        let mut groups: Vec<Group> = Vec::new();
        for item in items {
            match (self.joins)(&groups, item) {
                Some(place) => groups[place].1 += clocks(item),
                None => groups.push((*item, clocks(item))),
            }
        }
        let lines = groups.iter().map(|group| self.lines(group));
        format!("chime\t1\n{}", lines.collect::<String>())
    }

    fn lines(&self, (item, sum): &Group) -> String {
        let Some(levels) = levels(item) else {
            return line(item);
        };
        let parts = (self.parts)(*sum).into_iter();
        parts.map(|part| format!("C\t{levels}\t{part}\n")).collect()
    }
}

fn raws(list: &[u8]) -> Option<Vec<Raw>> {
    (list.len() % 8 == 0).then(|| list.chunks(8).map(raw).collect())
}

pub fn raw(item: &[u8]) -> Raw {
    let number = item
        .iter()
        .rev()
        .fold(0, |sum, &byte| sum << 8 | u64::from(byte));
    Raw {
        letter: number as u8,
        byte: (number >> 8) as u8,
        short: (number >> 16) as u16,
        long: (number >> 32) as u32,
    }
}

pub fn takes(raw: &Raw) -> bool {
    match raw.letter {
        b'W' | b'R' => raw.short < 256 && raw.long < 256,
        b'A' => raw.short < 256 && raw.long == 0,
        b'C' => raw.byte < 32 && raw.short == 0 && raw.long != 0,
        _ => false,
    }
}

pub fn raw_line(raw: &Raw) -> String {
    let Raw {
        letter,
        byte,
        short,
        long,
    } = *raw;
    match letter {
        b'C' => format!("C\t{byte}\t{long}\n"),
        b'A' => format!("A\t{short}\t{byte}\n"),
        _ => format!("{}\t{short}\t{long}\t{byte}\n", char::from(letter)),
    }
}

pub fn clocks(item: &Item) -> u64 {
    match item {
        Item::Clocks { clocks, .. } => (*clocks).into(),
        _ => 0,
    }
}

/// Clocks join the last group, if it has these levels.
pub fn joins(groups: &[Group], item: &Item) -> Option<usize> {
    let (last, _) = groups.last()?;
    (levels(item).is_some() && levels(item) == levels(last)).then_some(groups.len() - 1)
}

/// As many full lines as go, and the rest, if any.
pub fn parts(sum: u64) -> Vec<u64> {
    let mut left = sum;
    let mut parts = Vec::new();
    while left > 0 {
        let part = left.min(0xFFFF_FFFF);
        parts.push(part);
        left -= part;
    }
    parts
}

pub fn put(before: &Before, text: Option<&[u8]>) -> After {
    match text {
        None => refused(before, 9),
        Some(text) if before.lent.len() < text.len() => refused(before, 12),
        Some(text) => done(before, text),
    }
}

pub fn refused(before: &Before, number: u8) -> After {
    After {
        number,
        length: 0,
        memory: before.memory.clone(),
    }
}

pub fn done(before: &Before, text: &[u8]) -> After {
    After {
        number: 0,
        length: text.len(),
        memory: before.with(text),
    }
}

//! The least number of bytes for so many clocks with equal levels, over all ways to part them into lines: for each
//! number of bytes the sums of clocks that lines of exactly so many bytes together can have.

use crate::shrinking::FULL;

/// Numbers with as many digits: the first and the last, of those that a line may have.
#[derive(Clone, Copy)]
struct Range {
    first: u64,
    last: u64,
}

pub struct Search {
    /// By the number of bytes, in order, no two of them touching.
    sums: Vec<Vec<Range>>,
}

impl Search {
    /// For these levels, up to so many bytes.
    pub fn new(levels: u8, most_bytes: usize) -> Search {
        let mut sums = vec![vec![Range { first: 0, last: 0 }]];
        for bytes in 1..=most_bytes {
            let ways = ranges().into_iter().flat_map(|range| {
                let before = bytes.checked_sub(line(levels, range.first));
                let before = before.map_or(&[][..], |before| &sums[before]);
                before.iter().map(move |sum| plus(*sum, range))
            });
            let ways = ways.collect();
            sums.push(merged(ways));
        }
        Search { sums }
    }

    /// None where more bytes would be needed than were looked at.
    pub fn least(&self, clocks: u64) -> Option<usize> {
        let holds = |sum: &Range| sum.first <= clocks && clocks <= sum.last;
        self.sums.iter().position(|sums| sums.iter().any(holds))
    }
}

/// The same for up to so many clocks, each number's by trying every line that may come first.
pub fn plainly(levels: u8, most_clocks: usize) -> Vec<usize> {
    let mut least = vec![0];
    for clocks in 1..=most_clocks {
        let ways = (1..=clocks).map(|first| line(levels, first as u64) + least[clocks - first]);
        least.push(ways.min().unwrap_or_default());
    }
    least
}

/// The clocks of a line, by their digits: '1 to 4,294,967,295 clocks'.
fn ranges() -> Vec<Range> {
    (0..10)
        .map(|digits| Range {
            first: 10u64.pow(digits),
            last: (10u64.pow(digits + 1) - 1).min(FULL.into()),
        })
        .collect()
}

/// The bytes of a line.
fn line(levels: u8, clocks: u64) -> usize {
    format!("C\t{levels}\t{clocks}\n").len()
}

/// Any sum of a number in the one range and a number in the other.
fn plus(one: Range, other: Range) -> Range {
    Range {
        first: one.first + other.first,
        last: one.last + other.last,
    }
}

/// The same numbers in ranges that do not touch.
fn merged(mut ranges: Vec<Range>) -> Vec<Range> {
    ranges.sort_by_key(|range| range.first);
    let mut all: Vec<Range> = Vec::new();
    for range in ranges {
        match all.last_mut() {
            Some(last) if range.first <= last.last + 1 => last.last = last.last.max(range.last),
            _ => all.push(range),
        }
    }
    all
}

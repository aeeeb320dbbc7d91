//! Shrinks that join clocks or part their sum wrongly, each with the part that has to see it.

use crate::means::{clocks, joins, parts, Group, Shrinker, SHRINKER};
use crate::shrinking::levels;
use crate::trace::Item;
use crate::wrong::WrongShrinker;
use crate::{examples, laws, least, lists, long, replays};

const FULL: u64 = 4_294_967_295;

#[rustfmt::skip] // a line each
pub const WRONG_SUMS: [WrongShrinker; 36] = [
    ("joins across a read", joining(|groups, item| across(groups, item, is_read)), replays::PART),
    ("joins across a write", joining(|groups, item| across(groups, item, is_write)), replays::PART),
    ("joins across a vector", joining(|groups, item| across(groups, item, is_vector)), examples::PART),
    ("joins across any call", joining(|groups, item| across(groups, item, |item| levels(item).is_none())), laws::PART),
    ("joins across other levels", joining(|groups, item| over_others(groups, item)), laws::PART),
    ("joins different levels", joining(|groups, item| like(groups, item, |_, _| true)), replays::PART),
    ("joins levels with an equal first digit", joining(|groups, item| like(groups, item, |one, other|
        one.to_string()[..1] == other.to_string()[..1])), examples::PART),
    ("joins levels that differ in RxD alone", joining(|groups, item| like(groups, item, |one, other|
        one | 1 == other | 1)), replays::PART),
    ("joins levels that differ in SS alone", joining(|groups, item| like(groups, item, |one, other|
        one | 16 == other | 16)), replays::PART),
    ("joins equal calls", joining(|groups, item| equal_call(groups, item).or(joins(groups, item))), laws::PART),
    ("joins nothing", joining(|_, _| None), least::PART),
    ("joins two lines only", joining(|groups, item| joins(groups, item).filter(|&place| is_one(groups[place]))),
        least::PART),
    ("joins nothing to the first item", joining(|groups, item| joins(groups, item).filter(|&place| place > 0)),
        examples::PART),
    ("joins only what goes into one line", joining(|groups, item| joins(groups, item).filter(|&place|
        groups[place].1 + clocks(item) <= FULL)), examples::PART),
    ("joins nothing to a full line", joining(|groups, item| joins(groups, item).filter(|&place|
        groups[place].1 < FULL)), examples::PART),
    ("joins no level 0", joining(|groups, item| joins(groups, item).filter(|_| levels(item) != Some(0))), least::PART),
    ("full at 4,294,967,294", parting(|sum| full_at(sum, FULL - 1)), examples::PART),
    ("full at 4,294,967,296", parting(|sum| full_at(sum, FULL + 1)), examples::PART),
    ("full at 4,000,000,000", parting(|sum| full_at(sum, 4_000_000_000)), least::PART),
    ("full at 2,147,483,647", parting(|sum| full_at(sum, FULL / 2)), least::PART),
    ("full at 999,999,999", parting(|sum| full_at(sum, 999_999_999)), least::PART),
    ("no last line for the rest", parting(|sum| without_rest(sum)), laws::PART),
    ("a last line of no clocks", parting(|sum| with_empty_rest(sum)), examples::PART),
    ("a last line of no clocks behind two full ones", parting(|sum| if sum > FULL { with_empty_rest(sum) } else {
        parts(sum) }), lists::PART),
    ("the rest first", parting(|sum| { let mut all = parts(sum); all.reverse(); all }), examples::PART),
    ("in equal parts", parting(|sum| equal_parts(sum)), least::PART),
    ("two full lines at most", parting(|sum| parts(sum.min(2 * FULL))), laws::PART),
    ("a full one too many", parting(|sum| if sum > FULL { parts(sum + FULL) } else { parts(sum) }), laws::PART),
    ("a clock fewer where there are full ones", parting(|sum| parts(sum - u64::from(sum > FULL))), laws::PART),
    ("the sum in 31 bits", parting(|sum| parts(sum & (FULL / 2))), laws::PART),
    ("the sum in 32 bits", parting(|sum| vec![sum & FULL]), examples::PART),
    ("the sum in 32 bits, 0 left out", parting(|sum| parts(sum & FULL)), lists::PART),
    ("the sum in 33 bits", parting(|sum| parts(sum & (2 * FULL + 1))), lists::PART),
    ("the sum in 40 bits", parting(|sum| parts(sum & ((1 << 40) - 1))), long::PART),
    ("the sum stays at 4,294,967,295", parting(|sum| vec![sum.min(FULL)]), examples::PART),
    ("the sum with the precision of 24 bits", parting(|sum| parts(sum as f32 as u64)), lists::PART),
];

const fn joining(joins: fn(&[Group], &Item) -> Option<usize>) -> Shrinker {
    Shrinker { joins, ..SHRINKER }
}

const fn parting(parts: fn(u64) -> Vec<u64>) -> Shrinker {
    Shrinker { parts, ..SHRINKER }
}

/// Joins the last group that is not passed over; clocks move to before what is.
fn across(groups: &[Group], item: &Item, is_passed: fn(&Item) -> bool) -> Option<usize> {
    if joins(groups, item).is_some() {
        return joins(groups, item);
    }
    let place = groups.iter().rposition(|(item, _)| !is_passed(item))?;
    joins(&groups[..=place], item)
}

/// Joins the last clocks with these levels behind the last call.
fn over_others(groups: &[Group], item: &Item) -> Option<usize> {
    let call = groups.iter().rposition(|(item, _)| levels(item).is_none());
    let same = |(group, _): &Group| levels(group).is_some() && levels(group) == levels(item);
    let place = groups.iter().rposition(same)?;
    (Some(place) > call).then_some(place)
}

/// Joins clocks with levels that are like those before.
fn like(groups: &[Group], item: &Item, are_like: fn(u8, u8) -> bool) -> Option<usize> {
    let last = levels(&groups.last()?.0)?;
    are_like(last, levels(item)?).then_some(groups.len() - 1)
}

fn equal_call(groups: &[Group], item: &Item) -> Option<usize> {
    let (last, _) = groups.last()?;
    (levels(item).is_none() && last == item).then_some(groups.len() - 1)
}

/// A group that nothing has joined yet.
fn is_one((item, sum): Group) -> bool {
    clocks(&item) == sum
}

fn is_read(item: &Item) -> bool {
    matches!(item, Item::Read { .. })
}

fn is_write(item: &Item) -> bool {
    matches!(item, Item::Write { .. })
}

fn is_vector(item: &Item) -> bool {
    matches!(item, Item::Vector { .. })
}

fn full_at(sum: u64, full: u64) -> Vec<u64> {
    let mut all = vec![full; (sum / full) as usize];
    all.extend(Some(sum % full).filter(|&rest| rest > 0));
    all
}

fn without_rest(sum: u64) -> Vec<u64> {
    if sum > FULL {
        vec![FULL; (sum / FULL) as usize]
    } else {
        parts(sum)
    }
}

fn with_empty_rest(sum: u64) -> Vec<u64> {
    let mut all = vec![FULL; (sum / FULL) as usize];
    all.push(sum % FULL);
    all
}

/// As many lines, with about as many clocks each.
fn equal_parts(sum: u64) -> Vec<u64> {
    let lines = sum.div_ceil(FULL);
    (0..lines).map(|line| (sum + line) / lines).collect()
}

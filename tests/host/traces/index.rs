//! INDEX.md: a row for each trace, and each former case in one of them, or the request with which the trace came.

use std::collections::BTreeSet;

/// The case programs' names, and how many lines each printed.
const PROGRAMS: [(&str, u32); 2] = [("serial", 112), ("spi", 100)];

/// Compares the index with the names of the traces, and answers the number of cases.
pub fn check(index: &str, names: &BTreeSet<String>) -> Result<usize, String> {
    let (mut rows, mut cases) = (BTreeSet::new(), BTreeSet::new());
    for [name, _, held] in index.lines().filter_map(cells) {
        if !rows.insert(name.to_string()) {
            return Err(format!("INDEX.md: {name} stands there twice"));
        }
        for case in cases_of(held).ok_or(format!("INDEX.md: {name}: not understood: {held}"))? {
            if !cases.insert(case.clone()) {
                return Err(format!("INDEX.md: {name}: {case} stands there twice"));
            }
        }
    }
    if let Some(name) = rows.symmetric_difference(names).next() {
        return Err(format!("{name}: only one of INDEX.md and tests/traces has it"));
    }
    let all: BTreeSet<String> =
        PROGRAMS.iter().flat_map(|&(name, last)| numbered(name, 1..=last)).collect();
    if let Some(case) = all.symmetric_difference(&cases).next() {
        return Err(format!("INDEX.md: {case} is missing, or there was no such case"));
    }
    Ok(cases.len())
}

/// The cells of a table's row; the table's head has no number in the last one.
fn cells(text: &str) -> Option<[&str; 3]> {
    let inner = text.strip_prefix("| ")?.strip_suffix(" |")?;
    let cells: Vec<&str> = inner.split(" | ").collect();
    let cells: [&str; 3] = cells.try_into().ok()?;
    cells[2].ends_with(|last: char| last.is_ascii_digit()).then_some(cells)
}

/// As 'serial 1, 2; spi 1'; none for a request, as 'M-103'.
fn cases_of(held: &str) -> Option<Vec<String>> {
    if is_request(held) {
        return Some(Vec::new());
    }
    let mut cases = Vec::new();
    for part in held.split("; ") {
        let (program, numbers) = part.split_once(' ')?;
        let numbers: Option<Vec<u32>> =
            numbers.split(", ").map(|number| number.parse().ok()).collect();
        cases.extend(numbered(program, numbers?));
    }
    Some(cases)
}

fn is_request(held: &str) -> bool {
    held.strip_prefix("M-").is_some_and(|number| number.parse::<u32>().is_ok())
}

fn numbered(program: &str, numbers: impl IntoIterator<Item = u32>) -> Vec<String> {
    numbers.into_iter().map(|number| format!("{program} {number}")).collect()
}

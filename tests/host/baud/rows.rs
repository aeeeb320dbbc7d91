//! The baud rows of the source documents 000 and 001 that give a UBRR, as rows.txt has them.

use crate::calls::Calls;
use crate::model::{Verdict, Wanted, DONE};
use crate::random::Random;
use crate::tally::Tally;
use crate::Part;

pub const PART: Part = Part {
    name: "rows",
    run,
    rounds: 1,
};

const ROWS: &str = include_str!("rows.txt");

/// Settings that a document gives, so that none can be lost from rows.txt.
const SETTINGS: [(&str, usize); 2] = [("000", 295), ("001", 295 + 24)];

struct Row<'a> {
    text: &'a str,
    document: &'a str,
    /// The first of its lines in the document.
    line: u32,
    wanted: Wanted,
    ubrr: u32,
    /// The percent column, in tenths.
    tenths: i32,
}

fn run(calls: &Calls, _: u64, _: &mut Random, tally: &mut Tally) -> Result<(), String> {
    let rows = rows()?;
    for row in &rows {
        compare(calls, row, tally).map_err(|text| format!("row {}: {text}", row.text))?;
    }
    tally.rows += rows.len() as u64;
    Ok(())
}

/// The source's UBRR and percentage are the planner's, and the check accepts the source's UBRR.
fn compare(calls: &Calls, row: &Row, tally: &mut Tally) -> Result<(), String> {
    let plan = calls.compare_around(&row.wanted, tally)?;
    if (u32::from(plan.ubrr), plan.tenths) != (row.ubrr, row.tenths) {
        return Err(format!("the rule gives {plan:?}, as model and archive say"));
    }
    let verdict = calls.compare_check(&row.wanted, row.ubrr, tally)?;
    let accepted = Verdict {
        number: DONE,
        accepted: 1,
    };
    if verdict != accepted {
        return Err(format!(
            "the rule gives {verdict:?}, as model and archive say"
        ));
    }
    Ok(())
}

fn rows<'a>() -> Result<Vec<Row<'a>>, String> {
    let mut rows: Vec<Row> = Vec::new();
    for text in ROWS.lines().filter(|text| !text.starts_with('#')) {
        let row = row_of(text).ok_or_else(|| format!("rows.txt, not a row: {text}"))?;
        // In the order of the sources, so that none stands there twice.
        if rows.last().is_some_and(|last| place(last) >= place(&row)) {
            return Err(format!("rows.txt, out of order: {text}"));
        }
        rows.push(row);
    }
    for (document, settings) in SETTINGS {
        let found = rows.iter().filter(|row| row.document == document).count();
        if found != settings {
            return Err(format!("rows.txt: {found} of {document}, not {settings}"));
        }
    }
    Ok(rows)
}

/// Where a setting stands in the sources: each clock has a column for each speed, in this order.
fn place<'a>(row: &Row<'a>) -> (&'a str, u32, u32, u8) {
    (row.document, row.line, row.wanted.clock, row.wanted.u2x)
}

fn row_of(text: &str) -> Option<Row<'_>> {
    let columns: Vec<&str> = text.split_whitespace().collect();
    let [document, lines, _table, clock, rate, u2x, ubrr, percent] = columns[..] else {
        return None;
    };
    Some(Row {
        text,
        document,
        line: lines.split(',').next()?.parse().ok()?,
        wanted: Wanted {
            clock: clock.parse().ok()?,
            rate: rate.parse().ok()?,
            u2x: u2x.parse().ok()?,
        },
        ubrr: ubrr.parse().ok()?,
        tenths: tenths_of(percent)?,
    })
}

/// A percentage with one decimal, in tenths.
fn tenths_of(percent: &str) -> Option<i32> {
    let (whole, tenth) = percent.strip_suffix('%')?.split_once('.')?;
    if tenth.len() != 1 {
        return None;
    }
    format!("{whole}{tenth}").parse().ok()
}

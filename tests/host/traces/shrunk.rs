//! The archive's shrink of a trace (include/warpmagpie.h): each is its own shrunk form, but where a row of shown.txt
//! looks at the record between two C lines that would else be one.

use crate::fill;
use crate::shown::{Row, Shows};
use crate::trace::{Line, Trace};

/// The shrunk text, which is never longer.
fn shrunk(text: &[u8]) -> Result<Vec<u8>, String> {
    let mut shrunk = vec![0; text.len()];
    let (number, length) = fill::shrink(text, &mut shrunk);
    if number != 0 {
        return Err(format!("its shrink is refused by {number}"));
    }
    shrunk.truncate(length);
    Ok(shrunk)
}

/// The lines, from 1, that a shrink would join with the next.
fn joinable(trace: &Trace) -> Vec<usize> {
    let levels = |line: &Line| match *line {
        Line::Clocks { levels, .. } => Some(levels),
        _ => None,
    };
    let pairs = trace.lines.windows(2).map(|pair| [levels(&pair[0]), levels(&pair[1])]);
    (1..).zip(pairs).filter(|(_, [one, next])| one.is_some() && one == next).map(|(line, _)| line).collect()
}

fn looks_between(row: &Row, trace: &Trace, line: usize) -> bool {
    row.trace == trace.name && row.line == line && matches!(row.shows, Shows::Requests(_) | Shows::Aside(_))
}

/// Whether the trace is its own shrunk form.
pub fn check(trace: &Trace, rows: &[Row]) -> Result<bool, String> {
    let parted = joinable(trace);
    for &line in &parted {
        if !rows.iter().any(|row| looks_between(row, trace, line)) {
            return Err(trace.at(line - 1, "it could be one with the next line, and no row of shown.txt looks between"));
        }
    }
    let text = trace.text();
    let own = shrunk(&text).map_err(|text| format!("{}: {text}", trace.name))? == text;
    if own != parted.is_empty() {
        return Err(format!("{}: it is its own shrunk form exactly if no two lines can be one", trace.name));
    }
    Ok(own)
}

//! Plays every trace of tests/traces through the archive `libwarpmagpie.a`: by `warpmagpie_replay`, by single calls,
//! with what traces/shown.txt says of it, and with each of its lines put otherwise. Each is its own shrunk form, or
//! shown.txt has to say why not. INDEX.md has to name them all.
//!
//! traces, from the repository's root

#[path = "compare/archive.rs"]
mod archive;
#[path = "traces/changed.rs"]
mod changed;
#[path = "traces/check.rs"]
mod check;
#[allow(dead_code)]
#[path = "traces/fill.rs"]
mod fill;
#[path = "traces/gets.rs"]
mod gets;
#[path = "traces/index.rs"]
mod index;
#[path = "traces/play.rs"]
mod play;
#[path = "traces/replay.rs"]
mod replay;
#[path = "traces/shown.rs"]
mod shown;
#[path = "traces/shrunk.rs"]
mod shrunk;
#[path = "traces/trace.rs"]
mod trace;

use shown::Row;
use std::collections::BTreeSet;
use trace::{is_call, Trace};

const FOLDER: &str = "tests/traces";
const INDEX: &str = "tests/traces/INDEX.md";
const TABLE: &str = "tests/host/traces/shown.txt";

#[derive(Default)]
struct Tally {
    lines: usize,
    calls: usize,
    clocks: usize,
    rows: usize,
    changed: usize,
    malformed: usize,
    shrunk: usize,
}

fn main() {
    if let Err(text) = all() {
        println!("traces: {text}");
        std::process::exit(1);
    }
}

fn all() -> Result<(), String> {
    let traces = traces()?;
    let rows = shown::rows(&read(TABLE)?)?;
    let names: BTreeSet<String> = traces.iter().map(|trace| trace.name.clone()).collect();
    let cases = index::check(&read(INDEX)?, &names)?;
    if let Some(row) = rows.iter().find(|row| !names.contains(&row.trace)) {
        return Err(format!(
            "{}: shown.txt:{} names it, and it is not there",
            row.trace, row.place
        ));
    }
    let mut tally = Tally::default();
    for trace in &traces {
        one(trace, &rows, &mut tally)?;
    }
    if tally.rows != rows.len() {
        return Err(format!("{} of {} rows of shown.txt were looked at", tally.rows, rows.len()));
    }
    print(traces.len(), cases, &tally);
    Ok(())
}

fn one(trace: &Trace, rows: &[Row], tally: &mut Tally) -> Result<(), String> {
    let play = play::play(trace)?;
    for row in rows.iter().filter(|row| row.trace == trace.name) {
        check::check(row, &play)?;
        tally.rows += 1;
    }
    changed::whole(trace, &play)?;
    changed::every_answer(trace, &play, tally)?;
    changed::every_line(trace, &play, tally)?;
    changed::last_lf(trace, &play, tally)?;
    tally.shrunk += usize::from(shrunk::check(trace, rows)?);
    tally.lines += trace.lines.len();
    tally.calls += trace.lines.iter().filter(|&&line| is_call(line)).count();
    tally.clocks += play.clocks.len();
    Ok(())
}

/// The traces by name, so that every machine takes them in one order.
fn traces() -> Result<Vec<Trace>, String> {
    let mut names = BTreeSet::new();
    for entry in std::fs::read_dir(FOLDER).map_err(|error| format!("{FOLDER}: {error}"))? {
        let file = entry.map_err(|error| format!("{FOLDER}: {error}"))?.file_name();
        names
            .extend(file.to_str().and_then(|name| name.strip_suffix(".trace")).map(str::to_string));
    }
    names.iter().map(|name| Trace::of(name, &read(&format!("{FOLDER}/{name}.trace"))?)).collect()
}

fn read(path: &str) -> Result<String, String> {
    std::fs::read_to_string(path).map_err(|error| format!("{path}: {error}"))
}

fn print(traces: usize, cases: usize, tally: &Tally) {
    let Tally { lines, calls, clocks, rows, changed, malformed, shrunk } = tally;
    println!(
        "traces: {traces} traces with {cases} cases, {lines} lines, {calls} answers, {clocks} clocks; \
         {rows} rows shown; {changed} changed answers are 10, {malformed} malformed texts are 9; {shrunk} are their \
         own shrunk form, the others parted for a row"
    );
}

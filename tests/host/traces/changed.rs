//! The whole trace replayed, then with one thing put otherwise: an answer, a value, a leading zero, the last LF.

use crate::play::{Play, Record, UNKNOWN};
use crate::replay::replay;
use crate::trace::{changed, is_call, Trace};
use crate::Tally;

const MALFORMED: u8 = 9;
const DIFFERS: u8 = 10;

/// What replay has to give: number, line, and the record that it leaves.
struct Said<'a>(u8, usize, &'a Record);

/// Replays the trace as it stands: done, and the record that single calls left.
pub fn whole(trace: &Trace, play: &Play) -> Result<(), String> {
    let last = &play.records[play.records.len() - 1];
    replays(&trace.text(), Said(0, 0, last)).map_err(|text| format!("{}: {text}", trace.name))
}

/// Each line that records an answer with another one: 10 at that line, and the record as after that call.
pub fn every_answer(trace: &Trace, play: &Play, tally: &mut Tally) -> Result<(), String> {
    for (place, &line) in trace.lines.iter().enumerate() {
        for other in changed(line, place) {
            let text = trace.with_line(place, &other);
            replays(&text, Said(DIFFERS, place + 1, &play.records[place]))
                .map_err(|text| trace.at(place, &format!("as {other:?}: {text}")))?;
            tally.changed += 1;
        }
    }
    Ok(())
}

/// Each line with a leading zero: 9 at that line, and the record as at reset.
pub fn every_line(trace: &Trace, play: &Play, tally: &mut Tally) -> Result<(), String> {
    for place in 0..trace.lines.len() {
        let text = trace.with_line(place, &trace.malformed(place));
        replays(&text, Said(MALFORMED, place + 1, &play.records[0]))
            .map_err(|text| trace.at(place, &format!("with a leading zero: {text}")))?;
        tally.malformed += 1;
    }
    Ok(())
}

/// The last LF missing: 9 at the last line, also where an earlier answer differs, since the whole text is looked at
/// before anything is played.
pub fn last_lf(trace: &Trace, play: &Play, tally: &mut Tally) -> Result<(), String> {
    let last = trace.lines.len();
    let Some(call) = trace.lines.iter().position(|&line| is_call(line)) else {
        return Err(format!("{}: no line has an answer", trace.name));
    };
    let differs = trace.with_line(call, &changed(trace.lines[call], call)[0]);
    for mut text in [trace.text(), differs] {
        text.pop();
        replays(&text, Said(MALFORMED, last, &play.records[0]))
            .map_err(|text| trace.at(last - 1, &format!("without its LF: {text}")))?;
        tally.malformed += 1;
    }
    Ok(())
}

fn replays(text: &[u8], said: Said) -> Result<(), String> {
    let mut record = UNKNOWN;
    let (number, line) = replay(&mut record, text);
    if (number, line) != (said.0, said.1) {
        let Said(said, at, _) = said;
        return Err(format!("replay gives {number} and line {line}, not {said} and {at}"));
    }
    if record != *said.2 {
        return Err("replay leaves another record".to_string());
    }
    Ok(())
}

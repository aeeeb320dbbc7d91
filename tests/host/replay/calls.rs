//! A replay program, and what it answers and leaves against the model. It is the archive's, or a wrong one on purpose.

use crate::before::random_before;
use crate::random::Random;
use crate::replay::{replay, After};
use crate::shown::shown;
use crate::tally::Tally;

/// What stands in record and line before the call.
pub struct Before {
    pub record: Vec<u8>,
    pub line: usize,
}

pub type Program = fn(&Before, &[u8]) -> After;

/// Compares on 64 bytes of any kind. Answers what model and program both say.
pub fn compare(
    program: Program,
    text: &[u8],
    random: &mut Random,
    tally: &mut Tally,
) -> Result<After, String> {
    compare_from(program, &random_before(random), text, tally)
}

/// Compares number, line and every byte of the record.
pub fn compare_from(
    program: Program,
    before: &Before,
    text: &[u8],
    tally: &mut Tally,
) -> Result<After, String> {
    let expected = replay(&before.record, text);
    let given = program(before, text);
    if given != expected {
        return Err(difference(before, text, &given, &expected));
    }
    tally.count(&expected);
    Ok(expected)
}

/// The call's answer must also be what was known without the model's reader.
pub fn expect(answer: &After, number: u8, line: usize, text: &[u8]) -> Result<(), String> {
    if (answer.number, answer.line) == (number, line) {
        return Ok(());
    }
    Err(format!(
        "\ntext: {}\nmodel and archive: {}, line {}; due: {number}, line {line}",
        shown(text),
        answer.number,
        answer.line
    ))
}

fn difference(before: &Before, text: &[u8], given: &After, expected: &After) -> String {
    let row = |name, after: &After| {
        let record = hex(&after.record);
        format!(
            "{name}: {}, line {}, record {record}\n",
            after.number, after.line
        )
    };
    format!(
        "\ntext of {} bytes: {}\nbefore:  line {}, record {}\n{}{}",
        text.len(),
        shown(text),
        before.line,
        hex(&before.record),
        row("archive", given),
        row("model  ", expected)
    )
}

fn hex(bytes: &[u8]) -> String {
    bytes.iter().map(|byte| format!("{byte:02x}")).collect()
}

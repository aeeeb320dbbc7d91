//! The two calls of a program, and what they answer and leave against the model. The program is the archive, or one
//! that is wrong on purpose.

use crate::memory::{After, Before};
use crate::random::Random;
use crate::shown::shown;
use crate::shrinking::shrunk;
use crate::tally::Tally;
use crate::writing::{lend, written, Answer, DONE};

pub type Program<'a> = &'a dyn Fn(&Before) -> After;

#[derive(Clone, Copy)]
pub struct Calls<'a> {
    pub write: Program<'a>,
    pub shrink: Program<'a>,
}

#[derive(Clone, Copy, PartialEq, Debug)]
pub enum Call {
    Write,
    Shrink,
}

/// The model's text for an input; none where it is 9.
pub type Text = Option<Vec<u8>>;

impl Call {
    pub fn text(self, input: &[u8]) -> Text {
        match self {
            Call::Write => written(input),
            Call::Shrink => shrunk(input),
        }
    }
}

impl Calls<'_> {
    pub fn run(&self, call: Call, before: &Before) -> After {
        match call {
            Call::Write => (self.write)(before),
            Call::Shrink => (self.shrink)(before),
        }
    }

    /// Compares with a buffer that is just long enough, and with any other. Answers the text that model and program
    /// both say.
    pub fn compare(
        &self,
        call: Call,
        input: &[u8],
        random: &mut Random,
        tally: &mut Tally,
    ) -> Result<Text, String> {
        let text = call.text(input);
        let length = text.as_ref().map_or(input.len(), Vec::len);
        for room in [length, other_room(length, input.len(), random)] {
            let before = Before::random(input, room, random);
            self.compare_from(call, &before, text.as_deref(), tally)?;
        }
        Ok(text)
    }

    /// Compares number, length and every byte of the memory with the model's text, if it has one, put into the buffer.
    pub fn compare_from(
        &self,
        call: Call,
        before: &Before,
        text: Option<&[u8]>,
        tally: &mut Tally,
    ) -> Result<Answer, String> {
        let expected = lend(text, before.lent());
        let given = self.run(call, before);
        let due = After {
            number: expected.number,
            length: expected.length,
            memory: before.with(&expected.buffer),
        };
        if given != due {
            return Err(difference(call, before, &given, &due));
        }
        tally.count(call, &expected);
        Ok(expected)
    }

    /// The text that the program gives with so much room, whatever the model says. It has to give one.
    pub fn text(
        &self,
        call: Call,
        input: &[u8],
        room: usize,
        random: &mut Random,
    ) -> Result<Vec<u8>, String> {
        let before = Before::random(input, room, random);
        let after = self.run(call, &before);
        let lent = &after.memory[before.lent.clone()];
        match lent.get(..after.length) {
            Some(text) if after.number == DONE => Ok(text.to_vec()),
            _ => Err(format!(
                "\n{call:?} of {}, with {room} bytes of room: {}, length {}",
                shown(input),
                after.number,
                after.length
            )),
        }
    }
}

/// Mostly too short, or longer than it need be; also as long as the input.
fn other_room(length: usize, input: usize, random: &mut Random) -> usize {
    let any = random.below(length as u64 + 10) as usize;
    let shorter = length.saturating_sub(1);
    random.pick(&[shorter, shorter, any, any, 0, 1, 7, 8, input, length + 1])
}

/// The text must also be what was known without the model.
pub fn expect(call: Call, input: &[u8], text: &Text, due: Option<&[u8]>) -> Result<(), String> {
    if text.as_deref() == due {
        return Ok(());
    }
    let row = |text: Option<&[u8]>| text.map_or("9".to_string(), shown);
    Err(format!(
        "\n{call:?} of {}\nmodel and archive: {}\ndue: {}",
        shown(input),
        row(text.as_deref()),
        row(due)
    ))
}

/// Whether there is a text must also be what was known without the model.
pub fn expect_any(call: Call, input: &[u8], text: &Text, is_due: bool) -> Result<(), String> {
    if text.is_some() == is_due {
        return Ok(());
    }
    let due = if is_due { "a text" } else { "9" };
    Err(format!("\n{call:?} of {}\ndue: {due}", shown(input)))
}

fn difference(call: Call, before: &Before, given: &After, due: &After) -> String {
    let lent = before.lent.clone();
    let row = |name, after: &After| {
        let (number, length) = (after.number, after.length);
        let buffer = shown(&after.memory[lent.clone()]);
        format!("{name}: {number}, length {length}, buffer {buffer}\n")
    };
    let place = (0..due.memory.len()).find(|&place| given.memory[place] != due.memory[place]);
    format!(
        "\n{call:?} of {} bytes: {}\nroom for {} bytes, first byte that differs: {:?} from the buffer's start\n{}{}",
        before.input.len(),
        shown(before.input()),
        lent.len(),
        place.map(|place| place as isize - lent.start as isize),
        row("archive", given),
        row("model  ", due)
    )
}

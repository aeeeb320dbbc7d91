//! The text that is printed when archive and model differ.

use crate::call::{Answer, Call};
use crate::model::layout;

/// First byte and name of each field of the record that is in use.
const FIELDS: [(usize, &str); 44] = [
    (layout::UBRR, "UBRR"),
    (layout::COUNTER, "baud counter"),
    (layout::UCSR0A, "UCSR0A: TXC and U2X"),
    (layout::UCSR0B, "UCSR0B"),
    (layout::UCSR0C, "UCSR0C"),
    (layout::BUFFER_FULL, "transmit buffer full"),
    (layout::BUFFER, "transmit buffer"),
    (layout::SENDING, "sending"),
    (layout::SENT_WORD, "word in the shifter"),
    (layout::SENT_BIT, "bit on the line"),
    (layout::SENT_TICKS, "ticks of that bit"),
    (layout::RECEIVING, "receiving"),
    (layout::LAST_SAMPLE, "last sample"),
    (layout::SAMPLED_BIT, "bit being sampled"),
    (layout::SAMPLES, "samples of that bit"),
    (layout::FIRST_VOTE, "first vote"),
    (layout::SECOND_VOTE, "second vote"),
    (layout::RECEIVED_WORD, "bits received"),
    (layout::SPLIT_VOTES, "split votes so far"),
    (layout::FRAMES_HELD, "frames held"),
    (layout::FRAME_WAITS, "frame waits"),
    (layout::FRAME_LOST, "frame lost"),
    (layout::OLDEST_DATA, "oldest frame, data"),
    (layout::OLDEST_FLAGS, "oldest frame, ninth bit and flags"),
    (layout::OLDEST_SPLIT_VOTES, "oldest frame, split votes"),
    (layout::SECOND_DATA, "second frame, data"),
    (layout::SECOND_FLAGS, "second frame, ninth bit and flags"),
    (layout::SECOND_SPLIT_VOTES, "second frame, split votes"),
    (layout::WAITING_DATA, "waiting frame, data"),
    (layout::WAITING_FLAGS, "waiting frame, ninth bit and flags"),
    (layout::WAITING_SPLIT_VOTES, "waiting frame, split votes"),
    (layout::SPCR, "SPCR"),
    (layout::SPI2X, "SPI2X"),
    (layout::DDRB, "DDRB"),
    (layout::SHIFT, "SPI shift register"),
    (layout::SPI_BUFFER, "SPI receive buffer"),
    (layout::EDGES, "edges"),
    (layout::CLOCKS_LEFT, "clocks to the next edge"),
    (layout::SPIF, "SPIF"),
    (layout::WCOL, "WCOL"),
    (layout::MOSI, "last bit on MOSI"),
    (layout::MISO, "last bit on MISO"),
    (layout::SCK, "last SCK"),
    (layout::NUMBER_PLACE, "number of the layout"),
];

/// The bytes of a record: before the call, after it, and as the model has them after it.
pub struct Records<'a> {
    pub before: &'a [u8],
    pub after: &'a [u8],
    pub expected: &'a [u8],
}

pub fn text(call: &Call, given: &Answer, expected: &Answer, records: &Records) -> String {
    let mut text = format!("{call}\n");
    text += &format!(
        "number: archive {}, model {}\n",
        given.number, expected.number
    );
    text += &format!(
        "value: archive {:02x}, model {:02x}\n",
        given.value, expected.value
    );
    if let Some(clock) = (0..given.outputs.len()).find(|&i| given.outputs[i] != expected.outputs[i])
    {
        let (left, right) = (given.outputs[clock], expected.outputs[clock]);
        text += &format!("output byte of clock {clock}: archive {left:02x}, model {right:02x}\n");
    }
    text += &format!("record before the call: {}\n", hex(records.before));
    text += &format!("record of the archive:  {}\n", hex(records.after));
    text += &format!("record of the model:    {}\n", hex(records.expected));
    for (place, (left, right)) in records.after.iter().zip(records.expected).enumerate() {
        if left != right {
            text += &format!(
                "byte {place} ({}): archive {left}, model {right}\n",
                name(place)
            );
        }
    }
    text
}

fn name(place: usize) -> &'static str {
    if layout::is_unused(place) {
        return "unused";
    }
    let next = FIELDS.partition_point(|(first, _)| *first <= place);
    FIELDS[next - 1].1
}

pub fn hex(bytes: &[u8]) -> String {
    bytes.iter().map(|byte| format!("{byte:02x}")).collect()
}

//! Writing a trace's text into a lent buffer, from the words of document 02, M-109, alone.

use crate::listing::items;
use crate::text;

pub const DONE: u8 = 0;
/// '9 when a list item is outside M-100's ranges'; '9 for a malformed text'.
pub const MALFORMED: u8 = 9;
/// '12 exactly when the text is longer than the buffer'.
pub const ROOM: u8 = 12;

/// 'Writer and shrink answer number and length, no line.' With it the buffer's bytes after the call.
#[derive(Clone, PartialEq, Debug)]
pub struct Answer {
    pub number: u8,
    pub length: usize,
    pub buffer: Vec<u8>,
}

/// 'Write M-100's text from a list of its calls and answers'; none where that is 9.
pub fn written(list: &[u8]) -> Option<Vec<u8>> {
    items(list).map(|items| text::write(&items))
}

/// 'into a lent buffer; 9 ..; else 12 exactly when the text is longer than the buffer. Either way the buffer keeps its
/// bytes, as do those past a text.' M-100: 'what a refusal is not said to answer is 0', here the length.
pub fn lend(text: Option<&[u8]>, buffer: &[u8]) -> Answer {
    let refused = |number| Answer {
        number,
        length: 0,
        buffer: buffer.to_vec(),
    };
    match text {
        None => refused(MALFORMED),
        Some(text) if text.len() > buffer.len() => refused(ROOM),
        Some(text) => Answer {
            number: DONE,
            length: text.len(),
            buffer: [text, &buffer[text.len()..]].concat(),
        },
    }
}

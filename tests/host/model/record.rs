//! The bytes of a device, as docs/RECORD.md describes them.

use super::decode;
use super::layout::{self, held};
use super::receiver::{Line, Received, Receiver};
use super::spi::Spi;
use super::usart::{bit, Usart, RXB8, TXC, U2X};
use super::Device;

pub use super::layout::LENGTH;

pub type Bytes = [u8; LENGTH];

/// The record of a device. A byte that is not written below is unused or of a field not in use, and 0.
pub fn encode(device: &Device) -> Bytes {
    let mut bytes = [0; LENGTH];
    put_settings(&mut bytes, &device.usart);
    put_sender(&mut bytes, &device.usart);
    put_receiver(&mut bytes, &device.usart.receiver);
    put_spi(&mut bytes, &device.spi);
    bytes[layout::NUMBER_PLACE] = layout::NUMBER;
    bytes
}

/// The device of a valid record, none for any other slice.
pub fn decode(bytes: &[u8]) -> Option<Device> {
    let bytes: &Bytes = bytes.try_into().ok()?;
    let device = decode::device(bytes)?;
    // What is left to check is the layout's number, and that bits, bytes and fields not in use are 0.
    (encode(&device) == *bytes).then_some(device)
}

fn put_word(bytes: &mut Bytes, place: usize, word: u16) {
    bytes[place..place + 2].copy_from_slice(&word.to_le_bytes());
}

/// Settings, and TXC, stand as they are read.
fn put_settings(bytes: &mut Bytes, usart: &Usart) {
    put_word(bytes, layout::UBRR, usart.ubrr);
    put_word(bytes, layout::COUNTER, usart.counter);
    bytes[layout::UCSR0A] = usart.read_a() & (TXC | U2X);
    bytes[layout::UCSR0B] = usart.read_b() & !RXB8;
    bytes[layout::UCSR0C] = usart.read_c();
}

fn put_sender(bytes: &mut Bytes, usart: &Usart) {
    if let Some(data) = usart.sender.buffer {
        bytes[layout::BUFFER_FULL] = 1;
        put_word(bytes, layout::BUFFER, data);
    }
    if let Some(frame) = usart.sender.shifter {
        bytes[layout::SENDING] = 1;
        put_word(bytes, layout::SENT_WORD, frame.word(&usart.format));
        bytes[layout::SENT_BIT] = frame.bit;
        bytes[layout::SENT_TICKS] = frame.ticks;
    }
}

fn put_receiver(bytes: &mut Bytes, receiver: &Receiver) {
    match receiver.line {
        Line::Idle { last } => bytes[layout::LAST_SAMPLE] = last as u8,
        Line::Frame(frame) => {
            bytes[layout::RECEIVING] = 1;
            bytes[layout::SAMPLED_BIT] = frame.bit;
            bytes[layout::SAMPLES] = frame.samples;
            bytes[layout::FIRST_VOTE] = frame.votes[0] as u8;
            bytes[layout::SECOND_VOTE] = frame.votes[1] as u8;
            put_word(bytes, layout::RECEIVED_WORD, frame.word);
            bytes[layout::SPLIT_VOTES] = frame.split_votes;
        }
    }
    bytes[layout::FRAMES_HELD] = receiver.oldest.is_some() as u8 + receiver.second.is_some() as u8;
    bytes[layout::FRAME_WAITS] = receiver.waiting.is_some() as u8;
    bytes[layout::FRAME_LOST] = receiver.lost as u8;
    let [data, flags, split_votes] = received_bytes(receiver.oldest);
    bytes[layout::OLDEST_DATA] = data;
    bytes[layout::OLDEST_FLAGS] = flags;
    bytes[layout::OLDEST_SPLIT_VOTES] = split_votes;
    let [data, flags, split_votes] = received_bytes(receiver.second);
    bytes[layout::SECOND_DATA] = data;
    bytes[layout::SECOND_FLAGS] = flags;
    bytes[layout::SECOND_SPLIT_VOTES] = split_votes;
    let [data, flags, split_votes] = received_bytes(receiver.waiting);
    bytes[layout::WAITING_DATA] = data;
    bytes[layout::WAITING_FLAGS] = flags;
    bytes[layout::WAITING_SPLIT_VOTES] = split_votes;
}

/// Data bits 7 to 0 of a frame that is held or waits, the byte with the ninth and the flags, and its split votes; 0 for
/// none.
fn received_bytes(frame: Option<Received>) -> [u8; 3] {
    frame.map_or([0; 3], |frame| {
        let flags = bit(frame.data & 0x100 != 0, held::NINTH)
            | bit(frame.upe, held::UPE)
            | bit(frame.dor, held::DOR)
            | bit(frame.fe, held::FE);
        [frame.data as u8, flags, frame.split_votes]
    })
}

fn put_spi(bytes: &mut Bytes, spi: &Spi) {
    bytes[layout::SPCR] = spi.spcr;
    bytes[layout::SPI2X] = spi.spi2x as u8;
    bytes[layout::DDRB] = spi.ddrb;
    bytes[layout::SHIFT] = spi.shift;
    bytes[layout::SPI_BUFFER] = spi.buffer;
    bytes[layout::EDGES] = spi.edges;
    bytes[layout::CLOCKS_LEFT] = spi.clocks_left;
    bytes[layout::SPIF] = spi.spif as u8;
    bytes[layout::WCOL] = spi.wcol as u8;
    bytes[layout::MOSI] = spi.mosi as u8;
    bytes[layout::MISO] = spi.miso as u8;
    bytes[layout::SCK] = spi.sck as u8;
}

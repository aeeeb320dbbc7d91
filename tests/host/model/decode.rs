//! The fields of a record, their ranges and the rules between them, as docs/RECORD.md describes them.

use super::frame::Format;
use super::layout::{self, held};
use super::receiver::{Line, Received, Receiver, Receiving};
use super::record::Bytes;
use super::sender::{Sender, Shifting};
use super::spi::{Flag, Spi, EDGES, MSTR, SPE};
use super::usart::{Usart, RXCIE, RXEN, TXB8, TXC, TXCIE, TXEN, U2X, UBRR_LAST, UCSZ2, UDRIE, USBS};
use super::Device;

/// The bytes of the frames held, and of the one that waits: data bits 7 to 0, the ninth with the flags, and the split
/// votes.
const OLDEST: [usize; 3] = [layout::OLDEST_DATA, layout::OLDEST_FLAGS, layout::OLDEST_SPLIT_VOTES];
const SECOND: [usize; 3] = [layout::SECOND_DATA, layout::SECOND_FLAGS, layout::SECOND_SPLIT_VOTES];
const WAITING: [usize; 3] = [layout::WAITING_DATA, layout::WAITING_FLAGS, layout::WAITING_SPLIT_VOTES];

/// The device of the fields in use, none if one is out of its range or does not fit the others. Bits and bytes not in
/// use are not looked at.
pub fn device(bytes: &Bytes) -> Option<Device> {
    Some(Device {
        usart: get_usart(bytes)?,
        spi: get_spi(bytes)?,
    })
}

fn get_word(bytes: &Bytes, place: usize, limit: u16) -> Option<u16> {
    let word = u16::from_le_bytes([bytes[place], bytes[place + 1]]);
    (word < limit).then_some(word)
}

fn get_below(bytes: &Bytes, place: usize, limit: u8) -> Option<u8> {
    (bytes[place] < limit).then_some(bytes[place])
}

fn get_bool(bytes: &Bytes, place: usize) -> Option<bool> {
    get_below(bytes, place, 2).map(|byte| byte == 1)
}

fn get_bit(bytes: &Bytes, place: usize, mask: u8) -> bool {
    bytes[place] & mask != 0
}

fn get_usart(bytes: &Bytes) -> Option<Usart> {
    let format = get_format(bytes)?;
    let usart = Usart {
        format,
        ubrr: get_word(bytes, layout::UBRR, UBRR_LAST + 1)?,
        counter: get_word(bytes, layout::COUNTER, UBRR_LAST + 1)?,
        rxcie: get_bit(bytes, layout::UCSR0B, RXCIE),
        txcie: get_bit(bytes, layout::UCSR0B, TXCIE),
        udrie: get_bit(bytes, layout::UCSR0B, UDRIE),
        sender: get_sender(bytes, &format)?,
        receiver: get_receiver(bytes, &format)?,
    };
    (usart.counter <= usart.ubrr || !usart.in_frame()).then_some(usart)
}

fn get_format(bytes: &Bytes) -> Option<Format> {
    let ucsr0c = bytes[layout::UCSR0C];
    let code = bytes[layout::UCSR0B] & UCSZ2 | ucsr0c >> 1 & 3;
    Some(Format {
        data_bits: Format::data_bits_of(code)?,
        parity: Format::parity_of(ucsr0c >> 4 & 3)?,
        two_stops: get_bit(bytes, layout::UCSR0C, USBS),
        double_speed: get_bit(bytes, layout::UCSR0A, U2X),
    })
}

fn get_sender(bytes: &Bytes, format: &Format) -> Option<Sender> {
    let mut sender = Sender {
        txen: get_bit(bytes, layout::UCSR0B, TXEN),
        txb8: get_bit(bytes, layout::UCSR0B, TXB8),
        txc: get_bit(bytes, layout::UCSR0A, TXC),
        ..Sender::reset()
    };
    if get_bool(bytes, layout::BUFFER_FULL)? {
        sender.buffer = Some(get_word(bytes, layout::BUFFER, format.data_mask() + 1)?);
    }
    if get_bool(bytes, layout::SENDING)? {
        sender.shifter = Some(get_shifting(bytes, format)?);
    }
    Some(sender)
}

fn get_shifting(bytes: &Bytes, format: &Format) -> Option<Shifting> {
    let word = get_word(bytes, layout::SENT_WORD, format.word_mask() + 1)?;
    let frame = Shifting {
        bit: get_below(bytes, layout::SENT_BIT, format.last_bit() + 1)?,
        ticks: get_below(bytes, layout::SENT_TICKS, format.ticks())?,
        ..Shifting::start(word, format)
    };
    let parity_right = word == format.word_of(word & format.data_mask());
    parity_right.then_some(frame)
}

fn get_receiver(bytes: &Bytes, format: &Format) -> Option<Receiver> {
    if !get_bit(bytes, layout::UCSR0B, RXEN) {
        return Some(Receiver::reset());
    }
    let line = match get_bool(bytes, layout::RECEIVING)? {
        false => Line::Idle {
            last: get_bool(bytes, layout::LAST_SAMPLE)?,
        },
        true => Line::Frame(get_receiving(bytes, format)?),
    };
    let mut receiver = Receiver {
        rxen: true,
        line,
        lost: get_bool(bytes, layout::FRAME_LOST)?,
        ..Receiver::reset()
    };
    let frames_held = get_below(bytes, layout::FRAMES_HELD, 3)?;
    if frames_held > 0 {
        receiver.oldest = Some(get_received(bytes, OLDEST)?);
    }
    if frames_held > 1 {
        receiver.second = Some(get_received(bytes, SECOND)?);
    }
    if get_bool(bytes, layout::FRAME_WAITS)? {
        receiver.waiting = Some(get_received(bytes, WAITING)?);
    }
    waiting_fits(&receiver, format).then_some(receiver)
}

/// M-103: a frame waits only 'with both places full', and only until 'an accepted start bit (its last vote)' loses it:
/// the start bit of a frame under way is not decided yet.
fn waiting_fits(receiver: &Receiver, format: &Format) -> bool {
    let is_accepted = match &receiver.line {
        Line::Idle { .. } => false,
        Line::Frame(frame) => frame.bits_decided(format) > 0,
    };
    receiver.waiting.is_none() || receiver.second.is_some() && !is_accepted
}

fn get_receiving(bytes: &Bytes, format: &Format) -> Option<Receiving> {
    let stop_bit = format.word_bits() + 1;
    let bit = get_below(bytes, layout::SAMPLED_BIT, stop_bit + 1)?;
    // The stop bit's last vote ends the frame.
    let limit = if bit == stop_bit {
        format.last_vote()
    } else {
        format.ticks()
    };
    let frame = Receiving {
        bit,
        samples: get_below(bytes, layout::SAMPLES, limit)?,
        votes: [
            get_bool(bytes, layout::FIRST_VOTE)?,
            get_bool(bytes, layout::SECOND_VOTE)?,
        ],
        word: get_word(bytes, layout::RECEIVED_WORD, format.word_mask() + 1)?,
        split_votes: bytes[layout::SPLIT_VOTES],
    };
    // Sample 1 begins the start bit.
    let begun = bit > 0 || frame.samples > 0;
    let kept = frame.votes_kept(format);
    let votes_fit = frame.votes[kept..].iter().all(|vote| !vote);
    let word_fits = frame.word & frame.bits_to_come(format) == 0;
    let splits_fit = frame.split_votes <= frame.bits_decided(format);
    (begun && votes_fit && word_fits && splits_fit).then_some(frame)
}

/// A frame that is held or waits, by the places of its bytes. It is not bound by the format.
fn get_received(bytes: &Bytes, [data, flags, split_votes]: [usize; 3]) -> Option<Received> {
    let ninth = (get_below(bytes, flags, held::LIMIT)? & held::NINTH) as u16;
    Some(Received {
        data: ninth << 8 | bytes[data] as u16,
        fe: get_bit(bytes, flags, held::FE),
        upe: get_bit(bytes, flags, held::UPE),
        dor: get_bit(bytes, flags, held::DOR),
        split_votes: get_below(bytes, split_votes, held::SPLIT_VOTES_LAST + 1)?,
    })
}

fn get_spi(bytes: &Bytes) -> Option<Spi> {
    let spi = Spi {
        spcr: bytes[layout::SPCR],
        spi2x: get_bool(bytes, layout::SPI2X)?,
        ddrb: bytes[layout::DDRB],
        shift: bytes[layout::SHIFT],
        buffer: bytes[layout::SPI_BUFFER],
        edges: get_below(bytes, layout::EDGES, EDGES)?,
        clocks_left: bytes[layout::CLOCKS_LEFT],
        spif: get_flag(bytes, layout::SPIF)?,
        wcol: get_flag(bytes, layout::WCOL)?,
        mosi: get_bool(bytes, layout::MOSI)?,
        miso: get_bool(bytes, layout::MISO)?,
        sck: get_bool(bytes, layout::SCK)?,
    };
    let valid = match (spi.has(SPE), spi.has(MSTR)) {
        (false, _) => !spi.in_transfer(),
        (true, false) => slave_fits(&spi),
        (true, true) => master_fits(&spi),
    };
    valid.then_some(spi)
}

/// A master waits for an edge exactly while a byte is under way; the bit that has not left is on MOSI then.
fn master_fits(spi: &Spi) -> bool {
    if spi.clocks_left == 0 {
        return spi.edges == 0;
    }
    spi.clocks_left <= spi.half() && (!spi.first_bit_is_out() || spi.mosi == spi.first_bit())
}

/// A slave does not wait. Once it has seen an edge of a byte, the bit that has not left is on MISO, and SCK is where
/// the last edge brought it.
fn slave_fits(spi: &Spi) -> bool {
    let bit_fits = !spi.first_bit_is_out() || spi.miso == spi.first_bit();
    let edges_fit = spi.edges == 0 || bit_fits && spi.sck == spi.sck_of_edges();
    spi.clocks_left == 0 && edges_fit
}

fn get_flag(bytes: &Bytes, place: usize) -> Option<Flag> {
    match bytes[place] {
        0 => Some(Flag::Clear),
        1 => Some(Flag::Set),
        2 => Some(Flag::Armed),
        _ => None,
    }
}

//! "Trace": decoding, and the run.

use crate::calls::{carry_out, check_lent_and_record};
use crate::machine::Machine;
use crate::record::Record;

/// The commands, which are also the direct calls of the same names.
#[derive(Clone, Copy, PartialEq, Eq, Debug)]
pub enum Command {
    Read { size: u32, address: u32 },
    Write { size: u32, address: u32, value: u64 },
    L2WritebackAll,
    L2WritebackInvalidateAll,
    L2BlockWriteback { base: u32, count: u32 },
    L2BlockWritebackInvalidate { base: u32, count: u32 },
    L2BlockInvalidate { base: u32, count: u32 },
    L1dBlockWritebackInvalidate { base: u32, count: u32 },
    L1dBlockInvalidate { base: u32, count: u32 },
    L1dInvalidateAll,
    Mode { mode: u32 },
    Mar { number: u32, bit: u32 },
    Freeze { frozen: u32 },
}

/// "numbers in groups of seven bits, low group first, top bit set on all but
/// the last, shortest form only." `None` for "an overlong or too wide number,
/// or an end inside a command"; otherwise the number and the place behind it.
pub fn decode_number(bytes: &[u8], start: usize, width: u32) -> Option<(u64, usize)> {
    let mut value: u128 = 0;
    let mut shift = 0;
    let mut place = start;
    loop {
        let byte = *bytes.get(place)?;
        place += 1;
        value |= u128::from(byte & 0x7F) << shift;
        if value >> width != 0 {
            return None; // too wide
        }
        let is_last = byte & 0x80 == 0;
        if is_last && byte == 0 && shift > 0 {
            return None; // overlong: the last group adds nothing
        }
        if is_last {
            return Some((value as u64, place));
        }
        shift += 7;
        if shift >= width {
            return None; // too wide, overlong or cut off, whatever follows
        }
    }
}

/// "Value is 64 bits wide, the others 32."
fn decode_u32(bytes: &[u8], place: &mut usize) -> Option<u32> {
    let (value, behind) = decode_number(bytes, *place, 32)?;
    *place = behind;
    Some(value as u32)
}

/// "Value is 64 bits wide, the others 32."
fn decode_u64(bytes: &[u8], place: &mut usize) -> Option<u64> {
    let (value, behind) = decode_number(bytes, *place, 64)?;
    *place = behind;
    Some(value)
}

/// "A command is a code byte and numbers". "Codes: 0 read (size, address); 1
/// write (size, address, value); 2 L2 writeback all; 3 L2 writeback-invalidate
/// all; 4, 5, 6 L2 block writeback, writeback-invalidate, invalidate (base,
/// count); 7, 8 L1D block writeback-invalidate, invalidate (base, count); 9
/// L1D invalidate all; 10 mode; 11 MAR (number, bit)." "in the trace code 12,
/// takes one number" (02, U11). `None` stands for 11, "an unknown code, an overlong
/// or too wide number, or an end inside a command"; otherwise the command at the
/// front and its length.
pub fn decode(bytes: &[u8]) -> Option<(Command, usize)> {
    let code = *bytes.first()?;
    let mut place = 1;
    let at = &mut place;
    let command = match code {
        0 => Command::Read { size: decode_u32(bytes, at)?, address: decode_u32(bytes, at)? },
        1 => Command::Write {
            size: decode_u32(bytes, at)?,
            address: decode_u32(bytes, at)?,
            value: decode_u64(bytes, at)?,
        },
        2 => Command::L2WritebackAll,
        3 => Command::L2WritebackInvalidateAll,
        4 => Command::L2BlockWriteback {
            base: decode_u32(bytes, at)?,
            count: decode_u32(bytes, at)?,
        },
        5 => Command::L2BlockWritebackInvalidate {
            base: decode_u32(bytes, at)?,
            count: decode_u32(bytes, at)?,
        },
        6 => Command::L2BlockInvalidate {
            base: decode_u32(bytes, at)?,
            count: decode_u32(bytes, at)?,
        },
        7 => Command::L1dBlockWritebackInvalidate {
            base: decode_u32(bytes, at)?,
            count: decode_u32(bytes, at)?,
        },
        8 => Command::L1dBlockInvalidate {
            base: decode_u32(bytes, at)?,
            count: decode_u32(bytes, at)?,
        },
        9 => Command::L1dInvalidateAll,
        10 => Command::Mode { mode: decode_u32(bytes, at)? },
        11 => Command::Mar { number: decode_u32(bytes, at)?, bit: decode_u32(bytes, at)? },
        12 => Command::Freeze { frozen: decode_u32(bytes, at)? },
        _ => return None,
    };
    Some((command, place))
}

/// "It returns the record, bytes consumed, the count of answers, stop number
/// (0 at the end)." The record is changed in place.
#[derive(Clone, Copy, PartialEq, Eq, Debug)]
pub struct RunResult {
    pub consumed: usize,
    pub answers: usize,
    pub stop: u8,
}

/// "Each answer is 10 bytes: number, server, value (8 bytes, little-endian)." "The trace's
/// answers keep their 10 bytes; the direct call carries the rest." (02, U2)
pub const ANSWER_BYTES: usize = 10;

/// "A run checks 1 and 2 first; either one stops it with nothing consumed,
/// answered or changed. Then it carries out commands. ... Refusals 3 to 10 are
/// answered and the run goes on. 11, then 12, stop it before that command and
/// refuse that one alone: what ran before it stands. ... Later answer bytes
/// are unchanged." 17 is "answered in a trace as 3 to 10 are" (02, U11).
pub fn run(
    record: &mut Record,
    l1d: &mut [u8],
    l2: &mut [u8],
    ext: &mut [u8],
    l1p: &mut [u8],
    trace: &[u8],
    answers: &mut [u8],
) -> RunResult {
    let mut result = RunResult { consumed: 0, answers: 0, stop: 0 };
    result.stop = check_lent_and_record(record, l1d.len(), l2.len(), ext.len(), l1p.len());
    if result.stop != 0 {
        return result;
    }
    let mut machine = Machine::new(record, l1d, l2, ext, l1p);
    while result.consumed < trace.len() {
        let Some((command, length)) = decode(&trace[result.consumed..]) else {
            result.stop = 11;
            return result;
        };
        let place = result.answers * ANSWER_BYTES;
        if answers.len() - place < ANSWER_BYTES {
            result.stop = 12;
            return result;
        }
        let answer = carry_out(&mut machine, &command).answer;
        answers[place] = answer.number;
        answers[place + 1] = answer.server;
        answers[place + 2..place + ANSWER_BYTES].copy_from_slice(&answer.value.to_le_bytes());
        result.consumed += length;
        result.answers += 1;
    }
    result
}

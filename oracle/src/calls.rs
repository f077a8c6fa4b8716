//! The direct calls, each with its checks in the precedence of the refusal
//! table.

use crate::access;
use crate::commands::{self, l1d_block, l2_all, l2_block, L1dAction, L2Action};
use crate::fetches::{carry_out_program, Fetched, Program};
use crate::frames::{self, Framed};
use crate::geometry::{
    external_length_is_legal, l2_length_is_legal, mode_is_legal, place, L1D_BYTES, L1P_BYTES,
};
use crate::machine::{Events, Machine, Report, SERVER_NONE};
use crate::modes::{change_freeze, change_mar, change_mode, holds_a_line_of};
use crate::record::Record;
use crate::trace::Command;
use crate::transfers;
use crate::unaligned::{carry_out_unaligned, Unaligned};
use crate::wellformed::is_well_formed;

pub use crate::trace::run;
pub use crate::view::{look, look_number};

/// "number, server, value": the answer of a call.
#[derive(Clone, Copy, PartialEq, Eq, Debug)]
pub struct Answer {
    pub number: u8,
    pub server: u8,
    pub value: u64,
}

impl Answer {
    /// "Value and server are 0 with it", a refusal.
    pub fn refused(number: u8) -> Answer {
        Answer { number, server: SERVER_NONE, value: 0 }
    }
}

/// What a direct call gives back: "The trace's answers keep their 10 bytes; the direct
/// call carries the rest." (02, U2)
#[derive(Clone, Copy, PartialEq, Eq, Debug)]
pub struct Reply {
    pub answer: Answer,
    pub report: Report,
}

impl Reply {
    /// A refused call has chosen no way and moved no byte.
    pub fn refused(number: u8) -> Reply {
        Reply { answer: Answer::refused(number), report: Report::NONE }
    }
}

/// "1: a lent length illegal, or unlike the record's", for the L2 and the
/// external memory; then "2: record not well formed". 0 when neither is due.
pub fn check_sizes_and_record(record: &Record, l2: usize, ext: usize) -> u8 {
    let l2_fits = l2_length_is_legal(l2 as u64) && l2 as u64 == u64::from(record.l);
    let ext_fits = external_length_is_legal(ext as u64) && ext as u64 == u64::from(record.e);
    if !l2_fits || !ext_fits {
        return 1;
    }
    if !is_well_formed(record) {
        return 2;
    }
    0
}

/// "1: a lent length illegal, or unlike the record's", for all memories, "check 1
/// its buffer" (02, U4) being L1P's; then "2: record not well formed". 0 when neither is
/// due.
pub fn check_lent_and_record(record: &Record, l1d: usize, l2: usize, ext: usize, l1p: usize) -> u8 {
    if l1d != L1D_BYTES || l1p != L1P_BYTES {
        return 1;
    }
    check_sizes_and_record(record, l2, ext)
}

/// "3: size not 1, 2, 4, 8"; "4: address not a multiple of the size"; "5:
/// access ... not wholly in SRAM or external memory"; "6: value needs more
/// bytes than the size". A read is checked with the value 0.
pub fn check_access(s: u32, e: u32, size: u32, address: u32, value: u64) -> u8 {
    if ![1, 2, 4, 8].contains(&size) {
        return 3;
    }
    if address % size != 0 {
        return 4;
    }
    if place(s, e, address, size).is_none() {
        return 5;
    }
    if size < 8 && value >> (8 * size) != 0 {
        return 6;
    }
    0
}

/// "4: ... block base not of 4"; "7: count above 65,535".
pub fn check_block(base: u32, count: u32) -> u8 {
    if base % 4 != 0 {
        return 4;
    }
    if count > 65_535 {
        return 7;
    }
    0
}

/// "8: mode not 0 to 3 or 7, or C above L".
fn check_mode(record: &Record, mode: u32) -> u8 {
    if mode_is_legal(record.l, mode) {
        0
    } else {
        8
    }
}

/// "9: MAR not 128 or 129, or bit above 1"; "10: bit 0 while either cache
/// holds a line of that range", which "now looks in L1P too" (02, U4).
fn check_mar(record: &Record, number: u32, bit: u32) -> u8 {
    if (number != 128 && number != 129) || bit > 1 {
        return 9;
    }
    if bit == 0 && holds_a_line_of(record, number) {
        return 10;
    }
    0
}

/// "17 for a number above 1" (02, U11), the one number that freezes or thaws.
fn check_freeze(frozen: u32) -> u8 {
    if frozen > 1 {
        return 17;
    }
    0
}

/// "The lowest due number wins": checks 3 to 10, then 17, which is "checked after
/// 10" (02, U11). 0 when none is due.
pub fn check_command(record: &Record, command: &Command) -> u8 {
    match *command {
        Command::Read { size, address } => {
            check_access(record.sram_size(), record.e, size, address, 0)
        }
        Command::Write { size, address, value } => {
            check_access(record.sram_size(), record.e, size, address, value)
        }
        Command::L2BlockWriteback { base, count }
        | Command::L2BlockWritebackInvalidate { base, count }
        | Command::L2BlockInvalidate { base, count }
        | Command::L1dBlockWritebackInvalidate { base, count }
        | Command::L1dBlockInvalidate { base, count } => check_block(base, count),
        Command::L2WritebackAll | Command::L2WritebackInvalidateAll | Command::L1dInvalidateAll => {
            0
        }
        Command::Mode { mode } => check_mode(record, mode),
        Command::Mar { number, bit } => check_mar(record, number, bit),
        Command::Freeze { frozen } => check_freeze(frozen),
    }
}

/// Checks 3 to 10 and 17, then the call itself. "Value and server are 0 with it; the
/// record comes back as given". "The value is 0 for all but accepted reads.";
/// the server is "0 for calls that aren't reads or writes". 02, U5: "Every operation
/// keeps them right, transfers and drops included.": after each the lines are counted.
/// 02, U2: "An access also reports": a call that is no read or write reports nothing.
pub fn carry_out(machine: &mut Machine, command: &Command) -> Reply {
    let number = check_command(machine.record, command);
    if number != 0 {
        return Reply::refused(number);
    }
    let mut server = SERVER_NONE;
    let mut value = 0;
    let mut report = Report::NONE;
    machine.report = Report::NONE;
    match *command {
        Command::Read { size, address } => {
            (server, value) = access::read(machine, size, address);
            report = machine.report;
        }
        Command::Write { size, address, value } => {
            server = access::write(machine, size, address, value);
            report = machine.report;
        }
        Command::L2WritebackAll => l2_all(machine, L2Action::Writeback),
        Command::L2WritebackInvalidateAll => l2_all(machine, L2Action::WritebackInvalidate),
        Command::L2BlockWriteback { base, count } => {
            l2_block(machine, base, count, L2Action::Writeback)
        }
        Command::L2BlockWritebackInvalidate { base, count } => {
            l2_block(machine, base, count, L2Action::WritebackInvalidate)
        }
        Command::L2BlockInvalidate { base, count } => {
            l2_block(machine, base, count, L2Action::Invalidate)
        }
        Command::L1dBlockWritebackInvalidate { base, count } => {
            l1d_block(machine, base, count, L1dAction::WritebackInvalidate)
        }
        Command::L1dBlockInvalidate { base, count } => {
            l1d_block(machine, base, count, L1dAction::Invalidate)
        }
        Command::L1dInvalidateAll => commands::l1d_invalidate_all(machine),
        Command::Mode { mode } => change_mode(machine, mode),
        Command::Mar { number, bit } => change_mar(machine.record, number, bit),
        Command::Freeze { frozen } => change_freeze(machine.record, frozen),
    }
    machine.record.write_counts();
    Reply { answer: Answer { number: 0, server, value }, report }
}

/// A direct call: checks 1 and 2, then the rest. "a refused direct call
/// changes no lent byte."
pub fn direct(
    record: &mut Record,
    l1d: &mut [u8],
    l2: &mut [u8],
    ext: &mut [u8],
    l1p: &mut [u8],
    command: &Command,
) -> Reply {
    direct_with_events(record, l1d, l2, ext, l1p, command).0
}

/// A direct call, and what happened to lines in it.
pub fn direct_with_events(
    record: &mut Record,
    l1d: &mut [u8],
    l2: &mut [u8],
    ext: &mut [u8],
    l1p: &mut [u8],
    command: &Command,
) -> (Reply, Events) {
    let number = check_lent_and_record(record, l1d.len(), l2.len(), ext.len(), l1p.len());
    if number != 0 {
        return (Reply::refused(number), Events::default());
    }
    let mut machine = Machine::new(record, l1d, l2, ext, l1p);
    let reply = carry_out(&mut machine, command);
    (reply, machine.events)
}

/// "Fresh: mode 0, MAR bits 0, nothing valid, orders 1,0 and 3,2,1,0. L1D and
/// L2 bytes become zero; external memory is kept." L1P's buffer too is "zero when fresh"
/// (02, U4). "A fresh start can meet only 1, and then returns the record of L = 32,768,
/// E = 128."
pub fn fresh_start(
    l1d: &mut [u8],
    l2: &mut [u8],
    ext: &mut [u8],
    l1p: &mut [u8],
) -> (Box<Record>, u8) {
    let legal = l1d.len() == L1D_BYTES
        && l1p.len() == L1P_BYTES
        && l2_length_is_legal(l2.len() as u64)
        && external_length_is_legal(ext.len() as u64);
    if !legal {
        return (Record::fresh(32_768, 128), 1);
    }
    l1d.fill(0);
    l2.fill(0);
    l1p.fill(0);
    (Record::fresh(l2.len() as u32, ext.len() as u32), 0)
}

/// "0 read (size, address)".
pub fn read(
    record: &mut Record,
    l1d: &mut [u8],
    l2: &mut [u8],
    ext: &mut [u8],
    l1p: &mut [u8],
    size: u32,
    address: u32,
) -> Reply {
    direct(record, l1d, l2, ext, l1p, &Command::Read { size, address })
}

/// "1 write (size, address, value)".
pub fn write(
    record: &mut Record,
    l1d: &mut [u8],
    l2: &mut [u8],
    ext: &mut [u8],
    l1p: &mut [u8],
    size: u32,
    address: u32,
    value: u64,
) -> Reply {
    direct(record, l1d, l2, ext, l1p, &Command::Write { size, address, value })
}

/// "2 L2 writeback all".
pub fn l2_writeback_all(
    record: &mut Record,
    l1d: &mut [u8],
    l2: &mut [u8],
    ext: &mut [u8],
    l1p: &mut [u8],
) -> Reply {
    direct(record, l1d, l2, ext, l1p, &Command::L2WritebackAll)
}

/// "3 L2 writeback-invalidate all".
pub fn l2_writeback_invalidate_all(
    record: &mut Record,
    l1d: &mut [u8],
    l2: &mut [u8],
    ext: &mut [u8],
    l1p: &mut [u8],
) -> Reply {
    direct(record, l1d, l2, ext, l1p, &Command::L2WritebackInvalidateAll)
}

/// "4, 5, 6 L2 block writeback, writeback-invalidate, invalidate (base,
/// count)": 4.
pub fn l2_block_writeback(
    record: &mut Record,
    l1d: &mut [u8],
    l2: &mut [u8],
    ext: &mut [u8],
    l1p: &mut [u8],
    base: u32,
    count: u32,
) -> Reply {
    direct(record, l1d, l2, ext, l1p, &Command::L2BlockWriteback { base, count })
}

/// "4, 5, 6 L2 block writeback, writeback-invalidate, invalidate (base,
/// count)": 5.
pub fn l2_block_writeback_invalidate(
    record: &mut Record,
    l1d: &mut [u8],
    l2: &mut [u8],
    ext: &mut [u8],
    l1p: &mut [u8],
    base: u32,
    count: u32,
) -> Reply {
    direct(record, l1d, l2, ext, l1p, &Command::L2BlockWritebackInvalidate { base, count })
}

/// "4, 5, 6 L2 block writeback, writeback-invalidate, invalidate (base,
/// count)": 6.
pub fn l2_block_invalidate(
    record: &mut Record,
    l1d: &mut [u8],
    l2: &mut [u8],
    ext: &mut [u8],
    l1p: &mut [u8],
    base: u32,
    count: u32,
) -> Reply {
    direct(record, l1d, l2, ext, l1p, &Command::L2BlockInvalidate { base, count })
}

/// "7, 8 L1D block writeback-invalidate, invalidate (base, count)": 7.
pub fn l1d_block_writeback_invalidate(
    record: &mut Record,
    l1d: &mut [u8],
    l2: &mut [u8],
    ext: &mut [u8],
    l1p: &mut [u8],
    base: u32,
    count: u32,
) -> Reply {
    direct(record, l1d, l2, ext, l1p, &Command::L1dBlockWritebackInvalidate { base, count })
}

/// "7, 8 L1D block writeback-invalidate, invalidate (base, count)": 8.
pub fn l1d_block_invalidate(
    record: &mut Record,
    l1d: &mut [u8],
    l2: &mut [u8],
    ext: &mut [u8],
    l1p: &mut [u8],
    base: u32,
    count: u32,
) -> Reply {
    direct(record, l1d, l2, ext, l1p, &Command::L1dBlockInvalidate { base, count })
}

/// "9 L1D invalidate all".
pub fn l1d_invalidate_all(
    record: &mut Record,
    l1d: &mut [u8],
    l2: &mut [u8],
    ext: &mut [u8],
    l1p: &mut [u8],
) -> Reply {
    direct(record, l1d, l2, ext, l1p, &Command::L1dInvalidateAll)
}

/// "10 mode".
pub fn mode_change(
    record: &mut Record,
    l1d: &mut [u8],
    l2: &mut [u8],
    ext: &mut [u8],
    l1p: &mut [u8],
    mode: u32,
) -> Reply {
    direct(record, l1d, l2, ext, l1p, &Command::Mode { mode })
}

/// "11 MAR (number, bit)".
pub fn mar_change(
    record: &mut Record,
    l1d: &mut [u8],
    l2: &mut [u8],
    ext: &mut [u8],
    l1p: &mut [u8],
    number: u32,
    bit: u32,
) -> Reply {
    direct(record, l1d, l2, ext, l1p, &Command::Mar { number, bit })
}

/// "A call, in the trace code 12, takes one number: 1 freezes, 0 thaws" (02, U11).
pub fn freeze(
    record: &mut Record,
    l1d: &mut [u8],
    l2: &mut [u8],
    ext: &mut [u8],
    l1p: &mut [u8],
    frozen: u32,
) -> Reply {
    direct(record, l1d, l2, ext, l1p, &Command::Freeze { frozen })
}

/// A non-aligned access (02, U6): checks 1 and 2, then the rest.
pub fn unaligned(
    record: &mut Record,
    l1d: &mut [u8],
    l2: &mut [u8],
    ext: &mut [u8],
    l1p: &mut [u8],
    access: &Unaligned,
) -> Reply {
    let number = check_lent_and_record(record, l1d.len(), l2.len(), ext.len(), l1p.len());
    if number != 0 {
        return Reply::refused(number);
    }
    carry_out_unaligned(&mut Machine::new(record, l1d, l2, ext, l1p), access)
}

/// A non-aligned load (02, U6).
pub fn read_unaligned(
    record: &mut Record,
    l1d: &mut [u8],
    l2: &mut [u8],
    ext: &mut [u8],
    l1p: &mut [u8],
    size: u32,
    address: u32,
) -> Reply {
    unaligned(record, l1d, l2, ext, l1p, &Unaligned::Read { size, address })
}

/// A non-aligned store (02, U6).
pub fn write_unaligned(
    record: &mut Record,
    l1d: &mut [u8],
    l2: &mut [u8],
    ext: &mut [u8],
    l1p: &mut [u8],
    size: u32,
    address: u32,
    value: u64,
) -> Reply {
    unaligned(record, l1d, l2, ext, l1p, &Unaligned::Write { size, address, value })
}

/// A transfer in (02, U1): checks 1 and 2, then the rest.
pub fn transfer_in(
    record: &mut Record,
    l1d: &mut [u8],
    l2: &mut [u8],
    ext: &mut [u8],
    l1p: &mut [u8],
    address: u32,
    buffer: &[u8],
) -> Reply {
    transfer_in_with_events(record, l1d, l2, ext, l1p, address, buffer).0
}

/// A transfer in, and what happened to lines in it.
pub fn transfer_in_with_events(
    record: &mut Record,
    l1d: &mut [u8],
    l2: &mut [u8],
    ext: &mut [u8],
    l1p: &mut [u8],
    address: u32,
    buffer: &[u8],
) -> (Reply, Events) {
    let number = check_lent_and_record(record, l1d.len(), l2.len(), ext.len(), l1p.len());
    if number != 0 {
        return (Reply::refused(number), Events::default());
    }
    let mut machine = Machine::new(record, l1d, l2, ext, l1p);
    let reply = transfers::carry_in(&mut machine, address, buffer);
    (reply, machine.events)
}

/// A transfer out (02, U1): checks 1 and 2, then the rest.
pub fn transfer_out(
    record: &mut Record,
    l1d: &mut [u8],
    l2: &mut [u8],
    ext: &mut [u8],
    l1p: &mut [u8],
    address: u32,
    buffer: &mut [u8],
) -> Reply {
    transfer_out_with_events(record, l1d, l2, ext, l1p, address, buffer).0
}

/// A transfer out, and what happened to lines in it.
pub fn transfer_out_with_events(
    record: &mut Record,
    l1d: &mut [u8],
    l2: &mut [u8],
    ext: &mut [u8],
    l1p: &mut [u8],
    address: u32,
    buffer: &mut [u8],
) -> (Reply, Events) {
    let number = check_lent_and_record(record, l1d.len(), l2.len(), ext.len(), l1p.len());
    if number != 0 {
        return (Reply::refused(number), Events::default());
    }
    let mut machine = Machine::new(record, l1d, l2, ext, l1p);
    let reply = transfers::carry_out(&mut machine, address, buffer);
    (reply, machine.events)
}

/// The number of a transfer in either direction by itself, for lengths that no buffer has: the
/// four lengths are those of L1D, L2, external memory and L1P.
pub fn transfer_number(record: &Record, lent: [usize; 4], address: u32, length: usize) -> u8 {
    let [l1d, l2, ext, l1p] = lent;
    match check_lent_and_record(record, l1d, l2, ext, l1p) {
        0 => transfers::check_transfer(record.sram_size(), record.e, address, length),
        number => number,
    }
}

/// A frame (02, U14): checks 1 and 2, then the rest.
pub fn frame(
    record: &mut Record,
    l1d: &mut [u8],
    l2: &mut [u8],
    ext: &mut [u8],
    l1p: &mut [u8],
    turn: u8,
    pixels: &[u8],
) -> Framed {
    let number = check_lent_and_record(record, l1d.len(), l2.len(), ext.len(), l1p.len());
    if number != 0 {
        return Framed::refused(number, turn);
    }
    frames::carry_out_frame(&mut Machine::new(record, l1d, l2, ext, l1p), turn, pixels)
}

/// The number of a frame by itself, for lengths that no buffer has: the four lengths are those of
/// L1D, L2, external memory and L1P.
pub fn frame_number(record: &Record, lent: [usize; 4], length: usize) -> u8 {
    let [l1d, l2, ext, l1p] = lent;
    match check_lent_and_record(record, l1d, l2, ext, l1p) {
        0 => frames::check_frame(record.e, length),
        number => number,
    }
}

/// A fetch or an invalidation of L1P (02, U4): checks 1 and 2, then the rest.
pub fn program(
    record: &mut Record,
    l1d: &mut [u8],
    l2: &mut [u8],
    ext: &mut [u8],
    l1p: &mut [u8],
    call: &Program,
) -> Fetched {
    program_with_events(record, l1d, l2, ext, l1p, call).0
}

/// The same, and what happened to lines of data in it: an L2 line that leaves for a fetch may be
/// written out.
pub fn program_with_events(
    record: &mut Record,
    l1d: &mut [u8],
    l2: &mut [u8],
    ext: &mut [u8],
    l1p: &mut [u8],
    call: &Program,
) -> (Fetched, Events) {
    let number = check_lent_and_record(record, l1d.len(), l2.len(), ext.len(), l1p.len());
    if number != 0 {
        return (Fetched::refused(number), Events::default());
    }
    let mut machine = Machine::new(record, l1d, l2, ext, l1p);
    let fetched = carry_out_program(&mut machine, call);
    (fetched, machine.events)
}

/// A fetch (02, U4).
pub fn fetch(
    record: &mut Record,
    l1d: &mut [u8],
    l2: &mut [u8],
    ext: &mut [u8],
    l1p: &mut [u8],
    address: u32,
) -> Fetched {
    program(record, l1d, l2, ext, l1p, &Program::Fetch { address })
}

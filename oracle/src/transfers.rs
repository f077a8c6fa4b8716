//! "Camera transfers" (02, U1): "The ribbon board's EDMA moves frames in and out, so the model
//! gets a transfer call, in (buffer to memory) or out, of a lent buffer's whole length, at an
//! address; it isn't in the trace", so that it is no command.

use crate::calls::{Answer, Reply};
use crate::geometry::{external_offset, place, L1d, Place};
use crate::machine::{Machine, Report, SERVER_NONE};

/// "in (buffer to memory) or out".
#[derive(Clone, Copy, PartialEq, Eq, Debug)]
pub enum Direction {
    In,
    Out,
}

/// "above 262,140" is too long.
pub const LONGEST_TRANSFER: usize = 262_140;

/// "Errors: after 4 (address not a multiple of 4), 13 for a length of 0, not a multiple of 4 or
/// above 262,140; then 14 for a transfer not wholly in SRAM or external memory." 0 when none is
/// due.
pub fn check_transfer(s: u32, e: u32, address: u32, length: usize) -> u8 {
    if address % 4 != 0 {
        return 4;
    }
    if length == 0 || length % 4 != 0 || length > LONGEST_TRANSFER {
        return 13;
    }
    if place(s, e, address, length as u32).is_none() {
        return 14;
    }
    0
}

/// A transfer is no read or write of the CPU: its server and its value are 0, and what is
/// reported of an access (02, U2) is not reported of it.
const MOVED: Reply =
    Reply { answer: Answer { number: 0, server: SERVER_NONE, value: 0 }, report: Report::NONE };

/// "For SRAM, L1D lines the transfer touches first go home if dirty and become invalid.", in
/// either direction. A line is touched if a byte of the transfer lies in it. "Invalidation
/// changes no order."
fn send_touched_lines_home(machine: &mut Machine, address: u32, length: u32) {
    let end = address + length;
    for set in 0..L1d::SETS {
        for way in 0..L1d::WAYS {
            let line = machine.record.l1d[set].lines[way];
            if line.valid && line.address < end && address < line.address + L1d::LINE {
                machine.write_back_l1d_line(set, way);
                machine.empty_l1d_way(set, way);
            }
        }
    }
}

/// A transfer "in (buffer to memory)". "For external memory no cache is looked at: the CPU goes
/// on seeing its held line".
pub fn carry_in(machine: &mut Machine, address: u32, buffer: &[u8]) -> Reply {
    let (s, e) = (machine.record.sram_size(), machine.record.e);
    let number = check_transfer(s, e, address, buffer.len());
    if number != 0 {
        return Reply::refused(number);
    }
    match place(s, e, address, buffer.len() as u32) {
        Some(Place::Sram) => {
            send_touched_lines_home(machine, address, buffer.len() as u32);
            let from = address as usize;
            machine.l2[from..from + buffer.len()].copy_from_slice(buffer);
        }
        _ => machine.write_external(external_offset(address), buffer),
    }
    machine.record.write_counts();
    MOVED
}

/// A transfer out, memory to buffer. "For external memory no cache is looked at: ... the EDMA
/// sees what stands in memory." A refused one leaves its buffer as it was.
pub fn carry_out(machine: &mut Machine, address: u32, buffer: &mut [u8]) -> Reply {
    let (s, e) = (machine.record.sram_size(), machine.record.e);
    let number = check_transfer(s, e, address, buffer.len());
    if number != 0 {
        return Reply::refused(number);
    }
    match place(s, e, address, buffer.len() as u32) {
        Some(Place::Sram) => {
            send_touched_lines_home(machine, address, buffer.len() as u32);
            let from = address as usize;
            buffer.copy_from_slice(&machine.l2[from..from + buffer.len()]);
        }
        _ => {
            let bytes = machine.read_external(external_offset(address), buffer.len() as u32);
            buffer.copy_from_slice(&bytes);
        }
    }
    machine.record.write_counts();
    MOVED
}

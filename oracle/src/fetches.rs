//! "Program fetches" (02, U4): "Ribbon firmware runs from external memory. Add L1P". "These calls
//! aren't in the trace", so that they are no commands.

use crate::calls::{check_block, Answer, Reply};
use crate::commands::touched_lines;
use crate::geometry::{external_offset, place, L1p};
use crate::machine::{Home, Machine, Report, SERVER_EXTERNAL, SERVER_L1P};
use crate::record::{Left, Line};

/// A fetch, and "block and whole invalidation of its own".
#[derive(Clone, Copy, PartialEq, Eq, Debug)]
pub enum Program {
    Fetch { address: u32 },
    InvalidateBlock { base: u32, count: u32 },
    InvalidateAll,
}

/// "A fetch returns one line's 32 bytes".
pub const FETCHED_BYTES: usize = 32;

/// What such a call gives back: "it reports as U2's accesses do, its L1P way too." An invalidation
/// is no access: it chooses no way and has no bytes.
#[derive(Clone, Copy, PartialEq, Eq, Debug)]
pub struct Fetched {
    pub reply: Reply,
    pub l1p_left: Left,
    pub bytes: [u8; FETCHED_BYTES],
}

impl Fetched {
    /// "A refused fetch returns 32 zero bytes." It has chosen no way and moved no byte. With the
    /// number 0 it is what an accepted invalidation gives back.
    pub fn refused(number: u8) -> Fetched {
        Fetched { reply: Reply::refused(number), l1p_left: Left::None, bytes: [0; FETCHED_BYTES] }
    }
}

/// "Errors: 15 for a fetch address not a multiple of 32, after 2 and before 5." 0 when neither is
/// due.
pub fn check_fetch(s: u32, e: u32, address: u32) -> u8 {
    if address % L1p::LINE != 0 {
        return 15;
    }
    if place(s, e, address, L1p::LINE).is_none() {
        return 5;
    }
    0
}

/// The checks behind 1 and 2: those of a fetch, or "checked as L1D's are", 4 and 7 of a block and
/// none of a whole invalidation.
pub fn check_program(s: u32, e: u32, call: &Program) -> u8 {
    match *call {
        Program::Fetch { address } => check_fetch(s, e, address),
        Program::InvalidateBlock { base, count } => check_block(base, count),
        Program::InvalidateAll => 0,
    }
}

/// The checks behind 1 and 2, then the call itself. No line of L1P is ever dirty, but an L2 line
/// that leaves for a fetch changes the counts (02, U5).
pub fn carry_out_program(machine: &mut Machine, call: &Program) -> Fetched {
    let number = check_program(machine.record.sram_size(), machine.record.e, call);
    if number != 0 {
        return Fetched::refused(number);
    }
    let fetched = match *call {
        Program::Fetch { address } => fetch(machine, address),
        Program::InvalidateBlock { base, count } => {
            invalidate_block(machine, base, count);
            Fetched::refused(0)
        }
        Program::InvalidateAll => {
            machine.empty_l1p();
            Fetched::refused(0)
        }
    };
    machine.record.write_counts();
    fetched
}

/// A fetch. "Its server is a data read's, with 5 for L1P". Its bytes are no value: that is 0 "for
/// all but accepted reads".
fn fetch(machine: &mut Machine, address: u32) -> Fetched {
    machine.report = Report::NONE;
    let (server, l1p_left, line) = fetch_line(machine, address);
    let mut bytes = [0; FETCHED_BYTES];
    bytes.copy_from_slice(&line);
    let answer = Answer { number: 0, server, value: 0 };
    Fetched { reply: Reply { answer, report: machine.report }, l1p_left, bytes }
}

/// The server, what left the way of L1P, and the line's bytes.
fn fetch_line(machine: &mut Machine, address: u32) -> (u8, Left, Vec<u8>) {
    // "MAR bit 0 bypasses L1P": "External memory with MAR bit 0 is reached directly, touching no
    // line." No way is chosen.
    if machine.is_reached_directly(address) {
        let line = machine.read_external(external_offset(address), L1p::LINE);
        return (SERVER_EXTERNAL, Left::None, line);
    }
    // L1P has no order of use: a hit changes nothing.
    if let Some(set) = machine.record.find_l1p(address) {
        let at = L1p::offset(set);
        return (SERVER_L1P, Left::None, machine.l1p[at..at + FETCHED_BYTES].to_vec());
    }
    // One way: what stands there leaves, and it is clean.
    let set = L1p::set_of(address);
    let left = Left::of(machine.record.l1p[set].lines[0]);
    machine.empty_l1p_way(set);
    // "cached in L2 like a data read, but never looks for them in L1D (an L2 line put out still
    // takes in its halves)": the home's own bytes, whatever L1D holds of them.
    let (home, server) = machine.reach_home(address);
    let line = match home {
        Home::Sram { offset } | Home::L2Line { offset, .. } => {
            machine.l2[offset..offset + FETCHED_BYTES].to_vec()
        }
        Home::External { offset } => machine.read_external(offset, L1p::LINE),
    };
    let to = L1p::offset(set);
    machine.l1p[to..to + FETCHED_BYTES].copy_from_slice(&line);
    machine.record.l1p[set].lines[0] = Line { valid: true, dirty: false, address };
    (server, left, line)
}

/// "L1P has block and whole invalidation of its own": a block "touches each line with a byte in
/// it". No byte of L1P changes.
fn invalidate_block(machine: &mut Machine, base: u32, count: u32) {
    for address in touched_lines(base, count, L1p::LINE) {
        machine.drop_l1p_line(address);
    }
}

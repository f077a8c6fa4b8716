//! "Non-aligned loads and stores" (02, U6): "the processor's non-aligned word and
//! double-word accesses". "They aren't in the trace", so that they are no commands.

use crate::access;
use crate::calls::{Answer, Reply};
use crate::geometry::place;
use crate::machine::{Machine, Report, SERVER_NONE};

/// "Add them for 4 and 8 bytes at any address".
#[derive(Clone, Copy, PartialEq, Eq, Debug)]
pub enum Unaligned {
    Read { size: u32, address: u32 },
    Write { size: u32, address: u32, value: u64 },
}

impl Unaligned {
    pub fn size(&self) -> u32 {
        match *self {
            Unaligned::Read { size, .. } | Unaligned::Write { size, .. } => size,
        }
    }

    pub fn address(&self) -> u32 {
        match *self {
            Unaligned::Read { address, .. } | Unaligned::Write { address, .. } => address,
        }
    }

    /// What is to be written; a read is checked with the value 0.
    pub fn value(&self) -> u64 {
        match *self {
            Unaligned::Read { .. } => 0,
            Unaligned::Write { value, .. } => value,
        }
    }

    pub fn is_write(&self) -> bool {
        matches!(self, Unaligned::Write { .. })
    }
}

/// "Check 4 doesn't apply, and 3 refuses sizes 1 and 2", so that 4 and 8 are left; "5:
/// access ... not wholly in SRAM or external memory"; "6: value needs more bytes than the
/// size". "All bytes are checked first": each of them lies in one of the two memories,
/// and one above FFFFFFFFh in neither.
pub fn check_unaligned(s: u32, e: u32, access: &Unaligned) -> u8 {
    let (size, address) = (access.size(), access.address());
    if size != 4 && size != 8 {
        return 3;
    }
    for byte in 0..size {
        match address.checked_add(byte) {
            Some(at) if place(s, e, at, 1).is_some() => {}
            _ => return 5,
        }
    }
    if size == 4 && access.value() >> 32 != 0 {
        return 6;
    }
    0
}

/// Checks 3, 5 and 6, "so a refusal moves nothing"; then the access: "each done as
/// single-byte accesses from the lowest address up, the server being the highest of
/// theirs." The lowest byte of the value has the lowest address. "Of U2's reports only the
/// byte counts come back, added up.": no line that left is told.
pub fn carry_out_unaligned(machine: &mut Machine, access: &Unaligned) -> Reply {
    let number = check_unaligned(machine.record.sram_size(), machine.record.e, access);
    if number != 0 {
        return Reply::refused(number);
    }
    let mut answer = Answer { number: 0, server: SERVER_NONE, value: 0 };
    let mut report = Report::NONE;
    for byte in 0..access.size() {
        let at = access.address() + byte;
        machine.report = Report::NONE;
        let server = match *access {
            Unaligned::Read { .. } => {
                let (server, value) = access::read(machine, 1, at);
                answer.value += value << (8 * byte);
                server
            }
            Unaligned::Write { value, .. } => {
                access::write(machine, 1, at, value >> (8 * byte) & 0xFF)
            }
        };
        answer.server = answer.server.max(server);
        report.external_read += machine.report.external_read;
        report.external_written += machine.report.external_written;
    }
    machine.record.write_counts();
    Reply { answer, report }
}

//! With which bytes of a fetch flat memory has to agree (02, U4): "In lists that are compared with
//! flat memory, an accepted fetch gives flat memory's bytes wherever none of its 32 was written, by
//! CPU or EDMA, since fresh or the last accepted mode change." Each byte is asked for itself: one
//! that was not written is flat memory's, whatever became of the other 31.
//!
//! This is of the list of calls alone: no cache is asked, and no function of the machine.

use std::collections::HashMap;

use crate::trace::Command;
use crate::unaligned::Unaligned;

/// The bytes written "since fresh or the last accepted mode change": for each 32 bytes that have
/// one, by their address over 32, a bit for each byte, the lowest for the first.
#[derive(Clone, PartialEq, Eq, Debug, Default)]
pub struct Written {
    bits: HashMap<u32, u32>,
}

impl Written {
    /// From a fresh start on.
    pub fn fresh() -> Written {
        Written::default()
    }

    /// One more command of the list, if it was accepted.
    pub fn command(&mut self, command: &Command, accepted: bool) {
        match *command {
            Command::Write { size, address, .. } if accepted => self.bytes(address, size as usize),
            Command::Mode { .. } if accepted => self.bits.clear(),
            _ => {}
        }
    }

    /// A non-aligned write is one by the CPU (02, U6).
    pub fn unaligned(&mut self, access: &Unaligned, accepted: bool) {
        if let (Unaligned::Write { size, address, .. }, true) = (*access, accepted) {
            self.bytes(address, size as usize);
        }
    }

    /// A transfer in is a write "by ... EDMA" (02, U1).
    pub fn transfer_in(&mut self, address: u32, length: usize, accepted: bool) {
        if accepted {
            self.bytes(address, length);
        }
    }

    /// A frame (02, U14) has a transfer in.
    pub fn frame(&mut self, turn: u8, accepted: bool) {
        let base = if turn & 1 == 1 { 0x8000_0C00 } else { 0x8000_0000 };
        self.transfer_in(base, 3_072, accepted);
    }

    /// So many bytes from an address on were written.
    fn bytes(&mut self, address: u32, length: usize) {
        for byte in 0..length as u32 {
            let at = address + byte;
            *self.bits.entry(at / 32).or_default() |= 1 << (at % 32);
        }
    }

    /// Whether this byte was written.
    pub fn was(&self, address: u32) -> bool {
        self.bits.get(&(address / 32)).is_some_and(|bits| bits >> (address % 32) & 1 == 1)
    }
}

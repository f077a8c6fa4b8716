//! Which external transfers join the lists compared with flat memory (02, U1): "External ones
//! join where the address and length are multiples of 128 and, since the last CPU access to that
//! stretch, both an L2 and an L1D block writeback-invalidate have covered it."
//!
//! "Covered" goes line by line, 128 bytes each: since the last accepted CPU access to a byte of
//! the line, an accepted L2 block writeback-invalidate touched it and accepted L1D block
//! writeback-invalidates touched both its halves, in any order, by one command each or several. A
//! line that was never accessed counts as covered.
//!
//! This is of the list of calls alone: no cache is asked, and no function of the machine.

use crate::trace::Command;
use crate::unaligned::Unaligned;

/// "External: E bytes, ... at address 80000000h."
const EXTERNAL_AT: u64 = 0x8000_0000;

/// A line in this sense, and its halves.
const LINE: u64 = 128;
const HALF: u64 = 64;

/// Whether the CPU has accessed a byte of a line, and what has touched the line since.
#[derive(Clone, Copy, PartialEq, Eq, Debug, Default)]
struct Touched {
    accessed: bool,
    by_l2: bool,
    halves_by_l1d: [bool; 2],
}

impl Touched {
    const JUST_ACCESSED: Touched =
        Touched { accessed: true, by_l2: false, halves_by_l1d: [false; 2] };

    /// "A line that was never accessed counts as covered."
    fn is_covered(&self) -> bool {
        !self.accessed || self.by_l2 && self.halves_by_l1d == [true; 2]
    }
}

/// The lines of external memory, along a list of calls.
#[derive(Clone, PartialEq, Eq, Debug)]
pub struct Covered {
    lines: Vec<Touched>,
}

impl Covered {
    /// From a fresh start on, with so many bytes of external memory.
    pub fn fresh(e: u32) -> Covered {
        Covered { lines: vec![Touched::default(); (u64::from(e) / LINE) as usize] }
    }

    /// One more command of the list, if it was accepted: "Refused commands and refused accesses
    /// count for nothing."
    pub fn command(&mut self, command: &Command, accepted: bool) {
        if !accepted {
            return;
        }
        match *command {
            Command::Read { size, address } | Command::Write { size, address, .. } => {
                self.access(address, size);
            }
            Command::L2BlockWritebackInvalidate { base, count } => {
                let (first, end) = block(base, count);
                for line in self.touched(first, end, LINE) {
                    self.lines[line].by_l2 = true;
                }
            }
            Command::L1dBlockWritebackInvalidate { base, count } => {
                let (first, end) = block(base, count);
                for half in self.touched(first, end, HALF) {
                    self.lines[half / 2].halves_by_l1d[half % 2] = true;
                }
            }
            // No other command covers a line, whatever it sends home.
            _ => {}
        }
    }

    /// A non-aligned access is a CPU access to each of its bytes (02, U6).
    pub fn unaligned(&mut self, access: &Unaligned, accepted: bool) {
        if accepted {
            match *access {
                Unaligned::Read { size, address } | Unaligned::Write { size, address, .. } => {
                    self.access(address, size);
                }
            }
        }
    }

    /// "For U1's external transfers a fetch is a CPU access." (02, U4), to each of its 32 bytes,
    /// whoever served it. L1P's invalidations cover nothing.
    pub fn fetch(&mut self, address: u32, accepted: bool) {
        if accepted {
            self.access(address, 32);
        }
    }

    /// A frame (02, U14) counts as the calls that it is made of: both commands cover its place, and
    /// then the CPU reads each byte of it. Its own transfer, which is in between, is covered.
    pub fn frame(&mut self, turn: u8, accepted: bool) {
        let base = if turn & 1 == 1 { 0x8000_0C00 } else { 0x8000_0000 };
        let count = 3_072 / 4;
        self.command(&Command::L2BlockWritebackInvalidate { base, count }, accepted);
        self.command(&Command::L1dBlockWritebackInvalidate { base, count }, accepted);
        assert!(!accepted || self.joins(base, 3_072), "a frame's transfer is covered");
        for address in base..base + 3_072 {
            self.command(&Command::Read { size: 1, address }, accepted);
        }
    }

    /// An accepted CPU access to these bytes.
    fn access(&mut self, address: u32, size: u32) {
        let first = u64::from(address);
        for line in self.touched(first, first + u64::from(size), LINE) {
            self.lines[line] = Touched::JUST_ACCESSED;
        }
    }

    /// Which of the parts of external memory, so many bytes each and numbered from 0, have a byte
    /// from `first` on and before `end`.
    fn touched(&self, first: u64, end: u64, part: u64) -> std::ops::Range<usize> {
        let behind = EXTERNAL_AT + self.lines.len() as u64 * LINE;
        let (first, end) = (first.max(EXTERNAL_AT), end.min(behind));
        if first >= end {
            return 0..0;
        }
        let last = end - 1;
        ((first - EXTERNAL_AT) / part) as usize..((last - EXTERNAL_AT) / part) as usize + 1
    }

    /// Whether a transfer that flat memory accepts joins: one of SRAM always, an external one by
    /// the sentence above.
    pub fn joins(&self, address: u32, length: usize) -> bool {
        let (first, length) = (u64::from(address), length as u64);
        if first < EXTERNAL_AT {
            return true;
        }
        let whole = first % LINE == 0 && length % LINE == 0;
        let mut lines = self.touched(first, first + length, LINE);
        whole && lines.all(|line| self.lines[line].is_covered())
    }

    /// Whether the CPU has accessed a line of these bytes, so that there was something to cover.
    pub fn was_accessed(&self, address: u32, length: usize) -> bool {
        let first = u64::from(address);
        let mut lines = self.touched(first, first + length as u64, LINE);
        lines.any(|line| self.lines[line].accessed)
    }
}

/// "A block is a base address and a count of 4-byte words. ... what passes FFFFFFFFh is cut
/// off.": its first byte, and the place behind its last.
fn block(base: u32, count: u32) -> (u64, u64) {
    let first = u64::from(base);
    (first, (first + 4 * u64::from(count)).min(1 << 32))
}

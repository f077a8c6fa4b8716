//! The record with the lent memories, and the moves of lines between them.
//! Everything here is done to a well-formed record with memories of its
//! lengths; `calls` and `trace` see to that.

use std::ops::Range;

use crate::geometry::{external_offset, L1d, L1p, EXTERNAL_BASE, L2};
use crate::record::{used, victim_way, L1pSet, Left, Line, Record};

/// "The server number is 1 for L1D, 2 SRAM, 3 L2 cache, 4 external (also when
/// L2 had to fetch), 0 for calls that aren't reads or writes." A fetch's is "a data
/// read's, with 5 for L1P" (02, U4).
pub const SERVER_NONE: u8 = 0;
pub const SERVER_L1D: u8 = 1;
pub const SERVER_SRAM: u8 = 2;
pub const SERVER_L2: u8 = 3;
pub const SERVER_EXTERNAL: u8 = 4;
pub const SERVER_L1P: u8 = 5;

/// The record and the "Memories lent by the caller".
pub struct Machine<'a> {
    pub record: &'a mut Record,
    pub l1d: &'a mut [u8],
    pub l2: &'a mut [u8],
    /// Reached by `read_external` and `write_external` alone, which count the bytes.
    ext: &'a mut [u8],
    pub l1p: &'a mut [u8],
    pub events: Events,
    pub report: Report,
}

/// What an access reports beside its answer (02, U2): what left the way that L1D chose
/// and the one that L2 chose, and "the bytes it read from and wrote to external memory".
/// It is written as the steps are done: "These counts equal the bytes moved in 01's
/// steps".
#[derive(Clone, Copy, PartialEq, Eq, Debug)]
pub struct Report {
    pub l1d_left: Left,
    pub l2_left: Left,
    pub external_read: u32,
    pub external_written: u32,
}

impl Report {
    /// No way was chosen, and no byte moved.
    pub const NONE: Report =
        Report { l1d_left: Left::None, l2_left: Left::None, external_read: 0, external_written: 0 };
}

/// What happened to lines, told by their addresses as it happened (02, U13).
#[derive(Default)]
pub struct Events {
    /// "a writeback ... reached its external memory (for SRAM, its SRAM byte)":
    /// the bytes of these lines went there. A writeback into L2 cache has not
    /// reached it.
    pub reached: Vec<Range<u32>>,
    /// "a line that was dropped": a valid line that an invalidating command made
    /// invalid unwritten, "128 bytes for L2's, 64 for L1D's". L2 block invalidate
    /// drops lines of both caches, those of L1D also where L2 holds none of their
    /// bytes (02, U10).
    pub dropped: Vec<Range<u32>>,
}

/// "The home is SRAM for SRAM. For external memory it is L2 cache, or external
/// memory itself in mode 0." The offset is that of the asked byte in the lent
/// L2 (SRAM and L2 cache) or the lent external memory.
#[derive(Clone, Copy)]
pub enum Home {
    Sram { offset: usize },
    L2Line { set: usize, way: usize, offset: usize },
    External { offset: usize },
}

impl<'a> Machine<'a> {
    /// Nothing has happened yet.
    pub fn new(
        record: &'a mut Record,
        l1d: &'a mut [u8],
        l2: &'a mut [u8],
        ext: &'a mut [u8],
        l1p: &'a mut [u8],
    ) -> Machine<'a> {
        Machine { record, l1d, l2, ext, l1p, events: Events::default(), report: Report::NONE }
    }
}

impl Machine<'_> {
    /// Bytes out of external memory, counted as they are moved (02, U2).
    pub fn read_external(&mut self, offset: usize, length: u32) -> Vec<u8> {
        self.report.external_read += length;
        self.ext[offset..offset + length as usize].to_vec()
    }

    /// Bytes into external memory, counted as they are moved (02, U2).
    pub fn write_external(&mut self, offset: usize, bytes: &[u8]) {
        self.report.external_written += bytes.len() as u32;
        self.ext[offset..offset + bytes.len()].copy_from_slice(bytes);
    }

    /// "External memory with MAR bit 0 is reached directly, touching no line."
    pub fn is_reached_directly(&self, address: u32) -> bool {
        address >= EXTERNAL_BASE && self.record.mar_bit(address) == 0
    }

    /// "Using a way ... that way in front, the others as they stood", for L1D.
    pub fn use_l1d_way(&mut self, set: usize, way: usize) {
        let set = &mut self.record.l1d[set];
        set.order = used(set.order, way as u8);
    }

    /// "Using a way ... that way in front, the others as they stood", for L2.
    pub fn use_l2_way(&mut self, set: usize, way: usize) {
        let set = &mut self.record.l2[set];
        set.order = used(set.order, way as u8);
    }

    /// "An invalid way is clean with address 0." and "Invalidation changes no
    /// order." No byte changes either.
    pub fn empty_l1d_way(&mut self, set: usize, way: usize) {
        self.record.l1d[set].lines[way] = Line::EMPTY;
    }

    /// "An invalid way is clean with address 0." and "Invalidation changes no
    /// order." No byte changes either.
    pub fn empty_l2_way(&mut self, set: usize, way: usize) {
        self.record.l2[set].lines[way] = Line::EMPTY;
    }

    /// "An invalid way is clean with address 0." No byte of L1P changes (02, U4).
    pub fn empty_l1p_way(&mut self, set: usize) {
        self.record.l1p[set].lines[0] = Line::EMPTY;
    }

    /// Makes the line of this address invalid, where L1P holds it (02, U4).
    pub fn drop_l1p_line(&mut self, address: u32) {
        if let Some(set) = self.record.find_l1p(address) {
            self.empty_l1p_way(set);
        }
    }

    /// Makes every line of L1P invalid (02, U4).
    pub fn empty_l1p(&mut self) {
        self.record.l1p = [L1pSet::FRESH; L1p::SETS];
    }

    /// "drop the L1P lines inside valid L2 lines they act on" (02, U4): of one L2 line all four.
    pub fn drop_l1p_lines_inside(&mut self, set: usize, way: usize) {
        let line = self.record.l2[set].lines[way];
        for place in (0..L2::LINE).step_by(L1p::LINE as usize) {
            self.drop_l1p_line(line.address + place);
        }
    }

    /// "Data at S + (w × sets + s) × 128."
    pub fn l2_offset(&self, set: usize, way: usize) -> usize {
        L2::offset(self.record.sram_size(), L2::sets(self.record.mode), set, way)
    }

    /// "The home is SRAM for SRAM. For external memory it is L2 cache, or
    /// external memory itself in mode 0." The home as it stands; none when the
    /// L2 line would have to be fetched first.
    fn standing_home(&self, address: u32) -> Option<Home> {
        if address < EXTERNAL_BASE {
            return Some(Home::Sram { offset: address as usize });
        }
        if self.record.mode == 0 {
            return Some(Home::External { offset: external_offset(address) });
        }
        let (set, way) = self.record.find_l2(address)?;
        let offset = self.l2_offset(set, way) + (address % L2::LINE) as usize;
        Some(Home::L2Line { set, way, offset })
    }

    /// The home of a fetch or write miss, and the server number. "A fetch or
    /// write miss that finds its L2 line uses that way. If it doesn't," the L2
    /// line is fetched, and the server is "4 external (also when L2 had to
    /// fetch)".
    pub fn reach_home(&mut self, address: u32) -> (Home, u8) {
        match self.standing_home(address) {
            Some(home @ Home::Sram { .. }) => (home, SERVER_SRAM),
            Some(home @ Home::External { .. }) => (home, SERVER_EXTERNAL),
            Some(home @ Home::L2Line { set, way, .. }) => {
                self.use_l2_way(set, way);
                (home, SERVER_L2)
            }
            None => {
                let (set, way) = self.fetch_l2_line(address);
                let offset = self.l2_offset(set, way) + (address % L2::LINE) as usize;
                (Home::L2Line { set, way, offset }, SERVER_EXTERNAL)
            }
        }
    }

    /// "the L2 way is chosen likewise; the line leaving it first takes in the
    /// dirty halves that L1D holds, both halves become invalid in L1D, and it
    /// is written out if dirty; then 128 bytes are fetched, clean, and used." What the
    /// way has found is told of "an L2 line once it has taken in its halves" (02, U2).
    fn fetch_l2_line(&mut self, address: u32) -> (usize, usize) {
        let line_address = L2::line_address(address);
        let set = L2::set_of(self.record.mode, address).expect("an L2 cache has sets");
        let way = victim_way(&self.record.l2[set].lines, &self.record.l2[set].order);
        if self.record.l2[set].lines[way].valid {
            self.take_in_halves(set, way);
        }
        self.report.l2_left = Left::of(self.record.l2[set].lines[way]);
        self.write_out_l2_line(set, way);
        self.empty_l2_way(set, way);
        let fetched = self.read_external(external_offset(line_address), L2::LINE);
        let to = self.l2_offset(set, way);
        self.l2[to..to + fetched.len()].copy_from_slice(&fetched);
        self.record.l2[set].lines[way] = Line { valid: true, dirty: false, address: line_address };
        self.use_l2_way(set, way);
        (set, way)
    }

    /// "first takes in the dirty halves that L1D holds, both halves become
    /// invalid in L1D"; for the commands, "the dirty L1D halves are written
    /// into it, both halves become invalid in L1D".
    pub fn take_in_halves(&mut self, set: usize, way: usize) {
        let line_address = self.record.l2[set].lines[way].address;
        for half in [line_address, line_address + L1d::LINE] {
            if let Some((l1d_set, l1d_way)) = self.record.find_l1d(half) {
                self.write_back_l1d_line(l1d_set, l1d_way);
                self.empty_l1d_way(l1d_set, l1d_way);
            }
        }
    }

    /// "both halves become invalid in L1D", nothing being written.
    pub fn drop_halves(&mut self, set: usize, way: usize) {
        let line_address = self.record.l2[set].lines[way].address;
        for half in [line_address, line_address + L1d::LINE] {
            if let Some((l1d_set, l1d_way)) = self.record.find_l1d(half) {
                self.drop_l1d_line(l1d_set, l1d_way);
            }
        }
    }

    /// "drops them unwritten", one L1D line. An invalid way stays as it is.
    pub fn drop_l1d_line(&mut self, set: usize, way: usize) {
        let line = self.record.l1d[set].lines[way];
        if line.valid {
            self.events.dropped.push(line.address..line.address + L1d::LINE);
        }
        self.empty_l1d_way(set, way);
    }

    /// "Block invalidate: line and halves become invalid, nothing is written.":
    /// the line alone.
    pub fn drop_l2_line(&mut self, set: usize, way: usize) {
        let line = self.record.l2[set].lines[way];
        if line.valid {
            self.events.dropped.push(line.address..line.address + L2::LINE);
        }
        self.empty_l2_way(set, way);
    }

    /// "a dirty line there is written back to its home"; "A writeback into L2
    /// makes the line dirty and uses nothing."; "On writeback a line goes out
    /// into the part of the lent memory that begins at its home." A clean line
    /// goes nowhere. Whoever asks for the writeback empties the way.
    pub fn write_back_l1d_line(&mut self, set: usize, way: usize) {
        let line = self.record.l1d[set].lines[way];
        if !line.dirty {
            return;
        }
        let length = L1d::LINE as usize;
        let from = L1d::offset(set, way);
        let bytes = self.l1d[from..from + length].to_vec();
        let whole = line.address..line.address + L1d::LINE;
        match self.standing_home(line.address).expect("an external L1D line lies in an L2 line") {
            Home::Sram { offset } => {
                self.l2[offset..offset + length].copy_from_slice(&bytes);
                self.events.reached.push(whole);
            }
            Home::External { offset } => {
                self.write_external(offset, &bytes);
                self.events.reached.push(whole);
            }
            Home::L2Line { set, way, offset } => {
                self.l2[offset..offset + length].copy_from_slice(&bytes);
                self.record.l2[set].lines[way].dirty = true;
            }
        }
    }

    /// "An L2 line's home is external memory."; "it is written out if dirty";
    /// "a dirty line goes out, staying valid and clean".
    pub fn write_out_l2_line(&mut self, set: usize, way: usize) {
        let line = self.record.l2[set].lines[way];
        if !line.dirty {
            return;
        }
        let length = L2::LINE as usize;
        let from = self.l2_offset(set, way);
        let bytes = self.l2[from..from + length].to_vec();
        self.write_external(external_offset(line.address), &bytes);
        self.events.reached.push(line.address..line.address + L2::LINE);
        self.record.l2[set].lines[way].dirty = false;
    }
}

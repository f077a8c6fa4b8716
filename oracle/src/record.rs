//! The record: what is known of the lines, apart from their bytes.

use crate::geometry::{mar_number, sram_size, L1d, L1p, L2};

/// "the lines, held by set and by way: valid, dirty, line address".
#[derive(Clone, Copy, PartialEq, Eq, Debug)]
pub struct Line {
    pub valid: bool,
    pub dirty: bool,
    pub address: u32,
}

impl Line {
    /// "An invalid way is clean with address 0."
    pub const EMPTY: Line = Line { valid: false, dirty: false, address: 0 };
}

/// "Each set has its order of use, a permutation of its ways, most recent
/// first."
#[derive(Clone, Copy, PartialEq, Eq, Debug)]
pub struct L1dSet {
    pub lines: [Line; L1d::WAYS],
    pub order: [u8; L1d::WAYS],
}

impl L1dSet {
    /// "Fresh: ... nothing valid, orders 1,0 and 3,2,1,0."
    pub const FRESH: L1dSet = L1dSet { lines: [Line::EMPTY; L1d::WAYS], order: [1, 0] };
}

/// "Each set has its order of use, a permutation of its ways, most recent
/// first."
#[derive(Clone, Copy, PartialEq, Eq, Debug)]
pub struct L2Set {
    pub lines: [Line; L2::WAYS],
    pub order: [u8; L2::WAYS],
}

impl L2Set {
    /// "Fresh: ... nothing valid, orders 1,0 and 3,2,1,0."
    pub const FRESH: L2Set = L2Set { lines: [Line::EMPTY; L2::WAYS], order: [3, 2, 1, 0] };
}

/// "one way" (02, U4), so that a set of L1P has no order of use.
#[derive(Clone, Copy, PartialEq, Eq, Debug)]
pub struct L1pSet {
    pub lines: [Line; L1p::WAYS],
}

impl L1pSet {
    /// "Fresh: ... nothing valid".
    pub const FRESH: L1pSet = L1pSet { lines: [Line::EMPTY; L1p::WAYS] };
}

/// "The record holds L, E, the mode, the two MAR bits (128 and 129), and for
/// all 128 L1D and 512 L2 sets the lines"; whether L1D is frozen, 1, or thawed,
/// 0: "the record keeps it" (02, U11); and "how many lines are dirty in L1D and in
/// L2 ... Write both counts into the record." (02, U5); and of L1P "the record carries
/// its lines" (02, U4). Any number may stand in any field.
#[derive(Clone, PartialEq, Eq, Debug)]
pub struct Record {
    pub l: u32,
    pub e: u32,
    pub mode: u32,
    pub mar128: u32,
    pub mar129: u32,
    pub frozen: u32,
    pub dirty_l1d: u32,
    pub dirty_l2: u32,
    pub l1d: [L1dSet; L1d::SETS],
    pub l2: [L2Set; L2::SETS_HELD],
    pub l1p: [L1pSet; L1p::SETS],
}

impl Record {
    /// "Fresh: mode 0, MAR bits 0, nothing valid, orders 1,0 and 3,2,1,0." "A
    /// fresh start is thawed." (02, U11) No line is dirty (02, U5).
    pub fn fresh(l: u32, e: u32) -> Box<Record> {
        Box::new(Record {
            l,
            e,
            mode: 0,
            mar128: 0,
            mar129: 0,
            frozen: 0,
            dirty_l1d: 0,
            dirty_l2: 0,
            l1d: [L1dSet::FRESH; L1d::SETS],
            l2: [L2Set::FRESH; L2::SETS_HELD],
            l1p: [L1pSet::FRESH; L1p::SETS],
        })
    }

    /// "SRAM is the first S = L − C bytes of L2, at address 0."
    pub fn sram_size(&self) -> u32 {
        sram_size(self.l, self.mode)
    }

    /// "how many lines are dirty in L1D" (02, U5): of all its ways.
    pub fn dirty_in_l1d(&self) -> u32 {
        self.l1d.iter().flat_map(|set| set.lines).filter(|line| line.dirty).count() as u32
    }

    /// "how many lines are dirty ... in L2" (02, U5): of all its ways.
    pub fn dirty_in_l2(&self) -> u32 {
        self.l2.iter().flat_map(|set| set.lines).filter(|line| line.dirty).count() as u32
    }

    /// Whether both counts are those of the lines.
    pub fn counts_are_right(&self) -> bool {
        self.dirty_l1d == self.dirty_in_l1d() && self.dirty_l2 == self.dirty_in_l2()
    }

    /// "Write both counts into the record." (02, U5) The lines are counted.
    pub fn write_counts(&mut self) {
        self.dirty_l1d = self.dirty_in_l1d();
        self.dirty_l2 = self.dirty_in_l2();
    }

    /// "1 freezes, 0 thaws; the record keeps it" (02, U11).
    pub fn is_frozen(&self) -> bool {
        self.frozen == 1
    }

    /// "MAR n covers the 16 MiB from n × 1000000h". An address outside both
    /// ranges is never external; it counts as having the bit 0.
    pub fn mar_bit(&self, address: u32) -> u32 {
        match mar_number(address) {
            128 => self.mar128,
            129 => self.mar129,
            _ => 0,
        }
    }

    /// The way of the L1D set in which the line of this address is held.
    /// "Set = (address ÷ 64) mod 128."
    pub fn find_l1d(&self, address: u32) -> Option<(usize, usize)> {
        let line_address = L1d::line_address(address);
        let set = L1d::set_of(address);
        (0..L1d::WAYS)
            .find(|&way| {
                let line = self.l1d[set].lines[way];
                line.valid && line.address == line_address
            })
            .map(|way| (set, way))
    }

    /// The way of the L2 set in which the line of this address is held; none
    /// in mode 0. "Set = (address ÷ 128) mod sets."
    pub fn find_l2(&self, address: u32) -> Option<(usize, usize)> {
        let line_address = L2::line_address(address);
        let set = L2::set_of(self.mode, address)?;
        (0..L2::WAYS)
            .find(|&way| {
                let line = self.l2[set].lines[way];
                line.valid && line.address == line_address
            })
            .map(|way| (set, way))
    }
}

impl Record {
    /// The set of L1P in which the line of this address is held (02, U4).
    pub fn find_l1p(&self, address: u32) -> Option<usize> {
        let set = L1p::set_of(address);
        let line = self.l1p[set].lines[0];
        (line.valid && line.address == L1p::line_address(address)).then_some(set)
    }

    /// How many lines L1P holds.
    pub fn held_in_l1p(&self) -> usize {
        self.l1p.iter().filter(|set| set.lines[0].valid).count()
    }
}

/// "Using a way takes an order and gives back the new one, that way in front,
/// the others as they stood."
pub fn used<const N: usize>(order: [u8; N], way: u8) -> [u8; N] {
    let mut new = [way; N];
    let others = order.into_iter().filter(|&other| other != way);
    for (slot, other) in new.iter_mut().skip(1).zip(others) {
        *slot = other;
    }
    new
}

/// What the choice of a way has found there: "The choice of a way must tell whether it
/// was empty or which line address left it dirty or clean" (02, U2). `None` where no
/// way was chosen, which is another answer than an empty one.
#[derive(Clone, Copy, PartialEq, Eq, Debug)]
pub enum Left {
    None,
    Empty,
    Clean { address: u32 },
    Dirty { address: u32 },
}

impl Left {
    /// What is told of a way that was chosen, by the line that stands there.
    pub fn of(line: Line) -> Left {
        let Line { valid, dirty, address } = line;
        match (valid, dirty) {
            (false, _) => Left::Empty,
            (true, false) => Left::Clean { address },
            (true, true) => Left::Dirty { address },
        }
    }
}

/// "the way is the lowest invalid one, else the last in order".
pub fn victim_way<const N: usize>(lines: &[Line; N], order: &[u8; N]) -> usize {
    for way in 0..N {
        if !lines[way].valid {
            return way;
        }
    }
    order[N - 1] as usize
}

//! Random records, memories, calls and traces for comparing models. Nothing
//! here is part of the model. Equal seeds give equal things.

use crate::calls;
use crate::fetches::{Fetched, Program};
use crate::frames::{Framed, FRAME_BYTES};
use crate::geometry::{
    cache_size, mode_is_legal, sram_size, L1d, L1p, EXTERNAL_BASE, L1D_BYTES, L1P_BYTES, L2,
};
use crate::record::{Line, Record};
use crate::trace::{run, Command, RunResult};
use crate::transfers::{Direction, LONGEST_TRANSFER};
use crate::unaligned::Unaligned;
use crate::wellformed::Clause;
use crate::{Answer, Reply};

/// The legal values of L: "a multiple of 32,768, from 32,768 to 262,144".
pub const LEGAL_L: [u32; 8] = [32_768, 65_536, 98_304, 131_072, 163_840, 196_608, 229_376, 262_144];

/// The legal modes.
pub const LEGAL_MODES: [u32; 5] = [0, 1, 2, 3, 7];

/// An E with 65,536 bytes of external memory in the range of MAR 129.
pub const E_BOTH_RANGES: u32 = 16_777_216 + 65_536;

/// The bytes that one MAR bit covers: an E of as many ends where the range of
/// MAR 129 begins.
pub const RANGE_BYTES: u32 = 16_777_216;

// ---------------------------------------------------------------- numbers

/// The generator xorshift64*.
#[derive(Clone, Debug)]
pub struct Rng {
    state: u64,
    /// How many generators were drawn beside it.
    asides: u64,
}

impl Rng {
    /// A generator for a seed; neighbouring seeds give unlike sequences.
    pub fn new(seed: u64) -> Rng {
        let mut mixed = seed.wrapping_add(0x9E37_79B9_7F4A_7C15);
        mixed = (mixed ^ (mixed >> 30)).wrapping_mul(0xBF58_476D_1CE4_E5B9);
        mixed = (mixed ^ (mixed >> 27)).wrapping_mul(0x94D0_49BB_1331_11EB);
        mixed ^= mixed >> 31;
        Rng { state: if mixed == 0 { 1 } else { mixed }, asides: 0 }
    }

    /// A generator of its own for something that is drawn beside the others: these stay what they
    /// would be without it, and so do the groups that a comparison has known for long.
    pub fn aside(&mut self) -> Rng {
        self.asides += 1;
        Rng::new(self.state ^ self.asides.wrapping_mul(0xD6E8_FEB8_6659_FD93))
    }

    /// The next 64 bits.
    pub fn next_u64(&mut self) -> u64 {
        self.state ^= self.state >> 12;
        self.state ^= self.state << 25;
        self.state ^= self.state >> 27;
        self.state.wrapping_mul(0x2545_F491_4F6C_DD1D)
    }

    /// The next 32 bits.
    pub fn next_u32(&mut self) -> u32 {
        (self.next_u64() >> 32) as u32
    }

    /// A number below `bound`, 0 if the bound is 0.
    pub fn below(&mut self, bound: u32) -> u32 {
        (u64::from(self.next_u32()) * u64::from(bound) >> 32) as u32
    }

    /// True `part` times out of `whole`.
    pub fn chance(&mut self, part: u32, whole: u32) -> bool {
        self.below(whole) < part
    }

    /// One of the things.
    pub fn pick<T: Copy>(&mut self, things: &[T]) -> T {
        things[self.below(things.len() as u32) as usize]
    }

    /// Random bytes.
    pub fn fill(&mut self, bytes: &mut [u8]) {
        for chunk in bytes.chunks_mut(8) {
            chunk.copy_from_slice(&self.next_u64().to_le_bytes()[..chunk.len()]);
        }
    }

    /// A random permutation of the ways.
    pub fn permutation<const N: usize>(&mut self) -> [u8; N] {
        let mut order = std::array::from_fn(|way| way as u8);
        for place in (1..N).rev() {
            order.swap(place, self.below(place as u32 + 1) as usize);
        }
        order
    }
}

// ----------------------------------------------------------------- setups

/// A record with its memories, owned.
#[derive(Clone, PartialEq, Eq, Debug)]
pub struct Setup {
    pub record: Box<Record>,
    pub l1d: Vec<u8>,
    pub l2: Vec<u8>,
    pub ext: Vec<u8>,
    pub l1p: Vec<u8>,
}

impl Setup {
    /// A fresh start over external memory of zeros.
    pub fn fresh(l: u32, e: u32) -> Setup {
        Setup::fresh_over(l, vec![0; e as usize])
    }

    /// A fresh start over this external memory.
    pub fn fresh_over(l: u32, mut ext: Vec<u8>) -> Setup {
        let mut l1d = vec![0; L1D_BYTES];
        let mut l2 = vec![0; l as usize];
        let mut l1p = vec![0; L1P_BYTES];
        let (record, _) = calls::fresh_start(&mut l1d, &mut l2, &mut ext, &mut l1p);
        Setup { record, l1d, l2, ext, l1p }
    }

    /// A random well-formed record of these sizes over random memories.
    pub fn random(rng: &mut Rng, l: u32, e: u32) -> Setup {
        let mut setup = Setup {
            record: well_formed_record(rng, l, e),
            l1d: vec![0; L1D_BYTES],
            l2: vec![0; l as usize],
            ext: vec![0; e as usize],
            l1p: vec![0; L1P_BYTES],
        };
        rng.aside().fill(&mut setup.l1p);
        rng.fill(&mut setup.l1d);
        rng.fill(&mut setup.l2);
        rng.fill(&mut setup.ext);
        setup
    }

    /// Another random well-formed record of the same sizes over the memories
    /// as they are (quicker than new memories when E is large).
    pub fn redraw_record(&mut self, rng: &mut Rng) {
        self.record = well_formed_record(rng, self.l2.len() as u32, self.ext.len() as u32);
    }

    /// The same in a given legal mode.
    pub fn redraw_record_in_mode(&mut self, rng: &mut Rng, mode: u32) {
        let (l, e) = (self.l2.len() as u32, self.ext.len() as u32);
        self.record = well_formed_record_in_mode(rng, l, e, mode);
    }

    /// The direct call of this command: its number, server and value.
    pub fn call(&mut self, command: &Command) -> Answer {
        self.reply(command).answer
    }

    /// The same with all that the direct call gives back (02, U2).
    pub fn reply(&mut self, command: &Command) -> Reply {
        let Setup { record, l1d, l2, ext, l1p } = self;
        match *command {
            Command::Read { size, address } => {
                calls::read(record, l1d, l2, ext, l1p, size, address)
            }
            Command::Write { size, address, value } => {
                calls::write(record, l1d, l2, ext, l1p, size, address, value)
            }
            Command::L2WritebackAll => calls::l2_writeback_all(record, l1d, l2, ext, l1p),
            Command::L2WritebackInvalidateAll => {
                calls::l2_writeback_invalidate_all(record, l1d, l2, ext, l1p)
            }
            Command::L2BlockWriteback { base, count } => {
                calls::l2_block_writeback(record, l1d, l2, ext, l1p, base, count)
            }
            Command::L2BlockWritebackInvalidate { base, count } => {
                calls::l2_block_writeback_invalidate(record, l1d, l2, ext, l1p, base, count)
            }
            Command::L2BlockInvalidate { base, count } => {
                calls::l2_block_invalidate(record, l1d, l2, ext, l1p, base, count)
            }
            Command::L1dBlockWritebackInvalidate { base, count } => {
                calls::l1d_block_writeback_invalidate(record, l1d, l2, ext, l1p, base, count)
            }
            Command::L1dBlockInvalidate { base, count } => {
                calls::l1d_block_invalidate(record, l1d, l2, ext, l1p, base, count)
            }
            Command::L1dInvalidateAll => calls::l1d_invalidate_all(record, l1d, l2, ext, l1p),
            Command::Mode { mode } => calls::mode_change(record, l1d, l2, ext, l1p, mode),
            Command::Mar { number, bit } => {
                calls::mar_change(record, l1d, l2, ext, l1p, number, bit)
            }
            Command::Freeze { frozen } => calls::freeze(record, l1d, l2, ext, l1p, frozen),
        }
    }

    /// A non-aligned access, with all that it gives back (02, U6).
    pub fn unaligned(&mut self, access: &Unaligned) -> Reply {
        let Setup { record, l1d, l2, ext, l1p } = self;
        calls::unaligned(record, l1d, l2, ext, l1p, access)
    }

    /// A fetch or an invalidation of L1P, with all that it gives back (02, U4).
    pub fn program(&mut self, call: &Program) -> Fetched {
        let Setup { record, l1d, l2, ext, l1p } = self;
        calls::program(record, l1d, l2, ext, l1p, call)
    }

    /// A fetch.
    pub fn fetch(&mut self, address: u32) -> Fetched {
        self.program(&Program::Fetch { address })
    }

    /// A transfer in (02, U1).
    pub fn transfer_in(&mut self, address: u32, buffer: &[u8]) -> Reply {
        let Setup { record, l1d, l2, ext, l1p } = self;
        calls::transfer_in(record, l1d, l2, ext, l1p, address, buffer)
    }

    /// A transfer out (02, U1).
    pub fn transfer_out(&mut self, address: u32, buffer: &mut [u8]) -> Reply {
        let Setup { record, l1d, l2, ext, l1p } = self;
        calls::transfer_out(record, l1d, l2, ext, l1p, address, buffer)
    }

    /// A transfer that was drawn, and what its buffer holds afterwards: nothing where the length
    /// is one that no buffer has, of which the number is asked alone.
    pub fn transfer(&mut self, transfer: &Transfer) -> (Reply, Vec<u8>) {
        let address = transfer.address;
        let Some(mut buffer) = transfer.buffer() else {
            let lent = [self.l1d.len(), self.l2.len(), self.ext.len(), self.l1p.len()];
            let number = calls::transfer_number(&self.record, lent, address, transfer.length);
            return (Reply::refused(number), Vec::new());
        };
        let reply = match transfer.direction {
            Direction::In => self.transfer_in(address, &buffer),
            Direction::Out => self.transfer_out(address, &mut buffer),
        };
        (reply, buffer)
    }

    /// A frame that was drawn (02, U14); where the length is one that no buffer has, its number is
    /// asked alone.
    pub fn frame(&mut self, frame: &Frame) -> Framed {
        let Setup { record, l1d, l2, ext, l1p } = self;
        match frame.pixels() {
            Some(pixels) => calls::frame(record, l1d, l2, ext, l1p, frame.turn, &pixels),
            None => {
                let lent = [l1d.len(), l2.len(), ext.len(), l1p.len()];
                let number = calls::frame_number(record, lent, frame.length);
                Framed::refused(number, frame.turn)
            }
        }
    }

    /// Any single call; of a frame the number alone.
    pub fn single(&mut self, single: &Single) -> Reply {
        match single {
            Single::Command(command) => self.reply(command),
            Single::Unaligned(access) => self.unaligned(access),
            Single::Transfer(transfer) => self.transfer(transfer).0,
            Single::Frame(frame) => Reply::refused(self.frame(frame).number),
            Single::Program(call) => self.program(call).reply,
        }
    }

    /// A direct read.
    pub fn read(&mut self, size: u32, address: u32) -> Answer {
        self.call(&Command::Read { size, address })
    }

    /// A direct write.
    pub fn write(&mut self, size: u32, address: u32, value: u64) -> Answer {
        self.call(&Command::Write { size, address, value })
    }

    /// A direct mode change.
    pub fn mode(&mut self, mode: u32) -> Answer {
        self.call(&Command::Mode { mode })
    }

    /// A direct MAR change.
    pub fn mar(&mut self, number: u32, bit: u32) -> Answer {
        self.call(&Command::Mar { number, bit })
    }

    /// A direct call that freezes or thaws L1D.
    pub fn freeze(&mut self, frozen: u32) -> Answer {
        self.call(&Command::Freeze { frozen })
    }

    /// A trace run.
    pub fn run(&mut self, trace: &[u8], answers: &mut [u8]) -> RunResult {
        let Setup { record, l1d, l2, ext, l1p } = self;
        run(record, l1d, l2, ext, l1p, trace, answers)
    }

    /// The technician's call.
    pub fn look(&self, address: u32) -> &[u8] {
        calls::look(&self.record, &self.l2, &self.ext, address)
    }

    /// The number of the technician's call.
    pub fn look_number(&self, address: u32) -> u8 {
        calls::look_number(&self.record, &self.l2, &self.ext, address)
    }

    /// The L1D line that holds this address.
    pub fn l1d_line(&self, address: u32) -> Option<Line> {
        self.record.find_l1d(address).map(|(set, way)| self.record.l1d[set].lines[way])
    }

    /// The L2 line that holds this address.
    pub fn l2_line(&self, address: u32) -> Option<Line> {
        self.record.find_l2(address).map(|(set, way)| self.record.l2[set].lines[way])
    }
}

impl Setup {
    /// Whether L1P holds the line of this address.
    pub fn l1p_holds(&self, address: u32) -> bool {
        self.record.find_l1p(address).is_some()
    }
}

/// Random legal L and E. A large E comes up one time in sixteen.
pub fn sizes(rng: &mut Rng) -> (u32, u32) {
    let l = rng.pick(&LEGAL_L);
    let e = if rng.chance(1, 16) {
        match rng.below(4) {
            0 => 33_554_432,
            1 => 16_777_216,
            2 => E_BOTH_RANGES,
            _ => 128 * (1 + rng.below(262_144)),
        }
    } else {
        match rng.below(6) {
            0 => 128,
            1 => 128 * (1 + rng.below(8)),
            2 => 65_536,
            3 => 6 * 65_536,
            4 => 8_192 * (1 + rng.below(16)),
            _ => 128 * (1 + rng.below(4_096)),
        }
    };
    (l, e)
}

/// A random legal L with which this mode is legal. The least one, which leaves
/// no SRAM in a mode other than 0, comes up more often.
pub fn l_for(rng: &mut Rng, mode: u32) -> u32 {
    let legal: Vec<u32> = LEGAL_L.into_iter().filter(|&l| mode_is_legal(l, mode)).collect();
    if rng.chance(1, 3) {
        legal[0]
    } else {
        rng.pick(&legal)
    }
}

// ----------------------------------------------------- well-formed records

/// A random well-formed record of these legal sizes, reachable or not: any
/// mode, MAR bits, frozen or not, densities, dirty marks and orders.
pub fn well_formed_record(rng: &mut Rng, l: u32, e: u32) -> Box<Record> {
    let modes: Vec<u32> = LEGAL_MODES.into_iter().filter(|&mode| mode_is_legal(l, mode)).collect();
    let mode = rng.pick(&modes);
    well_formed_record_in_mode(rng, l, e, mode)
}

/// The same in a given legal mode.
pub fn well_formed_record_in_mode(rng: &mut Rng, l: u32, e: u32, mode: u32) -> Box<Record> {
    let mut record = Record::fresh(l, e);
    record.mode = mode;
    record.mar128 = u32::from(rng.chance(4, 5));
    record.mar129 = u32::from(rng.chance(4, 5));
    record.frozen = u32::from(rng.chance(1, 4));

    // How many of 16 ways are filled, and how many of 16 lines are dirty.
    let l2_density = rng.pick(&[0, 1, 4, 8, 15, 16]);
    let l1d_density = rng.pick(&[0, 1, 4, 8, 15, 16]);
    let dirty = rng.pick(&[0, 4, 8, 16]);
    let fresh_orders = rng.chance(1, 8);

    let sets = L2::sets(mode);
    for set in 0..sets {
        for way in 0..L2::WAYS {
            if !rng.chance(l2_density, 16) {
                continue;
            }
            let Some(address) = external_line(rng, &record, L2::LINE, sets, set) else { continue };
            if record.find_l2(address).is_none() {
                record.l2[set].lines[way] =
                    Line { valid: true, dirty: rng.chance(dirty, 16), address };
            }
        }
        if !fresh_orders {
            record.l2[set].order = rng.permutation();
        }
    }

    let mut l2_halves: Vec<Vec<u32>> = vec![Vec::new(); L1d::SETS];
    for line in record.l2.iter().flat_map(|set| set.lines).filter(|line| line.valid) {
        for half in [line.address, line.address + L1d::LINE] {
            l2_halves[L1d::set_of(half)].push(half);
        }
    }

    for set in 0..L1d::SETS {
        for way in 0..L1d::WAYS {
            if !rng.chance(l1d_density, 16) {
                continue;
            }
            let address = if rng.chance(1, 3) {
                sram_line(rng, &record, set)
            } else if mode == 0 {
                external_line(rng, &record, L1d::LINE, L1d::SETS, set)
            } else if l2_halves[set].is_empty() {
                None
            } else {
                Some(rng.pick(&l2_halves[set]))
            };
            let Some(address) = address else { continue };
            if record.find_l1d(address).is_none() {
                record.l1d[set].lines[way] =
                    Line { valid: true, dirty: rng.chance(dirty, 16), address };
            }
        }
        if !fresh_orders {
            record.l1d[set].order = rng.permutation();
        }
    }
    fill_l1p(&mut rng.aside(), &mut record);
    record.write_counts();
    record
}

/// Lines of L1P, which may lie in L2, in L1D, in both or in neither. Half the time those inside
/// lines that L2 holds come up more often.
fn fill_l1p(rng: &mut Rng, record: &mut Record) {
    let density = rng.pick(&[0, 1, 4, 8, 15, 16]);
    let from_l2 = rng.chance(1, 2);
    let mut inside: Vec<Vec<u32>> = vec![Vec::new(); L1p::SETS];
    for line in record.l2.iter().flat_map(|set| set.lines).filter(|line| line.valid) {
        for place in (0..L2::LINE).step_by(L1p::LINE as usize) {
            inside[L1p::set_of(line.address + place)].push(line.address + place);
        }
    }
    for set in 0..L1p::SETS {
        if !rng.chance(density, 16) {
            continue;
        }
        let address = if rng.chance(1, 4) {
            sram_line_of(rng, record, L1p::LINE, L1p::SETS, set)
        } else if from_l2 && !inside[set].is_empty() {
            Some(rng.pick(&inside[set]))
        } else {
            external_line(rng, record, L1p::LINE, L1p::SETS, set)
        };
        if let Some(address) = address {
            record.l1p[set].lines[0] = Line { valid: true, dirty: false, address };
        }
    }
}

/// A random line address of this set in external memory with MAR bit 1, more
/// often near the beginning, the border of the MAR ranges and the end. `None`
/// if there is no such line or the MAR bit there is 0.
fn external_line(
    rng: &mut Rng,
    record: &Record,
    line: u32,
    sets: usize,
    set: usize,
) -> Option<u32> {
    let (sets, set) = (sets as u32, set as u32);
    let lines = record.e / line;
    if set >= lines {
        return None;
    }
    let places = (lines - set - 1) / sets + 1;
    let border = 0x0100_0000 / (line * sets);
    let turn = match rng.below(4) {
        0 => rng.below(places.min(6)),
        1 if places > border + 1 => (border - 2 + rng.below(6)).min(places - 1),
        2 => places - 1 - rng.below(places.min(4)),
        _ => rng.below(places),
    };
    let address = EXTERNAL_BASE + (set + turn * sets) * line;
    if record.mar_bit(address) == 1 {
        Some(address)
    } else {
        None
    }
}

/// A random L1D line address of this set in SRAM, if there is SRAM.
fn sram_line(rng: &mut Rng, record: &Record, set: usize) -> Option<u32> {
    sram_line_of(rng, record, L1d::LINE, L1d::SETS, set)
}

/// A random address in SRAM of a line of this length in one of so many sets, if there is SRAM.
fn sram_line_of(rng: &mut Rng, record: &Record, line: u32, sets: usize, set: usize) -> Option<u32> {
    let bytes_of_all_sets = line * sets as u32;
    let places = record.sram_size() / bytes_of_all_sets;
    if places == 0 {
        return None;
    }
    let turn = if rng.chance(1, 2) { rng.below(places.min(3)) } else { rng.below(places) };
    Some(set as u32 * line + turn * bytes_of_all_sets)
}

// ------------------------------------------------------ ill-formed records

/// The ways in which one clause of the paragraph can be broken.
#[derive(Clone, Copy, PartialEq, Eq, Debug)]
pub enum Fault {
    IllegalMode,
    CacheAboveL,
    Mar128NoBit,
    Mar129NoBit,
    FrozenNoBit,
    L1dOrder,
    L2Order,
    L1dInvalidDirty,
    L1dInvalidAddress,
    L2InvalidDirty,
    L2InvalidAddress,
    L1dNoMultiple,
    L2NoMultiple,
    L1dOtherSet,
    L2OtherSet,
    L1dTwice,
    L2Twice,
    L1dOutside,
    L1dMarZero,
    L2InSram,
    L2Outside,
    L2MarZero,
    UnusedSetOrder,
    UnusedSetMark,
    UnusedSetLine,
    L1dNotInL2,
    L1dCountMore,
    L1dCountLess,
    L1dCountFar,
    L2CountMore,
    L2CountLess,
    L2CountFar,
    CountsExchanged,
    CountsMoved,
    L1pDirty,
    L1pInvalidDirty,
    L1pInvalidAddress,
    L1pNoMultiple,
    L1pOtherSet,
    L1pOutside,
    L1pMarZero,
}

/// All faults.
pub const FAULTS: [Fault; 41] = [
    Fault::IllegalMode,
    Fault::CacheAboveL,
    Fault::Mar128NoBit,
    Fault::Mar129NoBit,
    Fault::FrozenNoBit,
    Fault::L1dOrder,
    Fault::L2Order,
    Fault::L1dInvalidDirty,
    Fault::L1dInvalidAddress,
    Fault::L2InvalidDirty,
    Fault::L2InvalidAddress,
    Fault::L1dNoMultiple,
    Fault::L2NoMultiple,
    Fault::L1dOtherSet,
    Fault::L2OtherSet,
    Fault::L1dTwice,
    Fault::L2Twice,
    Fault::L1dOutside,
    Fault::L1dMarZero,
    Fault::L2InSram,
    Fault::L2Outside,
    Fault::L2MarZero,
    Fault::UnusedSetOrder,
    Fault::UnusedSetMark,
    Fault::UnusedSetLine,
    Fault::L1dNotInL2,
    Fault::L1dCountMore,
    Fault::L1dCountLess,
    Fault::L1dCountFar,
    Fault::L2CountMore,
    Fault::L2CountLess,
    Fault::L2CountFar,
    Fault::CountsExchanged,
    Fault::CountsMoved,
    Fault::L1pDirty,
    Fault::L1pInvalidDirty,
    Fault::L1pInvalidAddress,
    Fault::L1pNoMultiple,
    Fault::L1pOtherSet,
    Fault::L1pOutside,
    Fault::L1pMarZero,
];

impl Fault {
    /// The clause that the fault breaks.
    pub fn clause(self) -> Clause {
        match self {
            Fault::IllegalMode | Fault::CacheAboveL => Clause::SizesAndMode,
            Fault::Mar128NoBit | Fault::Mar129NoBit => Clause::MarBits,
            Fault::FrozenNoBit => Clause::Frozen,
            Fault::L1dOrder | Fault::L2Order => Clause::Orders,
            Fault::L1dInvalidDirty
            | Fault::L1dInvalidAddress
            | Fault::L2InvalidDirty
            | Fault::L2InvalidAddress
            | Fault::L1pInvalidDirty
            | Fault::L1pInvalidAddress => Clause::InvalidWays,
            Fault::L1dNoMultiple | Fault::L2NoMultiple | Fault::L1pNoMultiple => {
                Clause::LineMultiples
            }
            Fault::L1dOtherSet | Fault::L2OtherSet | Fault::L1pOtherSet => Clause::OwnSets,
            Fault::L1pDirty => Clause::L1pClean,
            Fault::L1pOutside | Fault::L1pMarZero => Clause::L1pPlaces,
            Fault::L1dTwice | Fault::L2Twice => Clause::NoLineTwice,
            Fault::L1dOutside | Fault::L1dMarZero => Clause::L1dPlaces,
            Fault::L2InSram | Fault::L2Outside | Fault::L2MarZero => Clause::L2Places,
            Fault::UnusedSetOrder | Fault::UnusedSetMark | Fault::UnusedSetLine => {
                Clause::UnusedSets
            }
            Fault::L1dNotInL2 => Clause::Inclusion,
            Fault::L1dCountMore
            | Fault::L1dCountLess
            | Fault::L1dCountFar
            | Fault::L2CountMore
            | Fault::L2CountLess
            | Fault::L2CountFar
            | Fault::CountsExchanged
            | Fault::CountsMoved => Clause::DirtyCounts,
        }
    }

    /// Whether the fault can stand alone in a record of this legal mode, the
    /// sizes being right for it.
    pub fn can_stand_in(self, mode: u32) -> bool {
        match self {
            // Such a record's mode is not a legal one.
            Fault::IllegalMode => false,
            // The least L has room for mode 1.
            Fault::CacheAboveL => mode > 1,
            // In another mode the L2 line around it lies wrong as well.
            Fault::L1dMarZero => mode == 0,
            // Mode 7 leaves no SRAM.
            Fault::L2InSram => mode != 0 && mode != 7,
            Fault::L2Order
            | Fault::L2InvalidDirty
            | Fault::L2InvalidAddress
            | Fault::L2NoMultiple
            | Fault::L2OtherSet
            | Fault::L2Twice
            | Fault::L2Outside
            | Fault::L2MarZero
            | Fault::L1dNotInL2
            // A line of L2 that is dirty.
            | Fault::L2CountLess => mode != 0,
            // Mode 7 uses every set.
            Fault::UnusedSetOrder | Fault::UnusedSetMark | Fault::UnusedSetLine => mode != 7,
            _ => true,
        }
    }
}

/// A random record of these legal sizes in which this fault alone stands: no
/// clause but the fault's own is broken. With lent memories of the record's
/// lengths a call gets 2. The fault is put into a record of this legal mode;
/// two of the faults then change the mode. `None` if none of 40 such records
/// has a place for it.
///
/// The fault breaks its clause by the way in which it is put there. Nothing is
/// asked of `wellformed`: that is compared by means of these records, and if it
/// took too much for well formed it would leave out just the records that show
/// it. That each fault stands alone is seen in the tests.
pub fn ill_formed_record(
    rng: &mut Rng,
    l: u32,
    e: u32,
    mode: u32,
    fault: Fault,
) -> Option<Box<Record>> {
    let changes_mode = matches!(fault, Fault::IllegalMode | Fault::CacheAboveL);
    if !changes_mode && !fault.can_stand_in(mode) {
        return None;
    }
    (0..40).find_map(|_| {
        let mut record = well_formed_record_in_mode(rng, l, e, mode);
        put_fault(rng, &mut record, fault).map(|()| record)
    })
}

/// A random fault in a random record of these legal sizes, and which it is.
pub fn any_ill_formed_record(rng: &mut Rng, l: u32, e: u32) -> (Box<Record>, Fault) {
    let modes: Vec<u32> = LEGAL_MODES.into_iter().filter(|&mode| mode_is_legal(l, mode)).collect();
    loop {
        let (mode, fault) = (rng.pick(&modes), rng.pick(&FAULTS));
        if let Some(record) = ill_formed_record(rng, l, e, mode, fault) {
            return (record, fault);
        }
    }
}

/// Puts the fault into a well-formed record; `None` if it has no place there. Where it
/// is none of the counts, these are right afterwards.
fn put_fault(rng: &mut Rng, record: &mut Record, fault: Fault) -> Option<()> {
    put_fault_into_lines(rng, record, fault)?;
    record.write_counts();
    let (l1d, l2) = (record.dirty_l1d, record.dirty_l2);
    match fault {
        Fault::L1dCountMore => record.dirty_l1d += 1,
        Fault::L1dCountLess => record.dirty_l1d = l1d.checked_sub(1)?,
        Fault::L1dCountFar => record.dirty_l1d = far_count(rng, l1d),
        Fault::L2CountMore => record.dirty_l2 += 1,
        Fault::L2CountLess => record.dirty_l2 = l2.checked_sub(1)?,
        Fault::L2CountFar => record.dirty_l2 = far_count(rng, l2),
        Fault::CountsExchanged if l1d != l2 => {
            (record.dirty_l1d, record.dirty_l2) = (l2, l1d);
        }
        Fault::CountsExchanged => return None,
        // Together they are right.
        Fault::CountsMoved if l2 > 0 && rng.chance(1, 2) => {
            (record.dirty_l1d, record.dirty_l2) = (l1d + 1, l2 - 1);
        }
        Fault::CountsMoved => {
            (record.dirty_l1d, record.dirty_l2) = (l1d.checked_sub(1)?, l2 + 1);
        }
        _ => {}
    }
    Some(())
}

/// A count that is wrong, and far from the right one, or the same in its lower bits.
fn far_count(rng: &mut Rng, right: u32) -> u32 {
    let wrong = [
        u32::MAX,
        right ^ 1 << 8,
        right ^ 1 << 16,
        right ^ 1 << 31,
        !right,
        0,
        256,
        257,
        2_048,
        2_049,
        rng.next_u32(),
    ];
    loop {
        let count = rng.pick(&wrong);
        if count != right {
            return count;
        }
    }
}

/// Puts the fault into the lines, the orders and the numbers in front of the counts.
fn put_fault_into_lines(rng: &mut Rng, record: &mut Record, fault: Fault) -> Option<()> {
    match fault {
        Fault::IllegalMode => {
            *record = *Record::fresh(record.l, record.e);
            record.mode = rng.pick(&[4, 5, 6, 8, 9, 15, 255, 256, 257, 65_536, u32::MAX]);
        }
        Fault::CacheAboveL => {
            let above = |&mode: &u32| cache_size(mode).is_some_and(|c| c > record.l);
            let modes: Vec<u32> = LEGAL_MODES.into_iter().filter(above).collect();
            if modes.is_empty() {
                return None;
            }
            *record = *Record::fresh(record.l, record.e);
            record.mode = rng.pick(&modes);
        }
        Fault::Mar128NoBit => {
            // No line may lie there: its MAR bit would not be 1 any more.
            drop_range(record, 128);
            record.mar128 = rng.pick(&[2, 3, 128, 255, 256, u32::MAX]);
        }
        Fault::Mar129NoBit => {
            drop_range(record, 129);
            record.mar129 = rng.pick(&[2, 3, 129, 255, 256, u32::MAX]);
        }
        Fault::FrozenNoBit => {
            record.frozen = rng.pick(&[2, 3, 17, 128, 254, 255, 256, 257, u32::MAX]);
        }
        Fault::L1dOrder => {
            let place = &mut record.l1d[edge_or_any(rng, L1d::SETS)].order[rng.below(2) as usize];
            *place = other_than(rng, *place, &[0, 1, 2, 3, 200, 255]);
        }
        Fault::L2Order => {
            let set = edge_or_any(rng, L2::sets(record.mode));
            let place = &mut record.l2[set].order[rng.below(4) as usize];
            *place = other_than(rng, *place, &[0, 1, 2, 3, 4, 5, 200, 255]);
        }
        Fault::L1dInvalidDirty => {
            let (set, way) = edge_way(rng, &l1d_ways(record, false))?;
            record.l1d[set].lines[way].dirty = true;
        }
        Fault::L1dInvalidAddress => {
            let (set, way) = edge_way(rng, &l1d_ways(record, false))?;
            record.l1d[set].lines[way].address = any_address(rng, record);
        }
        Fault::L2InvalidDirty => {
            let (set, way) = edge_way(rng, &l2_ways(record, false))?;
            record.l2[set].lines[way].dirty = true;
        }
        Fault::L2InvalidAddress => {
            let (set, way) = edge_way(rng, &l2_ways(record, false))?;
            record.l2[set].lines[way].address = any_address(rng, record);
        }
        Fault::L1dNoMultiple => {
            let (set, way) = edge_way(rng, &l1d_ways(record, true))?;
            let address = record.l1d[set].lines[way].address;
            record.l1d[set].lines[way].address = unaligned(rng, record, address, L1d::LINE)?;
        }
        Fault::L2NoMultiple => {
            let (set, way) = edge_way(rng, &l2_ways(record, true))?;
            let address = record.l2[set].lines[way].address;
            record.l2[set].lines[way].address = unaligned(rng, record, address, L2::LINE)?;
            drop_l1d_halves(record, address);
        }
        Fault::L1dOtherSet => {
            let (set, way) = edge_way(rng, &l1d_ways(record, true))?;
            let address = record.l1d[set].lines[way].address;
            // An external line has to stay in its L2 line, if there is L2: then
            // it becomes the other half of the 128 bytes.
            let stays = address >= EXTERNAL_BASE && record.mode != 0;
            let bit = if stays { 0 } else { rng.below(7) };
            let other = address ^ L1d::LINE << bit;
            if is_past_external(record, other) {
                return None;
            }
            drop_l1d_line(record, other);
            record.l1d[set].lines[way].address = other;
        }
        Fault::L2OtherSet => {
            let (set, way) = edge_way(rng, &l2_ways(record, true))?;
            let address = record.l2[set].lines[way].address;
            // Half the time the set that is half of all sets away.
            let bits = L2::sets(record.mode).trailing_zeros();
            let bit = if rng.chance(1, 2) { bits - 1 } else { rng.below(bits) };
            let other = address ^ L2::LINE << bit;
            if is_past_external(record, other) {
                return None;
            }
            drop_l1d_halves(record, address);
            drop_l1d_halves(record, other);
            drop_l2_line(record, other);
            record.l2[set].lines[way].address = other;
        }
        Fault::L1dTwice => {
            let (set, way) = edge_way(rng, &l1d_ways(record, true))?;
            record.l1d[set].lines[1 - way] = record.l1d[set].lines[way];
            record.l1d[set].lines[1 - way].dirty = rng.chance(1, 2);
        }
        Fault::L2Twice => {
            let (set, way) = edge_way(rng, &l2_ways(record, true))?;
            let other = (way + 1 + rng.below(3) as usize) % L2::WAYS;
            if record.l2[set].lines[other].valid {
                drop_l1d_halves(record, record.l2[set].lines[other].address);
            }
            record.l2[set].lines[other] = record.l2[set].lines[way];
            record.l2[set].lines[other].dirty = rng.chance(1, 2);
        }
        Fault::L1dOutside => {
            let address = outside_line(rng, record, L1d::LINE);
            put_l1d_line(rng, record, address);
        }
        Fault::L1dMarZero => {
            let (number, address) = line_in_a_range(rng, record, L1d::LINE);
            drop_l1d_line(record, address);
            put_l1d_line(rng, record, address);
            drop_l1p_range(record, number);
            set_mar(record, number, 0);
        }
        Fault::L2InSram => {
            let lines = record.sram_size() / L2::LINE;
            if lines == 0 {
                return None;
            }
            let line = edge_or_any(rng, lines as usize) as u32;
            put_l2_line(rng, record, line * L2::LINE)?;
        }
        Fault::L2Outside => {
            let address = outside_line(rng, record, L2::LINE);
            put_l2_line(rng, record, address)?;
        }
        Fault::L2MarZero => {
            let (number, address) = line_in_a_range(rng, record, L2::LINE);
            drop_l2_line(record, address);
            put_l2_line(rng, record, address)?;
            drop_l1d_range(record, number);
            drop_l1p_range(record, number);
            set_mar(record, number, 0);
        }
        Fault::UnusedSetOrder => {
            let set = unused_set(rng, record)?;
            let way = rng.below(4) as usize;
            let order = &mut record.l2[set].order;
            if rng.chance(3, 4) {
                order.swap(way, (way + 1 + rng.below(3) as usize) % L2::WAYS);
            } else {
                order[way] = other_than(rng, order[way], &[0, 3, 4, 200]);
            }
        }
        Fault::UnusedSetMark => {
            let set = unused_set(rng, record)?;
            let way = rng.below(4) as usize;
            if rng.chance(1, 2) {
                record.l2[set].lines[way].dirty = true;
            } else {
                record.l2[set].lines[way].address = any_address(rng, record);
            }
        }
        Fault::UnusedSetLine => {
            let set = unused_set(rng, record)?;
            let address = external_line(rng, record, L2::LINE, L2::SETS_HELD, set)?;
            record.l2[set].lines[rng.below(4) as usize] =
                Line { valid: true, dirty: rng.chance(1, 2), address };
        }
        Fault::L1dNotInL2 => {
            let (number, address) = line_in_a_range(rng, record, L1d::LINE);
            drop_l1d_halves(record, L2::line_address(address));
            drop_l2_line(record, address);
            put_l1d_line(rng, record, address);
            // Where the bit was 0 the range held no line, so nothing else changes.
            set_mar(record, number, 1);
        }
        Fault::L1pDirty => {
            let (set, _) = edge_way(rng, &l1p_ways(record, true))?;
            record.l1p[set].lines[0].dirty = true;
        }
        Fault::L1pInvalidDirty => {
            let (set, _) = edge_way(rng, &l1p_ways(record, false))?;
            record.l1p[set].lines[0].dirty = true;
        }
        Fault::L1pInvalidAddress => {
            let (set, _) = edge_way(rng, &l1p_ways(record, false))?;
            record.l1p[set].lines[0].address = any_address(rng, record);
        }
        Fault::L1pNoMultiple => {
            let (set, _) = edge_way(rng, &l1p_ways(record, true))?;
            let address = record.l1p[set].lines[0].address;
            record.l1p[set].lines[0].address = unaligned(rng, record, address, L1p::LINE)?;
        }
        Fault::L1pOtherSet => {
            let (set, _) = edge_way(rng, &l1p_ways(record, true))?;
            let other = record.l1p[set].lines[0].address ^ L1p::LINE << rng.below(9);
            if is_past_external(record, other) {
                return None;
            }
            if let Some(held) = record.find_l1p(other) {
                record.l1p[held].lines[0] = Line::EMPTY;
            }
            record.l1p[set].lines[0].address = other;
        }
        Fault::L1pOutside => {
            let address = outside_line(rng, record, L1p::LINE);
            put_l1p_line(record, address);
        }
        Fault::L1pMarZero => {
            let (number, address) = line_in_a_range(rng, record, L1p::LINE);
            drop_range(record, number);
            put_l1p_line(record, address);
            set_mar(record, number, 0);
        }
        // The counts come afterwards.
        Fault::L1dCountMore
        | Fault::L1dCountLess
        | Fault::L1dCountFar
        | Fault::L2CountMore
        | Fault::L2CountLess
        | Fault::L2CountFar
        | Fault::CountsExchanged
        | Fault::CountsMoved => {}
    }
    Some(())
}

/// The valid (or invalid) ways of L1D, by set.
fn l1d_ways(record: &Record, valid: bool) -> Vec<(usize, usize)> {
    let mut ways = Vec::new();
    for (number, set) in record.l1d.iter().enumerate() {
        for (way, line) in set.lines.iter().enumerate() {
            if line.valid == valid {
                ways.push((number, way));
            }
        }
    }
    ways
}

/// The valid (or invalid) ways of the L2 sets in use, by set.
fn l2_ways(record: &Record, valid: bool) -> Vec<(usize, usize)> {
    let mut ways = Vec::new();
    for (number, set) in record.l2.iter().enumerate().take(L2::sets(record.mode)) {
        for (way, line) in set.lines.iter().enumerate() {
            if line.valid == valid {
                ways.push((number, way));
            }
        }
    }
    ways
}

/// The sets of L1P whose way is valid (or invalid), each with its one way.
fn l1p_ways(record: &Record, valid: bool) -> Vec<(usize, usize)> {
    let sets = record.l1p.iter().enumerate().filter(|(_, set)| set.lines[0].valid == valid);
    sets.map(|(number, _)| (number, 0)).collect()
}

/// One of the ways, if there are any.
fn any_way(rng: &mut Rng, ways: &[(usize, usize)]) -> Option<(usize, usize)> {
    if ways.is_empty() {
        None
    } else {
        Some(rng.pick(ways))
    }
}

/// One of the ways, more often one of the first or of the last set.
fn edge_way(rng: &mut Rng, ways: &[(usize, usize)]) -> Option<(usize, usize)> {
    let set = match rng.below(4) {
        0 => ways.first()?.0,
        1 => ways.last()?.0,
        _ => return any_way(rng, ways),
    };
    let of_set: Vec<_> = ways.iter().copied().filter(|way| way.0 == set).collect();
    any_way(rng, &of_set)
}

/// A number below `count`, more often the first or the last.
fn edge_or_any(rng: &mut Rng, count: usize) -> usize {
    match rng.below(6) {
        0 => 0,
        1 => count - 1,
        _ => rng.below(count as u32) as usize,
    }
}

/// One of the values, but not this one.
fn other_than(rng: &mut Rng, this: u8, values: &[u8]) -> u8 {
    loop {
        let value = rng.pick(values);
        if value != this {
            return value;
        }
    }
}

/// A line address in external memory and the number of its MAR range: more
/// often 129 if E reaches it, and the first or the last line of the range.
fn line_in_a_range(rng: &mut Rng, record: &Record, line: u32) -> (u32, u32) {
    let number = if record.e > RANGE_BYTES { rng.pick(&[128, 129, 129]) } else { 128 };
    let (from, to) =
        if number == 128 { (0, record.e.min(RANGE_BYTES)) } else { (RANGE_BYTES, record.e) };
    let turn = edge_or_any(rng, ((to - from) / line) as usize) as u32;
    (number, EXTERNAL_BASE + from + turn * line)
}

/// Whether the line lies in this MAR range. An empty way lies at 0.
fn in_range(line: &Line, number: u32) -> bool {
    line.address >> 24 == number
}

/// Gives a MAR bit a value.
fn set_mar(record: &mut Record, number: u32, bit: u32) {
    if number == 128 {
        record.mar128 = bit;
    } else {
        record.mar129 = bit;
    }
}

/// An address inside this line, but for its first byte; half the time its
/// middle. `None` if a line from there on would pass the end of its memory.
fn unaligned(rng: &mut Rng, record: &Record, address: u32, line: u32) -> Option<u32> {
    let end = if address < EXTERNAL_BASE { record.sram_size() } else { EXTERNAL_BASE + record.e };
    if address + 2 * line > end {
        return None;
    }
    Some(address + if rng.chance(1, 2) { line / 2 } else { 1 + rng.below(line - 1) })
}

/// Whether a line address of external memory or above lies past its end.
fn is_past_external(record: &Record, address: u32) -> bool {
    address >= EXTERNAL_BASE + record.e
}

/// Puts a line in place of another, in the L1D set of its address.
fn put_l1d_line(rng: &mut Rng, record: &mut Record, address: u32) {
    let way = rng.below(L1d::WAYS as u32) as usize;
    record.l1d[L1d::set_of(address)].lines[way] =
        Line { valid: true, dirty: rng.chance(1, 2), address };
}

/// Puts a line in place of another, in the L2 set of its address; `None` in
/// mode 0.
fn put_l2_line(rng: &mut Rng, record: &mut Record, address: u32) -> Option<()> {
    let set = L2::set_of(record.mode, address)?;
    let way = rng.below(L2::WAYS as u32) as usize;
    if record.l2[set].lines[way].valid {
        drop_l1d_halves(record, record.l2[set].lines[way].address);
    }
    record.l2[set].lines[way] = Line { valid: true, dirty: rng.chance(1, 2), address };
    Some(())
}

/// Puts a line in place of another, in the L1P set of its address.
fn put_l1p_line(record: &mut Record, address: u32) {
    record.l1p[L1p::set_of(address)].lines[0] = Line { valid: true, dirty: false, address };
}

/// A random L2 set not in use.
fn unused_set(rng: &mut Rng, record: &Record) -> Option<usize> {
    let sets = L2::sets(record.mode);
    if sets == L2::SETS_HELD {
        return None;
    }
    let any = rng.below((L2::SETS_HELD - sets) as u32) as usize;
    Some(rng.pick(&[sets, L2::SETS_HELD - 1, sets + any]))
}

/// A line address outside both memories: half the time the very first one past
/// an end or the last one before a beginning.
fn outside_line(rng: &mut Rng, record: &Record, line: u32) -> u32 {
    let (sram_end, external_end) = (record.sram_size(), EXTERNAL_BASE + record.e);
    if rng.chance(1, 2) {
        let top = 0u32.wrapping_sub(line);
        return rng.pick(&[sram_end, external_end, external_end, EXTERNAL_BASE - line, top]);
    }
    let (from, to) = if rng.chance(1, 2) { (sram_end, EXTERNAL_BASE) } else { (external_end, 0) };
    let lines = to.wrapping_sub(from) / line;
    let near = rng.pick(&[64, 4_096, lines]).min(lines);
    from + rng.below(near) * line
}

/// Empties the L1D ways that hold a half of this L2 line.
fn drop_l1d_halves(record: &mut Record, l2_line: u32) {
    drop_l1d_line(record, l2_line);
    drop_l1d_line(record, l2_line + L1d::LINE);
}

/// Empties the L1D way that holds this line.
fn drop_l1d_line(record: &mut Record, address: u32) {
    if let Some((set, way)) = record.find_l1d(address) {
        record.l1d[set].lines[way] = Line::EMPTY;
    }
}

/// Empties the L2 way that holds this line.
fn drop_l2_line(record: &mut Record, address: u32) {
    if let Some((set, way)) = record.find_l2(address) {
        record.l2[set].lines[way] = Line::EMPTY;
    }
}

/// Empties all ways of L1D that hold a line of this MAR range.
fn drop_l1d_range(record: &mut Record, number: u32) {
    for line in record.l1d.iter_mut().flat_map(|set| set.lines.iter_mut()) {
        if in_range(line, number) {
            *line = Line::EMPTY;
        }
    }
}

/// Empties all ways of L1P that hold a line of this MAR range.
fn drop_l1p_range(record: &mut Record, number: u32) {
    for line in record.l1p.iter_mut().flat_map(|set| set.lines.iter_mut()) {
        if in_range(line, number) {
            *line = Line::EMPTY;
        }
    }
}

/// Empties all ways of any cache that hold a line of this MAR range.
fn drop_range(record: &mut Record, number: u32) {
    drop_l1d_range(record, number);
    drop_l1p_range(record, number);
    for line in record.l2.iter_mut().flat_map(|set| set.lines.iter_mut()) {
        if in_range(line, number) {
            *line = Line::EMPTY;
        }
    }
}

/// An address other than 0, in memory or not.
fn any_address(rng: &mut Rng, record: &Record) -> u32 {
    match rng.below(4) {
        0 => 1,
        1 => EXTERNAL_BASE + rng.below(record.e),
        2 => 64 + rng.below(record.l),
        _ => rng.next_u32() | 1,
    }
}

/// A record of no sense at all: random numbers in every field, with a bias to
/// small ones, so that a test of the paragraph sees any content.
pub fn senseless_record(rng: &mut Rng, l: u32, e: u32) -> Box<Record> {
    let mut record = Record::fresh(l, e);
    record.mode = if rng.chance(1, 2) { rng.below(9) } else { rng.next_u32() };
    record.mar128 = rng.below(3);
    record.mar129 = if rng.chance(1, 2) { rng.below(3) } else { rng.next_u32() };
    record.frozen = if rng.chance(3, 4) { rng.below(2) } else { rng.next_u32() };
    let density = rng.pick(&[1, 8, 16]);
    for set in record.l1d.iter_mut() {
        if rng.chance(density, 16) {
            set.order = rng.next_u32().to_le_bytes()[..2].try_into().unwrap();
            for line in set.lines.iter_mut() {
                *line = senseless_line(rng, e);
            }
        }
    }
    for set in record.l2.iter_mut() {
        if rng.chance(density, 16) {
            set.order = rng.next_u32().to_le_bytes();
            for line in set.lines.iter_mut() {
                *line = senseless_line(rng, e);
            }
        }
    }
    let mut aside = rng.aside();
    for set in record.l1p.iter_mut() {
        if aside.chance(density, 16) {
            set.lines[0] = senseless_line(&mut aside, e);
        }
    }
    // Right counts alone do not make it a record of any sense.
    record.write_counts();
    if rng.chance(1, 4) {
        record.dirty_l1d = far_count(rng, record.dirty_l1d);
    }
    if rng.chance(1, 4) {
        record.dirty_l2 = far_count(rng, record.dirty_l2);
    }
    record
}

/// A line of no sense.
fn senseless_line(rng: &mut Rng, e: u32) -> Line {
    let address = match rng.below(4) {
        0 => rng.next_u32(),
        1 => EXTERNAL_BASE.wrapping_add(rng.below(e)),
        2 => rng.below(300_000),
        _ => u32::MAX - rng.below(200),
    };
    Line { valid: rng.chance(1, 2), dirty: rng.chance(1, 2), address }
}

// ---------------------------------------------------------- wrong lengths

/// What is wrong with the lengths; all of them get 1.
#[derive(Clone, Copy, PartialEq, Eq, Debug)]
pub enum WrongLength {
    /// A lent length illegal.
    L1d,
    L2Illegal,
    ExternalIllegal,
    /// A lent length legal, but unlike the record's.
    L2Unlike,
    ExternalUnlike,
    /// The record's own length illegal, the lent one legal.
    RecordL,
    RecordE,
    /// The record's and the lent length alike and illegal.
    BothL,
    BothE,
    /// A lent length illegal, L1P's.
    L1p,
}

/// All wrong lengths.
pub const WRONG_LENGTHS: [WrongLength; 10] = [
    WrongLength::L1d,
    WrongLength::L2Illegal,
    WrongLength::ExternalIllegal,
    WrongLength::L2Unlike,
    WrongLength::ExternalUnlike,
    WrongLength::RecordL,
    WrongLength::RecordE,
    WrongLength::BothL,
    WrongLength::BothE,
    WrongLength::L1p,
];

/// Makes one length wrong. The fault is not seen by the technician's call if
/// it is `L1d` or `L1p`, nor by a fresh start if it is one of `L2Unlike`,
/// `ExternalUnlike`, `RecordL` and `RecordE`.
pub fn make_length_wrong(rng: &mut Rng, setup: &mut Setup, wrong: WrongLength) {
    match wrong {
        WrongLength::L1d => {
            let length = rng.pick(&[0, 1, 64, 8_192, 16_320, 16_383, 16_385, 16_448, 32_768]);
            setup.l1d.resize(length, 0xA5);
        }
        WrongLength::L1p => {
            let length = rng.pick(&[0, 1, 32, 8_192, 16_352, 16_383, 16_385, 16_416, 32_768]);
            setup.l1p.resize(length, 0xA5);
        }
        WrongLength::L2Illegal => setup.l2.resize(illegal_l(rng) as usize, 0xA5),
        WrongLength::ExternalIllegal => {
            let length = illegal_e(rng, setup.ext.len() as u32);
            setup.ext.resize(length as usize, 0xA5);
        }
        WrongLength::L2Unlike => {
            let others: Vec<u32> =
                LEGAL_L.into_iter().filter(|&l| l as usize != setup.l2.len()).collect();
            setup.l2.resize(rng.pick(&others) as usize, 0xA5);
        }
        WrongLength::ExternalUnlike => {
            let length = setup.ext.len();
            let others = [128, 256, length - 128, length + 128];
            let legal: Vec<usize> = others
                .into_iter()
                .filter(|&e| e != length && (128..=33_554_432).contains(&e))
                .collect();
            setup.ext.resize(rng.pick(&legal), 0xA5);
        }
        WrongLength::RecordL => setup.record.l = illegal_l(rng),
        WrongLength::RecordE => setup.record.e = illegal_e(rng, setup.record.e),
        WrongLength::BothL => {
            setup.record.l = illegal_l(rng);
            setup.l2.resize(setup.record.l as usize, 0xA5);
        }
        WrongLength::BothE => {
            setup.record.e = illegal_e(rng, setup.record.e);
            setup.ext.resize(setup.record.e as usize, 0xA5);
        }
    }
}

/// An illegal L.
fn illegal_l(rng: &mut Rng) -> u32 {
    rng.pick(&[0, 1, 128, 16_384, 32_767, 32_769, 65_535, 81_920, 262_143, 262_145, 294_912])
}

/// An illegal E, never far from the legal one but for 0 and the upper end.
fn illegal_e(rng: &mut Rng, e: u32) -> u32 {
    match rng.below(16) {
        0 => 33_554_432 + 128,
        1..=4 => 0,
        5..=8 => e + 1 + rng.below(127),
        9..=12 => e - 1 - rng.below(127),
        _ => 64,
    }
}

// ------------------------------------------------------------ random calls

/// Addresses that calls come back to again and again: lines that compete for
/// the same L1D and L2 sets, in SRAM and on both sides of the border of the
/// MAR ranges (as far as E reaches), and the ends of the memories.
#[derive(Clone, Debug)]
pub struct Hot {
    pub l: u32,
    pub e: u32,
    pub lines: Vec<u32>,
    /// More of them for fetches alone: lines that L1P holds.
    pub program: Vec<u32>,
}

/// A handful of hot lines for these sizes.
pub fn hot(rng: &mut Rng, l: u32, e: u32) -> Hot {
    let first = 64 * rng.below(128);
    let mut external = Vec::new();
    for turn in 0..8 {
        external.push(first + turn * 8_192);
        external.push(first + turn * 65_536);
        external.push(0x0100_0000 + first + turn * 8_192);
        external.push(0x0100_0000 - 65_536 + first + turn * 8_192);
        external.push(0x0100_0000 + first + turn * 65_536);
    }
    external.push(first ^ 64);
    external.push(0x0100_0000 - 64);
    external.push(0x0100_0000);
    external.push(e - 64);
    external.push(e - 128);
    external.retain(|&offset| offset < e);

    let mut sram = Vec::new();
    for turn in 0..4 {
        sram.push(first + turn * 8_192);
    }
    for c in [0, 32_768, 65_536, 131_072, 262_144] {
        if c < l {
            sram.push(l - c - 64);
        }
        if c > 0 && c <= l {
            sram.push(l - c);
        }
    }

    let wanted = rng.pick(&[6, 12, 24]);
    let mut lines = Vec::new();
    while lines.len() < wanted {
        let line =
            if rng.chance(1, 4) { rng.pick(&sram) } else { EXTERNAL_BASE + rng.pick(&external) };
        lines.push(line);
        if rng.chance(1, 3) {
            lines.push(line ^ 64);
        }
    }
    Hot { l, e, lines, program: Vec::new() }
}

/// The least E with which six lines of external memory lie in one set of L2 in this mode,
/// and as many in one of L1D.
pub fn crowded_e(mode: u32) -> u32 {
    6 * L2::LINE * L2::sets(mode).max(L1d::SETS / 2) as u32
}

/// Lines that push each other out: both halves of six lines of external memory that lie in
/// one set of L2 in this mode (as far as E reaches), and so in two of L1D, and now and
/// then lines of SRAM in the same sets of L1D.
pub fn crowded(rng: &mut Rng, mode: u32, l: u32, e: u32) -> Hot {
    let apart = crowded_e(mode) / 6;
    let first = L2::LINE * rng.below(apart.min(e) / L2::LINE);
    let mut lines = Vec::new();
    for turn in 0..6 {
        let offset = first + turn * apart;
        if offset < e {
            lines.extend([EXTERNAL_BASE + offset, EXTERNAL_BASE + offset + L1d::LINE]);
        }
    }
    let sets = L1d::LINE * L1d::SETS as u32;
    if sram_size(l, mode) >= 2 * sets && rng.chance(1, 2) {
        lines.extend([first % sets, first % sets + sets]);
    }
    Hot { l, e, lines, program: Vec::new() }
}

/// Hot lines for a record: some that it holds, and a handful of others.
pub fn hot_for(rng: &mut Rng, record: &Record) -> Hot {
    let mut hot = hot(rng, record.l, record.e);
    for _ in 0..hot.lines.len() {
        if let Some((set, way)) = any_way(rng, &l1d_ways(record, true)) {
            hot.lines.push(record.l1d[set].lines[way].address);
        }
        if let Some((set, way)) = any_way(rng, &l2_ways(record, true)) {
            hot.lines.push(record.l2[set].lines[way].address + 64 * rng.below(2));
        }
    }
    let held = l1p_ways(record, true);
    let mut aside = rng.aside();
    for _ in 0..hot.lines.len().min(4 * held.len()) / 4 {
        hot.program.push(record.l1p[aside.pick(&held).0].lines[0].address);
    }
    hot
}

/// How often each kind of command comes up, in parts of the sum, and beside them transfers, frames,
/// fetches and invalidations of L1P, which no trace has.
#[derive(Clone, Copy, Debug)]
pub struct Mix {
    pub read: u32,
    pub write: u32,
    pub l2_all: u32,
    pub l2_block_writeback: u32,
    pub l2_block_invalidate: u32,
    pub l1d_block_writeback: u32,
    pub l1d_block_invalidate: u32,
    pub l1d_invalidate_all: u32,
    pub mode: u32,
    pub mar: u32,
    pub freeze: u32,
    pub transfer: u32,
    pub frame: u32,
    pub fetch: u32,
    pub l1p_invalidate: u32,
}

impl Mix {
    /// Everything.
    pub const ALL: Mix = Mix {
        read: 400,
        write: 300,
        l2_all: 20,
        l2_block_writeback: 60,
        l2_block_invalidate: 20,
        l1d_block_writeback: 40,
        l1d_block_invalidate: 20,
        l1d_invalidate_all: 5,
        mode: 15,
        mar: 40,
        freeze: 20,
        transfer: 60,
        // One is 3,072 accesses, and fills a part of the caches.
        frame: 4,
        fetch: 160,
        l1p_invalidate: 25,
    };

    /// Everything that flat memory agrees with: nothing is dropped unwritten.
    pub const NO_DROPS: Mix =
        Mix { l2_block_invalidate: 0, l1d_block_invalidate: 0, l1d_invalidate_all: 0, ..Mix::ALL };

    /// The sum of the commands' parts.
    fn sum(&self) -> u32 {
        self.read
            + self.write
            + self.l2_all
            + self.l2_block_writeback
            + self.l2_block_invalidate
            + self.l1d_block_writeback
            + self.l1d_block_invalidate
            + self.l1d_invalidate_all
            + self.mode
            + self.mar
            + self.freeze
    }
}

/// A random command; most of them pass the checks.
pub fn command(rng: &mut Rng, hot: &Hot, mix: &Mix) -> Command {
    let mut part = rng.below(mix.sum());
    let mut is_in = |share: u32| {
        let found = part < share;
        part = part.wrapping_sub(share);
        found
    };
    if is_in(mix.read) {
        let size = access_size(rng);
        Command::Read { size, address: access_address(rng, hot, size) }
    } else if is_in(mix.write) {
        let size = access_size(rng);
        let address = access_address(rng, hot, size);
        Command::Write { size, address, value: written_value(rng, size) }
    } else if is_in(mix.l2_all) {
        if rng.chance(1, 2) {
            Command::L2WritebackAll
        } else {
            Command::L2WritebackInvalidateAll
        }
    } else if is_in(mix.l2_block_writeback) {
        let (base, count) = block(rng, hot);
        if rng.chance(1, 2) {
            Command::L2BlockWriteback { base, count }
        } else {
            Command::L2BlockWritebackInvalidate { base, count }
        }
    } else if is_in(mix.l2_block_invalidate) {
        let (base, count) = block(rng, hot);
        Command::L2BlockInvalidate { base, count }
    } else if is_in(mix.l1d_block_writeback) {
        let (base, count) = block(rng, hot);
        Command::L1dBlockWritebackInvalidate { base, count }
    } else if is_in(mix.l1d_block_invalidate) {
        let (base, count) = block(rng, hot);
        Command::L1dBlockInvalidate { base, count }
    } else if is_in(mix.l1d_invalidate_all) {
        Command::L1dInvalidateAll
    } else if is_in(mix.mode) {
        let legal = rng.chance(7, 8);
        let mode = if legal {
            rng.pick(&LEGAL_MODES)
        } else {
            rng.pick(&[4, 5, 6, 8, 255, 256, 263, u32::MAX])
        };
        Command::Mode { mode }
    } else if is_in(mix.mar) {
        let number = if rng.chance(15, 16) {
            rng.pick(&[128, 129])
        } else {
            rng.pick(&[0, 127, 130, 384, u32::MAX])
        };
        let bit = if rng.chance(15, 16) {
            u32::from(rng.chance(3, 4))
        } else {
            rng.pick(&[2, 3, 256, u32::MAX])
        };
        Command::Mar { number, bit }
    } else {
        // L1D is thawed more often, so that lines come into it.
        let frozen = if rng.chance(7, 8) {
            u32::from(rng.chance(3, 10))
        } else {
            rng.pick(&[2, 3, 12, 17, 128, 255, 256, 257, 1 << 16, u32::MAX])
        };
        Command::Freeze { frozen }
    }
}

/// A transfer that is drawn (02, U1): its direction, where it goes, and the length of its buffer,
/// whose bytes before it are drawn from the filling; with 0 they are 0.
#[derive(Clone, Copy, PartialEq, Eq, Debug)]
pub struct Transfer {
    pub direction: Direction,
    pub address: u32,
    pub length: usize,
    pub filling: u64,
}

/// No buffer is made that is longer: such a transfer is refused, and nothing of it is looked at.
pub const LONGEST_BUFFER: usize = 1 << 20;

impl Transfer {
    pub fn is_in(&self) -> bool {
        self.direction == Direction::In
    }

    /// The buffer before the transfer, if there is one of this length.
    pub fn buffer(&self) -> Option<Vec<u8>> {
        filled(self.length, self.filling)
    }
}

/// So many bytes drawn from a filling, if a buffer is made of this length; with 0 they are 0.
fn filled(length: usize, filling: u64) -> Option<Vec<u8>> {
    if length > LONGEST_BUFFER {
        return None;
    }
    let mut bytes = vec![0; length];
    if filling != 0 {
        Rng::new(filling).fill(&mut bytes);
    }
    Some(bytes)
}

/// A frame that is drawn (02, U14): whose turn it is, and how many pixels it has, which are drawn
/// from the filling; with 0 they are black, and with `WHITE` as bright as they can be.
#[derive(Clone, Copy, PartialEq, Eq, Debug)]
pub struct Frame {
    pub turn: u8,
    pub length: usize,
    pub filling: u64,
}

impl Frame {
    pub const WHITE: u64 = u64::MAX;

    /// The pixels, if there is a buffer of this length.
    pub fn pixels(&self) -> Option<Vec<u8>> {
        let mut pixels = filled(self.length, self.filling)?;
        if self.filling == Frame::WHITE {
            pixels.fill(255);
        }
        Some(pixels)
    }
}

/// A single call: a command that a trace could hold as well, or an access, a transfer, a frame, or
/// a call of L1P that none can (02, U6, U1, U14 and U4).
#[derive(Clone, Copy, PartialEq, Eq, Debug)]
pub enum Single {
    Command(Command),
    Unaligned(Unaligned),
    Transfer(Transfer),
    Frame(Frame),
    Program(Program),
}

/// A random single call: a transfer, a frame, one of L1P, or a command, but of the accesses one in six is a
/// non-aligned one.
pub fn single(rng: &mut Rng, hot: &Hot, mix: &Mix) -> Single {
    if let Some(call) = program_call(&mut rng.aside(), hot, mix) {
        return Single::Program(call);
    }
    let part = rng.below(mix.sum() + mix.transfer + mix.frame);
    if part < mix.transfer {
        return Single::Transfer(transfer(rng, hot));
    }
    if part < mix.transfer + mix.frame {
        return Single::Frame(frame(rng));
    }
    let drawn = command(rng, hot, mix);
    let is_write = match drawn {
        Command::Read { .. } => false,
        Command::Write { .. } => true,
        _ => return Single::Command(drawn),
    };
    if rng.chance(5, 6) {
        return Single::Command(drawn);
    }
    Single::Unaligned(unaligned_access(rng, hot, is_write))
}

/// A call of L1P, as often as one comes up.
fn program_call(rng: &mut Rng, hot: &Hot, mix: &Mix) -> Option<Program> {
    let others = mix.sum() + mix.transfer + mix.frame;
    let part = rng.below(others + mix.fetch + mix.l1p_invalidate);
    if part < mix.fetch {
        return Some(Program::Fetch { address: fetch_address(rng, hot) });
    }
    (part < mix.fetch + mix.l1p_invalidate).then(|| l1p_invalidation(rng, hot))
}

/// The address of a fetch: mostly in a hot line or beside it, and a multiple of 32; seldom around an
/// end of a memory, near FFFFFFFFh or anywhere.
pub fn fetch_address(rng: &mut Rng, hot: &Hot) -> u32 {
    let line = if hot.program.is_empty() || rng.chance(2, 3) {
        rng.pick(&hot.lines)
    } else {
        L1d::line_address(rng.pick(&hot.program))
    };
    let address = match rng.below(64) {
        0 => rng.next_u32(),
        1 => u32::MAX - rng.below(128),
        2 => EXTERNAL_BASE.wrapping_sub(64).wrapping_add(rng.below(128)),
        3 => EXTERNAL_BASE.wrapping_add(hot.e).wrapping_sub(64).wrapping_add(rng.below(128)),
        4 => {
            let end = sram_size(hot.l, rng.pick(&LEGAL_MODES));
            end.wrapping_sub(64).wrapping_add(rng.below(128))
        }
        5 => EXTERNAL_BASE + rng.below(hot.e),
        6 => rng.below(hot.l),
        7..=14 => (line - line % L2::LINE).wrapping_add(rng.below(L2::LINE)),
        // As far as all sets of L1P reach: the two lie in one set.
        15..=18 => line.wrapping_add(L1P_BYTES as u32),
        _ => line + rng.below(L1d::LINE),
    };
    if rng.chance(1, 24) {
        address
    } else {
        L1p::line_address(address)
    }
}

/// An invalidation of L1P, one in five of all of it.
pub fn l1p_invalidation(rng: &mut Rng, hot: &Hot) -> Program {
    if rng.chance(1, 5) {
        return Program::InvalidateAll;
    }
    let (base, count) = block(rng, hot);
    // A few words: one line of L1P, or two.
    let count = if rng.chance(1, 3) { count % 10 } else { count };
    Program::InvalidateBlock { base, count }
}

/// A random transfer; most of them pass the checks, and most touch a few hot lines.
pub fn transfer(rng: &mut Rng, hot: &Hot) -> Transfer {
    let direction = rng.pick(&[Direction::In, Direction::Out]);
    let length = transfer_length(rng);
    let address = transfer_address(rng, hot, length.min(LONGEST_TRANSFER) as u32);
    Transfer { direction, address, length, filling: rng.next_u64() }
}

/// A length: mostly that of a few lines or less, seldom one at an edge, or one that no buffer has.
fn transfer_length(rng: &mut Rng) -> usize {
    let words = match rng.below(64) {
        0 => return 0,
        1 | 2 => return 1 + rng.below(8) as usize,
        // 262,140 is the longest.
        3 => return LONGEST_TRANSFER - 4 + rng.pick(&[0, 1, 2, 4, 4, 5, 7, 8, 8, 12]),
        4 => return huge_length(rng),
        5 => return 4 * rng.below(256) as usize + 1 + rng.below(3) as usize,
        6 => 1 + rng.below(65_535),
        7..=10 => 1 + rng.below(2_048),
        11..=30 => 32 * (1 + rng.below(8)),
        31..=42 => 16 * (1 + rng.below(8)),
        _ => 1 + rng.below(64),
    };
    4 * words as usize
}

/// A length far above the longest, also one that is short in its last 16 or 32 bits.
pub fn huge_length(rng: &mut Rng) -> usize {
    let short = 4 * (1 + rng.below(64) as usize);
    rng.pick(&[
        usize::MAX,
        usize::MAX - 3,
        1 << 63,
        (1 << 63) - 4,
        (1 << 32) + short,
        1 << 32,
        (1 << 31) + short,
        LONGEST_BUFFER + short,
        (1 << 19) + short,
    ])
}

/// Where so many bytes go: mostly from a hot line on, or from the words around its beginning;
/// seldom so that they end with a memory or just behind it, or anywhere.
fn transfer_address(rng: &mut Rng, hot: &Hot, length: u32) -> u32 {
    let line = rng.pick(&hot.lines);
    // One word less, none or one more than what ends there.
    let mut back = || length.wrapping_sub(4).wrapping_add(4 * rng.below(3));
    let at_sram_end = sram_size(hot.l, 0).wrapping_sub(back());
    let at_external_end = EXTERNAL_BASE.wrapping_add(hot.e).wrapping_sub(back());
    let address = match rng.below(40) {
        0 => rng.next_u32(),
        1 => u32::MAX - rng.below(2 * length + 4),
        2 => EXTERNAL_BASE.wrapping_sub(4 * rng.below(length / 4 + 2)),
        3 | 4 => at_external_end,
        5 => at_sram_end,
        6 | 7 => at_sram_end.wrapping_sub(hot.l - sram_size(hot.l, rng.pick(&LEGAL_MODES))),
        8 => EXTERNAL_BASE + rng.below(hot.e),
        9 => rng.below(hot.l),
        10..=17 => line - line % L2::LINE,
        18..=25 => line,
        _ => line.wrapping_add(4 * rng.below(32)).wrapping_sub(L1d::LINE),
    };
    if rng.chance(1, 32) {
        address.wrapping_add(rng.below(4))
    } else {
        address - address % 4
    }
}

/// A random frame; most of them have as many pixels as one has.
pub fn frame(rng: &mut Rng) -> Frame {
    let turn = if rng.chance(3, 4) { rng.below(2) as u8 } else { rng.next_u32() as u8 };
    let length = if rng.chance(7, 8) { FRAME_BYTES } else { frame_length(rng) };
    let filling = if rng.chance(1, 8) { Frame::WHITE } else { rng.next_u64() };
    Frame { turn, length, filling }
}

/// How many pixels no frame has: about as many, none, one or two frames, or so many that they are
/// 3,072 in their last 16 or 32 bits, or that no buffer has them.
pub fn frame_length(rng: &mut Rng) -> usize {
    let near = FRAME_BYTES - 4 + rng.pick(&[0, 1, 2, 3, 5, 6, 7, 8]);
    let huge = huge_length(rng);
    rng.pick(&[
        near,
        near,
        near,
        near,
        0,
        1,
        FRAME_BYTES / 2,
        FRAME_BYTES - 64,
        FRAME_BYTES + 64,
        2 * FRAME_BYTES,
        FRAME_BYTES + (1 << 16),
        FRAME_BYTES + (1 << 32),
        huge,
    ])
}

/// Frames in a row, each with the turn that the one before it left, and what comes between them:
/// the CPU reads and writes pixels of either place and bytes beside it, so that lines of the place
/// are dirty when the next frame comes; L1D is frozen and thawed, and a command goes over a part of
/// a place. Now and then a frame has another length, and the turn stays.
pub fn frames_in_a_row(rng: &mut Rng, e: u32) -> Vec<Single> {
    let mut turn = rng.below(2) as u8;
    let mut calls = Vec::new();
    for _ in 0..2 + rng.below(4) {
        let wrong = rng.chance(1, 8);
        let length = if wrong { frame_length(rng) } else { FRAME_BYTES };
        calls.push(Single::Frame(Frame { turn, length, filling: rng.next_u64() }));
        if length == FRAME_BYTES {
            turn = 1 - turn;
        }
        for _ in 0..rng.below(12) {
            let size = rng.pick(&[1, 2, 4, 8]);
            // Both places, and a few lines behind them.
            let bytes = (2 * FRAME_BYTES as u32 + 512).min(e);
            let address = EXTERNAL_BASE + rng.below(bytes / size) * size;
            let value = rng.next_u64() >> (64 - 8 * size);
            calls.push(Single::Command(match rng.below(16) {
                0 => Command::Freeze { frozen: u32::from(rng.chance(3, 10)) },
                1 => Command::L1dBlockWritebackInvalidate { base: address & !3, count: 40 },
                2 => Command::L2BlockWriteback { base: address & !3, count: 40 },
                3..=6 => Command::Read { size, address },
                _ => Command::Write { size, address, value },
            }));
        }
    }
    calls
}

/// A place of a few lines of external memory that the camera's EDMA and the CPU share: the CPU reads
/// and writes there, both block writeback-invalidates go over the place, whole or in two parts, in
/// any order, a transfer moves some lines of it, and the CPU reads it again. Now and then one of the
/// commands is left out, or the CPU comes back in between: then not all is covered.
pub fn shared_place(rng: &mut Rng, hot: &Hot) -> Vec<Single> {
    let external: Vec<u32> =
        hot.lines.iter().copied().filter(|&line| line >= EXTERNAL_BASE).collect();
    let line = if external.is_empty() { EXTERNAL_BASE } else { rng.pick(&external) };
    let lines = (hot.e / L2::LINE).min(8);
    let lines = 1 + rng.below(lines);
    let end = EXTERNAL_BASE + hot.e;
    let place = (line - line % L2::LINE).min(end - lines * L2::LINE);
    let bytes = lines * L2::LINE;
    let access = |rng: &mut Rng| {
        let size = rng.pick(&[1, 2, 4, 8]);
        let address = place + rng.below(bytes / size) * size;
        if rng.chance(1, 2) {
            Command::Read { size, address }
        } else {
            Command::Write { size, address, value: rng.next_u64() >> (64 - 8 * size) }
        }
    };
    let mut calls = Vec::new();
    for _ in 0..rng.below(8) {
        calls.push(access(rng));
    }
    let mut covering = Vec::new();
    let part = 4 * rng.below(bytes / 4);
    let parts = if rng.chance(2, 3) {
        vec![(place, bytes)]
    } else {
        vec![(place, part), (place + part, bytes - part)]
    };
    for (base, bytes) in parts {
        let count = bytes / 4;
        covering.push(Command::L2BlockWritebackInvalidate { base, count });
        covering.push(Command::L1dBlockWritebackInvalidate { base, count });
    }
    for place in (1..covering.len()).rev() {
        covering.swap(place, rng.below(place as u32 + 1) as usize);
    }
    if rng.chance(1, 8) {
        covering.pop();
    }
    calls.extend(covering);
    if rng.chance(1, 8) {
        calls.push(access(rng));
    }
    let mut calls: Vec<Single> = calls.into_iter().map(Single::Command).collect();
    // A fetch is a CPU access too: before the commands it is covered, behind them it is not.
    let mut aside = rng.aside();
    let fetch = |rng: &mut Rng| {
        Single::Program(Program::Fetch {
            address: place + L1p::LINE * rng.below(bytes / L1p::LINE),
        })
    };
    for _ in 0..aside.below(3) {
        calls.insert(0, fetch(&mut aside));
    }
    if aside.chance(1, 5) {
        calls.push(fetch(&mut aside));
    }
    let first = rng.below(lines);
    let length = (L2::LINE * (1 + rng.below(lines - first))) as usize;
    let direction = rng.pick(&[Direction::In, Direction::In, Direction::Out]);
    let (address, filling) = (place + first * L2::LINE, rng.next_u64());
    calls.push(Single::Transfer(Transfer { direction, address, length, filling }));
    for _ in 0..1 + rng.below(4) {
        let (size, address) = (4, place + 4 * rng.below(bytes / 4));
        calls.push(Single::Command(Command::Read { size, address }));
    }
    calls
}

/// A random non-aligned access; most of them pass the checks. One in four goes from one
/// hot line into the next, and as many come from the line before.
pub fn unaligned_access(rng: &mut Rng, hot: &Hot, is_write: bool) -> Unaligned {
    let size = if rng.chance(1, 24) {
        rng.pick(&[1, 2, 1, 2, 0, 3, 5, 6, 7, 9, 12, 16, 256, 260, 264, 1 << 31, u32::MAX])
    } else {
        rng.pick(&[4, 8])
    };
    let address = unaligned_address(rng, hot, size.clamp(2, 8));
    if is_write {
        Unaligned::Write { size, address, value: written_value(rng, size) }
    } else {
        Unaligned::Read { size, address }
    }
}

/// An address at which so many bytes begin: in or across hot lines, seldom around an end of
/// a memory, near FFFFFFFFh or anywhere.
fn unaligned_address(rng: &mut Rng, hot: &Hot, size: u32) -> u32 {
    let line = rng.pick(&hot.lines);
    // Across the beginning of a line.
    let back = 1 + rng.below(size - 1);
    match rng.below(64) {
        0 => rng.next_u32(),
        1 => u32::MAX - rng.below(2 * size),
        2 => EXTERNAL_BASE.wrapping_sub(size).wrapping_add(rng.below(2 * size)),
        3 => EXTERNAL_BASE.wrapping_add(hot.e).wrapping_sub(size).wrapping_add(rng.below(2 * size)),
        4 => {
            let end = sram_size(hot.l, rng.pick(&LEGAL_MODES));
            end.wrapping_sub(size).wrapping_add(rng.below(2 * size))
        }
        5 => EXTERNAL_BASE + rng.below(hot.e),
        6 => rng.below(hot.l),
        7..=11 => line + 4 * rng.below(16),
        12..=27 => line + L1d::LINE - back,
        28..=43 => line.wrapping_sub(back),
        _ => line + rng.below(L1d::LINE),
    }
}

/// An access size, seldom an illegal one.
fn access_size(rng: &mut Rng) -> u32 {
    if rng.chance(1, 64) {
        rng.pick(&[0, 3, 5, 6, 7, 9, 16, 256, u32::MAX])
    } else {
        rng.pick(&[1, 2, 4, 8])
    }
}

/// An access address: mostly in or next to a hot line and aligned, seldom
/// anywhere.
fn access_address(rng: &mut Rng, hot: &Hot, size: u32) -> u32 {
    let address = match rng.below(64) {
        0 => rng.next_u32(),
        1 => EXTERNAL_BASE.wrapping_add(hot.e).wrapping_sub(64).wrapping_add(rng.below(128)),
        2 => rng.below(hot.l + 64),
        3 => EXTERNAL_BASE + rng.below(hot.e),
        4..=10 => rng.pick(&hot.lines).wrapping_add(rng.below(256)).wrapping_sub(64),
        _ => rng.pick(&hot.lines).wrapping_add(rng.below(64)),
    };
    if size == 0 || rng.chance(1, 48) {
        address
    } else {
        address - address % size
    }
}

/// A value that fits the size, seldom one that does not.
fn written_value(rng: &mut Rng, size: u32) -> u64 {
    let value = rng.next_u64();
    if size >= 8 {
        return value;
    }
    let bound = 1u64 << (8 * size);
    match rng.below(32) {
        0 => value,
        1 => bound,
        2 => bound - 1,
        _ => value % bound,
    }
}

/// A block near a hot line, now and then a long one, one of no legal form, or
/// one that passes FFFFFFFFh.
fn block(rng: &mut Rng, hot: &Hot) -> (u32, u32) {
    let near = rng.pick(&hot.lines).wrapping_add(rng.below(256)).wrapping_sub(128);
    let base = match rng.below(32) {
        0 => rng.next_u32(),
        1 => u32::MAX - rng.below(512),
        2 => EXTERNAL_BASE - rng.below(1_024),
        _ => near,
    };
    let base = if rng.chance(1, 24) { base } else { base - base % 4 };
    let count = match rng.below(32) {
        0 => rng.pick(&[65_535, 65_536, 65_537, 1 << 30, u32::MAX]),
        1 | 2 => rng.below(65_536),
        3..=6 => rng.below(2_048),
        7 => 0,
        _ => rng.below(80),
    };
    (base, count)
}

/// A random address for the technician's call.
pub fn look_address(rng: &mut Rng, hot: &Hot) -> u32 {
    let address = access_address(rng, hot, 1);
    if rng.chance(1, 16) {
        address
    } else {
        address - address % L1d::LINE
    }
}

/// Any call.
#[derive(Clone, PartialEq, Eq, Debug)]
pub enum Call {
    FreshStart,
    Direct(Command),
    Unaligned(Unaligned),
    Transfer(Transfer),
    Frame(Frame),
    Program(Program),
    Run { trace: Vec<u8>, answer_bytes: usize },
    Look { address: u32 },
}

/// A random call of any kind; fresh starts are seldom.
pub fn call(rng: &mut Rng, hot: &Hot, mix: &Mix) -> Call {
    match rng.below(512) {
        0 => Call::FreshStart,
        1..=24 => {
            let kind = rng.pick(&TRACE_KINDS);
            let commands = rng.below(24) as usize;
            let made = trace(rng, hot, mix, commands, kind);
            let answer_bytes = match rng.below(4) {
                0 => rng.below(300) as usize,
                1 => 10 * commands,
                _ => 10 * commands + 20,
            };
            Call::Run { trace: made.bytes, answer_bytes }
        }
        25..=64 => Call::Look { address: look_address(rng, hot) },
        _ => match single(rng, hot, mix) {
            Single::Command(command) => Call::Direct(command),
            Single::Unaligned(access) => Call::Unaligned(access),
            Single::Transfer(transfer) => Call::Transfer(transfer),
            Single::Frame(frame) => Call::Frame(frame),
            Single::Program(call) => Call::Program(call),
        },
    }
}

// ------------------------------------------------------------------ traces

/// The code of a command.
pub fn code(command: &Command) -> u8 {
    match command {
        Command::Read { .. } => 0,
        Command::Write { .. } => 1,
        Command::L2WritebackAll => 2,
        Command::L2WritebackInvalidateAll => 3,
        Command::L2BlockWriteback { .. } => 4,
        Command::L2BlockWritebackInvalidate { .. } => 5,
        Command::L2BlockInvalidate { .. } => 6,
        Command::L1dBlockWritebackInvalidate { .. } => 7,
        Command::L1dBlockInvalidate { .. } => 8,
        Command::L1dInvalidateAll => 9,
        Command::Mode { .. } => 10,
        Command::Mar { .. } => 11,
        Command::Freeze { .. } => 12,
    }
}

/// The numbers of a command, in the order of the trace.
pub fn numbers(command: &Command) -> Vec<u64> {
    match *command {
        Command::Read { size, address } => vec![size.into(), address.into()],
        Command::Write { size, address, value } => vec![size.into(), address.into(), value],
        Command::L2WritebackAll | Command::L2WritebackInvalidateAll | Command::L1dInvalidateAll => {
            vec![]
        }
        Command::L2BlockWriteback { base, count }
        | Command::L2BlockWritebackInvalidate { base, count }
        | Command::L2BlockInvalidate { base, count }
        | Command::L1dBlockWritebackInvalidate { base, count }
        | Command::L1dBlockInvalidate { base, count } => vec![base.into(), count.into()],
        Command::Mode { mode } => vec![mode.into()],
        Command::Mar { number, bit } => vec![number.into(), bit.into()],
        Command::Freeze { frozen } => vec![frozen.into()],
    }
}

/// "numbers in groups of seven bits, low group first, top bit set on all but
/// the last, shortest form only."
pub fn encode_number(mut value: u128, bytes: &mut Vec<u8>) {
    while value >= 0x80 {
        bytes.push(0x80 | (value & 0x7F) as u8);
        value >>= 7;
    }
    bytes.push(value as u8);
}

/// "A command is a code byte and numbers".
pub fn encode(command: &Command, bytes: &mut Vec<u8>) {
    bytes.push(code(command));
    for number in numbers(command) {
        encode_number(number.into(), bytes);
    }
}

/// What kind of trace it is.
#[derive(Clone, Copy, PartialEq, Eq, Debug)]
pub enum TraceKind {
    /// Whole commands only.
    Valid,
    /// The last command is cut off.
    CutOff,
    /// A command with an unknown code follows, then more.
    UnknownCode,
    /// A command with an overlong number follows, then more.
    Overlong,
    /// A command with a too wide number follows, then more.
    TooWide,
    /// A valid trace with one byte changed.
    ByteChanged,
    /// Random bytes.
    Noise,
}

/// All kinds of traces.
pub const TRACE_KINDS: [TraceKind; 7] = [
    TraceKind::Valid,
    TraceKind::CutOff,
    TraceKind::UnknownCode,
    TraceKind::Overlong,
    TraceKind::TooWide,
    TraceKind::ByteChanged,
    TraceKind::Noise,
];

/// A trace with what is known of it.
#[derive(Clone, Debug)]
pub struct MadeTrace {
    pub kind: TraceKind,
    pub bytes: Vec<u8>,
    /// The whole commands in front, and their length. Nothing is known of a
    /// changed or random trace; then there are none.
    pub commands: Vec<Command>,
    pub good_bytes: usize,
    /// The stop number with answer bytes for all, where it is known.
    pub stop: Option<u8>,
}

/// A random trace of `count` commands, and damage of this kind behind them.
pub fn trace(rng: &mut Rng, hot: &Hot, mix: &Mix, count: usize, kind: TraceKind) -> MadeTrace {
    let commands: Vec<Command> = (0..count).map(|_| command(rng, hot, mix)).collect();
    let mut bytes = Vec::new();
    for command in &commands {
        encode(command, &mut bytes);
    }
    let good_bytes = bytes.len();
    let mut made = MadeTrace { kind, bytes, commands, good_bytes, stop: Some(11) };
    match kind {
        TraceKind::Valid => made.stop = Some(0),
        TraceKind::CutOff => {
            let mut whole = Vec::new();
            encode(&command_with_numbers(rng, hot, mix), &mut whole);
            let kept = 1 + rng.below(whole.len() as u32 - 1) as usize;
            made.bytes.extend_from_slice(&whole[..kept]);
        }
        TraceKind::UnknownCode => {
            made.bytes.push(13 + rng.below(243) as u8);
            push_more(rng, hot, mix, &mut made.bytes);
        }
        TraceKind::Overlong => {
            let command = command_with_numbers(rng, hot, mix);
            let numbers = numbers(&command);
            let bad = rng.below(numbers.len() as u32) as usize;
            made.bytes.push(code(&command));
            for (place, &number) in numbers.iter().enumerate() {
                encode_number(number.into(), &mut made.bytes);
                if place == bad {
                    *made.bytes.last_mut().unwrap() |= 0x80;
                    for _ in 0..rng.pick(&[0, 0, 0, 1, 2, 8, 12]) {
                        made.bytes.push(0x80);
                    }
                    made.bytes.push(0);
                }
            }
            push_more(rng, hot, mix, &mut made.bytes);
        }
        TraceKind::TooWide => {
            let command = command_with_numbers(rng, hot, mix);
            let numbers = numbers(&command);
            let bad = rng.below(numbers.len() as u32) as usize;
            made.bytes.push(code(&command));
            for (place, &number) in numbers.iter().enumerate() {
                let is_value = matches!(command, Command::Write { .. }) && place == 2;
                let width = if is_value { 64 } else { 32 };
                let mut number = u128::from(number);
                if place == bad {
                    number += match rng.below(3) {
                        0 => 1u128 << width,
                        1 => (1 + u128::from(rng.next_u32())) << width,
                        _ => 1u128 << (width + rng.below(28)),
                    };
                }
                encode_number(number, &mut made.bytes);
            }
            push_more(rng, hot, mix, &mut made.bytes);
        }
        TraceKind::ByteChanged => {
            if !made.bytes.is_empty() {
                let place = rng.below(made.bytes.len() as u32) as usize;
                made.bytes[place] = rng.next_u32() as u8;
            }
            made.commands.clear();
            made.good_bytes = 0;
            made.stop = None;
        }
        TraceKind::Noise => {
            let length = rng.below(200) as usize;
            made.bytes.resize(length, 0);
            rng.fill(&mut made.bytes);
            for byte in made.bytes.iter_mut() {
                // Small bytes are codes and ends of numbers.
                if rng.chance(3, 4) {
                    *byte %= 16;
                }
            }
            made.commands.clear();
            made.good_bytes = 0;
            made.stop = None;
        }
    }
    made
}

/// A random command that has numbers.
fn command_with_numbers(rng: &mut Rng, hot: &Hot, mix: &Mix) -> Command {
    loop {
        let command = command(rng, hot, mix);
        if !numbers(&command).is_empty() {
            return command;
        }
    }
}

/// Whole commands behind the damage.
fn push_more(rng: &mut Rng, hot: &Hot, mix: &Mix, bytes: &mut Vec<u8>) {
    for _ in 0..rng.below(4) {
        encode(&command(rng, hot, mix), bytes);
    }
}

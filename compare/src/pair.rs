//! The boundary and the reference model side by side: a list of calls is made
//! on both, and after each call the answers, the records and the lent bytes
//! are compared.

use std::panic::{catch_unwind, AssertUnwindSafe};

use oracle::calls::{fresh_start, look, look_number};
use oracle::covered::Covered;
use oracle::dropped::History;
use oracle::fetches::FETCHED_BYTES;
use oracle::flat::Flat;
use oracle::frames::{place_of, FRAME_BYTES, LEAST_EXTERNAL};
use oracle::gen::{
    code, Fault, Frame, Setup, Transfer, FAULTS, LEGAL_MODES, LONGEST_BUFFER, RANGE_BYTES,
};
use oracle::geometry::{
    external_length_is_legal, l2_length_is_legal, sram_size, L1d, L1p, EXTERNAL_BASE, L1D_BYTES,
    L1P_BYTES, L2,
};
use oracle::machine::{SERVER_EXTERNAL, SERVER_L1D, SERVER_L2};
use oracle::short_runs;
use oracle::trace::{decode, ANSWER_BYTES};
use oracle::transfers::LONGEST_TRANSFER;
use oracle::wellformed::is_well_formed;
use oracle::written::Written;
use oracle::{
    Answer, Command, Direction, Fetched, Framed, Program, Record, Reply, RunResult, Unaligned,
};

use crate::boundary::{
    self, byte_difference, column_sums, dirty_line, dirty_marks, l1d_holds, l1d_is_dirty,
    l1p_holds, l1p_left_by_records, l1p_left_of, l2_holds, l2_is_dirty, left_by_records,
    padding_of, record_difference, record_of, report_of, same_record, Buffer, CAnswer, CFetched,
    CFramed, CLeft, CLine, CRecord, CReport, CRunNumber, CShortRun, FrameCalls, Held, Lent,
};
use crate::now;
use crate::plant;

/// A byte of C's record that stands for a bool, and a value put there.
#[derive(Clone, Copy, PartialEq, Eq, Debug)]
pub struct OddByte {
    pub place: OddPlace,
    pub value: u8,
}

#[derive(Clone, Copy, PartialEq, Eq, Debug)]
pub enum OddPlace {
    Mar128,
    Mar129,
    Frozen,
    L1dValid { set: usize, way: usize },
    L1dDirty { set: usize, way: usize },
    L2Valid { set: usize, way: usize },
    L2Dirty { set: usize, way: usize },
    L1pValid { set: usize },
    L1pDirty { set: usize },
}

/// Where a list of calls begins: a record with its memories, bytes of C's
/// record that are no bool, if there are any, and what stands in its padding.
#[derive(Clone, Debug)]
pub struct Start {
    pub setup: Setup,
    pub odd: Vec<OddByte>,
    /// The padding of the record before each call; see `padding_of`.
    pub padding: u64,
    /// From fresh, with nothing dropped unwritten: flat memory has to agree.
    pub flat: bool,
    /// From fresh, with lines dropped: each byte read keeps to its history.
    pub history: bool,
    /// Accesses are made a second time over other bytes, to see which of them move; transfers are
    /// made a second time in their parts, and frames by their calls.
    pub moves: bool,
}

/// One call, or a run with the same commands as single calls after it, or
/// another record put in place of the present one on both sides. The last two
/// name a short run by its number, and by its digits.
#[derive(Clone, PartialEq, Eq, Debug)]
pub enum Op {
    Fresh,
    Record(Box<Record>),
    Direct(Command),
    Unaligned(Unaligned),
    Transfer(Transfer),
    Frame(Frame),
    Program(Program),
    Run { trace: Vec<u8>, answer_bytes: usize },
    RunAndSingleCalls { trace: Vec<u8>, answer_bytes: usize },
    View { address: u32, buffer: usize },
    ShortRunOf(u32),
    ShortRunNumber(Vec<u8>),
}

/// The numbers that calls give back.
pub const NUMBERS: [usize; 20] =
    [0, 1, 2, 3, 4, 5, 6, 7, 8, 9, 10, 11, 12, 13, 14, 15, 17, 18, 19, 20];

/// What was met, to see that a comparison was worth running.
#[derive(Clone, Default, Debug)]
pub struct Met {
    /// Calls through the boundary.
    pub calls: u64,
    /// By number; those that no call gives back stay 0.
    pub numbers: [u64; 21],
    /// Commands that were written, and those refused with 11 and with 16.
    pub puts: [u64; 3],
    pub two_runs: TwoRuns,
    /// Loads that were made, and those refused with 1 and with 16.
    pub loads: [u64; 3],
    pub servers: [u64; 6],
    pub modes: [u64; 8],
    /// Accesses to each MAR range with the bit 0 and with the bit 1.
    pub ranges: [[u64; 2]; 2],
    pub odd: u64,
    pub views: u64,
    pub runs: u64,
    pub flat_reads: u64,
    /// Global writebacks after which external memory and SRAM were set against flat
    /// memory, by the mode, and runs that ended in one.
    pub flat_memories: [u64; 8],
    pub flat_runs: [u64; 8],
    /// Those of the former before which L1D held a dirty line of SRAM.
    pub flat_sram: [u64; 8],
    /// Dirty lines that left L1D with an L2 command and lay in no L2 line, by the
    /// code from 2 to 6: those of SRAM, and in mode 0 those of external memory.
    pub beside_l2: [[u64; 2]; 5],
    /// Calls that may change no byte of the record, padding included.
    pub untouched: u64,
    /// Global writebacks after which dirty lines were looked for.
    pub written_back: u64,
    /// Runs that took in more than 5,000 bytes.
    pub long_runs: u64,
    /// Short runs that were carried out.
    pub short_runs: u64,
    /// Bytes read along lists with drops, and those not the last one written.
    pub history_bytes: u64,
    pub older_bytes: u64,
    /// Lists by the length of external memory, see `count_external`.
    pub externals: [u64; 5],
    /// Records made, by fault and by mode; those of no legal mode stand last.
    pub faults: Faults,
    pub frozen: Frozen,
    pub counts: Counts,
    pub put_out: PutOut,
    pub unaligned: UnalignedMet,
    pub transfers: TransfersMet,
    pub frames: FramesMet,
    pub programs: ProgramsMet,
}

/// What fetches and invalidations of L1P met, and other calls while L1P held lines.
#[derive(Clone, Default, Debug)]
pub struct ProgramsMet {
    /// By their number: fetches, block and whole invalidations.
    pub numbers: [[u64; 21]; 3],
    /// Accepted fetches by their server, thawed and frozen; by the mode, with MAR bit 0 and 1; of SRAM.
    pub servers: [[u64; 6]; 2],
    pub modes: [[u64; 2]; 8],
    pub sram: u64,
    /// What L1P told, none, empty and clean; and L2, none, empty, clean and dirty.
    pub l1p: [u64; 3],
    pub l2: [u64; 4],
    /// Fetches of what L1D held dirty: served by SRAM, by L2, by external memory.
    pub beside_l1d: [u64; 3],
    /// Fetches that put out an L2 line which a half of L1D made dirty.
    pub halves: u64,
    /// 15 where 5 is due as well, and 4 where 7 is.
    pub several: [u64; 2],
    /// Refused by 5: across the end of SRAM, and of external memory.
    pub ends: [u64; 2],
    /// Lines that invalidations took, and those of a block that it left beside it.
    pub taken: [u64; 2],
    /// Lines of L1P that commands dropped, by the code from 3 to 6 and 10, frames last; those that a
    /// command's block held and that it left, since L2 did not hold them.
    pub dropped: [u64; 6],
    pub kept: [u64; 6],
    /// All four lines of an L2 line dropped at once.
    pub four: u64,
    /// Accepted writes to what L1P held, L2 lines put out with lines in L1P, transfers in over them.
    pub written: u64,
    pub put_out: u64,
    pub transfers: [u64; 2],
    /// 10 by a line of L1P alone.
    pub mar: u64,
    /// Refused with 1 by the length of L1P's buffer alone.
    pub lengths: u64,
    /// Bytes set against flat memory, those left out since they were written, of these others than
    /// flat memory's; fetches with bytes of both kinds; refused fetches.
    pub flat: [u64; 3],
    pub both: u64,
    pub flat_refused: u64,
    /// In lists with drops, and made over other bytes too.
    pub history: u64,
    pub moved: u64,
}

impl ProgramsMet {
    /// Whether everything came up that should.
    pub fn met_everything(&self) -> bool {
        let [fetch, block, all] = &self.numbers;
        let fetches = [0, 1, 2, 5, 15].map(|number| fetch[number]);
        let blocks = [0, 1, 2, 4, 7].map(|number| block[number]);
        let alls = [0, 1, 2].map(|number| all[number]);
        let servers = self.servers.iter().flat_map(|by| by[2..].to_vec());
        let modes = [0, 1, 2, 3, 7].map(|mode| self.modes[mode]);
        // Code 4 keeps them all.
        let dropped = [0, 2, 3, 4, 5].map(|by| self.dropped[by]);
        let many = fetches.into_iter().chain(blocks).chain(alls).chain(servers).chain(dropped);
        let told = self.l1p.iter().chain(&self.l2).chain(&self.beside_l1d).chain(&self.taken);
        let lists = self.flat.iter().chain([&self.both, &self.flat_refused, &self.history]);
        let others = [self.sram, self.halves, self.four, self.written, self.put_out, self.mar];
        many.chain(others).all(|count| count > 25)
            && told.chain(lists).chain(&self.several).all(|&count| count > 30)
            && self.transfers.iter().chain(&self.ends).all(|&count| count > 20)
            && self.kept[..4].iter().all(|&count| count > 20)
            && modes.iter().flatten().all(|&count| count > 10)
            && self.lengths > 20
            && self.moved > 100
            && self.dropped[1] == 0
    }

    /// A call of L1P, what it gave back, and the records before and after it.
    fn count(&mut self, call: &Program, called: &CFetched, passed: &CRecord, record: &CRecord) {
        let number = usize::from(called.answer.number) % 21;
        let address = match *call {
            Program::Fetch { address } => address,
            Program::InvalidateBlock { base, count } => {
                self.numbers[1][number] += 1;
                self.several[1] += u64::from(number == 4 && count > 65_535);
                let taken = lines_gone(passed, record).count() as u64;
                self.taken[0] += u64::from(number == 0 && taken > 0);
                let beside = |line: &CLine| line.address / 64 == base / 64;
                let mut stay =
                    record.l1p.iter().map(|set| &set.lines[0]).filter(|at| at.valid == 1);
                self.taken[1] += u64::from(number == 0 && taken > 0 && stay.any(beside));
                return;
            }
            Program::InvalidateAll => {
                self.numbers[2][number] += 1;
                return;
            }
        };
        self.numbers[0][number] += 1;
        let (sram, end) = (
            sram_size(passed.l2len, passed.mode.into()),
            EXTERNAL_BASE.wrapping_add(passed.extlen),
        );
        let outside = address >= sram && address < EXTERNAL_BASE || address >= end;
        self.several[0] += u64::from(number == 15 && outside);
        for (count, at) in self.ends.iter_mut().zip([sram, end]) {
            *count += u64::from(number == 5 && address == at);
        }
        if number != 0 {
            return;
        }
        let external = address >= EXTERNAL_BASE;
        let server = usize::from(called.answer.server) % 6;
        self.servers[usize::from(passed.frozen)][server] += 1;
        if external {
            let first = address < EXTERNAL_BASE + RANGE_BYTES;
            let mar = if first { passed.mar128 } else { passed.mar129 };
            self.modes[usize::from(passed.mode)][usize::from(mar)] += 1;
        }
        self.sram += u64::from(!external);
        self.l1p[usize::from(called.l1p_left.kind) % 3] += 1;
        let left = called.answer.l2_left;
        self.l2[usize::from(left.kind) % 4] += 1;
        if l1d_is_dirty(passed, L1d::line_address(address)) && (2..=4).contains(&server) {
            self.beside_l1d[server - 2] += 1;
        }
        self.halves += u64::from(left.kind == 3 && !l2_is_dirty(passed, left.address));
        self.put_out += u64::from(left.is_line() && holds_inside(passed, left.address));
    }

    /// What an accepted command did to L1P, or left there.
    fn count_command(&mut self, command: &Command, called: &CAnswer, passed: &CRecord) {
        match *command {
            Command::Write { address, .. } => self.written += u64::from(l1p_holds(passed, address)),
            Command::Read { .. } => {}
            _ => return,
        }
        let left = called.l2_left;
        self.put_out += u64::from(left.is_line() && holds_inside(passed, left.address));
    }

    /// What a command, by its code, or a frame, 13, took out of L1P.
    fn count_dropped(&mut self, code: usize, passed: &CRecord, record: &CRecord) {
        let place = match code {
            3..=6 => code - 3,
            10 => 4,
            13 => 5,
            _ => return,
        };
        let gone: Vec<u32> = lines_gone(passed, record).collect();
        self.dropped[place] += u64::from(!gone.is_empty());
        let held = |line: &CLine| line.valid == 1;
        let stay = record.l1p.iter().map(|set| &set.lines[0]).filter(|line| held(line));
        let beside_l2 =
            |line: &CLine| line.address >= EXTERNAL_BASE && !l2_holds(passed, line.address);
        self.kept[place] += u64::from(stay.filter(|line| beside_l2(line)).count() > 0);
        let whole = |line: &u32| [32, 64, 96].iter().all(|more| gone.contains(&(line + more)));
        self.four += u64::from(gone.iter().any(|line| line % L2::LINE == 0 && whole(line)));
    }
}

/// The lines that L1P held before and does not hold now.
fn lines_gone<'a>(passed: &'a CRecord, record: &'a CRecord) -> impl Iterator<Item = u32> + 'a {
    let were = passed.l1p.iter().map(|set| set.lines[0]);
    let pairs = were.zip(record.l1p.iter().map(|set| set.lines[0]));
    pairs.filter(|(was, now)| was.valid == 1 && now.valid == 0).map(|(was, _)| was.address)
}

/// Whether L1P holds a line inside this one of L2.
fn holds_inside(record: &CRecord, l2_line: u32) -> bool {
    (0..L2::LINE).step_by(L1p::LINE as usize).any(|place| l1p_holds(record, l2_line + place))
}

/// What frames met.
#[derive(Clone, Default, Debug)]
pub struct FramesMet {
    /// By their number.
    pub numbers: [u64; 21],
    /// Accepted ones by the mode, with MAR bit 0 and 1; thawed and frozen; by the place.
    pub modes: [[u64; 2]; 8],
    pub frozen: [u64; 2],
    pub places: [u64; 2],
    /// With a turn above 1: accepted and refused ones, in each case an even and an odd one.
    pub turns: [[u64; 2]; 2],
    /// Accepted ones over a line of the place that was clean in L1D, dirty there, clean in L2 and
    /// not in L1D, dirty in L2; with a dirty line of the other place.
    pub l1d_lines: [u64; 2],
    pub l2_lines: [u64; 2],
    pub other_place: u64,
    /// Those that put a line of other memory out of L1D, and of L2.
    pub put_out: [u64; 2],
    /// Refused by 20: no pixel, one less and one more than 3,072, as many in their last 16 bits, and
    /// a length that no buffer has.
    pub lengths: [u64; 5],
    /// Accepted with 6,144 bytes of external memory, refused by 19 with 6,016; 19 where 20 is due too.
    pub least: [u64; 2],
    pub several: u64,
    /// With the turn that the frame before gave back, that one being accepted, or refused.
    pub in_a_row: [u64; 2],
    /// Set against flat memory: accepted and refused ones; accepted over a dirty line of the place.
    pub flat: [u64; 2],
    pub flat_dirty: u64,
    /// Accepted in lists that flat memory has no part in; left out where bytes are set against their
    /// history.
    pub other_lists: u64,
    pub left_out: u64,
    /// Set against their calls.
    pub by_calls: u64,
}

impl FramesMet {
    /// Whether everything came up that should.
    pub fn met_everything(&self) -> bool {
        let numbers = [0, 1, 2, 19, 20].map(|number| self.numbers[number]);
        let modes = [0, 1, 2, 3, 7].map(|mode| self.modes[mode]);
        let lines = self.l1d_lines.iter().chain(&self.l2_lines).chain([&self.other_place]);
        let turns = self.turns.iter().flatten().chain(&self.frozen).chain(&self.places);
        let lists = self.flat.iter().chain([&self.flat_dirty, &self.other_lists, &self.left_out]);
        let rare = self.lengths.iter().chain(&self.least).chain([&self.several, &self.by_calls]);
        numbers.iter().chain(lines).chain(turns).all(|&count| count > 50)
            && lists.chain(&self.in_a_row).chain(&self.put_out).all(|&count| count > 30)
            && rare.into_iter().all(|&count| count > 10)
            && modes.iter().flatten().all(|&count| count > 3)
            && self.numbers.iter().sum::<u64>() == numbers.iter().sum::<u64>()
    }

    /// A frame, its number, the records before and after it, and what the last frame of the list
    /// gave back.
    fn count(
        &mut self,
        frame: &Frame,
        number: u8,
        passed: &CRecord,
        record: &CRecord,
        last: Option<CFramed>,
    ) {
        self.numbers[usize::from(number) % 21] += 1;
        let (accepted, odd) = (number == 0, frame.turn % 2);
        if frame.turn > 1 {
            self.turns[usize::from(!accepted)][usize::from(odd)] += 1;
        }
        let wrong = frame.length != FRAME_BYTES;
        if number == 19 {
            self.least[1] += u64::from(passed.extlen == LEAST_EXTERNAL - 128);
            self.several += u64::from(wrong);
        }
        if number == 20 {
            let lengths = [0, FRAME_BYTES - 1, FRAME_BYTES + 1];
            for (count, length) in self.lengths.iter_mut().zip(lengths) {
                *count += u64::from(frame.length == length);
            }
            self.lengths[3] += u64::from(frame.length as u16 == FRAME_BYTES as u16);
            self.lengths[4] += u64::from(frame.length > LONGEST_BUFFER);
        }
        if !accepted {
            return;
        }
        let mode = usize::from(passed.mode);
        self.modes[mode][usize::from(passed.mar128)] += 1;
        self.frozen[usize::from(passed.frozen)] += 1;
        self.places[usize::from(odd)] += 1;
        self.least[0] += u64::from(passed.extlen == LEAST_EXTERNAL);
        if let Some(last) = last.filter(|last| last.turn == frame.turn) {
            self.in_a_row[usize::from(last.number != 0)] += 1;
        }
        let lines = |turn| (place_of(turn)..).step_by(L1d::LINE as usize).take(FRAME_BYTES / 64);
        let [mut clean, mut dirty, mut clean_l2, mut dirty_l2] = [false; 4];
        for line in lines(frame.turn) {
            let (held, is_dirty) = (l1d_holds(passed, line), l1d_is_dirty(passed, line));
            (clean, dirty) = (clean || held && !is_dirty, dirty || is_dirty);
            let is_dirty = l2_is_dirty(passed, line);
            clean_l2 |= l2_holds(passed, line) && !is_dirty && !held;
            dirty_l2 |= is_dirty;
        }
        for (count, met) in self.l1d_lines.iter_mut().zip([clean, dirty]) {
            *count += u64::from(met);
        }
        for (count, met) in self.l2_lines.iter_mut().zip([clean_l2, dirty_l2]) {
            *count += u64::from(met);
        }
        let dirty_in_either = |line| l1d_is_dirty(passed, line) || l2_is_dirty(passed, line);
        self.other_place += u64::from(lines(1 - odd).any(dirty_in_either));
        let beside = |line: &CLine| {
            let offset = line.address.wrapping_sub(place_of(frame.turn));
            line.valid == 1 && offset >= FRAME_BYTES as u32
        };
        let mut l1d = passed.l1d.iter().flat_map(|set| &set.lines).filter(|line| beside(line));
        let mut l2 = passed.l2.iter().flat_map(|set| &set.lines).filter(|line| beside(line));
        self.put_out[0] += u64::from(l1d.any(|line| !l1d_holds(record, line.address)));
        self.put_out[1] += u64::from(l2.any(|line| !l2_holds(record, line.address)));
    }
}

/// What transfers met; pairs of counts are those out and in, but where something else is said.
#[derive(Clone, Default, Debug)]
pub struct TransfersMet {
    /// By their number.
    pub numbers: [[u64; 15]; 2],
    /// Accepted ones of SRAM and of external memory, by the mode.
    pub sram: [[u64; 8]; 2],
    pub external: [[u64; 8]; 2],
    /// Those of SRAM that touch a clean line of L1D, a dirty one, one that is dirty and reaches out
    /// of the transfer, none at all; with a dirty one in a frozen L1D.
    pub clean: [u64; 2],
    pub dirty: [u64; 2],
    pub in_part: [u64; 2],
    pub untouched: [u64; 2],
    pub frozen: [u64; 2],
    /// Those of external memory over a line that is clean in L1D, dirty there, clean in L2 and not
    /// in L1D, and dirty in L2.
    pub l1d_lines: [[u64; 2]; 2],
    pub l2_lines: [[u64; 2]; 2],
    /// With the MAR bit 0, with L1D frozen, and across both MAR ranges.
    pub past: [u64; 2],
    pub external_frozen: [u64; 2],
    pub ranges: [u64; 2],
    /// The longest that are accepted, of SRAM and of external memory.
    pub longest: [u64; 2],
    /// Refused by their length: 0, no multiple of 4, 262,144, and one that no buffer has.
    pub lengths: [u64; 4],
    /// Addresses 1, 2 and 3 behind a multiple of 4.
    pub misaligned: [u64; 3],
    /// Accepted ones that end with SRAM, and with external memory; those refused with 14 that end a
    /// word behind it.
    pub ends: [u64; 2],
    pub beyond: [u64; 2],
    /// 4 where 13 is due as well, and 13 where 14 is.
    pub several: [u64; 2],
    /// Set against flat memory: of SRAM, of external memory, and of a part of it that the CPU had
    /// accessed and both block writeback-invalidates had covered.
    pub flat_sram: [u64; 2],
    pub flat_external: [u64; 2],
    pub flat_covered: [u64; 2],
    /// External ones that were not made in a list, since flat memory or histories need not agree.
    pub left_out: u64,
    /// In lists with drops.
    pub history: [u64; 2],
    /// Set against a writeback and a move, of SRAM and of external memory.
    pub in_parts: [u64; 2],
}

impl TransfersMet {
    /// Whether everything came up that should.
    pub fn met_everything(&self) -> bool {
        let numbers =
            self.numbers.iter().flat_map(|by| [by[0], by[1], by[2], by[4], by[13], by[14]]);
        let modes = [0, 1, 2, 3, 7];
        let external = self.external.iter().flat_map(|by| modes.map(|mode| by[mode]));
        // Mode 7 leaves no SRAM.
        let sram = self.sram.iter().flat_map(|by| [0, 1, 2, 3].map(|mode| by[mode]));
        let lines =
            self.clean.iter().chain(&self.dirty).chain(&self.in_part).chain(&self.untouched);
        let held = self.l1d_lines.iter().chain(&self.l2_lines).flatten();
        let lists = self.flat_sram.iter().chain(&self.flat_external).chain(&self.flat_covered);
        let lists = lists.chain(&self.history).chain([&self.left_out]).chain(&self.frozen);
        let mut many = numbers.chain(external).chain(sram).chain(lines.copied());
        let mut some = held.chain(lists).chain(&self.past).chain(&self.misaligned);
        let mut few = self.several.iter().chain(&self.external_frozen).chain(&self.in_parts);
        let mut rare = self.lengths.iter().chain(&self.ends).chain(&self.beyond);
        let others = self.numbers.iter().flat_map(|by| &by[5..13]);
        many.all(|count| count > 50)
            && some.all(|&count| count > 50)
            && few.all(|&count| count > 20)
            && rare.all(|&count| count > 10)
            && self.ranges.iter().all(|&count| count > 10)
            && self.longest.iter().all(|&count| count > 0)
            // 3 and 5 to 12 are no number of theirs.
            && others.chain(self.numbers.iter().map(|by| &by[3])).all(|&count| count == 0)
    }

    /// A transfer, its number, and the record before it.
    fn count(&mut self, transfer: &Transfer, passed: &CRecord, number: u8) {
        let Transfer { address, length, .. } = *transfer;
        let by = usize::from(transfer.is_in());
        self.numbers[by][usize::from(number) % 15] += 1;
        let sram = sram_size(passed.l2len, passed.mode.into());
        let ends = [u64::from(sram), u64::from(EXTERNAL_BASE) + u64::from(passed.extlen)];
        let end = u64::from(address).saturating_add(length as u64);
        let wrong_length = length == 0 || length % 4 != 0 || length > LONGEST_TRANSFER;
        match number {
            4 => {
                self.misaligned[address as usize % 4 - 1] += 1;
                self.several[0] += u64::from(wrong_length);
            }
            13 => {
                self.lengths[0] += u64::from(length == 0);
                self.lengths[1] += u64::from(length % 4 != 0);
                self.lengths[2] += u64::from(length == LONGEST_TRANSFER + 4);
                self.lengths[3] += u64::from(length > LONGEST_BUFFER);
                self.several[1] += u64::from(!ends.iter().any(|&to| u64::from(address) < to));
            }
            14 => {
                for (count, to) in self.beyond.iter_mut().zip(ends) {
                    *count += u64::from(end == to + 4 && length > 4);
                }
            }
            0 => self.count_accepted(transfer, passed, ends),
            _ => {}
        }
    }

    fn count_accepted(&mut self, transfer: &Transfer, passed: &CRecord, ends: [u64; 2]) {
        let by = usize::from(transfer.is_in());
        let (first, length) = (transfer.address, transfer.length as u32);
        let end = first + length;
        let external = first >= EXTERNAL_BASE;
        let mode = usize::from(passed.mode);
        self.longest[usize::from(external)] += u64::from(transfer.length == LONGEST_TRANSFER);
        self.ends[usize::from(external)] +=
            u64::from(u64::from(end) == ends[usize::from(external)]);
        let lines = (L1d::line_address(first)..end).step_by(L1d::LINE as usize);
        let frozen = passed.frozen == 1;
        if external {
            self.external[by][mode] += 1;
            let [mut clean, mut dirty, mut clean_l2, mut dirty_l2] = [false; 4];
            for line in lines {
                let held = l1d_holds(passed, line);
                let is_dirty = l1d_is_dirty(passed, line);
                (clean, dirty) = (clean || held && !is_dirty, dirty || is_dirty);
                let is_dirty = l2_is_dirty(passed, line);
                clean_l2 |= l2_holds(passed, line) && !is_dirty && !held;
                dirty_l2 |= is_dirty;
            }
            for (count, met) in self.l1d_lines[by].iter_mut().zip([clean, dirty]) {
                *count += u64::from(met);
            }
            for (count, met) in self.l2_lines[by].iter_mut().zip([clean_l2, dirty_l2]) {
                *count += u64::from(met);
            }
            let border = EXTERNAL_BASE + RANGE_BYTES;
            let mar = if first < border { passed.mar128 } else { passed.mar129 };
            self.past[by] += u64::from(mar == 0);
            self.external_frozen[by] += u64::from(frozen && (clean || dirty));
            self.ranges[by] += u64::from(first < border && border < end);
            return;
        }
        self.sram[by][mode] += 1;
        let [mut clean, mut dirty, mut in_part] = [false; 3];
        for line in lines.filter(|&line| l1d_holds(passed, line)) {
            let is_dirty = l1d_is_dirty(passed, line);
            (clean, dirty) = (clean || !is_dirty, dirty || is_dirty);
            in_part |= is_dirty && (line < first || end < line + L1d::LINE);
        }
        self.clean[by] += u64::from(clean);
        self.dirty[by] += u64::from(dirty);
        self.in_part[by] += u64::from(in_part);
        self.untouched[by] += u64::from(!clean && !dirty);
        self.frozen[by] += u64::from(frozen && dirty);
    }
}

/// What non-aligned accesses met; pairs of counts are those of reads and of writes, but where
/// something else is said.
#[derive(Clone, Default, Debug)]
pub struct UnalignedMet {
    /// By their number, and accepted ones by their server and by their size, 4 or 8.
    pub numbers: [[u64; 7]; 2],
    pub servers: [[u64; 5]; 2],
    pub sizes: [[u64; 2]; 2],
    /// Accepted ones at a multiple of their size.
    pub aligned: [u64; 2],
    /// Across two lines of L1D, and of L2 where there is one, that the caches may hold.
    pub l1d_lines: [u64; 2],
    pub l2_lines: [u64; 2],
    /// Of the former, those of which L1D held the first line alone, and the second alone.
    pub first_held: [u64; 2],
    pub second_held: [u64; 2],
    /// Across two lines while L1D was frozen.
    pub frozen: [u64; 2],
    /// 256 bytes read and as many written.
    pub bound: [u64; 2],
    /// Past the caches, and across the two MAR ranges with one bit of each kind.
    pub past: [u64; 2],
    pub ranges: [u64; 2],
    /// Sizes 1 and 2, refused with 3 where an access of that size would pass.
    pub short: [u64; 2],
    /// Refused with 5: across the end of SRAM, across 80000000h, across the end of external
    /// memory, across FFFFFFFFh.
    pub ends: [u64; 4],
    /// Set against flat memory, and bytes against their history, of which not the last one
    /// written.
    pub flat: [u64; 2],
    pub history_bytes: u64,
    pub older_bytes: u64,
    /// Set against single-byte calls, and those that would leave another record from the
    /// highest address down.
    pub single: [u64; 2],
    pub direction: u64,
}

impl UnalignedMet {
    /// Whether everything came up that should.
    pub fn met_everything(&self) -> bool {
        let numbers = self.numbers.iter().flat_map(|by| [by[0], by[1], by[2], by[3], by[5]]);
        let servers = self.servers.iter().flat_map(|by| by[1..].to_vec());
        let lines = self.l1d_lines.iter().chain(&self.l2_lines).chain(&self.first_held);
        let lines = lines.chain(&self.second_held).chain(&self.frozen).copied();
        let plain = self.aligned.iter().chain(self.sizes.iter().flatten()).chain(&self.flat);
        let mut many = numbers.chain(servers).chain(lines).chain(plain.copied());
        let few = self.past.iter().chain(&self.short).chain(&self.single).chain(&self.ends);
        let rare = self.ranges.iter().chain([&self.direction]);
        many.all(|count| count > 100)
            && few.into_iter().all(|&count| count > 50)
            && self.bound.iter().all(|&count| count > 30)
            && rare.into_iter().all(|&count| count > 5)
            // A read has no value that is too wide, and 4 is no number of theirs.
            && (self.numbers[0][6], self.numbers[1][6] > 100) == (0, true)
            && self.numbers.iter().all(|by| by[4] == 0)
            && self.history_bytes > 2_000
            && self.older_bytes > 50
    }

    /// An access, what it answered, and the record before it.
    fn count(&mut self, access: &Unaligned, passed: &CRecord, called: &CAnswer) {
        let by = usize::from(access.is_write());
        let (size, address) = (access.size(), access.address());
        self.numbers[by][usize::from(called.number) % 7] += 1;
        // Of no bytes the one at the address.
        let last = u64::from(address) + u64::from(size.max(1)) - 1;
        let across = |end: u64| u64::from(address) < end && end <= last;
        let (base, extlen) = (u64::from(EXTERNAL_BASE), u64::from(passed.extlen));
        if called.number == 5 {
            let sram = sram_size(passed.l2len, passed.mode.into());
            let ends = [u64::from(sram), base, base + extlen, 1 << 32];
            for (count, end) in self.ends.iter_mut().zip(ends) {
                *count += u64::from(across(end));
            }
        }
        let in_memory = address >= EXTERNAL_BASE && last < base + extlen;
        let short = matches!(size, 1 | 2) && address % size == 0;
        self.short[by] += u64::from(called.number == 3 && short && in_memory);
        if called.number != 0 {
            return;
        }
        let last = last as u32;
        self.servers[by][usize::from(called.server) % 5] += 1;
        self.sizes[by][usize::from(size == 8)] += 1;
        self.aligned[by] += u64::from(address % size == 0);
        let may_hold = |address: u32| match address {
            0..EXTERNAL_BASE => true,
            _ if address < EXTERNAL_BASE + RANGE_BYTES => passed.mar128 == 1,
            _ => passed.mar129 == 1,
        };
        let two_lines = L1d::line_address(address) != L1d::line_address(last);
        match (may_hold(address), may_hold(last)) {
            (false, false) => self.past[by] += 1,
            (true, true) if two_lines => {
                self.l1d_lines[by] += 1;
                let two_l2_lines = L2::line_address(address) != L2::line_address(last);
                let with_l2 = passed.mode != 0 && address >= EXTERNAL_BASE;
                self.l2_lines[by] += u64::from(two_l2_lines && with_l2);
                self.frozen[by] += u64::from(passed.frozen == 1);
                match (l1d_holds(passed, address), l1d_holds(passed, last)) {
                    (true, false) => self.first_held[by] += 1,
                    (false, true) => self.second_held[by] += 1,
                    _ => {}
                }
            }
            (true, true) => {}
            _ => self.ranges[by] += 1,
        }
        let counts = (called.external_read, called.external_written);
        self.bound[by] += u64::from(counts == (256, 256));
    }
}

/// What accesses reported.
#[derive(Clone, Default, Debug)]
pub struct PutOut {
    /// Reports of calls that were compared.
    pub reports: u64,
    /// What L1D told of accepted accesses to what may be cached, by kind, in mode 0 and in
    /// the others; and L2, in the others, of reads, of reads of a frozen L1D, of writes.
    pub l1d: [[u64; 4]; 2],
    pub l2: [[u64; 4]; 3],
    /// Lines of SRAM that left L1D, clean and dirty.
    pub sram: [u64; 2],
    /// L2 lines told dirty that were clean before: by the lower half in L1D, by the upper
    /// one, by both; and those whose half the same read put out of L1D.
    pub by_half: [u64; 3],
    pub by_own: u64,
    /// Bytes moved: a line of 64 alone, with one that went out, a line of 128 alone, with
    /// one that went out.
    pub lines: [u64; 4],
    /// An access's own bytes by size: read past the caches and by a frozen L1D in mode 0,
    /// written past the caches and in mode 0.
    pub own_bytes: [[u64; 4]; 4],
    /// Calls that were refused, and that were accepted and are no access, with dirty lines
    /// in the record.
    pub silent: [u64; 2],
    /// Accesses that were made over other bytes too.
    pub moved: u64,
}

impl PutOut {
    /// Whether everything came up that should.
    pub fn met_everything(&self) -> bool {
        let lines = self.l1d.iter().chain(&self.l2).flatten().chain(&self.sram);
        let halves = self.by_half.iter().chain([&self.by_own]);
        let bytes = self.lines.iter().chain(self.own_bytes.iter().flatten()).chain(&self.silent);
        lines.chain(bytes).all(|&count| count > 100)
            && halves.into_iter().all(|&count| count > 50)
            && self.moved > 300
            && self.reports > 100_000
    }

    /// An accepted access, its report and the record before it.
    fn count(&mut self, command: &Command, passed: &CRecord, report: &CReport) {
        let (size, address, write) = match *command {
            Command::Read { size, address } => (size, address, false),
            Command::Write { size, address, .. } => (size, address, true),
            _ => return,
        };
        let mar = if address < EXTERNAL_BASE + RANGE_BYTES { passed.mar128 } else { passed.mar129 };
        let past = address >= EXTERNAL_BASE && mar == 0;
        let frozen = passed.frozen == 1;
        let CReport { l1d_left, l2_left, read, written } = *report;
        if !past {
            self.l1d[usize::from(passed.mode != 0)][usize::from(l1d_left.kind) % 4] += 1;
        }
        if !past && passed.mode != 0 {
            let by = if write { 2 } else { usize::from(frozen) };
            self.l2[by][usize::from(l2_left.kind) % 4] += 1;
        }
        if l1d_left.is_line() && l1d_left.address < EXTERNAL_BASE {
            self.sram[usize::from(l1d_left.kind == 3)] += 1;
        }
        let line = passed.l2.iter().flat_map(|set| &set.lines);
        let mut was = line.filter(|line| line.valid == 1 && line.address == l2_left.address);
        if l2_left.kind == 3 && was.next().is_some_and(|line| line.dirty == 0) {
            let halves = [l2_left.address, l2_left.address + L1d::LINE];
            let [lower, upper] = halves.map(|half| l1d_is_dirty(passed, half));
            self.by_half[if lower && upper { 2 } else { usize::from(upper) }] += 1;
            self.by_own += u64::from(L2::line_address(l1d_left.address) == l2_left.address);
        }
        match (read, written) {
            (64, 0) => self.lines[0] += 1,
            (64, 64) => self.lines[1] += 1,
            (128, 0) => self.lines[2] += 1,
            (128, 128) => self.lines[3] += 1,
            (0, 0) => {}
            _ => {
                let by = 2 * usize::from(write) + usize::from(!past);
                self.own_bytes[by][size.trailing_zeros() as usize] += 1;
            }
        }
    }
}

/// Records made, by fault and by mode.
#[derive(Clone, Debug)]
pub struct Faults([[u64; 6]; FAULTS.len()]);

impl Default for Faults {
    fn default() -> Faults {
        Faults([[0; 6]; FAULTS.len()])
    }
}

/// What calls did to the counts of dirty lines, by the code: the one of L1D went up or
/// down, the one of L2 went up or down.
#[derive(Clone, Default, Debug)]
pub struct Counts {
    pub l1d_up: [u64; 13],
    pub l1d_down: [u64; 13],
    pub l2_up: [u64; 13],
    pub l2_down: [u64; 13],
    /// Writes to a line that was dirty already, in L1D and in L2.
    pub again: [u64; 2],
    /// The largest counts.
    pub most: [u32; 2],
    /// Records after which the lines were counted.
    pub counted: u64,
}

impl Counts {
    /// Whether everything came up that should: a line becomes dirty in L1D by a write, in
    /// L2 by a write and by a line that comes out of L1D; what sends lines home or drops
    /// them, and an access for which one leaves, counts down.
    pub fn met_everything(&self) -> bool {
        let met = |counts: &[u64; 13], codes: &[usize]| codes.iter().all(|&code| counts[code] > 50);
        met(&self.l1d_up, &[1])
            && met(&self.l1d_down, &[0, 1, 2, 3, 4, 5, 6, 7, 8, 9, 10])
            && met(&self.l2_up, &[0, 1, 7])
            && met(&self.l2_down, &[0, 2, 3, 4, 5, 6, 10])
            && self.again.iter().all(|&count| count > 200)
            && self.most[0] > 200
            && self.most[1] > 1_000
            && self.counted > 10_000
    }
}

/// What was met while L1D was frozen.
#[derive(Clone, Default, Debug)]
pub struct Frozen {
    /// Read hits and write hits on the way that was not used last: thawed they would
    /// have changed the order.
    pub hits: u64,
    pub write_hits: u64,
    /// Of these, writes to a clean line, which becomes dirty.
    pub dirtied: u64,
    /// Read misses that SRAM, an L2 line that was there, external memory by way of
    /// L2, and external memory in mode 0 served.
    pub misses: [u64; 4],
    /// Of all misses those for which thawed a dirty line would have left L1D.
    pub spared: u64,
    /// Read misses for which an L2 line left that had halves in L1D, and a dirty one.
    pub halves: u64,
    pub dirty_halves: u64,
    /// Write misses by the same servers.
    pub write_misses: [u64; 4],
    /// Accepted mode changes, and fresh starts, of a frozen L1D.
    pub modes: u64,
    pub fresh: u64,
    /// Records refused with 2 whose number here is neither 0 nor 1.
    pub refused: u64,
    /// Freezes in runs that were accepted and that were answered with 17, and those
    /// that were written.
    pub run: u64,
    pub run_refused: u64,
    pub puts: u64,
}

impl Frozen {
    /// Whether everything came up that should.
    pub fn met_everything(&self) -> bool {
        let hits = [self.hits, self.write_hits, self.dirtied, self.spared];
        let halves = [self.halves, self.dirty_halves];
        let others = [self.modes, self.fresh, self.refused, self.run, self.run_refused, self.puts];
        let misses = self.misses.iter().chain(&self.write_misses).copied();
        hits.into_iter().chain(misses).all(|count| count > 200)
            && halves.into_iter().chain(others).all(|count| count > 50)
    }
}

/// What was met in two runs of one list.
#[derive(Clone, Default, Debug)]
pub struct TwoRuns {
    /// Pairs of calls of runs that differ in data, and in one byte.
    pub data: u64,
    pub one_byte: u64,
    /// Answers, and valid lines after a call, that do differ in that byte.
    pub parted: u64,
    pub held: u64,
    /// Pairs of commands by their code, by their number, and by the mode after them.
    pub codes: [u64; 13],
    pub numbers: [u64; 18],
    /// Accepted reads and writes of a frozen L1D by their server.
    pub frozen: [u64; 5],
    pub modes: [u64; 8],
    /// What L1D and L2 told, by kind.
    pub left: [[u64; 4]; 2],
    /// Accepted non-aligned reads and writes, and those that answer the byte.
    pub unaligned: [u64; 2],
    pub unaligned_parted: u64,
    /// Accepted transfers out and in, and buffers that have the byte.
    pub transfers: [u64; 2],
    pub transfers_parted: u64,
    /// Accepted frames of runs that differ in data, and in one byte; those over the byte.
    pub frames: [u64; 2],
    pub frames_over: u64,
    /// Accepted fetches of runs that differ in data, and in one byte; those that answer the byte.
    pub fetches: [u64; 2],
    pub fetches_parted: u64,
}

impl TwoRuns {
    /// Whether everything came up that should.
    pub fn met_everything(&self) -> bool {
        let counts = [self.data, self.one_byte, self.parted, self.held];
        let modes = LEGAL_MODES.iter().map(|&mode| self.modes[mode as usize]);
        counts.into_iter().chain(modes).all(|count| count > 100)
            && self.codes.iter().all(|&count| count > 20)
            // 11 to 16 are no number of a single call.
            && (0..=10).chain([17]).all(|number| self.numbers[number] > 20)
            && self.frozen[1..].iter().all(|&count| count > 60)
            && self.left.iter().flatten().all(|&count| count > 10)
            && self.unaligned.iter().all(|&count| count > 100)
            && self.unaligned_parted > 5
            && self.transfers.iter().all(|&count| count > 100)
            && self.transfers_parted > 5
            && self.frames.iter().all(|&count| count > 10)
            && self.frames_over > 3
            && self.fetches.iter().all(|&count| count > 100)
            && self.fetches_parted > 5
    }
}

impl Met {
    /// A list over external memory of this length: up to 786,432 bytes, less
    /// than all of MAR 128's range, just that, up to 17,301,504, or more.
    pub fn count_external(&mut self, e: u32) {
        let class = match e {
            0..=786_432 => 0,
            786_433..RANGE_BYTES => 1,
            RANGE_BYTES => 2,
            RANGE_BYTES..=17_301_504 => 3,
            _ => 4,
        };
        self.externals[class] += 1;
    }

    /// A record with this fault was made, and has this mode now.
    pub fn count_fault(&mut self, fault: Fault, mode: u32) {
        let fault = FAULTS.iter().position(|&other| other == fault).expect("one of all faults");
        let column = LEGAL_MODES.iter().position(|&legal| legal == mode);
        self.faults.0[fault][column.unwrap_or(LEGAL_MODES.len())] += 1;
    }

    /// The faults and modes that go together, and how often they were met
    /// together; the mode 255 stands for all that are no legal mode.
    pub fn possible_faults(&self) -> Vec<(Fault, u32, u64)> {
        let mut found = Vec::new();
        for (fault, met) in FAULTS.into_iter().zip(self.faults.0) {
            for (mode, count) in LEGAL_MODES.into_iter().chain([255]).zip(met) {
                let possible = match mode {
                    255 => fault == Fault::IllegalMode,
                    _ => fault.can_stand_in(mode),
                };
                if possible {
                    found.push((fault, mode, count));
                }
            }
        }
        found
    }
}

/// What differs. A case that is made smaller keeps its kind.
#[derive(Clone, Copy, PartialEq, Eq, Debug)]
pub enum Kind {
    Number,
    Server,
    Value,
    /// Whose turn it is after a frame.
    Turn,
    /// What a run took in, and how many answers it gave.
    Counts,
    Record,
    /// A dirty line after a global writeback.
    Dirty,
    /// A count of dirty lines that is not that of the record's own lines.
    Miscounted,
    /// What a way told, and how many bytes of external memory were moved.
    Left,
    Moved,
    Bytes,
    /// A sentence about dropped lines, by its place in the request.
    Sentence(u8),
    Panic,
}

/// What is wrong after a call.
#[derive(Clone, Debug)]
pub struct Wrong {
    kind: Kind,
    what: String,
}

/// A difference, and the call after which it was seen; it is the number of all
/// calls if that was at the end.
#[derive(Clone, Debug)]
pub struct Difference {
    pub op: usize,
    pub kind: Kind,
    pub what: String,
}

/// Memories up to this length are compared whole after every call. Of longer
/// ones the lines that a call names are, and all of it now and then.
pub const SMALL: usize = 1 << 20;

/// Every so many calls a long memory is compared whole.
const WHOLE_EVERY: usize = 256;

/// What an access over other bytes left behind, and its value.
struct Moved {
    l1d: Vec<u8>,
    l2: Vec<u8>,
    ext: Vec<u8>,
    l1p: Vec<u8>,
    value: u64,
    bytes: [u8; FETCHED_BYTES],
}

/// A copy of our side.
#[derive(Clone)]
pub struct Ours {
    pub record: Box<Held>,
    pub l1d: Vec<u8>,
    pub l2: Vec<u8>,
    pub ext: Vec<u8>,
    pub l1p: Vec<u8>,
}

impl Ours {
    pub fn lent(&mut self) -> (&mut CRecord, Lent<'_>) {
        (
            &mut self.record,
            Lent { l1d: &mut self.l1d, l2: &mut self.l2, ext: &mut self.ext, l1p: &mut self.l1p },
        )
    }
}

/// What a non-aligned access answers by the answers of its single bytes, in the order of
/// their addresses: the value little-endian, the highest server, the counts added up.
fn summed(bytes: &[CAnswer]) -> CAnswer {
    let mut told = CAnswer::refused(0);
    for (place, byte) in bytes.iter().enumerate() {
        told.number = told.number.max(byte.number);
        told.value |= byte.value << (8 * place);
        told.server = told.server.max(byte.server);
        told.external_read += byte.external_read;
        told.external_written += byte.external_written;
    }
    told
}

/// In how many bytes two memories differ.
fn others(ours: &[u8], theirs: &[u8]) -> u32 {
    ours.iter().zip(theirs).filter(|(ours, theirs)| ours != theirs).count() as u32
}

/// Both sides.
struct Pair<'a> {
    record: Box<Held>,
    /// The record as it was passed to the present call.
    passed: Box<CRecord>,
    padding: Box<CRecord>,
    l1d: Vec<u8>,
    l2: Vec<u8>,
    ext: Vec<u8>,
    l1p: Vec<u8>,
    theirs: Setup,
    odd: bool,
    flat: Option<Flat>,
    /// Beside flat memory: which external transfers it agrees with.
    covered: Option<Covered>,
    /// And with which bytes of a fetch.
    written: Option<Written>,
    history: Option<History>,
    moves: bool,
    /// What the last frame gave back.
    framed: Option<CFramed>,
    met: &'a mut Met,
}

/// Makes the calls on both sides; the first difference, if there is one. A
/// panic is a difference too.
pub fn compare(start: &Start, ops: &[Op], met: &mut Met) -> Option<Difference> {
    let mut op = 0;
    let (kind, what) = match catch_unwind(AssertUnwindSafe(|| make(start, ops, met, &mut op))) {
        Ok(Ok(())) => return None,
        Ok(Err(wrong)) => (wrong.kind, wrong.what),
        Err(_) => (Kind::Panic, now::last_panic()),
    };
    Some(Difference { op, kind, what })
}

/// Makes the calls; `reached` is the number of the present one, and that of
/// all of them at the end.
fn make(start: &Start, ops: &[Op], met: &mut Met, reached: &mut usize) -> Result<(), Wrong> {
    let mut record = record_of(&start.setup.record);
    for odd in &start.odd {
        *odd_byte(&mut record, odd.place) = odd.value;
    }
    let mut pair = Pair {
        record: Held::new(&record),
        passed: record,
        padding: padding_of(start.padding),
        l1d: start.setup.l1d.clone(),
        l2: start.setup.l2.clone(),
        ext: start.setup.ext.clone(),
        l1p: start.setup.l1p.clone(),
        theirs: start.setup.clone(),
        odd: start.odd.iter().any(|odd| odd.value > 1),
        flat: start.flat.then(|| Flat::fresh(start.setup.record.l, &start.setup.ext)),
        covered: start.flat.then(|| Covered::fresh(start.setup.record.e)),
        written: start.flat.then(Written::fresh),
        history: start.history.then(|| History::fresh(&start.setup)),
        moves: start.moves,
        framed: None,
        met,
    };
    for (op, call) in ops.iter().enumerate() {
        *reached = op;
        pair.step(call)?;
        let whole = op % WHOLE_EVERY == WHOLE_EVERY - 1 || op + 1 == ops.len();
        pair.memories(call, whole)?;
    }
    *reached = ops.len();
    pair.end()
}

/// The byte at a place.
pub fn odd_byte(record: &mut CRecord, place: OddPlace) -> &mut u8 {
    match place {
        OddPlace::Mar128 => &mut record.mar128,
        OddPlace::Mar129 => &mut record.mar129,
        OddPlace::Frozen => &mut record.frozen,
        OddPlace::L1dValid { set, way } => &mut record.l1d[set].lines[way].valid,
        OddPlace::L1dDirty { set, way } => &mut record.l1d[set].lines[way].dirty,
        OddPlace::L2Valid { set, way } => &mut record.l2[set].lines[way].valid,
        OddPlace::L2Dirty { set, way } => &mut record.l2[set].lines[way].dirty,
        OddPlace::L1pValid { set } => &mut record.l1p[set].lines[0].valid,
        OddPlace::L1pDirty { set } => &mut record.l1p[set].lines[0].dirty,
    }
}

fn expect<T: PartialEq + std::fmt::Debug>(
    kind: Kind,
    name: &str,
    ours: T,
    theirs: T,
) -> Result<(), Wrong> {
    if ours == theirs {
        Ok(())
    } else {
        Err(Wrong { kind, what: format!("{name} is {ours:?}, expected {theirs:?}") })
    }
}

/// The kind is that of the first field that differs.
fn expect_answer(name: &str, ours: Answer, theirs: Answer) -> Result<(), Wrong> {
    let kind = if ours.number != theirs.number {
        Kind::Number
    } else if ours.server != theirs.server {
        Kind::Server
    } else {
        Kind::Value
    };
    expect(kind, name, ours, theirs)
}

/// "neither exceeds 128 for one access"; of a non-aligned one, "The bound on external bytes
/// becomes 256 each way." (02, U6)
const BOUND: u32 = 128;
const UNALIGNED_BOUND: u32 = 256;

/// Neither count is above the bound, which is asked of the answer alone.
fn expect_bound(name: &str, bound: u32, ours: &CReport) -> Result<(), Wrong> {
    if ours.read <= bound && ours.written <= bound {
        return Ok(());
    }
    let what = format!("{name} has a count above {bound}: {ours:?}");
    Err(Wrong { kind: Kind::Moved, what })
}

/// What is reported beside number, server and value.
fn expect_report(name: &str, ours: CReport, theirs: CReport) -> Result<(), Wrong> {
    expect_report_within(BOUND, name, ours, theirs)
}

fn expect_report_within(
    bound: u32,
    name: &str,
    ours: CReport,
    theirs: CReport,
) -> Result<(), Wrong> {
    expect_bound(name, bound, &ours)?;
    let left = (ours.l1d_left, ours.l2_left) != (theirs.l1d_left, theirs.l2_left);
    expect(if left { Kind::Left } else { Kind::Moved }, name, ours, theirs)
}

/// The address of an accepted access.
fn accessed(command: &Command, number: u8) -> Option<u32> {
    match *command {
        Command::Read { address, .. } | Command::Write { address, .. } if number == 0 => {
            Some(address)
        }
        _ => None,
    }
}

/// The lines that a call tells are those that the records before and after it tell. This
/// asks the records alone, and not the reference model.
fn expect_left_by_records(
    name: &str,
    command: &Command,
    called: &CAnswer,
    passed: &CRecord,
    record: &CRecord,
) -> Result<(), Wrong> {
    let address = accessed(command, called.number);
    let mut theirs = address
        .map_or((CLeft::NONE, CLeft::NONE), |address| left_by_records(passed, record, address));
    plant::left_by_records(&mut theirs);
    let name = format!("{name}, by the records, of L1D and L2");
    expect(Kind::Left, &name, (called.l1d_left, called.l2_left), theirs)
}

fn expect_run(ours: RunResult, theirs: RunResult) -> Result<(), Wrong> {
    let kind = if ours.stop != theirs.stop { Kind::Number } else { Kind::Counts };
    expect(kind, "run", ours, theirs)
}

fn expect_bytes(name: &str, ours: &[u8], theirs: &[u8]) -> Result<(), Wrong> {
    if ours == theirs {
        return Ok(());
    }
    let differ = || ours.iter().zip(theirs).filter(|(ours, theirs)| ours != theirs).count();
    let what = match first_difference(ours, theirs) {
        Some(place) => format!(
            "{name} byte {place} ({place:#x}) is {:#04x}, expected {:#04x}; {} bytes differ",
            ours[place],
            theirs[place],
            differ()
        ),
        None => format!("{name} has {} bytes, expected {}", ours.len(), theirs.len()),
    };
    Err(Wrong { kind: Kind::Bytes, what })
}

/// The answers of a run: the kind goes by the first byte that differs.
fn expect_answers(ours: &[u8], theirs: &[u8], count: usize) -> Result<(), Wrong> {
    expect_bytes("answers", ours, theirs).map_err(|wrong| {
        let kind = match first_difference(ours, theirs) {
            Some(place) if place >= count * ANSWER_BYTES => Kind::Bytes,
            Some(place) if place % ANSWER_BYTES == 0 => Kind::Number,
            Some(place) if place % ANSWER_BYTES == 1 => Kind::Server,
            _ => Kind::Value,
        };
        Wrong { kind, ..wrong }
    })
}

/// No byte of the record is another than it was, padding included.
fn expect_untouched(name: &str, ours: &CRecord, passed: &CRecord) -> Result<(), Wrong> {
    if ours.bytes() == passed.bytes() {
        return Ok(());
    }
    let what = format!("{name}: {}", byte_difference(ours, passed));
    Err(Wrong { kind: Kind::Record, what })
}

/// After a global writeback everything that was written is where it is at home, in
/// every mode: no line is dirty in L1D, none in L2. This asks the record alone, and
/// not the reference model.
fn expect_nothing_dirty(name: &str, ours: &CRecord) -> Result<(), Wrong> {
    match dirty_line(ours) {
        Some(line) => {
            let what = format!("{name}: after a global writeback {line} is dirty");
            Err(Wrong { kind: Kind::Dirty, what })
        }
        None => Ok(()),
    }
}

/// After an accepted call both counts are those of the dirty lines. This too asks the
/// record alone.
fn expect_counted(name: &str, ours: &CRecord) -> Result<(), Wrong> {
    let (l1d, l2) = dirty_marks(ours);
    for (cache, count, marks) in [("L1D", ours.dirty_l1d, l1d), ("L2", ours.dirty_l2, l2)] {
        if count != marks {
            let what =
                format!("{name}: {count} dirty lines of {cache} are counted, {marks} are dirty");
            return Err(Wrong { kind: Kind::Miscounted, what });
        }
    }
    Ok(())
}

/// Whether this was an accepted global L2 writeback.
fn is_global(command: &Command, answer: &Answer) -> bool {
    let global = matches!(command, Command::L2WritebackAll | Command::L2WritebackInvalidateAll);
    global && answer.number == 0
}

/// After a global writeback external memory and SRAM are flat memory's, byte for
/// byte. How much of L2 is SRAM goes by flat memory.
fn expect_settled(name: &str, l2: &[u8], ext: &[u8], flat: &Flat) -> Result<(), Wrong> {
    expect_bytes(&format!("external memory{name}, by flat memory,"), ext, &flat.ext)?;
    let sram = &l2[..flat.sram.len()];
    expect_bytes(&format!("SRAM{name}, by flat memory,"), sram, &flat.sram)
}

fn answer_of(called: &CAnswer) -> Answer {
    Answer { number: called.number, server: called.server, value: called.value }
}

/// The answer that stands in these ten bytes.
fn answer_in(bytes: &[u8]) -> Answer {
    let value = u64::from_le_bytes(bytes[2..].try_into().expect("eight bytes"));
    Answer { number: bytes[0], server: bytes[1], value }
}

/// The commands of a run that were answered, with their answers.
fn carried_out(trace: &[u8], answers: &[u8], count: usize) -> Vec<(Command, Answer)> {
    let mut place = 0;
    let answers = answers.chunks(ANSWER_BYTES).take(count);
    answers
        .map(|answer| {
            let (command, length) = decode(&trace[place..]).expect("a whole command");
            place += length;
            (command, answer_in(answer))
        })
        .collect()
}

fn first_difference(ours: &[u8], theirs: &[u8]) -> Option<usize> {
    ours.iter().zip(theirs).position(|(ours, theirs)| ours != theirs)
}

impl Pair<'_> {
    /// What is lent to a call. Calls leave in the padding what they like, so it
    /// is filled again before each of them.
    fn lent(&mut self) -> (&mut CRecord, Lent<'_>) {
        self.record.pad_like(&self.padding);
        *self.passed = **self.record;
        (
            &mut self.record,
            Lent { l1d: &mut self.l1d, l2: &mut self.l2, ext: &mut self.ext, l1p: &mut self.l1p },
        )
    }

    /// The number that a record with a byte that is no bool gets: 1 if a lent
    /// length is illegal or unlike the record's, else 2. `with_l1d` is false
    /// for the technician's call, which is lent neither L1D nor L1P.
    fn odd_number(&self, with_l1d: bool) -> u8 {
        let l1d_fits = !with_l1d || self.l1d.len() == L1D_BYTES && self.l1p.len() == L1P_BYTES;
        let l2_fits = l2_length_is_legal(self.l2.len() as u64)
            && self.l2.len() as u64 == u64::from(self.record.l2len);
        let ext_fits = external_length_is_legal(self.ext.len() as u64)
            && self.ext.len() as u64 == u64::from(self.record.extlen);
        if l1d_fits && l2_fits && ext_fits {
            2
        } else {
            1
        }
    }

    fn step(&mut self, op: &Op) -> Result<(), Wrong> {
        match op {
            Op::Fresh => self.fresh(),
            Op::Record(record) => {
                **self.record = *record_of(record);
                self.theirs.record = record.clone();
                self.odd = false;
                Ok(())
            }
            Op::Direct(command) => self.direct(command),
            Op::Unaligned(access) => self.unaligned(access),
            Op::Transfer(transfer) => self.transfer(transfer),
            Op::Frame(frame) => self.frame(frame),
            Op::Program(call) => self.program(call),
            Op::Run { trace, answer_bytes } => self.run(trace, *answer_bytes).map(|_| ()),
            Op::RunAndSingleCalls { trace, answer_bytes } => {
                self.run_and_single_calls(trace, *answer_bytes)
            }
            Op::View { address, buffer } => self.view(*address, *buffer),
            Op::ShortRunOf(number) => self.short_run_of(*number),
            Op::ShortRunNumber(digits) => self.short_run_number(digits),
        }
    }

    fn fresh(&mut self) -> Result<(), Wrong> {
        let (record, number) = {
            let Setup { l1d, l2, ext, l1p, .. } = &mut self.theirs;
            fresh_start(l1d, l2, ext, l1p)
        };
        let stood = self.l1p.clone();
        let (ours, lent) = self.lent();
        let mut called = boundary::fresh(ours, lent);
        plant::fresh(&mut called, &mut self.record, &self.passed, &mut self.l1p, &stood);
        self.met.frozen.fresh += u64::from(self.passed.frozen == 1 && number == 0);
        self.met.calls += 1;
        self.met.numbers[number as usize] += 1;
        expect_answer("answer of a fresh start", answer_of(&called), Answer::refused(number))?;
        expect_report("report of a fresh start", called.report(), CReport::NONE)?;
        if !same_record(&self.record, &record) {
            let difference = record_difference(&self.record, &record_of(&record));
            let what = format!("record of a fresh start: {difference}");
            return Err(Wrong { kind: Kind::Record, what });
        }
        // A refused one too leaves the record that the paper names.
        self.theirs.record = record;
        self.odd = false;
        if self.flat.is_some() {
            self.flat = Some(Flat::fresh(self.theirs.record.l, &self.theirs.ext));
            self.covered = Some(Covered::fresh(self.theirs.record.e));
            self.written = Some(Written::fresh());
        }
        if self.history.is_some() {
            self.history = Some(History::fresh(&self.theirs));
        }
        Ok(())
    }

    fn direct(&mut self, command: &Command) -> Result<(), Wrong> {
        let Reply { answer: theirs, report } = if self.odd {
            Reply::refused(self.odd_number(true))
        } else {
            self.theirs.reply(command)
        };
        let is_access = accessed(command, theirs.number).is_some();
        let moved = self.moved(is_access, |record, lent| boundary::direct(record, command, lent));
        let before = plant::before(command, &self.l2, &self.ext);
        let (record, lent) = self.lent();
        let mut called = boundary::direct(record, command, lent);
        let lent =
            Lent { l1d: &mut self.l1d, l2: &mut self.l2, ext: &mut self.ext, l1p: &mut self.l1p };
        plant::direct(command, &mut called, &mut self.record, &self.passed, lent, before);
        self.count(command, &theirs);
        let ours = answer_of(&called);
        expect_answer("answer", ours, theirs)?;
        expect_report("report", called.report(), report_of(&report))?;
        self.count_put_out(command, &called);
        self.count_l1p(command, &called);
        self.count_beside_l2(command);
        self.count_frozen(command, &theirs);
        self.count_dirty(command, &theirs);
        if is_global(command, &ours) {
            expect_nothing_dirty("record", &self.record)?;
            self.met.written_back += 1;
        }
        self.expect_record(theirs.number == 0)?;
        expect_left_by_records("report", command, &called, &self.passed, &self.record)?;
        if let Some(over) = moved {
            let written = match command {
                Command::Write { size, .. } => *size,
                _ => 0,
            };
            self.expect_moved(written, &called, &over)?;
        }
        self.history(command, &ours)?;
        self.flat(command, &ours)
    }

    /// What a command met in L1P.
    fn count_l1p(&mut self, command: &Command, called: &CAnswer) {
        let (passed, met) = (&self.passed, &mut self.met.programs);
        if called.number == 10 {
            let l1d = passed.l1d.iter().flat_map(|set| &set.lines);
            let others = l1d.chain(passed.l2.iter().flat_map(|set| &set.lines));
            let Command::Mar { number, .. } = *command else { return };
            let of_range = |line: &CLine| line.valid == 1 && line.address >> 24 == number;
            met.mar += u64::from(!others.into_iter().any(of_range));
        }
        if called.number == 1 && !self.odd {
            let Setup { record, l1d, l2, ext, .. } = &self.theirs;
            let fits = l1d.len() == L1D_BYTES
                && (l2.len(), ext.len()) == (record.l as usize, record.e as usize)
                && l2_length_is_legal(u64::from(record.l))
                && external_length_is_legal(u64::from(record.e));
            met.lengths += u64::from(fits);
        }
        if called.number == 0 {
            met.count_command(command, called, passed);
            met.count_dropped(usize::from(code(command)), passed, &self.record);
        }
    }

    /// A fetch, or an invalidation of L1P (02, U4).
    fn program(&mut self, call: &Program) -> Result<(), Wrong> {
        let theirs = if self.odd {
            Fetched::refused(self.odd_number(true))
        } else {
            self.theirs.program(call)
        };
        let Reply { answer, report } = theirs.reply;
        let accepted = answer.number == 0;
        let is_fetch = matches!(call, Program::Fetch { .. });
        let moved = self.moved_fetch(accepted && is_fetch, call);
        let copy = plant::wants_copy().then(|| self.ours());
        let (record, lent) = self.lent();
        let mut called = boundary::program(record, call, lent);
        let lent =
            Lent { l1d: &mut self.l1d, l2: &mut self.l2, ext: &mut self.ext, l1p: &mut self.l1p };
        plant::program(call, &mut called, &mut self.record, &self.passed, lent, copy.as_ref());
        self.met.calls += 1;
        self.met.numbers[usize::from(answer.number)] += 1;
        self.met.servers[usize::from(answer.server)] += 1;
        self.met.odd += u64::from(self.odd);
        if accepted {
            self.met.modes[self.theirs.record.mode as usize] += 1;
        }
        let ours = answer_of(&called.answer);
        expect_answer("answer", ours, answer)?;
        expect_report("report", called.answer.report(), report_of(&report))?;
        expect(Kind::Left, "report of L1P", called.l1p_left, l1p_left_of(&theirs))?;
        expect_bytes("fetched", &called.bytes, &theirs.bytes)?;
        self.met.programs.count(call, &called, &self.passed, &self.record);
        self.met.frozen.refused += u64::from(self.passed.frozen > 1 && answer.number == 2);
        self.expect_record(accepted)?;
        self.expect_fetched_by_records(call, &called)?;
        if let Some(over) = moved {
            self.expect_moved_fetch(&called, &over)?;
        }
        if let (Some(history), true) = (&mut self.history, accepted) {
            history.program(call, true);
            self.met.programs.history += u64::from(is_fetch);
        }
        self.program_flat(call, &called)
    }

    /// What a fetch tells of the ways that it chose is what the records before and after it tell.
    /// This asks the records alone, and not the reference model.
    fn expect_fetched_by_records(&self, call: &Program, called: &CFetched) -> Result<(), Wrong> {
        let (mut l2, mut l1p) = (CLeft::NONE, CLeft::NONE);
        if let (Program::Fetch { address }, 0) = (*call, called.answer.number) {
            l2 = left_by_records(&self.passed, &self.record, address).1;
            l1p = l1p_left_by_records(&self.passed, &self.record, address);
        }
        plant::fetched_by_records(&mut l1p);
        let ours = (called.answer.l1d_left, called.answer.l2_left, called.l1p_left);
        let name = "report, by the records, of L1D, L2 and L1P";
        expect(Kind::Left, name, ours, (CLeft::NONE, l2, l1p))
    }

    /// A fetch that will be accepted, made over an external memory each byte of which is another.
    fn moved_fetch(&mut self, is_fetch: bool, call: &Program) -> Option<Moved> {
        if !self.moves || !is_fetch {
            return None;
        }
        let mut other = self.ours();
        other.ext.iter_mut().for_each(|byte| *byte = !*byte);
        let (record, lent) = other.lent();
        let bytes = boundary::program(record, call, lent).bytes;
        self.met.calls += 1;
        let Ours { l1d, l2, ext, l1p, .. } = other;
        Some(Moved { l1d, l2, ext, l1p, value: 0, bytes })
    }

    /// The counts of a fetch, seen from outside: a byte of L1P, of L2 or of its 32 that is another
    /// was read; one of external memory that is the same was written.
    fn expect_moved_fetch(&mut self, called: &CFetched, over: &Moved) -> Result<(), Wrong> {
        let l1p = others(&self.l1p, &over.l1p);
        let read = l1p.max(others(&self.l2, &over.l2)).max(others(&called.bytes, &over.bytes));
        let mut theirs = (read, self.ext.len() as u32 - others(&self.ext, &over.ext));
        plant::moved_fetch(&mut theirs);
        self.met.programs.moved += 1;
        let ours = (called.answer.external_read, called.answer.external_written);
        expect(Kind::Moved, "bytes of a fetch read and written, by the bytes,", ours, theirs)?;
        expect_bytes("L1D, over other bytes,", &over.l1d, &self.l1d)
    }

    /// "an accepted fetch gives flat memory's bytes wherever none of its 32 was written" (02, U4),
    /// each byte asked for itself; and a refused one gets flat memory's number.
    fn program_flat(&mut self, call: &Program, called: &CFetched) -> Result<(), Wrong> {
        let (Some(flat), Some(covered), Some(written)) =
            (&mut self.flat, &mut self.covered, &self.written)
        else {
            return Ok(());
        };
        let Program::Fetch { address } = *call else { return Ok(()) };
        let (mut number, mut bytes) = flat.fetch(address);
        plant::fetch_flat(&mut number, &mut bytes);
        expect(Kind::Number, "number, by flat memory,", called.answer.number, number)?;
        let met = &mut self.met.programs;
        if number != 0 {
            met.flat_refused += 1;
            return Ok(());
        }
        if !plant::unfetched() {
            covered.fetch(address, true);
        }
        let mut kinds = [false; 2];
        for (place, (ours, theirs)) in called.bytes.iter().zip(bytes).enumerate() {
            let was_written = plant::was_written(written.was(address + place as u32));
            kinds[usize::from(was_written)] = true;
            met.flat[usize::from(was_written)] += 1;
            met.flat[2] += u64::from(was_written && *ours != theirs);
            if !was_written {
                let name = format!("byte {place} of a fetch, by flat memory,");
                expect(Kind::Value, &name, *ours, theirs)?;
            }
        }
        met.both += u64::from(kinds == [true; 2]);
        Ok(())
    }

    /// A non-aligned access (02, U6).
    fn unaligned(&mut self, access: &Unaligned) -> Result<(), Wrong> {
        let Reply { answer: theirs, report } = if self.odd {
            Reply::refused(self.odd_number(true))
        } else {
            self.theirs.unaligned(access)
        };
        let accepted = theirs.number == 0;
        let moved = self.moved(accepted, |record, lent| boundary::unaligned(record, access, lent));
        let copy = (self.moves && accepted || plant::wants_copy()).then(|| self.ours());
        let (record, lent) = self.lent();
        let mut called = boundary::unaligned(record, access, lent);
        let lent =
            Lent { l1d: &mut self.l1d, l2: &mut self.l2, ext: &mut self.ext, l1p: &mut self.l1p };
        plant::unaligned(access, &mut called, &mut self.record, &self.passed, lent, copy.clone());
        self.met.calls += 1;
        self.met.numbers[usize::from(theirs.number)] += 1;
        self.met.servers[usize::from(theirs.server)] += 1;
        self.met.odd += u64::from(self.odd);
        if accepted {
            self.met.modes[self.theirs.record.mode as usize] += 1;
        }
        let ours = answer_of(&called);
        expect_answer("answer", ours, theirs)?;
        expect_report_within(UNALIGNED_BOUND, "report", called.report(), report_of(&report))?;
        self.met.unaligned.count(access, &self.passed, &called);
        self.met.frozen.refused += u64::from(self.passed.frozen > 1 && theirs.number == 2);
        self.expect_record(accepted)?;
        if let Some(over) = moved {
            // The bytes that go over some that were fetched for them.
            let bytes = (0..access.size()).map(|byte| access.address() + byte);
            let fetched = bytes.filter(|&address| !l2_holds(&self.passed, address)).count();
            let written = if access.is_write() { fetched as u32 } else { 0 };
            self.expect_moved(written, &called, &over)?;
        }
        if let (true, true, Some(copy)) = (self.moves, accepted, copy) {
            self.expect_single_bytes(access, &called, copy)?;
        }
        self.unaligned_history(access, &ours)?;
        self.unaligned_flat(access, &ours)
    }

    /// A transfer (02, U1).
    fn transfer(&mut self, transfer: &Transfer) -> Result<(), Wrong> {
        if !self.joins(transfer) {
            self.met.transfers.left_out += 1;
            return Ok(());
        }
        let mut buffer = Buffer::of(transfer);
        let (Reply { answer: theirs, report }, bytes) = if self.odd {
            (Reply::refused(self.odd_number(true)), buffer.bytes().to_vec())
        } else {
            self.theirs.transfer(transfer)
        };
        let expected = buffer.with(&bytes);
        let accepted = theirs.number == 0;
        let copy = (self.moves && accepted || plant::wants_copy()).then(|| self.ours());
        let (record, lent) = self.lent();
        let mut called = boundary::transfer(record, transfer, &mut buffer, lent);
        let lent =
            Lent { l1d: &mut self.l1d, l2: &mut self.l2, ext: &mut self.ext, l1p: &mut self.l1p };
        let (ours, passed) = (&mut self.record, &self.passed);
        plant::transfer(transfer, &mut called, ours, passed, lent, &mut buffer, copy.as_ref());
        self.met.calls += 1;
        self.met.numbers[usize::from(theirs.number)] += 1;
        self.met.servers[usize::from(theirs.server)] += 1;
        self.met.odd += u64::from(self.odd);
        if accepted {
            self.met.modes[self.theirs.record.mode as usize] += 1;
        }
        expect_answer("answer", answer_of(&called), theirs)?;
        expect_report("report", called.report(), report_of(&report))?;
        self.met.transfers.count(transfer, &self.passed, theirs.number);
        if accepted && transfer.is_in() {
            let first = L1p::line_address(transfer.address);
            let lines = (first..transfer.address + transfer.length as u32).step_by(32);
            let held = lines.into_iter().any(|line| l1p_holds(&self.passed, line));
            let external = transfer.address >= EXTERNAL_BASE;
            self.met.programs.transfers[usize::from(external)] += u64::from(held);
        }
        self.met.frozen.refused += u64::from(self.passed.frozen > 1 && theirs.number == 2);
        expect_bytes("buffer, with 64 bytes before it,", buffer.whole(), expected.whole())?;
        self.expect_record(accepted)?;
        if let (true, true, Some(copy)) = (self.moves, accepted, copy) {
            self.expect_in_parts(transfer, &buffer, copy)?;
        }
        self.transfer_history(transfer, &buffer, &answer_of(&called));
        self.transfer_flat(transfer, &buffer, called.number)
    }

    /// A frame (02, U14).
    fn frame(&mut self, frame: &Frame) -> Result<(), Wrong> {
        // "Frames hold an external transfer and are left out of these lists", but those refused.
        if let Some(history) = &self.history {
            if history.flat.frame_number(frame.length) == 0 {
                self.met.frames.left_out += 1;
                return Ok(());
            }
        }
        let mut pixels = Buffer::of_frame(frame);
        let expected = pixels.clone();
        let theirs = if self.odd {
            Framed::refused(self.odd_number(true), frame.turn)
        } else {
            self.theirs.frame(frame)
        };
        let accepted = theirs.number == 0;
        let copy = (self.moves && accepted || plant::wants_copy()).then(|| self.ours());
        let (record, lent) = self.lent();
        let mut called = boundary::frame(record, frame, &mut pixels, lent);
        let lent =
            Lent { l1d: &mut self.l1d, l2: &mut self.l2, ext: &mut self.ext, l1p: &mut self.l1p };
        let (ours, passed) = (&mut self.record, &self.passed);
        plant::frame(frame, &mut called, ours, passed, lent, &mut pixels, copy.as_ref());
        self.met.calls += 1;
        self.met.numbers[usize::from(theirs.number)] += 1;
        self.met.odd += u64::from(self.odd);
        if accepted {
            self.met.modes[self.theirs.record.mode as usize] += 1;
        }
        expect(Kind::Number, "number of a frame", called.number, theirs.number)?;
        expect(Kind::Turn, "turn after a frame", called.turn, theirs.turn)?;
        expect(Kind::Value, "sums", called.sums, theirs.sums)?;
        let last = self.framed.replace(called);
        self.met.frames.count(frame, theirs.number, &self.passed, &self.record, last);
        self.met.frozen.refused += u64::from(self.passed.frozen > 1 && theirs.number == 2);
        expect_bytes("pixels, with 64 bytes before them,", pixels.whole(), expected.whole())?;
        self.expect_record(accepted)?;
        if accepted {
            self.met.programs.count_dropped(13, &self.passed, &self.record);
        }
        // "the sums of each accepted frame are those of the camera's pixels": asked of them alone.
        if accepted {
            let mut sums = column_sums(pixels.bytes());
            plant::pixel_sums(&mut sums);
            expect(Kind::Value, "sums, by the pixels,", called.sums, sums)?;
            self.met.frames.other_lists += u64::from(self.flat.is_none());
        }
        if let (true, true, Some(copy)) = (self.moves, accepted, copy) {
            self.expect_by_calls(frame, &called, pixels.bytes(), copy)?;
        }
        self.frame_flat(frame, &called)
    }

    /// A frame is the two commands over its place, the transfer and the reads. These are made on a
    /// copy of what was there before. This asks the library itself, and not the reference model.
    fn expect_by_calls(
        &mut self,
        frame: &Frame,
        called: &CFramed,
        pixels: &[u8],
        mut copy: Ours,
    ) -> Result<(), Wrong> {
        let (record, lent) = copy.lent();
        let mut read = FrameCalls::of(frame).make(record, pixels, lent);
        plant::by_calls(&mut read);
        self.met.calls += 4;
        expect(Kind::Value, "sums, by its calls,", called.sums, column_sums(&read))?;
        if **self.record != **copy.record {
            let difference = record_difference(&self.record, &copy.record);
            let what = format!("record, by its calls: {difference}");
            return Err(Wrong { kind: Kind::Record, what });
        }
        expect_bytes("L1D, by its calls,", &self.l1d, &copy.l1d)?;
        expect_bytes("L2, by its calls,", &self.l2, &copy.l2)?;
        expect_bytes("external memory, by its calls,", &self.ext, &copy.ext)?;
        expect_bytes("L1P, by its calls,", &self.l1p, &copy.l1p)?;
        self.met.frames.by_calls += 1;
        Ok(())
    }

    /// Frames join the lists that are set against flat memory as the calls they are made of.
    fn frame_flat(&mut self, frame: &Frame, ours: &CFramed) -> Result<(), Wrong> {
        let (Some(flat), Some(covered)) = (&mut self.flat, &mut self.covered) else {
            return Ok(());
        };
        let (number, turn, sums) = match frame.pixels() {
            Some(pixels) => flat.frame(frame.turn, &pixels),
            None => (flat.frame_number(frame.length), frame.turn & 1, [0; 64]),
        };
        let mut theirs = CFramed { number, turn, sums };
        plant::frame_flat(frame, flat, &mut theirs);
        expect(Kind::Number, "number of a frame, by flat memory,", ours.number, theirs.number)?;
        expect(Kind::Turn, "turn after a frame, by flat memory,", ours.turn, theirs.turn)?;
        expect(Kind::Value, "sums, by flat memory,", ours.sums, theirs.sums)?;
        if number != 0 || !plant::unread(frame, covered) {
            covered.frame(frame.turn, number == 0);
        }
        if let Some(written) = &mut self.written {
            written.frame(frame.turn, number == 0);
        }
        let met = &mut self.met.frames;
        met.flat[usize::from(number != 0)] += 1;
        if number == 0 {
            let lines = (place_of(frame.turn)..).step_by(L1d::LINE as usize);
            let mut lines = lines.take(FRAME_BYTES / L1d::LINE as usize);
            let passed = &self.passed;
            let dirty = lines.any(|line| l1d_is_dirty(passed, line) || l2_is_dirty(passed, line));
            met.flat_dirty += u64::from(dirty);
        }
        Ok(())
    }

    /// Whether a transfer is made in this list: external ones that are accepted are "left out" of
    /// those with drops (02, U13), and flat memory agrees with those that are covered (02, U1).
    fn joins(&mut self, transfer: &Transfer) -> bool {
        let Transfer { address, length, .. } = *transfer;
        if let Some(history) = &mut self.history {
            let accepted = history.flat.transfer_number(address, length) == 0;
            return !accepted || address < EXTERNAL_BASE;
        }
        let (Some(flat), Some(covered)) = (&mut self.flat, &self.covered) else { return true };
        let accepted = flat.transfer_number(address, length) == 0;
        !accepted || plant::joins(covered.joins(address, length))
    }

    /// Of SRAM a transfer is an L1D block writeback-invalidate over as many words, and then a move
    /// of bytes; of external memory it is the move alone. These are made on a copy of what was there
    /// before. This asks the library itself, and not the reference model.
    fn expect_in_parts(
        &mut self,
        transfer: &Transfer,
        buffer: &Buffer,
        mut copy: Ours,
    ) -> Result<(), Wrong> {
        let (base, external) = (transfer.address, transfer.address >= EXTERNAL_BASE);
        if !external {
            let count = transfer.length as u32 / 4;
            let command = Command::L1dBlockWritebackInvalidate { base, count };
            let (record, lent) = copy.lent();
            boundary::direct(record, &command, lent);
            self.met.calls += 1;
        }
        let from = (base % EXTERNAL_BASE) as usize;
        let memory = if external { &mut copy.ext } else { &mut copy.l2 };
        let stretch = &mut memory[from..from + transfer.length];
        if transfer.is_in() {
            stretch.copy_from_slice(buffer.bytes());
        }
        plant::in_parts(stretch);
        expect_bytes("buffer, by its parts,", buffer.bytes(), stretch)?;
        if **self.record != **copy.record {
            let difference = record_difference(&self.record, &copy.record);
            let what = format!("record, by its parts: {difference}");
            return Err(Wrong { kind: Kind::Record, what });
        }
        expect_bytes("L1D, by its parts,", &self.l1d, &copy.l1d)?;
        expect_bytes("L2, by its parts,", &self.l2, &copy.l2)?;
        expect_bytes("external memory, by its parts,", &self.ext, &copy.ext)?;
        expect_bytes("L1P, by its parts,", &self.l1p, &copy.l1p)?;
        self.met.transfers.in_parts[usize::from(external)] += 1;
        Ok(())
    }

    /// What is known of the bytes after a transfer in a list with drops: "a SRAM transfer in writes
    /// too" (02, U13), and either direction sends lines home. One that is refused does nothing.
    fn transfer_history(&mut self, transfer: &Transfer, buffer: &Buffer, ours: &Answer) {
        let Some(history) = &mut self.history else { return };
        if ours.number != 0 {
            return;
        }
        let address = transfer.address;
        match transfer.direction {
            Direction::In => {
                history.transfer_in(address, buffer.bytes(), ours);
                plant::transfer_history(address, buffer.bytes(), history);
            }
            Direction::Out => history.transfer_out(address, transfer.length, ours),
        }
        self.met.transfers.history[usize::from(transfer.is_in())] += 1;
    }

    /// "SRAM transfers join the lists compared with flat memory, which moves the same bytes; an out
    /// transfer's buffer is compared too." (02, U1)
    fn transfer_flat(
        &mut self,
        transfer: &Transfer,
        buffer: &Buffer,
        ours: u8,
    ) -> Result<(), Wrong> {
        let (Some(flat), Some(covered)) = (&mut self.flat, &self.covered) else { return Ok(()) };
        let Transfer { address, length, .. } = *transfer;
        let given = transfer.buffer();
        let mut bytes = given.clone().unwrap_or_default();
        let mut number = match transfer.direction {
            _ if given.is_none() => flat.transfer_number(address, length),
            Direction::In => flat.transfer_in(address, &bytes),
            Direction::Out => flat.transfer_out(address, &mut bytes),
        };
        plant::transfer_flat(transfer, flat, &mut number, &mut bytes);
        if let (Some(written), Direction::In) = (&mut self.written, transfer.direction) {
            written.transfer_in(address, length, number == 0);
        }
        expect(Kind::Number, "number, by flat memory,", ours, number)?;
        expect_bytes("buffer, by flat memory,", buffer.bytes(), &bytes)?;
        let by = usize::from(transfer.is_in());
        let met = &mut self.met.transfers;
        match (number, address) {
            (0, 0..EXTERNAL_BASE) => met.flat_sram[by] += 1,
            (0, _) => {
                met.flat_external[by] += 1;
                met.flat_covered[by] += u64::from(covered.was_accessed(address, length));
            }
            _ => {}
        }
        Ok(())
    }

    /// Our side as it stands.
    fn ours(&self) -> Ours {
        Ours {
            record: self.record.clone(),
            l1d: self.l1d.clone(),
            l2: self.l2.clone(),
            ext: self.ext.clone(),
            l1p: self.l1p.clone(),
        }
    }

    /// "each done as single-byte accesses from the lowest address up": these calls, on a copy
    /// of what was there before. This asks the library itself, and not the reference model.
    fn expect_single_bytes(
        &mut self,
        access: &Unaligned,
        called: &CAnswer,
        mut copy: Ours,
    ) -> Result<(), Wrong> {
        let mut down = copy.clone();
        let (record, lent) = copy.lent();
        let mut told = summed(&boundary::by_bytes(record, access, lent, false));
        plant::summed(&mut told);
        let (ours, theirs) = (answer_of(called), answer_of(&told));
        expect_answer("answer, by single bytes,", ours, theirs)?;
        let (ours, theirs) = (called.report(), told.report());
        expect(Kind::Moved, "report, by single bytes,", ours, theirs)?;
        if **self.record != **copy.record {
            let difference = record_difference(&self.record, &copy.record);
            let what = format!("record, by single bytes: {difference}");
            return Err(Wrong { kind: Kind::Record, what });
        }
        expect_bytes("L1D, by single bytes,", &self.l1d, &copy.l1d)?;
        expect_bytes("L2, by single bytes,", &self.l2, &copy.l2)?;
        expect_bytes("external memory, by single bytes,", &self.ext, &copy.ext)?;
        expect_bytes("L1P, by single bytes,", &self.l1p, &copy.l1p)?;
        let (record, lent) = down.lent();
        boundary::by_bytes(record, access, lent, true);
        let met = &mut self.met.unaligned;
        met.direction += u64::from(**self.record != **down.record);
        met.single[usize::from(access.is_write())] += 1;
        self.met.calls += u64::from(2 * access.size());
        Ok(())
    }

    /// What the sentences about dropped lines say of a non-aligned access's answer.
    fn unaligned_history(&mut self, access: &Unaligned, ours: &Answer) -> Result<(), Wrong> {
        let Some(history) = &mut self.history else { return Ok(()) };
        let mut seen = *ours;
        plant::unaligned_history(access, &mut seen);
        let read = history.unaligned(access, &seen).map_err(|broken| Wrong {
            kind: Kind::Sentence(broken.sentence),
            what: format!("dropped lines, sentence {}: {}", broken.sentence, broken.what),
        })?;
        self.met.history_bytes += read.bytes;
        self.met.older_bytes += read.older;
        self.met.unaligned.history_bytes += read.bytes;
        self.met.unaligned.older_bytes += read.older;
        Ok(())
    }

    /// "Lists with these accesses keep agreeing with flat memory."
    fn unaligned_flat(&mut self, access: &Unaligned, ours: &Answer) -> Result<(), Wrong> {
        let Some(flat) = &mut self.flat else { return Ok(()) };
        if let Some(covered) = &mut self.covered {
            covered.unaligned(access, ours.number == 0);
        }
        if let Some(written) = &mut self.written {
            written.unaligned(access, ours.number == 0);
        }
        let (mut number, mut value) = flat.apply_unaligned(access);
        plant::unaligned_flat(access, flat, &mut number, &mut value);
        expect(Kind::Number, "number, by flat memory,", ours.number, number)?;
        expect(Kind::Value, "value, by flat memory,", ours.value, value)?;
        self.met.flat_reads += 1;
        self.met.unaligned.flat[usize::from(access.is_write())] += 1;
        Ok(())
    }

    /// An access that will be accepted, made over an external memory each byte of which is
    /// another: what it leaves behind, and the value.
    fn moved(
        &mut self,
        is_access: bool,
        call: impl FnOnce(&mut CRecord, Lent) -> CAnswer,
    ) -> Option<Moved> {
        if !self.moves || !is_access {
            return None;
        }
        let mut record = self.record.clone();
        let (mut l1d, mut l2, mut l1p) = (self.l1d.clone(), self.l2.clone(), self.l1p.clone());
        let mut ext: Vec<u8> = self.ext.iter().map(|byte| !byte).collect();
        let lent = Lent { l1d: &mut l1d, l2: &mut l2, ext: &mut ext, l1p: &mut l1p };
        let value = call(&mut record, lent).value;
        self.met.calls += 1;
        Some(Moved { l1d, l2, ext, l1p, value, bytes: [0; FETCHED_BYTES] })
    }

    /// "These counts equal the bytes moved", seen from outside: a byte of external memory that
    /// is the same afterwards was written; one of L1D, of L2 or of the value that is another
    /// was read. A write that has a line fetched goes over as many of its bytes itself as it
    /// has there.
    fn expect_moved(&mut self, size: u32, called: &CAnswer, over: &Moved) -> Result<(), Wrong> {
        let l1d = others(&self.l1d, &over.l1d);
        let mut l2 = others(&self.l2, &over.l2);
        let value = others(&called.value.to_le_bytes(), &over.value.to_le_bytes());
        if l2 > 0 {
            l2 += size;
        }
        let written = self.ext.len() as u32 - others(&self.ext, &over.ext);
        let mut theirs = (l1d.max(l2).max(value), written);
        plant::moved(&mut theirs);
        self.met.put_out.moved += 1;
        let ours = (called.external_read, called.external_written);
        expect(Kind::Moved, "bytes read and written, by the bytes,", ours, theirs)
    }

    /// What a call reported.
    fn count_put_out(&mut self, command: &Command, called: &CAnswer) {
        let (passed, put_out) = (&self.passed, &mut self.met.put_out);
        put_out.reports += 1;
        if accessed(command, called.number).is_some() {
            put_out.count(command, passed, &called.report());
        } else {
            let some_dirty = passed.dirty_l1d > 0 || passed.dirty_l2 > 0;
            put_out.silent[usize::from(called.number == 0)] += u64::from(some_dirty);
        }
    }

    /// What the sentences about dropped lines say of a call's answer.
    fn history(&mut self, command: &Command, ours: &Answer) -> Result<(), Wrong> {
        let Some(history) = &mut self.history else { return Ok(()) };
        let mut seen = *ours;
        plant::history_answer(command, &mut seen);
        let kept = plant::keeps_over(command).then(|| history.kept.clone());
        let read = history.call(command, &seen).map_err(|broken| Wrong {
            kind: Kind::Sentence(broken.sentence),
            what: format!("dropped lines, sentence {}: {}", broken.sentence, broken.what),
        })?;
        history.kept.extend(kept.unwrap_or_default());
        plant::history(command, history);
        self.met.history_bytes += read.bytes;
        self.met.older_bytes += read.older;
        Ok(())
    }

    fn count(&mut self, command: &Command, answer: &Answer) {
        self.met.calls += 1;
        self.met.numbers[answer.number as usize] += 1;
        self.met.servers[answer.server as usize] += 1;
        self.met.odd += u64::from(self.odd);
        if answer.number != 0 {
            return;
        }
        self.met.modes[self.theirs.record.mode as usize] += 1;
        let address = match *command {
            Command::Read { address, .. } | Command::Write { address, .. } => address,
            _ => return,
        };
        if address >= EXTERNAL_BASE {
            let range = (address >> 24) as usize - 128;
            self.met.ranges[range][self.theirs.record.mar_bit(address) as usize] += 1;
        }
    }

    /// The lines that an L2 command took out of L1D.
    fn count_beside_l2(&mut self, command: &Command) {
        let code = usize::from(code(command));
        if !(2..=6).contains(&code) {
            return;
        }
        let were = self.passed.l1d.iter().flat_map(|set| &set.lines);
        let are = self.record.l1d.iter().flat_map(|set| &set.lines);
        for line in were.zip(are).filter(|(_, now)| now.valid == 0).map(|(line, _)| line) {
            let external = line.address >= EXTERNAL_BASE;
            if line.dirty == 1 && (!external || self.passed.mode == 0) {
                self.met.beside_l2[code - 2][usize::from(external)] += 1;
            }
        }
    }

    /// What a call did to the counts of dirty lines.
    fn count_dirty(&mut self, command: &Command, answer: &Answer) {
        if answer.number != 0 {
            return;
        }
        let (was, now, counts) = (&self.passed, &self.record, &mut self.met.counts);
        let code = usize::from(code(command));
        counts.l1d_up[code] += u64::from(now.dirty_l1d > was.dirty_l1d);
        counts.l1d_down[code] += u64::from(now.dirty_l1d < was.dirty_l1d);
        counts.l2_up[code] += u64::from(now.dirty_l2 > was.dirty_l2);
        counts.l2_down[code] += u64::from(now.dirty_l2 < was.dirty_l2);
        counts.most[0] = counts.most[0].max(now.dirty_l1d);
        counts.most[1] = counts.most[1].max(now.dirty_l2);
        if let (Command::Write { .. }, SERVER_L1D | SERVER_L2) = (command, answer.server) {
            let same = (now.dirty_l1d, now.dirty_l2) == (was.dirty_l1d, was.dirty_l2);
            counts.again[usize::from(answer.server == SERVER_L2)] += u64::from(same);
        }
    }

    /// What a call met in a frozen L1D.
    fn count_frozen(&mut self, command: &Command, answer: &Answer) {
        let (passed, frozen) = (&self.passed, &mut self.met.frozen);
        frozen.refused += u64::from(passed.frozen > 1 && answer.number == 2);
        if passed.frozen != 1 || answer.number != 0 {
            return;
        }
        let (address, is_read) = match *command {
            Command::Read { address, .. } => (address, true),
            Command::Write { address, .. } => (address, false),
            Command::Mode { .. } => {
                frozen.modes += 1;
                return;
            }
            _ => return,
        };
        if address >= EXTERNAL_BASE && self.theirs.record.mar_bit(address) == 0 {
            return;
        }
        let set = &passed.l1d[L1d::set_of(address)];
        if answer.server == SERVER_L1D {
            let line = L1d::line_address(address);
            let held = |way: &usize| set.lines[*way].valid == 1 && set.lines[*way].address == line;
            let Some(way) = (0..L1d::WAYS).find(held) else { return };
            if usize::from(set.order[0]) != way {
                *(if is_read { &mut frozen.hits } else { &mut frozen.write_hits }) += 1;
            }
            frozen.dirtied += u64::from(!is_read && set.lines[way].dirty == 0);
            return;
        }
        let misses = if is_read { &mut frozen.misses } else { &mut frozen.write_misses };
        let by_l2 = answer.server == SERVER_EXTERNAL && passed.mode != 0;
        let server = if answer.server == SERVER_EXTERNAL && !by_l2 { 3 } else { answer.server - 2 };
        misses[usize::from(server)] += 1;
        if !is_read {
            return;
        }
        let full = set.lines.iter().all(|line| line.valid == 1);
        let last = set.lines[usize::from(set.order[1]).min(1)];
        frozen.spared += u64::from(full && last.dirty == 1);
        let Some(set) = L2::set_of(passed.mode.into(), address).filter(|_| by_l2) else { return };
        let ways = passed.l2[set].lines.iter().zip(&self.record.l2[set].lines);
        let mut left = ways.filter(|(was, now)| was.valid == 1 && was.address != now.address);
        let Some((left, _)) = left.next() else { return };
        let lines = passed.l1d.iter().flat_map(|set| &set.lines);
        let inside =
            |line: &&CLine| line.valid == 1 && L2::line_address(line.address) == left.address;
        let halves: Vec<&CLine> = lines.filter(inside).collect();
        frozen.halves += u64::from(!halves.is_empty());
        frozen.dirty_halves += u64::from(halves.iter().any(|line| line.dirty == 1));
    }

    /// The record is the expected one; where nothing was accepted, no byte of it
    /// has changed.
    fn expect_record(&mut self, accepted: bool) -> Result<(), Wrong> {
        if !accepted {
            self.met.untouched += 1;
            return expect_untouched("record", &self.record, &self.passed);
        }
        expect_counted("record", &self.record)?;
        self.met.counts.counted += 1;
        if !same_record(&self.record, &self.theirs.record) {
            let expected = record_of(&self.theirs.record);
            let what = format!("record: {}", record_difference(&self.record, &expected));
            return Err(Wrong { kind: Kind::Record, what });
        }
        Ok(())
    }

    /// What flat memory says of a call's answer.
    fn flat_answer(&mut self, command: &Command, ours: &Answer) -> Result<(), Wrong> {
        if let Some(flat) = &mut self.flat {
            plant::flat_freeze(command, flat);
        }
        if let Some(covered) = &mut self.covered {
            covered.command(command, ours.number == 0);
        }
        if let Some(written) = &mut self.written {
            written.command(command, ours.number == 0);
        }
        let said = self.flat.as_mut().and_then(|flat| flat.apply(command));
        let Some((mut number, mut value)) = said else { return Ok(()) };
        plant::flat_answer(command, &mut number, &mut value);
        expect(Kind::Number, "number, by flat memory,", ours.number, number)?;
        expect(Kind::Value, "value, by flat memory,", ours.value, value)?;
        self.met.flat_reads += 1;
        Ok(())
    }

    /// What flat memory says of a call.
    fn flat(&mut self, command: &Command, ours: &Answer) -> Result<(), Wrong> {
        self.flat_answer(command, ours)?;
        let Some(flat) = &mut self.flat else { return Ok(()) };
        if is_global(command, ours) {
            plant::flat_writeback(flat);
            expect_settled("", &self.l2, &self.ext, flat)?;
            self.met.flat_memories[usize::from(self.record.mode)] += 1;
            let mut held = self.passed.l1d.iter().flat_map(|set| &set.lines);
            let was_dirty = held.any(|line| line.dirty == 1 && line.address < EXTERNAL_BASE);
            self.met.flat_sram[usize::from(self.record.mode)] += u64::from(was_dirty);
        }
        Ok(())
    }

    fn run(&mut self, trace: &[u8], answer_bytes: usize) -> Result<Vec<u8>, Wrong> {
        let mut expected = vec![0xB7; answer_bytes];
        let mut answers = expected.clone();
        let theirs = if self.odd {
            RunResult { consumed: 0, answers: 0, stop: self.odd_number(true) }
        } else {
            self.theirs.run(trace, &mut expected)
        };
        let (record, lent) = self.lent();
        let mut run = boundary::run(record, trace, lent, &mut answers);
        plant::run(&mut run, &mut answers, &mut self.record, trace);
        self.met.calls += 1;
        self.met.runs += 1;
        self.met.odd += u64::from(self.odd);
        self.met.numbers[theirs.stop as usize] += 1;
        let ours = RunResult { consumed: run.consumed, answers: run.count, stop: run.stop };
        expect_run(ours, theirs)?;
        expect_answers(&answers, &expected, run.count)?;
        self.met.long_runs += u64::from(run.consumed > 5_000);
        let carried_out = carried_out(trace, &answers, run.count);
        // The record stands as it is after the whole run.
        let global = carried_out.last().is_some_and(|(command, answer)| is_global(command, answer));
        if global {
            expect_nothing_dirty("record after a run", &self.record)?;
            self.met.written_back += 1;
        }
        self.expect_record(carried_out.iter().any(|(_, answer)| answer.number == 0))?;
        for (command, answer) in &carried_out {
            if let Command::Freeze { .. } = command {
                self.met.frozen.run += u64::from(answer.number == 0);
                self.met.frozen.run_refused += u64::from(answer.number == 17);
            }
            self.history(command, answer)?;
            self.flat_answer(command, answer)?;
        }
        if let (true, Some(flat)) = (global, &mut self.flat) {
            plant::flat_run(flat);
            expect_settled(" after a run", &self.l2, &self.ext, flat)?;
            self.met.flat_runs[usize::from(self.record.mode)] += 1;
        }
        Ok(answers)
    }

    /// A run, and then its commands as single calls from the same beginning:
    /// the answers, the record and every byte are the same.
    fn run_and_single_calls(&mut self, trace: &[u8], answer_bytes: usize) -> Result<(), Wrong> {
        let before = self.ours();
        let refused = self.odd || {
            let fits = self.odd_number(true) == 2;
            !fits || !is_well_formed(&self.theirs.record)
        };
        // The run tells no reports; the reference model's single calls do. A record that is
        // another comes first: with it reports are others too.
        let mut theirs = (!refused).then(|| self.theirs.clone());
        let mut told = Ok(());
        let answers = self.run(trace, answer_bytes)?;
        let Ours { mut record, mut l1d, mut l2, mut ext, mut l1p } = before;
        let mut passed = self.passed.clone();
        let mut place = 0;
        let mut count = 0;
        while place < trace.len() && (count + 1) * ANSWER_BYTES <= answer_bytes {
            let Some(theirs) = &mut theirs else { break };
            let Some((command, length)) = decode(&trace[place..]) else { break };
            record.pad_like(&self.padding);
            *passed = **record;
            let before = plant::before(&command, &l2, &ext);
            let lent = Lent { l1d: &mut l1d, l2: &mut l2, ext: &mut ext, l1p: &mut l1p };
            let mut called = boundary::direct(&mut record, &command, lent);
            let lent = Lent { l1d: &mut l1d, l2: &mut l2, ext: &mut ext, l1p: &mut l1p };
            plant::direct(&command, &mut called, &mut record, &passed, lent, before);
            self.met.calls += 1;
            self.met.numbers[called.number as usize] += 1;
            self.met.servers[called.server as usize] += 1;
            let answer = &answers[count * ANSWER_BYTES..(count + 1) * ANSWER_BYTES];
            let single = answer_of(&called);
            expect_answer("single call's answer", single, answer_in(answer))?;
            let report = report_of(&theirs.reply(&command).report);
            let name = "single call's report";
            told = told
                .and_then(|()| expect_report(name, called.report(), report))
                .and_then(|()| expect_left_by_records(name, &command, &called, &passed, &record));
            self.met.put_out.reports += 1;
            if single.number != 0 {
                expect_untouched("record after a single call", &record, &passed)?;
                self.met.untouched += 1;
            }
            if is_global(&command, &single) {
                expect_nothing_dirty("record after a single call", &record)?;
                self.met.written_back += 1;
            }
            if single.number == 0 {
                expect_counted("record after a single call", &record)?;
            }
            place += length;
            count += 1;
        }
        if **record != **self.record {
            let difference = record_difference(&record, &self.record);
            let what = format!("record after single calls: {difference}");
            return Err(Wrong { kind: Kind::Record, what });
        }
        expect_bytes("L1D after single calls,", &l1d, &self.l1d)?;
        expect_bytes("L2 after single calls,", &l2, &self.l2)?;
        expect_bytes("external memory after single calls,", &ext, &self.ext)?;
        expect_bytes("L1P after single calls,", &l1p, &self.l1p)?;
        told
    }

    fn view(&mut self, address: u32, buffer: usize) -> Result<(), Wrong> {
        let theirs = &self.theirs;
        let (number, part) = if self.odd {
            (self.odd_number(false), &[][..])
        } else {
            (
                look_number(&theirs.record, &theirs.l2, &theirs.ext, address),
                look(&theirs.record, &theirs.l2, &theirs.ext, address),
            )
        };
        let expected_number = if buffer < 64 { 1 } else { number };
        let mut expected = vec![0xC3; buffer];
        let mut seen = expected.clone();
        if expected_number == 0 {
            expected[..64].copy_from_slice(part);
        }
        self.met.calls += 2;
        self.met.views += 1;
        self.met.numbers[number as usize] += 1;
        self.lent();
        let mut ours = boundary::view(&self.record, address, &self.l2, &self.ext, &mut seen);
        plant::view(&mut ours, &mut seen, &mut self.record);
        expect(Kind::Number, "number of the view", ours, expected_number)?;
        expect_bytes("viewed bytes", &seen, &expected)?;
        let mut ours = boundary::view_number(&self.record, address, &self.l2, &self.ext);
        plant::view_number(&mut ours);
        expect(Kind::Number, "view's number", ours, number)?;
        self.met.untouched += 1;
        expect_untouched("record after a view", &self.record, &self.passed)
    }

    /// The digits behind the length are 0.
    fn short_run_of(&mut self, number: u32) -> Result<(), Wrong> {
        let (refusal, run) = short_runs::run_of(number);
        let mut digits = [0; 4];
        digits[..run.len()].copy_from_slice(run);
        let theirs = CShortRun { number: refusal, length: run.len() as u8, digits };
        let mut ours = boundary::short_run_of(number);
        plant::short_run_of(&mut ours);
        self.met.calls += 1;
        self.met.numbers[usize::from(refusal)] += 1;
        let kind = if ours.number != theirs.number { Kind::Number } else { Kind::Value };
        expect(kind, "short run", ours, theirs)
    }

    /// More digits stand behind those that are lent: they are not looked at.
    fn short_run_number(&mut self, digits: &[u8]) -> Result<(), Wrong> {
        let (refusal, run) = short_runs::number_of(digits);
        let theirs = CRunNumber { number: refusal, run };
        let around = [digits, &[5, 0, 255, 7]].concat();
        let mut ours = boundary::short_run_number(&around[..digits.len()]);
        plant::short_run_number(&mut ours);
        self.met.calls += 1;
        self.met.numbers[usize::from(refusal)] += 1;
        let kind = if ours.number != theirs.number { Kind::Number } else { Kind::Value };
        expect(kind, "number of a short run", ours, theirs)
    }

    /// Every lent byte is the expected one.
    fn memories(&mut self, op: &Op, whole: bool) -> Result<(), Wrong> {
        expect_bytes("L1D", &self.l1d, &self.theirs.l1d)?;
        expect_bytes("L2", &self.l2, &self.theirs.l2)?;
        expect_bytes("L1P", &self.l1p, &self.theirs.l1p)?;
        if whole || self.ext.len() <= SMALL {
            return expect_bytes("external memory", &self.ext, &self.theirs.ext);
        }
        let mut length = 0;
        let address = match *op {
            Op::Direct(Command::Read { address, .. } | Command::Write { address, .. }) => address,
            Op::Unaligned(access) => access.address(),
            Op::Program(Program::Fetch { address }) => address,
            Op::Transfer(transfer) => {
                length = transfer.length.min(LONGEST_TRANSFER);
                transfer.address
            }
            Op::Frame(frame) => {
                length = FRAME_BYTES;
                place_of(frame.turn)
            }
            Op::Direct(
                Command::L2BlockWriteback { base, .. }
                | Command::L2BlockWritebackInvalidate { base, .. }
                | Command::L1dBlockWritebackInvalidate { base, .. },
            ) => base,
            _ => return Ok(()),
        };
        let from = (address.saturating_sub(EXTERNAL_BASE) as usize).saturating_sub(4_096);
        let from = from.min(self.ext.len());
        let to = (from + 8_192 + length).min(self.ext.len());
        expect_bytes("part of external memory", &self.ext[from..to], &self.theirs.ext[from..to])
    }

    /// After a list that flat memory agrees with, a last change to mode 0
    /// brings everything home.
    fn end(&mut self) -> Result<(), Wrong> {
        if self.flat.is_none() {
            return Ok(());
        }
        self.direct(&Command::Mode { mode: 0 })?;
        let flat = self.flat.as_mut().expect("seen just now");
        plant::flat_end(flat);
        expect_bytes("external memory at the end, by flat memory,", &self.ext, &flat.ext)?;
        expect_bytes("SRAM at the end, by flat memory,", &self.l2, &flat.sram)
    }
}

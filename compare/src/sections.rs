//! What is compared: sixteen sections, each made of groups, each group of a few
//! lists of calls. A group is known by its section and number, and equal seeds
//! give equal groups.

use oracle::frames::{place_of, FRAME_BYTES, LEAST_EXTERNAL};
use oracle::gen::{
    self, call, command, crowded, crowded_e, encode, frame, frame_length, frames_in_a_row, hot,
    hot_for, huge_length, ill_formed_record, l_for, look_address, make_length_wrong,
    senseless_record, shared_place, single, transfer, well_formed_record,
    well_formed_record_in_mode, Call, Fault, Frame, Hot, Mix, Rng, Setup, Single, TraceKind,
    Transfer, E_BOTH_RANGES, FAULTS, LEGAL_L, LEGAL_MODES, RANGE_BYTES, TRACE_KINDS, WRONG_LENGTHS,
};
use oracle::geometry::{mode_is_legal, sram_size, L1p, EXTERNAL_BASE, L2};
use oracle::short_runs;
use oracle::transfers::LONGEST_TRANSFER;
use oracle::{Command, Direction, Line, Program, Record, Unaligned};

use crate::load;
use crate::pair::{compare, Met, OddByte, OddPlace, Op, Start};
use crate::shrink::Case;
use crate::two_runs;
use crate::writing;

/// A section: its name, its share of the calls in parts of 100, how many groups
/// are run at least, what it does, and how one of its groups is run.
pub struct Section {
    pub name: &'static str,
    pub share: u64,
    pub groups: u64,
    pub about: &'static str,
    pub group: Group,
}

/// How a group is run. Calls on a chip give a case, which is made smaller by
/// whoever asked; a section with cases of its own gives words.
pub enum Group {
    Calls(fn(&mut Rng, u64, &mut Met) -> Option<Case>),
    Words(fn(&mut Rng, u64, &mut Met) -> Option<String>),
}

pub const SECTIONS: [Section; 16] = [
    Section {
        name: "records",
        share: 40,
        groups: 0,
        about: "every call on random well-formed records and memories",
        group: Group::Calls(records),
    },
    Section {
        name: "lists",
        share: 30,
        groups: 0,
        about: "long lists from fresh, set against flat memory too",
        group: Group::Calls(lists),
    },
    Section {
        name: "traces",
        share: 12,
        groups: 0,
        about: "runs over valid, damaged and cut traces, and single calls",
        group: Group::Calls(traces),
    },
    Section {
        name: "refusals",
        share: 14,
        groups: 0,
        about: "records, bytes, lengths and numbers that are refused",
        group: Group::Calls(refusals),
    },
    Section {
        name: "views",
        share: 4,
        groups: 0,
        about: "looking behind L1D",
        group: Group::Calls(views),
    },
    Section {
        name: "short-runs",
        share: 0,
        groups: CARRIED_OUT.1 + 16,
        about: "short runs by number, and each of them carried out",
        group: Group::Calls(short_runs),
    },
    // Beside the hundred of the calls on a chip: these take next to no time.
    Section {
        name: "writing",
        share: 30,
        groups: 0,
        about: "commands written into outputs, and read back",
        group: Group::Words(writing::group),
    },
    Section {
        name: "two-runs",
        share: 20,
        groups: 0,
        about: "two runs that differ in data, or in one byte, set against each other",
        group: Group::Words(two_runs::group),
    },
    // Behind the others, so that their groups stay what they were.
    Section {
        name: "dropped",
        share: 10,
        groups: 0,
        about: "lists with drops, each byte read set against its history",
        group: Group::Calls(dropped),
    },
    Section {
        name: "reaching",
        share: 10,
        groups: 0,
        about: "L2 commands on lines that L1D alone holds, set against flat memory",
        group: Group::Calls(reaching),
    },
    Section {
        name: "load",
        share: 5,
        groups: 0,
        about: "loads made in outputs, and run over",
        group: Group::Words(load::group),
    },
    Section {
        name: "frozen",
        share: 10,
        groups: 0,
        about: "lists with a frozen L1D, set against flat memory or histories",
        group: Group::Calls(frozen),
    },
    Section {
        name: "thrashing",
        share: 10,
        groups: 0,
        about: "lines that put each other out, the bytes that move seen from outside",
        group: Group::Calls(thrashing),
    },
    Section {
        name: "transfers",
        share: 10,
        groups: 0,
        about: "transfers over lines that are held or shared, set against flat memory too",
        group: Group::Calls(transfers),
    },
    Section {
        name: "frames",
        share: 10,
        groups: 0,
        about: "frames in a row over lines that are held, set against flat memory too",
        group: Group::Calls(frames),
    },
    Section {
        name: "fetches",
        share: 10,
        groups: 0,
        about: "fetches beside data that is written and dropped, set against flat memory too",
        group: Group::Calls(fetches),
    },
];

/// Compares a list; a difference makes it a case.
fn check(start: Start, ops: Vec<Op>, met: &mut Met) -> Option<Case> {
    met.count_external(start.setup.record.e);
    compare(&start, &ops, met).map(|difference| Case { start, ops, difference })
}

/// A list that begins with a record and memories, and with padding of any kind.
fn plain(rng: &mut Rng, setup: Setup) -> Start {
    let padding = rng.next_u64();
    Start { setup, odd: Vec::new(), padding, flat: false, history: false, moves: false }
}

/// C's record has a byte for the mode, for each MAR bit and for the freeze. A larger
/// number of the generators becomes 255, which is as little a mode or a bit.
pub fn in_bytes(mut record: Box<Record>) -> Box<Record> {
    record.mode = record.mode.min(255);
    record.mar128 = record.mar128.min(255);
    record.mar129 = record.mar129.min(255);
    record.frozen = record.frozen.min(255);
    record
}

/// A legal E of at most half a mebibyte.
fn small_e(rng: &mut Rng) -> u32 {
    match rng.below(8) {
        0 => 128,
        1 => 128 * (1 + rng.below(8)),
        2 => 6 * 65_536,
        3 => 128 * (1 + rng.below(4_096)),
        4 | 5 => 65_536,
        _ => 8_192 * (1 + rng.below(12)),
    }
}

/// A large legal E, in turn around the border of the MAR ranges and far from
/// it on both sides.
fn large_e(rng: &mut Rng, turn: u64) -> u32 {
    match turn % 6 {
        0 => E_BOTH_RANGES,
        1 => RANGE_BYTES,
        2 => 33_554_432,
        3 => RANGE_BYTES + 128 * (1 + rng.below(4_096)),
        // From 786,432 to 16 MiB, and from 17,301,504 to 32 MiB.
        4 => 786_432 + 128 * (1 + rng.below(124_927)),
        _ => 17_301_504 + 128 * (1 + rng.below(126_975)),
    }
}

/// A legal E with a little external memory in the range of MAR 129, seldom
/// with none: then the first line past the end lies there.
fn e_at_the_border(rng: &mut Rng) -> u32 {
    match rng.below(6) {
        0 => RANGE_BYTES,
        1 => RANGE_BYTES + 128,
        2 | 3 => RANGE_BYTES + 128 * (1 + rng.below(4_096)),
        _ => E_BOTH_RANGES,
    }
}

/// A mode, an L with which it is legal, and an E, which comes to the border of
/// the MAR ranges one time in `every`.
fn mode_and_sizes(rng: &mut Rng, turn: u64, every: u64) -> (u32, u32, u32) {
    let mode = LEGAL_MODES[turn as usize % LEGAL_MODES.len()];
    let large = turn % every == every - 1;
    let e = if large { e_at_the_border(rng) } else { small_e(rng) };
    (mode, l_for(rng, mode), e)
}

/// Random memories of these sizes, with a record of this mode.
fn setup_in_mode(rng: &mut Rng, mode: u32, l: u32, e: u32) -> Setup {
    let mut setup = Setup::random(rng, l, e);
    setup.redraw_record_in_mode(rng, mode);
    setup
}

fn single_op(single: Single) -> Op {
    match single {
        Single::Command(command) => Op::Direct(command),
        Single::Unaligned(access) => Op::Unaligned(access),
        Single::Transfer(transfer) => Op::Transfer(transfer),
        Single::Frame(frame) => Op::Frame(frame),
        Single::Program(call) => Op::Program(call),
    }
}

/// A random single call.
fn some_single(rng: &mut Rng, lines: &Hot, mix: &Mix) -> Op {
    single_op(single(rng, lines, mix))
}

/// A transfer in, and one out of the same bytes.
fn transfer_pair(rng: &mut Rng, address: u32, length: usize) -> [Op; 2] {
    let filling = rng.next_u64();
    [Direction::In, Direction::Out]
        .map(|direction| Op::Transfer(Transfer { direction, address, length, filling }))
}

/// One of the two.
fn transfer_either(rng: &mut Rng, address: u32, length: usize) -> Op {
    let [into, out] = transfer_pair(rng, address, length);
    if rng.chance(1, 2) {
        into
    } else {
        out
    }
}

/// A non-aligned write, and a read of the same bytes.
fn unaligned_pair(size: u32, address: u32, value: u64) -> [Op; 2] {
    [Unaligned::Write { size, address, value }, Unaligned::Read { size, address }]
        .map(Op::Unaligned)
}

/// One of the two.
fn unaligned_either(rng: &mut Rng, size: u32, address: u32, value: u64) -> Op {
    let [write, read] = unaligned_pair(size, address, value);
    if rng.chance(1, 2) {
        write
    } else {
        read
    }
}

/// Accesses of each size that end with external memory, and just behind it; non-aligned ones
/// also across its end. Transfers do so too.
fn accesses_at_the_end(rng: &mut Rng, e: u32) -> Vec<Op> {
    let end = EXTERNAL_BASE + e;
    let mut ops = Vec::new();
    for size in [1, 2, 4, 8] {
        for address in [end - size, end] {
            ops.push(Op::Direct(Command::Write { size, address, value: 0xA0 + u64::from(size) }));
            ops.push(Op::Direct(Command::Read { size, address }));
        }
    }
    for size in [4, 8] {
        for back in 0..=size {
            ops.extend(unaligned_pair(size, end - back, 0xC0 + u64::from(size)));
        }
    }
    // Where both MAR ranges meet, if the memory comes to it.
    let border = EXTERNAL_BASE + RANGE_BYTES;
    for size in [4, 8] {
        for back in 1..size {
            ops.extend(unaligned_pair(size, border - back, 0xD0 + u64::from(size)));
        }
    }
    for length in [4, 64, 128, 512, LONGEST_TRANSFER as u32] {
        let first = end.wrapping_sub(length);
        for address in [first, first.wrapping_add(4), end, border - 4, border - 128] {
            ops.extend(transfer_pair(rng, address, length as usize));
        }
    }
    ops
}

fn op_of(call: Call, rng: &mut Rng) -> Op {
    match call {
        Call::FreshStart => Op::Fresh,
        Call::Direct(command) => Op::Direct(command),
        Call::Unaligned(access) => Op::Unaligned(access),
        Call::Transfer(transfer) => Op::Transfer(transfer),
        Call::Frame(frame) => Op::Frame(frame),
        Call::Program(call) => Op::Program(call),
        Call::Run { trace, answer_bytes } => Op::Run { trace, answer_bytes },
        Call::Look { address } => Op::View { address, buffer: view_buffer(rng) },
    }
}

fn view_buffer(rng: &mut Rng) -> usize {
    rng.pick(&[64, 64, 64, 64, 65, 80, 128, 63, 1, 0])
}

// ---------------------------------------------------------------- records

/// Random well-formed records, reachable or not, over one set of memories.
fn records(rng: &mut Rng, group: u64, met: &mut Met) -> Option<Case> {
    let large = group % 24 == 23;
    let mode = LEGAL_MODES[group as usize % LEGAL_MODES.len()];
    let l = l_for(rng, mode);
    let e = if large { large_e(rng, group / 24) } else { small_e(rng) };
    let setup = Setup::random(rng, l, e);
    let mut ops = Vec::new();
    for _ in 0..if large { 2 } else { 12 } {
        let record = if rng.chance(2, 3) {
            well_formed_record_in_mode(rng, l, e, mode)
        } else {
            well_formed_record(rng, l, e)
        };
        let lines = hot_for(rng, &record);
        ops.push(Op::Record(record));
        if large {
            ops.extend(accesses_at_the_end(rng, e));
        }
        for _ in 0..if large { 200 } else { 4 + rng.below(28) } {
            let call = call(rng, &lines, &Mix::ALL);
            ops.push(op_of(call, rng));
        }
    }
    check(plain(rng, setup), ops, met)
}

// ------------------------------------------------------------------ lists

/// A long list from fresh, in turn over every L and several E.
fn lists(rng: &mut Rng, group: u64, met: &mut Met) -> Option<Case> {
    // Eleven turns, so that every L comes up with every size; the largest, which
    // alone leaves room for mode 7, comes up more often.
    let l = LEGAL_L[(group % 11).min(7) as usize];
    let large = group % 7 == 1;
    let e = match group % 7 {
        1 => large_e(rng, group / 7),
        2 => 8_192,
        3 => 6 * 65_536,
        4 => 128,
        6 => 12 * 65_536,
        _ => 65_536,
    };
    let mut mix = match group % 5 {
        4 => Mix::ALL,
        3 => Mix {
            mode: 1,
            l2_all: 1,
            l2_block_writeback: 5,
            l1d_block_writeback: 5,
            ..Mix::NO_DROPS
        },
        _ => Mix { mode: 8, l2_all: 8, ..Mix::NO_DROPS },
    };
    if large {
        mix.l2_all = 2;
    }
    let mut ext = vec![0; e as usize];
    rng.fill(&mut ext);
    let setup = Setup::fresh_over(l, ext);
    let mut ops = Vec::new();
    // Lines come into the caches only with a MAR bit set.
    if rng.chance(7, 8) {
        ops.push(Op::Direct(Command::Mar { number: 128, bit: 1 }));
    }
    if rng.chance(7, 8) {
        ops.push(Op::Direct(Command::Mar { number: 129, bit: 1 }));
    }
    let mut modes = LEGAL_MODES.to_vec();
    modes.push(7);
    modes.retain(|&mode| mode_is_legal(l, mode));
    ops.push(Op::Direct(Command::Mode { mode: rng.pick(&modes) }));
    if large {
        ops.extend(accesses_at_the_end(rng, e));
    }
    let mut lines = hot(rng, l, e);
    for _ in 0..3_000 {
        if rng.chance(1, 700) {
            lines = hot(rng, l, e);
        }
        if rng.chance(1, 150) {
            ops.extend(shared_place(rng, &lines).into_iter().map(single_op));
        }
        if rng.chance(1, 200) {
            let count = rng.below(30) as usize;
            let kind = rng.pick(&[TraceKind::Valid, TraceKind::CutOff, TraceKind::UnknownCode]);
            let mut trace = gen::trace(rng, &lines, &mix, count, kind).bytes;
            let mut answer_bytes = 10 * count + rng.below(12) as usize;
            // After a run that ends in a global writeback both memories are known.
            if kind == TraceKind::Valid && rng.chance(2, 3) {
                encode(&global_writeback(rng), &mut trace);
                answer_bytes += 10;
            }
            ops.push(Op::Run { trace, answer_bytes });
        } else {
            ops.push(some_single(rng, &lines, &mix));
        }
    }
    let flat = mix.l1d_invalidate_all == 0;
    check(Start { flat, ..plain(rng, setup) }, ops, met)
}

/// A list from fresh that drops lines, with few lines that are come back to: each
/// byte that is read keeps to its history.
fn dropped(rng: &mut Rng, group: u64, met: &mut Met) -> Option<Case> {
    let l = LEGAL_L[(group % 11).min(7) as usize];
    let e = [65_536, 8_192, 6 * 65_536, 128, 65_536][group as usize % 5];
    let mix = Mix {
        l2_block_invalidate: 40,
        l1d_block_invalidate: 40,
        l1d_invalidate_all: 10,
        mode: 4,
        mar: 10,
        ..Mix::ALL
    };
    let mut ext = vec![0; e as usize];
    rng.fill(&mut ext);
    let setup = Setup::fresh_over(l, ext);
    let mut ops = Vec::new();
    if rng.chance(7, 8) {
        ops.push(Op::Direct(Command::Mar { number: 128, bit: 1 }));
    }
    let mut modes = [&LEGAL_MODES[..], &[7, 7]].concat();
    modes.retain(|&mode| mode_is_legal(l, mode));
    ops.push(Op::Direct(Command::Mode { mode: rng.pick(&modes) }));
    let mut lines = hot(rng, l, e);
    for _ in 0..1_500 {
        match rng.below(1_000) {
            0 => ops.push(Op::Fresh),
            1..=3 => lines = hot(rng, l, e),
            4..=8 => {
                let trace = gen::trace(rng, &lines, &mix, 20, TraceKind::Valid).bytes;
                ops.push(Op::Run { trace, answer_bytes: 150 + rng.below(60) as usize });
            }
            9..=12 => ops.push(Op::View { address: look_address(rng, &lines), buffer: 64 }),
            _ => ops.push(some_single(rng, &lines, &mix)),
        }
    }
    check(Start { history: true, ..plain(rng, setup) }, ops, met)
}

/// A list from fresh in which L2's commands come often, and half of the lines that
/// calls come back to lie in SRAM, beside each other and in one set: L1D alone holds
/// them, and in mode 0 those of external memory too. In every third group L2 block
/// invalidate drops some; then each byte that is read keeps to its history, and in
/// the others to flat memory.
fn reaching(rng: &mut Rng, group: u64, met: &mut Met) -> Option<Case> {
    let mode = LEGAL_MODES[group as usize % LEGAL_MODES.len()];
    // Some of L2 is left as SRAM where that can be.
    let with_sram: Vec<u32> = LEGAL_L.into_iter().filter(|&l| sram_size(l, mode) > 0).collect();
    let l = if mode == 7 { LEGAL_L[7] } else { rng.pick(&with_sram) };
    let e = [65_536, 8_192, 6 * 65_536, 128][group as usize % 4];
    let drops = group % 3 == 2;
    let mix = Mix {
        l2_all: 60,
        l2_block_writeback: 120,
        l2_block_invalidate: if drops { 60 } else { 0 },
        mode: 3,
        mar: 8,
        ..Mix::NO_DROPS
    };
    let mut ext = vec![0; e as usize];
    rng.fill(&mut ext);
    let setup = Setup::fresh_over(l, ext);
    let begin = [Command::Mar { number: 128, bit: 1 }, Command::Mode { mode }];
    let mut ops = begin.map(Op::Direct).to_vec();
    let mut lines = hot(rng, l, e);
    for _ in 0..lines.lines.len() / 2 {
        let line = 64 * rng.below(4) + 8_192 * rng.below(4);
        lines.lines.extend([line, line ^ 64]);
    }
    for _ in 0..600 {
        match rng.below(60) {
            0 => {
                let count = rng.below(12) as usize;
                let mut trace = gen::trace(rng, &lines, &mix, count, TraceKind::Valid).bytes;
                encode(&global_writeback(rng), &mut trace);
                ops.push(Op::RunAndSingleCalls { trace, answer_bytes: 10 * (count + 1) });
            }
            // A line becomes dirty: it is read and written.
            1..=20 => {
                let (size, address) = (4, rng.pick(&lines.lines) + 4 * rng.below(16));
                ops.push(Op::Direct(Command::Read { size, address }));
                let value = rng.next_u32().into();
                ops.push(Op::Direct(Command::Write { size, address, value }));
            }
            _ => ops.push(some_single(rng, &lines, &mix)),
        }
    }
    check(Start { flat: !drops, history: drops, ..plain(rng, setup) }, ops, met)
}

/// A list from fresh in which L1D is often frozen, and thawed again: then two lines of
/// one of its sets come into it, and once it is frozen others of that set and of their
/// L2 set are read. In every third group lines are dropped; then each byte that is read
/// keeps to its history, and in the others to flat memory.
fn frozen(rng: &mut Rng, group: u64, met: &mut Met) -> Option<Case> {
    let mode = LEGAL_MODES[group as usize % LEGAL_MODES.len()];
    let l = l_for(rng, mode);
    let e = [6 * 65_536, 65_536, 8_192, 128][group as usize % 4];
    let drops = group % 3 == 2;
    let all = if drops { Mix::ALL } else { Mix::NO_DROPS };
    let mix = Mix { freeze: 60, l2_all: 4, l2_block_writeback: 10, mode: 4, mar: 8, ..all };
    let mut ext = vec![0; e as usize];
    rng.fill(&mut ext);
    let setup = Setup::fresh_over(l, ext);
    let begin = [Command::Mar { number: 128, bit: 1 }, Command::Mode { mode }].map(Op::Direct);
    let mut ops = begin.to_vec();
    let mut lines = hot(rng, l, e);
    for _ in 0..400 {
        match rng.below(80) {
            0 => {
                ops.push(Op::Fresh);
                ops.extend(begin.clone());
            }
            1 => lines = hot(rng, l, e),
            2..=4 => {
                let count = rng.below(16) as usize;
                let mut trace = gen::trace(rng, &lines, &mix, count, TraceKind::Valid).bytes;
                encode(&Command::Freeze { frozen: rng.below(3) }, &mut trace);
                ops.push(Op::RunAndSingleCalls { trace, answer_bytes: 10 * (count + 1) });
            }
            5..=14 => ops.extend(thawed_then_frozen(rng, e).map(Op::Direct)),
            _ => ops.push(some_single(rng, &lines, &mix)),
        }
    }
    check(Start { flat: !drops, history: drops, ..plain(rng, setup) }, ops, met)
}

/// Two lines of an L1D set come in, the second one dirty; then L1D is frozen, and four
/// more are read that may lie in the same sets of both caches: six have no room in a
/// set of L2.
fn thawed_then_frozen(rng: &mut Rng, e: u32) -> [Command; 9] {
    let first = EXTERNAL_BASE + 64 * rng.below(e.min(8_192) / 64);
    let step = if e > 65_536 { rng.pick(&[8_192, 65_536]) } else { 8_192 };
    let line = |turn: u32| {
        let address = first + turn * step;
        if address < EXTERNAL_BASE + e {
            address
        } else {
            first
        }
    };
    let read = |turn| Command::Read { size: 4, address: line(turn) };
    let value = rng.next_u32().into();
    let written = Command::Write { size: 4, address: line(1) + 8, value };
    let thaw = Command::Freeze { frozen: 0 };
    let freeze = Command::Freeze { frozen: 1 };
    [thaw, read(0), read(1), written, freeze, read(2), read(3), read(4), read(5)]
}

/// A list from fresh over lines that are more than their sets of L1D and L2 have ways, set
/// against flat memory: most accesses put a line out. In every fourth group each access is
/// made over other bytes too, so that those that move are seen. Every eighth list begins
/// past the caches.
fn thrashing(rng: &mut Rng, group: u64, met: &mut Met) -> Option<Case> {
    // Mode 7 needs the largest L, and comes up seldom elsewhere.
    let mode = [0, 1, 7, 2, 3, 7][group as usize % 6];
    let l = l_for(rng, mode);
    let e = crowded_e(mode);
    let moves = group / 6 % 4 == 0;
    let mix = Mix {
        read: 500,
        write: 350,
        l2_all: 1,
        l2_block_writeback: 10,
        l1d_block_writeback: 10,
        mode: 1,
        mar: 4,
        freeze: 20,
        ..Mix::NO_DROPS
    };
    let mut ext = vec![0; e as usize];
    rng.fill(&mut ext);
    let setup = Setup::fresh_over(l, ext);
    let bit = u32::from(rng.chance(7, 8));
    let begin = [Command::Mar { number: 128, bit }, Command::Mode { mode }];
    let mut ops = begin.map(Op::Direct).to_vec();
    let mut lines = crowded(rng, mode, l, e);
    for _ in 0..if moves { 100 } else { 500 } {
        match rng.below(100) {
            0 => lines = crowded(rng, mode, l, e),
            1 => {
                let count = rng.below(12) as usize;
                let trace = gen::trace(rng, &lines, &mix, count, TraceKind::Valid).bytes;
                ops.push(Op::RunAndSingleCalls { trace, answer_bytes: 10 * count });
            }
            2..=6 => ops.extend(putting_out(rng, mode, e).into_iter().map(Op::Direct)),
            7 | 8 => ops.extend(putting_two_out(rng, mode, e)),
            9..=11 => ops.extend(freeing_a_way(rng, mode, e)),
            _ => ops.push(some_single(rng, &lines, &mix)),
        }
    }
    check(Start { flat: true, moves, ..plain(rng, setup) }, ops, met)
}

/// One half of a line, or both, become dirty in L1D, three more lines of its L2 set come
/// without L1D, and a fifth one puts it out, by a write, a read, or a read of a frozen L1D.
/// Now and then L1D uses another line in between, so that the fifth puts the half out too.
fn putting_out(rng: &mut Rng, mode: u32, e: u32) -> Vec<Command> {
    let apart = crowded_e(mode) / 6;
    let first = EXTERNAL_BASE + 128 * rng.below(apart.min(e) / 128);
    let turn = rng.below(6);
    let line = |place: u32| first + (turn + place) % 6 * apart;
    let mut commands = vec![Command::Freeze { frozen: 0 }];
    let halves = rng.pick(&[&[0][..], &[64], &[0, 64]]);
    for half in halves {
        let (size, address) = (4, line(0) + half);
        commands.push(Command::Read { size, address });
        commands.push(Command::Write { size, address, value: rng.next_u32().into() });
    }
    for place in 1..4 {
        let (size, address) = (1, line(place) + rng.below(128));
        commands.push(Command::Write { size, address, value: rng.below(256).into() });
    }
    let (size, half) = (rng.pick(&[1, 2, 4, 8]), rng.pick(halves));
    let address = line(4) + half;
    match rng.below(4) {
        0 => commands.push(Command::Write { size, address, value: 7 }),
        1 => {
            commands.push(Command::Freeze { frozen: 1 });
            commands.push(Command::Read { size, address });
        }
        2 => commands.push(Command::Read { size, address: address ^ 64 }),
        _ => {
            commands.push(Command::Read { size, address: line(1) + half });
            commands.push(Command::Read { size, address });
        }
    }
    commands
}

/// Non-aligned writes fill two sets of L2 that lie beside each other with dirty lines; then
/// one more, or a read, puts a line out of both.
fn putting_two_out(rng: &mut Rng, mode: u32, e: u32) -> Vec<Op> {
    let apart = crowded_e(mode) / 6;
    let first = EXTERNAL_BASE + 128 * rng.below(apart.min(e) / 128 - 1);
    let turn = rng.below(6);
    let size = rng.pick(&[4, 8]);
    let across = 128 - 1 - rng.below(size - 1);
    let mut ops = Vec::new();
    for place in 0..5 {
        let address = first + (turn + place) % 6 * apart + across;
        let value = rng.next_u32().into();
        let write = Unaligned::Write { size, address, value };
        let last = place == 4 && rng.chance(1, 2);
        ops.push(Op::Unaligned(if last { Unaligned::Read { size, address } } else { write }));
    }
    ops
}

/// Both halves of two lines of an L2 set are in L1D; in L2 the first of them is the next to
/// leave, in L1D the second. A non-aligned read then brings both halves of a fifth line: the
/// way for its lower half is chosen before the line that leaves has freed its own.
fn freeing_a_way(rng: &mut Rng, mode: u32, e: u32) -> Vec<Op> {
    let apart = crowded_e(mode) / 6;
    let first = EXTERNAL_BASE + 128 * rng.below(apart.min(e) / 128);
    let turn = rng.below(6);
    let line = |place: u32| first + (turn + place) % 6 * apart;
    let size = rng.pick(&[4, 8]);
    let across = 64 - 1 - rng.below(size - 1);
    let read = |place| Op::Unaligned(Unaligned::Read { size, address: line(place) + across });
    let mut ops = vec![Op::Direct(Command::Freeze { frozen: 0 })];
    ops.extend([read(0), read(1)]);
    for place in 2..4 {
        let value = rng.below(256).into();
        ops.push(Op::Direct(Command::Write { size: 1, address: line(place), value }));
    }
    ops.extend([read(0), read(4)]);
    ops
}

/// Transfers over lines that the caches hold. In turn lists from fresh that are set against flat
/// memory, with places that the CPU shares and with lines of SRAM that become dirty; such lists that drop lines, each
/// byte that is read keeping to its history; random records; and now and then the edges.
fn transfers(rng: &mut Rng, group: u64, met: &mut Met) -> Option<Case> {
    let mode = LEGAL_MODES[group as usize % LEGAL_MODES.len()];
    match group % 16 {
        15 => return transfer_edges(rng, group / 16, met),
        3 | 7 | 11 => return transfers_on_records(rng, group / 4, mode, met),
        _ => {}
    }
    let with_sram: Vec<u32> = LEGAL_L.into_iter().filter(|&l| sram_size(l, mode) > 0).collect();
    let l = if mode == 7 { LEGAL_L[7] } else { rng.pick(&with_sram) };
    let e = [65_536, 8_192, 6 * 65_536, 1_024][group as usize / 4 % 4];
    let drops = group % 4 == 2;
    let all = if drops { Mix::ALL } else { Mix::NO_DROPS };
    let mix = Mix {
        l2_all: 4,
        l2_block_writeback: 10,
        mode: 3,
        mar: 8,
        freeze: 40,
        transfer: 250,
        ..all
    };
    let mut ext = vec![0; e as usize];
    rng.fill(&mut ext);
    let setup = Setup::fresh_over(l, ext);
    let bit = u32::from(rng.chance(7, 8));
    let begin = [Command::Mar { number: 128, bit }, Command::Mode { mode }];
    let mut ops = begin.map(Op::Direct).to_vec();
    let mut lines = hot(rng, l, e);
    for _ in 0..lines.lines.len() / 2 {
        let line = 64 * rng.below(8) + 8_192 * rng.below(4);
        lines.lines.extend([line, line ^ 64]);
    }
    for _ in 0..250 {
        match rng.below(60) {
            0 => {
                let count = rng.below(12) as usize;
                let trace = gen::trace(rng, &lines, &mix, count, TraceKind::Valid).bytes;
                ops.push(Op::RunAndSingleCalls { trace, answer_bytes: 10 * count });
            }
            1..=6 => ops.extend(shared_place(rng, &lines).into_iter().map(single_op)),
            7 => ops.push(Op::View { address: look_address(rng, &lines), buffer: 64 }),
            8..=15 => ops.extend(held_line(rng, &lines)),
            16..=24 => ops.extend(over_a_held_line(rng)),
            _ => ops.push(some_single(rng, &lines, &mix)),
        }
    }
    check(Start { flat: !drops, history: drops, ..plain(rng, setup) }, ops, met)
}

/// A hot line comes into L1D, and most often becomes dirty.
fn held_line(rng: &mut Rng, lines: &Hot) -> Vec<Op> {
    let (size, address) = (4, rng.pick(&lines.lines) + 4 * rng.below(16));
    let mut ops = vec![Op::Direct(Command::Read { size, address })];
    if rng.chance(3, 4) {
        let value = rng.next_u32().into();
        ops.push(Op::Direct(Command::Write { size, address, value }));
    }
    ops
}

/// A line of SRAM comes into L1D, which now and then is frozen then, and a transfer goes over some
/// of its bytes, and most often over some beside it.
fn over_a_held_line(rng: &mut Rng) -> Vec<Op> {
    let line = 64 * rng.below(8) + 8_192 * rng.below(4);
    let lines = Hot { l: 0, e: 0, lines: vec![line], program: Vec::new() };
    let mut ops = vec![Op::Direct(Command::Freeze { frozen: 0 })];
    ops.extend(held_line(rng, &lines));
    if rng.chance(1, 3) {
        ops.push(Op::Direct(Command::Freeze { frozen: 1 }));
    }
    let address = (line + 4 * rng.below(16)).saturating_sub(rng.pick(&[0, 0, 32, 64]));
    let length = 4 * (1 + rng.below(40) as usize);
    ops.push(transfer_either(rng, address, length));
    ops
}

/// Transfers from any record, over lines that it holds, each made a second time in its parts. Every
/// twelfth group comes to the border of the MAR ranges; then they are made once.
fn transfers_on_records(rng: &mut Rng, turn: u64, mode: u32, met: &mut Met) -> Option<Case> {
    let large = turn % 12 == 11;
    // The longest fits into SRAM where all of the largest L2 is SRAM.
    let l = if mode == 0 && turn % 2 == 0 { LEGAL_L[7] } else { l_for(rng, mode) };
    let e = match turn % 3 {
        _ if large => e_at_the_border(rng),
        // Room for the longest there.
        0 => 262_144 + 128 * rng.below(600),
        _ => small_e(rng),
    };
    let setup = Setup::random(rng, l, e);
    let mut ops = Vec::new();
    for _ in 0..6 {
        let record = well_formed_record_in_mode(rng, l, e, mode);
        let lines = hot_for(rng, &record);
        ops.push(Op::Record(record));
        for _ in 0..12 {
            ops.push(Op::Transfer(transfer(rng, &lines)));
        }
        for external in [false, true] {
            let (base, bytes) = if external { (EXTERNAL_BASE, e) } else { (0, sram_size(l, mode)) };
            if bytes >= LONGEST_TRANSFER as u32 {
                let address = base + 4 * rng.below((bytes - LONGEST_TRANSFER as u32) / 4 + 2);
                ops.push(transfer_either(rng, address, LONGEST_TRANSFER));
            }
        }
        if large {
            let back = 4 * (1 + rng.below(64));
            let address = EXTERNAL_BASE + RANGE_BYTES - back;
            ops.push(transfer_either(rng, address, 4 * (back as usize / 4 + 8)));
        }
    }
    check(Start { moves: !large, ..plain(rng, setup) }, ops, met)
}

/// Frames over lines that the caches hold. In turn lists from fresh with frames in a row, which are
/// set against flat memory; such lists that drop lines, where the sums are the camera's all the same;
/// lists with drops in which bytes are set against their history, where refused frames alone are
/// made; random records; and the edges.
fn frames(rng: &mut Rng, group: u64, met: &mut Met) -> Option<Case> {
    let mode = LEGAL_MODES[group as usize % LEGAL_MODES.len()];
    match group % 8 {
        3 => return frame_edges(rng, group / 8, met),
        1 | 5 => return frames_on_records(rng, group / 4, mode, met),
        _ => {}
    }
    let l = l_for(rng, mode);
    let drops = group % 8 == 2;
    // Frames are left out of lists with histories, but where they are refused.
    let history = drops && group % 16 == 2;
    let e = match group / 8 % 4 {
        _ if rng.chance(if history { 12 } else { 1 }, 16) => LEAST_EXTERNAL - 128,
        0 => LEAST_EXTERNAL,
        1 => 8_192,
        2 => 65_536,
        _ => crowded_e(mode),
    };
    let all = if drops { Mix::ALL } else { Mix::NO_DROPS };
    let mix = Mix { l2_all: 4, l2_block_writeback: 10, mode: 6, frame: 60, ..all };
    let mut ext = vec![0; e as usize];
    rng.fill(&mut ext);
    let setup = Setup::fresh_over(l, ext);
    let bit = u32::from(rng.chance(3, 4));
    let begin = [Command::Mar { number: 128, bit }, Command::Mode { mode }];
    let mut ops = begin.map(Op::Direct).to_vec();
    let mut lines = hot(rng, l, e);
    // The places of frames among the others, and lines in the same sets.
    for turn in 0..lines.lines.len() as u32 {
        let place = place_of(rng.below(2) as u8) + 64 * rng.below(48);
        let line = place + turn % 4 * 8_192;
        lines.lines.push(if line < EXTERNAL_BASE + e { line } else { place });
    }
    for _ in 0..120 {
        match rng.below(40) {
            0 => {
                let count = rng.below(12) as usize;
                let trace = gen::trace(rng, &lines, &mix, count, TraceKind::Valid).bytes;
                ops.push(Op::RunAndSingleCalls { trace, answer_bytes: 10 * count });
            }
            1 | 2 => ops.extend(frames_in_a_row(rng, e).into_iter().map(single_op)),
            3 => ops.extend(shared_place(rng, &lines).into_iter().map(single_op)),
            4 => ops.extend(full_sets(rng, mode)),
            5 => ops.push(Op::View { address: look_address(rng, &lines), buffer: 64 }),
            6..=9 => ops.extend(held_line(rng, &lines)),
            // A frame's place is taken out behind it, by way of both commands or without them.
            10 => {
                let drawn = Frame { length: FRAME_BYTES, ..frame(rng) };
                ops.push(Op::Frame(drawn));
                let (base, count) = (place_of(drawn.turn), FRAME_BYTES as u32 / 4);
                if rng.chance(2, 3) {
                    ops.push(Op::Direct(Command::L2BlockWritebackInvalidate { base, count }));
                    ops.push(Op::Direct(Command::L1dBlockWritebackInvalidate { base, count }));
                }
                ops.push(transfer_either(rng, base, FRAME_BYTES));
                ops.push(Op::Direct(Command::Read { size: 4, address: base }));
            }
            _ => ops.push(some_single(rng, &lines, &mix)),
        }
    }
    check(Start { flat: !drops, history, ..plain(rng, setup) }, ops, met)
}

/// Four lines come into the sets of one line of a frame's place, in both caches where they have room:
/// the frame puts some of them out. Each is read, written, or both.
fn full_sets(rng: &mut Rng, mode: u32) -> Vec<Op> {
    let apart = crowded_e(mode) / 6;
    let first = place_of(rng.below(2) as u8) + 64 * rng.below(48);
    let mut ops = Vec::new();
    for turn in 1..=4 {
        let (size, address) = (4, first + turn * apart);
        let read = Op::Direct(Command::Read { size, address });
        let write = Op::Direct(Command::Write { size, address, value: rng.next_u32().into() });
        ops.extend(match rng.below(3) {
            0 => vec![read],
            1 => vec![write],
            _ => vec![read, write],
        });
    }
    ops
}

/// Frames from any record, most of which hold lines of both places, each made a second time by its
/// calls.
fn frames_on_records(rng: &mut Rng, turn: u64, mode: u32, met: &mut Met) -> Option<Case> {
    let l = l_for(rng, mode);
    let e = match turn % 4 {
        0 => LEAST_EXTERNAL,
        1 => crowded_e(mode),
        2 => 65_536,
        _ => LEAST_EXTERNAL + 128 * rng.below(200),
    };
    let setup = Setup::random(rng, l, e);
    let mut ops = Vec::new();
    for _ in 0..6 {
        let record = well_formed_record_in_mode(rng, l, e, mode);
        let lines = hot_for(rng, &record);
        ops.push(Op::Record(record));
        for _ in 0..3 {
            ops.extend(full_sets(rng, mode));
            ops.push(Op::Frame(frame(rng)));
            if rng.chance(1, 2) {
                ops.extend(held_line(rng, &lines));
            }
        }
    }
    check(Start { moves: true, ..plain(rng, setup) }, ops, met)
}

/// Numbers 19 and 20 at their edges, and both due at once: every length around 3,072 and around 0,
/// and lengths that no buffer has, with external memory around 6,144 bytes and any turn.
fn frame_edges(rng: &mut Rng, turn: u64, met: &mut Met) -> Option<Case> {
    let l = LEGAL_L[turn as usize % LEGAL_L.len()];
    let e = match turn % 5 {
        0 => LEAST_EXTERNAL - 128,
        1 => LEAST_EXTERNAL,
        2 => LEAST_EXTERNAL + 128,
        3 => 128 * (1 + rng.below(47)),
        _ => FRAME_BYTES as u32,
    };
    let setup = Setup::random(rng, l, e);
    let around = (FRAME_BYTES - 4..=FRAME_BYTES + 4).chain(0..4);
    let many = [64, 1_536, 3_008, 3_136, 6_144, 4_096, FRAME_BYTES + 256, FRAME_BYTES + 65_536];
    let huge = [huge_length(rng), FRAME_BYTES + (1 << 32), usize::MAX];
    let mut ops = Vec::new();
    for length in around.chain(many).chain(huge) {
        for turn in [0, 1, rng.next_u32() as u8] {
            ops.push(Op::Frame(Frame { turn, length, filling: rng.next_u64() }));
        }
    }
    // Whatever the turn, the place goes by its last bit.
    for turn in [2, 3, 127, 128, 254, 255] {
        let length = if rng.chance(1, 2) { FRAME_BYTES } else { frame_length(rng) };
        ops.push(Op::Frame(Frame { turn, length, filling: Frame::WHITE }));
    }
    check(plain(rng, setup), ops, met)
}

/// Fetches beside data. In turn lists from fresh which are set against flat memory; such lists that
/// drop lines, with and without histories; and random records, where each fetch is made a second
/// time over other bytes.
fn fetches(rng: &mut Rng, group: u64, met: &mut Met) -> Option<Case> {
    let mode = LEGAL_MODES[group as usize % LEGAL_MODES.len()];
    if group % 4 == 1 {
        return fetches_on_records(rng, group / 4, mode, met);
    }
    let l = l_for(rng, mode);
    let drops = group % 4 == 2;
    let e = [crowded_e(mode), 65_536, 8_192][(group / 4 % 3) as usize];
    let all = if drops { Mix::ALL } else { Mix::NO_DROPS };
    let mix = Mix { fetch: 700, l1p_invalidate: 60, l2_all: 6, mode: 6, frame: 2, ..all };
    let mut ext = vec![0; e as usize];
    rng.fill(&mut ext);
    let setup = Setup::fresh_over(l, ext);
    let begin = [Command::Mar { number: 128, bit: 1 }, Command::Mode { mode }];
    let mut ops = begin.map(Op::Direct).to_vec();
    let mut lines = crowded(rng, mode, l, e);
    for _ in 0..500 {
        match rng.below(200) {
            0 => lines = hot(rng, l, e),
            1 => lines = crowded(rng, mode, l, e),
            2 => ops.push(Op::Fresh),
            3..=5 => ops.extend(shared_place(rng, &lines).into_iter().map(single_op)),
            6..=9 => {
                let count = rng.below(16) as usize;
                let trace = gen::trace(rng, &lines, &mix, count, TraceKind::Valid).bytes;
                ops.push(Op::RunAndSingleCalls { trace, answer_bytes: 10 * count });
            }
            10..=25 => ops.extend(held_program(rng, &lines)),
            26 => ops.push(Op::View { address: look_address(rng, &lines), buffer: 64 }),
            32..=37 if e == crowded_e(mode) => ops.extend(fetches_put_out(rng, mode)),
            27..=31 => {
                let (number, bit) = (128, rng.below(2));
                ops.push(Op::Direct(Command::Mar { number, bit }));
            }
            _ => ops.push(some_single(rng, &lines, &mix)),
        }
    }
    let history = drops && group % 8 == 2;
    check(Start { flat: !drops, history, ..plain(rng, setup) }, ops, met)
}

/// All four lines of one L2 line are fetched, a word of it is read and written, and a command or an
/// access comes that may drop them, or may not; then they are fetched again.
fn held_program(rng: &mut Rng, lines: &Hot) -> Vec<Op> {
    let line = L2::line_address(rng.pick(&lines.lines));
    let places: Vec<u32> = (0..L2::LINE).step_by(L1p::LINE as usize).collect();
    let fetch = |place: &u32| Op::Program(Program::Fetch { address: line + place });
    let mut ops: Vec<Op> = places.iter().map(fetch).collect();
    let (size, address) = (4, line + 4 * rng.below(32));
    if rng.chance(1, 2) {
        ops.push(Op::Direct(Command::Read { size, address }));
    }
    ops.push(Op::Direct(Command::Write { size, address, value: rng.next_u32().into() }));
    let (base, count) = (address, 1 + rng.below(32));
    ops.push(match rng.below(8) {
        0 => Op::Direct(Command::L2BlockWriteback { base, count }),
        1 | 2 => Op::Direct(Command::L2BlockWritebackInvalidate { base, count }),
        3 => Op::Direct(Command::L1dBlockWritebackInvalidate { base, count }),
        4 => Op::Program(Program::InvalidateBlock { base, count }),
        5 => Op::Direct(Command::L2WritebackAll),
        6 => Op::Direct(Command::L2WritebackInvalidateAll),
        // A line that puts it out of L1P, and may do so in L2.
        _ => Op::Program(Program::Fetch { address: line.wrapping_add(16_384) }),
    });
    ops.extend(places.iter().map(fetch));
    ops
}

/// A line is read and written, and fetches of four more in its set of L2 put it out: it is dirty by the
/// half that L1D holds.
fn fetches_put_out(rng: &mut Rng, mode: u32) -> Vec<Op> {
    let apart = crowded_e(mode) / 6;
    let (size, address) = (4, EXTERNAL_BASE + L2::LINE * rng.below(apart / L2::LINE));
    let value = rng.next_u32().into();
    let begin = [Command::Read { size, address }, Command::Write { size, address, value }];
    let fetch = |turn| Op::Program(Program::Fetch { address: address + turn * apart });
    begin.map(Op::Direct).into_iter().chain((1..=4).map(fetch)).collect()
}

/// Fetches from any record, made a second time over other bytes.
fn fetches_on_records(rng: &mut Rng, turn: u64, mode: u32, met: &mut Met) -> Option<Case> {
    let l = l_for(rng, mode);
    let e = [crowded_e(mode), 65_536, 1_024][(turn % 3) as usize];
    let setup = Setup::random(rng, l, e);
    let mix = Mix { fetch: 900, l1p_invalidate: 40, mode: 0, frame: 0, ..Mix::ALL };
    let mut ops = Vec::new();
    for _ in 0..8 {
        let record = well_formed_record_in_mode(rng, l, e, mode);
        let lines = hot_for(rng, &record);
        ops.push(Op::Record(record));
        for _ in 0..20 {
            ops.push(some_single(rng, &lines, &mix));
        }
    }
    check(Start { moves: true, ..plain(rng, setup) }, ops, met)
}

fn global_writeback(rng: &mut Rng) -> Command {
    rng.pick(&[Command::L2WritebackAll, Command::L2WritebackInvalidateAll])
}

// ----------------------------------------------------------------- traces

/// Traces of every kind, with answer buffers of every length around a multiple
/// of 10; each run is followed by the same commands as single calls.
fn traces(rng: &mut Rng, group: u64, met: &mut Met) -> Option<Case> {
    let mode = LEGAL_MODES[group as usize % LEGAL_MODES.len()];
    let l = l_for(rng, mode);
    let e = small_e(rng).min(65_536);
    if group % 160 == 80 {
        let setup = setup_in_mode(rng, mode, l, e);
        let ops = long_traces(rng, &setup);
        return check(plain(rng, setup), ops, met);
    }
    if group % 8 == 4 {
        return flat_traces(rng, l, e, met);
    }
    let setup = if group % 4 == 0 {
        let mut ext = vec![0; e as usize];
        rng.fill(&mut ext);
        Setup::fresh_over(l, ext)
    } else {
        setup_in_mode(rng, mode, l, e)
    };
    let lines = hot_for(rng, &setup.record);
    let mut ops = Vec::new();
    for turn in 0..8 {
        let kind = TRACE_KINDS[(group as usize + turn) % TRACE_KINDS.len()];
        let count = rng.below(16) as usize;
        let made = gen::trace(rng, &lines, &Mix::ALL, count, kind);
        let answer_bytes = match rng.below(4) {
            0 => rng.below(10 * count as u32 + 31) as usize,
            1 => (10 * count + rng.below(23) as usize).saturating_sub(11),
            2 => 10 * rng.below(count as u32 + 2) as usize,
            _ => 10 * (count + 60),
        };
        ops.push(Op::RunAndSingleCalls { trace: made.bytes, answer_bytes });
    }
    // One trace against every length up to past its answers.
    let count = 1 + rng.below(3) as usize;
    let made = gen::trace(rng, &lines, &Mix::ALL, count, TraceKind::Valid);
    for answer_bytes in 0..10 * count + 12 {
        ops.push(Op::Run { trace: made.bytes.clone(), answer_bytes });
    }
    // 11 comes before 12, and 12 before 3 to 10.
    let mut refused = Vec::new();
    encode(&Command::Read { size: 3, address: 0 }, &mut refused);
    for answer_bytes in [0, 9, 10, 19] {
        ops.push(Op::Run { trace: refused.clone(), answer_bytes });
        let twice = [refused.clone(), refused.clone()].concat();
        ops.push(Op::Run { trace: twice, answer_bytes });
        let damaged = [refused.clone(), vec![13]].concat();
        ops.push(Op::Run { trace: damaged, answer_bytes });
        ops.push(Op::Run { trace: vec![0, 0x80], answer_bytes });
        // 17 as well: it is answered as 3 to 10 are.
        ops.push(Op::Run { trace: vec![12], answer_bytes });
        ops.push(Op::Run { trace: vec![12, 2, 12, 1, 12], answer_bytes });
        ops.push(Op::Run { trace: vec![], answer_bytes });
    }
    check(plain(rng, setup), ops, met)
}

/// Runs from a fresh start that end in a global writeback, set against flat memory
/// too.
fn flat_traces(rng: &mut Rng, l: u32, e: u32, met: &mut Met) -> Option<Case> {
    let mut ext = vec![0; e as usize];
    rng.fill(&mut ext);
    let setup = Setup::fresh_over(l, ext);
    let lines = hot(rng, l, e);
    let mut modes = LEGAL_MODES.to_vec();
    modes.retain(|&mode| mode_is_legal(l, mode));
    let mut ops = Vec::new();
    for turn in 0..8 {
        let mut trace = Vec::new();
        if turn == 0 {
            encode(&Command::Mar { number: 128, bit: 1 }, &mut trace);
        }
        if turn == 0 || rng.chance(1, 3) {
            encode(&Command::Mode { mode: rng.pick(&modes) }, &mut trace);
        }
        let count = rng.below(40) as usize;
        trace.extend(gen::trace(rng, &lines, &Mix::NO_DROPS, count, TraceKind::Valid).bytes);
        encode(&global_writeback(rng), &mut trace);
        ops.push(Op::RunAndSingleCalls { trace, answer_bytes: 10 * (count + 3) });
    }
    check(Start { flat: true, ..plain(rng, setup) }, ops, met)
}

/// A trace of 20,000 bytes, with answer bytes for all of it and for a part.
fn long_traces(rng: &mut Rng, setup: &Setup) -> Vec<Op> {
    let lines = hot_for(rng, &setup.record);
    let mut trace = Vec::new();
    let mut count = 0;
    while trace.len() < 20_000 {
        encode(&command(rng, &lines, &Mix::ALL), &mut trace);
        count += 1;
    }
    let part = 10 * (count - rng.below(count / 4)) as usize - 1;
    vec![
        Op::RunAndSingleCalls { trace: trace.clone(), answer_bytes: 10 * count as usize },
        Op::Run { trace, answer_bytes: part },
    ]
}

// --------------------------------------------------------------- refusals

fn refusals(rng: &mut Rng, group: u64, met: &mut Met) -> Option<Case> {
    match group % 7 {
        0 => ill_formed(rng, group / 7, met),
        1 => odd_bytes(rng, group / 7, met),
        2 => wrong_lengths(rng, group / 7, met),
        3 => senseless(rng, group / 7, met),
        4 => edges(rng, group / 7, met),
        5 => mar_edges(rng, met),
        _ => changed(rng, group / 7, met),
    }
}

/// One call of every kind, and some that get a higher number where a 1 or a 2 does not come
/// first.
fn every_call() -> Vec<Op> {
    let (base, count) = (EXTERNAL_BASE, 16);
    let commands = [
        Command::Read { size: 4, address: 0 },
        Command::Write { size: 4, address: EXTERNAL_BASE, value: 7 },
        Command::L2WritebackAll,
        Command::L2WritebackInvalidateAll,
        Command::L2BlockWriteback { base, count },
        Command::L2BlockWritebackInvalidate { base, count },
        Command::L2BlockInvalidate { base, count },
        Command::L1dBlockWritebackInvalidate { base, count },
        Command::L1dBlockInvalidate { base, count },
        Command::L1dInvalidateAll,
        Command::Mode { mode: 0 },
        Command::Mar { number: 128, bit: 1 },
        Command::Freeze { frozen: 1 },
        Command::Read { size: 3, address: 1 },
        Command::Mode { mode: 5 },
        Command::Mar { number: 7, bit: 7 },
        Command::Freeze { frozen: 7 },
        Command::L2BlockWriteback { base: 2, count: 70_000 },
    ];
    let accesses = [
        Unaligned::Read { size: 4, address: 1 },
        Unaligned::Write { size: 8, address: EXTERNAL_BASE + 61, value: 7 },
        Unaligned::Read { size: 2, address: 0 },
        Unaligned::Write { size: 4, address: u32::MAX, value: 7 },
        Unaligned::Write { size: 4, address: EXTERNAL_BASE, value: u64::MAX },
    ];
    let transfers = [
        (Direction::In, 64, 8),
        (Direction::Out, EXTERNAL_BASE, 128),
        (Direction::Out, 64, 64),
        (Direction::In, 2, 0),
        (Direction::Out, EXTERNAL_BASE, 6),
        (Direction::In, EXTERNAL_BASE, usize::MAX),
        (Direction::Out, EXTERNAL_BASE - 4, 8),
    ]
    .map(|(direction, address, length)| Transfer { direction, address, length, filling: 7 });
    let frames = [(0, FRAME_BYTES), (7, FRAME_BYTES - 1), (255, usize::MAX)]
        .map(|(turn, length)| Frame { turn, length, filling: 7 });
    let others = accesses.map(Op::Unaligned).into_iter().chain(transfers.map(Op::Transfer));
    let others = others.chain(frames.map(Op::Frame));
    commands.map(Op::Direct).into_iter().chain(others).collect()
}

/// The same of L1P.
fn every_program_call() -> Vec<Op> {
    let programs = [
        Program::Fetch { address: EXTERNAL_BASE + 32 },
        Program::Fetch { address: 31 },
        Program::Fetch { address: EXTERNAL_BASE - 1 },
        Program::Fetch { address: EXTERNAL_BASE - 32 },
        Program::InvalidateBlock { base: EXTERNAL_BASE, count: 9 },
        Program::InvalidateBlock { base: 2, count: 70_000 },
        Program::InvalidateAll,
    ];
    programs.map(Op::Program).into()
}

/// Every kind of call, and some more.
fn some_calls(rng: &mut Rng, lines: &Hot, fresh_too: bool) -> Vec<Op> {
    let mut ops = every_call();
    ops.extend(every_program_call());
    for _ in 0..4 {
        ops.push(some_single(rng, lines, &Mix::ALL));
    }
    for kind in [TraceKind::Valid, TraceKind::UnknownCode] {
        let made = gen::trace(rng, lines, &Mix::ALL, 3, kind);
        ops.push(Op::RunAndSingleCalls { trace: made.bytes, answer_bytes: rng.pick(&[0, 5, 40]) });
    }
    for buffer in [64, 63, 100] {
        ops.push(Op::View { address: look_address(rng, lines), buffer });
    }
    if fresh_too {
        ops.push(Op::Fresh);
        ops.push(Op::Direct(Command::Read { size: 8, address: 0 }));
    }
    ops
}

/// Two or three calls of any kind.
fn few_calls(rng: &mut Rng, lines: &Hot) -> Vec<Op> {
    let direct = if rng.chance(1, 2) {
        let mut every = every_call();
        every.swap_remove(rng.below(every.len() as u32) as usize)
    } else {
        some_single(rng, lines, &Mix::ALL)
    };
    let mut ops = vec![direct];
    let mut aside = rng.aside();
    if aside.chance(1, 4) {
        let mut every = every_program_call();
        ops.push(every.swap_remove(aside.below(every.len() as u32) as usize));
    }
    if rng.chance(1, 2) {
        ops.push(Op::View { address: look_address(rng, lines), buffer: view_buffer(rng) });
    } else {
        let trace = gen::trace(rng, lines, &Mix::ALL, 2, TraceKind::Valid).bytes;
        ops.push(Op::RunAndSingleCalls { trace, answer_bytes: rng.pick(&[0, 10, 20, 25]) });
    }
    ops
}

/// Records in which one clause of the paragraph is broken: every fault that can
/// stand in this mode, over one set of memories.
fn ill_formed(rng: &mut Rng, turn: u64, met: &mut Met) -> Option<Case> {
    let (mode, l, e) = mode_and_sizes(rng, turn, 12);
    let setup = setup_in_mode(rng, mode, l, e);
    let lines = hot_for(rng, &setup.record);
    let mut ops = Vec::new();
    for fault in FAULTS {
        // Fewer groups have lines in the range of MAR 129.
        for _ in 0..if e >= RANGE_BYTES { 5 } else { 2 } {
            // Some sizes leave no room for a fault; others do.
            let Some(record) = ill_formed_record(rng, l, e, mode, fault) else { break };
            let record = in_bytes(record);
            met.count_fault(fault, record.mode);
            ops.push(Op::Record(record));
            ops.extend(few_calls(rng, &lines));
        }
    }
    // Few sizes leave room for this one in mode 3: it is tried more often.
    let mut aside = rng.aside();
    for _ in 0..4 {
        let above = ill_formed_record(&mut aside, l, e, mode, Fault::CacheAboveL);
        let Some(record) = above else { break };
        met.count_fault(Fault::CacheAboveL, record.mode);
        ops.push(Op::Record(record));
        ops.extend(few_calls(&mut aside, &lines));
    }
    ops.push(Op::Fresh);
    ops.push(Op::Direct(Command::Read { size: 8, address: 0 }));
    check(plain(rng, setup), ops, met)
}

/// A byte that stands for a bool and is neither 0 nor 1.
fn odd_bytes(rng: &mut Rng, turn: u64, met: &mut Met) -> Option<Case> {
    let (mode, l, e) = mode_and_sizes(rng, turn, 36);
    let mut setup = Setup::random(rng, l, e);
    for _ in 0..if e >= RANGE_BYTES { 1 } else { 6 } {
        setup.redraw_record_in_mode(rng, mode);
        let mut start = plain(rng, setup.clone());
        for _ in 0..rng.pick(&[1, 1, 1, 2, 40]) {
            let (l1d, l2) = (rng.below(128) as usize, rng.below(512) as usize);
            let place = match rng.below(9) {
                0 => OddPlace::Mar128,
                1 => OddPlace::Mar129,
                8 => OddPlace::Frozen,
                2 | 3 => OddPlace::L1dValid { set: l1d, way: rng.below(2) as usize },
                4 => OddPlace::L1dDirty { set: l1d, way: rng.below(2) as usize },
                5 | 6 => OddPlace::L2Valid { set: l2, way: rng.below(4) as usize },
                _ => OddPlace::L2Dirty { set: l2, way: rng.below(4) as usize },
            };
            let value = rng.pick(&[2, 3, 4, 127, 128, 129, 254, 255]);
            let mut aside = rng.aside();
            let set = aside.below(512) as usize;
            let place = match aside.below(8) {
                0 => OddPlace::L1pValid { set },
                1 => OddPlace::L1pDirty { set },
                _ => place,
            };
            start.odd.push(OddByte { place, value });
        }
        // A wrong length comes first, an ill-formed record beside it does not matter.
        if rng.chance(1, 3) {
            let wrong = rng.pick(&WRONG_LENGTHS);
            make_length_wrong(rng, &mut start.setup, wrong);
        }
        if rng.chance(1, 4) {
            start.setup.record.mode = 4 + rng.below(3);
        }
        let lines = hot(rng, l, e);
        let ops = some_calls(rng, &lines, true);
        let case = check(start, ops, met);
        if case.is_some() {
            return case;
        }
    }
    None
}

/// A lent length that is illegal or unlike the record's; a record that is ill
/// formed too gets the same number.
fn wrong_lengths(rng: &mut Rng, turn: u64, met: &mut Met) -> Option<Case> {
    let (mode, l, e) = mode_and_sizes(rng, turn, 36);
    let mut setup = setup_in_mode(rng, mode, l, e);
    make_length_wrong(rng, &mut setup, WRONG_LENGTHS[turn as usize % WRONG_LENGTHS.len()]);
    if rng.chance(1, 4) {
        let wrong = rng.pick(&WRONG_LENGTHS);
        if setup.ext.len() > 256 && setup.record.e > 256 {
            make_length_wrong(rng, &mut setup, wrong);
        }
    }
    match rng.below(4) {
        0 => setup.record.mode = 99,
        1 => setup.record.l1d[5].order = [1, 1],
        _ => {}
    }
    let lines = hot(rng, l, e);
    let ops = some_calls(rng, &lines, true);
    check(plain(rng, setup), ops, met)
}

/// A record of no sense at all, over memories of any length.
fn senseless(rng: &mut Rng, turn: u64, met: &mut Met) -> Option<Case> {
    let (_, l, e) = mode_and_sizes(rng, turn, 36);
    let mut setup = Setup {
        record: in_bytes(senseless_record(rng, l, e)),
        l1d: vec![1; if rng.chance(7, 8) { 16_384 } else { rng.below(40_000) as usize }],
        l2: vec![2; if rng.chance(7, 8) { l } else { rng.below(300_000) } as usize],
        ext: vec![3; if rng.chance(7, 8) { e } else { rng.below(300_000) } as usize],
        l1p: vec![4; 16_384],
    };
    let mut aside = rng.aside();
    if aside.chance(1, 8) {
        setup.l1p.resize(aside.below(40_000) as usize, 4);
    }
    if rng.chance(1, 8) {
        setup.record.l = rng.next_u32();
    }
    if rng.chance(1, 8) {
        setup.record.e = rng.next_u32();
    }
    let lines = hot(rng, l, e);
    let fresh_too = rng.chance(1, 2);
    let ops = some_calls(rng, &lines, fresh_too);
    check(plain(rng, setup), ops, met)
}

/// Well-formed records with a field or two changed, whatever comes of it: both
/// sides have to agree on which of them are still well formed.
fn changed(rng: &mut Rng, turn: u64, met: &mut Met) -> Option<Case> {
    let (mode, l, e) = mode_and_sizes(rng, turn, 12);
    let mut setup = Setup::random(rng, l, e);
    let mut ops = Vec::new();
    for _ in 0..20 {
        setup.redraw_record_in_mode(rng, mode);
        let mut record = setup.record.clone();
        for _ in 0..rng.pick(&[1, 1, 1, 2, 3]) {
            change(rng, &mut record);
        }
        // Lines that come and go would otherwise leave no record well formed.
        if rng.chance(3, 4) {
            record.write_counts();
        }
        let lines = hot_for(rng, &record);
        ops.push(Op::Record(record));
        ops.push(Op::Direct(Command::Read { size: 1, address: EXTERNAL_BASE }));
        for _ in 0..rng.below(4) {
            ops.push(some_single(rng, &lines, &Mix::ALL));
        }
        ops.push(Op::View { address: look_address(rng, &lines), buffer: 64 });
    }
    check(plain(rng, setup), ops, met)
}

/// Changes one field of a record: more often one that says something.
fn change(rng: &mut Rng, record: &mut Record) {
    let near = |rng: &mut Rng, address: u32| match rng.below(8) {
        0 => address ^ 64,
        1 => address ^ 128,
        2 => address.wrapping_add(8_192),
        3 => address.wrapping_add(65_536),
        4 => address.wrapping_add(1 << rng.below(32)),
        5 => address ^ EXTERNAL_BASE,
        6 => 0,
        _ => EXTERNAL_BASE.wrapping_add(rng.next_u32() >> rng.below(32)),
    };
    let sets = (L2::sets(record.mode) as u32 + 2).min(512);
    let (l1d, way) = (rng.below(128) as usize, rng.below(2) as usize);
    let (l2, l2_way) = (rng.below(sets) as usize, rng.below(4) as usize);
    let mut aside = rng.aside();
    if aside.chance(1, 5) {
        return change_l1p(&mut aside, record);
    }
    match rng.below(18) {
        17 => {
            let count = if rng.chance(1, 2) { &mut record.dirty_l1d } else { &mut record.dirty_l2 };
            *count = count.wrapping_add(rng.pick(&[1, 2, u32::MAX, 256, 1 << 16]));
        }
        16 => record.frozen = rng.pick(&[0, 1, 2, 3, 255]),
        0 => record.mode = rng.pick(&[0, 1, 2, 3, 4, 5, 6, 7, 8, 255]),
        1 => record.mar128 = rng.pick(&[0, 1, 2]),
        2 => record.mar129 = rng.pick(&[0, 1, 255]),
        3 => record.l1d[l1d].order[way] = rng.below(3) as u8,
        4 => record.l2[l2].order[l2_way] = rng.below(5) as u8,
        5 => record.l2[l2].order.swap(0, l2_way),
        6 => record.l1d[l1d].lines.swap(0, 1),
        7 => record.l2[l2].lines.swap(0, l2_way),
        8 => record.l1d[l1d].lines[way] = Line::EMPTY,
        9 | 10 => record.l2[l2].lines[l2_way] = Line::EMPTY,
        11 => record.l1d[l1d].lines[way].valid ^= true,
        12 => record.l2[l2].lines[l2_way].valid ^= true,
        13 => record.l1d[l1d].lines[way].dirty ^= true,
        14 => {
            let address = record.l1d[l1d].lines[way].address;
            record.l1d[l1d].lines[way].address = near(rng, address);
        }
        _ => {
            let address = record.l2[l2].lines[l2_way].address;
            record.l2[l2].lines[l2_way].address = near(rng, address);
        }
    }
}

/// The same of a line of L1P.
fn change_l1p(rng: &mut Rng, record: &mut Record) {
    let line = &mut record.l1p[rng.below(512) as usize].lines[0];
    match rng.below(10) {
        0 => *line = Line::EMPTY,
        1 => line.valid ^= true,
        2 => line.dirty ^= true,
        3 => line.address = 0,
        4 => line.address ^= EXTERNAL_BASE,
        // The next line, and the next one of the set.
        5 => line.address ^= L1p::LINE,
        6 | 7 => line.address = line.address.wrapping_add(16_384),
        _ => line.address = line.address.wrapping_add(1 << rng.below(32)),
    }
}

/// Numbers 3 to 8, 13 to 15, 17, 19 and 20 at their edges, and several due at once.
fn edges(rng: &mut Rng, turn: u64, met: &mut Met) -> Option<Case> {
    let l = LEGAL_L[turn as usize % LEGAL_L.len()];
    let e = rng.pick(&[128, 256, 65_536, 8_192]);
    let setup = Setup::random(rng, l, e);
    let s = setup.record.sram_size();
    let mut ops = Vec::new();
    let ends = [0, s, l, EXTERNAL_BASE, EXTERNAL_BASE.wrapping_add(e), u32::MAX, 0xFFFF_FFF8];
    for size in [0, 1, 2, 3, 4, 5, 7, 8, 9, 16, 256, 257, 258, 260, 264, u32::MAX] {
        for end in ends {
            let back = rng.pick(&[0, 1, 2, 4, 8, size, size.wrapping_sub(1), size.wrapping_mul(2)]);
            let address = end.wrapping_sub(back);
            ops.push(Op::Direct(Command::Read { size, address }));
            let bits = 8 * size.min(8);
            let bound = if bits == 64 { 0 } else { 1u64 << bits };
            let value = rng.pick(&[0, bound, bound.wrapping_sub(1), bound + 1, u64::MAX, 255, 256]);
            ops.push(Op::Direct(Command::Write { size, address, value }));
            let address = end.wrapping_sub(rng.below(17));
            ops.push(unaligned_either(rng, size, address, value));
        }
    }
    // Every way across an end, and a value that is just too wide.
    for size in [4, 8] {
        for end in ends {
            for back in 0..=size {
                let value = rng.pick(&[7, u64::from(u32::MAX), 1 << 32]);
                ops.push(unaligned_either(rng, size, end.wrapping_sub(back), value));
            }
        }
    }
    // Of transfers 4, 13 and 14, each also where a later one is due.
    for end in ends {
        for length in [0, 3, 4, 8, 64, LONGEST_TRANSFER + 4] {
            let back = rng.pick(&[0, 2, 4, length as u32]);
            ops.push(transfer_either(rng, end.wrapping_sub(back), length));
        }
    }
    for length in [0, FRAME_BYTES - 1, FRAME_BYTES, FRAME_BYTES + 1, usize::MAX] {
        let (turn, filling) = (rng.next_u32() as u8, rng.next_u64());
        ops.push(Op::Frame(Frame { turn, length, filling }));
    }
    // All of 3 to 6 at once, and one less each time.
    let outside = EXTERNAL_BASE.wrapping_add(e);
    for (size, address, value) in [
        (3, outside + 1, u64::MAX),
        (2, outside + 1, u64::MAX),
        (2, outside, u64::MAX),
        (2, EXTERNAL_BASE, u64::MAX),
        (2, EXTERNAL_BASE, 65_536),
        (2, EXTERNAL_BASE, 65_535),
        (1, EXTERNAL_BASE, 256),
        (1, EXTERNAL_BASE, 255),
        (4, EXTERNAL_BASE, 1 << 32),
        (4, EXTERNAL_BASE, (1 << 32) - 1),
        (8, EXTERNAL_BASE, u64::MAX),
    ] {
        ops.push(Op::Direct(Command::Write { size, address, value }));
        for address in [address, address + 1] {
            ops.push(unaligned_either(rng, size, address, value));
        }
    }
    let bases = [0, 1, 2, 3, 4, EXTERNAL_BASE, EXTERNAL_BASE + 2, 0xFFFF_FFFC, 0xFFFF_FFFF];
    for base in bases {
        for count in [0, 1, 65_535, 65_536, 65_537, 1 << 30, 1 << 31, u32::MAX] {
            ops.push(Op::Program(Program::InvalidateBlock { base, count }));
            let command = match rng.below(5) {
                0 => Command::L2BlockWriteback { base, count },
                1 => Command::L2BlockWritebackInvalidate { base, count },
                2 => Command::L2BlockInvalidate { base, count },
                3 => Command::L1dBlockWritebackInvalidate { base, count },
                _ => Command::L1dBlockInvalidate { base, count },
            };
            ops.push(Op::Direct(command));
        }
    }
    for end in ends {
        for back in [0, 1, 16, 31, 32, 33, 64] {
            for address in [end.wrapping_sub(back), L1p::line_address(end.wrapping_sub(back))] {
                ops.push(Op::Program(Program::Fetch { address }));
            }
        }
    }
    for mode in [0, 1, 2, 3, 4, 5, 6, 7, 8, 9, 255, 256, 257, 263, 1 << 16, u32::MAX] {
        ops.push(Op::Direct(Command::Mode { mode }));
    }
    for frozen in [0, 2, 1, 3, 17, 128, 255, 256, 257, 1 << 16, 1 << 31, u32::MAX, 0] {
        ops.push(Op::Direct(Command::Freeze { frozen }));
        ops.push(Op::Direct(Command::Read { size: 4, address: EXTERNAL_BASE }));
    }
    for address in [0, 32, 64, s.wrapping_sub(64), s.wrapping_sub(32), s, EXTERNAL_BASE, outside] {
        for address in [address, address.wrapping_sub(64), address.wrapping_add(1)] {
            ops.push(Op::View { address, buffer: view_buffer(rng) });
        }
    }
    check(plain(rng, setup), ops, met)
}

/// Numbers 4, 13 and 14 of transfers at their edges, and several due at once: every length around
/// 0 and around the longest, and lengths that no buffer has, at the ends of both memories.
fn transfer_edges(rng: &mut Rng, turn: u64, met: &mut Met) -> Option<Case> {
    let l = LEGAL_L[if turn % 2 == 0 { 7 } else { turn as usize / 2 % LEGAL_L.len() }];
    let e = rng.pick(&[128, 8_192, 65_536, 262_144, 262_272, 393_216]);
    let mut setup = Setup::random(rng, l, e);
    if turn % 2 == 0 {
        setup.redraw_record_in_mode(rng, 0);
    }
    let s = setup.record.sram_size();
    let short = (0..=9).chain([60, 62, 64, 68, 124, 128, 132, 256]);
    let long = (LONGEST_TRANSFER - 4..=LONGEST_TRANSFER + 8).chain([524_288, 1 << 20]);
    let huge = [huge_length(rng), huge_length(rng), usize::MAX];
    let mut ops = Vec::new();
    for length in short.chain(long).chain(huge) {
        let bytes = length as u32;
        for (begin, end) in [(0, s), (EXTERNAL_BASE, EXTERNAL_BASE + e), (l, 0)] {
            // A long buffer takes its time.
            let more = if length > 1_000 { 1 } else { 3 };
            let last = end.wrapping_sub(bytes);
            let places = [begin, last, last.wrapping_add(4), end, begin.wrapping_sub(4)];
            for place in places {
                if rng.chance(more, 3) {
                    ops.push(transfer_either(rng, place, length));
                }
            }
            let aside = rng.pick(&places).wrapping_add(1 + rng.below(3));
            ops.push(transfer_either(rng, aside, length));
        }
    }
    check(plain(rng, setup), ops, met)
}

/// Numbers 9 and 10 at their edges: with and without a line of the range.
fn mar_edges(rng: &mut Rng, met: &mut Met) -> Option<Case> {
    let large = rng.chance(1, 40);
    let l = rng.pick(&LEGAL_L);
    let e = if large { E_BOTH_RANGES } else { rng.pick(&[128, 8_192, 65_536]) };
    let setup = Setup::random(rng, l, e);
    let mut ops = Vec::new();
    let far = if large { 0x0100_0000 } else { 0 };
    for number in [0, 127, 128, 129, 130, 255, 256, 384, 385, u32::MAX] {
        for bit in [0, 1, 2, 3, 255, 256, 257, u32::MAX] {
            ops.push(Op::Direct(Command::Mar { number, bit }));
            if rng.chance(1, 4) {
                let address = EXTERNAL_BASE + if rng.chance(1, 2) { far } else { 0 };
                ops.push(Op::Direct(Command::Read { size: 1, address }));
            }
            let mut aside = rng.aside();
            if aside.chance(1, 4) {
                let address = EXTERNAL_BASE + if aside.chance(1, 2) { far } else { 0 };
                // The bit stays while L1P holds the line.
                let of_range = |bit| Op::Direct(Command::Mar { number: address >> 24, bit });
                let fetch = Op::Program(Program::Fetch { address });
                match aside.below(3) {
                    0 => ops.extend([of_range(1), fetch, of_range(0)]),
                    _ => ops.push(fetch),
                }
            }
            if aside.chance(1, 8) {
                ops.push(Op::Program(Program::InvalidateAll));
            }
            if rng.chance(1, 6) {
                ops.push(Op::Direct(Command::L1dInvalidateAll));
            }
            if rng.chance(1, 6) {
                ops.push(Op::Direct(Command::L2WritebackInvalidateAll));
            }
        }
    }
    check(plain(rng, setup), ops, met)
}

// ------------------------------------------------------------------ views

fn views(rng: &mut Rng, group: u64, met: &mut Met) -> Option<Case> {
    let large = group % 64 == 63;
    let l = rng.pick(&LEGAL_L);
    let e = if large { E_BOTH_RANGES } else { small_e(rng) };
    let setup = Setup::random(rng, l, e);
    let lines = hot_for(rng, &setup.record);
    let mut ops = Vec::new();
    for _ in 0..120 {
        ops.push(Op::View { address: look_address(rng, &lines), buffer: view_buffer(rng) });
        if rng.chance(1, 8) {
            ops.push(some_single(rng, &lines, &Mix::ALL));
        }
    }
    for buffer in [0, 1, 32, 62, 63, 64, 65, 66, 127, 128, 1_000] {
        ops.push(Op::View { address: 0, buffer });
        ops.push(Op::View { address: EXTERNAL_BASE, buffer });
        ops.push(Op::View { address: 1, buffer });
    }
    check(plain(rng, setup), ops, met)
}

// ------------------------------------------------------------- short runs

/// From which group on, and up to which one, short runs are carried out: 47
/// groups of 100 are enough for all, which `main` sees to.
const CARRIED_OUT: (u64, u64) = (2, 2 + 47);
const RUNS_OF_A_GROUP: usize = 100;

/// All numbers and all runs once, then all runs carried out; every later group
/// asks for numbers and runs of any kind.
fn short_runs(rng: &mut Rng, group: u64, met: &mut Met) -> Option<Case> {
    match group {
        0 => asked(rng, every_number(), met),
        1 => asked(rng, every_run(), met),
        _ if group < CARRIED_OUT.1 => {
            let first = (group - CARRIED_OUT.0) as usize * RUNS_OF_A_GROUP;
            let last = (first + RUNS_OF_A_GROUP).min(short_runs::list().len());
            (first..last).find_map(|number| carried_out(rng, number, met))
        }
        _ => {
            let ops = (0..500).flat_map(|_| [some_number(rng), some_run(rng)]).collect();
            asked(rng, ops, met)
        }
    }
}

/// These calls are lent no chip: the smallest one is enough for them.
fn asked(rng: &mut Rng, ops: Vec<Op>, met: &mut Met) -> Option<Case> {
    let start = plain(rng, Setup::fresh(32_768, 128));
    check(start, ops, met)
}

/// The numbers of all runs, many above them, and the edges of 8, 16, 31 and 32
/// bits.
fn every_number() -> Vec<Op> {
    let edges = [8, 16, 31].map(|bits| 1u32 << bits);
    let around = edges.into_iter().flat_map(|edge| [edge - 1, edge, edge + 1]);
    // A number that is taken by its last 16 bits would be one of a run.
    let wrapped = [65_536 + 4_680, 1 << 24, u32::MAX - 4_680, u32::MAX];
    (0..=6_000).chain(around).chain(wrapped).map(Op::ShortRunOf).collect()
}

/// Every run, and each with one digit too high, or with one digit too many.
fn every_run() -> Vec<Op> {
    let mut ops = Vec::new();
    for (number, run) in short_runs::list().iter().enumerate() {
        ops.push(Op::ShortRunNumber(run.clone()));
        let mut other = run.clone();
        match other.len() {
            4 if number % 2 == 0 => other.push(number as u8 % 8),
            0 => other.push(8),
            length => other[number % length] += 8,
        }
        ops.push(Op::ShortRunNumber(other));
    }
    ops
}

/// A number of a run, one just above them, or any.
fn some_number(rng: &mut Rng) -> Op {
    Op::ShortRunOf(match rng.below(4) {
        0 => rng.below(4_681),
        1 => 4_681 + rng.below(200),
        2 => rng.next_u32() >> rng.below(32),
        _ => rng.next_u32(),
    })
}

/// Digits of any length up to 300, most of them short; they are digits, or 8
/// now and then, or any bytes.
fn some_run(rng: &mut Rng) -> Op {
    let length = match rng.below(4) {
        0 | 1 => rng.below(6),
        2 => rng.below(40),
        _ => rng.below(301),
    };
    let bound = rng.pick(&[8, 8, 9, 256]);
    Op::ShortRunNumber((0..length).map(|_| rng.below(bound) as u8).collect())
}

/// The run of this number, carried out from fresh with MAR 128 set: after each
/// command the record and all bytes are compared, and what the chip reads is
/// set against flat memory. The two external bytes that it touches are not those
/// that it writes there to begin with, so that a write is always seen.
fn carried_out(rng: &mut Rng, number: usize, met: &mut Met) -> Option<Case> {
    let mut ext = vec![0; 65_536];
    rng.fill(&mut ext);
    ext[0] |= 0x80;
    ext[0x2000] |= 0x40;
    let setup = Setup::fresh_over(65_536, ext);
    let start = Start { flat: true, ..plain(rng, setup) };
    let mut ops = vec![Op::ShortRunOf(number as u32), Op::Fresh, Op::Direct(short_runs::BEFORE)];
    for &digit in &short_runs::list()[number] {
        ops.push(Op::Direct(short_runs::command_of(digit).expect("a digit of the list")));
    }
    let case = check(start, ops, met);
    met.short_runs += u64::from(case.is_none());
    case
}

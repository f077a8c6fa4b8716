//! The section `two-runs`: one list of single calls, made twice through the
//! boundary, and the two runs set against each other (02, U8). The reference
//! model has no part in it but to draw records and calls.
//!
//! "two runs that differ only in stored or written data, with each written value
//! fitting its size in both, share all refusals, servers, counts and the record.
//! Where they differ only in one byte of external memory at the start, ... they
//! differ afterwards in no byte of any answer, of external memory, of SRAM or of
//! a valid line that doesn't stand for that address."

use std::panic::{catch_unwind, AssertUnwindSafe};

use oracle::fetches::FETCHED_BYTES;
use oracle::frames::{place_of, COLUMNS, FRAME_BYTES};
use oracle::gen::{
    code, crowded, crowded_e, hot_for, ill_formed_record, l_for, look_address, make_length_wrong,
    single, well_formed_record_in_mode, Frame, Hot, Mix, Rng, Setup, Single, Transfer,
    E_BOTH_RANGES, FAULTS, LEGAL_MODES, WRONG_LENGTHS,
};
use oracle::geometry::{
    external_offset, sram_size, L1d, L1p, EXTERNAL_BASE, L1D_BYTES, L1P_BYTES, L2,
};
use oracle::record::{L1dSet, L1pSet, L2Set, Line, Record};
use oracle::{Command, Program, Unaligned};

use crate::boundary::{
    self, record_difference, record_of, Buffer, CAnswer, CLeft, CLine, Held, Lent,
};
use crate::now;
use crate::pair::Met;
use crate::plant;
use crate::report::{
    command_words, frame_words, left, program_words, record_words, transfer_words, unaligned_words,
};
use crate::sections::in_bytes;
use crate::shrink::{Counts, Size};

/// A single call: trace runs and U7's writer are left out. Of a write, the value
/// that the second run writes; of a transfer, the filling of its buffer there, and of a frame that
/// of its pixels.
#[derive(Clone, PartialEq, Eq)]
enum Step {
    Fresh,
    Direct { command: Command, other: u64 },
    Unaligned { access: Unaligned, other: u64 },
    Transfer { transfer: Transfer, other: u64 },
    Frame { frame: Frame, other: u64 },
    Program(Program),
    View { address: u32 },
}

/// What the two runs differ in.
#[derive(Clone, Copy, PartialEq, Eq)]
enum Differ {
    /// In data: the bytes that are lent to the second run are drawn from this
    /// seed, and its writes have values of their own.
    Data { filling: u64 },
    /// In one byte of external memory at the start, which is so much more in the
    /// second run.
    OneByte { offset: usize, more: u8 },
}

#[derive(Clone, PartialEq, Eq)]
struct Case {
    record: Box<Record>,
    /// The lengths of L1D, L2, external memory and L1P.
    lengths: [usize; 4],
    /// The seed of the bytes that are lent to the first run; 0 for bytes that are 0.
    filling: u64,
    differ: Differ,
    steps: Vec<Step>,
}

/// What is wrong, and in words. A case that is made smaller keeps its kind.
#[derive(Clone, Copy, PartialEq, Eq)]
enum Kind {
    Number,
    Server,
    Report,
    Record,
    Value,
    Viewed,
    Buffer,
    Turn,
    Sums,
    External,
    Sram,
    L1dLine,
    L2Line,
    L1pLine,
    Fetched,
    Panic,
}

struct Wrong {
    kind: Kind,
    what: String,
}

/// How many cases a group has.
const CASES: u64 = 4;

/// Runs one group; a difference, made small and in words.
pub fn group(rng: &mut Rng, group: u64, met: &mut Met) -> Option<String> {
    for turn in group * CASES..(group + 1) * CASES {
        let case = some_case(rng, turn);
        let mut reached = 0;
        if let Some(wrong) = check(&case, met, &mut reached) {
            return Some(words(&smallest(case, wrong, reached)));
        }
    }
    None
}

// ------------------------------------------------------------------ cases

/// A case: every mode in turn, data and one byte in turn; from a fresh start, from
/// an ill-formed record or wrong lengths now and then, mostly from any record.
fn some_case(rng: &mut Rng, turn: u64) -> Case {
    let mode = LEGAL_MODES[turn as usize % LEGAL_MODES.len()];
    let l = l_for(rng, mode);
    let large = turn % 128 == 127;
    // One in four has lines that put each other out.
    let crowd = turn % 4 == 3 && !large;
    let e = if large {
        E_BOTH_RANGES
    } else if crowd {
        crowded_e(mode)
    } else {
        rng.pick(&[128, 256, 1_024, 8_192, 65_536, 65_536, 131_072, 6 * 65_536])
    };
    let mut setup = Setup {
        record: well_formed_record_in_mode(rng, l, e, mode),
        l1d: vec![0; L1D_BYTES],
        l2: vec![0; l as usize],
        ext: vec![0; e as usize],
        l1p: vec![0; L1P_BYTES],
    };
    let mut lines = if crowd { crowded(rng, mode, l, e) } else { hot_for(rng, &setup.record) };
    let differ = if turn / 5 % 2 == 0 {
        Differ::Data { filling: rng.next_u64() }
    } else {
        Differ::OneByte { offset: some_offset(rng, &mut lines), more: 1 + rng.below(255) as u8 }
    };
    let mut steps = Vec::new();
    match rng.below(16) {
        0..=3 => {
            let mar = |number| Command::Mar { number, bit: 1 };
            let begin = [mar(128), mar(129), Command::Mode { mode }];
            steps.push(Step::Fresh);
            steps.extend(begin.map(|command| Step::Direct { command, other: 0 }));
        }
        4 => {
            let fault = rng.pick(&FAULTS);
            if let Some(record) = ill_formed_record(rng, l, e, mode, fault) {
                setup.record = in_bytes(record);
            }
        }
        5 => {
            let wrong = rng.pick(&WRONG_LENGTHS);
            make_length_wrong(rng, &mut setup, wrong);
        }
        _ => {}
    }
    let least = if crowd { 120 } else { 20 };
    for _ in 0..if large { 30 } else { least + rng.below(150) } {
        steps.push(some_step(rng, &lines, &differ));
    }
    let lengths = [setup.l1d.len(), setup.l2.len(), setup.ext.len(), setup.l1p.len()];
    Case { record: setup.record, lengths, filling: rng.next_u64(), differ, steps }
}

/// A byte of external memory in a line that calls come back to; from here on they
/// do so more often.
fn some_offset(rng: &mut Rng, lines: &mut Hot) -> usize {
    let external: Vec<u32> =
        lines.lines.iter().copied().filter(|&line| line >= EXTERNAL_BASE).collect();
    // Now and then one of a frame's place.
    let frames = 2 * FRAME_BYTES as u32;
    let line = if lines.e >= frames && rng.chance(1, 6) {
        EXTERNAL_BASE + L1d::LINE * rng.below(frames / L1d::LINE)
    } else if external.is_empty() {
        EXTERNAL_BASE
    } else {
        rng.pick(&external)
    };
    let offset = external_offset(line).min(lines.e as usize - 64) + rng.below(64) as usize;
    for _ in 0..lines.lines.len() {
        lines.lines.push(line ^ rng.pick(&[0, 0, 64]));
    }
    offset
}

fn some_step(rng: &mut Rng, lines: &Hot, differ: &Differ) -> Step {
    match rng.below(200) {
        0 => Step::Fresh,
        1..=16 => Step::View { address: look_address(rng, lines) },
        _ => {
            // A byte that is written, or comes in, is soon the same in both runs.
            let mix = match differ {
                Differ::Data { .. } => Mix { frame: 8, ..Mix::ALL },
                Differ::OneByte { .. } => Mix { write: 40, transfer: 30, frame: 8, ..Mix::ALL },
            };
            let drawn = single(rng, lines, &mix);
            let other = match (drawn, differ) {
                (
                    Single::Command(Command::Write { size, value, .. })
                    | Single::Unaligned(Unaligned::Write { size, value, .. }),
                    Differ::Data { .. },
                ) => other_value(rng, size, value),
                (
                    Single::Command(Command::Write { value, .. })
                    | Single::Unaligned(Unaligned::Write { value, .. }),
                    Differ::OneByte { .. },
                ) => value,
                (Single::Transfer(_), Differ::Data { .. }) => rng.next_u64(),
                // "each in transfer's buffer being the same in both"
                (Single::Transfer(transfer), Differ::OneByte { .. }) => transfer.filling,
                // Pixels are such a buffer.
                (Single::Frame(_), Differ::Data { .. }) => rng.next_u64(),
                (Single::Frame(frame), Differ::OneByte { .. }) => frame.filling,
                _ => 0,
            };
            match drawn {
                Single::Command(command) => Step::Direct { command, other },
                Single::Unaligned(access) => Step::Unaligned { access, other },
                Single::Transfer(transfer) => Step::Transfer { transfer, other },
                Single::Frame(frame) => Step::Frame { frame, other },
                Single::Program(call) => Step::Program(call),
            }
        }
    }
}

/// Another value, which fits its size if the first one does: that both fail to fit
/// is asked too.
fn other_value(rng: &mut Rng, size: u32, value: u64) -> u64 {
    let bound = match size {
        1 | 2 | 4 => 1u64 << (8 * size),
        _ => return rng.next_u64(),
    };
    if value < bound {
        rng.next_u64() % bound
    } else {
        bound + rng.next_u64() % (u64::MAX - bound)
    }
}

// ------------------------------------------------------------- comparison

/// One of the two runs.
struct Run {
    record: Box<Held>,
    l1d: Vec<u8>,
    l2: Vec<u8>,
    ext: Vec<u8>,
    l1p: Vec<u8>,
}

/// What a call answered: number, server and value, what a view shows, what a transfer's buffer
/// holds after it, the next turn and the sums of a frame, and what left L1P for a fetch and its
/// bytes.
struct Said {
    answer: CAnswer,
    seen: [u8; L1d::LINE as usize],
    buffer: Vec<u8>,
    turn: u8,
    sums: [u32; COLUMNS],
    l1p_left: CLeft,
    fetched: [u8; FETCHED_BYTES],
}

impl Run {
    fn new(case: &Case, filling: u64) -> Run {
        let mut rng = Rng::new(filling);
        let mut memory = |length: usize| {
            let mut bytes = vec![0; length];
            if filling != 0 {
                rng.fill(&mut bytes);
            }
            bytes
        };
        let [l1d, l2, ext, l1p] = case.lengths.map(&mut memory);
        Run { record: Held::new(&record_of(&case.record)), l1d, l2, ext, l1p }
    }

    fn step(&mut self, step: &Step, second: bool) -> Said {
        let mut seen = [0; L1d::LINE as usize];
        let mut held = Vec::new();
        let (mut turn, mut sums) = (0, [0; COLUMNS]);
        let (mut l1p_left, mut line) = (CLeft::NONE, [0; FETCHED_BYTES]);
        let lent =
            Lent { l1d: &mut self.l1d, l2: &mut self.l2, ext: &mut self.ext, l1p: &mut self.l1p };
        let answer = match step {
            Step::Fresh => boundary::fresh(&mut self.record, lent),
            Step::Direct { command, other } => {
                let command = match *command {
                    Command::Write { size, address, .. } if second => {
                        Command::Write { size, address, value: *other }
                    }
                    command => command,
                };
                let mut answer = boundary::direct(&mut self.record, &command, lent);
                let lent = Lent {
                    l1d: &mut self.l1d,
                    l2: &mut self.l2,
                    ext: &mut self.ext,
                    l1p: &mut self.l1p,
                };
                plant::steered(&command, &mut answer, &mut self.record, lent);
                answer
            }
            Step::Unaligned { access, other } => {
                let access = match *access {
                    Unaligned::Write { size, address, .. } if second => {
                        Unaligned::Write { size, address, value: *other }
                    }
                    access => access,
                };
                let mut answer = boundary::unaligned(&mut self.record, &access, lent);
                plant::steered_unaligned(&access, &mut answer, &self.ext);
                answer
            }
            Step::Transfer { transfer, other } => {
                let filling = if second { *other } else { transfer.filling };
                let transfer = Transfer { filling, ..*transfer };
                let mut buffer = Buffer::of(&transfer);
                let mut answer = boundary::transfer(&mut self.record, &transfer, &mut buffer, lent);
                let bytes = buffer.bytes_mut();
                plant::steered_transfer(&transfer, &mut answer, bytes, &self.ext);
                held = buffer.bytes().to_vec();
                answer
            }
            Step::Frame { frame, other } => {
                let filling = if second { *other } else { frame.filling };
                let frame = Frame { filling, ..*frame };
                let mut pixels = Buffer::of_frame(&frame);
                let mut framed = boundary::frame(&mut self.record, &frame, &mut pixels, lent);
                plant::steered_frame(&mut framed, pixels.bytes(), &self.ext);
                (turn, sums) = (framed.turn, framed.sums);
                CAnswer::refused(framed.number)
            }
            Step::Program(call) => {
                let mut fetched = boundary::program(&mut self.record, call, lent);
                plant::steered_fetch(call, &mut fetched, &self.ext);
                (l1p_left, line) = (fetched.l1p_left, fetched.bytes);
                fetched.answer
            }
            Step::View { address } => {
                let number = boundary::view(&self.record, *address, &self.l2, &self.ext, &mut seen);
                plant::steered_view(*address, number, &mut seen, &self.ext);
                CAnswer::refused(number)
            }
        };
        Said { answer, seen, buffer: held, turn, sums, l1p_left, fetched: line }
    }
}

/// The first thing that is wrong with a case; a panic is wrong too. `reached` is
/// the number of the present call.
fn check(case: &Case, met: &mut Met, reached: &mut usize) -> Option<Wrong> {
    match catch_unwind(AssertUnwindSafe(|| compare(case, met, reached))) {
        Ok(Ok(())) => None,
        Ok(Err(wrong)) => Some(wrong),
        Err(_) => Some(Wrong { kind: Kind::Panic, what: now::last_panic() }),
    }
}

fn compare(case: &Case, met: &mut Met, reached: &mut usize) -> Result<(), Wrong> {
    let mut one = Run::new(case, case.filling);
    let mut other = match case.differ {
        Differ::Data { filling } => Run::new(case, filling),
        Differ::OneByte { offset, more } => {
            let mut other = Run::new(case, case.filling);
            // A memory of the wrong length may lack the byte.
            if let Some(byte) = other.ext.get_mut(offset) {
                *byte = byte.wrapping_add(more);
            }
            other
        }
    };
    for (place, step) in case.steps.iter().enumerate() {
        *reached = place;
        let (said, other_said) = (one.step(step, false), other.step(step, true));
        met.calls += 2;
        shared(&one, &said, &other, &other_said)?;
        if let Step::Direct { command, .. } = step {
            met.two_runs.codes[usize::from(code(command))] += 1;
            met.two_runs.numbers[usize::from(said.answer.number)] += 1;
            // An ill-formed record may have no mode at all.
            met.two_runs.modes[usize::from(one.record.mode) % 8] += 1;
            let frozen = u64::from(one.record.frozen == 1);
            met.two_runs.frozen[usize::from(said.answer.server)] += frozen;
            for (kinds, left) in
                met.two_runs.left.iter_mut().zip([said.answer.l1d_left, said.answer.l2_left])
            {
                kinds[usize::from(left.kind) % 4] += 1;
            }
        }
        let parted = said.answer.value != other_said.answer.value;
        if let (Step::Unaligned { access, .. }, 0) = (step, said.answer.number) {
            met.two_runs.unaligned[usize::from(access.is_write())] += 1;
            let one_byte = matches!(case.differ, Differ::OneByte { .. });
            met.two_runs.unaligned_parted += u64::from(parted && one_byte);
        }
        if let (Step::Transfer { transfer, .. }, 0) = (step, said.answer.number) {
            met.two_runs.transfers[usize::from(transfer.is_in())] += 1;
            let one_byte = matches!(case.differ, Differ::OneByte { .. });
            let parted = said.buffer != other_said.buffer;
            met.two_runs.transfers_parted += u64::from(parted && one_byte);
        }
        if let (Step::Frame { frame, .. }, 0) = (step, said.answer.number) {
            match case.differ {
                Differ::Data { .. } => met.two_runs.frames[0] += 1,
                Differ::OneByte { offset, .. } => {
                    met.two_runs.frames[1] += 1;
                    let from = external_offset(place_of(frame.turn));
                    let over = (from..from + FRAME_BYTES).contains(&offset);
                    met.two_runs.frames_over += u64::from(over);
                }
            }
        }
        if let (Step::Program(Program::Fetch { .. }), 0) = (step, said.answer.number) {
            let one_byte = matches!(case.differ, Differ::OneByte { .. });
            met.two_runs.fetches[usize::from(one_byte)] += 1;
            let parted = said.fetched != other_said.fetched;
            met.two_runs.fetches_parted += u64::from(parted && one_byte);
        }
        match case.differ {
            Differ::Data { .. } => met.two_runs.data += 1,
            Differ::OneByte { offset, .. } => {
                met.two_runs.one_byte += 1;
                let parted = parted || said.seen != other_said.seen;
                met.two_runs.parted += u64::from(parted);
                same_answer_but(EXTERNAL_BASE + offset as u32, step, &said, &other_said)?;
                same_state_but(offset, &one, &other, met)?;
            }
        }
    }
    Ok(())
}

fn expect(kind: Kind, same: bool, what: impl FnOnce() -> String) -> Result<(), Wrong> {
    if same {
        Ok(())
    } else {
        Err(Wrong { kind, what: what() })
    }
}

/// "share all refusals, servers, counts and the record". The report (02, U2) has counts, and
/// what left a way is seen of the caches as the record is.
fn shared(one: &Run, said: &Said, other: &Run, other_said: &Said) -> Result<(), Wrong> {
    let (ours, theirs) = (said.answer, other_said.answer);
    expect(Kind::Number, ours.number == theirs.number, || {
        format!("the number is {} in one run, {} in the other", ours.number, theirs.number)
    })?;
    expect(Kind::Server, ours.server == theirs.server, || {
        format!("the server is {} in one run, {} in the other", ours.server, theirs.server)
    })?;
    expect(Kind::Turn, said.turn == other_said.turn, || {
        format!("the turn is {} in one run, {} in the other", said.turn, other_said.turn)
    })?;
    let (ours, theirs) = (said.l1p_left, other_said.l1p_left);
    expect(Kind::Report, ours == theirs, || {
        format!("the report of L1P is {ours:?} in one run, {theirs:?} in the other")
    })?;
    let (ours, theirs) = (said.answer.report(), other_said.answer.report());
    expect(Kind::Report, ours == theirs, || {
        format!("the report is {ours:?} in one run, {theirs:?} in the other")
    })?;
    expect(Kind::Record, **one.record == **other.record, || {
        format!("the records differ: {}", record_difference(&one.record, &other.record))
    })
}

/// Where two stretches of bytes differ in one that does not stand for address x;
/// the first byte stands for `from`. A byte that stands for no address may not
/// differ either: `from` is `None`.
fn differs(one: &[u8], other: &[u8], from: Option<u32>, x: u32) -> Option<usize> {
    if one == other {
        return None;
    }
    let stands = |place: usize| from.is_some_and(|from| u64::from(from) + place as u64 == x.into());
    one.iter().zip(other).enumerate().position(|(place, (a, b))| a != b && !stands(place))
}

/// "in no byte of any answer ... that doesn't stand for that address": byte k of
/// what a read of n bytes at a answers stands for a + k, for k below n; byte k of
/// what a view of the line at a shows, of a fetch at a, or of the buffer of a transfer at a, for a + k. Sums stand
/// for no address: the pixels are the same in both runs, and so are they.
fn same_answer_but(x: u32, step: &Step, said: &Said, other: &Said) -> Result<(), Wrong> {
    let (ours, theirs) = (said.answer.value.to_le_bytes(), other.answer.value.to_le_bytes());
    let (read, rest) = match *step {
        Step::Direct { command: Command::Read { size, address }, .. }
        | Step::Unaligned { access: Unaligned::Read { size, address }, .. } => {
            let size = size.min(8) as usize;
            (differs(&ours[..size], &theirs[..size], Some(address), x), size)
        }
        _ => (None, 0),
    };
    let behind = differs(&ours[rest..], &theirs[rest..], None, x).map(|place| rest + place);
    if let Some(place) = read.or(behind) {
        let (ours, theirs) = (said.answer.value, other.answer.value);
        let what = format!("byte {place} of the value is another: {ours:#x} and {theirs:#x}");
        return Err(Wrong { kind: Kind::Value, what });
    }
    let from = match *step {
        Step::View { address } => Some(address),
        Step::Transfer { transfer, .. } => Some(transfer.address),
        _ => None,
    };
    let moved = differs(&said.buffer, &other.buffer, from, x);
    expect(Kind::Buffer, moved.is_none(), || {
        let place = moved.unwrap_or_default();
        let (ours, theirs) = (said.buffer[place], other.buffer[place]);
        format!("byte {place} of the buffer is another: {ours:#04x} and {theirs:#04x}")
    })?;
    expect(Kind::Sums, said.sums == other.sums, || {
        format!("the sums are {:?} in one run, {:?} in the other", said.sums, other.sums)
    })?;
    let at = match *step {
        Step::Program(Program::Fetch { address }) => Some(address),
        _ => None,
    };
    let fetched = differs(&said.fetched, &other.fetched, at, x);
    expect(Kind::Fetched, fetched.is_none(), || {
        let place = fetched.unwrap_or_default();
        let (ours, theirs) = (said.fetched[place], other.fetched[place]);
        format!("byte {place} of the fetch is another: {ours:#04x} and {theirs:#04x}")
    })?;
    let seen = differs(&said.seen, &other.seen, from, x);
    expect(Kind::Viewed, seen.is_none(), || {
        let place = seen.unwrap_or_default();
        let (ours, theirs) = (said.seen[place], other.seen[place]);
        format!("byte {place} of the view is another: {ours:#04x} and {theirs:#04x}")
    })
}

/// "in no byte ... of external memory, of SRAM or of a valid line that doesn't stand
/// for that address". Bytes of L1D and L2 that are in no valid line may differ.
fn same_state_but(offset: usize, one: &Run, other: &Run, met: &mut Met) -> Result<(), Wrong> {
    let x = EXTERNAL_BASE + offset as u32;
    let found = |kind, name: String, place: Option<usize>| {
        expect(kind, place.is_none(), || {
            format!("byte {} of {name} is another", place.unwrap_or_default())
        })
    };
    let place = differs(&one.ext, &other.ext, Some(EXTERNAL_BASE), x);
    found(Kind::External, "external memory".into(), place)?;
    let record = &one.record;
    let sram = sram_size(record.l2len, record.mode.into()) as usize;
    let (ours, theirs) = (one.l2.get(..sram), other.l2.get(..sram));
    let place = differs(ours.unwrap_or(&one.l2), theirs.unwrap_or(&other.l2), None, x);
    found(Kind::Sram, "SRAM".into(), place)?;
    let mut line = |kind, cache: &str, line: &CLine, from: usize, bytes: (&[u8], &[u8])| {
        let length = match kind {
            Kind::L1dLine => L1d::LINE,
            Kind::L1pLine => L1p::LINE,
            _ => L2::LINE,
        } as usize;
        // An ill-formed record may place a line outside its memory.
        let parts = (bytes.0.get(from..from + length), bytes.1.get(from..from + length));
        let (true, (Some(ours), Some(theirs))) = (line.valid == 1, parts) else { return Ok(()) };
        met.two_runs.held += u64::from(ours != theirs);
        let place = differs(ours, theirs, Some(line.address), x);
        found(kind, format!("the {cache} line at {:#x}", line.address), place)
    };
    for (set, held) in record.l1d.iter().enumerate() {
        for (way, at) in held.lines.iter().enumerate() {
            line(Kind::L1dLine, "L1D", at, L1d::offset(set, way), (&one.l1d, &other.l1d))?;
        }
    }
    let sets = L2::sets(record.mode.into());
    for (set, held) in record.l2.iter().enumerate() {
        for (way, at) in held.lines.iter().enumerate() {
            let from = L2::offset(sram as u32, sets, set, way);
            line(Kind::L2Line, "L2", at, from, (&one.l2, &other.l2))?;
        }
    }
    for (set, held) in record.l1p.iter().enumerate() {
        let from = L1p::offset(set);
        line(Kind::L1pLine, "L1P", &held.lines[0], from, (&one.l1p, &other.l1p))?;
    }
    Ok(())
}

// ---------------------------------------------------------------- smaller

/// How many smaller cases are tried at most.
const TRIES: usize = 4_000;

/// A case that fails, with the call after which it does as its last one.
struct Found {
    case: Case,
    wrong: Wrong,
    tries: usize,
}

impl Found {
    /// Whether the same kind of thing is wrong with this case; if so it is taken,
    /// up to the call after which it is seen.
    fn take(&mut self, mut case: Case) -> bool {
        if self.tries >= TRIES || case == self.case {
            return false;
        }
        self.tries += 1;
        let mut reached = 0;
        match check(&case, &mut Met::default(), &mut reached) {
            Some(wrong) if wrong.kind == self.wrong.kind => {
                case.steps.truncate(reached + 1);
                (self.case, self.wrong) = (case, wrong);
                true
            }
            _ => false,
        }
    }

    /// Tries the case with something changed in it.
    fn change(&mut self, change: impl FnOnce(&mut Case)) -> bool {
        let mut case = self.case.clone();
        let counts = Counts::of(&case.record);
        change(&mut case);
        counts.write(&mut case.record);
        self.take(case)
    }
}

fn smallest(mut case: Case, wrong: Wrong, reached: usize) -> Found {
    // Nothing after the difference matters.
    case.steps.truncate(reached + 1);
    let mut found = Found { case, wrong, tries: 0 };
    loop {
        let before = found.case.clone();
        found.change(|case| case.filling = 0);
        found.change(|case| case.record.frozen = 0);
        fewer_steps(&mut found);
        same_values(&mut found);
        fewer_lines(&mut found);
        if found.case == before || found.tries >= TRIES {
            return found;
        }
    }
}

fn fewer_steps(found: &mut Found) {
    let mut length = found.case.steps.len().div_ceil(2);
    while length > 0 {
        let mut from = 0;
        while from < found.case.steps.len() {
            let to = (from + length).min(found.case.steps.len());
            if !found.change(|case| drop(case.steps.drain(from..to))) {
                from += length;
            }
        }
        length /= 2;
    }
}

/// Lets writes have the same value, transfers the same buffer and frames the same pixels in both
/// runs.
fn same_values(found: &mut Found) {
    for place in 0..found.case.steps.len() {
        found.change(|case| {
            if let Some(
                Step::Direct { command: Command::Write { value, .. }, other }
                | Step::Unaligned { access: Unaligned::Write { value, .. }, other }
                | Step::Transfer { transfer: Transfer { filling: value, .. }, other }
                | Step::Frame { frame: Frame { filling: value, .. }, other },
            ) = case.steps.get_mut(place)
            {
                *other = *value;
            }
        });
    }
}

/// Makes sets of the record fresh, many at once first, then single ways empty.
fn fewer_lines(found: &mut Found) {
    let mut length = 256;
    while length > 0 {
        let sets = L1d::SETS + L2::SETS_HELD + L1p::SETS;
        for from in (0..sets).step_by(length) {
            found.change(|case| {
                let record = &mut case.record;
                for set in from..(from + length).min(sets) {
                    if set < L1d::SETS {
                        record.l1d[set] = L1dSet::FRESH;
                    } else if set < L1d::SETS + L2::SETS_HELD {
                        record.l2[set - L1d::SETS] = L2Set::FRESH;
                    } else {
                        record.l1p[set - L1d::SETS - L2::SETS_HELD] = L1pSet::FRESH;
                    }
                }
            });
        }
        length /= 4;
    }
    for set in 0..L1d::SETS {
        for way in 0..L1d::WAYS {
            found.change(|case| case.record.l1d[set].lines[way] = Line::EMPTY);
        }
    }
    for set in 0..L2::SETS_HELD {
        for way in 0..L2::WAYS {
            found.change(|case| case.record.l2[set].lines[way] = Line::EMPTY);
        }
    }
}

fn words(found: &Found) -> String {
    let Case { record, lengths: [l1d, l2, ext, l1p], filling, differ, steps } = &found.case;
    let ways = record.l1d.iter().flat_map(|set| set.lines);
    let ways = ways.chain(record.l2.iter().flat_map(|set| set.lines));
    let ways = ways.chain(record.l1p.iter().flat_map(|set| set.lines));
    let lines = ways.filter(|line| *line != Line::EMPTY).count();
    let size = Size { calls: steps.len(), lines, ..Size::default() };
    let filled = if *filling == 0 { "all 0" } else { "random" };
    let differ = match differ {
        Differ::Data { .. } => "in the other run random, and other values are written".into(),
        Differ::OneByte { offset, more } => {
            format!("in the other run external byte {offset} ({offset:#x}) is {more:#04x} more")
        }
    };
    let mut text = format!(
        "{}\nmemories: L1D {l1d} L2 {l2} external {ext} L1P {l1p} bytes\n  bytes: {filled}; {differ}\n{}",
        left(&size),
        record_words(record)
    );
    for (place, step) in steps.iter().enumerate() {
        text += &match step {
            Step::Fresh => format!("\n{place}: fresh start"),
            Step::View { address } => format!("\n{place}: view of {address:#x}"),
            Step::Program(call) => format!("\n{place}: {}", program_words(call)),
            Step::Unaligned { access, other } => {
                let words = unaligned_words(access);
                let other = if access.is_write() {
                    format!(", other value {other:#x}")
                } else {
                    String::new()
                };
                format!("\n{place}: {words}{other}")
            }
            Step::Transfer { transfer, other } => {
                let same = if *other == transfer.filling { "the same" } else { "another" };
                format!("\n{place}: {}, in the other run {same}", transfer_words(transfer))
            }
            Step::Frame { frame, other } => {
                let same = if *other == frame.filling { "the same" } else { "others" };
                format!("\n{place}: {}, in the other run {same}", frame_words(frame))
            }
            Step::Direct { command, other } => match command {
                Command::Write { .. } => {
                    format!("\n{place}: {}, other value {other:#x}", command_words(command))
                }
                _ => format!("\n{place}: {}", command_words(command)),
            },
        };
    }
    text + &format!("\nafter call {}: {}", steps.len() - 1, found.wrong.what)
}

#[cfg(test)]
mod tests {
    use super::{check, differs, other_value, Case, Differ, Step};
    use crate::pair::Met;
    use oracle::gen::Rng;
    use oracle::geometry::EXTERNAL_BASE;
    use oracle::{Command, Record};

    #[test]
    fn a_byte_that_stands_for_the_address_may_differ() {
        let (one, other) = ([1, 2, 3], [1, 9, 3]);
        assert_eq!(differs(&one, &other, Some(100), 101), None);
        assert_eq!(differs(&one, &other, Some(100), 100), Some(1));
        assert_eq!(differs(&one, &other, None, 101), Some(1));
        assert_eq!(differs(&one, &one, None, 101), None);
    }

    #[test]
    fn another_value_fits_where_the_first_one_does() {
        let mut rng = Rng::new(1);
        for _ in 0..1_000 {
            assert!(other_value(&mut rng, 1, 255) < 256);
            assert!(other_value(&mut rng, 1, 256) >= 256);
            assert!(other_value(&mut rng, 4, 0) < 1 << 32);
            assert!(other_value(&mut rng, 4, u64::MAX) >= 1 << 32);
        }
    }

    /// A read of the byte differs, and so does its line; nothing else does, and what is
    /// left once the line was dropped is not looked at.
    #[test]
    fn the_byte_itself_is_no_difference() {
        let direct = |command| Step::Direct { command, other: 0 };
        let read = Command::Read { size: 4, address: EXTERNAL_BASE };
        let steps = vec![
            direct(Command::Mar { number: 128, bit: 1 }),
            direct(read),
            Step::View { address: EXTERNAL_BASE },
            direct(Command::L1dInvalidateAll),
        ];
        let case = Case {
            record: Record::fresh(32_768, 128),
            lengths: [16_384, 32_768, 128, 16_384],
            filling: 5,
            differ: Differ::OneByte { offset: 2, more: 1 },
            steps,
        };
        let mut met = Met::default();
        assert!(check(&case, &mut met, &mut 0).is_none());
        // The read, the view; the line after the read and after the view.
        assert_eq!((met.two_runs.parted, met.two_runs.held), (2, 2));
    }
}

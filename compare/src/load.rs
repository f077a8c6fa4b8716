//! The section `load`: loads made on both sides (02, U9), and what was made run
//! over a fresh chip.

use std::mem::{offset_of, size_of};
use std::panic::{catch_unwind, AssertUnwindSafe};

use oracle::gen::{Rng, Setup};
use oracle::geometry::external_length_is_legal;
use oracle::load::{load_trace, Load};
use oracle::trace::ANSWER_BYTES;

use crate::boundary::{self, record_of, Lent};
use crate::now;
use crate::pair::Met;
use crate::plant;
use crate::report::left;
use crate::shrink::Size;

#[repr(C)]
struct CLoad {
    length: usize,
    number: u8,
}

const _: () = assert!(size_of::<CLoad>() == 16 && offset_of!(CLoad, number) == 8);

extern "C" {
    fn c64x_load_trace(
        seed: u32,
        extlen: u32,
        accesses: u64,
        out: *mut u8,
        out_len: usize,
    ) -> CLoad;
}

/// The call, on a part of a buffer.
fn load(case: &Case, out: &mut [u8]) -> Load {
    let Case { seed, e, accesses, .. } = *case;
    let load = unsafe { c64x_load_trace(seed, e, accesses, out.as_mut_ptr(), out.len()) };
    Load { number: load.number, length: load.length }
}

/// One call, and what stands in the output before; 0 for bytes that are 0.
#[derive(Clone, Copy, PartialEq, Eq)]
struct Case {
    seed: u32,
    e: u32,
    accesses: u64,
    length: usize,
    filling: u64,
}

/// What is wrong. A case that is made smaller keeps its kind.
#[derive(Clone, Copy, PartialEq, Eq)]
enum Kind {
    Number,
    Length,
    Byte,
    Outside,
    Run,
    Panic,
}

struct Wrong {
    kind: Kind,
    what: String,
}

fn wrong(kind: Kind, what: String) -> Result<(), Wrong> {
    Err(Wrong { kind, what })
}

/// Bytes on both sides of the output, which no call may touch.
const AROUND: usize = 24;

/// How many cases a group has.
const CASES: u64 = 64;

/// More bytes of external memory than this are not run over.
const RUN_OVER: u32 = 65_536;

/// Runs one group; a difference, made small and in words.
pub fn group(rng: &mut Rng, group: u64, met: &mut Met) -> Option<String> {
    for turn in group * CASES..(group + 1) * CASES {
        let case = made(rng, turn);
        if let Some(found) = check(&case, met) {
            return Some(words(&smallest(case, found)));
        }
    }
    None
}

// ------------------------------------------------------------------ cases

const SEEDS: [u32; 7] = [0, 1, 0x7FFF_FFFF, 0x8000_0000, 0x9E37_79B9, 0x61C8_8647, 0xFFFF_FFFF];

const LEGAL: [u32; 7] = [128, 256, 384, 4_096, 65_536, 33_554_304, 33_554_432];

/// At and beside the borders, and far from them.
const ILLEGAL: [u32; 12] =
    [0, 1, 4, 64, 127, 129, 192, 33_554_431, 33_554_433, 33_554_560, 0x8000_0000, 0xFFFF_FF80];

/// Around the numbers of words and of places back.
const FEW: [u64; 12] = [0, 1, 2, 3, 23, 24, 25, 54, 55, 56, 110, 111];

const MANY: [u64; 6] = [u64::MAX, u64::MAX / 7, 1 << 63, (1 << 32) + 1, 1 << 32, 1_000_000];

fn made(rng: &mut Rng, turn: u64) -> Case {
    let seed = if rng.chance(1, 2) { rng.pick(&SEEDS) } else { rng.next_u32() };
    let e = match turn % 8 {
        0 => rng.pick(&ILLEGAL),
        1 if turn % 16 == 1 => rng.next_u32(),
        2 | 3 => 128 * (1 + rng.below(262_144)),
        _ => rng.pick(&LEGAL),
    };
    let accesses = match rng.below(8) {
        0 => rng.pick(&MANY),
        1..=3 => rng.pick(&FEW),
        7 => rng.below(2_000).into(),
        _ => rng.below(200).into(),
    };
    let case = Case { seed, e, accesses, length: 0, filling: rng.next_u64() };
    let whole = whole(&case);
    let length = match rng.below(8) {
        0..=2 => whole,
        3 | 4 => whole.saturating_sub(1 + rng.below(12) as usize),
        5 => whole + 1 + rng.below(40) as usize,
        6 => rng.below(whole as u32 + 1) as usize,
        _ => 0,
    };
    Case { length, ..case }
}

/// How many bytes the trace has, or the output that is taken for one that none
/// would hold.
fn whole(case: &Case) -> usize {
    if !external_length_is_legal(case.e.into()) {
        return 40;
    }
    let mut out = vec![0; 12 * case.accesses.min(4_000) as usize];
    match load_trace(case.seed, case.e, case.accesses, &mut out) {
        Load { number: 0, length } => length,
        _ => 4_096,
    }
}

// ------------------------------------------------------------- comparison

/// The first thing that is wrong with a case; a panic is wrong too.
fn check(case: &Case, met: &mut Met) -> Option<Wrong> {
    match catch_unwind(AssertUnwindSafe(|| compare(case, met))) {
        Ok(Ok(())) => None,
        Ok(Err(wrong)) => Some(wrong),
        Err(_) => Some(Wrong { kind: Kind::Panic, what: now::last_panic() }),
    }
}

fn compare(case: &Case, met: &mut Met) -> Result<(), Wrong> {
    let mut ours = vec![0; case.length + 2 * AROUND];
    if case.filling != 0 {
        Rng::new(case.filling).fill(&mut ours);
    }
    let mut theirs = ours.clone();
    let out = AROUND..AROUND + case.length;
    let mut called = load(case, &mut ours[out.clone()]);
    plant::load_made(&mut ours[out.clone()], &mut called);
    let expected = load_trace(case.seed, case.e, case.accesses, &mut theirs[out.clone()]);
    met.calls += 1;
    met.loads[[0, 1, 16].iter().position(|&n| n == expected.number).expect("no other")] += 1;
    if called.number != expected.number {
        let (ours, theirs) = (called.number, expected.number);
        return wrong(Kind::Number, format!("number is {ours}, expected {theirs}"));
    }
    if called.length != expected.length {
        let (ours, theirs) = (called.length, expected.length);
        return wrong(Kind::Length, format!("length is {ours}, expected {theirs}"));
    }
    if ours != theirs {
        return Err(bytes_differ(&ours, &theirs, case.length));
    }
    if expected.number == 0 && case.e <= RUN_OVER {
        return run_over(&ours[out][..called.length], case, met);
    }
    Ok(())
}

fn bytes_differ(ours: &[u8], theirs: &[u8], length: usize) -> Wrong {
    let place = ours.iter().zip(theirs).position(|(ours, theirs)| ours != theirs).unwrap_or(0);
    let (is, expected) = (ours[place], theirs[place]);
    let (kind, name) = match place.checked_sub(AROUND) {
        Some(inside) if inside < length => (Kind::Byte, format!("output byte {inside}")),
        Some(behind) => (Kind::Outside, format!("byte {} behind the output", behind - length)),
        None => (Kind::Outside, format!("byte {} in front of the output", AROUND - place)),
    };
    Wrong { kind, what: format!("{name} is {is:#04x}, expected {expected:#04x}") }
}

/// A fresh chip with that external memory carries every access out.
fn run_over(trace: &[u8], case: &Case, met: &mut Met) -> Result<(), Wrong> {
    let mut setup = Setup::fresh(32_768, case.e);
    let mut record = record_of(&setup.record);
    let lent =
        Lent { l1d: &mut setup.l1d, l2: &mut setup.l2, ext: &mut setup.ext, l1p: &mut setup.l1p };
    let mut answers = vec![0xEE; ANSWER_BYTES * case.accesses as usize];
    let mut run = boundary::run(&mut record, trace, lent, &mut answers);
    plant::load_run(&mut run, &mut answers);
    met.calls += 1;
    let refused = answers.chunks(ANSWER_BYTES).filter(|answer| answer[0] != 0).count();
    let accesses = case.accesses as usize;
    if (run.consumed, run.count, run.stop, refused) != (trace.len(), accesses, 0, 0) {
        let what = format!(
            "a run over the load: consumed {}, answers {}, stop {}, refused {refused}, expected {}, \
             {accesses}, 0, 0",
            run.consumed,
            run.count,
            run.stop,
            trace.len(),
        );
        return wrong(Kind::Run, what);
    }
    Ok(())
}

// ---------------------------------------------------------------- smaller

struct Found {
    case: Case,
    wrong: Wrong,
}

impl Found {
    /// Takes the case if the same kind of thing is wrong with it.
    fn take(&mut self, case: Case) {
        if case == self.case {
            return;
        }
        match check(&case, &mut Met::default()) {
            Some(wrong) if wrong.kind == self.wrong.kind => {
                *self = Found { case, wrong };
            }
            _ => {}
        }
    }
}

/// Smaller numbers, and an output that is empty, just too short or just long
/// enough, until none of it goes on.
fn smallest(case: Case, wrong: Wrong) -> Found {
    let mut found = Found { case, wrong };
    loop {
        let before = found.case;
        found.take(Case { filling: 0, ..found.case });
        found.take(Case { seed: 0, ..found.case });
        for e in [0, 128] {
            if e < found.case.e {
                found.take(Case { e, ..found.case });
            }
        }
        let now = found.case.accesses;
        for accesses in [0, 1, 2, 3, now / 2, now.saturating_sub(1)] {
            if accesses < found.case.accesses {
                let case = Case { accesses, ..found.case };
                let whole = whole(&case);
                for length in [case.length, 0, 1, whole.saturating_sub(1), whole, whole + 1] {
                    if length <= found.case.length && accesses < found.case.accesses {
                        found.take(Case { length, ..case });
                    }
                }
            }
        }
        let now = found.case.length;
        for length in [0, 1, now / 2, now.saturating_sub(1)] {
            if length < found.case.length {
                found.take(Case { length, ..found.case });
            }
        }
        if found.case == before {
            return found;
        }
    }
}

fn words(found: &Found) -> String {
    let Case { seed, e, accesses, length, filling } = found.case;
    let size = Size { calls: 1, trace_bytes: length, ..Size::default() };
    let filled = if filling == 0 { "all 0" } else { "random" };
    format!(
        "{}\noutput: {length} bytes, {filled}\nload of seed {seed:#x}, E {e}, accesses {accesses}\n{}",
        left(&size),
        found.wrong.what
    )
}

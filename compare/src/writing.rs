//! The section `writing`: commands put into an output on both sides (02, U7),
//! what was put read back, and traces written again from their commands.

use std::mem::{offset_of, size_of};
use std::panic::{catch_unwind, AssertUnwindSafe};

use oracle::gen::{self, code, hot, numbers, Mix, Rng, Setup, TRACE_KINDS};
use oracle::trace::{decode, ANSWER_BYTES};
use oracle::writer::{put_command, widths, Put};
use oracle::Command;

use crate::boundary::{self, record_of, Lent};
use crate::now;
use crate::pair::Met;
use crate::plant;
use crate::report::{hex, left};
use crate::shrink::{shorten, Size};

#[repr(C)]
struct CPut {
    at: usize,
    number: u8,
}

const _: () = assert!(size_of::<CPut>() == 16 && offset_of!(CPut, number) == 8);

extern "C" {
    fn c64x_put_command(
        out: *mut u8,
        out_len: usize,
        at: usize,
        code: u32,
        first: u64,
        second: u64,
        value: u64,
    ) -> CPut;
}

/// The call, on a part of a buffer.
fn put(out: &mut [u8], at: usize, given: &Given) -> Put {
    let [first, second, value] = given.numbers;
    let put = unsafe {
        c64x_put_command(out.as_mut_ptr(), out.len(), at, given.code, first, second, value)
    };
    Put { number: put.number, at: put.at }
}

/// A command as it is given to the call.
#[derive(Clone, Copy, PartialEq, Eq, Debug)]
struct Given {
    code: u32,
    numbers: [u64; 3],
}

/// Commands that are put one after another, from a point of an output on.
#[derive(Clone, PartialEq, Eq)]
struct Case {
    length: usize,
    at: usize,
    /// What stands in the output before; 0 for bytes that are 0.
    filling: u64,
    puts: Vec<Given>,
    /// The trace whose commands these are, if they are those of one.
    trace: Option<Vec<u8>>,
}

/// What is wrong, and in words. A case that is made smaller keeps its kind.
#[derive(Clone, Copy, PartialEq, Eq)]
enum Kind {
    Number,
    Point,
    Byte,
    Outside,
    Decoded,
    Run,
    Again,
    Panic,
}

struct Wrong {
    kind: Kind,
    what: String,
}

fn wrong(kind: Kind, what: String) -> Result<(), Wrong> {
    Err(Wrong { kind, what })
}

/// Bytes on both sides of the output, which no call may touch.
const AROUND: usize = 24;

const CODES: [u32; 18] = [0, 1, 2, 3, 4, 5, 6, 7, 8, 9, 10, 11, 12, 13, 14, 255, 256, u32::MAX];

/// How many cases a group has.
const CASES: u64 = 64;

/// Runs one group; a difference, made small and in words.
pub fn group(rng: &mut Rng, group: u64, met: &mut Met) -> Option<String> {
    for turn in group * CASES..(group + 1) * CASES {
        let case = match turn % 4 {
            0 => single(rng, turn / 4),
            1 | 2 => several(rng),
            _ => written_again(rng, turn / 4),
        };
        if let Some(found) = check(&case, met) {
            return Some(words(&smallest(case, found)));
        }
    }
    None
}

// ------------------------------------------------------------------ cases

/// A number at or beside a border of a group of seven bits or of a width, or any.
fn number(rng: &mut Rng) -> u64 {
    let near = |rng: &mut Rng, bit: u32| {
        let border = 1u64.checked_shl(bit).unwrap_or(0);
        border.wrapping_add(rng.pick(&[0, 1, u64::MAX, u64::MAX - 1]))
    };
    match rng.below(8) {
        0 | 1 => {
            let bit = 7 * rng.below(10);
            near(rng, bit)
        }
        2 => near(rng, 32),
        3 => rng.pick(&[0, 1, 127, 128, 300, 0x8000_0000, 0xFFFF_FFFF, 1 << 63, u64::MAX]),
        4 => rng.below(256).into(),
        5 => rng.next_u32().into(),
        _ => rng.next_u64() >> rng.below(64),
    }
}

/// A number that 32 bits hold, where it has to.
fn narrow(rng: &mut Rng) -> u64 {
    let any = number(rng);
    if any >> 32 == 0 {
        any
    } else {
        any >> 32
    }
}

/// A command, mostly one that a trace has.
fn given(rng: &mut Rng) -> Given {
    let code = if rng.chance(3, 4) { rng.below(13) } else { rng.pick(&CODES) };
    let mut numbers = [number(rng), number(rng), number(rng)];
    if rng.chance(2, 3) {
        for (number, &width) in numbers.iter_mut().zip(widths(code).unwrap_or_default()) {
            if width == 32 {
                *number = narrow(rng);
            }
        }
    }
    Given { code, numbers }
}

/// One command, at a point inside, at and behind the end of a short output: each
/// length from 0 to 40 in turn, and larger ones.
fn single(rng: &mut Rng, turn: u64) -> Case {
    let length = match turn % 48 {
        short @ 0..=40 => short as usize,
        41..=45 => 41 + rng.below(200) as usize,
        _ => 4_096 + rng.below(8) as usize,
    };
    let near_the_end = length.saturating_sub(rng.below(24) as usize);
    let at = match rng.below(8) {
        0 => 0,
        1 => length,
        2 => length + 1 + rng.below(30) as usize,
        3 => rng.pick(&[usize::MAX, usize::MAX - 1, usize::MAX - 20, 1 << 32, 1 << 63]),
        4 => rng.below(length as u32 + 1) as usize,
        _ => near_the_end,
    };
    // The point stays where a command is refused, so several meet the same one.
    let puts = (0..1 + rng.below(6)).map(|_| given(rng)).collect();
    Case { length, at, filling: rng.next_u64(), puts, trace: None }
}

/// Many commands one after another, mostly with room for all.
fn several(rng: &mut Rng) -> Case {
    let puts: Vec<Given> = (0..1 + rng.below(60)).map(|_| given(rng)).collect();
    let most = 21 * puts.len() as u32;
    let length = if rng.chance(1, 3) { most } else { rng.below(most + 1) };
    let at = if rng.chance(3, 4) { 0 } else { rng.below(30) as usize };
    Case { length: length as usize, at, filling: rng.next_u64(), puts, trace: None }
}

/// The commands of a trace, valid or damaged: those that are whole, in an output
/// that they fill.
fn written_again(rng: &mut Rng, turn: u64) -> Case {
    let lines = hot(rng, 65_536, 65_536);
    let kind = TRACE_KINDS[turn as usize % TRACE_KINDS.len()];
    let count = rng.below(60) as usize;
    let made = gen::trace(rng, &lines, &Mix::ALL, count, kind);
    let mut trace = Vec::new();
    // Whole commands go on behind bytes with which none begins.
    let mut place = 0;
    while place < made.bytes.len() {
        match decode(&made.bytes[place..]) {
            Some((_, length)) => {
                trace.extend(&made.bytes[place..place + length]);
                place += length;
            }
            None => place += 1,
        }
    }
    case_of(trace, rng.next_u64())
}

/// Numbers that the code does not take are of any kind.
fn case_of(trace: Vec<u8>, filling: u64) -> Case {
    let mut rng = Rng::new(filling);
    let mut puts = Vec::new();
    let mut place = 0;
    while let Some((command, length)) = decode(&trace[place..]) {
        let mut given = given_of(&command);
        for number in &mut given.numbers[numbers(&command).len()..] {
            *number = if filling == 0 { 0 } else { rng.next_u64() >> rng.below(64) };
        }
        puts.push(given);
        place += length;
    }
    Case { length: trace.len(), at: 0, filling, puts, trace: Some(trace) }
}

/// A command of the trace, the numbers that it does not take being 0.
fn given_of(command: &Command) -> Given {
    let mut three = [0; 3];
    let taken = numbers(command);
    three[..taken.len()].copy_from_slice(&taken);
    Given { code: code(command).into(), numbers: three }
}

/// What is part of a command, the other numbers being 0.
fn taken(given: &Given) -> Given {
    let count = widths(given.code).map_or(0, <[u32]>::len);
    let mut numbers = [0; 3];
    numbers[..count].copy_from_slice(&given.numbers[..count]);
    Given { numbers, ..*given }
}

// ------------------------------------------------------------- comparison

/// The first thing that is wrong with a case; a panic is wrong too.
fn check(case: &Case, met: &mut Met) -> Option<Wrong> {
    match catch_unwind(AssertUnwindSafe(|| compare(case, met))) {
        Ok(Ok(())) => None,
        Ok(Err(wrong)) => Some(wrong),
        Err(_) => Some(Wrong { kind: Kind::Panic, what: now::last_panic() }),
    }
}

fn compare(case: &Case, met: &mut Met) -> Result<(), Wrong> {
    let mut ours = vec![0; case.length + 2 * AROUND];
    if case.filling != 0 {
        Rng::new(case.filling).fill(&mut ours);
    }
    let mut theirs = ours.clone();
    let mut at = case.at;
    let mut accepted = Vec::new();
    for (place, given) in case.puts.iter().enumerate() {
        let mut called = put(&mut ours[AROUND..AROUND + case.length], at, given);
        plant::put(given.code, at, &mut ours[AROUND..AROUND + case.length], &mut called);
        let expected =
            put_command(&mut theirs[AROUND..AROUND + case.length], at, given.code, given.numbers);
        met.calls += 1;
        met.puts[[0, 11, 16].iter().position(|&n| n == expected.number).expect("no other")] += 1;
        met.frozen.puts += u64::from(expected.number == 0 && given.code == 12);
        if called.number != expected.number {
            let (ours, theirs) = (called.number, expected.number);
            return wrong(
                Kind::Number,
                format!("put {place}: number is {ours}, expected {theirs}"),
            );
        }
        if called.at != expected.at {
            let (ours, theirs) = (called.at, expected.at);
            return wrong(Kind::Point, format!("put {place}: point is {ours}, expected {theirs}"));
        }
        if ours != theirs {
            return Err(bytes_differ(place, &ours, &theirs, case.length));
        }
        if expected.number == 0 {
            accepted.push(taken(given));
        }
        at = expected.at;
    }
    // Behind the end nothing was accepted, and there is nothing to read.
    let Some(written) = ours[AROUND..AROUND + case.length].get(case.at..at) else { return Ok(()) };
    if case.trace.as_ref().is_some_and(|trace| !plant::same_again(written, trace)) {
        return wrong(Kind::Again, format!("written again, the trace is {}", hex(written)));
    }
    read_back(written, &accepted, met)
}

fn bytes_differ(put: usize, ours: &[u8], theirs: &[u8], length: usize) -> Wrong {
    let place = ours.iter().zip(theirs).position(|(ours, theirs)| ours != theirs).unwrap_or(0);
    let (is, expected) = (ours[place], theirs[place]);
    let (kind, name) = match place.checked_sub(AROUND) {
        Some(inside) if inside < length => (Kind::Byte, format!("output byte {inside}")),
        Some(behind) => (Kind::Outside, format!("byte {} behind the output", behind - length)),
        None => (Kind::Outside, format!("byte {} in front of the output", AROUND - place)),
    };
    Wrong { kind, what: format!("put {put}: {name} is {is:#04x}, expected {expected:#04x}") }
}

/// The commands come back, by the reference model's reader and by the library's.
fn read_back(written: &[u8], accepted: &[Given], met: &mut Met) -> Result<(), Wrong> {
    let mut place = 0;
    let mut commands = Vec::new();
    while let Some((command, length)) = decode(&written[place..]) {
        commands.push(given_of(&command));
        place += length;
    }
    if place != written.len() || commands != accepted {
        let what = format!("read back, {} of {} bytes: {commands:x?}", place, written.len());
        return wrong(Kind::Decoded, what);
    }
    if written.is_empty() {
        return Ok(());
    }
    let mut setup = Setup::fresh(32_768, 128);
    let mut record = record_of(&setup.record);
    let lent =
        Lent { l1d: &mut setup.l1d, l2: &mut setup.l2, ext: &mut setup.ext, l1p: &mut setup.l1p };
    let mut answers = vec![0; ANSWER_BYTES * (accepted.len() + 1)];
    let mut run = boundary::run(&mut record, written, lent, &mut answers);
    plant::put_run(&mut run);
    met.calls += 1;
    if (run.consumed, run.count, run.stop) != (written.len(), accepted.len(), 0) {
        let what = format!(
            "a run over what was put: consumed {}, answers {}, stop {}, expected {}, {}, 0",
            run.consumed,
            run.count,
            run.stop,
            written.len(),
            accepted.len()
        );
        return wrong(Kind::Run, what);
    }
    Ok(())
}

// ---------------------------------------------------------------- smaller

/// How many smaller cases are tried at most.
const TRIES: usize = 4_000;

struct Found {
    case: Case,
    wrong: Wrong,
    tries: usize,
}

impl Found {
    /// Whether the same kind of thing is wrong with this case; if so it is taken.
    fn take(&mut self, case: Case) -> bool {
        if self.tries >= TRIES || case == self.case {
            return false;
        }
        self.tries += 1;
        match check(&case, &mut Met::default()) {
            Some(wrong) if wrong.kind == self.wrong.kind => {
                (self.case, self.wrong) = (case, wrong);
                true
            }
            _ => false,
        }
    }
}

fn smallest(case: Case, wrong: Wrong) -> Found {
    let mut found = Found { case, wrong, tries: 0 };
    loop {
        let before = found.case.clone();
        found.take(Case { filling: 0, ..found.case.clone() });
        // Where it does not matter that they are those of a trace.
        found.take(Case { trace: None, ..found.case.clone() });
        if let Some(trace) = found.case.trace.clone() {
            let filling = found.case.filling;
            shorten(trace, |shorter, _| {
                // Bytes with which no command begins are none of this.
                let case = case_of(shorter.to_vec(), filling);
                let whole = case.puts.iter().map(bytes_of).sum::<usize>() == shorter.len();
                whole && found.take(case)
            });
        } else {
            fewer_puts(&mut found);
            shorter_commands(&mut found);
            smaller_numbers(&mut found);
            shorter_output(&mut found);
        }
        if found.case == before || found.tries >= TRIES {
            return found;
        }
    }
}

fn bytes_of(given: &Given) -> usize {
    oracle::writer::command_bytes(given.code, given.numbers).map_or(0, |bytes| bytes.len())
}

fn fewer_puts(found: &mut Found) {
    let mut length = found.case.puts.len().div_ceil(2);
    while length > 0 {
        let mut from = 0;
        while from < found.case.puts.len() {
            let mut case = found.case.clone();
            case.puts.drain(from..(from + length).min(case.puts.len()));
            if !found.take(case) {
                from += length;
            }
        }
        length /= 2;
    }
}

/// Tries commands of one byte and of two in place of longer ones.
fn shorter_commands(found: &mut Found) {
    for put in 0..found.case.puts.len() {
        for code in [2, 10] {
            let shorter = Given { code, numbers: [0; 3] };
            if bytes_of(&shorter) < bytes_of(&found.case.puts[put]) {
                let mut case = found.case.clone();
                case.puts[put] = shorter;
                found.take(case);
            }
        }
    }
}

fn smaller_numbers(found: &mut Found) {
    for put in 0..found.case.puts.len() {
        for place in 0..3 {
            for smaller in [0, 1, 1 << 32, found.case.puts[put].numbers[place] >> 7] {
                if smaller < found.case.puts[put].numbers[place] {
                    let mut case = found.case.clone();
                    case.puts[put].numbers[place] = smaller;
                    found.take(case);
                }
            }
        }
    }
}

fn shorter_output(found: &mut Found) {
    for at in [0, found.case.length] {
        if at < found.case.at {
            found.take(Case { at, ..found.case.clone() });
        }
    }
    let now = found.case.length;
    for length in [0, 1, 2, now / 4, now / 2, now.saturating_sub(8), now.saturating_sub(1)] {
        if length < found.case.length {
            found.take(Case { length, ..found.case.clone() });
            let at = found.case.at.saturating_sub(found.case.length - length);
            found.take(Case { length, at, ..found.case.clone() });
        }
    }
}

fn words(found: &Found) -> String {
    let Case { length, at, filling, puts, trace } = &found.case;
    let size = Size { calls: puts.len(), trace_bytes: *length, ..Size::default() };
    let filled = if *filling == 0 { "all 0" } else { "random" };
    let mut text = format!("{}\noutput: {length} bytes, {filled}, from {at} on", left(&size));
    for (place, Given { code, numbers: [first, second, value] }) in puts.iter().enumerate() {
        text += &format!("\n{place}: put code {code} numbers {first:#x} {second:#x} {value:#x}");
    }
    if let Some(trace) = trace {
        text += &format!("\nthe trace {}", hex(trace));
    }
    text + "\n" + &found.wrong.what
}

#[cfg(test)]
mod tests {
    use super::{case_of, check, given_of, taken, Case, Given};
    use crate::pair::Met;
    use oracle::Command;

    /// MAR 128 bit 1, L2 writeback all, mode 4, read of 4 bytes at 8.
    const TRACE: [u8; 10] = [11, 0x80, 1, 1, 2, 10, 4, 0, 4, 8];

    #[test]
    fn a_trace_is_its_commands() {
        let case = case_of(TRACE.to_vec(), 0);
        let codes: Vec<u32> = case.puts.iter().map(|given| given.code).collect();
        assert_eq!(codes, [11, 2, 10, 0]);
        assert!(check(&case, &mut Met::default()).is_none());
    }

    #[test]
    fn another_trace_is_told() {
        let case = Case { trace: Some(vec![9]), ..case_of(TRACE.to_vec(), 0) };
        let wrong = check(&case, &mut Met::default()).expect("it is another");
        assert!(wrong.what.starts_with("written again, the trace is 0x0b 0x80"));
    }

    #[test]
    fn numbers_that_are_not_taken_are_none() {
        let given = Given { code: 10, numbers: [4, 5, 6] };
        assert_eq!(taken(&given), given_of(&Command::Mode { mode: 4 }));
    }
}

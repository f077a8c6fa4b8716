//! The programs bench-trace and bench-load, as functions from what they are given
//! to what they print.

use crate::calls::{fresh_start, mar_change, mode_change};
use crate::load::load_trace;
use crate::trace::{run, RunResult, ANSWER_BYTES};

/// "The program bench-trace reads a trace from standard input (its first 4,096
/// bytes, with answer bytes for all; L = E = 65,536, external zero) and prints
/// number, server, value per answer, then "end", stop number, bytes consumed,
/// all decimal." A command has at least one byte, so 4,096 answers are enough.
pub fn bench_trace(input: &[u8]) -> String {
    let trace = &input[..input.len().min(4_096)];
    let mut l1d = vec![0; 16_384];
    let mut l2 = vec![0; 65_536];
    let mut l1p = vec![0; 16_384];
    let mut ext = vec![0; 65_536];
    let mut answers = vec![0; 4_096 * ANSWER_BYTES];
    let (mut record, _) = fresh_start(&mut l1d, &mut l2, &mut ext, &mut l1p);
    let result = run(&mut record, &mut l1d, &mut l2, &mut ext, &mut l1p, trace, &mut answers);
    let mut output = String::new();
    for answer in answers.chunks(ANSWER_BYTES).take(result.answers) {
        let value =
            answer[2..].iter().rev().fold(0u64, |value, &byte| value << 8 | u64::from(byte));
        output.push_str(&format!("{} {} {}\n", answer[0], answer[1], value));
    }
    output.push_str(&format!("end {} {}\n", result.stop, result.consumed));
    output
}

/// How many bytes the trace of a load, and its external memory, have room for.
pub const LOAD_ROOM: usize = 1_048_576;

/// The program bench-load: makes the load of its arguments (02, U9) in
/// `LOAD_ROOM` bytes and prints "load", the number and the trace's length; then
/// runs it from fresh (L = 65,536, external memory zero) as it is, and with both
/// MAR bits set in modes 0, 1 and 2. For each of these it prints the counts of
/// accepted accesses by server and of refused ones by number, none that is 0,
/// and "end", stop number, bytes consumed.
pub fn bench_load(seed: u32, e: u32, accesses: u64) -> String {
    let mut trace = vec![0; LOAD_ROOM];
    let load = load_trace(seed, e, accesses, &mut trace);
    let mut output = format!("load {} {}\n", load.number, load.length);
    if load.number != 0 {
        return output;
    }
    trace.truncate(load.length);
    for mode in [None, Some(0), Some(1), Some(2)] {
        output.push_str(&mode.map_or("fresh\n".into(), |mode| format!("mode {mode}\n")));
        output.push_str(&counted(&trace, e, mode));
    }
    output
}

/// The counts of one run over a load, which is started in a mode with both MAR
/// bits set, or as a fresh start leaves it.
fn counted(trace: &[u8], e: u32, mode: Option<u32>) -> String {
    let mut l1d = vec![0; 16_384];
    let mut l2 = vec![0; 65_536];
    let mut l1p = vec![0; 16_384];
    let mut ext = vec![0; e as usize];
    // An access has seven bytes at least.
    let mut answers = vec![0; (trace.len() / 7) * ANSWER_BYTES];
    let (mut record, _) = fresh_start(&mut l1d, &mut l2, &mut ext, &mut l1p);
    if let Some(mode) = mode {
        for number in [128, 129] {
            mar_change(&mut record, &mut l1d, &mut l2, &mut ext, &mut l1p, number, 1);
        }
        mode_change(&mut record, &mut l1d, &mut l2, &mut ext, &mut l1p, mode);
    }
    let RunResult { consumed, answers: count, stop } =
        run(&mut record, &mut l1d, &mut l2, &mut ext, &mut l1p, trace, &mut answers);
    let mut servers = [0u64; 5];
    let mut refusals = [0u64; 256];
    for answer in answers.chunks(ANSWER_BYTES).take(count) {
        match answer[0] {
            0 => servers[usize::from(answer[1])] += 1,
            number => refusals[usize::from(number)] += 1,
        }
    }
    let mut output = String::new();
    for (server, count) in servers.iter().enumerate().filter(|(_, &count)| count > 0) {
        output.push_str(&format!("server {server} {count}\n"));
    }
    for (number, count) in refusals.iter().enumerate().filter(|(_, &count)| count > 0) {
        output.push_str(&format!("refused {number} {count}\n"));
    }
    output.push_str(&format!("end {stop} {consumed}\n"));
    output
}

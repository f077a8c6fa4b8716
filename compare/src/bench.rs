//! The program bench-trace itself, set byte for byte against the reference
//! model's account of it.

use std::io::Write;
use std::path::Path;
use std::process::{Command as Process, Stdio};
use std::thread;
use std::time::{Duration, Instant};

use oracle::bench::bench_trace;
use oracle::gen::{encode, hot, trace, Mix, Rng, TRACE_KINDS};
use oracle::geometry::EXTERNAL_BASE;
use oracle::Command;

use crate::plant;
use crate::report::{hex, left, trace_words};
use crate::shrink::{shorten, Size};

/// How many inputs the program is run on. The first is the worked example.
pub const INPUTS: u64 = 401;

/// For how long an input is made smaller at most.
const LIMIT: Duration = Duration::from_secs(30);

/// The worked example of the paper, with the output that it prints in full.
const EXAMPLE: ([u8; 28], &str) = (
    [
        0x0B, 0x80, 0x01, 0x01, 0x01, 0x04, 0x80, 0x80, 0x80, 0x80, 0x08, 0x05, 0x00, 0x04, 0x80,
        0x80, 0x80, 0x80, 0x08, 0x00, 0x04, 0x80, 0x80, 0x80, 0x80, 0x08, 0x0A, 0x04,
    ],
    "0 0 0\n0 4 0\n0 4 5\n0 1 5\n8 0 0\nend 0 28\n",
);

/// Runs the program on the input of this number. A difference comes back as
/// text, with the input made smaller; an error is that the program could not
/// be run.
pub fn compare(program: &Path, seed: u64, number: u64) -> Result<Option<String>, String> {
    if number == 0 {
        let (input, expected) = EXAMPLE;
        return smallest(program, input.to_vec(), expected, 0);
    }
    let mut rng = Rng::new(seed ^ (number - 1).wrapping_mul(0x9E37_79B9));
    let input = input_of(&mut rng, number - 1);
    // Now and then the bytes come in pieces.
    let piece = if number % 40 == 0 { 1 + rng.below(700) as usize } else { 0 };
    let expected = bench_trace(&input);
    smallest(program, input, &expected, piece)
}

/// A difference on this input, or on a smaller one that has a difference from
/// the reference model.
fn smallest(
    program: &Path,
    input: Vec<u8>,
    expected: &str,
    piece: usize,
) -> Result<Option<String>, String> {
    let found = one(program, &input, expected, piece)?;
    Ok(match found {
        Some(_) => smaller(program, input, piece).or(found),
        None => None,
    })
}

/// The difference on a smaller input.
fn smaller(program: &Path, input: Vec<u8>, piece: usize) -> Option<String> {
    let begun = Instant::now();
    let mut last = None;
    // Bytes that are never read may go first, and go at once.
    let mut short = input.clone();
    short.truncate(4_096);
    let mut fails = |left: &[u8], _: usize| {
        if begun.elapsed() >= LIMIT {
            return false;
        }
        match one(program, left, &bench_trace(left), piece) {
            Ok(Some(difference)) => {
                last = Some(difference);
                true
            }
            _ => false,
        }
    };
    let mut input = if fails(&short, 0) { short } else { input };
    loop {
        let before = input.len();
        input = shorten(input, &mut fails);
        if input.len() == before {
            return last;
        }
    }
}

/// The input of this number: empty, random, damaged or long.
fn input_of(rng: &mut Rng, number: u64) -> Vec<u8> {
    let lines = hot(rng, 65_536, 65_536);
    match number {
        0 => return Vec::new(),
        // One command over and over, across the 4,096 bytes that are read.
        1..=9 => {
            let commands: [&[u8]; 6] =
                [&[2], &[9], &[10, 1], &[0, 4, 0], &[11, 128, 1, 1], &[12, 1, 0, 4, 0, 12, 2]];
            let command = commands[number as usize % commands.len()];
            return command.iter().copied().cycle().take(4_090 + number as usize).collect();
        }
        10..=15 => {
            let length = [1, 4_095, 4_096, 4_097, 70_000, 300_000][number as usize - 10];
            let mut bytes = vec![0; length];
            rng.fill(&mut bytes);
            return bytes;
        }
        16 => return largest_values(),
        _ => {}
    }
    let kind = TRACE_KINDS[number as usize % TRACE_KINDS.len()];
    let commands = match number % 5 {
        0 => rng.below(4),
        1 => rng.below(30),
        2 => rng.below(120),
        3 => 400 + rng.below(300),
        _ => 3_000,
    };
    let mut input = vec![11, 128, 1, 1, 10, rng.below(3) as u8];
    input.extend(trace(rng, &lines, &Mix::ALL, commands as usize, kind).bytes);
    input
}

/// The largest value of each size, written and read back: the last is 2^64 - 1,
/// the longest number there is in decimal.
fn largest_values() -> Vec<u8> {
    let mut input = Vec::new();
    for address in [0, EXTERNAL_BASE] {
        for (size, value) in [(1, 0xFF), (2, 0xFFFF), (4, 0xFFFF_FFFF), (8, u64::MAX)] {
            encode(&Command::Write { size, address, value }, &mut input);
            encode(&Command::Read { size, address }, &mut input);
        }
    }
    input
}

fn one(
    program: &Path,
    input: &[u8],
    expected: &str,
    piece: usize,
) -> Result<Option<String>, String> {
    let failed =
        |what: &str, error: std::io::Error| format!("{}: {what}: {error}", program.display());
    let mut child = Process::new(program)
        .stdin(Stdio::piped())
        .stdout(Stdio::piped())
        .spawn()
        .map_err(|error| failed("cannot be run", error))?;
    let mut stdin = child.stdin.take().expect("a pipe");
    let bytes = input.to_vec();
    // The program need not read all of it: a broken pipe is no failure.
    let writer = thread::spawn(move || {
        if piece == 0 {
            let _ = stdin.write_all(&bytes);
            return;
        }
        for part in bytes.chunks(piece) {
            if stdin.write_all(part).is_err() {
                return;
            }
            thread::sleep(Duration::from_millis(1));
        }
    });
    let mut output = child.wait_with_output().map_err(|error| failed("cannot be read", error))?;
    writer.join().expect("the writer ends");
    plant::bench(&mut output);
    if output.stdout == expected.as_bytes() && output.status.success() {
        return Ok(None);
    }
    let shown = &input[..input.len().min(4_096)];
    let mut text = format!(
        "{}\n{}, {}\ninput of {} bytes: {}",
        left(&Size { trace_bytes: input.len(), ..Size::default() }),
        output_difference(&String::from_utf8_lossy(&output.stdout), expected),
        output.status,
        input.len(),
        hex(shown),
    );
    for words in trace_words(shown) {
        text.push_str(&format!("\n     {words}"));
    }
    Ok(Some(text))
}

/// Where the output differs, if it does.
fn output_difference(ours: &str, expected: &str) -> String {
    if ours == expected {
        return "the output is as expected".into();
    }
    let line =
        ours.lines().zip(expected.lines()).take_while(|(ours, theirs)| ours == theirs).count();
    format!(
        "line {} is {:?}, expected {:?}",
        line + 1,
        ours.lines().nth(line),
        expected.lines().nth(line)
    )
}

//! A case in words. Numbers in hexadecimal begin with 0x, all others are
//! decimal.

use oracle::gen::{Frame, Transfer};
use oracle::record::{L1dSet, L1pSet, L2Set, Line, Record};
use oracle::trace::decode;
use oracle::{Command, Program, Unaligned};

use crate::pair::Op;
use crate::shrink::{Case, Size};

/// Bytes in hexadecimal.
pub fn hex(bytes: &[u8]) -> String {
    bytes.iter().map(|byte| format!("{byte:#04x}")).collect::<Vec<_>>().join(" ")
}

/// How much is left of a case that was made smaller: the line that tests/compare
/// reads.
pub fn left(size: &Size) -> String {
    format!(
        "left: calls {}, trace bytes {}, answer bytes {}, lines {}",
        size.calls, size.trace_bytes, size.answer_bytes, size.lines
    )
}

/// Prints a case.
pub fn report(case: &Case) {
    println!("{}", left(&case.size()));
    let setup = &case.start.setup;
    println!(
        "memories: L1D {} L2 {} external {} L1P {} bytes",
        setup.l1d.len(),
        setup.l2.len(),
        setup.ext.len(),
        setup.l1p.len()
    );
    let memories =
        [("L1D", &setup.l1d), ("L2", &setup.l2), ("external", &setup.ext), ("L1P", &setup.l1p)];
    for (name, bytes) in memories {
        if bytes.iter().all(|&byte| byte == 0) {
            println!("  {name} bytes: all 0");
        } else {
            println!("  {name} bytes: random, {} ...", hex(&bytes[..bytes.len().min(16)]));
        }
    }
    report_record(&setup.record);
    if case.start.padding != 0 {
        println!("  padding: random");
    }
    for odd in &case.start.odd {
        println!("  no bool: {odd:?}");
    }
    for (number, op) in case.ops.iter().enumerate() {
        report_op(number, op);
    }
    if case.difference.op < case.ops.len() {
        println!("after call {}: {}", case.difference.op, case.difference.what);
    } else {
        println!("after a last change to mode 0: {}", case.difference.what);
    }
}

fn report_record(record: &Record) {
    println!("{}", record_words(record));
}

/// A record: its numbers, and the sets that are not fresh.
pub fn record_words(record: &Record) -> String {
    let mut words = format!(
        "record: L {} E {} mode {} MAR {} {} frozen {} dirty {} {}",
        record.l,
        record.e,
        record.mode,
        record.mar128,
        record.mar129,
        record.frozen,
        record.dirty_l1d,
        record.dirty_l2
    );
    for (set, held) in record.l1d.iter().enumerate().filter(|(_, set)| **set != L1dSet::FRESH) {
        words += &format!("\n  L1D set {set}: {}", set_words(&held.lines, &held.order));
    }
    for (set, held) in record.l2.iter().enumerate().filter(|(_, set)| **set != L2Set::FRESH) {
        words += &format!("\n  L2 set {set}: {}", set_words(&held.lines, &held.order));
    }
    for (set, held) in record.l1p.iter().enumerate().filter(|(_, set)| **set != L1pSet::FRESH) {
        words += &format!("\n  L1P set {set}: {}", set_words(&held.lines, &[]));
    }
    words
}

/// The ways of a set that are not empty, and its order.
fn set_words(lines: &[Line], order: &[u8]) -> String {
    let mut words = String::new();
    for (way, line) in lines.iter().enumerate().filter(|(_, line)| **line != Line::EMPTY) {
        let valid = if line.valid { "valid" } else { "invalid" };
        let dirty = if line.dirty { "dirty" } else { "clean" };
        words.push_str(&format!("way {way} {valid} {dirty} {:#x}, ", line.address));
    }
    match order {
        // L1P has no order of use.
        [] => words.trim_end_matches(", ").into(),
        _ => format!("{words}order {order:?}"),
    }
}

fn report_op(number: usize, op: &Op) {
    match op {
        Op::Fresh => println!("{number}: fresh start"),
        Op::Record(record) => {
            print!("{number}: from here on another ");
            report_record(record);
        }
        Op::Direct(command) => println!("{number}: {}", command_words(command)),
        Op::Unaligned(access) => println!("{number}: {}", unaligned_words(access)),
        Op::Transfer(transfer) => println!("{number}: {}", transfer_words(transfer)),
        Op::Frame(frame) => println!("{number}: {}", frame_words(frame)),
        Op::Program(call) => println!("{number}: {}", program_words(call)),
        Op::View { address, buffer } => {
            println!("{number}: view of {address:#x}, buffer of {buffer} bytes");
        }
        Op::ShortRunOf(run) => println!("{number}: short run of number {run}"),
        Op::ShortRunNumber(digits) => println!("{number}: number of the short run {digits:?}"),
        Op::Run { trace, answer_bytes } => report_run(number, "run", trace, *answer_bytes),
        Op::RunAndSingleCalls { trace, answer_bytes } => {
            report_run(number, "run, then single calls", trace, *answer_bytes);
        }
    }
}

fn report_run(number: usize, name: &str, trace: &[u8], answer_bytes: usize) {
    println!("{number}: {name}, {answer_bytes} answer bytes, trace {}", hex(trace));
    for words in trace_words(trace) {
        println!("     {words}");
    }
}

/// The whole commands in front of a trace.
pub fn trace_words(trace: &[u8]) -> Vec<String> {
    let mut words = Vec::new();
    let mut place = 0;
    while let Some((command, length)) = decode(&trace[place..]) {
        words.push(command_words(&command));
        place += length;
    }
    words
}

pub fn unaligned_words(access: &Unaligned) -> String {
    match *access {
        Unaligned::Read { size, address } => {
            format!("non-aligned Read size {size} address {address:#x}")
        }
        Unaligned::Write { size, address, value } => {
            format!("non-aligned Write size {size} address {address:#x} value {value:#x}")
        }
    }
}

pub fn transfer_words(transfer: &Transfer) -> String {
    let Transfer { address, length, filling, .. } = *transfer;
    let direction = if transfer.is_in() { "in" } else { "out" };
    let bytes = if filling == 0 { "all 0" } else { "random" };
    format!("transfer {direction} of {length} bytes, address {address:#x}, buffer {bytes}")
}

pub fn frame_words(frame: &Frame) -> String {
    let Frame { turn, length, filling } = *frame;
    let pixels = match filling {
        0 => "all 0",
        Frame::WHITE => "all 255",
        _ => "random",
    };
    format!("frame of {length} bytes, turn {turn}, pixels {pixels}")
}

pub fn program_words(call: &Program) -> String {
    match *call {
        Program::Fetch { address } => format!("fetch at {address:#x}"),
        Program::InvalidateBlock { base, count } => {
            format!("L1P block invalidate base {base:#x} count {count}")
        }
        Program::InvalidateAll => "L1P invalidate all".into(),
    }
}

pub fn command_words(command: &Command) -> String {
    let whole = format!("{command:?}");
    let name = whole.split(' ').next().unwrap_or_default();
    match *command {
        Command::Read { size, address } => format!("{name} size {size} address {address:#x}"),
        Command::Write { size, address, value } => {
            format!("{name} size {size} address {address:#x} value {value:#x}")
        }
        Command::L2BlockWriteback { base, count }
        | Command::L2BlockWritebackInvalidate { base, count }
        | Command::L2BlockInvalidate { base, count }
        | Command::L1dBlockWritebackInvalidate { base, count }
        | Command::L1dBlockInvalidate { base, count } => {
            format!("{name} base {base:#x} count {count}")
        }
        Command::Mode { mode } => format!("{name} {mode}"),
        Command::Mar { number, bit } => format!("{name} {number} bit {bit}"),
        Command::Freeze { frozen } => format!("{name} {frozen}"),
        Command::L2WritebackAll | Command::L2WritebackInvalidateAll | Command::L1dInvalidateAll => {
            whole
        }
    }
}

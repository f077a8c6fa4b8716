//! What examples/panel.c has to print for a trace, or for a load, told by the
//! reference model alone. `cargo run --example panel -- TRACE`, or `--load SEED N`.

use std::process::ExitCode;

use oracle::gen::{code, Setup};
use oracle::load::load_trace;
use oracle::record::Line;
use oracle::trace::{decode, ANSWER_BYTES};
use oracle::{Command, Left};

const COMMANDS: [&str; 13] = [
    "read",
    "write",
    "L2 writeback all",
    "L2 writeback-invalidate all",
    "L2 block writeback",
    "L2 block writeback-invalidate",
    "L2 block invalidate",
    "L1D block writeback-invalidate",
    "L1D block invalidate",
    "L1D invalidate all",
    "mode",
    "MAR",
    "freeze",
];

/// What a number says.
fn refusal(number: u8) -> &'static str {
    match number {
        13 => "refused: the transfer's length is 0, no multiple of 4 or above 262140",
        14 => "refused: the transfer is not wholly in SRAM or in external memory",
        15 => "refused: the address of a fetch is not a multiple of 32",
        17 => "refused: neither 1, which freezes L1D, nor 0, which thaws it",
        number => REFUSALS[usize::from(number)],
    }
}

const REFUSALS: [&str; 13] = [
    "done",
    "refused: a lent length is illegal or unlike the record's",
    "refused: the record is not well formed",
    "refused: the size is not 1, 2, 4 or 8 (non-aligned: 4 or 8)",
    "refused: the address is not aligned",
    "refused: neither SRAM nor external memory",
    "refused: the value needs more bytes than the size",
    "refused: the count is above 65535",
    "refused: no such mode, or its cache is larger than L2",
    "refused: no such MAR or bit",
    "refused: a cache holds a line of that range",
    "stopped: the trace is damaged",
    "stopped: fewer than 10 answer bytes are left",
];

const SERVERS: [&str; 6] = ["", "L1D", "SRAM", "L2 cache", "external memory", "L1P"];

/// Both MAR bits on, then the load of a seed for 65,536 bytes of external memory.
fn load(seed: u32, accesses: u64) -> Vec<u8> {
    let mut trace = vec![11, 0x80, 1, 1, 11, 0x81, 1, 1];
    let mut out = vec![0; 65_528];
    let made = load_trace(seed, 65_536, accesses, &mut out);
    trace.extend(&out[..made.length]);
    trace
}

fn main() -> ExitCode {
    let words: Vec<String> = std::env::args().skip(1).collect();
    if let [option, seed, accesses] = &words[..] {
        if let ("--load", Ok(seed), Ok(accesses)) = (&**option, seed.parse(), accesses.parse()) {
            print!("{}", panel(&load(seed, accesses)));
            return ExitCode::SUCCESS;
        }
    }
    let [name] = &words[..] else {
        eprintln!("usage: panel TRACE");
        return ExitCode::from(2);
    };
    match std::fs::read(name) {
        Ok(trace) => {
            print!("{}", panel(&trace));
            ExitCode::SUCCESS
        }
        Err(error) => {
            eprintln!("panel: {name}: {error}");
            ExitCode::from(2)
        }
    }
}

/// The line that left a cache.
fn left(cache: &str, left: Left) -> String {
    match left {
        Left::None | Left::Empty => String::new(),
        Left::Clean { address } => format!("; {cache} line {address:08X} left clean"),
        Left::Dirty { address } => format!("; {cache} line {address:08X} left dirty"),
    }
}

/// How many clean lines and how many dirty ones left a cache.
#[derive(Default)]
struct Lefts {
    clean: u32,
    dirty: u32,
}

impl Lefts {
    fn count(&mut self, left: Left) {
        match left {
            Left::None | Left::Empty => {}
            Left::Clean { .. } => self.clean += 1,
            Left::Dirty { .. } => self.dirty += 1,
        }
    }
}

fn panel(trace: &[u8]) -> String {
    let mut setup = Setup::fresh(65_536, 65_536);
    // The same commands as single calls, which report what an access puts out.
    let mut single = setup.clone();
    let (mut l1d_lefts, mut l2_lefts) = (Lefts::default(), Lefts::default());
    let (mut read, mut written) = (0, 0);
    let mut answers = vec![0; trace.len() * ANSWER_BYTES];
    let run = setup.run(trace, &mut answers);
    let mut text = String::new();
    let mut place = 0;
    for (number, answer) in answers.chunks(ANSWER_BYTES).take(run.answers).enumerate() {
        let (command, length) = decode(&trace[place..]).expect("a whole command");
        place += length;
        let name = COMMANDS[code(&command) as usize];
        let told = refusal(answer[0]);
        text += &format!("{:3}  {name:30}  {told}", number + 1);
        if answer[1] != 0 {
            text += &format!(", by {}", SERVERS[answer[1] as usize]);
        }
        if matches!(command, Command::Read { .. }) && answer[0] == 0 {
            let value = u64::from_le_bytes(answer[2..].try_into().expect("eight bytes"));
            text += &format!(", value {value}");
        }
        let report = single.reply(&command).report;
        text += &left("L1D", report.l1d_left);
        text += &left("L2", report.l2_left);
        for (bytes, what) in [(report.external_read, "read"), (report.external_written, "written")]
        {
            if bytes != 0 {
                text += &format!("; {bytes} external bytes {what}");
            }
        }
        l1d_lefts.count(report.l1d_left);
        l2_lefts.count(report.l2_left);
        read += report.external_read;
        written += report.external_written;
        text += "\n";
    }
    let stop = if run.stop == 0 { "end" } else { refusal(run.stop) };
    text += &format!("{stop} after {} of {} bytes\n", run.consumed, trace.len());
    text += &format!(
        "put out of L1D: {} clean, {} dirty; of L2: {} clean, {} dirty; external bytes read {read}, \
         written {written}\n",
        l1d_lefts.clean, l1d_lefts.dirty, l2_lefts.clean, l2_lefts.dirty
    );
    let on = |bit: u32| if bit == 1 { "on" } else { "off" };
    let record = &setup.record;
    text += &format!(
        "L2 mode {}, MAR 128 {}, MAR 129 {}, L1D {}\n",
        record.mode,
        on(record.mar128),
        on(record.mar129),
        if record.frozen == 1 { "frozen" } else { "not frozen" }
    );
    let l1d: Vec<Line> = record.l1d.iter().flat_map(|set| set.lines).collect();
    let l2: Vec<Line> = record.l2.iter().flat_map(|set| set.lines).collect();
    for (cache, lines, dirty) in [("L1D", l1d, record.dirty_l1d), ("L2", l2, record.dirty_l2)] {
        let held: Vec<&Line> = lines.iter().filter(|line| line.valid).collect();
        for line in &held {
            let state = if line.dirty { "dirty" } else { "clean" };
            text += &format!("     {cache} line {:08X} {state}\n", line.address);
        }
        text += &format!("{cache}: {} lines held, {dirty} dirty\n", held.len());
    }
    match setup.look_number(0x8000_0000) {
        0 => {
            let seen = setup.look(0x8000_0000);
            text += &format!(
                "behind L1D at 80000000: {:02X} {:02X} {:02X} {:02X}\n",
                seen[0], seen[1], seen[2], seen[3]
            );
        }
        number => {
            text += &format!("behind L1D at 80000000: {}\n", refusal(number));
        }
    }
    for address in [0x8000_0000, 0] {
        let mut word = [0; 4];
        let number = setup.transfer_out(address, &mut word).answer.number;
        let [a, b, c, d] = word;
        let taken = match number {
            0 => {
                let dirty = setup.record.dirty_l1d;
                format!("{a:02X} {b:02X} {c:02X} {d:02X}; dirty in L1D then: {dirty}")
            }
            number => refusal(number).into(),
        };
        text += &format!("a transfer out at {address:08X}: {taken}\n");
    }
    for address in [0x8000_0000, 0, 0x8000_1000] {
        text += &fetch(&mut setup, address);
    }
    for address in [0x8000_0000, 0x8000_1000] {
        text += &stale(&mut setup, address);
    }
    text
}

/// A program fetch, and how many lines L1P holds after it.
fn fetch(setup: &mut Setup, address: u32) -> String {
    let fetched = setup.fetch(address);
    let answer = fetched.reply.answer;
    if answer.number != 0 {
        return format!("a fetch at {address:08X}: {}\n", refusal(answer.number));
    }
    let [a, b, c, d] = [0, 1, 2, 3].map(|place| fetched.bytes[place]);
    format!(
        "a fetch at {address:08X}: by {}{}{}; {a:02X} {b:02X} {c:02X} {d:02X}; lines in L1P then: {}\n",
        SERVERS[usize::from(answer.server)],
        left("L1P", fetched.l1p_left),
        left("L2", fetched.reply.report.l2_left),
        setup.record.held_in_l1p()
    )
}

/// Whether a fetch gets what the CPU reads.
fn stale(setup: &mut Setup, address: u32) -> String {
    let fetched = setup.fetch(address);
    let read = setup.read(4, address);
    if fetched.reply.answer.number != 0 || read.number != 0 {
        return String::new();
    }
    let same = read.value.to_le_bytes()[..4] == fetched.bytes[..4];
    let is = if same { "is" } else { "is not" };
    format!("the program at {address:08X} {is} what the CPU reads there\n")
}

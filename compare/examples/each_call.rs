//! What the program each_call has to print, told by the reference model alone:
//! every call once or more, from a fresh start with L = E = 65,536.

use oracle::calls::frame;
use oracle::gen::Setup;
use oracle::trace::ANSWER_BYTES;
use oracle::{Command, Left, Program, Unaligned};

/// What comes next: a command, a non-aligned access, a transfer of so many bytes at an address (in:
/// bytes that are all `value`; out: into a buffer of 128 such bytes, whose front is lent), a frame of
/// so many bytes (of a buffer of 3,076, all `value`, but in row k of 48 the pixel of column k is k),
/// a fetch or an invalidation of L1P, a view of an address, or a run over a trace.
enum Next {
    Call(Command),
    Access(Unaligned),
    In { length: usize, address: u32, value: u8 },
    Out { length: usize, address: u32, value: u8 },
    Frame { length: usize, turn: u8, value: u8 },
    L1p(Program),
    View(u32),
    Run(&'static [u8]),
}

use Command::*;
use Next::*;
use Program::*;

const LIST: &[Next] = &[
    Call(Mar { number: 128, bit: 1 }),
    Call(Mode { mode: 1 }),
    Call(Write { size: 4, address: 0x80000000, value: 5 }),
    Call(Read { size: 4, address: 0x80000000 }),
    Call(Read { size: 4, address: 0x80000000 }),
    Call(Write { size: 4, address: 0x80000000, value: 7 }),
    View(0x80000000),
    Call(L1dBlockWritebackInvalidate { base: 0x80000000, count: 1 }),
    View(0x80000000),
    Call(L2BlockWriteback { base: 0x80000000, count: 32 }),
    View(0x80000000),
    Call(Read { size: 8, address: 0x80000000 }),
    Call(Write { size: 2, address: 0x80000002, value: 515 }),
    Call(L2WritebackAll),
    View(0x80000000),
    Call(Write { size: 1, address: 0x100, value: 9 }),
    Call(Read { size: 1, address: 0x100 }),
    Call(Write { size: 1, address: 0x100, value: 8 }),
    View(0x100),
    Call(L1dBlockInvalidate { base: 0x100, count: 1 }),
    Call(Read { size: 1, address: 0x100 }),
    Call(Write { size: 1, address: 0x100, value: 6 }),
    Call(L1dInvalidateAll),
    Call(Read { size: 1, address: 0x100 }),
    Call(Read { size: 1, address: 0x80000080 }),
    Call(Write { size: 1, address: 0x80000080, value: 1 }),
    Call(L2BlockInvalidate { base: 0x80000080, count: 1 }),
    Call(Read { size: 1, address: 0x80000080 }),
    Call(Write { size: 1, address: 0x80000080, value: 2 }),
    Call(L2BlockWritebackInvalidate { base: 0x80000080, count: 1 }),
    View(0x80000080),
    Call(Read { size: 1, address: 0x80000080 }),
    Call(Write { size: 1, address: 0x80000080, value: 3 }),
    Call(L2WritebackInvalidateAll),
    View(0x80000080),
    Call(Read { size: 1, address: 0x80000080 }),
    Call(Read { size: 3, address: 0x0 }),
    Call(Read { size: 4, address: 0x2 }),
    Call(Read { size: 1, address: 0x80010000 }),
    Call(Write { size: 1, address: 0x0, value: 256 }),
    Call(L2BlockWriteback { base: 0x2, count: 1 }),
    Call(L1dBlockInvalidate { base: 0x0, count: 65536 }),
    Call(Mode { mode: 5 }),
    Call(Mar { number: 130, bit: 1 }),
    Call(Mar { number: 128, bit: 0 }),
    Call(Freeze { frozen: 2 }),
    Call(Freeze { frozen: 1 }),
    Call(Read { size: 1, address: 0x80000080 }),
    Call(Read { size: 1, address: 0x80000100 }),
    Call(Read { size: 1, address: 0x80000100 }),
    Call(Freeze { frozen: 0 }),
    Call(Read { size: 1, address: 0x80000100 }),
    Call(Read { size: 1, address: 0x80000100 }),
    View(0x4),
    View(0x80010000),
    Call(Mode { mode: 2 }),
    Call(Mode { mode: 1 }),
    Access(Unaligned::Write { size: 4, address: 0x8000007E, value: 0x01020304 }),
    Access(Unaligned::Read { size: 4, address: 0x8000007E }),
    Access(Unaligned::Read { size: 8, address: 0x8000007D }),
    Access(Unaligned::Read { size: 2, address: 0x0 }),
    Access(Unaligned::Write { size: 8, address: 0x8000FFFC, value: 1 }),
    Call(Write { size: 1, address: 0x200, value: 9 }),
    Call(Read { size: 1, address: 0x200 }),
    Call(Write { size: 1, address: 0x200, value: 8 }),
    Out { length: 4, address: 0x200, value: 1 },
    Call(Read { size: 1, address: 0x200 }),
    Call(Write { size: 1, address: 0x204, value: 6 }),
    In { length: 4, address: 0x200, value: 5 },
    Call(Read { size: 1, address: 0x200 }),
    Call(Read { size: 1, address: 0x204 }),
    Call(Read { size: 1, address: 0x80000200 }),
    In { length: 128, address: 0x80000200, value: 7 },
    Call(Read { size: 1, address: 0x80000200 }),
    Out { length: 128, address: 0x80000200, value: 1 },
    Call(Write { size: 1, address: 0x80000200, value: 3 }),
    Out { length: 4, address: 0x80000200, value: 1 },
    Call(L2BlockWritebackInvalidate { base: 0x80000200, count: 32 }),
    Out { length: 128, address: 0x80000200, value: 1 },
    In { length: 4, address: 0x2, value: 1 },
    In { length: 0, address: 0x0, value: 1 },
    Out { length: 6, address: 0x8000, value: 1 },
    Out { length: 8, address: 0x7FFC, value: 1 },
    In { length: 8, address: 0x8000FFFC, value: 1 },
    Frame { length: 3072, turn: 0, value: 3 },
    Call(Read { size: 1, address: 0x80000000 }),
    Call(Write { size: 1, address: 0x80000C41, value: 9 }),
    Frame { length: 3072, turn: 1, value: 5 },
    Call(Read { size: 1, address: 0x80000C41 }),
    Frame { length: 3071, turn: 1, value: 7 },
    Frame { length: 3076, turn: 0, value: 7 },
    Frame { length: 3072, turn: 6, value: 255 },
    Call(Read { size: 1, address: 0x80000041 }),
    L1p(Fetch { address: 0x0 }),
    L1p(Fetch { address: 0x0 }),
    Call(Write { size: 1, address: 0x1F, value: 7 }),
    L1p(Fetch { address: 0x0 }),
    L1p(InvalidateBlock { base: 0x1C, count: 1 }),
    L1p(Fetch { address: 0x0 }),
    L1p(Fetch { address: 0x80000040 }),
    L1p(Fetch { address: 0x80000060 }),
    L1p(Fetch { address: 0x80000040 }),
    L1p(Fetch { address: 0x80004040 }),
    Call(L2BlockWritebackInvalidate { base: 0x80000000, count: 32 }),
    L1p(Fetch { address: 0x80000060 }),
    L1p(Fetch { address: 0x80004040 }),
    L1p(InvalidateAll),
    L1p(Fetch { address: 0x80004040 }),
    L1p(Fetch { address: 0x11 }),
    L1p(Fetch { address: 0x8000 }),
    L1p(Fetch { address: 0x80010000 }),
    L1p(InvalidateBlock { base: 0x2, count: 1 }),
    L1p(InvalidateBlock { base: 0x0, count: 65536 }),
    Call(Mode { mode: 0 }),
    L1p(Fetch { address: 0x80004040 }),
    Call(Mar { number: 128, bit: 0 }),
    L1p(InvalidateBlock { base: 0x80004000, count: 32 }),
    Call(Mar { number: 128, bit: 0 }),
    L1p(Fetch { address: 0x80004040 }),
    L1p(Fetch { address: 0x80004040 }),
    Call(Mar { number: 128, bit: 1 }),
    Call(Mode { mode: 1 }),
    Run(&[
        11, 129, 1, 1, 0, 1, 128, 129, 128, 128, 8, 1, 1, 128, 129, 128, 128, 8, 4, 10, 2, 0, 1,
        128, 129, 128, 128, 8, 12, 2,
    ]),
];

/// What left a way, as two numbers: 0 no way was chosen, 1 it was empty, 2 clean, 3 dirty; the address.
fn told(left: Left) -> (u32, u32) {
    match left {
        Left::None => (0, 0),
        Left::Empty => (1, 0),
        Left::Clean { address } => (2, address),
        Left::Dirty { address } => (3, address),
    }
}

fn main() {
    let mut setup = Setup::fresh(65_536, 65_536);
    println!("0 0 0");
    for next in LIST {
        match next {
            Call(command) => {
                let answer = setup.call(command);
                println!("{} {} {}", answer.number, answer.server, answer.value);
            }
            Access(access) => {
                let answer = setup.unaligned(access).answer;
                println!("{} {} {}", answer.number, answer.server, answer.value);
            }
            In { length, address, value } => {
                let answer = setup.transfer_in(*address, &[*value; 128][..*length]).answer;
                println!("{} {} {}", answer.number, answer.server, answer.value);
            }
            Out { length, address, value } => {
                let mut buffer = [*value; 128];
                let answer = setup.transfer_out(*address, &mut buffer[..*length]).answer;
                println!("{} {} {}", answer.number, buffer[0], buffer[127]);
            }
            Frame { length, turn, value } => {
                let mut pixels = [*value; 3_076];
                for row in 0..48 {
                    pixels[usize::from(row) * 65] = row;
                }
                let Setup { record, l1d, l2, ext, l1p } = &mut setup;
                let framed = frame(record, l1d, l2, ext, l1p, *turn, &pixels[..*length]);
                println!("{} {} {}", framed.number, framed.turn, framed.sums[0]);
                println!("{} {} {}", framed.sums[1], framed.sums[47], framed.sums[63]);
            }
            L1p(call @ Fetch { .. }) => {
                let fetched = setup.program(call);
                let (answer, report) = (fetched.reply.answer, fetched.reply.report);
                println!("{} {} {}", answer.number, answer.server, fetched.bytes[0]);
                println!(
                    "{} {} {}",
                    fetched.bytes[31], report.external_read, report.external_written
                );
                println!(
                    "{} {} {}",
                    told(report.l2_left).0,
                    told(fetched.l1p_left).0,
                    told(fetched.l1p_left).1
                );
            }
            L1p(call) => {
                let answer = setup.program(call).reply.answer;
                println!("{} {} {}", answer.number, answer.server, answer.value);
            }
            View(address) => {
                let bytes = setup.look(*address);
                let byte = |place: usize| bytes.get(place).copied().unwrap_or(0);
                println!("{} {} {} {}", setup.look_number(*address), bytes.len(), byte(0), byte(2));
            }
            Run(trace) => {
                let mut answers = [0; 6 * ANSWER_BYTES];
                let run = setup.run(trace, &mut answers);
                println!("{} {} {}", run.consumed, run.answers, run.stop);
                for answer in answers.chunks(ANSWER_BYTES) {
                    let value = u64::from_le_bytes(answer[2..].try_into().expect("eight bytes"));
                    println!("{} {} {value}", answer[0], answer[1]);
                }
            }
        }
    }
}

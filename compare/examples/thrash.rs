//! What examples/thrash.c has to print, told by the reference model alone.
//! `cargo run --example thrash`, or `-- MODE LINES read|write|both`.

use std::process::ExitCode;

use oracle::gen::Setup;
use oracle::geometry::{L1d, EXTERNAL_BASE, L2};
use oracle::{Command, Left, Reply};

const SERVERS: [&str; 5] = ["none", "L1D", "SRAM", "L2 cache", "external memory"];

/// A list: the mode, how many lines, whether each is read, and whether it is written.
type List = (u32, u32, bool, bool);

/// Those that are shown without words.
const LISTS: [List; 8] = [
    (0, 2, true, false),
    (0, 3, true, false),
    (0, 3, true, true),
    (1, 4, true, false),
    (1, 5, true, false),
    (1, 5, true, true),
    (1, 5, false, true),
    (7, 5, true, true),
];

fn main() -> ExitCode {
    let words: Vec<String> = std::env::args().skip(1).collect();
    let lists = match &words[..] {
        [] => LISTS.to_vec(),
        [mode, lines, what] => {
            let (read, write) = match &**what {
                "read" => (true, false),
                "write" => (false, true),
                _ => (true, true),
            };
            let number = |word: &str| word.parse().expect("a number");
            vec![(number(mode), number(lines), read, write)]
        }
        _ => return ExitCode::from(2),
    };
    print!("{}", lists.into_iter().map(shown).collect::<Vec<_>>().join("\n"));
    ExitCode::SUCCESS
}

fn left(left: Left) -> String {
    match left {
        Left::None => "none".into(),
        Left::Empty => "empty".into(),
        Left::Clean { address } => format!("clean {address:08X}"),
        Left::Dirty { address } => format!("dirty {address:08X}"),
    }
}

fn shown((mode, lines, read, write): List) -> String {
    let mut setup = Setup::fresh(262_144, 524_288);
    setup.mar(128, 1);
    setup.mode(mode);
    let apart = match L2::sets(mode) {
        0 => L1d::LINE * L1d::SETS as u32,
        sets => L2::LINE * sets as u32,
    };
    let each = ["", "read", "written", "read, then written"];
    let each = each[usize::from(read) + 2 * usize::from(write)];
    let mut text = format!("mode {mode}: {lines} lines, {apart} bytes apart, each {each}, twice\n");
    let mut replies: Vec<Reply> = Vec::new();
    for line in (0..lines).chain(0..lines) {
        let address = EXTERNAL_BASE + line * apart;
        let access = [
            read.then_some(("read", Command::Read { size: 4, address })),
            write.then_some(("write", Command::Write { size: 4, address, value: 1 })),
        ];
        for (name, command) in access.into_iter().flatten() {
            let reply = setup.reply(&command);
            replies.push(reply);
            text += &format!(
                "{:3}  {name:5} {address:08X}  by {:15}  L1D {:14}  L2 {:14}  read {:3}, written {:3}\n",
                replies.len(),
                SERVERS[usize::from(reply.answer.server)],
                left(reply.report.l1d_left),
                left(reply.report.l2_left),
                reply.report.external_read,
                reply.report.external_written
            );
        }
    }
    let by = |server: u8| replies.iter().filter(|reply| reply.answer.server == server).count();
    let l1d: Vec<Left> = replies.iter().map(|reply| reply.report.l1d_left).collect();
    let l2: Vec<Left> = replies.iter().map(|reply| reply.report.l2_left).collect();
    let clean =
        |lefts: &[Left]| lefts.iter().filter(|left| matches!(left, Left::Clean { .. })).count();
    let dirty =
        |lefts: &[Left]| lefts.iter().filter(|left| matches!(left, Left::Dirty { .. })).count();
    text += &format!(
        "served by L1D {}, by the L2 cache {}, by external memory {}\n",
        by(1),
        by(3),
        by(4)
    );
    text += &format!(
        "put out of L1D {} clean, {} dirty; of L2 {} clean, {} dirty\n",
        clean(&l1d),
        dirty(&l1d),
        clean(&l2),
        dirty(&l2)
    );
    let read: u32 = replies.iter().map(|reply| reply.report.external_read).sum();
    let written: u32 = replies.iter().map(|reply| reply.report.external_written).sum();
    text + &format!("bytes of external memory read {read}, written {written}\n")
}

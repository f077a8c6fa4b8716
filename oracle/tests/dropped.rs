//! "Dropped lines" (02, U13): what counts as a writeback that reached a byte and
//! as a line that was dropped, each on a small example, and the three sentences
//! along lists of calls.

use oracle::calls::direct_with_events;
use oracle::dropped::{History, Read};
use oracle::gen::{hot, single, Mix, Rng, Setup, Single, LEGAL_L};
use oracle::geometry::EXTERNAL_BASE;
use oracle::machine::Events;
use oracle::Command;

const A: u32 = 0x8000_0000;

fn cached(mode: u32) -> Setup {
    let mut setup = Setup::fresh(65_536, 65_536);
    setup.mar(128, 1);
    setup.mode(mode);
    setup
}

fn events(setup: &mut Setup, command: Command) -> Events {
    let Setup { record, l1d, l2, ext, l1p } = setup;
    let (reply, events) = direct_with_events(record, l1d, l2, ext, l1p, &command);
    assert_eq!(reply.answer.number, 0);
    events
}

/// In mode 0, and for SRAM, an L1D line goes where it is at home.
#[test]
fn a_line_of_l1d_reaches_its_memory() {
    let mut setup = cached(0);
    for base in [A, 64] {
        setup.read(1, base);
        setup.write(1, base, 5);
        setup.read(1, base + 64);
        let events = events(&mut setup, Command::L1dBlockWritebackInvalidate { base, count: 32 });
        // The clean line behind it goes nowhere.
        assert_eq!((events.reached, events.dropped), (vec![base..base + 64], vec![]));
    }
}

/// L2's commands send L1D lines where they are at home too (02, U10), and its block
/// invalidate drops them: 64 bytes where L2 holds no line with them.
#[test]
fn l2_commands_reach_lines_of_l1d() {
    for (mode, base) in [(0, A), (0, 64), (1, 64)] {
        let count = 17;
        for command in [
            Command::L2WritebackAll,
            Command::L2WritebackInvalidateAll,
            Command::L2BlockWriteback { base, count },
            Command::L2BlockWritebackInvalidate { base, count },
            Command::L2BlockInvalidate { base, count },
        ] {
            let mut setup = cached(mode);
            setup.read(1, base);
            setup.write(1, base, 5);
            setup.read(1, base + 64);
            let events = events(&mut setup, command);
            let (reached, dropped) = match command {
                Command::L2BlockInvalidate { .. } => {
                    (vec![], vec![base..base + 64, base + 64..base + 128])
                }
                _ => (vec![base..base + 64], vec![]),
            };
            assert_eq!((events.reached, events.dropped), (reached, dropped), "{command:?}");
        }
    }
}

/// An L2 line is dropped behind the L1D lines that the block touches, and with the
/// half that it does not touch.
#[test]
fn lines_of_both_caches_are_dropped() {
    let mut setup = cached(1);
    for address in [A, A + 64, A + 192, 0] {
        setup.read(1, address);
    }
    let over_both = Command::L2BlockInvalidate { base: A + 64, count: 17 };
    let both = [A + 64..A + 128, A..A + 64, A..A + 128, A + 192..A + 256, A + 128..A + 256];
    assert_eq!(events(&mut setup, over_both).dropped, both);
    assert!(setup.l1d_line(0).is_some());
}

/// L2 cache is not external memory; from there the line goes out whole.
#[test]
fn a_line_of_l2_reaches_its_memory_whole() {
    let mut setup = cached(1);
    setup.read(1, A + 64);
    setup.write(1, A + 64, 5);
    let into_l2 = Command::L1dBlockWritebackInvalidate { base: A, count: 32 };
    let first = events(&mut setup, into_l2);
    assert_eq!((first.reached, first.dropped), (vec![], vec![]));
    let second = events(&mut setup, Command::L2WritebackAll);
    assert_eq!((second.reached, second.dropped), (vec![A..A + 128], vec![]));
    // It is clean now, and stays where it is.
    let third = events(&mut setup, Command::L2WritebackAll);
    assert_eq!((third.reached, third.dropped), (vec![], vec![]));
}

/// An L2 line that is put out goes to external memory too.
#[test]
fn a_line_that_is_put_out_reaches_its_memory() {
    let mut setup = cached(1);
    setup.write(1, A, 5);
    for turn in 1..4 {
        let read = Command::Read { size: 1, address: A + turn * 8_192 };
        assert_eq!(events(&mut setup, read).reached, []);
    }
    let last = Command::Read { size: 1, address: A + 4 * 8_192 };
    assert_eq!(events(&mut setup, last).reached, [A..A + 128]);
}

/// Valid lines are dropped, clean ones too; no other command drops one.
#[test]
fn lines_are_dropped() {
    let mut setup = cached(1);
    setup.read(1, A);
    setup.read(1, A + 64);
    setup.write(1, A + 64, 5);
    setup.read(1, 0);
    let all = events(&mut setup, Command::L1dInvalidateAll);
    assert_eq!(all.dropped, [A..A + 64, 0..64, A + 64..A + 128]);
    let block = Command::L2BlockInvalidate { base: A + 64, count: 1 };
    assert_eq!(events(&mut setup, block).dropped, [A..A + 128]);
    assert_eq!(events(&mut setup, block).dropped, []);
    setup.read(1, A);
    let halves = events(&mut setup, block);
    assert_eq!((halves.reached, halves.dropped), (vec![], vec![A..A + 64, A..A + 128]));
}

/// A clean line goes nowhere: what came into external memory behind it stays.
#[test]
fn a_clean_line_is_not_written_over_memory() {
    let read = Command::Read { size: 1, address: A };
    let block = Command::L1dBlockWritebackInvalidate { base: A, count: 1 };
    for (mode, writeback) in [(0, block), (1, Command::L2WritebackAll)] {
        let mut setup = cached(mode);
        setup.read(1, A);
        setup.ext[0] = 3;
        assert_eq!(events(&mut setup, writeback).reached, []);
        assert_eq!(setup.look(A)[0], 3);
        setup.call(&Command::L2WritebackInvalidateAll);
        let answer = setup.call(&read);
        assert_eq!((answer.server, answer.value), (4, 3));
    }
}

/// A byte whose line was dropped reads as it stands behind: no other value than
/// these two is taken.
#[test]
fn an_older_value_comes_back() {
    let commands = [
        Command::Read { size: 1, address: 64 },
        Command::Write { size: 1, address: 64, value: 5 },
        Command::L1dBlockInvalidate { base: 64, count: 1 },
    ];
    for value in 0..=255 {
        let mut setup = Setup::fresh(65_536, 128);
        let mut history = History::fresh(&setup);
        for command in &commands {
            let answer = setup.call(command);
            history.call(command, &answer).unwrap();
        }
        let last = Command::Read { size: 1, address: 64 };
        let answer = setup.call(&last);
        assert_eq!(answer.value, 0);
        let seen = history.call(&last, &oracle::Answer { value, ..answer });
        match value {
            0 => assert_eq!(seen, Ok(Read { bytes: 1, older: 1 })),
            5 => assert_eq!(seen, Ok(Read { bytes: 1, older: 0 })),
            _ => assert_eq!(seen.unwrap_err().sentence, 1),
        }
    }
}

/// "a SRAM transfer in writes too" (02, U1), and what it touches goes home first: a drop then
/// brings no older value back than that.
#[test]
fn a_transfer_writes() {
    for value in 0..=255 {
        let mut setup = Setup::fresh(65_536, 128);
        let mut history = History::fresh(&setup);
        let mut made = |command: Command, setup: &mut Setup| {
            let answer = setup.call(&command);
            history.call(&command, &answer)
        };
        // 5 is dirty in L1D, with the byte behind it; 0 stands in SRAM.
        made(Command::Read { size: 1, address: 64 }, &mut setup).unwrap();
        made(Command::Write { size: 1, address: 64, value: 5 }, &mut setup).unwrap();
        made(Command::Write { size: 1, address: 68, value: 6 }, &mut setup).unwrap();
        let answer = setup.transfer_in(64, &[7, 0, 0, 0]).answer;
        assert_eq!(answer.number, 0);
        history.transfer_in(64, &[7, 0, 0, 0], &answer);
        assert_eq!((setup.l2[64], setup.l2[68], setup.l1d_line(64)), (7, 6, None));
        // The byte beside the transfer has reached its memory, and is the only one it held.
        assert!(history.held[&68].iter().eq(&[6]));
        // 7 in L1D becomes 8 there, and is dropped.
        let mut made = |command: Command, setup: &mut Setup| {
            let answer = setup.call(&command);
            history.call(&command, &answer)
        };
        made(Command::Read { size: 1, address: 64 }, &mut setup).unwrap();
        made(Command::Write { size: 1, address: 64, value: 8 }, &mut setup).unwrap();
        made(Command::L1dInvalidateAll, &mut setup).unwrap();
        let last = Command::Read { size: 1, address: 64 };
        let answer = setup.call(&last);
        assert_eq!(answer.value, 7);
        let seen = history.call(&last, &oracle::Answer { value, ..answer });
        match value {
            // 5 went home with the line, 7 came, and 8 was written.
            5 | 7 => assert_eq!(seen, Ok(Read { bytes: 1, older: 1 })),
            8 => assert_eq!(seen, Ok(Read { bytes: 1, older: 0 })),
            _ => assert_eq!(seen.unwrap_err().sentence, 1),
        }
    }
}

/// A transfer out sends lines home too, and a refused one nothing.
#[test]
fn a_transfer_out_sends_lines_home() {
    let mut setup = Setup::fresh(65_536, 128);
    let mut history = History::fresh(&setup);
    for command in [
        Command::Read { size: 1, address: 64 },
        Command::Write { size: 1, address: 64, value: 5 },
        Command::Write { size: 1, address: 64, value: 6 },
    ] {
        let answer = setup.call(&command);
        history.call(&command, &answer).unwrap();
    }
    assert!(history.held[&64].iter().eq(&[0, 5, 6]));
    for (length, number) in [(0, 13), (4, 0)] {
        let mut buffer = vec![1; length];
        let answer = setup.transfer_out(64, &mut buffer).answer;
        assert_eq!(answer.number, number);
        history.transfer_out(64, length, &answer);
        let held: &[u8] = if number == 0 { &[6] } else { &[0, 5, 6] };
        assert!(history.held[&64].iter().eq(held));
        assert_eq!(buffer, [6, 0, 0, 0][..length]);
    }
    assert!(history.dropped.is_empty());
}

/// The sentences hold along lists with drops, and older values are met.
#[test]
fn lists_with_drops_keep_to_the_sentences() {
    let mix = Mix { l2_block_invalidate: 40, l1d_block_invalidate: 40, mode: 5, ..Mix::ALL };
    let (mut met, mut unaligned, mut transfers) = (Read::default(), Read::default(), [0; 2]);
    for (number, l) in LEGAL_L.into_iter().enumerate() {
        let mut rng = Rng::new(4_000 + number as u64);
        let e = [8_192, 65_536, 6 * 65_536][number % 3];
        let mut ext = vec![0; e as usize];
        rng.fill(&mut ext);
        let mut setup = Setup::fresh_over(l, ext);
        let mut history = History::fresh(&setup);
        let lines = hot(&mut rng, l, e);
        for turn in 0..6_000 {
            let call = single(&mut rng, &lines, &mix);
            if let Single::Transfer(transfer) = call {
                // "external transfers left out"
                let (address, length) = (transfer.address, transfer.length);
                let number = history.flat.transfer_number(address, length);
                if number == 0 && address < EXTERNAL_BASE {
                    let answer = setup.transfer(&transfer).0.answer;
                    assert_eq!(answer.number, 0);
                    match transfer.buffer() {
                        Some(buffer) if transfer.is_in() => {
                            history.transfer_in(address, &buffer, &answer);
                        }
                        _ => history.transfer_out(address, length, &answer),
                    }
                    transfers[usize::from(transfer.is_in())] += 1;
                }
                continue;
            }
            // Frames hold an external transfer and are left out as well.
            if let Single::Frame(_) = call {
                continue;
            }
            let answer = setup.single(&call).answer;
            let seen = match &call {
                Single::Command(command) => history.call(command, &answer),
                Single::Unaligned(access) => history.unaligned(access, &answer),
                Single::Program(call) => {
                    history.program(call, answer.number == 0);
                    Ok(Read::default())
                }
                Single::Transfer(_) | Single::Frame(_) => unreachable!(),
            };
            match seen {
                Ok(read) => {
                    met.bytes += read.bytes;
                    met.older += read.older;
                    if let Single::Unaligned(_) = call {
                        unaligned.bytes += read.bytes;
                        unaligned.older += read.older;
                    }
                }
                Err(broken) => panic!("{l} {turn} {call:?}: {broken:?}"),
            }
        }
    }
    assert!(met.bytes > 50_000 && met.older > 500, "{met:?}");
    assert!(unaligned.bytes > 5_000 && unaligned.older > 50, "{unaligned:?}");
    assert!(transfers.iter().all(|&count| count > 100), "{transfers:?}");
}

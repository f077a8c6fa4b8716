//! Program fetches (02, U4), worked out by hand from its sentences.

use oracle::covered::Covered;
use oracle::dropped::History;
use oracle::flat::Flat;
use oracle::gen::{hot_for, l_for, single, Mix, Rng, Setup, Single, LEGAL_MODES};
use oracle::geometry::{L1p, L2};
use oracle::record::L1pSet;
use oracle::wellformed::{broken_clauses, Clause};
use oracle::written::Written;
use oracle::{Answer, Command, Fetched, Left, Line, Program, Record, Reply, Report, Unaligned};

const A: u32 = 0x8000_0000;

/// External memory in which the byte at offset i is i, 8 bits of it.
fn counted(e: u32) -> Vec<u8> {
    (0..e).map(|offset| offset as u8).collect()
}

/// A chip in this mode with MAR 128 set, over external memory that counts up.
fn chip(mode: u32) -> Setup {
    let mut setup = Setup::fresh_over(65_536, counted(65_536));
    setup.mar(128, 1);
    setup.mode(mode);
    setup
}

/// The 32 bytes that count up from an offset.
fn counting(from: u32) -> [u8; 32] {
    std::array::from_fn(|place| (from as u8).wrapping_add(place as u8))
}

fn fetched(
    server: u8,
    l1p_left: Left,
    l2_left: Left,
    moved: (u32, u32),
    bytes: [u8; 32],
) -> Fetched {
    let answer = Answer { number: 0, server, value: 0 };
    let (external_read, external_written) = moved;
    let report = Report { l1d_left: Left::None, l2_left, external_read, external_written };
    Fetched { reply: Reply { answer, report }, l1p_left, bytes }
}

fn invalidate(setup: &mut Setup, base: u32, count: u32) -> u8 {
    setup.program(&Program::InvalidateBlock { base, count }).reply.answer.number
}

#[test]
fn sets_and_places() {
    assert_eq!([0, 31, 32, 0x3FE0, 0x4000].map(L1p::set_of), [0, 0, 1, 511, 0]);
    assert_eq!(L1p::set_of(A + 0x7FFF), 511);
    assert_eq!([0, 1, 511].map(L1p::offset), [0, 32, 16_352]);
    assert_eq!((L1p::LINE, L1p::WAYS, L1p::SETS), (32, 1, 512));
}

/// SRAM, external memory in mode 0, and past L1P with MAR bit 0.
#[test]
fn each_server_in_mode_0() {
    let none = Left::None;
    let mut setup = chip(0);
    setup.write(4, 0x40, 0x0403_0201);
    let mut bytes = [0; 32];
    bytes[..4].copy_from_slice(&[1, 2, 3, 4]);
    assert_eq!(setup.fetch(0x40), fetched(2, Left::Empty, none, (0, 0), bytes));
    assert_eq!(setup.fetch(0x40), fetched(5, none, none, (0, 0), bytes));
    assert_eq!(setup.fetch(A + 96), fetched(4, Left::Empty, none, (32, 0), counting(96)));
    assert_eq!(setup.fetch(A + 96), fetched(5, none, none, (0, 0), counting(96)));
    assert_eq!(setup.record.held_in_l1p(), 2);
    assert_eq!(setup.l1p[64..96], bytes);
    assert_eq!(setup.l1p[96..128], counting(96));
    // One way: the line 16,384 bytes on puts it out, and it is clean.
    let left = Left::Clean { address: A + 96 };
    assert_eq!(setup.fetch(A + 96 + 16_384), fetched(4, left, none, (32, 0), counting(96)));
    assert!(!setup.l1p_holds(A + 96) && setup.l1p_holds(A + 96 + 16_384));
    // With the bit 0 nothing is looked up, chosen or kept.
    let mut setup = Setup::fresh_over(65_536, counted(65_536));
    for _ in 0..2 {
        assert_eq!(setup.fetch(A + 32), fetched(4, none, none, (32, 0), counting(32)));
    }
    assert_eq!(setup.record.held_in_l1p(), 0);
    assert_eq!(setup.l1p, [0; 16_384]);
}

/// "cached in L2 like a data read": a miss brings 128 bytes, the other three lines then hit there.
#[test]
fn l2_serves_fetches() {
    let none = Left::None;
    let mut setup = chip(1);
    let first = fetched(4, Left::Empty, Left::Empty, (128, 0), counting(32));
    assert_eq!(setup.fetch(A + 32), first);
    assert_eq!(setup.l2_line(A), Some(Line { valid: true, dirty: false, address: A }));
    assert_eq!(setup.record.l2[0].order, [0, 3, 2, 1]);
    assert_eq!(setup.fetch(A + 32).reply.answer.server, 5);
    for place in [0, 64, 96] {
        let bytes = counting(place);
        assert_eq!(setup.fetch(A + place), fetched(3, Left::Empty, none, (0, 0), bytes));
    }
    // L1D has no part in it.
    assert_eq!(setup.l1d_line(A), None);
    // A hit in L2 uses its way; a hit in L1P uses none.
    setup.fetch(A + 8_192);
    assert_eq!(setup.record.l2[0].order, [1, 0, 3, 2]);
    setup.fetch(A);
    assert_eq!(setup.record.l2[0].order, [1, 0, 3, 2]);
    setup.program(&Program::InvalidateAll);
    assert_eq!(setup.fetch(A).reply.answer.server, 3);
    assert_eq!(setup.record.l2[0].order, [0, 1, 3, 2]);
}

/// "never looks for them in L1D": what the CPU wrote stands in L1D alone, and a fetch takes the
/// home's bytes; "an L2 line put out still takes in its halves".
#[test]
fn l1d_is_not_looked_at() {
    for mode in [0, 1] {
        let mut setup = chip(mode);
        for address in [0x1000, A + 64] {
            setup.read(1, address);
            setup.write(1, address, 0xEE);
            assert_eq!(setup.l1d_line(address).map(|line| line.dirty), Some(true));
            let was = if address < A { 0 } else { 64 };
            let record = setup.record.l1d;
            assert_eq!(setup.fetch(address).bytes[0], was);
            assert!(setup.record.l1d == record);
        }
    }
    let mut setup = chip(1);
    setup.read(1, A + 64);
    setup.write(1, A + 64, 0xEE);
    for turn in 1..4 {
        setup.fetch(A + turn * 8_192);
    }
    let left = Left::Dirty { address: A };
    // A + 8,192 and A + 24,576 lie in one set of L1P, A and A + 32,768 with A + 16,384 in another.
    let out = Left::Clean { address: A + 2 * 8_192 };
    assert_eq!(setup.fetch(A + 4 * 8_192), fetched(4, out, left, (128, 128), counting(0)));
    assert_eq!((setup.ext[64], setup.l1d_line(A + 64), setup.record.dirty_l1d), (0xEE, None, 0));
}

/// "Data writes and L2 evictions leave L1P untouched", and so do transfers and reads.
#[test]
fn writes_and_evictions_leave_l1p() {
    let mut setup = chip(1);
    setup.fetch(A);
    setup.fetch(0x2000);
    let (held, bytes) = (setup.record.l1p, setup.l1p.clone());
    setup.write(4, A, 0xDDDD_DDDD);
    setup.write(4, 0x2000, 0xDDDD_DDDD);
    setup.unaligned(&Unaligned::Write { size: 8, address: A + 3, value: 1 });
    setup.transfer_in(0x2000, &[7; 64]);
    setup.transfer_in(A, &[7; 128]);
    for turn in 1..6 {
        setup.read(4, A + turn * 8_192);
    }
    assert_eq!(setup.l2_line(A), None);
    assert!(setup.record.l1p == held && setup.l1p == bytes);
    // The fetch sees what L1P has; needn't be in L2.
    assert_eq!(setup.fetch(A), fetched(5, Left::None, Left::None, (0, 0), counting(0)));
    assert_eq!(setup.fetch(0x2000).bytes, [0; 32]);
    assert_eq!(broken_clauses(&setup.record), []);
}

/// "L2 writeback-invalidate, block or all, and L2 block invalidate drop the L1P lines inside valid
/// L2 lines they act on": all four; a writeback, and the L1D commands, drop none.
#[test]
fn commands_that_drop() {
    let (base, count) = (A + 4, 1);
    for (command, drops, all) in [
        (Command::L2WritebackAll, false, false),
        (Command::L2WritebackInvalidateAll, true, true),
        (Command::L2BlockWriteback { base, count }, false, false),
        (Command::L2BlockWritebackInvalidate { base, count }, true, false),
        (Command::L2BlockInvalidate { base, count }, true, false),
        (Command::L1dBlockWritebackInvalidate { base, count }, false, false),
        (Command::L1dBlockInvalidate { base, count }, false, false),
        (Command::L1dInvalidateAll, false, false),
        (Command::Freeze { frozen: 1 }, false, false),
    ] {
        for mode in [0, 1] {
            let mut setup = chip(mode);
            let lines = [0, 32, 64, 96].map(|place| A + place);
            for line in lines {
                setup.fetch(line);
            }
            setup.fetch(A + 128);
            setup.fetch(0x1000);
            setup.fetch(0x200);
            // A line whose L2 line has left.
            if mode == 1 {
                for turn in 1..6 {
                    setup.fetch(A + 256 + turn * 8_192);
                }
            }
            let bytes = setup.l1p.clone();
            assert_eq!(setup.call(&command).number, 0);
            let gone = drops && mode == 1;
            let held = lines.map(|line| setup.l1p_holds(line));
            assert_eq!(held, [!gone; 4], "{command:?} {mode}");
            assert_eq!(setup.l1p_holds(A + 128), !(all && mode == 1), "{command:?}");
            assert!(setup.l1p_holds(0x1000) && setup.l1p_holds(0x200), "{command:?}");
            if mode == 1 {
                // Six lines in four ways: the first has left L2, and stays in L1P.
                assert_eq!(setup.l2_line(A + 256 + 8_192), None);
            }
            assert!(setup.l1p == bytes, "no byte of L1P changes");
            assert_eq!(broken_clauses(&setup.record), []);
        }
    }
}

/// A line that is in L1P and no longer in L2 is not "inside valid L2 lines they act on".
#[test]
fn lines_outside_l2_stay() {
    for command in [
        Command::L2WritebackInvalidateAll,
        Command::L2BlockWritebackInvalidate { base: A, count: 32 },
        Command::L2BlockInvalidate { base: A, count: 32 },
    ] {
        let mut setup = chip(1);
        setup.fetch(A + 96);
        for turn in 1..5 {
            setup.read(1, A + turn * 8_192);
        }
        assert_eq!(setup.l2_line(A), None);
        setup.call(&command);
        assert!(setup.l1p_holds(A + 96), "{command:?}");
    }
}

#[test]
fn a_mode_change_drops_all() {
    for (from, to) in [(0, 0), (0, 1), (1, 1), (1, 0)] {
        let mut setup = chip(from);
        for address in [0, A + 32, A + 16_352] {
            setup.fetch(address);
        }
        let bytes = setup.l1p.clone();
        setup.mode(5);
        assert_eq!(setup.record.held_in_l1p(), 3);
        setup.mode(to);
        assert!(setup.record.l1p == [L1pSet::FRESH; 512] && setup.l1p == bytes);
    }
}

/// "L1P has block and whole invalidation of its own, checked as L1D's are."
#[test]
fn invalidations() {
    let mut setup = chip(0);
    for place in [0, 32, 64, 96] {
        setup.fetch(A + place);
    }
    let start = setup.clone();
    let held = |setup: &Setup| [0, 32, 64, 96].map(|place| setup.l1p_holds(A + place));
    for (base, count, number, expected) in [
        (A, 0, 0, [true; 4]),
        (A + 28, 1, 0, [false, true, true, true]),
        (A + 28, 2, 0, [false, false, true, true]),
        (A + 60, 10, 0, [true, false, false, false]),
        (A - 4, 1, 0, [true; 4]),
        (A - 4, 2, 0, [false, true, true, true]),
        (A, 65_535, 0, [false; 4]),
        (0xFFFF_FFFC, 65_535, 0, [true; 4]),
        (A + 2, 1, 4, [true; 4]),
        (A + 1, 65_536, 4, [true; 4]),
        (A, 65_536, 7, [true; 4]),
    ] {
        let mut setup = start.clone();
        assert_eq!(invalidate(&mut setup, base, count), number, "{base:x} {count}");
        assert_eq!(held(&setup), expected, "{base:x} {count}");
        assert!(setup.l1p == start.l1p && setup.ext == start.ext && setup.l2 == start.l2);
    }
    let mut setup = start.clone();
    assert_eq!(setup.program(&Program::InvalidateAll), Fetched::refused(0));
    assert!(*setup.record == Record { l1p: [L1pSet::FRESH; 512], ..*start.record });
    assert!(setup.l1p == start.l1p);
    // They reach no other cache.
    let mut setup = chip(1);
    setup.read(1, A);
    setup.write(1, A, 9);
    let before = setup.clone();
    invalidate(&mut setup, A, 32);
    setup.program(&Program::InvalidateAll);
    assert!(setup == before);
}

/// "Errors: 15 for a fetch address not a multiple of 32, after 2 and before 5. A refused fetch
/// returns 32 zero bytes."
#[test]
fn refusals_of_a_fetch() {
    let mut setup = chip(1);
    for (address, number) in [
        (0, 0),
        (32_736, 0),
        (32_768, 5),
        (1, 15),
        (16, 15),
        (31, 15),
        (32_784, 15),
        (A - 32, 5),
        (A + 65_504, 0),
        (A + 65_536, 5),
        (A + 65_537, 15),
        (0xFFFF_FFE0, 5),
        (0xFFFF_FFFF, 15),
    ] {
        let before = setup.clone();
        let fetched = setup.fetch(address);
        assert_eq!(fetched.reply.answer.number, number, "{address:x}");
        if number != 0 {
            assert_eq!(fetched, Fetched::refused(number));
            assert!(setup == before);
        }
    }
    for (l1p, mar129, number) in [(16_384, 1, 15), (16_384, 2, 2), (16_383, 2, 1), (16_385, 0, 1)] {
        let mut setup = chip(0);
        setup.l1p.resize(l1p, 0);
        setup.record.mar129 = mar129;
        assert_eq!(setup.fetch(1), Fetched::refused(number));
        let other = if number == 15 { 0 } else { number };
        let all = setup.program(&Program::InvalidateAll);
        assert_eq!(all, Fetched::refused(other));
        // The view is not lent L1P.
        assert_eq!(setup.look_number(0), if number == 2 || mar129 == 2 { 2 } else { 0 });
        let mut answers = [];
        assert_eq!(setup.run(&[], &mut answers).stop, other);
    }
}

/// "L1P lines are always clean, lie where L1D lines may, and needn't be in L2."
#[test]
fn well_formed_lines() {
    let put = |set: usize, dirty: bool, address: u32| {
        let mut setup = chip(1);
        setup.record.l1p[set].lines[0] = Line { valid: true, dirty, address };
        setup.record
    };
    for (record, broken) in [
        (put(0, false, 0), vec![]),
        (put(511, false, A + 16_352), vec![]),
        (put(0, false, 32_768 - 16_384), vec![]),
        (put(1, true, A + 32), vec![Clause::L1pClean]),
        (put(1, false, A), vec![Clause::OwnSets]),
        (put(0, false, A + 16), vec![Clause::LineMultiples]),
        (put(0, false, 32_768), vec![Clause::L1pPlaces]),
        (put(0, false, A + 65_536), vec![Clause::L1pPlaces]),
        (put(511, false, A - 32), vec![Clause::L1pPlaces]),
    ] {
        assert_eq!(broken_clauses(&record), broken);
        let mut setup = chip(1);
        setup.record = record;
        let number = if broken.is_empty() { 0 } else { 2 };
        assert_eq!(setup.look_number(0), number, "the view checks L1P's lines too");
        assert_eq!(setup.read(1, 0).number, number);
    }
    for line in [
        Line { valid: false, dirty: true, address: 0 },
        Line { valid: false, dirty: false, address: 32 },
    ] {
        let mut setup = chip(0);
        setup.record.l1p[1].lines[0] = line;
        assert_eq!(broken_clauses(&setup.record), [Clause::InvalidWays]);
    }
    // "lie where L1D lines may": not where the MAR bit is 0.
    let mut setup = Setup::fresh(65_536, 65_536);
    setup.record.l1p[0].lines[0] = Line { valid: true, dirty: false, address: A };
    assert_eq!(broken_clauses(&setup.record), [Clause::L1pPlaces]);
}

/// "Check 10 now looks in L1P too".
#[test]
fn a_mar_bit_stays_while_l1p_holds_a_line() {
    let mut setup = chip(0);
    setup.fetch(A + 32);
    assert_eq!(setup.mar(128, 0).number, 10);
    assert_eq!((setup.mar(128, 1).number, setup.mar(129, 0).number), (0, 0));
    invalidate(&mut setup, A + 32, 1);
    assert_eq!(setup.mar(128, 0).number, 0);
    let mut setup = chip(0);
    setup.fetch(0);
    assert_eq!(setup.mar(128, 0).number, 0);
}

/// L1P is not frozen: L1D alone is (02, U11).
#[test]
fn l1p_is_not_frozen() {
    let mut setup = chip(1);
    setup.freeze(1);
    assert_eq!(setup.fetch(A).reply.answer.server, 4);
    assert_eq!(setup.fetch(A).reply.answer.server, 5);
}

/// A frame's L2 block writeback-invalidate drops L1P's lines too (02, U14 and U4); where L2 holds
/// none of the place, they stay.
#[test]
fn frames_drop_lines() {
    for (mode, stays) in [(0, true), (1, false)] {
        let mut setup = chip(mode);
        setup.fetch(A + 32);
        setup.fetch(A + 0xC00);
        let frame = oracle::gen::Frame { turn: 0, length: 3_072, filling: 1 };
        assert_eq!(setup.frame(&frame).number, 0);
        assert_eq!(setup.l1p_holds(A + 32), stays, "{mode}");
        assert!(setup.l1p_holds(A + 0xC00));
    }
}

/// A fetch along a run: 3, 5 and 6 drop in a trace as they do as calls.
#[test]
fn runs_drop_lines() {
    let mut setup = chip(1);
    setup.fetch(A + 32);
    let mut answers = [0; 10];
    assert_eq!(setup.run(&[3], &mut answers).stop, 0);
    assert!(!setup.l1p_holds(A + 32));
}

/// "For U1's external transfers a fetch is a CPU access."
#[test]
fn a_fetch_uncovers() {
    let mut covered = Covered::fresh(1_024);
    assert!(covered.joins(A, 128));
    covered.fetch(A + 96, false);
    assert!(covered.joins(A, 128) && !covered.was_accessed(A, 128));
    covered.fetch(A + 96, true);
    assert!(!covered.joins(A, 128) && covered.joins(A + 128, 128));
    covered.command(&Command::L2BlockWritebackInvalidate { base: A, count: 1 }, true);
    covered.command(&Command::L1dBlockWritebackInvalidate { base: A, count: 32 }, true);
    assert!(covered.joins(A, 128));
}

/// Each byte for itself, since fresh or the last accepted mode change, by CPU or EDMA.
#[test]
fn written_bytes() {
    let mut written = Written::fresh();
    let at = |written: &Written| [30, 31, 32, 33, 34].map(|place| written.was(A + place));
    written.command(&Command::Write { size: 2, address: A + 32, value: 1 }, false);
    written.command(&Command::Read { size: 2, address: A + 32 }, true);
    assert_eq!(at(&written), [false; 5]);
    written.command(&Command::Write { size: 2, address: A + 32, value: 1 }, true);
    assert_eq!(at(&written), [false, false, true, true, false]);
    written.command(&Command::Mode { mode: 9 }, false);
    written.unaligned(&Unaligned::Read { size: 4, address: A + 31 }, true);
    assert_eq!(at(&written), [false, false, true, true, false]);
    written.unaligned(&Unaligned::Write { size: 4, address: A + 31, value: 1 }, true);
    assert_eq!(at(&written), [false, true, true, true, true]);
    written.command(&Command::Mode { mode: 0 }, true);
    assert_eq!(at(&written), [false; 5]);
    written.transfer_in(A + 28, 4, false);
    written.transfer_in(A + 28, 4, true);
    assert_eq!(at(&written), [true, true, false, false, false]);
    written.frame(1, true);
    let places = [0x8000_0BFF, 0x8000_0C00, 0x8000_17FF, 0x8000_1800];
    assert_eq!(places.map(|place| written.was(place)), [false, true, true, false]);
}

#[test]
fn flat_memory_fetches() {
    let mut flat = Flat::fresh(65_536, &counted(256));
    assert_eq!(flat.fetch(A + 32), (0, counting(32)));
    assert_eq!(flat.fetch(A + 224), (0, counting(224)));
    flat.write(4, 65_504, 0x0403_0201);
    assert_eq!(flat.fetch(65_504).1[..5], [1, 2, 3, 4, 0]);
    let refused: Vec<u8> =
        [A + 256, A + 257, 65_536, A - 32, 1, 0xFFFF_FFE0].map(|at| flat.fetch(at).0).into();
    assert_eq!(refused, [5, 15, 5, 5, 15, 5]);
    assert_eq!(flat.fetch(A + 256).1, [0; 32]);
    flat.change_mode(1);
    assert_eq!((flat.fetch(32_768).0, flat.fetch(32_736).0), (5, 0));
}

/// An L2 line that leaves for a fetch reaches external memory (02, U13); a line of L1P is none that
/// was dropped.
#[test]
fn a_fetch_in_a_history() {
    let mut setup = chip(1);
    let mut history = History::fresh(&setup);
    let write = Command::Write { size: 1, address: A, value: 9 };
    let answer = setup.call(&write);
    history.call(&write, &answer).unwrap();
    assert!(history.held[&A].iter().eq(&[0, 9]));
    for turn in 1..5 {
        let call = Program::Fetch { address: A + turn * 8_192 };
        assert_eq!(setup.program(&call).reply.answer.number, 0);
        history.program(&call, true);
    }
    assert!(history.held[&A].iter().eq(&[9]));
    history.program(&Program::InvalidateAll, true);
    assert!(history.dropped.is_empty());
}

/// Set against what a data read of the same bytes does from the same beginning, L1D emptied first
/// and L1P too: the same server, the same L2, the same bytes.
#[test]
fn fetches_beside_reads() {
    let mut rng = Rng::new(44);
    let mut servers = [0; 5];
    for turn in 0..40 {
        let mode = LEGAL_MODES[turn % LEGAL_MODES.len()];
        let l = l_for(&mut rng, mode);
        let mut setup = Setup::random(&mut rng, l, 65_536);
        setup.redraw_record_in_mode(&mut rng, mode);
        let lines = hot_for(&mut rng, &setup.record);
        for _ in 0..60 {
            let call = single(&mut rng, &lines, &Mix::ALL);
            setup.single(&call);
            let Single::Program(Program::Fetch { address }) = call else { continue };
            let mut by_fetch = setup.clone();
            by_fetch.program(&Program::InvalidateAll);
            by_fetch.call(&Command::L1dInvalidateAll);
            let mut by_read = by_fetch.clone();
            let fetched = by_fetch.fetch(address);
            if fetched.reply.answer.number != 0 {
                continue;
            }
            let first = by_read.reply(&Command::Read { size: 8, address });
            assert_eq!(fetched.reply.answer.server, first.answer.server);
            assert_eq!(fetched.reply.report.l2_left, first.report.l2_left);
            assert_eq!(fetched.bytes[..8], first.answer.value.to_le_bytes());
            assert!(by_fetch.record.l2 == by_read.record.l2 && by_fetch.ext == by_read.ext);
            assert!(by_fetch.l2 == by_read.l2);
            if setup.record.mode != 0 && by_fetch.l2_line(address).is_some() {
                let counts =
                    |reply: &Reply| (reply.report.external_read, reply.report.external_written);
                assert_eq!(counts(&fetched.reply), counts(&first));
            }
            servers[usize::from(first.answer.server)] += 1;
        }
    }
    assert!(servers[2..].iter().all(|&count| count > 20), "{servers:?}");
    assert_eq!(L2::LINE / L1p::LINE, 4);
}

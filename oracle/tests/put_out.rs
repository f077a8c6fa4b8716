//! "Which line was put out" (02, U2): what a chosen way tells, and the bytes that an
//! access moves from and to external memory.

use oracle::calls::direct;
use oracle::gen::{
    command, crowded, crowded_e, encode, hot_for, l_for, make_length_wrong, Mix, Rng, Setup,
    LEGAL_MODES, WRONG_LENGTHS,
};
use oracle::geometry::{L1d, EXTERNAL_BASE};
use oracle::trace::ANSWER_BYTES;
use oracle::{Answer, Command, Left, Line, Record, Reply, Report};

const A: u32 = EXTERNAL_BASE;

/// Every mode is legal with this L; mode 7 leaves no SRAM of it.
const L: u32 = 262_144;

/// Lines so far apart are in one set of L1D and, in every mode, in one of L2.
const APART: u32 = 65_536;

fn cached(mode: u32) -> Setup {
    let ext = (0..8 * APART).map(|place| (place * 7 + place / 256) as u8).collect();
    let mut setup = Setup::fresh_over(L, ext);
    setup.mar(128, 1);
    assert_eq!(setup.mode(mode).number, 0);
    setup
}

fn read(setup: &mut Setup, address: u32) -> Report {
    accepted(setup, &Command::Read { size: 4, address })
}

fn write(setup: &mut Setup, address: u32) -> Report {
    accepted(setup, &Command::Write { size: 4, address, value: 0x0403_0201 })
}

fn accepted(setup: &mut Setup, command: &Command) -> Report {
    let Reply { answer, report } = setup.reply(command);
    assert_eq!(answer.number, 0, "{command:?}");
    report
}

fn report(l1d_left: Left, l2_left: Left, external_read: u32, external_written: u32) -> Report {
    Report { l1d_left, l2_left, external_read, external_written }
}

fn clean(address: u32) -> Left {
    Left::Clean { address }
}

fn dirty(address: u32) -> Left {
    Left::Dirty { address }
}

use Left::{Empty, None as NoWay};

/// "whether it was empty or which line address left it dirty or clean", in L1D. In
/// mode 0 external memory is the home of its lines.
#[test]
fn three_lines_of_an_l1d_set_in_mode_0() {
    let mut setup = cached(0);
    assert_eq!(read(&mut setup, A + 4), report(Empty, NoWay, 64, 0));
    assert_eq!(read(&mut setup, A + APART), report(Empty, NoWay, 64, 0));
    assert_eq!(read(&mut setup, A + 2 * APART), report(clean(A), NoWay, 64, 0));
    write(&mut setup, A + APART + 60);
    assert_eq!(read(&mut setup, A + 12), report(clean(A + 2 * APART), NoWay, 64, 0));
    assert_eq!(read(&mut setup, A + 2 * APART), report(dirty(A + APART), NoWay, 64, 64));
    assert_eq!(read(&mut setup, A + 3 * APART + 63 * 64), report(Empty, NoWay, 64, 0));
}

/// The lines of SRAM come from SRAM and go there: no byte of external memory is moved.
#[test]
fn lines_of_sram_move_no_external_byte() {
    for mode in [0, 1, 2, 3] {
        let mut setup = cached(mode);
        for address in [64, 64 + 8_192] {
            assert_eq!(read(&mut setup, address), report(Empty, NoWay, 0, 0));
        }
        write(&mut setup, 64);
        assert_eq!(read(&mut setup, 64 + 16_384), report(clean(64 + 8_192), NoWay, 0, 0));
        assert_eq!(read(&mut setup, 64 + 8_192), report(dirty(64), NoWay, 0, 0));
        // A line of external memory comes for a dirty one of SRAM.
        write(&mut setup, 64 + 16_384);
        read(&mut setup, 64 + 8_192);
        let fetched = if mode == 0 { (NoWay, 64) } else { (Empty, 128) };
        let expected = report(dirty(64 + 16_384), fetched.0, fetched.1, 0);
        assert_eq!(read(&mut setup, A + 64), expected);
    }
}

/// Five lines of a set of L2, read: the fifth puts the first one out, and so on.
#[test]
fn five_lines_of_an_l2_set() {
    for mode in [1, 2, 3, 7] {
        let mut setup = cached(mode);
        for turn in 0..4 {
            let l1d = if turn < 2 { Empty } else { clean(A + (turn - 2) * APART) };
            assert_eq!(read(&mut setup, A + turn * APART), report(l1d, Empty, 128, 0));
        }
        let line = |turn: u32| A + turn % 5 * APART;
        for turn in 4..13 {
            // L1D has held the last two of them, L2 the last four.
            let expected = report(clean(line(turn - 2)), clean(line(turn - 4)), 128, 0);
            assert_eq!(read(&mut setup, line(turn)), expected);
        }
    }
}

/// "an L2 line once it has taken in its halves": the line was clean, and one half or
/// both were dirty in L1D.
#[test]
fn an_l2_line_is_dirty_by_its_halves() {
    for mode in [1, 2, 3, 7] {
        for halves in [&[0][..], &[64], &[0, 64]] {
            for by_write in [false, true] {
                let mut setup = cached(mode);
                for half in halves {
                    read(&mut setup, A + half);
                    write(&mut setup, A + half + 8);
                }
                for turn in 1..4 {
                    // A write miss fills nothing, so the halves stay in L1D.
                    write(&mut setup, A + turn * APART + 4);
                    assert_eq!(setup.l2_line(A), line(A, false));
                }
                let last = A + 4 * APART + 4;
                let told = if by_write {
                    write(&mut setup, last)
                } else {
                    // Neither does a frozen read miss.
                    setup.freeze(1);
                    read(&mut setup, last)
                };
                assert_eq!(told, report(NoWay, dirty(A), 128, 128));
                assert_eq!((setup.l1d_line(A), setup.l1d_line(A + 64)), (None, None));
                // The lines that were written are dirty by themselves.
                let next = read(&mut setup, A);
                assert_eq!(next.l2_left, dirty(A + APART));
                assert_eq!((next.external_read, next.external_written), (128, 128));
            }
        }
    }
}

fn line(address: u32, dirty: bool) -> Option<Line> {
    Some(Line { valid: true, dirty, address })
}

/// Halves that are clean leave with their line and do not make it dirty.
#[test]
fn clean_halves_leave_an_l2_line_clean() {
    let mut setup = cached(1);
    read(&mut setup, A);
    read(&mut setup, A + 64);
    for turn in 1..4 {
        write(&mut setup, A + turn * APART);
    }
    assert_eq!(write(&mut setup, A + 4 * APART), report(NoWay, clean(A), 128, 0));
    assert_eq!((setup.l1d_line(A), setup.l1d_line(A + 64)), (None, None));
}

/// The line that a read puts out of L1D goes into the L2 line that the same read puts
/// out: L1D tells it dirty, L2 tells its own line dirty, and external memory gets the
/// 128 bytes once.
#[test]
fn the_line_put_out_of_l1d_makes_the_l2_line_dirty() {
    let mut setup = cached(1);
    read(&mut setup, A);
    write(&mut setup, A);
    for turn in 1..4 {
        write(&mut setup, A + turn * APART);
    }
    // The other way of the set of L1D is filled, and used, by a line of SRAM.
    read(&mut setup, 0);
    assert_eq!(read(&mut setup, A + 4 * APART), report(dirty(A), dirty(A), 128, 128));
    assert_eq!(setup.ext[..4], [1, 2, 3, 4]);
}

/// The line that leaves L1D is told as it was when its way was chosen: that it goes into
/// L2 counts for nothing, and the L2 line that leaves is another.
#[test]
fn a_writeback_into_l2_is_not_external() {
    for mode in [1, 2, 3, 7] {
        let mut setup = cached(mode);
        for turn in 0..2 {
            read(&mut setup, A + turn * APART);
            write(&mut setup, A + turn * APART);
        }
        read(&mut setup, A + 2 * APART);
        assert_eq!(setup.l2_line(A), line(A, true));
        // From L2, where the line still is.
        assert_eq!(read(&mut setup, A), report(dirty(A + APART), NoWay, 0, 0));
        assert_eq!(read(&mut setup, A + APART), report(clean(A + 2 * APART), NoWay, 0, 0));
    }
}

/// Halves that leave L1D with their L2 line are told by no way: none was chosen for them.
#[test]
fn a_half_that_leaves_with_its_line_is_no_choice() {
    let mut setup = cached(1);
    read(&mut setup, A);
    write(&mut setup, A);
    for turn in 1..4 {
        read(&mut setup, A + turn * APART + 64);
    }
    let expected = report(clean(A + 2 * APART + 64), dirty(A), 128, 128);
    assert_eq!(read(&mut setup, A + 4 * APART + 64), expected);
    assert_eq!(setup.l1d_line(A), None);
    assert_eq!(read(&mut setup, A).l1d_left, Empty);
}

#[test]
fn hits_choose_no_way() {
    for mode in LEGAL_MODES {
        for frozen in [0, 1] {
            let mut setup = cached(mode);
            for turn in 0..2 {
                read(&mut setup, A + turn * APART);
            }
            setup.freeze(frozen);
            for size in [1, 2, 4, 8] {
                let address = A + 8;
                assert_eq!(accepted(&mut setup, &Command::Read { size, address }), Report::NONE);
                let value = 1;
                let command = Command::Write { size, address, value };
                assert_eq!(accepted(&mut setup, &command), Report::NONE);
            }
        }
    }
}

/// Of a read miss in L1D that hits L2 just L1D tells something, and nothing is moved.
#[test]
fn an_l2_hit_chooses_no_way_of_l2() {
    for mode in [1, 2, 3, 7] {
        let mut setup = cached(mode);
        for turn in 0..3 {
            read(&mut setup, A + turn * APART);
        }
        assert_eq!(read(&mut setup, A), report(clean(A + APART), NoWay, 0, 0));
        assert_eq!(read(&mut setup, A + 64), report(Empty, NoWay, 0, 0));
        assert_eq!(write(&mut setup, A + APART), Report::NONE);
        setup.freeze(1);
        assert_eq!(read(&mut setup, A + APART), Report::NONE);
    }
}

/// "Write miss: L1D is neither filled nor used": it chooses no way there, but L2 does.
#[test]
fn write_misses_choose_no_way_of_l1d() {
    for size in [1, 2, 4, 8] {
        for mode in LEGAL_MODES {
            let write = |setup: &mut Setup, address: u32| {
                accepted(setup, &Command::Write { size, address, value: 5 })
            };
            let mut setup = cached(mode);
            if mode == 0 {
                assert_eq!(write(&mut setup, A), report(NoWay, NoWay, 0, size));
                read(&mut setup, A + APART);
                read(&mut setup, A + 2 * APART);
                assert_eq!(write(&mut setup, A + 8), report(NoWay, NoWay, 0, size));
            } else {
                for turn in 0..4 {
                    let address = A + turn * APART;
                    assert_eq!(write(&mut setup, address), report(NoWay, Empty, 128, 0));
                    assert_eq!(write(&mut setup, address + 120), Report::NONE);
                }
                let expected = report(NoWay, dirty(A), 128, 128);
                assert_eq!(write(&mut setup, A + 4 * APART), expected);
            }
            if mode != 7 {
                assert_eq!(write(&mut setup, 64), Report::NONE);
            }
        }
    }
}

/// A frozen L1D chooses no way; L2, which isn't frozen, does. In mode 0 "a read miss
/// takes just its bytes".
#[test]
fn a_frozen_l1d_chooses_no_way() {
    for mode in LEGAL_MODES {
        let mut setup = cached(mode);
        for turn in 0..2 {
            read(&mut setup, A + turn * APART);
            write(&mut setup, A + turn * APART);
        }
        setup.freeze(1);
        if mode != 7 {
            assert_eq!(read(&mut setup, 64), Report::NONE);
        }
        if mode == 0 {
            for size in [1, 2, 4, 8] {
                let command = Command::Read { size, address: A + 2 * APART + 8 };
                assert_eq!(accepted(&mut setup, &command), report(NoWay, NoWay, size, 0));
            }
        } else {
            for turn in 2..4 {
                assert_eq!(read(&mut setup, A + turn * APART), report(NoWay, Empty, 128, 0));
                assert_eq!(read(&mut setup, A + turn * APART), Report::NONE);
            }
            // The first line takes its dirty half out of the frozen L1D.
            assert_eq!(read(&mut setup, A + 4 * APART), report(NoWay, dirty(A), 128, 128));
            assert_eq!(setup.l1d_line(A), None);
            setup.freeze(0);
            assert_eq!(read(&mut setup, A).l1d_left, Empty);
        }
    }
}

/// "External memory with MAR bit 0 is reached directly, touching no line."
#[test]
fn past_the_caches_just_the_bytes_are_moved() {
    for mode in LEGAL_MODES {
        for frozen in [0, 1] {
            let mut setup = Setup::fresh(L, 65_536);
            setup.mode(mode);
            setup.freeze(frozen);
            for size in [1, 2, 4, 8] {
                for address in [A, A + 64, A + 65_528] {
                    let command = Command::Read { size, address };
                    assert_eq!(accepted(&mut setup, &command), report(NoWay, NoWay, size, 0));
                    let command = Command::Write { size, address, value: 9 };
                    assert_eq!(accepted(&mut setup, &command), report(NoWay, NoWay, 0, size));
                }
            }
        }
    }
}

/// One command of each code but read and write.
fn other_commands() -> [Command; 11] {
    let (base, count) = (A, 65_535);
    [
        Command::L2WritebackAll,
        Command::L2WritebackInvalidateAll,
        Command::L2BlockWriteback { base, count },
        Command::L2BlockWritebackInvalidate { base, count },
        Command::L2BlockInvalidate { base, count },
        Command::L1dBlockWritebackInvalidate { base, count },
        Command::L1dBlockInvalidate { base, count },
        Command::L1dInvalidateAll,
        Command::Mode { mode: 1 },
        Command::Mar { number: 128, bit: 1 },
        Command::Freeze { frozen: 1 },
    ]
}

/// A full set of each cache, every line of it dirty.
fn full(mode: u32) -> Setup {
    let mut setup = cached(mode);
    for turn in 0..4 {
        write(&mut setup, A + turn * APART);
    }
    for turn in 0..2 {
        read(&mut setup, A + turn * APART);
        write(&mut setup, A + turn * APART + 32);
    }
    setup
}

/// "An access also reports": no other call does, whatever it sends out.
#[test]
fn calls_that_are_no_access_report_nothing() {
    for mode in LEGAL_MODES {
        for command in other_commands() {
            let mut setup = full(mode);
            let before = setup.ext.clone();
            assert_eq!(accepted(&mut setup, &command), Report::NONE, "{command:?}");
            if command == Command::L2WritebackAll {
                assert!(setup.ext != before);
            }
        }
    }
}

/// Refused: none, none, 0 and 0, for each number, where the call would have put a line
/// out.
#[test]
fn refused_calls_report_nothing() {
    let refused = |setup: &mut Setup, command: Command, number: u8| {
        let before = setup.clone();
        let reply = setup.reply(&command);
        assert_eq!(reply, Reply { answer: Answer::refused(number), report: Report::NONE });
        assert!(*setup == before);
    };
    let next = A + 5 * APART;
    for mode in LEGAL_MODES {
        let mut setup = full(mode);
        refused(&mut setup, Command::Read { size: 3, address: next }, 3);
        refused(&mut setup, Command::Read { size: 4, address: next + 2 }, 4);
        refused(&mut setup, Command::Read { size: 1, address: A + 8 * APART }, 5);
        refused(&mut setup, Command::Write { size: 1, address: next, value: 256 }, 6);
        refused(&mut setup, Command::L2BlockWriteback { base: A, count: 65_536 }, 7);
        refused(&mut setup, Command::Mode { mode: 4 }, 8);
        refused(&mut setup, Command::Mar { number: 130, bit: 1 }, 9);
        refused(&mut setup, Command::Mar { number: 128, bit: 0 }, 10);
        refused(&mut setup, Command::Freeze { frozen: 2 }, 17);
        let mut ill_formed = setup.clone();
        ill_formed.record.l1d[5].order = [1, 1];
        refused(&mut ill_formed, Command::Read { size: 4, address: next }, 2);
        let mut rng = Rng::new(2);
        for wrong in WRONG_LENGTHS {
            let mut short = setup.clone();
            make_length_wrong(&mut rng, &mut short, wrong);
            refused(&mut short, Command::Read { size: 4, address: next }, 1);
            refused(&mut short, Command::L2WritebackAll, 1);
        }
        // It does put one out.
        let report = read(&mut setup, next);
        assert!(matches!(report.l1d_left, Left::Dirty { .. }));
        assert_eq!(report.l2_left == NoWay, mode == 0);
    }
}

/// "The trace's answers keep their 10 bytes"
#[test]
fn a_trace_has_no_report() {
    let mut rng = Rng::new(22);
    for turn in 0..20 {
        let mode = LEGAL_MODES[turn % LEGAL_MODES.len()];
        let mut setup = cached(mode);
        let lines = hot_for(&mut rng, &setup.record);
        let commands: Vec<Command> =
            (0..200).map(|_| command(&mut rng, &lines, &Mix::ALL)).collect();
        let mut trace = Vec::new();
        commands.iter().for_each(|command| encode(command, &mut trace));
        let mut answers = vec![0; ANSWER_BYTES * commands.len()];
        let mut ran = setup.clone();
        assert_eq!(ran.run(&trace, &mut answers).answers, 200);
        for (command, bytes) in commands.iter().zip(answers.chunks(ANSWER_BYTES)) {
            let Answer { number, server, value } = setup.reply(command).answer;
            let ten = [&[number, server][..], &value.to_le_bytes()].concat();
            assert_eq!(ten, bytes);
        }
        assert!(ran == setup);
    }
}

/// What the records before and after an access say of the ways that it chose: one that
/// holds the line of the address now, and did not before, was chosen.
fn by_records(before: &Record, after: &Record, address: u32) -> (Left, Left) {
    let l1d = match (before.find_l1d(address), after.find_l1d(address)) {
        (None, Some((set, way))) => Left::of(before.l1d[set].lines[way]),
        _ => NoWay,
    };
    let l2 = match (before.find_l2(address), after.find_l2(address)) {
        (None, Some((set, way))) => {
            let mut line = before.l2[set].lines[way];
            for half in [line.address, line.address + L1d::LINE] {
                let held = before.find_l1d(half).filter(|_| line.valid);
                line.dirty |= held.is_some_and(|(set, way)| before.l1d[set].lines[way].dirty);
            }
            Left::of(line)
        }
        _ => NoWay,
    };
    (l1d, l2)
}

/// The bytes that an access moves, seen from outside. The same access is carried out over
/// an external memory each byte of which is another: where both agree afterwards, the
/// byte was written; what differs in L1D, in L2 or in the value was read.
fn by_bytes(setup: &Setup, command: &Command) -> (u32, u32) {
    let (mut one, mut other) = (setup.clone(), setup.clone());
    other.ext.iter_mut().for_each(|byte| *byte = !*byte);
    let (answer, other_answer) = (one.call(command), other.call(command));
    let alike = |ours: &[u8], theirs: &[u8]| {
        ours.iter().zip(theirs).filter(|(ours, theirs)| ours == theirs).count() as u32
    };
    let differ = |ours: &[u8], theirs: &[u8]| ours.len() as u32 - alike(ours, theirs);
    let value = differ(&answer.value.to_le_bytes(), &other_answer.value.to_le_bytes());
    let (l1d, mut l2) = (differ(&one.l1d, &other.l1d), differ(&one.l2, &other.l2));
    if let (Command::Write { size, .. }, true) = (command, l2 > 0) {
        // The write went over as many of the bytes that were fetched.
        l2 += size;
    }
    (value.max(l1d).max(l2), alike(&one.ext, &other.ext))
}

/// Random accesses in every mode, from any record: both lines are those that the records
/// tell, the counts are those of the bytes that moved, and neither exceeds 128.
#[test]
fn reports_are_what_happened() {
    let mut rng = Rng::new(2_222);
    let mix = Mix { freeze: 30, mode: 1, mar: 10, l2_all: 1, l2_block_writeback: 5, ..Mix::ALL };
    let mut kinds = [[0; 4]; 2];
    let mut by_half = 0;
    let mut counts = std::collections::BTreeMap::new();
    for turn in 0..60 {
        let mode = LEGAL_MODES[turn % LEGAL_MODES.len()];
        let l = l_for(&mut rng, mode);
        let e = crowded_e(mode);
        let mut setup = Setup::random(&mut rng, l, e);
        setup.redraw_record_in_mode(&mut rng, mode);
        let lines = crowded(&mut rng, mode, l, e);
        for _ in 0..80 {
            let command = command(&mut rng, &lines, &mix);
            let before = setup.clone();
            let Reply { answer, report } = setup.reply(&command);
            let address = match command {
                Command::Read { address, .. } | Command::Write { address, .. } => address,
                _ => {
                    assert_eq!(report, Report::NONE);
                    continue;
                }
            };
            if answer.number != 0 {
                assert_eq!(report, Report::NONE);
                continue;
            }
            let (read, written) = (report.external_read, report.external_written);
            assert!(read <= 128 && written <= 128, "{report:?}");
            let left = by_records(&before.record, &setup.record, address);
            assert_eq!((report.l1d_left, report.l2_left), left, "{command:?}");
            assert_eq!((read, written), by_bytes(&before, &command), "{command:?}");
            *counts.entry((read, written)).or_insert(0) += 1;
            for (met, left) in kinds.iter_mut().zip([report.l1d_left, report.l2_left]) {
                let kind = match left {
                    Left::None => 0,
                    Left::Empty => 1,
                    Left::Clean { .. } => 2,
                    Left::Dirty { .. } => 3,
                };
                met[kind] += 1;
            }
            if let Left::Dirty { address } = report.l2_left {
                let (set, way) = before.record.find_l2(address).expect("it was there");
                by_half += u32::from(!before.record.l2[set].lines[way].dirty);
            }
        }
    }
    assert!(kinds.iter().flatten().all(|&count| count > 20), "{kinds:?}");
    assert!(by_half > 5, "{by_half}");
    // A line of L1D, with and without a dirty one that leaves; a line of L2 likewise; an
    // access's own bytes either way; and nothing.
    for moved in [(64, 0), (64, 64), (128, 0), (128, 128), (8, 0), (0, 8), (1, 0), (0, 1), (0, 0)] {
        assert!(counts.get(&moved).is_some_and(|&count| count > 2), "{moved:?}: {counts:?}");
    }
}

/// A direct call carries the report whatever it is called through.
#[test]
fn every_direct_call_carries_it() {
    let mut setup = full(1);
    let mut same = setup.clone();
    let command = Command::Read { size: 4, address: A + 5 * APART };
    let Setup { record, l1d, l2, ext, l1p } = &mut same;
    let reply = direct(record, l1d, l2, ext, l1p, &command);
    assert_eq!(reply, setup.reply(&command));
    // The lines that were used longest ago.
    assert_eq!(reply.report, report(dirty(A), dirty(A + 2 * APART), 128, 128));
}

//! "Dirty counts on the panel" (02, U5): "The repair panel shows how many lines are
//! dirty in L1D and in L2 ... Write both counts into the record. A record whose counts
//! are wrong isn't well formed and gets 2. Every operation keeps them right, transfers
//! and drops included."

use oracle::calls::fresh_start;
use oracle::gen::{command, hot_for, l_for, Mix, Rng, Setup, LEGAL_MODES};
use oracle::{Answer, Command, Line, Record};

const A: u32 = 0x8000_0000;

/// Every mode is legal with this L; mode 7 leaves no SRAM of it.
const L: u32 = 262_144;

fn cached(mode: u32) -> Setup {
    let mut setup = Setup::fresh(L, 6 * 65_536);
    setup.mar(128, 1);
    assert_eq!(setup.mode(mode).number, 0);
    setup
}

/// The counts of the record.
fn counts(setup: &Setup) -> (u32, u32) {
    (setup.record.dirty_l1d, setup.record.dirty_l2)
}

/// The dirty lines themselves, one after another.
fn counted(record: &Record) -> (u32, u32) {
    let mut found = (0, 0);
    for line in record.l1d.iter().flat_map(|set| set.lines) {
        found.0 += u32::from(line.valid && line.dirty);
    }
    for line in record.l2.iter().flat_map(|set| set.lines) {
        found.1 += u32::from(line.valid && line.dirty);
    }
    found
}

/// The line comes into L1D and is written there.
fn make_dirty(setup: &mut Setup, address: u32) {
    assert_eq!(setup.read(1, address).number, 0);
    assert_eq!(setup.write(1, address, 0x5A).server, 1);
}

#[test]
fn a_fresh_start_has_none() {
    let mut setup = cached(1);
    make_dirty(&mut setup, A);
    setup.write(1, A + 128, 1);
    assert_eq!(counts(&setup), (1, 1));
    let Setup { l1d, l2, ext, l1p, .. } = &mut setup;
    let (record, number) = fresh_start(l1d, l2, ext, l1p);
    assert_eq!((record.dirty_l1d, record.dirty_l2, number), (0, 0, 0));
    let (record, number) = fresh_start(l1d, l2, &mut [], l1p);
    assert_eq!((record.dirty_l1d, record.dirty_l2, number), (0, 0, 1));
}

/// A write hit counts its line once, frozen or not; a read counts none.
#[test]
fn write_hits() {
    for mode in LEGAL_MODES {
        for frozen in [0, 1] {
            let mut setup = cached(mode);
            for address in [A, A + 64, A + 8_192] {
                setup.read(1, address);
            }
            setup.freeze(frozen);
            assert_eq!(counts(&setup), (0, 0));
            setup.write(1, A, 1);
            assert_eq!(counts(&setup), (1, 0));
            setup.write(4, A + 4, 1);
            setup.write(1, A, 2);
            assert_eq!(counts(&setup), (1, 0));
            setup.write(1, A + 64, 2);
            setup.write(1, A + 8_192, 2);
            setup.read(1, A);
            assert_eq!(counts(&setup), (3, 0));
        }
    }
}

/// A write miss makes an L2 line dirty, once; one to SRAM, in mode 0 or past the caches
/// makes none.
#[test]
fn write_misses() {
    for mode in LEGAL_MODES {
        let mut setup = cached(mode);
        let in_l2 = u32::from(mode != 0);
        setup.write(1, A, 1);
        assert_eq!(counts(&setup), (0, in_l2));
        setup.write(1, A + 1, 1);
        setup.write(1, A + 64, 1);
        assert_eq!(counts(&setup), (0, in_l2));
        setup.write(1, A + 128, 1);
        assert_eq!(counts(&setup), (0, 2 * in_l2));
        if mode != 7 {
            setup.write(1, 0, 1);
            assert_eq!(counts(&setup), (0, 2 * in_l2));
        }
        let mut setup = cached(mode);
        setup.mar(128, 0);
        setup.write(1, A, 1);
        assert_eq!(counts(&setup), (0, 0));
    }
}

/// A dirty line that leaves L1D for another: into SRAM or external memory, into a clean
/// line of L2, or into one that is dirty already.
#[test]
fn victims_of_l1d() {
    for (mode, place) in [(0, A), (0, 0), (1, 0)] {
        let mut setup = cached(mode);
        make_dirty(&mut setup, place);
        setup.read(1, place + 8_192);
        assert_eq!(counts(&setup), (1, 0));
        setup.read(1, place + 16_384);
        assert_eq!(counts(&setup), (0, 0));
    }
    let mut setup = cached(7);
    make_dirty(&mut setup, A);
    setup.read(1, A + 8_192);
    assert_eq!(counts(&setup), (1, 0));
    setup.read(1, A + 16_384);
    assert_eq!(counts(&setup), (0, 1));
    let mut setup = cached(7);
    setup.write(1, A + 64, 1);
    make_dirty(&mut setup, A);
    setup.read(1, A + 8_192);
    assert_eq!(counts(&setup), (1, 1));
    setup.read(1, A + 16_384);
    assert_eq!(counts(&setup), (0, 1));
    // A clean one changes neither.
    setup.read(1, A + 24_576);
    assert_eq!(counts(&setup), (0, 1));
}

/// An L2 line that leaves takes its halves with it: both counts go down, for a read and
/// for a frozen read. A write makes the line that it fetches dirty.
#[test]
fn victims_of_l2() {
    for frozen in [0, 1] {
        let mut setup = cached(1);
        for turn in 0..4 {
            setup.write(1, A + turn * 8_192, 1);
        }
        make_dirty(&mut setup, A);
        make_dirty(&mut setup, A + 64);
        // The first line was used last; the others are used again.
        for turn in 1..4 {
            setup.write(1, A + turn * 8_192, 1);
        }
        assert_eq!(counts(&setup), (2, 4));
        setup.freeze(frozen);
        let mut written = setup.clone();
        setup.read(1, A + 4 * 8_192 + 64);
        assert_eq!(counts(&setup), (0, 3));
        written.write(1, A + 4 * 8_192 + 64, 1);
        assert_eq!(counts(&written), (0, 4));
    }
    // A clean L2 line whose half is dirty: it becomes dirty and leaves.
    let mut setup = cached(1);
    make_dirty(&mut setup, A);
    for turn in 1..5 {
        setup.write(1, A + turn * 8_192, 1);
    }
    assert_eq!(counts(&setup), (0, 4));
}

/// What is counted before the commands: three lines of SRAM and external memory in L1D,
/// two of L2.
fn before_commands() -> Setup {
    let mut setup = cached(1);
    make_dirty(&mut setup, 0);
    make_dirty(&mut setup, A);
    make_dirty(&mut setup, A + 192);
    setup.write(1, A + 128, 1);
    setup.write(1, A + 256, 1);
    assert_eq!(counts(&setup), (3, 2));
    setup
}

#[test]
fn commands() {
    let after = |command: Command| {
        let mut setup = before_commands();
        assert_eq!(setup.call(&command).number, 0);
        counts(&setup)
    };
    let (base, count) = (A + 128, 16);
    assert_eq!(after(Command::L2WritebackAll), (0, 0));
    assert_eq!(after(Command::L2WritebackInvalidateAll), (0, 0));
    // The L2 line at 128 takes its half at 192 in, and goes out.
    assert_eq!(after(Command::L2BlockWriteback { base, count }), (2, 1));
    assert_eq!(after(Command::L2BlockWritebackInvalidate { base, count }), (2, 1));
    assert_eq!(after(Command::L2BlockInvalidate { base, count }), (2, 1));
    // SRAM and one line of external memory by the same commands.
    for base in [0, A] {
        let rest = (2, 2);
        assert_eq!(after(Command::L2BlockWriteback { base, count: 1 }), rest);
        assert_eq!(after(Command::L2BlockWritebackInvalidate { base, count: 1 }), rest);
        assert_eq!(after(Command::L2BlockInvalidate { base, count: 1 }), rest);
    }
    // Into a clean line of L2, and into one that is dirty.
    let home = |base| Command::L1dBlockWritebackInvalidate { base, count: 16 };
    assert_eq!(after(home(A)), (2, 3));
    assert_eq!(after(home(A + 192)), (2, 2));
    assert_eq!(after(home(0)), (2, 2));
    // Drops.
    for base in [0, A, A + 192] {
        assert_eq!(after(Command::L1dBlockInvalidate { base, count: 16 }), (2, 2));
    }
    assert_eq!(after(Command::L1dInvalidateAll), (0, 2));
    for mode in [0, 1, 2, 3, 7] {
        assert_eq!(after(Command::Mode { mode }), (0, 0));
    }
    // Neither of these, nor a command that touches nothing.
    assert_eq!(after(Command::Mar { number: 129, bit: 1 }), (3, 2));
    assert_eq!(after(Command::Freeze { frozen: 1 }), (3, 2));
    assert_eq!(after(home(A + 1_024)), (3, 2));
    assert_eq!(after(Command::L2BlockWriteback { base: A, count: 0 }), (3, 2));
}

/// A refused call keeps the counts with the rest of the record.
#[test]
fn refused_calls() {
    let mut setup = before_commands();
    for (command, number) in [
        (Command::Read { size: 3, address: A }, 3),
        (Command::Write { size: 1, address: A, value: 256 }, 6),
        (Command::L2BlockInvalidate { base: A, count: 65_536 }, 7),
        (Command::Mode { mode: 5 }, 8),
        (Command::Mar { number: 128, bit: 0 }, 10),
        (Command::Freeze { frozen: 2 }, 17),
    ] {
        assert_eq!(setup.call(&command), Answer::refused(number));
        assert_eq!(counts(&setup), (3, 2));
    }
}

/// "A record whose counts are wrong isn't well formed and gets 2."
#[test]
fn wrong_counts_get_2() {
    let right = before_commands();
    let read = Command::Read { size: 1, address: A };
    for (l1d, l2) in [
        (2, 2),
        (4, 2),
        (3, 1),
        (3, 3),
        (2, 3),
        (0, 0),
        (3, 0),
        (4, 1),
        (2, 4),
        (5, 0),
        (u32::MAX, 2),
        (3, u32::MAX),
        (3 + 256, 2),
        (3, 2 + 65_536),
        (3 ^ 1 << 31, 2),
    ] {
        let mut setup = right.clone();
        (setup.record.dirty_l1d, setup.record.dirty_l2) = (l1d, l2);
        let before = setup.clone();
        for command in [
            read,
            Command::Write { size: 1, address: A, value: 9 },
            Command::L2WritebackAll,
            Command::L1dInvalidateAll,
            Command::Mode { mode: 0 },
            Command::Mar { number: 128, bit: 1 },
            Command::Freeze { frozen: 0 },
        ] {
            assert_eq!(setup.call(&command), Answer::refused(2), "{l1d} {l2}");
        }
        assert_eq!(setup.run(&[9], &mut [0; 10]).stop, 2);
        assert_eq!((setup.look_number(A), setup.look(A).len()), (2, 0));
        assert!(setup == before);
    }
    let mut setup = right.clone();
    assert_eq!(setup.call(&read).number, 0);
    // A fresh record has none; and a mark that is not counted is seen.
    let mut setup = Setup::fresh(32_768, 128);
    setup.record.dirty_l2 = 1;
    assert_eq!(setup.call(&read), Answer::refused(2));
    let mut setup = cached(0);
    setup.read(1, A);
    setup.record.l1d[0].lines[0] = Line { valid: true, dirty: true, address: A };
    assert_eq!(setup.call(&read), Answer::refused(2));
    setup.record.dirty_l1d = 1;
    assert_eq!(setup.call(&read).number, 0);
}

/// Along random calls from any record both counts are those of the lines.
#[test]
fn every_call_keeps_them_right() {
    let mut rng = Rng::new(50);
    let mut largest = (0, 0);
    for turn in 0..100 {
        let mode = LEGAL_MODES[turn % LEGAL_MODES.len()];
        let l = l_for(&mut rng, mode);
        let mut setup = Setup::random(&mut rng, l, 65_536);
        setup.redraw_record_in_mode(&mut rng, mode);
        let lines = hot_for(&mut rng, &setup.record);
        for _ in 0..150 {
            assert_eq!(counts(&setup), counted(&setup.record));
            largest = (largest.0.max(counts(&setup).0), largest.1.max(counts(&setup).1));
            let command = command(&mut rng, &lines, &Mix::ALL);
            assert_ne!(setup.call(&command).number, 2);
        }
        // And along a run.
        let trace = [0, 4, 0, 9, 12, 1, 3];
        assert_eq!(setup.run(&trace, &mut [0; 40]).stop, 0);
        assert_eq!(counts(&setup), (0, 0));
    }
    assert!(largest.0 > 100 && largest.1 > 100, "{largest:?}");
}

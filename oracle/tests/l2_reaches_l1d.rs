//! "L2 commands reach all of L1D" (02, U10): each sentence on small examples, in
//! every mode, for external memory and for SRAM.

use oracle::gen::{Setup, LEGAL_MODES};
use oracle::{Command, Line};

const A: u32 = 0x8000_0000;

/// Every mode is legal with this L; mode 7 leaves no SRAM of it.
const L: u32 = 262_144;

fn cached(mode: u32) -> Setup {
    let mut setup = Setup::fresh(L, 65_536);
    setup.mar(128, 1);
    assert_eq!(setup.mode(mode).number, 0);
    setup
}

/// Where lines may lie in a mode: in external memory, and in SRAM where there is some.
fn places(mode: u32) -> Vec<u32> {
    if mode == 7 {
        vec![A]
    } else {
        vec![A, 0]
    }
}

/// The line comes into L1D and becomes dirty: its first byte is this one there.
fn make_dirty(setup: &mut Setup, address: u32, value: u64) {
    assert_eq!(setup.read(1, address).number, 0);
    assert_eq!(setup.write(1, address, value).server, 1);
}

/// What stands in SRAM or external memory itself.
fn behind(setup: &Setup, address: u32) -> u8 {
    setup.look(address - address % 64)[(address % 64) as usize]
}

fn nothing_dirty(setup: &Setup) -> bool {
    let l1d = setup.record.l1d.iter().flat_map(|set| set.lines);
    let l2 = setup.record.l2.iter().flat_map(|set| set.lines);
    !l1d.chain(l2).any(|line| line.dirty)
}

/// The orders of both caches are those of before, and so is every byte of L1D.
fn orders_stay(setup: &Setup, before: &Setup) {
    for (after, before) in setup.record.l1d.iter().zip(&before.record.l1d) {
        assert_eq!(after.order, before.order);
    }
    for (after, before) in setup.record.l2.iter().zip(&before.record.l2) {
        assert_eq!(after.order, before.order);
    }
    assert!(setup.l1d == before.l1d);
}

/// "L2 writeback all and writeback-invalidate all now send every dirty L1D line
/// home first and empty L1D, in every mode and for SRAM too."
#[test]
fn global_writebacks_empty_l1d() {
    for mode in LEGAL_MODES {
        for command in [Command::L2WritebackAll, Command::L2WritebackInvalidateAll] {
            let mut setup = cached(mode);
            // Every way of every set: the first 8 Kbytes twice, half of the lines dirty.
            let from = if mode == 7 { [A, A + 8_192] } else { [A, 0] };
            for (place, start) in from.into_iter().enumerate() {
                for line in 0..128 {
                    setup.read(1, start + 64 * line);
                    if (line as usize + place) % 2 == 0 {
                        setup.write(1, start + 64 * line + 3, 1 + u64::from(line));
                    }
                }
            }
            let held = setup.record.l1d.iter().flat_map(|set| set.lines);
            assert_eq!(held.filter(|line| line.valid).count(), 256);
            let before = setup.clone();
            assert_eq!(setup.call(&command).number, 0);
            assert!(setup.record.l1d.iter().flat_map(|set| set.lines).all(|l| l == Line::EMPTY));
            for (place, start) in from.into_iter().enumerate() {
                for line in 0..128 {
                    let written = (line as usize + place) % 2 == 0;
                    let byte = if written { 1 + line as u8 } else { 0 };
                    assert_eq!(behind(&setup, start + 64 * line + 3), byte, "{mode} {line}");
                }
            }
            assert!(nothing_dirty(&setup));
            orders_stay(&setup, &before);
            // "then ... what they did before"
            let kept = mode != 0 && command == Command::L2WritebackAll;
            assert_eq!(setup.l2_line(A).is_some(), kept);
        }
    }
}

/// The L2 lines that L1D holds nothing of are written out as before.
#[test]
fn global_writebacks_still_write_l2_lines_out() {
    for command in [Command::L2WritebackAll, Command::L2WritebackInvalidateAll] {
        let mut setup = cached(1);
        setup.write(1, A + 256, 5);
        assert!(setup.l2_line(A + 256).unwrap().dirty);
        setup.call(&command);
        assert_eq!(setup.ext[256], 5);
        let clean = Line { valid: true, dirty: false, address: A + 256 };
        let kept = command == Command::L2WritebackAll;
        assert_eq!(setup.l2_line(A + 256), kept.then_some(clean));
    }
}

/// "the two L2 block writebacks first send each touched L1D line home if dirty and
/// make it invalid": 64 bytes, by the block itself.
#[test]
fn block_writebacks_reach_touched_lines_of_l1d() {
    for mode in LEGAL_MODES {
        for start in places(mode) {
            for code in [4, 5] {
                let mut setup = cached(mode);
                for line in 0..4 {
                    make_dirty(&mut setup, start + 64 * line, 0x50 + u64::from(line));
                }
                // A clean line of the block leaves too.
                setup.read(1, start + 0x100);
                let before = setup.clone();
                // From the last word of line 1 to the first of line 2.
                let (base, count) = (start + 0x7C, 2);
                assert_eq!(setup.call(&block(code, base, count)).number, 0);
                let l2_is_home = start == A && mode != 0;
                for line in 0..4u32 {
                    // Lines 0 and 3 are the other halves of touched L2 lines.
                    let gone = l2_is_home || line == 1 || line == 2;
                    let address = start + 64 * line;
                    assert_eq!(setup.l1d_line(address).is_none(), gone, "{mode} {line}");
                    assert_eq!(behind(&setup, address) != 0, gone, "{mode} {line}");
                }
                assert!(setup.l1d_line(start + 0x100).is_some());
                orders_stay(&setup, &before);
                assert_eq!(setup.l2_line(start).is_some(), l2_is_home && code == 4);
                setup.call(&block(code, start + 0x100, 1));
                assert_eq!(setup.l1d_line(start + 0x100), None);
            }
        }
    }
}

/// "L2 block invalidate drops each touched L1D line, likewise in every mode and for
/// SRAM."
#[test]
fn block_invalidate_drops_touched_lines_of_l1d() {
    for mode in LEGAL_MODES {
        for start in places(mode) {
            let mut setup = cached(mode);
            for line in 0..4 {
                make_dirty(&mut setup, start + 64 * line, 0x50 + u64::from(line));
            }
            let before = setup.clone();
            assert_eq!(setup.call(&block(6, start + 0x7C, 2)).number, 0);
            let l2_is_home = start == A && mode != 0;
            for line in 0..4u32 {
                let gone = l2_is_home || line == 1 || line == 2;
                assert_eq!(setup.l1d_line(start + 64 * line).is_none(), gone, "{mode} {line}");
            }
            assert!(setup.l2 == before.l2 && setup.ext == before.ext);
            orders_stay(&setup, &before);
            assert_eq!(setup.read(1, start + 64).value, 0);
        }
    }
}

/// A block that touches no line reaches none, in L1D either, and what passes
/// FFFFFFFFh does not come back to SRAM.
#[test]
fn blocks_elsewhere_reach_nothing() {
    for mode in LEGAL_MODES {
        for code in [4, 5, 6] {
            let mut setup = cached(mode);
            for start in places(mode) {
                make_dirty(&mut setup, start, 0x61);
            }
            let before = setup.clone();
            for (base, count) in [(A, 0), (0, 0), (A + 64, 16), (64, 16), (0xFFFF_FFFC, 65_535)] {
                // The other half of an L2 line goes with it.
                if mode != 0 && base == A + 64 {
                    continue;
                }
                assert_eq!(setup.call(&block(code, base, count)).number, 0);
                assert!(setup == before, "{mode} {code} {base:#x} {count}");
            }
        }
    }
}

/// "Invalidation changes no order.": the next line fills the lowest empty way, and
/// the order goes on from where it was.
#[test]
fn emptied_sets_keep_their_order() {
    for mode in [0, 1] {
        let mut setup = cached(mode);
        setup.read(1, 0);
        setup.read(1, 8_192);
        assert_eq!(setup.record.l1d[0].order, [1, 0]);
        setup.call(&Command::L2WritebackAll);
        assert_eq!(setup.record.l1d[0].order, [1, 0]);
        setup.read(1, 16_384);
        let filled = Line { valid: true, dirty: false, address: 16_384 };
        assert_eq!(setup.record.l1d[0].lines, [filled, Line::EMPTY]);
        assert_eq!(setup.record.l1d[0].order, [0, 1]);
        setup.call(&block(5, 16_384, 1));
        assert_eq!(setup.record.l1d[0].order, [0, 1]);
    }
}

/// Where no line is left, 10 is no longer due: in mode 0 too.
#[test]
fn a_range_can_be_shut_after_a_global_writeback() {
    for mode in LEGAL_MODES {
        let mut setup = cached(mode);
        make_dirty(&mut setup, A, 9);
        assert_eq!(setup.mar(128, 0).number, 10);
        setup.call(&Command::L2WritebackInvalidateAll);
        assert_eq!(setup.mar(128, 0).number, 0);
        assert_eq!((setup.read(1, A).server, setup.read(1, A).value), (4, 9));
    }
}

fn block(code: u8, base: u32, count: u32) -> Command {
    match code {
        4 => Command::L2BlockWriteback { base, count },
        5 => Command::L2BlockWritebackInvalidate { base, count },
        _ => Command::L2BlockInvalidate { base, count },
    }
}

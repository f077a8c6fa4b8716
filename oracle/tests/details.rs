//! Sentences of the paper about single calls, each on a small example.

use oracle::gen::Setup;
use oracle::record::used;
use oracle::{Answer, Command, L1dSet, L2Set, Line};

const A: u32 = 0x8000_0000;

fn cached(l: u32, mode: u32) -> Setup {
    let mut setup = Setup::fresh(l, 6 * 65_536);
    setup.mar(128, 1);
    setup.mode(mode);
    setup
}

fn answer(server: u8, value: u64) -> Answer {
    Answer { number: 0, server, value }
}

#[test]
fn using_a_way_keeps_the_others_as_they_stood() {
    assert_eq!(used([3, 2, 1, 0], 1), [1, 3, 2, 0]);
    assert_eq!(used([3, 2, 1, 0], 3), [3, 2, 1, 0]);
    assert_eq!(used([3, 2, 1, 0], 0), [0, 3, 2, 1]);
    assert_eq!(used([1, 0], 0), [0, 1]);
}

#[test]
fn servers_of_reads_and_writes() {
    // SRAM, then L1D.
    let mut setup = cached(65_536, 1);
    assert_eq!(setup.write(4, 0x100, 0x1234_5678), answer(2, 0));
    assert_eq!(setup.read(2, 0x102), answer(2, 0x1234));
    assert_eq!(setup.read(1, 0x100), answer(1, 0x78));
    assert_eq!(setup.write(1, 0x100, 0x79), answer(1, 0));
    // External memory by way of the L2 cache: it had to fetch, then it had it.
    assert_eq!(setup.write(1, A, 5), answer(4, 0));
    assert_eq!(setup.write(1, A + 1, 6), answer(3, 0));
    assert_eq!(setup.read(1, A + 1), answer(3, 6));
    assert_eq!(setup.read(1, A), answer(1, 5));
    assert_eq!(setup.read(1, A + 64), answer(3, 0));
    assert_eq!(setup.read(1, A + 128), answer(4, 0));
    // Mode 0.
    setup.mode(0);
    assert_eq!(setup.write(1, A + 1, 7), answer(4, 0));
    assert_eq!(setup.read(1, A + 1), answer(4, 7));
    assert_eq!(setup.read(1, A + 1), answer(1, 7));
    // MAR bit 0.
    setup.call(&Command::L1dInvalidateAll);
    assert_eq!(setup.mar(128, 0).number, 0);
    let record = setup.record.clone();
    assert_eq!(setup.write(8, A, u64::MAX), answer(4, 0));
    assert_eq!(setup.read(2, A), answer(4, 0xFFFF));
    assert_eq!(setup.read(2, A), answer(4, 0xFFFF));
    assert!(setup.record == record);
}

#[test]
fn external_memory_with_mar_bit_0_is_reached_directly_in_every_mode() {
    for mode in [0, 1, 2] {
        let mut setup = cached(65_536, mode);
        setup.mar(128, 0);
        let before = setup.clone();
        assert_eq!(setup.write(4, A + 4, 9), answer(4, 0));
        assert_eq!(setup.read(4, A + 4), answer(4, 9));
        assert!(setup.record == before.record);
        assert!(setup.l1d == before.l1d && setup.l2 == before.l2);
        assert_eq!(setup.ext[4], 9);
    }
}

#[test]
fn l1d_way_is_the_lowest_invalid_one_else_the_last_in_order() {
    let mut setup = cached(65_536, 0);
    setup.read(1, A);
    assert_eq!(setup.record.l1d[0].order, [0, 1]);
    setup.read(1, A + 8_192);
    assert_eq!(setup.record.l1d[0].order, [1, 0]);
    setup.read(1, A);
    setup.call(&Command::L1dBlockInvalidate { base: A, count: 1 });
    assert_eq!(setup.record.l1d[0].order, [0, 1]);
    setup.read(1, A + 16_384);
    assert_eq!(setup.record.l1d[0].lines.map(|line| line.address), [A + 16_384, A + 8_192]);
    setup.read(1, A);
    assert_eq!(setup.record.l1d[0].lines.map(|line| line.address), [A + 16_384, A]);
    assert_eq!(setup.record.l1d[0].order, [1, 0]);
}

#[test]
fn dirty_l1d_victim_goes_home() {
    for (mode, place) in [(0, A), (1, A), (1, 0)] {
        let mut setup = cached(65_536, mode);
        setup.read(1, place);
        setup.write(1, place + 5, 0x5A);
        setup.read(1, place + 8_192);
        setup.read(1, place + 16_384);
        assert_eq!(setup.l1d_line(place), None);
        if place == 0 {
            assert_eq!(setup.l2[5], 0x5A);
        } else if mode == 0 {
            assert_eq!(setup.ext[5], 0x5A);
        } else {
            // Into the L2 line, which uses nothing.
            assert_eq!(setup.ext[5], 0);
            assert_eq!(setup.l2[32_768 + 5], 0x5A);
            assert_eq!(setup.l2_line(A), Some(Line { valid: true, dirty: true, address: A }));
            assert_eq!(setup.record.l2[0].order, [2, 1, 0, 3]);
        }
        assert_eq!(setup.read(1, place + 5).value, 0x5A);
    }
}

/// "the way is the lowest invalid one, else the last in order; a dirty line
/// there is written back to its home and the way emptied; then the line is
/// fetched": the way stays chosen when the L2 eviction empties the other.
#[test]
fn l1d_way_is_chosen_before_l2_acts() {
    let (x, y, z) = (A + 8_192, A, A + 4 * 8_192);
    let mut setup = cached(65_536, 1);
    setup.read(1, y);
    for turn in 1..4 {
        setup.write(1, A + turn * 8_192, 1);
    }
    setup.read(1, x);
    setup.write(1, x + 1, 0x21);
    setup.write(1, y + 1, 0x22);
    // L1D set 0: y in way 0, last used; x in way 1. L2: y's line is last.
    assert_eq!(setup.record.l1d[0].order, [0, 1]);
    assert_eq!(setup.record.l2[0].order, [1, 3, 2, 0]);
    assert_eq!(setup.read(1, z), answer(4, 0));
    let filled = Line { valid: true, dirty: false, address: z };
    assert_eq!(setup.record.l1d[0], L1dSet { lines: [Line::EMPTY, filled], order: [1, 0] });
    assert_eq!(setup.l2_line(y), None);
    assert_eq!(setup.ext[1], 0x22);
    assert_eq!(setup.l2_line(x), Some(Line { valid: true, dirty: true, address: x }));
    assert_eq!(setup.ext[8_193], 0);
    assert_eq!(setup.record.l2[0].order, [0, 1, 3, 2]);
}

#[test]
fn l2_set_and_data_place_go_by_mode() {
    for (l, mode, sets) in [(65_536, 1, 64), (98_304, 2, 128), (163_840, 3, 256), (262_144, 7, 512)]
    {
        let mut setup = cached(l, mode);
        let s = l as usize - sets * 512;
        for way in 0..5u32 {
            let address = A + 3 * 128 + way * sets as u32 * 128;
            assert_eq!(setup.write(1, address, 0x40 + u64::from(way)), answer(4, 0));
            let place = s + (way as usize % 4 * sets + 3) * 128;
            assert_eq!(setup.l2[place], 0x40 + way as u8);
            let line = Line { valid: true, dirty: true, address };
            assert_eq!(setup.record.l2[3].lines[way as usize % 4], line);
        }
        assert_eq!(setup.record.l2[3].order, [0, 3, 2, 1]);
        assert_eq!(setup.ext[3 * 128], 0x40);
    }
}

#[test]
fn writeback_leaves_the_l2_line_valid_and_clean_and_no_order_changed() {
    for invalidate in [false, true] {
        for block in [false, true] {
            let mut setup = cached(65_536, 1);
            setup.write(1, A + 128, 1);
            setup.read(1, A);
            setup.write(1, A, 2);
            setup.write(1, 0x40, 4);
            setup.read(1, 0x40);
            setup.write(1, 0x40, 3);
            let before = setup.clone();
            let count = 65_535;
            setup.call(&match (block, invalidate) {
                (false, false) => Command::L2WritebackAll,
                (false, true) => Command::L2WritebackInvalidateAll,
                (true, false) => Command::L2BlockWriteback { base: A, count },
                (true, true) => Command::L2BlockWritebackInvalidate { base: A, count },
            });
            assert_eq!((setup.ext[0], setup.ext[128]), (2, 1));
            for address in [A, A + 128] {
                let clean = Line { valid: true, dirty: false, address };
                assert_eq!(setup.l2_line(address), if invalidate { None } else { Some(clean) });
            }
            assert_eq!(setup.l1d_line(A), None);
            // The line of SRAM goes with all lines, and not with a block elsewhere.
            assert_eq!(setup.l1d_line(0x40).map(|line| line.dirty), block.then_some(true));
            assert_eq!(setup.l2[0x40], if block { 4 } else { 3 });
            for (after, before) in setup.record.l2.iter().zip(&before.record.l2) {
                assert_eq!(after.order, before.order);
            }
            for (after, before) in setup.record.l1d.iter().zip(&before.record.l1d) {
                assert_eq!(after.order, before.order);
            }
            assert!(setup.l1d == before.l1d);
        }
    }
}

#[test]
fn l2_block_invalidate_writes_nothing() {
    let mut setup = cached(65_536, 1);
    setup.write(1, A, 1);
    setup.read(1, A);
    setup.write(1, A, 2);
    let before = setup.clone();
    setup.call(&Command::L2BlockInvalidate { base: A + 124, count: 1 });
    assert_eq!((setup.l2_line(A), setup.l1d_line(A)), (None, None));
    assert!(setup.l2 == before.l2 && setup.ext == before.ext && setup.l1d == before.l1d);
    assert_eq!(setup.read(1, A), answer(4, 0));
}

#[test]
fn l1d_commands_act_on_l1d_alone() {
    for code in [7, 8, 9] {
        for mode in [0, 1] {
            let mut setup = cached(65_536, mode);
            for address in [A, 0x80] {
                setup.read(1, address);
                setup.write(1, address, 0x66);
            }
            let count = 1;
            for base in [A, 0x80] {
                setup.call(&match code {
                    7 => Command::L1dBlockWritebackInvalidate { base, count },
                    8 => Command::L1dBlockInvalidate { base, count },
                    _ => Command::L1dInvalidateAll,
                });
            }
            assert_eq!((setup.l1d_line(A), setup.l1d_line(0x80)), (None, None));
            let home = if code == 7 { 0x66 } else { 0 };
            assert_eq!(setup.l2[0x80], home);
            assert_eq!(setup.read(1, A).value, u64::from(home));
            if mode == 1 {
                assert_eq!(setup.ext[0], 0);
                assert_eq!(setup.l2_line(A).unwrap().dirty, code == 7);
                assert_eq!(setup.l2[32_768], home);
            } else {
                assert_eq!(setup.ext[0], home);
            }
        }
    }
}

#[test]
fn mode_change_writes_back_empties_and_zeroes() {
    let mut setup = cached(65_536, 1);
    setup.write(1, 32_767, 9);
    setup.read(1, 0x40);
    setup.write(1, 0x40, 8);
    setup.write(1, A + 256, 7);
    setup.read(1, A);
    setup.write(1, A, 6);
    let l1d = setup.l1d.clone();
    // The same mode.
    let mut same = setup.clone();
    assert_eq!(same.mode(1), answer(0, 0));
    assert_eq!((same.l2[32_767], same.l2[0x40], same.ext[256], same.ext[0]), (9, 8, 7, 6));
    assert!(same.record.l1d.iter().all(|set| *set == L1dSet::FRESH));
    assert!(same.record.l2.iter().all(|set| *set == L2Set::FRESH));
    assert!(same.l2[32_768..].iter().all(|&byte| byte == 0));
    assert!(same.l1d == l1d);
    assert_eq!((same.record.mode, same.record.mar128), (1, 1));
    // To a larger S: zero from the old S on.
    let mut larger = setup.clone();
    larger.mode(0);
    assert_eq!((larger.l2[32_767], larger.l2[0x40], larger.ext[256], larger.ext[0]), (9, 8, 7, 6));
    assert!(larger.l2[32_768..].iter().all(|&byte| byte == 0));
    assert_eq!(larger.read(1, 65_535), answer(2, 0));
    // To a smaller S: zero from the new S on.
    let mut smaller = setup.clone();
    smaller.mode(2);
    assert!(smaller.l2.iter().all(|&byte| byte == 0));
    assert_eq!((smaller.ext[256], smaller.ext[0]), (7, 6));
    // Mode 0 to mode 0 zeroes nothing.
    let mut zero = cached(65_536, 0);
    zero.write(1, 65_535, 5);
    zero.mode(0);
    assert_eq!(zero.l2[65_535], 5);
}

#[test]
fn technicians_call_shows_the_memory_itself() {
    let mut setup = cached(65_536, 1);
    setup.ext[64] = 1;
    setup.write(1, 0x40, 2);
    setup.write(1, A + 64, 3);
    setup.read(1, 0x40);
    setup.write(1, 0x40, 4);
    assert_eq!(setup.look(0x40)[0], 2);
    assert_eq!(setup.look(A + 64)[0], 1);
    assert_eq!(setup.look(A + 64).as_ptr(), setup.ext[64..].as_ptr());
    assert_eq!(setup.look(0x40).as_ptr(), setup.l2[64..].as_ptr());
}

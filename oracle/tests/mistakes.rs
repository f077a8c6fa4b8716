//! "Mistakes others made here": the model makes none of them, but for the second,
//! "The mode 0 L2 command empties L1D.", which "becomes the rule" (02, U10; see
//! tests/l2_reaches_l1d.rs).

use oracle::gen::Setup;
use oracle::Command;

const A: u32 = 0x8000_0000;

fn cached(mode: u32) -> Setup {
    let mut setup = Setup::fresh(65_536, 65_536);
    setup.mar(128, 1);
    setup.mode(mode);
    setup
}

/// "An L2 line is evicted and its dirty L1D half forgotten."
#[test]
fn evicted_l2_line_takes_in_its_dirty_half() {
    for half in [0, 64] {
        for by_write in [true, false] {
            let mut setup = cached(1);
            setup.read(1, A + half);
            setup.write(1, A + half + 3, 0x5A);
            assert!(setup.l1d_line(A + half).unwrap().dirty);
            assert!(!setup.l2_line(A).unwrap().dirty);
            for turn in 1..=4 {
                // The same L2 set; the reads are in the other half's L1D set.
                let address = A + turn * 8_192 + (half ^ 64);
                let answer =
                    if by_write { setup.write(1, address, 1) } else { setup.read(1, address) };
                assert_eq!(answer.server, 4);
            }
            assert_eq!(setup.l2_line(A), None);
            assert_eq!(setup.l1d_line(A + half), None);
            assert_eq!(setup.ext[half as usize + 3], 0x5A);
            assert_eq!(setup.read(1, A + half + 3).value, 0x5A);
        }
    }
}

/// The same with both halves dirty and the L2 line dirty already.
#[test]
fn evicted_l2_line_takes_in_both_dirty_halves() {
    let mut setup = cached(1);
    setup.write(1, A + 1, 0x11);
    setup.read(1, A);
    setup.read(1, A + 64);
    setup.write(1, A + 2, 0x22);
    setup.write(1, A + 66, 0x33);
    for turn in 1..=4 {
        setup.write(1, A + turn * 8_192, 1);
    }
    assert_eq!((setup.l1d_line(A), setup.l1d_line(A + 64), setup.l2_line(A)), (None, None, None));
    assert_eq!((setup.ext[1], setup.ext[2], setup.ext[66]), (0x11, 0x22, 0x33));
}

/// "A write miss fills L1D."
#[test]
fn write_miss_does_not_fill_l1d() {
    for mode in [0, 1] {
        for address in [A + 0x40, 0x40] {
            let mut setup = cached(mode);
            let before = setup.clone();
            assert_eq!(setup.write(4, address, 9).number, 0);
            assert!(setup.record.l1d == before.record.l1d);
            assert!(setup.l1d == before.l1d);
            assert_ne!(setup.read(4, address).server, 1);
        }
    }
}

/// "The lower half alone is dropped by an L2 block command."
#[test]
fn l2_block_commands_drop_both_halves() {
    for touched in [A, A + 60, A + 64, A + 124] {
        for code in [4, 5, 6] {
            let mut setup = cached(1);
            for half in [A, A + 64] {
                setup.read(1, half);
                setup.write(1, half, 0x77);
            }
            let (base, count) = (touched, 1);
            let answer = setup.call(&match code {
                4 => Command::L2BlockWriteback { base, count },
                5 => Command::L2BlockWritebackInvalidate { base, count },
                _ => Command::L2BlockInvalidate { base, count },
            });
            assert_eq!(answer.number, 0);
            assert_eq!((setup.l1d_line(A), setup.l1d_line(A + 64)), (None, None));
            let out = if code == 6 { 0 } else { 0x77 };
            assert_eq!((setup.ext[0], setup.ext[64]), (out, out));
            assert_eq!(setup.l2_line(A).is_some(), code == 4);
            assert!(setup.l2_line(A).is_none_or(|line| !line.dirty));
        }
    }
}

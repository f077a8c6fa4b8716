//! Cases C1 to C10, "With L = E = 65,536".

use oracle::commands::touched_lines;
use oracle::gen::{encode_number, Setup};
use oracle::geometry::{L1d, L2};
use oracle::trace::decode_number;
use oracle::{Answer, Command};

fn setup() -> Setup {
    Setup::fresh(65_536, 65_536)
}

fn encoded(value: u128) -> Vec<u8> {
    let mut bytes = Vec::new();
    encode_number(value, &mut bytes);
    bytes
}

#[test]
fn c1_l1d_sets() {
    assert_eq!(L1d::set_of(0x8000_2000), 0);
    assert_eq!(L1d::set_of(0x8000_1FC0), 127);
}

#[test]
fn c2_l2_sets() {
    assert_eq!(L2::set_of(1, 0x8000_2000), Some(0));
    assert_eq!(L2::set_of(2, 0x8000_2000), Some(64));
    assert_eq!(L2::set_of(0, 0x8000_2000), None);
}

#[test]
fn c3_numbers() {
    assert_eq!(encoded(300), [0xAC, 0x02]);
    assert_eq!(decode_number(&[0xAC, 0x02], 0, 32), Some((300, 2)));
    assert_eq!(encoded(127), [0x7F]);
    assert_eq!(decode_number(&[0x7F], 0, 32), Some((127, 1)));
    assert_eq!(decode_number(&[0x80, 0x00], 0, 32), None);
    let result = setup().run(&[0x0A, 0x80, 0x00], &mut [0; 10]);
    assert_eq!((result.consumed, result.answers, result.stop), (0, 0, 11));
}

#[test]
fn c4_base_of_external_memory() {
    let bytes = [0x80, 0x80, 0x80, 0x80, 0x08];
    assert_eq!(encoded(0x8000_0000), bytes);
    assert_eq!(decode_number(&bytes, 0, 32), Some((0x8000_0000, 5)));
}

#[test]
fn c5_end_of_external_memory() {
    for mar in [0, 1] {
        let mut setup = setup();
        setup.mar(128, mar);
        assert_eq!(setup.read(4, 0x8000_FFFC), Answer { number: 0, server: 4, value: 0 });
        assert_eq!(setup.read(8, 0x8000_FFFC), Answer::refused(4));
        assert_eq!(setup.read(1, 0x8001_0000), Answer::refused(5));
    }
}

#[test]
fn c6_values_and_counts() {
    let mut setup = setup();
    assert_eq!(setup.write(1, 0, 255).number, 0);
    assert_eq!(setup.write(1, 0, 256).number, 6);
    for (count, number) in [(65_535, 0), (65_536, 7)] {
        let base = 0x8000_0000;
        assert_eq!(setup.call(&Command::L2BlockWriteback { base, count }).number, number);
        assert_eq!(setup.call(&Command::L2BlockWritebackInvalidate { base, count }).number, number);
        assert_eq!(setup.call(&Command::L2BlockInvalidate { base, count }).number, number);
        assert_eq!(
            setup.call(&Command::L1dBlockWritebackInvalidate { base, count }).number,
            number
        );
        assert_eq!(setup.call(&Command::L1dBlockInvalidate { base, count }).number, number);
    }
}

#[test]
fn c7_touched_lines() {
    let lines = |base, count| touched_lines(base, count, 128).collect::<Vec<u32>>();
    assert_eq!(lines(0x8000_007C, 1), [0x8000_0000]);
    assert_eq!(lines(0x8000_007C, 2), [0x8000_0000, 0x8000_0080]);
    assert_eq!(lines(0x8000_007C, 0), []);
    assert_eq!(lines(0xFFFF_FFFC, 1), [0xFFFF_FF80]);
    assert_eq!(lines(0xFFFF_FFFC, 65_535), [0xFFFF_FF80]);
    assert_eq!(lines(0xFFFF_FF7C, 65_535), [0xFFFF_FF00, 0xFFFF_FF80]);
}

#[test]
fn c8_no_sram_left() {
    let mut setup = Setup::fresh(32_768, 65_536);
    assert_eq!(setup.mode(1).number, 0);
    assert_eq!(setup.read(1, 0), Answer::refused(5));
}

#[test]
fn c9_second_line_leaves_l1d() {
    let mut setup = setup();
    setup.mar(128, 1);
    for address in [0x8000_0000, 0x8000_2000, 0x8000_0000, 0x8000_4000] {
        assert_eq!(setup.read(1, address).number, 0);
    }
    assert!(setup.l1d_line(0x8000_0000).is_some());
    assert!(setup.l1d_line(0x8000_2000).is_none());
    assert!(setup.l1d_line(0x8000_4000).is_some());
}

/// "Case C10 turns: the line goes out and is dropped" (02, U10).
#[test]
fn c10_dirty_line_goes_out_in_mode_0() {
    let mut setup = setup();
    setup.mar(128, 1);
    setup.read(1, 0x8000_0000);
    setup.write(1, 0x8000_0000, 7);
    assert!(setup.l1d_line(0x8000_0000).unwrap().dirty);
    assert_eq!(setup.ext[0], 0);
    assert_eq!(setup.call(&Command::L2WritebackInvalidateAll), Answer::refused(0));
    assert_eq!(setup.l1d_line(0x8000_0000), None);
    assert_eq!(setup.ext[0], 7);
}

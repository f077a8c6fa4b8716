//! Flat memory by itself: each sentence of the paper's section on it.

use oracle::flat::Flat;
use oracle::{Command, Unaligned};

const EXT: u32 = 0x8000_0000;

/// "Fresh: S = L, SRAM zero, external memory as lent."
#[test]
fn fresh() {
    let lent: Vec<u8> = (0..=255).collect();
    let mut flat = Flat::fresh(32_768, &lent);
    assert_eq!((flat.l, flat.e, flat.s), (32_768, 256, 32_768));
    assert!(flat.sram.len() == 32_768 && flat.sram.iter().all(|&byte| byte == 0));
    assert_eq!(flat.ext, lent);
    assert_eq!(flat.read(8, EXT + 8), (0, 0x0F0E_0D0C_0B0A_0908));
}

/// "a read's value is the bytes at its address, little-endian, and a write puts
/// its value there likewise"
#[test]
fn little_endian_in_both_memories() {
    let mut flat = Flat::fresh(65_536, &[0; 65_536]);
    for base in [0, EXT, 65_528, EXT + 65_528] {
        assert_eq!(flat.write(8, base, 0x8877_6655_4433_2211), 0);
        assert_eq!(flat.read(1, base), (0, 0x11));
        assert_eq!(flat.read(2, base + 2), (0, 0x4433));
        assert_eq!(flat.read(4, base + 4), (0, 0x8877_6655));
        assert_eq!(flat.write(2, base + 2, 0xABCD), 0);
        assert_eq!(flat.read(8, base), (0, 0x8877_6655_ABCD_2211));
    }
}

/// "A read or write gets the lowest number due among checks 3 to 6, by this S."
/// C5 and C6 are among these.
#[test]
fn the_lowest_number_due() {
    let mut flat = Flat::fresh(65_536, &[0; 65_536]);
    assert_eq!(flat.read(4, EXT + 0xFFFC).0, 0);
    assert_eq!(flat.read(8, EXT + 0xFFFC).0, 4);
    assert_eq!(flat.read(1, EXT + 0x10000).0, 5);
    assert_eq!(flat.write(1, 0, 255), 0);
    assert_eq!(flat.write(1, 0, 256), 6);
    for size in [0, 3, 5, 9, 16, 257, u32::MAX] {
        assert_eq!(flat.read(size, u32::MAX), (3, 0));
        assert_eq!(flat.write(size, u32::MAX, u64::MAX), 3);
    }
    assert_eq!(flat.write(2, 65_537, u64::MAX), 4);
    assert_eq!(flat.write(2, 65_536, u64::MAX), 5);
    assert_eq!(flat.write(2, 65_534, u64::MAX), 6);
    assert_eq!(flat.write(8, 65_528, u64::MAX), 0);
    assert_eq!(flat.read(1, EXT - 1).0, 5);
    assert_eq!(flat.read(8, 0xFFFF_FFF8).0, 5);
}

/// "A mode change gets 8 if that is due. If not, S becomes L − C for the new
/// mode; SRAM bytes below the smaller of old and new S are kept, the other SRAM
/// bytes are zero."
#[test]
fn modes() {
    let mut flat = Flat::fresh(131_072, &[7; 128]);
    for mode in [4, 5, 6, 8, 255, 256, u32::MAX] {
        assert_eq!(flat.change_mode(mode), 8);
    }
    assert_eq!(flat.change_mode(7), 8);
    assert_eq!(flat.write(1, 98_303, 1), 0);
    assert_eq!(flat.write(1, 98_304, 2), 0);
    assert_eq!(flat.change_mode(1), 0);
    assert_eq!(flat.s, 98_304);
    assert_eq!(flat.read(1, 98_303), (0, 1));
    assert_eq!(flat.read(1, 98_304), (5, 0));
    assert_eq!(flat.change_mode(0), 0);
    assert_eq!(flat.read(1, 98_303), (0, 1));
    assert_eq!(flat.read(1, 98_304), (0, 0));
    assert_eq!(flat.change_mode(3), 0);
    assert!(flat.s == 0 && flat.sram.is_empty());
    assert_eq!(flat.read(1, 0), (5, 0));
    assert_eq!(flat.change_mode(0), 0);
    assert!(flat.sram.len() == 131_072 && flat.sram.iter().all(|&byte| byte == 0));
    assert_eq!(flat.ext, [7; 128]);
}

/// "No other call, and no refused one, does anything."
#[test]
fn nothing_else() {
    let mut flat = Flat::fresh(32_768, &[9; 256]);
    flat.write(4, 0, 5);
    let before = flat.clone();
    for command in [
        Command::L2WritebackAll,
        Command::L2WritebackInvalidateAll,
        Command::L2BlockInvalidate { base: EXT, count: 9 },
        Command::L1dBlockInvalidate { base: 0, count: 9 },
        Command::L1dInvalidateAll,
        Command::Mar { number: 128, bit: 1 },
        Command::Freeze { frozen: 1 },
        Command::Freeze { frozen: 2 },
    ] {
        assert_eq!(flat.apply(&command), None);
    }
    assert_eq!(flat.apply(&Command::Write { size: 1, address: 0, value: 256 }), Some((6, 0)));
    assert_eq!(flat.apply(&Command::Mode { mode: 2 }), Some((8, 0)));
    assert_eq!(flat, before);
}

/// A non-aligned access, at once: the bytes at its address, and no others (02, U6).
#[test]
fn unaligned_accesses() {
    let mut flat = Flat::fresh(32_768, &[9; 256]);
    let write = Unaligned::Write { size: 8, address: EXT + 61, value: 0x0807_0605_0403_0201 };
    assert_eq!(flat.apply_unaligned(&write), (0, 0));
    assert_eq!(flat.ext[60..70], [9, 1, 2, 3, 4, 5, 6, 7, 8, 9]);
    let read = |size, address| Unaligned::Read { size, address };
    assert_eq!(flat.apply_unaligned(&read(4, EXT + 63)), (0, 0x0605_0403));
    assert_eq!(flat.apply_unaligned(&read(8, EXT + 248)), (0, 0x0909_0909_0909_0909));
    assert_eq!(flat.apply_unaligned(&read(8, EXT + 249)), (5, 0));
    assert_eq!(flat.apply_unaligned(&read(4, EXT - 1)), (5, 0));
    assert_eq!(flat.apply_unaligned(&read(4, 32_764)), (0, 0));
    assert_eq!(flat.apply_unaligned(&read(4, 32_765)), (5, 0));
    assert_eq!(flat.apply_unaligned(&read(4, u32::MAX)), (5, 0));
    assert_eq!(flat.apply_unaligned(&read(2, EXT)), (3, 0));
    let wide = |address| Unaligned::Write { size: 4, address, value: 1 << 32 };
    assert_eq!(flat.apply_unaligned(&wide(1)), (6, 0));
    assert_eq!(flat.apply_unaligned(&wide(32_765)), (5, 0));
    // What its S leaves of SRAM counts.
    flat.change_mode(1);
    assert_eq!(flat.apply_unaligned(&read(4, 0)), (5, 0));
}

/// "which moves the same bytes" (02, U1): those of a transfer, and no others, in both directions.
#[test]
fn transfers() {
    let mut flat = Flat::fresh(32_768, &[9; 512]);
    assert_eq!(flat.transfer_in(EXT + 4, &[1, 2, 3, 4, 5, 6, 7, 8]), 0);
    assert_eq!(flat.ext[..14], [9, 9, 9, 9, 1, 2, 3, 4, 5, 6, 7, 8, 9, 9]);
    assert_eq!(flat.transfer_in(32_764, &[1, 2, 3, 4]), 0);
    assert_eq!(flat.sram[32_762..], [0, 0, 1, 2, 3, 4]);
    let mut buffer = [7; 8];
    assert_eq!(flat.transfer_out(EXT + 8, &mut buffer), 0);
    assert_eq!(buffer, [5, 6, 7, 8, 9, 9, 9, 9]);
    assert_eq!(flat.transfer_out(32_760, &mut buffer), 0);
    assert_eq!(buffer, [0, 0, 0, 0, 1, 2, 3, 4]);
    // 4, then 13, then 14, with nothing moved.
    let before = flat.clone();
    for (address, length, number) in [
        (EXT + 2, 0, 4),
        (EXT + 1, 262_144, 4),
        (EXT + 512, 0, 13),
        (32_768, 6, 13),
        (EXT, 262_144, 13),
        (EXT, usize::MAX, 13),
        (EXT, 262_140, 14),
        (EXT + 508, 8, 14),
        (32_764, 8, 14),
        (EXT - 4, 8, 14),
        (0xFFFF_FFFC, 8, 14),
        (EXT + 508, 4, 0),
        (32_764, 4, 0),
    ] {
        assert_eq!(flat.transfer_number(address, length), number, "{address:x} {length}");
        if number != 0 && length <= 262_144 {
            let mut buffer = vec![7; length];
            assert_eq!(flat.transfer_in(address, &buffer), number);
            assert_eq!(flat.transfer_out(address, &mut buffer), number);
            assert!(buffer.iter().all(|&byte| byte == 7));
        }
    }
    assert_eq!(flat, before);
    // By its own S: none is left.
    flat.change_mode(1);
    assert_eq!(flat.transfer_number(0, 4), 14);
}

/// The modules name nothing of the machine but the commands and accesses.
#[test]
fn shares_no_function_with_the_machine() {
    for text in [
        include_str!("../src/flat.rs"),
        include_str!("../src/covered.rs"),
        include_str!("../src/written.rs"),
    ] {
        let uses: Vec<&str> = text.lines().filter(|line| line.contains("crate::")).collect();
        assert_eq!(uses, ["use crate::trace::Command;", "use crate::unaligned::Unaligned;"]);
        assert!(!["super::", ".size()", ".address()", ".value()"]
            .iter()
            .any(|word| text.contains(word)));
    }
}

//! "Camera transfers" (02, U1), sentence by sentence.

use oracle::covered::Covered;
use oracle::flat::Flat;
use oracle::gen::{
    hot_for, l_for, make_length_wrong, single, transfer, Mix, Rng, Setup, Single, Transfer,
    E_BOTH_RANGES, LEGAL_MODES, LONGEST_BUFFER, WRONG_LENGTHS,
};
use oracle::geometry::EXTERNAL_BASE;
use oracle::wellformed::broken_clauses;
use oracle::{Answer, Command, Direction, Line, Reply, Report, Unaligned};

const A: u32 = EXTERNAL_BASE;

/// An accepted transfer: every number of its answer is 0.
const DONE: Reply =
    Reply { answer: Answer { number: 0, server: 0, value: 0 }, report: Report::NONE };

/// External memory of 65,536 bytes of 1.
fn cached(mode: u32) -> Setup {
    let mut setup = Setup::fresh_over(65_536, vec![1; 65_536]);
    setup.mar(128, 1);
    assert_eq!(setup.mode(mode).number, 0);
    setup
}

fn line(address: u32, dirty: bool) -> Option<Line> {
    Some(Line { valid: true, dirty, address })
}

/// What a transfer out of so many bytes brings.
fn out(setup: &mut Setup, address: u32, length: usize) -> Vec<u8> {
    let mut buffer = vec![0xEE; length];
    assert_eq!(setup.transfer_out(address, &mut buffer), DONE);
    buffer
}

/// The byte at this address is this one in L1D, and dirty there.
fn make_dirty(setup: &mut Setup, address: u32, value: u64) {
    assert_eq!(setup.read(1, address).number, 0);
    assert_eq!(setup.write(1, address, value).server, 1);
    assert!(setup.l1d_line(address).is_some_and(|line| line.dirty));
}

/// "in (buffer to memory) or out, of a lent buffer's whole length, at an address": these bytes and
/// no others, in both memories.
#[test]
fn whole_buffers_are_moved() {
    for mode in [0, 1] {
        for (address, length) in [(0, 4), (60, 8), (64, 128), (32_764, 4), (4_096, 1_000)] {
            for base in [0, A] {
                let mut setup = cached(mode);
                let bytes: Vec<u8> = (0..length).map(|byte| (byte * 7 + 3) as u8).collect();
                let before = setup.clone();
                assert_eq!(setup.transfer_in(base + address, &bytes), DONE);
                let at = address as usize;
                let (memory, was) =
                    if base == 0 { (&setup.l2, &before.l2) } else { (&setup.ext, &before.ext) };
                assert_eq!(memory[at..at + length], bytes);
                assert!(memory[..at] == was[..at] && memory[at + length..] == was[at + length..]);
                let other =
                    if base == 0 { (&setup.ext, &before.ext) } else { (&setup.l2, &before.l2) };
                assert!(other.0 == other.1 && setup.l1d == before.l1d);
                assert!(setup.record == before.record);
                assert_eq!(out(&mut setup, base + address, length), bytes);
                // The technician sees what the camera sees.
                let seen = setup.look(base + address - address % 64);
                assert_eq!(seen[at % 64..at % 64 + 4], bytes[..4]);
            }
        }
    }
}

/// "For SRAM, L1D lines the transfer touches first go home if dirty and become invalid.": the bytes
/// of a dirty line that the transfer leaves alone are those that the CPU wrote.
#[test]
fn touched_lines_of_sram_go_home_and_leave() {
    for mode in [0, 1] {
        for frozen in [0, 1] {
            for into in [true, false] {
                let mut setup = cached(mode);
                for byte in [0, 64, 128, 192, 256] {
                    make_dirty(&mut setup, byte, 5);
                    setup.write(1, byte + 63, 6);
                }
                setup.read(1, 320);
                assert_eq!(setup.record.dirty_l1d, 5);
                setup.freeze(frozen);
                let orders = setup.record.l1d.map(|set| set.order);
                // From the last word of the line at 64 to the first one of that at 256, and the
                // clean one is not touched.
                if into {
                    assert_eq!(setup.transfer_in(124, &[7; 136]), DONE);
                    assert_eq!(setup.l2[124..260], [7; 136]);
                } else {
                    let mut expected = vec![0; 136];
                    for (place, byte) in [(3, 6), (4, 5), (67, 6), (68, 5), (131, 6), (132, 5)] {
                        expected[place] = byte;
                    }
                    assert_eq!(out(&mut setup, 124, 136), expected);
                    assert_eq!((setup.l2[127], setup.l2[128], setup.l2[256]), (6, 5, 5));
                }
                for address in [64, 128, 192, 256] {
                    assert_eq!(setup.l1d_line(address), None);
                }
                assert_eq!((setup.l2[64], setup.l2[319]), (5, 6));
                assert_eq!(setup.l1d_line(0), line(0, true));
                assert_eq!(setup.l1d_line(320), line(320, false));
                assert_eq!((setup.l2[0], setup.record.dirty_l1d), (0, 1));
                // "Invalidation changes no order."
                assert_eq!(setup.record.l1d.map(|set| set.order), orders);
                assert_eq!(setup.record.frozen, frozen);
                // The CPU sees them again.
                let expected = if into { 7 } else { 5 };
                assert_eq!(setup.read(1, 128), Answer { number: 0, server: 2, value: expected });
            }
        }
    }
}

/// One word of a line is enough, at either end of the transfer; the next line is left alone.
#[test]
fn a_line_is_touched_by_one_word() {
    for (address, length, touched) in [
        (0, 4, [true, false, false]),
        (60, 4, [true, false, false]),
        (60, 8, [true, true, false]),
        (64, 64, [false, true, false]),
        (64, 68, [false, true, true]),
        (0, 128, [true, true, false]),
        (124, 4, [false, true, false]),
        (128, 4, [false, false, true]),
        (192, 128, [false, false, false]),
    ] {
        let mut setup = cached(0);
        for byte in [0, 64, 128] {
            make_dirty(&mut setup, byte, 5);
        }
        assert_eq!(setup.transfer_in(address, &vec![9; length]), DONE);
        let left = [0, 64, 128].map(|byte| setup.l1d_line(byte).is_none());
        assert_eq!(left, touched, "{address} {length}");
        let home = [0, 64, 128].map(|byte| setup.l2[byte] != 0);
        assert_eq!(home, touched, "{address} {length}");
    }
}

/// Both ways of a set may hold touched lines, and lines of external memory in the same sets stay.
#[test]
fn lines_of_external_memory_stay() {
    for mode in [0, 1] {
        let mut setup = cached(mode);
        make_dirty(&mut setup, 64, 5);
        make_dirty(&mut setup, 64 + 8_192, 6);
        make_dirty(&mut setup, 0, 7);
        make_dirty(&mut setup, A, 8);
        let mut buffer = vec![0; 16_384];
        assert_eq!(setup.transfer_out(0, &mut buffer), DONE);
        assert_eq!((buffer[64], buffer[64 + 8_192], buffer[0]), (5, 6, 7));
        assert_eq!(setup.l1d_line(A), line(A, true));
        assert_eq!((setup.record.dirty_l1d, setup.ext[0]), (1, 1));
    }
}

/// "For external memory no cache is looked at: the CPU goes on seeing its held line, the EDMA sees
/// what stands in memory."
#[test]
fn no_cache_is_looked_at_for_external_memory() {
    for mode in [0, 1, 2] {
        for frozen in [0, 1] {
            let mut setup = cached(mode);
            // A line clean in L1D, one dirty there, and one that is dirty in L2 alone.
            setup.read(1, A);
            make_dirty(&mut setup, A + 128, 5);
            setup.write(1, A + 256, 6);
            setup.freeze(frozen);
            let before = setup.clone();
            assert_eq!(setup.transfer_in(A, &[7; 384]), DONE);
            assert!(setup.record == before.record && setup.l1d == before.l1d);
            assert!(setup.l2 == before.l2);
            assert_eq!(setup.ext[..384], [7; 384]);
            assert_eq!(setup.read(1, A), Answer { number: 0, server: 1, value: 1 });
            assert_eq!(setup.read(1, A + 128), Answer { number: 0, server: 1, value: 5 });
            let by_l2 = Answer { number: 0, server: 3, value: 6 };
            let past = Answer { number: 0, server: 4, value: 7 };
            assert_eq!(setup.read(1, A + 256), if mode == 0 { past } else { by_l2 });
            let before = setup.clone();
            assert_eq!(out(&mut setup, A, 384), [7; 384]);
            assert!(setup == before);
            // What is dirty goes over it when it goes home.
            setup.call(&Command::L2WritebackInvalidateAll);
            let sixth = if mode == 0 { 7 } else { 6 };
            assert_eq!((setup.ext[0], setup.ext[128], setup.ext[256]), (7, 5, sixth));
        }
    }
    // With MAR bit 0 the CPU too sees what stands in memory.
    let mut setup = Setup::fresh(65_536, 256);
    assert_eq!(setup.transfer_in(A + 4, &[7; 4]), DONE);
    assert_eq!(setup.read(4, A + 4).value, 0x0707_0707);
    setup.write(4, A + 8, 3);
    assert_eq!(out(&mut setup, A + 8, 4), [3, 0, 0, 0]);
}

/// The frame that comes in is seen once both block writeback-invalidates have covered the place, in
/// either order, in every mode and with either MAR bit.
#[test]
fn a_covered_place_takes_a_frame() {
    let l2 = Command::L2BlockWritebackInvalidate { base: A, count: 64 };
    let l1d = Command::L1dBlockWritebackInvalidate { base: A, count: 64 };
    for mode in LEGAL_MODES {
        for mar in [0, 1] {
            for order in [[l2, l1d], [l1d, l2]] {
                let mut setup = Setup::fresh_over(262_144, vec![1; 1_024]);
                setup.mar(128, mar);
                setup.mode(mode);
                for address in (A..A + 256).step_by(32) {
                    setup.read(4, address);
                    setup.write(4, address, 5);
                }
                for command in &order {
                    setup.call(command);
                }
                // What the CPU wrote goes out first.
                assert_eq!(out(&mut setup, A + 128, 8), [5, 0, 0, 0, 1, 1, 1, 1]);
                assert_eq!(setup.transfer_in(A, &[7; 256]), DONE);
                for address in (A..A + 256).step_by(4) {
                    assert_eq!(setup.read(4, address).value, 0x0707_0707, "{mode} {mar}");
                }
            }
        }
    }
}

/// A refused transfer: every number is 0 but its own, and no byte changes, the buffer's neither.
fn refused(setup: &mut Setup, address: u32, length: usize, number: u8) {
    let before = setup.clone();
    let expected = Reply::refused(number);
    if length <= LONGEST_BUFFER {
        let mut buffer = vec![0xEE; length];
        assert_eq!(setup.transfer_in(address, &buffer), expected, "{address:x} {length}");
        assert_eq!(setup.transfer_out(address, &mut buffer), expected, "{address:x} {length}");
        assert!(buffer.iter().all(|&byte| byte == 0xEE));
    }
    for direction in [Direction::In, Direction::Out] {
        let drawn = Transfer { direction, address, length, filling: 3 };
        let (reply, buffer) = setup.transfer(&drawn);
        assert_eq!(reply, expected);
        assert_eq!(buffer, drawn.buffer().unwrap_or_default());
    }
    assert!(*setup == before);
    let lent =
        setup.l2.len() == setup.record.l as usize && broken_clauses(&before.record).is_empty();
    if lent && number > 2 {
        let mut flat = Flat::fresh(setup.record.l, &setup.ext);
        flat.change_mode(setup.record.mode);
        assert_eq!(flat.transfer_number(address, length), number, "{address:x} {length}");
    }
}

/// "after 4 (address not a multiple of 4), 13 for a length of 0, not a multiple of 4 or above
/// 262,140; then 14 for a transfer not wholly in SRAM or external memory."
#[test]
fn the_numbers_at_their_edges() {
    let mut setup = Setup::fresh(262_144, 262_144);
    setup.mar(128, 1);
    for address in [0, A] {
        make_dirty(&mut setup, address, 5);
        for back in 1..4 {
            for length in [0, 1, 4, 262_140, 262_144, usize::MAX] {
                refused(&mut setup, address + back, length, 4);
            }
        }
        for length in [0, 1, 2, 3, 5, 6, 7, 262_137, 262_141, 262_143, 262_144, 262_148] {
            refused(&mut setup, address, length, 13);
        }
        for length in [1 << 20, 1 << 31, 1 << 32, (1 << 32) + 4, 1 << 63, usize::MAX - 3] {
            refused(&mut setup, address, length, 13);
        }
        for length in [4, 8, 262_132, 262_136, 262_140] {
            assert_eq!(setup.clone().transfer_in(address, &vec![7; length]), DONE);
            assert_eq!(setup.clone().transfer_out(address, &mut vec![7; length]), DONE);
        }
        // To the last byte, and no further.
        let end = address + 262_144;
        for length in [4, 64, 262_140] {
            let first = end - length;
            assert_eq!(setup.clone().transfer_in(first, &vec![7; length as usize]), DONE);
            refused(&mut setup, first + 4, length as usize, 14);
        }
        refused(&mut setup, end, 4, 14);
        refused(&mut setup, end, 8, 14);
    }
    // Below external memory and above it, also above FFFFFFFFh.
    refused(&mut setup, A - 4, 4, 14);
    refused(&mut setup, A - 4, 8, 14);
    refused(&mut setup, 0xFFFF_FFFC, 4, 14);
    refused(&mut setup, 0xFFFF_FFFC, 8, 14);
    refused(&mut setup, 0x4000_0000, 262_140, 14);
}

/// SRAM is what the mode leaves of L2; a mode may leave none.
#[test]
fn the_end_of_sram_goes_by_the_mode() {
    for (mode, s) in [(0, 262_144), (1, 229_376), (2, 196_608), (3, 131_072), (7, 0)] {
        let mut setup = Setup::fresh(262_144, 128);
        setup.mode(mode);
        if s > 0 {
            assert_eq!(setup.transfer_in(s - 64, &[7; 64]), DONE);
        }
        refused(&mut setup, s, 4, 14);
        refused(&mut setup, s.saturating_sub(4), 8, 14);
    }
}

/// 1, 2, 4, 13, then 14.
#[test]
fn the_lowest_number_counts() {
    let mut setup = cached(1);
    make_dirty(&mut setup, 0, 5);
    let due = [(A + 65_534, 3, 4), (A + 65_536, 3, 13), (A + 65_536, 4, 14)];
    for (address, length, number) in due {
        refused(&mut setup, address, length, number);
    }
    let mut ill_formed = setup.clone();
    ill_formed.record.l1d[9].order = [0, 0];
    let mut rng = Rng::new(1);
    for (address, length, _) in due.into_iter().chain([(0, 4, 0), (A, usize::MAX, 0)]) {
        refused(&mut ill_formed, address, length, 2);
        for wrong in WRONG_LENGTHS {
            for mut short in [setup.clone(), ill_formed.clone()] {
                make_length_wrong(&mut rng, &mut short, wrong);
                refused(&mut short, address, length, 1);
            }
        }
    }
}

/// Across the border of the two MAR ranges, whatever their bits are.
#[test]
fn across_the_mar_ranges() {
    let border = 0x8100_0000;
    for bits in [(0, 0), (0, 1), (1, 0), (1, 1)] {
        let mut setup = Setup::fresh(32_768, E_BOTH_RANGES);
        setup.mar(128, bits.0);
        setup.mar(129, bits.1);
        assert_eq!(setup.transfer_in(border - 4, &[1, 2, 3, 4, 5, 6, 7, 8]), DONE);
        assert_eq!(setup.read(4, border - 4).value, 0x0403_0201);
        assert_eq!(setup.read(4, border).value, 0x0807_0605);
        assert_eq!(out(&mut setup, border - 4, 8), [1, 2, 3, 4, 5, 6, 7, 8]);
    }
}

/// The commands and accesses of a list, all of them accepted.
fn covered(e: u32, commands: &[Command]) -> Covered {
    let mut covered = Covered::fresh(e);
    for command in commands {
        covered.command(command, true);
    }
    covered
}

/// "covered" goes line by line, by both commands since the last accepted access to the line, in any
/// order, by one command each or several.
#[test]
fn what_is_covered() {
    let read = |address| Command::Read { size: 4, address };
    let l2 = |base, count| Command::L2BlockWritebackInvalidate { base, count };
    let l1d = |base, count| Command::L1dBlockWritebackInvalidate { base, count };
    let joins = |commands: &[Command]| {
        let covered = covered(1_024, commands);
        [A, A + 128].map(|address| covered.joins(address, 128))
    };
    // "A line that was never accessed counts as covered."
    assert_eq!(joins(&[]), [true, true]);
    assert_eq!(joins(&[read(A + 124)]), [false, true]);
    assert_eq!(joins(&[Command::Write { size: 1, address: A + 128, value: 1 }]), [true, false]);
    // Both commands, and the second one over both halves.
    assert_eq!(joins(&[read(A), l2(A, 32)]), [false, true]);
    assert_eq!(joins(&[read(A), l1d(A, 32)]), [false, true]);
    assert_eq!(joins(&[read(A), l2(A, 32), l1d(A, 32)]), [true, true]);
    assert_eq!(joins(&[read(A), l1d(A, 32), l2(A, 32)]), [true, true]);
    assert_eq!(joins(&[read(A), l2(A, 32), l1d(A, 16)]), [false, true]);
    assert_eq!(joins(&[read(A), l2(A, 32), l1d(A + 64, 16)]), [false, true]);
    assert_eq!(joins(&[read(A), l2(A, 1), l1d(A + 60, 2)]), [true, true]);
    assert_eq!(joins(&[read(A), l1d(A + 124, 1), l2(A + 124, 1), l1d(A, 1)]), [true, true]);
    // Blocks that only come close.
    assert_eq!(joins(&[read(A), l2(A + 128, 32), l1d(A, 32)]), [false, true]);
    assert_eq!(joins(&[read(A + 128), l2(A, 32), l1d(A, 64)]), [true, false]);
    assert_eq!(joins(&[read(A + 128), l2(A, 33), l1d(A, 64)]), [true, true]);
    assert_eq!(joins(&[read(A), l2(A - 8, 2), l1d(A, 32)]), [false, true]);
    assert_eq!(joins(&[read(A), l2(A - 8, 3), l1d(A, 32)]), [true, true]);
    assert_eq!(joins(&[read(A), l2(A, 0), l1d(A, 32)]), [false, true]);
    // An access in between, or behind, counts again.
    assert_eq!(joins(&[read(A), l2(A, 32), read(A), l1d(A, 32)]), [false, true]);
    assert_eq!(joins(&[read(A), l2(A, 32), l1d(A, 32), read(A)]), [false, true]);
    assert_eq!(joins(&[read(A), l2(A, 32), read(A + 128), l1d(A, 32)]), [true, false]);
    // What covers in fact, but is another command.
    for other in [
        Command::L2WritebackInvalidateAll,
        Command::L2BlockWriteback { base: A, count: 64 },
        Command::L2BlockInvalidate { base: A, count: 64 },
        Command::L1dBlockInvalidate { base: A, count: 64 },
        Command::L1dInvalidateAll,
        Command::Mode { mode: 0 },
    ] {
        assert_eq!(joins(&[read(A), other, l1d(A, 32)]), [false, true], "{other:?}");
        assert_eq!(joins(&[read(A), l2(A, 32), other]), [false, true], "{other:?}");
    }
    // A block that passes FFFFFFFFh is cut off, and one below external memory may come into it.
    assert_eq!(joins(&[read(A), l2(0xFFFF_FFFC, 65_535), l1d(A, 32)]), [false, true]);
    assert_eq!(joins(&[read(A), l2(A - 65_536, 65_535), l1d(A, 32)]), [true, true]);
}

/// Refused calls count for nothing, and non-aligned accesses for each of their bytes.
#[test]
fn what_counts_as_an_access() {
    let read = Command::Read { size: 4, address: A };
    let l2 = Command::L2BlockWritebackInvalidate { base: A, count: 64 };
    let l1d = Command::L1dBlockWritebackInvalidate { base: A, count: 64 };
    let mut covered = Covered::fresh(1_024);
    covered.command(&read, false);
    assert!(covered.joins(A, 128) && !covered.was_accessed(A, 1_024));
    covered.command(&read, true);
    covered.command(&l2, false);
    covered.command(&l1d, true);
    assert!(!covered.joins(A, 128) && covered.was_accessed(A, 128));
    covered.command(&l2, true);
    assert!(covered.joins(A, 1_024));
    covered.unaligned(&Unaligned::Read { size: 8, address: A + 124 }, false);
    assert!(covered.joins(A, 1_024));
    covered.unaligned(&Unaligned::Read { size: 8, address: A + 124 }, true);
    assert!(!covered.joins(A, 128) && !covered.joins(A + 128, 128) && covered.joins(A + 256, 768));
    // Those of SRAM need none of it, external ones have to be whole lines.
    assert!(covered.joins(4, 4));
    assert!(!covered.joins(A + 256, 4) && !covered.joins(A + 260, 128));
    assert!(!covered.joins(A + 256, 192) && !covered.joins(A + 320, 128));
    assert!(!covered.joins(A, 256));
}

#[derive(Default, Debug)]
struct Met {
    numbers: [[u32; 15]; 2],
    sram: [u32; 2],
    external: [u32; 2],
    dirty: [u32; 2],
    clean: [u32; 2],
    frozen: u32,
}

/// Random transfers from any record in every mode. Of SRAM one is an L1D block writeback-invalidate
/// over its bytes, which are moved then; of external memory they are moved, and nothing else is.
#[test]
fn a_transfer_is_a_writeback_and_a_move() {
    let mut rng = Rng::new(111);
    let mut met = Met::default();
    for turn in 0..500 {
        let mode = LEGAL_MODES[turn % LEGAL_MODES.len()];
        let l = l_for(&mut rng, mode);
        let e = rng.pick(&[128, 8_192, 65_536, 65_536, 300_032]);
        let mut setup = Setup::random(&mut rng, l, e);
        setup.redraw_record_in_mode(&mut rng, mode);
        let lines = hot_for(&mut rng, &setup.record);
        for _ in 0..24 {
            let drawn = transfer(&mut rng, &lines);
            let Transfer { direction, address, length, .. } = drawn;
            let by = usize::from(drawn.is_in());
            let mut by_parts = setup.clone();
            let (reply, buffer) = setup.transfer(&drawn);
            let number = reply.answer.number;
            met.numbers[by][usize::from(number)] += 1;
            assert_eq!(reply, Reply::refused(number), "{drawn:x?}");
            let given = drawn.buffer().unwrap_or_default();
            if number != 0 {
                assert!(setup == by_parts && buffer == given, "{drawn:x?}");
                continue;
            }
            let from = (address % A) as usize;
            let is_sram = address < A;
            if is_sram {
                let count = length as u32 / 4;
                let writeback = Command::L1dBlockWritebackInvalidate { base: address, count };
                let before = by_parts.record.clone();
                assert_eq!(by_parts.call(&writeback).number, 0);
                let lines = before.l1d.iter().flat_map(|set| set.lines);
                let now = by_parts.record.l1d.iter().flat_map(|set| set.lines);
                let mut left = lines.zip(now).filter(|(was, now)| was.valid && !now.valid);
                let dirty = left.clone().any(|(was, _)| was.dirty);
                met.dirty[by] += u32::from(dirty);
                met.clean[by] += u32::from(left.any(|(was, _)| !was.dirty));
                met.sram[by] += 1;
            } else {
                met.external[by] += 1;
            }
            let memory = if is_sram { &mut by_parts.l2 } else { &mut by_parts.ext };
            let stretch = &mut memory[from..from + length];
            match direction {
                Direction::In => stretch.copy_from_slice(&given),
                Direction::Out => assert!(buffer == *stretch, "{drawn:x?}"),
            }
            assert!(setup == by_parts, "{drawn:x?}");
            assert_eq!(broken_clauses(&setup.record), [], "{drawn:x?}");
            met.frozen += setup.record.frozen;
        }
    }
    assert!(met.numbers.iter().all(|by| by[4] > 20 && by[13] > 100 && by[14] > 100), "{met:?}");
    assert!(met.sram.iter().chain(&met.external).all(|&count| count > 500), "{met:?}");
    assert!(met.dirty.iter().chain(&met.clean).all(|&count| count > 100), "{met:?}");
    assert!(met.frozen > 200, "{met:?}");
}

/// What is drawn: in and out alike, lengths at every edge, and the longest that is accepted.
#[test]
fn what_is_drawn() {
    let mut rng = Rng::new(112);
    let setup = Setup::random(&mut rng, 262_144, 262_144);
    let lines = hot_for(&mut rng, &setup.record);
    let (mut into, mut all) = (0, 0);
    let mut lengths = [0; 8];
    let mut ends = [0; 2];
    for _ in 0..60_000 {
        let Single::Transfer(drawn) = single(&mut rng, &lines, &Mix::ALL) else { continue };
        all += 1;
        into += u32::from(drawn.is_in());
        let class = match drawn.length {
            0 => 0,
            262_140 => 1,
            262_144 => 2,
            262_141..=262_148 => 3,
            usize::MAX => 4,
            length if length > LONGEST_BUFFER => 5,
            length if length % 4 != 0 => 6,
            _ => 7,
        };
        lengths[class] += 1;
        let end = u64::from(drawn.address) + drawn.length as u64;
        let external = u64::from(A) + 262_144;
        ends[0] += u32::from(end == external && class == 7);
        ends[1] += u32::from(end == external + 4 && class == 7);
    }
    assert!(all > 2_500 && into * 3 > all && into * 3 < 2 * all, "{into} of {all}");
    assert!(lengths.iter().all(|&count| count > 2) && lengths[7] * 4 > all * 3, "{lengths:?}");
    assert!(ends.iter().all(|&count| count > 10), "{ends:?}");
}

//! "Non-aligned loads and stores" (02, U6), sentence by sentence.

use oracle::flat::Flat;
use oracle::gen::{
    crowded, crowded_e, hot_for, l_for, make_length_wrong, single, unaligned_access, Mix, Rng,
    Setup, Single, E_BOTH_RANGES, LEGAL_MODES, WRONG_LENGTHS,
};
use oracle::geometry::{EXTERNAL_BASE, L2};
use oracle::wellformed::broken_clauses;
use oracle::{Answer, Command, Left, Line, Reply, Report, Unaligned};

const A: u32 = EXTERNAL_BASE;

/// Lines so far apart are in one set of L1D and, in mode 1, in one of L2.
const APART: u32 = 8_192;

/// External memory of 65,536 bytes, each of them known by its place.
fn byte_at(place: u32) -> u8 {
    (place * 7 + place / 256) as u8
}

fn fresh() -> Setup {
    Setup::fresh_over(65_536, (0..65_536).map(byte_at).collect())
}

fn cached(mode: u32) -> Setup {
    let mut setup = fresh();
    setup.mar(128, 1);
    assert_eq!(setup.mode(mode).number, 0);
    setup
}

fn read(setup: &mut Setup, size: u32, address: u32) -> Reply {
    setup.unaligned(&Unaligned::Read { size, address })
}

fn write(setup: &mut Setup, size: u32, address: u32, value: u64) -> Reply {
    setup.unaligned(&Unaligned::Write { size, address, value })
}

/// What external memory holds at an address to begin with.
fn in_memory(size: u32, address: u32) -> u64 {
    (0..size).map(|byte| u64::from(byte_at(address - A + byte)) << (8 * byte)).sum()
}

/// An accepted access tells no line that left, just its counts.
fn reply(server: u8, value: u64, external_read: u32, external_written: u32) -> Reply {
    let report = Report { external_read, external_written, ..Report::NONE };
    Reply { answer: Answer { number: 0, server, value }, report }
}

fn line(address: u32, dirty: bool) -> Line {
    Line { valid: true, dirty, address }
}

/// "Add them for 4 and 8 bytes at any address", aligned ones too, in every memory and past
/// the caches; the lowest byte first.
#[test]
fn any_address_is_read_and_written() {
    for mode in [0, 1, 2] {
        for mar in [0, 1] {
            for size in [4, 8] {
                for offset in (0..140).chain([32_760, 65_536 - size]) {
                    let mut setup = fresh();
                    setup.mar(128, mar);
                    setup.mode(mode);
                    let address = A + offset;
                    let answer = read(&mut setup, size, address).answer;
                    let expected = in_memory(size, address);
                    assert_eq!(answer, Answer { number: 0, server: 4, value: expected });
                    let value = 0x8877_6655_4433_2211 >> (64 - 8 * size);
                    assert_eq!(write(&mut setup, size, address, value).answer.number, 0);
                    assert_eq!(read(&mut setup, size, address).answer.value, value);
                    // The single accesses see the same, and the bytes around stay.
                    for byte in 0..size {
                        let read = setup.read(1, address + byte).value;
                        assert_eq!(read, value >> (8 * byte) & 0xFF);
                    }
                    if address % size == 0 {
                        assert_eq!(setup.read(size, address).value, value);
                    }
                    for around in [address - 1, address + size] {
                        if (A..A + 65_536).contains(&around) {
                            let expected = u64::from(byte_at(around - A));
                            assert_eq!(setup.read(1, around).value, expected);
                        }
                    }
                }
            }
        }
    }
}

/// In L2's SRAM, a line of which L1D holds.
#[test]
fn sram_is_read_and_written() {
    for mode in [0, 1] {
        let mut setup = cached(mode);
        assert_eq!(write(&mut setup, 8, 61, 0x0807_0605_0403_0201), reply(2, 0, 0, 0));
        assert_eq!(setup.l2[60..70], [0, 1, 2, 3, 4, 5, 6, 7, 8, 0]);
        assert_eq!(read(&mut setup, 4, 62), reply(2, 0x0504_0302, 0, 0));
        assert_eq!(setup.l1d_line(0), Some(line(0, false)));
        assert_eq!(setup.l1d_line(64), Some(line(64, false)));
        assert_eq!(read(&mut setup, 8, 61), reply(1, 0x0807_0605_0403_0201, 0, 0));
        assert_eq!(write(&mut setup, 4, 62, u64::from(u32::MAX)), reply(1, 0, 0, 0));
        assert_eq!(setup.l1d_line(0), Some(line(0, true)));
        assert_eq!(setup.l1d_line(64), Some(line(64, true)));
    }
}

/// The ways that both lines are in have been used, each in its set.
#[test]
fn both_lines_are_used() {
    for mode in [0, 1] {
        let mut setup = cached(mode);
        // Lines of sets 0 and 1 in way 0, then others in way 1.
        for turn in 0..2 {
            setup.read(1, A + turn * APART);
            setup.read(1, A + turn * APART + 64);
        }
        for set in [0, 1] {
            assert_eq!(setup.record.l1d[set].order, [1, 0]);
        }
        assert_eq!(read(&mut setup, 4, A + 61), reply(1, in_memory(4, A + 61), 0, 0));
        for set in [0, 1] {
            assert_eq!(setup.record.l1d[set].order, [0, 1]);
        }
        assert_eq!(write(&mut setup, 4, A + APART + 61, 0), reply(1, 0, 0, 0));
        for set in [0, 1] {
            assert_eq!(setup.record.l1d[set].order, [1, 0]);
            assert_eq!(setup.record.l1d[set].lines.map(|line| line.dirty), [false, true]);
        }
        assert_eq!((setup.record.dirty_l1d, setup.record.dirty_l2), (2, 0));
        // One that stays in a line uses just that one.
        read(&mut setup, 8, A + 56);
        assert_eq!(setup.record.l1d[0].order, [0, 1]);
        assert_eq!(setup.record.l1d[1].order, [1, 0]);
    }
}

/// Two L2 lines are used by a write that misses L1D.
#[test]
fn both_l2_lines_are_used() {
    let mut setup = cached(1);
    for turn in 0..4 {
        setup.write(1, A + turn * APART, 1);
        setup.write(1, A + turn * APART + 128, 1);
    }
    assert_eq!(setup.record.l2[0].order, [3, 2, 1, 0]);
    assert_eq!(write(&mut setup, 4, A + APART + 127, 0), reply(3, 0, 0, 0));
    assert_eq!(setup.record.l2[0].order, [1, 3, 2, 0]);
    assert_eq!(setup.record.l2[1].order, [1, 3, 2, 0]);
}

/// "from the lowest address up": the order is seen where both halves of an L2 line come, and
/// the one that leaves takes its own halves out of the two sets of L1D. The first way was
/// chosen before that, the second one after it.
#[test]
fn the_lowest_address_comes_first() {
    let mut setup = cached(1);
    for turn in 0..2 {
        setup.read(1, A + turn * APART);
        setup.read(1, A + turn * APART + 64);
    }
    for turn in 2..4 {
        setup.write(1, A + turn * APART, 1);
    }
    // In L1D the first line was used last; in L2 it is the next to leave.
    setup.read(1, A);
    setup.read(1, A + 64);
    let new = A + 4 * APART;
    assert_eq!(read(&mut setup, 8, new + 60), reply(4, in_memory(8, new + 60), 128, 0));
    assert_eq!(setup.l2_line(A), None);
    let lower = &setup.record.l1d[0];
    assert_eq!((lower.lines, lower.order), ([Line::EMPTY, line(new, false)], [1, 0]));
    let upper = &setup.record.l1d[1];
    let stays = line(A + APART + 64, false);
    assert_eq!((upper.lines, upper.order), ([line(new + 64, false), stays], [0, 1]));
}

/// "the server being the highest of theirs", wherever that byte is.
#[test]
fn the_server_is_the_highest() {
    // The first line in L1D, in L2 alone, or in neither; and the second one. A line of
    // another L2 line each.
    let place = |setup: &mut Setup, server: u8, address: u32| match server {
        1 => drop(setup.read(1, address)),
        3 => {
            setup.read(1, address);
            setup.call(&Command::L1dBlockWritebackInvalidate { base: address & !63, count: 1 });
        }
        _ => {}
    };
    for first in [1, 3, 4] {
        for second in [1, 3, 4] {
            for frozen in [0, 1] {
                for size in [4, 8] {
                    for back in 1..size {
                        let address = A + 128 - back;
                        let mut setup = cached(1);
                        place(&mut setup, first, A + 64);
                        place(&mut setup, second, A + 128);
                        setup.freeze(frozen);
                        let mut other = setup.clone();
                        let highest = first.max(second);
                        let fetched = 128 * (u32::from(first == 4) + u32::from(second == 4));
                        let value = in_memory(size, address);
                        assert_eq!(
                            read(&mut setup, size, address),
                            reply(highest, value, fetched, 0)
                        );
                        let wrote = write(&mut other, size, address, 0);
                        assert_eq!(wrote, reply(highest, 0, fetched, 0));
                        // A frozen L1D is filled by neither.
                        assert_eq!(setup.l1d_line(A + 64).is_some(), first == 1 || frozen == 0);
                        assert_eq!(other.l1d_line(A + 128).is_some(), second == 1);
                    }
                }
            }
        }
    }
}

/// "only the byte counts come back, added up": the bytes of two lines, or just the access's
/// own.
#[test]
fn counts_are_added_up() {
    // Past the caches.
    let mut setup = fresh();
    for size in [4, 8] {
        let address = A + 61;
        let value = in_memory(size, address);
        assert_eq!(read(&mut setup, size, address), reply(4, value, size, 0));
        assert_eq!(write(&mut setup, size, address, value), reply(4, 0, 0, size));
    }
    // Two lines of L1D in mode 0, into empty ways; then for dirty ones.
    let mut setup = cached(0);
    assert_eq!(write(&mut setup, 8, A + 60, 5), reply(4, 0, 0, 8));
    for turn in 1..3 {
        let address = A + turn * APART + 60;
        assert_eq!(read(&mut setup, 8, address), reply(4, in_memory(8, address), 128, 0));
        assert_eq!(write(&mut setup, 8, address, 6), reply(1, 0, 0, 0));
    }
    assert_eq!(read(&mut setup, 8, A + 60), reply(4, 5, 128, 128));
    // One line is dirty, the other clean.
    setup.write(1, A, 1);
    assert_eq!(read(&mut setup, 8, A + APART + 60), reply(4, 6, 128, 128));
    let address = A + 3 * APART + 60;
    assert_eq!(read(&mut setup, 8, address), reply(4, in_memory(8, address), 128, 64));
    // A frozen L1D takes just the bytes, those of a line that it holds from itself.
    setup.freeze(1);
    let address = A + 4 * APART + 60;
    assert_eq!(read(&mut setup, 8, address), reply(4, in_memory(8, address), 8, 0));
    setup.freeze(0);
    setup.read(1, address);
    setup.freeze(1);
    assert_eq!(read(&mut setup, 8, address), reply(4, in_memory(8, address), 4, 0));
    assert_eq!(write(&mut setup, 8, address, 0), reply(4, 0, 0, 4));
}

/// Halves of one L2 line are fetched once.
#[test]
fn one_l2_line_is_fetched_once() {
    for address in [A + 60, A + 1] {
        let mut setup = cached(1);
        assert_eq!(read(&mut setup, 8, address), reply(4, in_memory(8, address), 128, 0));
        let mut setup = cached(1);
        assert_eq!(write(&mut setup, 8, address, 0), reply(4, 0, 128, 0));
    }
}

/// "The bound on external bytes becomes 256 each way": it is met, in one access, where two
/// lines of L2 are fetched for which dirty ones leave.
#[test]
fn the_bound_is_met() {
    for by_write in [false, true] {
        for size in [4, 8] {
            let mut setup = cached(1);
            for turn in 0..4 {
                let address = A + turn * APART + 128 - 2;
                assert_eq!(write(&mut setup, size, address, 1), reply(4, 0, 256, 0));
            }
            let address = A + 4 * APART + 128 - 2;
            let told = if by_write {
                (write(&mut setup, size, address, 2), 0)
            } else {
                (read(&mut setup, size, address), in_memory(size, address))
            };
            assert_eq!(told.0, reply(4, told.1, 256, 256));
            // Dirty by halves in L1D alone.
            let mut setup = cached(1);
            for turn in 0..5 {
                let address = A + turn * APART + 128 - 2;
                assert_eq!(read(&mut setup, size, address).report.external_read, 256);
                if turn < 2 {
                    assert_eq!(write(&mut setup, size, address, 1), reply(1, 0, 0, 0));
                }
                let report = setup.unaligned(&Unaligned::Read { size, address }).report;
                assert_eq!(report, Report::NONE);
            }
            assert_eq!(setup.ext[126..130], [1, 0, 0, 0]);
        }
    }
}

/// Lines beside each other lie in different sets of either cache: each puts a line of its own
/// set out, and neither the other.
#[test]
fn each_line_puts_out_one_of_its_own_set() {
    for across in [64, 128] {
        let mut setup = cached(1);
        for turn in 0..4 {
            let address = A + turn * APART + across - 4;
            read(&mut setup, 8, address);
            assert!(setup.l1d_line(address).is_some());
            assert!(setup.l1d_line(address + 7).is_some());
        }
        let held = |setup: &Setup, turn: u32| {
            let address = A + turn * APART + across - 4;
            [
                setup.l1d_line(address),
                setup.l1d_line(address + 7),
                setup.l2_line(address),
                setup.l2_line(address + 7),
            ]
            .map(|line| line.is_some())
        };
        assert_eq!(held(&setup, 1), [false, false, true, true]);
        let address = A + 4 * APART + across - 4;
        read(&mut setup, 8, address);
        assert_eq!(held(&setup, 4), [true; 4]);
        assert_eq!(held(&setup, 0), [false; 4]);
        // L1D lost the line that was used longest ago in each of its sets.
        assert_eq!(held(&setup, 2), [false, false, true, true]);
        assert_eq!(held(&setup, 3), [true; 4]);
    }
}

/// Across the border of the two MAR ranges one part goes past the caches.
#[test]
fn across_the_mar_ranges() {
    let border = 0x8100_0000;
    for (mar128, mar129) in [(1, 0), (0, 1)] {
        for mode in [0, 1] {
            let mut setup = Setup::fresh(65_536, E_BOTH_RANGES);
            setup.mar(128, mar128);
            setup.mar(129, mar129);
            setup.mode(mode);
            let lines = if mode == 0 { 64 } else { 128 };
            let value = 0x8877_6655_4433_2211;
            let (past, held) = if mar128 == 1 { (3, border - 64) } else { (5, border) };
            assert_eq!(read(&mut setup, 8, border - 5), reply(4, 0, lines + past, 0));
            assert!(setup.l1d_line(held).is_some());
            assert_eq!(write(&mut setup, 8, border - 5, value), reply(4, 0, 0, past));
            assert_eq!(setup.l1d_line(held), Some(line(held, true)));
            assert_eq!(setup.l1d_line(held ^ 0x01FF_FFC0), None);
            assert_eq!(read(&mut setup, 8, border - 5), reply(4, value, past, 0));
        }
    }
}

/// A refused access: value, server and counts are 0, and nothing has changed.
fn refused(setup: &mut Setup, access: Unaligned, number: u8) {
    let before = setup.clone();
    let mut flat = Flat::fresh(setup.record.l, &setup.ext);
    flat.change_mode(setup.record.mode);
    let flat_before = flat.clone();
    assert_eq!(setup.unaligned(&access), Reply::refused(number), "{access:x?}");
    assert!(*setup == before);
    if number > 2 {
        assert_eq!(flat.apply_unaligned(&access), (number, 0), "{access:x?}");
        assert!(flat == flat_before);
    }
}

fn both_refused(setup: &mut Setup, size: u32, address: u32, number: u8) {
    refused(setup, Unaligned::Read { size, address }, number);
    for value in [0, 255] {
        refused(setup, Unaligned::Write { size, address, value }, number);
    }
}

/// "3 refuses sizes 1 and 2", and all but 4 and 8, at any address.
#[test]
fn other_sizes_get_3() {
    let sizes = [0, 1, 2, 3, 5, 6, 7, 9, 12, 16, 256, 260, 264, 1 << 31, u32::MAX];
    for mode in LEGAL_MODES {
        let mut setup = Setup::fresh(262_144, 65_536);
        setup.mode(mode);
        for size in sizes {
            for address in [0, 1, 2, A, A + 1, A + 65_536, A - 1, u32::MAX, 0x4000_0000] {
                both_refused(&mut setup, size, address, 3);
                // 6 comes later.
                refused(&mut setup, Unaligned::Write { size, address, value: u64::MAX }, 3);
            }
        }
    }
}

/// "All bytes are checked first, so a refusal moves nothing": one byte outside is enough.
#[test]
fn what_is_not_wholly_in_memory_gets_5() {
    for mode in [0, 1, 2] {
        let mut setup = cached(mode);
        let s = setup.record.sram_size();
        // Dirty lines at the ends of both memories, which a byte would meet.
        for address in [s.wrapping_sub(1), A + 65_535, A] {
            if setup.read(1, address).number == 0 {
                setup.write(1, address, 9);
            }
        }
        for size in [4, 8] {
            if s > 0 {
                assert_eq!(read(&mut setup.clone(), size, s - size).answer.number, 0);
                assert_eq!(write(&mut setup.clone(), size, s - size, 1).answer.number, 0);
            }
            assert_eq!(read(&mut setup.clone(), size, A).answer.number, 0);
            assert_eq!(write(&mut setup.clone(), size, A + 65_536 - size, 1).answer.number, 0);
            for back in 0..size {
                // Across the end of SRAM, below 80000000h and into it, across the end of
                // external memory, and above FFFFFFFFh.
                for end in [s, A, A + 65_536, 0] {
                    // At 80000000h and at 0 itself a memory begins.
                    if back == 0 && (end == A || end == 0) {
                        continue;
                    }
                    both_refused(&mut setup, size, end.wrapping_sub(back), 5);
                }
            }
            for address in [A - size, u32::MAX, 0xFFFF_FFF8, 0xFFFF_FFFC, 0x7FFF_0001] {
                both_refused(&mut setup, size, address, 5);
            }
        }
    }
    // Above FFFFFFFFh there is no byte 0, though SRAM begins there.
    let mut setup = fresh();
    assert_eq!(read(&mut setup, 8, 0).answer.number, 0);
    both_refused(&mut setup, 8, 0xFFFF_FFF9, 5);
}

/// "6: value needs more bytes than the size": of 8 bytes none does.
#[test]
fn too_wide_a_value_gets_6() {
    let mut setup = cached(1);
    for address in [0, 61, A, A + 61, A + 65_532] {
        for value in [1 << 32, (1 << 32) + 1, u64::MAX] {
            refused(&mut setup, Unaligned::Write { size: 4, address, value }, 6);
        }
        let value = u64::from(u32::MAX);
        assert_eq!(write(&mut setup, 4, address, value).answer.number, 0);
        assert_eq!(read(&mut setup, 4, address).answer.value, value);
    }
    assert_eq!(write(&mut setup, 8, A + 61, u64::MAX).answer.number, 0);
    assert_eq!(read(&mut setup, 8, A + 61).answer.value, u64::MAX);
}

/// 1, 2, then 3, 5 and 6; "Check 4 doesn't apply".
#[test]
fn the_lowest_number_counts() {
    let all = |size, address| Unaligned::Write { size, address, value: u64::MAX };
    let mut setup = cached(1);
    setup.read(1, A);
    refused(&mut setup, all(2, A + 65_533), 3);
    refused(&mut setup, all(4, A + 65_533), 5);
    refused(&mut setup, all(4, A + 65_531), 6);
    let mut ill_formed = setup.clone();
    ill_formed.record.l1d[0].order = [1, 1];
    let mut rng = Rng::new(6);
    for size in [2, 4, 8] {
        for address in [A + 65_533, A + 1] {
            refused(&mut ill_formed, all(size, address), 2);
            refused(&mut ill_formed, Unaligned::Read { size, address }, 2);
            for wrong in WRONG_LENGTHS {
                for mut short in [setup.clone(), ill_formed.clone()] {
                    make_length_wrong(&mut rng, &mut short, wrong);
                    refused(&mut short, all(size, address), 1);
                    refused(&mut short, Unaligned::Read { size, address }, 1);
                }
            }
        }
    }
}

/// The access as single-byte calls: what it has to answer, by their answers.
fn by_bytes(setup: &mut Setup, access: &Unaligned) -> Reply {
    let mut told = Reply::refused(0);
    for byte in 0..access.size() {
        let (size, address) = (1, access.address() + byte);
        let command = match access {
            Unaligned::Read { .. } => Command::Read { size, address },
            Unaligned::Write { value, .. } => {
                Command::Write { size, address, value: value.to_le_bytes()[byte as usize].into() }
            }
        };
        let Reply { answer, report } = setup.reply(&command);
        assert_eq!(answer.number, 0);
        told.answer.value |= answer.value << (8 * byte);
        told.answer.server = told.answer.server.max(answer.server);
        told.report.external_read += report.external_read;
        told.report.external_written += report.external_written;
    }
    told
}

/// The same from the highest address down, to see that this would be noticed.
fn downwards(setup: &mut Setup, access: &Unaligned) {
    for byte in (0..access.size()).rev() {
        let (size, address) = (1, access.address() + byte);
        setup.reply(&match access {
            Unaligned::Read { .. } => Command::Read { size, address },
            Unaligned::Write { value, .. } => {
                Command::Write { size, address, value: value.to_le_bytes()[byte as usize].into() }
            }
        });
    }
}

#[derive(Default, Debug)]
struct Met {
    accepted: [u32; 2],
    servers: [u32; 5],
    numbers: [u32; 7],
    bound: [u32; 2],
    direction: u32,
    frozen: u32,
    l2_lines: u32,
}

/// Random accesses from any record in every mode: each is its single-byte accesses, neither
/// count exceeds 256, and the record stays well formed.
#[test]
fn an_access_is_its_single_byte_accesses() {
    let mut rng = Rng::new(666);
    let mut met = Met::default();
    for turn in 0..400 {
        let mode = LEGAL_MODES[turn % LEGAL_MODES.len()];
        let l = l_for(&mut rng, mode);
        let e = if turn % 2 == 0 { crowded_e(mode) } else { rng.pick(&[128, 8_192, 65_536]) };
        let mut setup = Setup::random(&mut rng, l, e);
        setup.redraw_record_in_mode(&mut rng, mode);
        let mut lines = crowded(&mut rng, mode, l, e);
        if turn % 4 > 1 {
            lines = hot_for(&mut rng, &setup.record);
        }
        for _ in 0..60 {
            let write = rng.chance(1, 2);
            let access = unaligned_access(&mut rng, &lines, write);
            let before = setup.clone();
            let told = setup.unaligned(&access);
            let number = told.answer.number;
            met.numbers[usize::from(number)] += 1;
            if number != 0 {
                assert_eq!(told, Reply::refused(number));
                assert!(setup == before, "{access:x?}");
                continue;
            }
            let mut single = before.clone();
            assert_eq!(told, by_bytes(&mut single, &access), "{access:x?}");
            assert!(setup == single, "{access:x?}");
            assert_eq!(broken_clauses(&setup.record), [], "{access:x?}");
            let Report { l1d_left, l2_left, external_read, external_written } = told.report;
            assert_eq!((l1d_left, l2_left), (Left::None, Left::None));
            assert!(external_read <= 256 && external_written <= 256, "{access:x?}");
            met.accepted[usize::from(access.is_write())] += 1;
            met.servers[usize::from(told.answer.server)] += 1;
            met.frozen += setup.record.frozen;
            let last = access.address() + access.size() - 1;
            let two = L2::line_address(access.address()) != L2::line_address(last);
            met.l2_lines += u32::from(two && mode != 0);
            if (external_read, external_written) == (256, 256) {
                met.bound[usize::from(access.is_write())] += 1;
            }
            let mut other = before;
            downwards(&mut other, &access);
            met.direction += u32::from(other.record != setup.record);
        }
    }
    assert!(met.accepted.iter().all(|&count| count > 5_000), "{met:?}");
    assert!(met.servers[1..].iter().all(|&count| count > 500), "{met:?}");
    assert!([3, 5, 6].iter().all(|&number| met.numbers[number] > 50), "{met:?}");
    assert_eq!(met.numbers[4], 0);
    assert!(met.bound.iter().all(|&count| count > 10), "{met:?}");
    assert!(met.direction > 10 && met.frozen > 1_000 && met.l2_lines > 1_000, "{met:?}");
}

/// One access in six that is drawn is non-aligned, and most of them are accepted.
#[test]
fn one_access_in_six_is_drawn() {
    let mut rng = Rng::new(61);
    let setup = cached(1);
    let lines = hot_for(&mut rng, &setup.record);
    let (mut plain, mut unaligned, mut across) = (0, 0, 0);
    for _ in 0..30_000 {
        match single(&mut rng, &lines, &Mix::ALL) {
            Single::Command(Command::Read { .. } | Command::Write { .. }) => plain += 1,
            Single::Command(_) | Single::Transfer(_) | Single::Frame(_) | Single::Program(_) => {}
            Single::Unaligned(access) => {
                unaligned += 1;
                across += u32::from(access.address() % 64 > 64 - access.size().min(8));
            }
        }
    }
    let six = plain + unaligned;
    assert!(unaligned * 7 > six && unaligned * 5 < six, "{plain} {unaligned}");
    assert!(across * 5 > unaligned * 2, "{across} of {unaligned}");
}

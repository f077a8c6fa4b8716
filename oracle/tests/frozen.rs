//! "Freezing L1D" (02, U11): each sentence on small examples.

use oracle::gen::{Setup, LEGAL_MODES};
use oracle::writer::command_bytes;
use oracle::{Answer, Command, Line};

const A: u32 = 0x8000_0000;

/// Every mode is legal with this L; mode 7 leaves no SRAM of it.
const L: u32 = 262_144;

/// External memory in which each byte differs from its neighbours.
fn cached(mode: u32) -> Setup {
    let ext = (0..6 * 65_536u32).map(|place| (place * 7 + place / 256) as u8).collect();
    let mut setup = Setup::fresh_over(L, ext);
    setup.mar(128, 1);
    assert_eq!(setup.mode(mode).number, 0);
    setup
}

fn answer(server: u8, value: u64) -> Answer {
    Answer { number: 0, server, value }
}

fn line(address: u32, dirty: bool) -> Option<Line> {
    Some(Line { valid: true, dirty, address })
}

/// What external memory holds at first.
fn byte(address: u32) -> u64 {
    let place = address - A;
    u64::from((place * 7 + place / 256) as u8)
}

fn freeze(setup: &mut Setup) {
    assert_eq!(setup.freeze(1), answer(0, 0));
    assert_eq!(setup.record.frozen, 1);
}

/// "Frozen, hits are served as before but change no order"
#[test]
fn a_read_hit_changes_no_order() {
    for mode in LEGAL_MODES {
        let mut setup = cached(mode);
        setup.read(1, A);
        setup.read(1, A + 8_192);
        assert_eq!(setup.record.l1d[0].order, [1, 0]);
        freeze(&mut setup);
        let before = setup.clone();
        for size in [1, 2, 4, 8] {
            let value = (0..size).rev().fold(0, |value, k| value << 8 | byte(A + 8 + k));
            assert_eq!(setup.read(size, A + 8), answer(1, value));
        }
        assert_eq!(setup.read(1, A + 8_192), answer(1, byte(A + 8_192)));
        assert!(setup == before);
        // Thawed, the same read uses the way.
        setup.freeze(0);
        assert_eq!(setup.read(1, A), answer(1, byte(A)));
        assert_eq!(setup.record.l1d[0].order, [0, 1]);
    }
}

/// A write hit still makes its line dirty, and changes no order.
#[test]
fn a_write_hit_makes_its_line_dirty() {
    for (mode, place) in [(0, A), (1, A), (7, A), (0, 0), (1, 0)] {
        let mut setup = cached(mode);
        setup.read(1, place);
        setup.read(1, place + 8_192);
        freeze(&mut setup);
        let before = setup.clone();
        assert_eq!(setup.write(2, place + 4, 0x1234), answer(1, 0));
        assert_eq!(setup.l1d_line(place), line(place, true));
        assert_eq!(setup.record.l1d[0].order, [1, 0]);
        // Nothing but that line has changed: neither memory behind L1D.
        assert!(setup.l2 == before.l2 && setup.ext == before.ext);
        let mut other = setup.record.clone();
        other.l1d[0].lines[0].dirty = false;
        assert_eq!(other.dirty_l1d, 1);
        other.dirty_l1d = 0;
        assert!(other == before.record);
        assert_eq!(setup.l1d[4..6], [0x34, 0x12]);
        assert_eq!(setup.read(2, place + 4), answer(1, 0x1234));
        // The mode change sends it home.
        setup.mode(mode);
        let behind = setup.look(place);
        assert_eq!(behind[4..6], [0x34, 0x12]);
    }
}

/// "a read miss takes just its bytes from the home and fills nothing": SRAM.
#[test]
fn a_miss_takes_its_bytes_from_sram() {
    for mode in [0, 1, 2, 3] {
        let mut setup = cached(mode);
        setup.write(8, 0x100, 0x8877_6655_4433_2211);
        freeze(&mut setup);
        let before = setup.clone();
        for _ in 0..2 {
            assert_eq!(setup.read(8, 0x100), answer(2, 0x8877_6655_4433_2211));
            assert_eq!(setup.read(2, 0x102), answer(2, 0x4433));
            assert_eq!(setup.read(1, 0x107), answer(2, 0x88));
        }
        assert!(setup == before);
    }
}

/// From external memory itself in mode 0.
#[test]
fn a_miss_takes_its_bytes_from_external_memory_in_mode_0() {
    let mut setup = cached(0);
    freeze(&mut setup);
    let before = setup.clone();
    for address in [A, A + 63, A + 64, A + 0x1_2345] {
        assert_eq!(setup.read(1, address), answer(4, byte(address)));
        assert_eq!(setup.read(1, address), answer(4, byte(address)));
    }
    assert!(setup == before);
}

/// From an L2 line that is there: server 3, and "L2 isn't frozen": its way is used.
#[test]
fn a_miss_that_hits_l2_uses_its_way() {
    let mut setup = cached(1);
    for turn in 0..4 {
        setup.write(1, A + turn * 8_192, 0x60 + u64::from(turn));
    }
    assert_eq!(setup.record.l2[0].order, [3, 2, 1, 0]);
    freeze(&mut setup);
    let before = setup.clone();
    assert_eq!(setup.read(1, A + 8_192), answer(3, 0x61));
    assert_eq!(setup.record.l2[0].order, [1, 3, 2, 0]);
    // The other half of the same line.
    assert_eq!(setup.read(1, A + 64), answer(3, byte(A + 64)));
    assert_eq!(setup.record.l2[0].order, [0, 1, 3, 2]);
    assert!(setup.record.l1d == before.record.l1d);
    assert!(setup.l1d == before.l1d && setup.l2 == before.l2 && setup.ext == before.ext);
}

/// From an L2 line that is fetched: server 4, then 3, and never 1.
#[test]
fn a_miss_that_misses_l2_fetches_the_line_there() {
    for mode in [1, 2, 3, 7] {
        let mut setup = cached(mode);
        freeze(&mut setup);
        let before = setup.clone();
        assert_eq!(setup.read(1, A + 70), answer(4, byte(A + 70)));
        assert_eq!(setup.l2_line(A), line(A, false));
        assert_eq!(setup.record.l2[0].order, [0, 3, 2, 1]);
        let data = setup.record.sram_size() as usize;
        assert!(setup.l2[data..data + 128] == setup.ext[..128]);
        assert_eq!(setup.read(1, A + 70), answer(3, byte(A + 70)));
        assert_eq!(setup.read(1, A), answer(3, byte(A)));
        assert_eq!(setup.l1d_line(A), None);
        assert!(setup.record.l1d == before.record.l1d);
        assert!(setup.l1d == before.l1d && setup.ext == before.ext);
    }
}

/// A full L1D set stays as it is: no way is chosen, none is emptied, and a dirty
/// line there goes nowhere.
#[test]
fn a_miss_puts_out_no_line_of_l1d() {
    for mode in [0, 1] {
        for place in [A, 0] {
            let mut setup = cached(mode);
            for held in [place, place + 8_192] {
                setup.read(1, held);
                setup.write(1, held + 1, 0x77);
            }
            freeze(&mut setup);
            let before = setup.clone();
            for other in [place + 16_384, place + 24_576, place + 16_384 + 64] {
                assert_ne!(setup.read(1, other).server, 1);
            }
            assert!(setup.record.l1d == before.record.l1d);
            assert!(setup.l1d == before.l1d && setup.ext == before.ext);
            assert_eq!(setup.read(1, place + 1), answer(1, 0x77));
            // Thawed, the way that was used longest ago is put out, as ever.
            setup.freeze(0);
            setup.read(1, place + 16_384);
            assert_eq!(setup.l1d_line(place), None);
            assert_eq!(setup.l1d_line(place + 16_384), line(place + 16_384, false));
        }
    }
}

/// An L2 line that leaves for a frozen read still takes its halves out of L1D.
#[test]
fn a_line_that_leaves_l2_takes_its_halves() {
    let mut setup = cached(1);
    // Both halves of the first line, one of them dirty; three more lines fill the set.
    setup.read(1, A);
    setup.read(1, A + 64);
    setup.write(1, A + 65, 0x99);
    for turn in 1..4 {
        setup.write(1, A + turn * 8_192, 1);
    }
    assert_eq!(setup.record.l2[0].order, [3, 2, 1, 0]);
    freeze(&mut setup);
    let orders = setup.record.l1d.map(|set| set.order);
    let address = A + 4 * 8_192;
    assert_eq!(setup.read(1, address), answer(4, byte(address)));
    assert_eq!((setup.l1d_line(A), setup.l1d_line(A + 64)), (None, None));
    assert_eq!(setup.l2_line(A), None);
    assert_eq!(setup.ext[65], 0x99);
    assert_eq!(setup.l2_line(address), line(address, false));
    assert_eq!(setup.record.l2[0].order, [0, 3, 2, 1]);
    assert_eq!(setup.l1d_line(address), None);
    assert!(setup.record.l1d.map(|set| set.order) == orders);
    // The bytes come back, from L2 alone.
    assert_eq!(setup.read(1, A + 65), answer(4, 0x99));
    assert_eq!(setup.read(1, A + 65), answer(3, 0x99));
}

/// "Write misses ... are as they were"
#[test]
fn write_misses_are_as_they_were() {
    for mode in LEGAL_MODES {
        for place in if mode == 7 { vec![A] } else { vec![A, 0] } {
            let mut frozen = cached(mode);
            let mut thawed = frozen.clone();
            freeze(&mut frozen);
            for turn in 0..6 {
                let address = place + turn * 8_192;
                assert_eq!(frozen.write(4, address, 5), thawed.write(4, address, 5));
            }
            thawed.record.frozen = 1;
            assert!(frozen == thawed);
        }
    }
}

/// "commands and mode changes are as they were, and a mode change keeps the freeze."
#[test]
fn commands_and_mode_changes_are_as_they_were() {
    let (base, count) = (A, 16);
    for mode in LEGAL_MODES {
        for command in [
            Command::L2WritebackAll,
            Command::L2WritebackInvalidateAll,
            Command::L2BlockWriteback { base, count },
            Command::L2BlockWritebackInvalidate { base, count },
            Command::L2BlockInvalidate { base, count },
            Command::L1dBlockWritebackInvalidate { base, count },
            Command::L1dBlockInvalidate { base, count },
            Command::L1dInvalidateAll,
            Command::Mode { mode: 0 },
            Command::Mode { mode: 7 },
            Command::Mode { mode },
            Command::Mode { mode: 5 },
            Command::Mar { number: 129, bit: 1 },
            Command::Mar { number: 128, bit: 0 },
        ] {
            let mut thawed = cached(mode);
            for address in [A, A + 64, A + 8_192] {
                thawed.read(1, address);
                thawed.write(1, address, 0x44);
            }
            let mut frozen = thawed.clone();
            freeze(&mut frozen);
            assert_eq!(frozen.call(&command), thawed.call(&command));
            assert_eq!((frozen.record.frozen, thawed.record.frozen), (1, 0), "{command:?}");
            thawed.record.frozen = 1;
            assert!(frozen == thawed, "{command:?}");
        }
    }
}

/// External memory with MAR bit 0 is reached past the caches, frozen or not.
#[test]
fn accesses_past_the_caches_are_as_they_were() {
    let mut setup = cached(1);
    setup.mar(128, 0);
    freeze(&mut setup);
    let record = setup.record.clone();
    assert_eq!(setup.write(2, A + 2, 0xABCD), answer(4, 0));
    assert_eq!(setup.read(2, A + 2), answer(4, 0xABCD));
    assert!(setup.record == record);
    assert_eq!(setup.ext[2..4], [0xCD, 0xAB]);
}

/// "A fresh start is thawed."
#[test]
fn a_fresh_start_is_thawed() {
    let mut setup = Setup::fresh(65_536, 65_536);
    assert_eq!(setup.record.frozen, 0);
    freeze(&mut setup);
    let Setup { l1d, l2, ext, l1p, .. } = &mut setup;
    let (record, number) = oracle::calls::fresh_start(l1d, l2, ext, l1p);
    assert_eq!((record.frozen, number), (0, 0));
    let (record, number) = oracle::calls::fresh_start(l1d, l2, &mut [], l1p);
    assert_eq!((record.frozen, number), (0, 1));
}

/// "1 freezes, 0 thaws; the record keeps it": nothing else changes, and the same
/// again changes nothing.
#[test]
fn the_record_keeps_it() {
    let mut setup = cached(1);
    setup.read(1, A);
    setup.write(1, A, 1);
    let thawed = setup.clone();
    for (number, frozen) in [(0, 0), (1, 1), (1, 1), (0, 0), (0, 0)] {
        assert_eq!(setup.freeze(number), answer(0, 0));
        assert_eq!(setup.record.frozen, frozen);
        let mut other = setup.clone();
        other.record.frozen = 0;
        assert!(other == thawed);
    }
    freeze(&mut setup);
    for number in [2, 17, 256, u32::MAX] {
        assert_eq!(setup.freeze(number), Answer::refused(17));
        assert_eq!(setup.record.frozen, 1);
    }
}

/// "in the trace code 12, takes one number": a run reads it, U7's writer writes it,
/// and 17 is answered.
#[test]
fn code_12_of_a_trace() {
    let mut trace = Vec::new();
    for (code, numbers) in
        [(12, [1, 0, 0]), (0, [1, 0, 0]), (12, [2, 9, 9]), (12, [0, 7, 7]), (0, [1, 0, 0])]
    {
        trace.extend(command_bytes(code, numbers).expect("codes of a trace"));
    }
    assert_eq!(trace, [12, 1, 0, 1, 0, 12, 2, 12, 0, 0, 1, 0]);
    let mut setup = cached(0);
    let mut answers = [0xEE; 52];
    let run = setup.run(&trace, &mut answers);
    assert_eq!((run.consumed, run.answers, run.stop), (12, 5, 0));
    let numbers: Vec<(u8, u8)> = answers.chunks(10).take(5).map(|a| (a[0], a[1])).collect();
    assert_eq!(numbers, [(0, 0), (0, 2), (17, 0), (0, 0), (0, 2)]);
    assert_eq!(answers[50..], [0xEE; 2]);
    assert_eq!(setup.record.frozen, 0);
    assert_eq!(setup.l1d_line(0), line(0, false));
}

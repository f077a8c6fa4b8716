//! Each refusal number at its edge, and which one wins where several are due.

use oracle::calls::fresh_start;
use oracle::gen::{encode, Setup};
use oracle::{Answer, Command, Record};

const A: u32 = 0x8000_0000;

/// One command of each kind, all of which pass the checks on a fresh record.
fn passing() -> [Command; 13] {
    let (base, count) = (A, 1);
    [
        Command::Read { size: 1, address: 0 },
        Command::Write { size: 1, address: 0, value: 0 },
        Command::L2WritebackAll,
        Command::L2WritebackInvalidateAll,
        Command::L2BlockWriteback { base, count },
        Command::L2BlockWritebackInvalidate { base, count },
        Command::L2BlockInvalidate { base, count },
        Command::L1dBlockWritebackInvalidate { base, count },
        Command::L1dBlockInvalidate { base, count },
        Command::L1dInvalidateAll,
        Command::Mode { mode: 0 },
        Command::Mar { number: 128, bit: 0 },
        Command::Freeze { frozen: 1 },
    ]
}

fn block_commands(base: u32, count: u32) -> [Command; 5] {
    [
        Command::L2BlockWriteback { base, count },
        Command::L2BlockWritebackInvalidate { base, count },
        Command::L2BlockInvalidate { base, count },
        Command::L1dBlockWritebackInvalidate { base, count },
        Command::L1dBlockInvalidate { base, count },
    ]
}

/// The command gets the number, directly and in a trace; refused, it changes
/// nothing.
fn gets(setup: &Setup, command: Command, number: u8) {
    let mut direct = setup.clone();
    let answer = direct.call(&command);
    assert_eq!(answer.number, number, "{command:?}");
    if number != 0 {
        assert_eq!(answer, Answer::refused(number), "{command:?}");
        assert!(direct == *setup, "{command:?}");
    }
    let mut traced = setup.clone();
    let mut trace = Vec::new();
    encode(&command, &mut trace);
    let mut answers = [0xEE; 12];
    let result = traced.run(&trace, &mut answers);
    if number == 1 || number == 2 {
        assert_eq!((result.consumed, result.answers, result.stop), (0, 0, number));
        assert_eq!(answers, [0xEE; 12]);
    } else {
        assert_eq!((result.consumed, result.answers, result.stop), (trace.len(), 1, 0));
        assert_eq!(answers[..2], [answer.number, answer.server]);
        assert_eq!(answers[2..10], answer.value.to_le_bytes());
        assert_eq!(answers[10..], [0xEE; 2]);
    }
    assert!(traced == direct, "{command:?}");
}

#[test]
fn every_kind_passes_when_fresh() {
    let setup = Setup::fresh(65_536, 65_536);
    for command in passing() {
        gets(&setup, command, 0);
    }
}

#[test]
fn number_1_lengths() {
    let good = Setup::fresh(65_536, 65_536);
    let mut bad = Vec::new();
    for length in [0, 1, 16_383, 16_385, 32_768] {
        let mut setup = good.clone();
        setup.l1d.resize(length, 0);
        bad.push(setup);
        let mut setup = good.clone();
        setup.l1p.resize(length, 0);
        bad.push(setup);
    }
    for length in [0, 1, 32_768, 65_535, 65_537, 98_304, 294_912] {
        let mut setup = good.clone();
        setup.l2.resize(length, 0);
        bad.push(setup.clone());
        if length % 32_768 != 0 || length == 0 || length > 262_144 {
            setup.record.l = length as u32;
            bad.push(setup);
        }
    }
    for length in [0, 64, 127, 128, 65_408, 65_535, 65_664, 33_554_432 + 128] {
        let mut setup = good.clone();
        setup.ext.resize(length, 0);
        bad.push(setup.clone());
        if length % 128 != 0 || length == 0 || length > 33_554_432 {
            setup.record.e = length as u32;
            bad.push(setup);
        }
    }
    for setup in bad {
        for command in passing() {
            let mut tried = setup.clone();
            assert_eq!(tried.call(&command), Answer::refused(1));
            assert!(tried == setup);
        }
        gets(&setup, Command::L2WritebackAll, 1);
    }
}

#[test]
fn number_1_legal_ends() {
    for (l, e) in [(32_768, 128), (262_144, 33_554_432)] {
        let mut setup = Setup::fresh(l, e);
        assert_eq!(setup.read(1, 0).number, 0);
        assert_eq!(setup.look_number(0), 0);
    }
}

#[test]
fn number_1_fresh_start() {
    for (l1d, l2, ext, l1p) in [
        (16_383, 65_536, 65_536, 16_384),
        (16_384, 65_536, 65_536, 16_383),
        (16_384, 65_536, 65_536, 16_385),
        (16_384, 65_536, 65_536, 0),
        (0, 65_536, 65_536, 16_384),
        (16_384, 0, 65_536, 16_384),
        (16_384, 65_537, 65_536, 16_384),
        (16_384, 294_912, 65_536, 16_384),
        (16_384, 65_536, 0, 16_384),
        (16_384, 65_536, 64, 16_384),
        (16_384, 65_536, 33_554_432 + 128, 16_384),
    ] {
        let (mut l1d, mut l2) = (vec![1; l1d], vec![2; l2]);
        let (mut ext, mut l1p) = (vec![3; ext], vec![4; l1p]);
        let (record, number) = fresh_start(&mut l1d, &mut l2, &mut ext, &mut l1p);
        assert_eq!(number, 1);
        assert!(record == Record::fresh(32_768, 128));
        assert!(l1d.iter().all(|&byte| byte == 1));
        assert!(l2.iter().all(|&byte| byte == 2));
        assert!(ext.iter().all(|&byte| byte == 3));
        assert!(l1p.iter().all(|&byte| byte == 4));
    }
    let (mut l1d, mut l2, mut ext) = (vec![1; 16_384], vec![2; 98_304], vec![3; 256]);
    let mut l1p = vec![4; 16_384];
    let (record, number) = fresh_start(&mut l1d, &mut l2, &mut ext, &mut l1p);
    assert_eq!(number, 0);
    assert!(record == Record::fresh(98_304, 256));
    assert!(l1d.iter().chain(l2.iter()).chain(l1p.iter()).all(|&byte| byte == 0));
    assert!(ext.iter().all(|&byte| byte == 3));
}

#[test]
fn number_2_record() {
    let mut setup = Setup::fresh(65_536, 65_536);
    setup.record.l2[511].order = [0, 1, 2, 3];
    for command in passing() {
        gets(&setup, command, 2);
    }
    let mut setup = Setup::fresh(65_536, 65_536);
    setup.record.l1d[0].order = [200, 200];
    for command in passing() {
        gets(&setup, command, 2);
    }
    let mut setup = Setup::fresh(65_536, 65_536);
    for mode in [3, 4, 7, 255, u32::MAX] {
        setup.record.mode = mode;
        gets(&setup, Command::L2WritebackAll, 2);
    }
}

#[test]
fn number_1_before_2_before_the_others() {
    let bad = Command::Write { size: 3, address: 1, value: u64::MAX };
    let mut setup = Setup::fresh(65_536, 65_536);
    gets(&setup, bad, 3);
    setup.record.mar129 = 2;
    gets(&setup, bad, 2);
    setup.ext.push(0);
    gets(&setup, bad, 1);
}

#[test]
fn number_3_size() {
    let setup = Setup::fresh(65_536, 65_536);
    for size in 0..=20 {
        let number = if [1, 2, 4, 8].contains(&size) { 0 } else { 3 };
        gets(&setup, Command::Read { size, address: 0 }, number);
        gets(&setup, Command::Write { size, address: 0, value: 0 }, number);
    }
    gets(&setup, Command::Read { size: u32::MAX, address: 0 }, 3);
    // 3 before 4, 5 and 6.
    gets(&setup, Command::Write { size: 3, address: 0x7FFF_FFFF, value: u64::MAX }, 3);
    gets(&setup, Command::Read { size: 0, address: u32::MAX }, 3);
}

#[test]
fn number_4_alignment() {
    let setup = Setup::fresh(65_536, 65_536);
    for size in [1, 2, 4, 8] {
        for address in 0..16 {
            let number = if address % size == 0 { 0 } else { 4 };
            gets(&setup, Command::Read { size, address }, number);
            gets(&setup, Command::Write { size, address: A + address, value: 0 }, number);
        }
    }
    // 4 before 5 and 6.
    gets(&setup, Command::Write { size: 2, address: 0x7FFF_FFFF, value: u64::MAX }, 4);
    for base in 0..8 {
        for command in block_commands(base, 1) {
            gets(&setup, command, if base % 4 == 0 { 0 } else { 4 });
        }
        // 4 before 7.
        for command in block_commands(base, 65_536) {
            gets(&setup, command, if base % 4 == 0 { 7 } else { 4 });
        }
    }
}

#[test]
fn number_5_place() {
    let mut setup = Setup::fresh(65_536, 65_536);
    for (mode, s) in [(0, 65_536), (1, 32_768), (2, 0)] {
        setup.mode(mode);
        for size in [1, 2, 4, 8] {
            let command = |address| Command::Read { size, address };
            if s > 0 {
                gets(&setup, command(0), 0);
                gets(&setup, command(s - size), 0);
            } else {
                gets(&setup, command(0), 5);
            }
            gets(&setup, command(s), 5);
            gets(&setup, command(A - size), 5);
            gets(&setup, command(A), 0);
            gets(&setup, command(A + 65_536 - size), 0);
            gets(&setup, command(A + 65_536), 5);
            gets(&setup, command(0u32.wrapping_sub(size)), 5);
        }
    }
    // 5 before 6.
    gets(&setup, Command::Write { size: 1, address: A + 65_536, value: 256 }, 5);
    // Blocks may lie anywhere.
    for base in [0x7000_0000, A - 4, A + 65_536, 0xFFFF_FFFC] {
        for command in block_commands(base, 65_535) {
            gets(&setup, command, 0);
        }
    }
}

#[test]
fn number_6_value() {
    let setup = Setup::fresh(65_536, 65_536);
    for (size, largest) in [(1, 0xFF), (2, 0xFFFF), (4, 0xFFFF_FFFF), (8, u64::MAX)] {
        gets(&setup, Command::Write { size, address: 8, value: largest }, 0);
        if size < 8 {
            gets(&setup, Command::Write { size, address: 8, value: largest + 1 }, 6);
            gets(&setup, Command::Write { size, address: 8, value: u64::MAX }, 6);
            gets(&setup, Command::Write { size, address: 8, value: 1 << 63 }, 6);
        }
    }
}

#[test]
fn number_7_count() {
    let setup = Setup::fresh(65_536, 65_536);
    for (count, number) in [(0, 0), (65_535, 0), (65_536, 7), (1 << 30, 7), (u32::MAX, 7)] {
        for command in block_commands(A, count) {
            gets(&setup, command, number);
        }
    }
}

#[test]
fn number_8_mode() {
    for l in oracle::gen::LEGAL_L {
        let setup = Setup::fresh(l, 128);
        for (mode, c) in [(0, 0), (1, 32_768), (2, 65_536), (3, 131_072), (7, 262_144)] {
            gets(&setup, Command::Mode { mode }, if c <= l { 0 } else { 8 });
        }
        for mode in [4, 5, 6, 8, 9, 255, 256, 257, u32::MAX] {
            gets(&setup, Command::Mode { mode }, 8);
        }
    }
}

#[test]
fn number_9_mar() {
    let setup = Setup::fresh(65_536, 65_536);
    for number in [0, 127, 130, 384, u32::MAX] {
        for bit in [0, 1, 2] {
            gets(&setup, Command::Mar { number, bit }, 9);
        }
    }
    for number in [128, 129] {
        gets(&setup, Command::Mar { number, bit: 0 }, 0);
        gets(&setup, Command::Mar { number, bit: 1 }, 0);
        gets(&setup, Command::Mar { number, bit: 2 }, 9);
        gets(&setup, Command::Mar { number, bit: u32::MAX }, 9);
    }
}

#[test]
fn number_10_held_lines() {
    for mode in [0, 1] {
        for (number, other, address) in [(128, 129, A), (129, 128, A + 0x0100_0000)] {
            let mut setup = Setup::fresh(65_536, 16_777_216 + 128);
            setup.mode(mode);
            setup.mar(128, 1);
            setup.mar(129, 1);
            setup.read(1, 0);
            gets(&setup, Command::Mar { number, bit: 0 }, 0);
            setup.read(1, address);
            gets(&setup, Command::Mar { number, bit: 0 }, 10);
            gets(&setup, Command::Mar { number, bit: 1 }, 0);
            gets(&setup, Command::Mar { number, bit: 2 }, 9);
            gets(&setup, Command::Mar { number: other, bit: 0 }, 0);
            setup.call(&Command::L1dInvalidateAll);
            // In mode 1 the L2 cache holds the line still.
            gets(&setup, Command::Mar { number, bit: 0 }, if mode == 0 { 0 } else { 10 });
            setup.call(&Command::L2WritebackInvalidateAll);
            gets(&setup, Command::Mar { number, bit: 0 }, 0);
        }
    }
}

/// "17 for a number above 1, checked after 10" (02, U11).
#[test]
fn number_17_freeze() {
    for mode in [0, 1] {
        for frozen in [0, 1] {
            let mut setup = Setup::fresh(65_536, 65_536);
            setup.mode(mode);
            setup.freeze(frozen);
            gets(&setup, Command::Freeze { frozen: 0 }, 0);
            gets(&setup, Command::Freeze { frozen: 1 }, 0);
            for number in [2, 3, 12, 17, 255, 256, 257, 1 << 16, 1 << 31, u32::MAX] {
                gets(&setup, Command::Freeze { frozen: number }, 17);
            }
        }
    }
    // 1, then 2, come before it.
    let mut setup = Setup::fresh(65_536, 65_536);
    setup.record.frozen = 2;
    gets(&setup, Command::Freeze { frozen: 2 }, 2);
    gets(&setup, Command::Freeze { frozen: 0 }, 2);
    setup.l1d.pop();
    gets(&setup, Command::Freeze { frozen: 2 }, 1);
}

/// A record keeps 0 or 1; with another number each call gets 2.
#[test]
fn number_2_frozen() {
    let mut setup = Setup::fresh(65_536, 65_536);
    for frozen in [2, 3, 128, 254, 255, 256, u32::MAX] {
        setup.record.frozen = frozen;
        for command in passing() {
            gets(&setup, command, 2);
        }
        assert_eq!((setup.look_number(0), setup.look(0).len()), (2, 0));
    }
    setup.record.frozen = 1;
    for command in passing() {
        gets(&setup, command, 0);
    }
    assert_eq!(setup.look_number(0), 0);
}

#[test]
fn number_11_damage() {
    let stops = |trace: &[u8], consumed: usize, answers: usize, stop: u8| {
        let mut setup = Setup::fresh(65_536, 65_536);
        let result = setup.run(trace, &mut [0; 40]);
        assert_eq!(
            (result.consumed, result.answers, result.stop),
            (consumed, answers, stop),
            "{trace:02X?}"
        );
    };
    stops(&[], 0, 0, 0);
    for code in 13..=255 {
        stops(&[9, code, 9], 1, 1, 11);
    }
    // An end inside a command.
    let command = [1, 8, 0x80, 0x80, 0x80, 0x80, 0x08, 0x80, 0x01];
    stops(&command, 9, 1, 0);
    for end in 1..command.len() {
        stops(&command[..end], 0, 0, 11);
    }
    // Overlong numbers.
    stops(&[10, 0x80, 0x00], 0, 0, 11);
    stops(&[10, 0x81, 0x00], 0, 0, 11);
    stops(&[10, 0x80, 0x80, 0x00], 0, 0, 11);
    stops(&[10, 0x80, 0x80, 0x80, 0x80, 0x80, 0x00], 0, 0, 11);
    stops(&[10, 0x00], 2, 1, 0);
    // Code 12 has one number.
    stops(&[12], 0, 0, 11);
    stops(&[12, 0x80], 0, 0, 11);
    stops(&[12, 0x81, 0x00], 0, 0, 11);
    stops(&[12, 0x80, 0x80, 0x80, 0x80, 0x10], 0, 0, 11);
    stops(&[12, 0xFF, 0xFF, 0xFF, 0xFF, 0x0F], 6, 1, 0);
    stops(&[12, 1, 12, 0, 9], 5, 3, 0);
    // Too wide numbers: 2^32 − 1 passes, 2^32 does not.
    stops(&[10, 0xFF, 0xFF, 0xFF, 0xFF, 0x0F], 6, 1, 0);
    stops(&[10, 0x80, 0x80, 0x80, 0x80, 0x10], 0, 0, 11);
    stops(&[10, 0xFF, 0xFF, 0xFF, 0xFF, 0x7F], 0, 0, 11);
    stops(&[10, 0x80, 0x80, 0x80, 0x80, 0x80, 0x01], 0, 0, 11);
    // 2^64 − 1 passes as a value, 2^64 does not.
    let mut write = vec![1, 8, 0];
    write.extend([0xFF; 9]);
    write.push(0x01);
    stops(&write, 13, 1, 0);
    *write.last_mut().unwrap() = 0x02;
    stops(&write, 0, 0, 11);
    *write.last_mut().unwrap() = 0x81;
    write.push(0x00);
    stops(&write, 0, 0, 11);
    let mut endless = vec![1, 8, 0];
    endless.extend([0x80; 300]);
    stops(&endless, 0, 0, 11);
}

#[test]
fn number_12_answer_bytes() {
    let trace = [2, 3, 9];
    for room in 0..40 {
        let mut setup = Setup::fresh(65_536, 65_536);
        let mut answers = vec![0xEE; room];
        let result = setup.run(&trace, &mut answers);
        let carried_out = (room / 10).min(3);
        let stop = if carried_out == 3 { 0 } else { 12 };
        assert_eq!(
            (result.consumed, result.answers, result.stop),
            (carried_out, carried_out, stop)
        );
        assert!(answers[carried_out * 10..].iter().all(|&byte| byte == 0xEE));
    }
    // The end of the trace needs no answer bytes.
    let result = Setup::fresh(65_536, 65_536).run(&[], &mut []);
    assert_eq!(result.stop, 0);
}

#[test]
fn in_a_trace_11_before_12_before_the_others() {
    let mut setup = Setup::fresh(65_536, 65_536);
    for (trace, stop) in [
        (&[0, 3, 0x80][..], 11), // cut off, and size 3
        (&[13][..], 11),
        (&[12][..], 11),      // cut off
        (&[12, 2][..], 12),   // 17
        (&[0, 3, 0][..], 12), // size 3
        (&[10, 4][..], 12),   // mode 4
        (&[11, 1, 2][..], 12),
    ] {
        for room in 0..10 {
            let before = setup.clone();
            let result = setup.run(trace, &mut vec![0; room]);
            assert_eq!((result.consumed, result.answers, result.stop), (0, 0, stop));
            assert!(setup == before);
        }
    }
    // 1 and 2 come before both.
    setup.record.mar128 = 7;
    assert_eq!(setup.run(&[13], &mut []).stop, 2);
    setup.l1d.pop();
    assert_eq!(setup.run(&[13], &mut []).stop, 1);
}

#[test]
fn other_refusals_are_answered_and_the_run_goes_on() {
    let mut setup = Setup::fresh(65_536, 65_536);
    let mut trace = Vec::new();
    let commands = [
        (Command::Read { size: 3, address: 0 }, 3),
        (Command::Read { size: 2, address: 1 }, 4),
        (Command::Read { size: 1, address: 65_536 }, 5),
        (Command::Write { size: 1, address: 0, value: 256 }, 6),
        (Command::L2BlockWriteback { base: 0, count: 65_536 }, 7),
        (Command::Mode { mode: 3 }, 8),
        (Command::Mar { number: 130, bit: 0 }, 9),
        (Command::Mar { number: 128, bit: 1 }, 0),
        (Command::Read { size: 1, address: A }, 0),
        (Command::Mar { number: 128, bit: 0 }, 10),
        (Command::Freeze { frozen: 2 }, 17),
        (Command::Write { size: 1, address: 5, value: 6 }, 0),
    ];
    for (command, _) in &commands {
        encode(command, &mut trace);
    }
    let mut answers = vec![0; 10 * commands.len()];
    let result = setup.run(&trace, &mut answers);
    assert_eq!((result.consumed, result.answers, result.stop), (trace.len(), commands.len(), 0));
    for (answer, (_, number)) in answers.chunks(10).zip(&commands) {
        assert_eq!(answer[0], *number);
    }
    assert_eq!(setup.l2[5], 6);
}

#[test]
fn technicians_call() {
    let mut setup = Setup::fresh(65_536, 65_536);
    setup.mode(1);
    for (address, number) in [
        (0, 0),
        (32_768 - 64, 0),
        (32_768, 5),
        (65_536, 5),
        (A - 64, 5),
        (A, 0),
        (A + 65_536 - 64, 0),
        (A + 65_536, 5),
        (0xFFFF_FFC0, 5),
        (32, 4),
        (A + 63, 4),
        (u32::MAX, 4),
    ] {
        assert_eq!(setup.look_number(address), number, "{address:X}");
        assert_eq!(setup.look(address).len(), if number == 0 { 64 } else { 0 });
    }
    // It is lent no L1D, so the length of that does not matter; 1 before 2
    // before 4.
    setup.l1d.clear();
    assert_eq!(setup.look_number(0), 0);
    setup.record.mode = 4;
    assert_eq!((setup.look_number(1), setup.look(1).len()), (2, 0));
    setup.l2.pop();
    assert_eq!((setup.look_number(1), setup.look(1).len()), (1, 0));
    setup.l2.push(0);
    setup.ext.clear();
    assert_eq!((setup.look_number(1), setup.look(1).len()), (1, 0));
}

//! The generators make what they say, and no content makes a call panic.

use std::collections::BTreeSet;

use oracle::calls::fresh_start;
use oracle::gen::{
    any_ill_formed_record, call, command, encode, hot, hot_for, ill_formed_record, l_for,
    look_address, make_length_wrong, senseless_record, single, sizes, trace, Call, Fault, Mix, Rng,
    Setup, TraceKind, E_BOTH_RANGES, FAULTS, LEGAL_MODES, TRACE_KINDS, WRONG_LENGTHS,
};
use oracle::trace::decode;
use oracle::wellformed::{broken_clauses, is_well_formed};
use oracle::{Answer, Record};

/// A small legal E, so that many setups can be made.
fn small_e(rng: &mut Rng) -> u32 {
    loop {
        let (_, e) = sizes(rng);
        if e <= 8 * 65_536 {
            return e;
        }
    }
}

#[test]
fn random_records_are_well_formed_and_calls_keep_them_so() {
    let mut rng = Rng::new(1);
    let mut lines = [0u64; 2];
    for turn in 0..400 {
        let (l, mut e) = sizes(&mut rng);
        if turn % 50 != 0 {
            e = small_e(&mut rng);
        }
        let mut setup = Setup::random(&mut rng, l, e);
        for _ in 0..4 {
            setup.redraw_record(&mut rng);
            assert_eq!(broken_clauses(&setup.record), []);
            lines[0] +=
                setup.record.l1d.iter().flat_map(|set| set.lines).filter(|line| line.valid).count()
                    as u64;
            lines[1] +=
                setup.record.l2.iter().flat_map(|set| set.lines).filter(|line| line.valid).count()
                    as u64;
            let lines = hot_for(&mut rng, &setup.record);
            for _ in 0..40 {
                let call = single(&mut rng, &lines, &Mix::ALL);
                setup.single(&call);
                assert_eq!(broken_clauses(&setup.record), [], "{call:?}");
            }
        }
    }
    assert!(lines.iter().all(|&count| count > 10_000), "{lines:?}");
}

#[test]
fn every_fault_is_made_and_gets_2() {
    let mut rng = Rng::new(2);
    for fault in FAULTS {
        let mut made = 0;
        let mut modes = BTreeSet::new();
        for turn in 0..300 {
            let mode = LEGAL_MODES[turn % LEGAL_MODES.len()];
            let l = l_for(&mut rng, mode);
            let e = if turn % 2 == 0 { E_BOTH_RANGES } else { small_e(&mut rng) };
            let Some(record) = ill_formed_record(&mut rng, l, e, mode, fault) else { continue };
            made += 1;
            assert_eq!(fault == Fault::IllegalMode, !LEGAL_MODES.contains(&record.mode));
            if fault != Fault::IllegalMode {
                assert!(fault.can_stand_in(record.mode));
                modes.insert(record.mode);
            }
            assert!(!is_well_formed(&record));
            assert_eq!(broken_clauses(&record), [fault.clause()]);
            if turn % 8 == 1 {
                let mut setup = Setup::random(&mut rng, l, e);
                setup.record = record;
                refuses_everything(&mut rng, setup, 2);
            }
        }
        assert!(made >= 20, "{fault:?} {made}");
        let possible: BTreeSet<u32> =
            LEGAL_MODES.into_iter().filter(|&mode| fault.can_stand_in(mode)).collect();
        assert_eq!(modes, possible, "{fault:?}");
    }
    for _ in 0..100 {
        let (l, _) = sizes(&mut rng);
        let e = small_e(&mut rng);
        let (record, fault) = any_ill_formed_record(&mut rng, l, e);
        assert_eq!(broken_clauses(&record), [fault.clause()]);
    }
}

/// Direct calls and runs get the number and change nothing.
fn refuses_everything(rng: &mut Rng, mut setup: Setup, number: u8) {
    let before = setup.clone();
    let lines = hot(rng, 65_536, 65_536);
    for _ in 0..10 {
        let call = single(rng, &lines, &Mix::ALL);
        assert_eq!(setup.single(&call).answer, Answer::refused(number));
    }
    let kind = rng.pick(&TRACE_KINDS);
    let made = trace(rng, &lines, &Mix::ALL, 5, kind);
    let mut answers = [0x77; 60];
    let result = setup.run(&made.bytes, &mut answers);
    assert_eq!((result.consumed, result.answers, result.stop), (0, 0, number));
    assert_eq!(answers, [0x77; 60]);
    assert!(setup == before);
}

#[test]
fn every_wrong_length_gets_1() {
    let mut rng = Rng::new(3);
    for wrong in WRONG_LENGTHS {
        for _ in 0..12 {
            let (l, _) = sizes(&mut rng);
            let e = small_e(&mut rng);
            let mut setup = Setup::random(&mut rng, l, e);
            make_length_wrong(&mut rng, &mut setup, wrong);
            if rng.chance(1, 4) {
                setup.record.mode = 99;
            }
            refuses_everything(&mut rng, setup, 1);
        }
    }
}

#[test]
fn nothing_panics_whatever_the_content() {
    let mut rng = Rng::new(4);
    for _ in 0..1_500 {
        let (l, _) = sizes(&mut rng);
        let e = small_e(&mut rng);
        let mut setup = Setup {
            record: senseless_record(&mut rng, l, e),
            l1d: vec![1; if rng.chance(3, 4) { 16_384 } else { rng.below(40_000) as usize }],
            l2: vec![2; if rng.chance(3, 4) { l } else { rng.below(300_000) } as usize],
            ext: vec![3; if rng.chance(3, 4) { e } else { rng.below(300_000) } as usize],
            l1p: vec![5; if rng.chance(3, 4) { 16_384 } else { 16_352 }],
        };
        if rng.chance(1, 8) {
            setup.record.l = rng.next_u32();
        }
        if rng.chance(1, 8) {
            setup.record.e = rng.next_u32();
        }
        let well_formed = is_well_formed(&setup.record);
        let lines = hot(&mut rng, l, e);
        for _ in 0..6 {
            let before = setup.record.clone();
            match call(&mut rng, &lines, &Mix::ALL) {
                Call::FreshStart => {}
                Call::Direct(command) => {
                    let answer = setup.call(&command);
                    assert!(well_formed || answer.number == 1 || answer.number == 2);
                }
                Call::Unaligned(access) => {
                    let answer = setup.unaligned(&access).answer;
                    assert!(well_formed || answer.number == 1 || answer.number == 2);
                }
                Call::Transfer(transfer) => {
                    let (reply, buffer) = setup.transfer(&transfer);
                    let number = reply.answer.number;
                    assert!(well_formed || number == 1 || number == 2);
                    if number != 0 || transfer.is_in() {
                        assert_eq!(buffer, transfer.buffer().unwrap_or_default());
                    }
                }
                Call::Frame(frame) => {
                    let number = setup.frame(&frame).number;
                    assert!(well_formed || number == 1 || number == 2);
                }
                Call::Program(call) => {
                    let fetched = setup.program(&call);
                    let number = fetched.reply.answer.number;
                    assert!(well_formed || number == 1 || number == 2);
                    assert!(number == 0 || fetched.bytes == [0; 32]);
                }
                Call::Run { trace, answer_bytes } => {
                    let result = setup.run(&trace, &mut vec![0; answer_bytes]);
                    assert!(well_formed || result.stop == 1 || result.stop == 2);
                }
                Call::Look { address } => {
                    let number = setup.look_number(address);
                    let part = setup.look(address);
                    assert_eq!(part.len(), if number == 0 { 64 } else { 0 });
                }
            }
            assert!(well_formed || setup.record == before);
        }
        fresh_start(&mut setup.l1d, &mut setup.l2, &mut setup.ext, &mut setup.l1p);
    }
    // Nothing lent at all.
    let (record, number) = fresh_start(&mut [], &mut [], &mut [], &mut []);
    assert_eq!(number, 1);
    assert!(record == Record::fresh(32_768, 128));
    let mut setup = Setup { record, l1d: vec![], l2: vec![], ext: vec![], l1p: vec![0; 16_384] };
    assert_eq!(setup.read(1, 0), Answer::refused(1));
    assert_eq!(setup.look_number(0), 1);
}

#[test]
fn commands_come_back_from_their_bytes() {
    let mut rng = Rng::new(5);
    for _ in 0..20_000 {
        let (l, e) = sizes(&mut rng);
        let lines = hot(&mut rng, l, e);
        let command = command(&mut rng, &lines, &Mix::ALL);
        let mut bytes = Vec::new();
        encode(&command, &mut bytes);
        assert_eq!(decode(&bytes), Some((command, bytes.len())));
        for end in 0..bytes.len() {
            assert_eq!(decode(&bytes[..end]), None);
        }
    }
}

#[test]
fn runs_do_what_the_direct_calls_do() {
    let mut rng = Rng::new(6);
    for turn in 0..2_000 {
        let (l, _) = sizes(&mut rng);
        let e = small_e(&mut rng);
        let mut direct = Setup::random(&mut rng, l, e);
        let mut traced = direct.clone();
        let lines = hot_for(&mut rng, &direct.record);
        let kind = TRACE_KINDS[turn % TRACE_KINDS.len()];
        let count = rng.below(40) as usize;
        let made = trace(&mut rng, &lines, &Mix::ALL, count, kind);
        let room = if rng.chance(1, 3) { rng.below(400) as usize } else { 4_000 };
        let mut answers = vec![0xEE; room];
        let result = traced.run(&made.bytes, &mut answers);

        // The same by direct calls, from the bytes of the trace.
        let mut expected = vec![0xEE; room];
        let (mut consumed, mut answered) = (0, 0);
        let stop = loop {
            if consumed == made.bytes.len() {
                break 0;
            }
            let Some((command, length)) = decode(&made.bytes[consumed..]) else { break 11 };
            if room < 10 * (answered + 1) {
                break 12;
            }
            let answer = direct.call(&command);
            expected[10 * answered] = answer.number;
            expected[10 * answered + 1] = answer.server;
            expected[10 * answered + 2..10 * answered + 10]
                .copy_from_slice(&answer.value.to_le_bytes());
            answered += 1;
            consumed += length;
        };
        assert_eq!((result.consumed, result.answers, result.stop), (consumed, answered, stop));
        assert!(answers == expected);
        assert!(traced == direct);

        // And what the generator knows of the trace.
        if let (Some(stop), true) = (made.stop, room == 4_000) {
            assert_eq!(result.stop, stop, "{kind:?}");
            assert_eq!((result.consumed, result.answers), (made.good_bytes, made.commands.len()));
            assert_eq!(kind == TraceKind::Valid, stop == 0);
        }
    }
}

#[test]
fn looks_show_lent_bytes() {
    let mut rng = Rng::new(7);
    for _ in 0..200 {
        let (l, _) = sizes(&mut rng);
        let e = small_e(&mut rng);
        let setup = Setup::random(&mut rng, l, e);
        let lines = hot_for(&mut rng, &setup.record);
        for _ in 0..20 {
            let address = look_address(&mut rng, &lines);
            if setup.look_number(address) != 0 {
                assert!(setup.look(address).is_empty());
            } else if address < 0x8000_0000 {
                assert!(address + 64 <= setup.record.sram_size());
                assert_eq!(setup.look(address), &setup.l2[address as usize..][..64]);
            } else {
                let offset = (address - 0x8000_0000) as usize;
                assert_eq!(setup.look(address), &setup.ext[offset..][..64]);
            }
        }
    }
}

//! Long lists of calls from fresh agree with the flat memory of the paper, and
//! every accepted call keeps the record well formed.

use oracle::covered::Covered;
use oracle::flat::Flat;
use oracle::gen::{
    frames_in_a_row, hot, shared_place, single, Frame, Mix, Rng, Setup, Single, Transfer,
    E_BOTH_RANGES, LEGAL_L,
};
use oracle::geometry::EXTERNAL_BASE;
use oracle::wellformed::broken_clauses;
use oracle::written::Written;
use oracle::{Command, Direction, Line, Program};

/// What a list met, to see that it was worth running.
#[derive(Default, Debug)]
struct Met {
    servers: [u32; 5],
    numbers: [u32; 18],
    modes: [u32; 8],
    /// Accepted reads while L1D was frozen, by the server.
    frozen_reads: [u32; 5],
    /// Global writebacks, by the mode.
    settled: [u32; 8],
    bypassed_in: [u32; 2],
    /// Non-aligned accesses by the number, and accepted ones of a frozen L1D.
    unaligned: [u32; 7],
    unaligned_frozen: u32,
    transfers: Transfers,
    frames: Frames,
    programs: Programs,
}

/// What calls of L1P a list met: by the number; accepted fetches by the server; bytes that were
/// compared, and those that were not since they had been written, of which other than flat memory's;
/// fetches with bytes of both kinds.
#[derive(Default, Debug)]
struct Programs {
    numbers: [u32; 16],
    servers: [u32; 6],
    compared: u32,
    written: u32,
    older: u32,
    both: u32,
}

/// A fetch or an invalidation of L1P of a list (02, U4): "an accepted fetch gives flat memory's bytes
/// wherever none of its 32 was written". Where lines are dropped no byte is compared: what a dropped
/// line had is lost to the memory that a mode change leaves.
fn run_program(
    setup: &mut Setup,
    flat: &mut Flat,
    covered: &mut Covered,
    written: &Written,
    drops: bool,
    call: &Program,
    met: &mut Programs,
) {
    let fetched = setup.program(call);
    let number = fetched.reply.answer.number;
    met.numbers[usize::from(number)] += 1;
    let Program::Fetch { address } = *call else { return };
    covered.fetch(address, number == 0);
    let (theirs, bytes) = flat.fetch(address);
    assert_eq!(number, theirs, "{call:x?}");
    if number != 0 {
        assert_eq!(fetched.bytes, [0; 32]);
        return;
    }
    met.servers[usize::from(fetched.reply.answer.server)] += 1;
    let mut kinds = [false; 2];
    for (place, (ours, theirs)) in fetched.bytes.iter().zip(bytes).enumerate() {
        let was_written = written.was(address + place as u32);
        kinds[usize::from(was_written)] = true;
        if was_written {
            met.written += 1;
            met.older += u32::from(*ours != theirs);
        } else {
            met.compared += 1;
            assert!(drops || *ours == theirs, "{call:x?} byte {place}");
        }
    }
    met.both += u32::from(kinds == [true; 2]);
}

/// What frames a list met: by the number, and accepted ones by the mode, with MAR bit 0 and of a
/// frozen L1D.
#[derive(Default, Debug)]
struct Frames {
    numbers: [u32; 21],
    modes: [u32; 8],
    past: u32,
    frozen: u32,
}

/// A frame of a list (02, U14): it joins as the calls that it is made of, and its transfer is always
/// covered. Its sums are flat memory's also where lines were dropped.
fn run_frame(
    setup: &mut Setup,
    flat: &mut Flat,
    covered: &mut Covered,
    frame: &Frame,
    met: &mut Frames,
) {
    let framed = setup.frame(frame);
    let (number, turn, sums) = match frame.pixels() {
        Some(pixels) => flat.frame(frame.turn, &pixels),
        None => (flat.frame_number(frame.length), frame.turn & 1, [0; 64]),
    };
    assert_eq!((framed.number, framed.turn, framed.sums), (number, turn, sums), "{frame:?}");
    covered.frame(frame.turn, number == 0);
    met.numbers[usize::from(number)] += 1;
    if number == 0 {
        met.modes[setup.record.mode as usize] += 1;
        met.past += 1 - setup.record.mar128;
        met.frozen += setup.record.frozen;
    }
}

/// What transfers a list met, out and in.
#[derive(Default, Debug)]
struct Transfers {
    numbers: [u32; 15],
    sram: [u32; 2],
    /// Those of SRAM before which L1D held a dirty line that they touch.
    dirty: [u32; 2],
    /// External ones, those of a place that the CPU had accessed, and those that do not join.
    external: [u32; 2],
    covered: [u32; 2],
    left_out: u32,
}

/// A transfer of a list. "SRAM transfers join the lists compared with flat memory, which moves the
/// same bytes; an out transfer's buffer is compared too. External ones join where" they are
/// covered. The others are made only where lines are dropped, since no value is compared then.
fn run_transfer(
    setup: &mut Setup,
    flat: &mut Flat,
    covered: &Covered,
    drops: bool,
    transfer: &Transfer,
    met: &mut Transfers,
    written: &mut Written,
) {
    let Transfer { direction, address, length, .. } = *transfer;
    let number = flat.transfer_number(address, length);
    let joins = number != 0 || covered.joins(address, length);
    if !joins && !drops {
        met.left_out += 1;
        return;
    }
    let by = usize::from(transfer.is_in());
    if number == 0 && address < EXTERNAL_BASE {
        let lines = setup.record.l1d.iter().flat_map(|set| set.lines);
        let end = address + length as u32;
        let mut touched = lines.filter(|line| line.address < end && address < line.address + 64);
        met.sram[by] += 1;
        met.dirty[by] += u32::from(touched.any(|line| line.dirty));
    } else if number == 0 {
        met.external[by] += 1;
        met.covered[by] += u32::from(joins && covered.was_accessed(address, length));
    }
    let (reply, buffer) = setup.transfer(transfer);
    assert_eq!(reply.answer.number, number, "{transfer:x?}");
    met.numbers[usize::from(number)] += 1;
    let Some(mut theirs) = transfer.buffer() else { return };
    if transfer.is_in() {
        written.transfer_in(address, length, number == 0);
    }
    match direction {
        Direction::In => assert_eq!(flat.transfer_in(address, &theirs), number),
        Direction::Out => assert_eq!(flat.transfer_out(address, &mut theirs), number),
    }
    assert!(drops || buffer == theirs, "{transfer:x?}");
}

/// "After a global writeback, external memory and SRAM are now flat memory's in
/// every mode, mode 0 included." (02, U10) Nothing is dirty then, and L1D is empty.
fn check_settled(setup: &Setup, flat: &Flat, place: &str) {
    let s = setup.record.sram_size() as usize;
    assert!(setup.ext == flat.ext, "{place}: external memory");
    assert!(setup.l2[..s] == flat.sram, "{place}: SRAM");
    assert!(setup.record.l1d.iter().flat_map(|set| set.lines).all(|line| line == Line::EMPTY));
    assert!(!setup.record.l2.iter().flat_map(|set| set.lines).any(|line| line.dirty), "{place}");
}

/// Runs a list of calls from fresh. Without drops, reads and refusals are
/// compared with flat memory, and after each accepted global L2 writeback both
/// memories.
fn run_list(seed: u64, l: u32, e: u32, calls: u32, mix: &Mix, met: &mut Met) {
    let mut rng = Rng::new(seed);
    let mut ext = vec![0; e as usize];
    rng.fill(&mut ext);
    let mut flat = Flat::fresh(l, &ext);
    let mut covered = Covered::fresh(e);
    let mut written = Written::fresh();
    let mut setup = Setup::fresh_over(l, ext);
    let drops = mix.l2_block_invalidate + mix.l1d_block_invalidate + mix.l1d_invalidate_all > 0;
    let mut lines = hot(&mut rng, l, e);
    let mut drawn = Vec::new();
    for turn in 0..calls {
        if rng.chance(1, 1_000) {
            lines = hot(&mut rng, l, e);
        }
        if drawn.is_empty() {
            drawn = match rng.below(960) {
                0..=15 => shared_place(&mut rng, &lines),
                16 => frames_in_a_row(&mut rng, e),
                _ => vec![single(&mut rng, &lines, mix)],
            };
            drawn.reverse();
        }
        let command = match drawn.pop().expect("drawn just now") {
            Single::Command(command) => command,
            Single::Transfer(transfer) => {
                let met = &mut met.transfers;
                run_transfer(&mut setup, &mut flat, &covered, drops, &transfer, met, &mut written);
                continue;
            }
            Single::Frame(frame) => {
                let met = &mut met.frames;
                run_frame(&mut setup, &mut flat, &mut covered, &frame, met);
                written.frame(frame.turn, flat.frame_number(frame.length) == 0);
                continue;
            }
            Single::Program(call) => {
                let met = &mut met.programs;
                run_program(&mut setup, &mut flat, &mut covered, &written, drops, &call, met);
                continue;
            }
            // "Lists with these accesses keep agreeing with flat memory." (02, U6)
            Single::Unaligned(access) => {
                let answer = setup.unaligned(&access).answer;
                covered.unaligned(&access, answer.number == 0);
                written.unaligned(&access, answer.number == 0);
                let (number, value) = flat.apply_unaligned(&access);
                assert_eq!(answer.number, number, "{seed} {turn} {access:x?}");
                if !drops {
                    assert_eq!(answer.value, value, "{seed} {turn} {access:x?}");
                }
                met.unaligned[number as usize] += 1;
                met.unaligned_frozen += u32::from(number == 0) * setup.record.frozen;
                continue;
            }
        };
        let answer = setup.call(&command);
        covered.command(&command, answer.number == 0);
        written.command(&command, answer.number == 0);
        met.numbers[answer.number as usize] += 1;
        met.servers[answer.server as usize] += 1;
        if answer.number != 0 {
            assert_eq!((answer.server, answer.value), (0, 0), "{seed} {turn} {command:?}");
        }
        // Every call begins by testing the record that the last one left.
        assert!(answer.number != 1 && answer.number != 2, "{seed} {turn} {command:?}");
        met.modes[setup.record.mode as usize] += 1;
        if let (0, Command::Read { address, .. }) = (answer.number, &command) {
            met.frozen_reads[answer.server as usize] += setup.record.frozen;
            let range = (address >> 24) as usize;
            if range >= 128 && setup.record.mar_bit(*address) == 0 {
                met.bypassed_in[range - 128] += 1;
            }
        }
        if let Some((number, value)) = flat.apply(&command) {
            assert_eq!(answer.number, number, "{seed} {turn} {command:?}");
            if !drops {
                assert_eq!(answer.value, value, "{seed} {turn} {command:?}");
            }
        }
        let global = matches!(command, Command::L2WritebackAll | Command::L2WritebackInvalidateAll);
        if !drops && global && answer.number == 0 {
            check_settled(&setup, &flat, &format!("{seed} {turn} {command:?}"));
            met.settled[setup.record.mode as usize] += 1;
        }
    }
    assert_eq!(broken_clauses(&setup.record), []);
    if !drops {
        // A last mode change brings everything home.
        setup.mode(0);
        flat.change_mode(0);
        assert!(setup.ext == flat.ext, "{seed} external memory at the end");
        assert!(setup.l2 == flat.sram, "{seed} SRAM at the end");
    }
}

/// Every legal L with external memory in both MAR ranges.
#[test]
fn lists_agree_with_flat_memory_in_both_mar_ranges() {
    let mix = Mix { l2_all: 4, mode: 6, ..Mix::NO_DROPS };
    let mut met = Met::default();
    for (number, l) in LEGAL_L.into_iter().enumerate() {
        run_list(100 + number as u64, l, E_BOTH_RANGES, 16_000, &mix, &mut met);
    }
    check_met(&met);
    assert!(met.bypassed_in.iter().all(|&count| count > 100), "{met:?}");
}

/// Many lists with smaller external memories, the smallest one too.
#[test]
fn lists_agree_with_flat_memory_in_small_memories() {
    let mut met = Met::default();
    for (number, l) in LEGAL_L.into_iter().enumerate() {
        for (turn, e) in [128, 8_192, 65_536, 6 * 65_536].into_iter().enumerate() {
            let seed = 1_000 + 10 * number as u64 + turn as u64;
            run_list(seed, l, e, 6_000, &Mix::NO_DROPS, &mut met);
        }
    }
    check_met(&met);
}

/// Few mode changes, so that the caches fill up.
#[test]
fn lists_agree_with_flat_memory_with_full_caches() {
    let mix =
        Mix { mode: 1, l2_all: 1, l2_block_writeback: 5, l1d_block_writeback: 5, ..Mix::NO_DROPS };
    let mut met = Met::default();
    for (number, l) in LEGAL_L.into_iter().enumerate() {
        run_list(2_000 + number as u64, l, 12 * 65_536, 20_000, &mix, &mut met);
    }
    check_met(&met);
}

/// With drops, values may differ from flat memory; refusals do not, and the
/// record stays well formed.
#[test]
fn lists_with_drops_keep_the_record_well_formed() {
    let mut met = Met::default();
    for (number, l) in LEGAL_L.into_iter().enumerate() {
        for (turn, e) in [256, 65_536, 8 * 65_536].into_iter().enumerate() {
            let seed = 3_000 + 10 * number as u64 + turn as u64;
            run_list(seed, l, e, 6_000, &Mix::ALL, &mut met);
        }
    }
    assert!(met.numbers[..=10].iter().enumerate().all(|(n, &met)| met > 0 || n == 1 || n == 2));
    assert!(met.numbers[17] > 0);
}

/// Every server, refusal and mode was met.
fn check_met(met: &Met) {
    assert!(met.servers.iter().all(|&count| count > 1_000), "{met:?}");
    assert!(met.frozen_reads[1..].iter().all(|&count| count > 500), "{met:?}");
    for number in [0, 3, 4, 5, 6, 7, 8, 9, 10, 17] {
        assert!(met.numbers[number] > 20, "{met:?}");
    }
    assert!([0, 3, 5, 6].iter().all(|&number| met.unaligned[number] > 20), "{met:?}");
    assert!(met.unaligned[4] == 0 && met.unaligned_frozen > 500, "{met:?}");
    let transfers = &met.transfers;
    assert!([0, 4, 13, 14].iter().all(|&number| transfers.numbers[number] > 20), "{met:?}");
    let pairs = [transfers.sram, transfers.external, transfers.covered];
    assert!(pairs.iter().flatten().all(|&count| count > 50), "{met:?}");
    assert!(transfers.dirty.iter().all(|&count| count > 30), "{met:?}");
    assert!(transfers.left_out > 500, "{met:?}");
    let programs = &met.programs;
    assert!([0, 4, 5, 7, 15].iter().all(|&number| programs.numbers[number] > 10), "{met:?}");
    assert!(programs.servers[2..].iter().all(|&count| count > 200), "{met:?}");
    assert!(programs.compared > 100_000 && programs.written > 5_000, "{met:?}");
    assert!(programs.older > 1_000 && programs.both > 500, "{met:?}");
    let frames = &met.frames;
    assert!([0, 1, 2, 3, 7].iter().all(|&mode| frames.modes[mode] > 3), "{met:?}");
    assert!(frames.numbers[20] > 10 && frames.past > 0 && frames.frozen > 20, "{met:?}");
    for mode in [0, 1, 2, 3, 7] {
        assert!(met.modes[mode] > 500, "{met:?}");
        assert!(met.settled[mode] > 2, "{met:?}");
    }
    assert!(met.settled.iter().sum::<u32>() > 100, "{met:?}");
}

//! "The ribbon frame engine" (02, U14), sentence by sentence.

use oracle::covered::Covered;
use oracle::flat::Flat;
use oracle::frames::{place_of, FRAME_BYTES};
use oracle::gen::{
    frame, frames_in_a_row, hot, hot_for, ill_formed_record, l_for, make_length_wrong, single,
    well_formed_record_in_mode, Frame, Mix, Rng, Setup, Single, FAULTS, LEGAL_MODES,
    LONGEST_BUFFER, WRONG_LENGTHS,
};
use oracle::geometry::{L1d, EXTERNAL_BASE};
use oracle::wellformed::broken_clauses;
use oracle::{Command, Framed};

const A: u32 = EXTERNAL_BASE;
const B: u32 = EXTERNAL_BASE + 3_072;

/// The columns of the camera's pixels added up, by the rows.
fn columns(pixels: &[u8]) -> [u32; 64] {
    let mut sums = [0; 64];
    for row in pixels.chunks(64) {
        for (sum, &pixel) in sums.iter_mut().zip(row) {
            *sum += u32::from(pixel);
        }
    }
    sums
}

/// A frame that is accepted, and what has to come back.
fn accepted(setup: &mut Setup, turn: u8, pixels: &[u8]) {
    let Setup { record, l1d, l2, ext, l1p } = setup;
    let framed = oracle::calls::frame(record, l1d, l2, ext, l1p, turn, pixels);
    assert_eq!(framed, Framed { number: 0, turn: 1 - turn % 2, sums: columns(pixels) });
}

/// A frame that is refused: the turn stays, sums are 0, and no byte changes.
fn refused(setup: &mut Setup, turn: u8, length: usize, number: u8) {
    let before = setup.clone();
    let expected = Framed { number, turn: turn % 2, sums: [0; 64] };
    for filling in [0, 5, Frame::WHITE] {
        assert_eq!(setup.frame(&Frame { turn, length, filling }), expected, "{turn} {length}");
    }
    assert!(*setup == before);
}

fn cached(mode: u32, e: u32) -> Setup {
    let mut setup = Setup::fresh_over(262_144, vec![1; e as usize]);
    setup.mar(128, 1);
    assert_eq!(setup.mode(mode).number, 0);
    setup
}

/// "48 rows of 64 pixels, one byte each, row by row": each of them counts in its own column.
#[test]
fn each_pixel_counts_in_its_column() {
    let mut setup = cached(0, 6_144);
    for pixel in (0..3_072).step_by(37).chain([0, 63, 64, 3_008, 3_071]) {
        let mut pixels = vec![0; 3_072];
        pixels[pixel] = 200;
        let Setup { record, l1d, l2, ext, l1p } = &mut setup;
        let framed = oracle::calls::frame(record, l1d, l2, ext, l1p, 0, &pixels);
        let sums: [u32; 64] = std::array::from_fn(|column| 200 * u32::from(column == pixel % 64));
        assert_eq!(framed, Framed { number: 0, turn: 1, sums });
    }
    // As bright as can be: 48 times 255.
    assert_eq!(
        setup.frame(&Frame { turn: 1, length: 3_072, filling: Frame::WHITE }),
        Framed { number: 0, turn: 0, sums: [12_240; 64] }
    );
    // Every column another.
    let pixels: Vec<u8> = (0..3_072).map(|place| (place % 64 * 4) as u8).collect();
    accepted(&mut setup, 0, &pixels);
    assert_eq!(columns(&pixels)[63], 48 * 252);
}

/// "Frames go alternately to 80000000h (first) and 80000C00h": the bytes of the place are the
/// pixels, and those of the other one and behind both stay.
#[test]
fn two_places() {
    assert_eq!([0, 1, 2, 7, 255].map(place_of), [A, B, A, B, B]);
    for mode in LEGAL_MODES {
        for mar in [0, 1] {
            let mut setup = Setup::fresh_over(262_144, vec![1; 6_272]);
            setup.mar(128, mar);
            setup.mode(mode);
            let (first, second) = (vec![3; 3_072], vec![4; 3_072]);
            accepted(&mut setup, 0, &first);
            assert!(setup.ext[..3_072] == first && setup.ext[3_072..] == [1; 3_200]);
            accepted(&mut setup, 1, &second);
            assert!(setup.ext[..3_072] == first && setup.ext[3_072..6_144] == second);
            assert_eq!(setup.ext[6_144..], [1; 128]);
            // The CPU sees both, and with the bit 0 past the caches.
            let server = if mar == 0 { 4 } else { 1 };
            for (address, value) in [(A, 3), (B - 1, 3), (B, 4), (B + 3_071, 4)] {
                let answer = setup.read(1, address);
                assert_eq!((answer.server, answer.value), (server, value), "{mode} {mar}");
            }
            let lines = setup.record.l1d.iter().flat_map(|set| set.lines);
            let held = lines.filter(|line| line.valid).count();
            assert_eq!(held, if mar == 0 { 0 } else { 96 });
        }
    }
}

/// "the L2, then the L1D block writeback-invalidate over the place": whatever the CPU has left
/// dirty there goes out before the frame comes, and is not what is added up.
#[test]
fn dirty_lines_of_the_place_do_not_spoil_the_frame() {
    for mode in LEGAL_MODES {
        for frozen in [0, 1] {
            for turn in [0, 1] {
                let mut setup = cached(mode, 16_384);
                let place = place_of(turn);
                for row in 0..48 {
                    setup.read(4, place + 64 * row);
                    setup.write(4, place + 64 * row + 8, 0xFFFF_FFFF);
                    // Dirty in L2 alone: a write miss, where L1D holds the line no more.
                    if row % 3 == 0 {
                        setup.call(&Command::L1dBlockWritebackInvalidate {
                            base: place + 64 * row,
                            count: 1,
                        });
                    }
                }
                let before = [place - 64, place + 3_072].map(|line| setup.read(4, line).number);
                assert_eq!(before[1], 0);
                setup.freeze(frozen);
                let pixels: Vec<u8> = (0..3_072).map(|place| (place * 7 % 251) as u8).collect();
                accepted(&mut setup, turn, &pixels);
                let from = (place - A) as usize;
                assert!(setup.ext[from..from + 3_072] == pixels);
                assert_eq!(setup.record.dirty_l1d + setup.record.dirty_l2, 0);
                assert_eq!(setup.l1d_line(place).is_some(), frozen == 0);
            }
        }
    }
}

/// A frame is the calls that it is made of, in this order, from any record in every mode: the
/// record, every byte and the sums.
#[test]
fn a_frame_is_its_calls() {
    let mut rng = Rng::new(141);
    let (mut evicting, mut frozen, mut past) = (0, 0, 0);
    for turn in 0..100 {
        let mode = LEGAL_MODES[turn % LEGAL_MODES.len()];
        let l = l_for(&mut rng, mode);
        let e = rng.pick(&[6_144, 65_536, 65_536, 300_032]);
        let mut setup = Setup::random(&mut rng, l, e);
        setup.redraw_record_in_mode(&mut rng, mode);
        let drawn = Frame { length: FRAME_BYTES, ..frame(&mut rng) };
        let pixels = drawn.pixels().expect("as many as a frame has");
        let mut by_calls = setup.clone();
        let (base, count) = (place_of(drawn.turn), 768);
        let covering = [
            Command::L2BlockWritebackInvalidate { base, count },
            Command::L1dBlockWritebackInvalidate { base, count },
        ];
        assert!(covering.iter().all(|command| by_calls.call(command).number == 0));
        assert_eq!(by_calls.transfer_in(base, &pixels).answer.number, 0);
        let mut sums = [0; 64];
        for place in 0..3_072 {
            let reply = by_calls.reply(&Command::Read { size: 1, address: base + place });
            sums[place as usize % 64] += reply.answer.value as u32;
            evicting += u32::from(reply.report.external_written > 0);
        }
        assert_eq!(sums, columns(&pixels), "{turn}");
        assert_eq!(setup.frame(&drawn), Framed { number: 0, turn: 1 - drawn.turn % 2, sums });
        assert!(setup == by_calls, "{turn}");
        assert_eq!(broken_clauses(&setup.record), []);
        frozen += setup.record.frozen;
        past += 1 - setup.record.mar128;
    }
    assert!(evicting > 30 && frozen > 10 && past > 10, "{evicting} {frozen} {past}");
}

/// What is drawn for lists joins them: "For every list of frames, in any mode and with either MAR
/// bit, the sums of each accepted frame are those of the camera's pixels." Between the frames comes
/// everything else, drops included.
#[test]
fn sums_are_the_cameras_in_every_list() {
    let mut rng = Rng::new(142);
    let mut met = [0; 21];
    for turn in 0..40 {
        let mode = LEGAL_MODES[turn % LEGAL_MODES.len()];
        let l = l_for(&mut rng, mode);
        let e = rng.pick(&[128, 6_016, 6_144, 8_192, 65_536, 65_536]);
        let mut setup = Setup::fresh(l, e);
        setup.mar(128, rng.below(2));
        setup.mode(mode);
        let lines = hot(&mut rng, l, e);
        let mix = Mix { frame: 40, mode: 3, ..Mix::ALL };
        for _ in 0..150 {
            let drawn = if rng.chance(1, 30) {
                frames_in_a_row(&mut rng, e)
            } else {
                vec![single(&mut rng, &lines, &mix)]
            };
            for call in drawn {
                let Single::Frame(frame) = call else {
                    setup.single(&call);
                    continue;
                };
                let before = setup.clone();
                let framed = setup.frame(&frame);
                met[usize::from(framed.number)] += 1;
                if framed.number == 0 {
                    let pixels = frame.pixels().expect("as many as a frame has");
                    assert_eq!(framed.sums, columns(&pixels));
                    assert_eq!(framed.turn, 1 - frame.turn % 2);
                } else {
                    assert_eq!(framed, Framed::refused(framed.number, frame.turn));
                    assert!(setup == before);
                }
            }
        }
    }
    assert!(met[0] > 100 && met[19] > 50 && met[20] > 20, "{met:?}");
    assert_eq!(met.iter().sum::<u32>(), met[0] + met[19] + met[20]);
}

/// "another number is taken by its last bit", with a refusal too.
#[test]
fn turns_are_taken_by_their_last_bit() {
    let pixels: Vec<u8> = (0..3_072).map(|place| (place % 256) as u8).collect();
    for turn in 0..=255 {
        let mut setup = cached(1, 6_144);
        accepted(&mut setup, turn, &pixels);
        let from = if turn % 2 == 0 { 0 } else { 3_072 };
        assert!(setup.ext[from..from + 3_072] == pixels);
        assert_eq!(setup.ext[3_072 - from..6_144 - from], [1; 3_072]);
        refused(&mut setup, turn, 3_071, 20);
    }
}

/// "19 for external memory below 6,144 bytes, after 2; then 20 for a frame not of 3,072 bytes."
#[test]
fn the_numbers_at_their_edges() {
    for e in [128, 3_072, 6_016] {
        let mut setup = cached(1, e);
        setup.write(4, A, 5);
        for length in [3_072, 0, 3_071, 3_073, 1 << 20, usize::MAX] {
            refused(&mut setup, 7, length, 19);
        }
    }
    for e in [6_144, 6_272, 65_536] {
        let mut setup = cached(1, e);
        setup.write(4, A, 5);
        for length in [0, 1, 64, 3_068, 3_071, 3_073, 3_076, 6_144, 68_608, LONGEST_BUFFER] {
            refused(&mut setup, 0, length, 20);
        }
        for length in [LONGEST_BUFFER + 1, (1 << 32) + 3_072, 1 << 63, usize::MAX] {
            refused(&mut setup, 255, length, 20);
        }
        accepted(&mut setup.clone(), 0, &[9; 3_072]);
        accepted(&mut setup, 1, &[9; 3_072]);
    }
}

/// 1, 2, 19, then 20.
#[test]
fn the_lowest_number_counts() {
    let mut rng = Rng::new(143);
    for e in [128, 8_192] {
        let setup = cached(1, e);
        for fault in FAULTS {
            let mut ill_formed = setup.clone();
            let Some(record) = ill_formed_record(&mut rng, 262_144, e, 1, fault) else { continue };
            ill_formed.record = record;
            refused(&mut ill_formed, 1, 3_072, 2);
            refused(&mut ill_formed, 2, 5, 2);
        }
        for wrong in WRONG_LENGTHS {
            for ill_formed in [false, true] {
                let mut short = setup.clone();
                if ill_formed {
                    short.record.l1d[9].order = [0, 0];
                }
                make_length_wrong(&mut rng, &mut short, wrong);
                refused(&mut short, 1, 3_072, 1);
                refused(&mut short, 0, usize::MAX, 1);
            }
        }
    }
}

/// Flat memory's frame by itself: its sums are those of the pixels, the bytes of the place are the
/// pixels, and no other byte changes.
#[test]
fn flat_memorys_frame() {
    let mut flat = Flat::fresh(32_768, &[9; 6_272]);
    let pixels: Vec<u8> = (0..3_072).map(|place| (place * 11 % 256) as u8).collect();
    assert_eq!(flat.frame(5, &pixels), (0, 0, columns(&pixels)));
    assert!(flat.ext[..3_072] == [9; 3_072] && flat.ext[3_072..6_144] == pixels);
    assert_eq!(flat.ext[6_144..], [9; 128]);
    assert_eq!(flat.frame(0, &[2; 3_072]), (0, 1, [96; 64]));
    assert!(flat.ext[..3_072] == [2; 3_072] && flat.ext[3_072..6_144] == pixels);
    let before = flat.clone();
    assert_eq!(flat.frame(5, &pixels[1..]), (20, 1, [0; 64]));
    assert_eq!(flat.frame(4, &[]), (20, 0, [0; 64]));
    assert_eq!([3_073, usize::MAX].map(|length| flat.frame_number(length)), [20, 20]);
    assert_eq!(flat, before);
    let mut small = Flat::fresh(32_768, &[9; 6_016]);
    assert_eq!(small.frame(7, &pixels), (19, 1, [0; 64]));
    assert_eq!(small.frame_number(3), 19);
    assert_eq!(small, Flat::fresh(32_768, &[9; 6_016]));
}

/// For external transfers (02, U1) a frame counts as its calls: what covered its place counts no
/// more once its reads were made, and the place beside it is left alone.
#[test]
fn a_frame_is_an_access_to_its_place() {
    let l2 = Command::L2BlockWritebackInvalidate { base: A, count: 1_568 };
    let l1d = Command::L1dBlockWritebackInvalidate { base: A, count: 1_568 };
    let joins =
        |covered: &Covered| [A, B - 128, B, B + 2_944, B + 3_072].map(|at| covered.joins(at, 128));
    let mut covered = Covered::fresh(6_272);
    assert_eq!(joins(&covered), [true; 5]);
    // A refused one counts for nothing.
    covered.frame(0, false);
    assert!(joins(&covered) == [true; 5] && !covered.was_accessed(A, 6_272));
    covered.frame(2, true);
    assert_eq!(joins(&covered), [false, false, true, true, true]);
    covered.frame(1, true);
    assert_eq!(joins(&covered), [false, false, false, false, true]);
    covered.command(&l2, true);
    assert_eq!(joins(&covered), [false, false, false, false, true]);
    covered.command(&l1d, true);
    assert_eq!(joins(&covered), [true; 5]);
    // Its own commands do not cover what was accessed beside it.
    covered.command(&Command::Read { size: 1, address: B + 3_072 }, true);
    covered.frame(255, true);
    assert_eq!(joins(&covered), [true, true, false, false, false]);
}

/// The order of the reads shows: where an L2 line leaves that has both halves in L1D, the way of the
/// second half is empty by the time that it is read. From the last pixel down the first would be.
#[test]
fn pixels_are_read_upwards() {
    let mut setup = cached(1, 65_536);
    // Four lines fill the L2 set of 80000000h. The first is the next to leave, and L1D holds both
    // halves of it, beside those of the second, each set's last in order.
    for turn in [1, 2] {
        setup.read(1, A + turn * 8_192);
        setup.read(1, A + turn * 8_192 + 64);
    }
    setup.read(1, A + 8_192);
    setup.read(1, A + 8_192 + 64);
    for turn in [3, 4] {
        setup.write(1, A + turn * 8_192, 7);
    }
    accepted(&mut setup, 0, &[5; 3_072]);
    let in_set = |set: usize| setup.record.l1d[set].lines.map(|line| (line.valid, line.address));
    // The lower half took the way of the second line, and with the first line's L2 line both its
    // halves went; the upper half took the way that this left empty.
    assert_eq!(in_set(L1d::set_of(A)), [(false, 0), (true, A)]);
    assert_eq!(in_set(L1d::set_of(A + 64)), [(true, A + 64), (true, A + 2 * 8_192 + 64)]);
}

/// What is drawn: both turns and any byte, 3,072 pixels most often, lengths at every edge.
#[test]
fn what_is_drawn() {
    let mut rng = Rng::new(144);
    let record = well_formed_record_in_mode(&mut rng, 65_536, 65_536, 1);
    let lines = hot_for(&mut rng, &record);
    let (mut all, mut turns, mut lengths, mut white) = (0, [0; 3], [0; 6], 0);
    for _ in 0..400_000 {
        let Single::Frame(drawn) = single(&mut rng, &lines, &Mix::ALL) else { continue };
        all += 1;
        turns[usize::from(drawn.turn).min(2)] += 1;
        white += u32::from(drawn.filling == Frame::WHITE);
        let class = match drawn.length {
            3_072 => 0,
            3_068..=3_076 => 1,
            0 => 2,
            length if length > LONGEST_BUFFER => 3,
            length if length as u16 == 3_072 => 4,
            _ => 5,
        };
        lengths[class] += 1;
    }
    assert!(all > 1_000 && lengths[0] * 8 > all * 6, "{all} {lengths:?}");
    assert!(lengths.iter().all(|&count| count > 3), "{lengths:?}");
    assert!(turns.iter().all(|&count| count > 100) && white > 50, "{turns:?} {white}");
}

//! 02, U8, of the reference model itself: "two runs that differ only in stored or
//! written data, ... share all refusals, servers, counts and the record. Where they
//! differ only in one byte of external memory at the start, ... they differ
//! afterwards in no byte of any answer, of external memory, of SRAM or of a valid
//! line that doesn't stand for that address."

use oracle::gen::{
    hot_for, l_for, look_address, single, Frame, Mix, Rng, Setup, Single, Transfer, LEGAL_MODES,
};
use oracle::geometry::{L1d, L1p, EXTERNAL_BASE, L2};
use oracle::{Command, Line, Program, Reply, Unaligned};

/// Random memories under a record of this mode.
fn setup(rng: &mut Rng, mode: u32) -> Setup {
    let l = l_for(rng, mode);
    let e = rng.pick(&[128, 1_024, 65_536]);
    let mut setup = Setup::random(rng, l, e);
    setup.redraw_record_in_mode(rng, mode);
    setup
}

/// A value that fits the size, or does not, as the given one.
fn other_value(rng: &mut Rng, size: u32, value: u64) -> u64 {
    match size {
        1 | 2 | 4 if value >> (8 * size) == 0 => rng.next_u64() >> (64 - 8 * size),
        1 | 2 | 4 => value,
        _ => rng.next_u64(),
    }
}

#[test]
fn data_steers_nothing() {
    let mut rng = Rng::new(8);
    let (mut transferred, mut framed, mut fetched) = (0, 0, 0);
    for turn in 0..60 {
        let mut one = setup(&mut rng, LEGAL_MODES[turn % LEGAL_MODES.len()]);
        let mut other = one.clone();
        rng.fill(&mut other.l1d);
        rng.fill(&mut other.l2);
        rng.fill(&mut other.ext);
        rng.fill(&mut other.l1p);
        let lines = hot_for(&mut rng, &one.record);
        for _ in 0..200 {
            let first = single(&mut rng, &lines, &Mix { frame: 12, ..Mix::ALL });
            let second = match first {
                Single::Command(Command::Write { size, address, value }) => {
                    let value = other_value(&mut rng, size, value);
                    Single::Command(Command::Write { size, address, value })
                }
                Single::Unaligned(Unaligned::Write { size, address, value }) => {
                    let value = other_value(&mut rng, size, value);
                    Single::Unaligned(Unaligned::Write { size, address, value })
                }
                // A buffer holds data too (02, U1), before a transfer in either direction.
                Single::Transfer(transfer) => {
                    transferred += u32::from(one.clone().transfer(&transfer).0.answer.number == 0);
                    Single::Transfer(Transfer { filling: rng.next_u64(), ..transfer })
                }
                // So are pixels (02, U14).
                Single::Frame(frame) => Single::Frame(Frame { filling: rng.next_u64(), ..frame }),
                same => same,
            };
            if let (Single::Frame(first), Single::Frame(second)) = (first, second) {
                let (ours, theirs) = (one.frame(&first), other.frame(&second));
                assert_eq!((ours.number, ours.turn), (theirs.number, theirs.turn), "{first:?}");
                assert!(one.record == other.record, "{first:?}");
                framed += u32::from(ours.number == 0);
                continue;
            }
            if let Single::Program(call) = first {
                let (ours, theirs) = (one.program(&call), other.program(&call));
                assert_eq!(
                    (ours.reply, ours.l1p_left),
                    (theirs.reply, theirs.l1p_left),
                    "{call:?}"
                );
                assert!(one.record == other.record, "{call:?}");
                fetched += u32::from(ours.bytes != theirs.bytes);
                continue;
            }
            let (ours, theirs) = (one.single(&first), other.single(&second));
            let shared = |reply: Reply| (reply.answer.number, reply.answer.server, reply.report);
            assert_eq!(shared(ours), shared(theirs), "{first:?}");
            assert!(one.record == other.record, "{first:?}");
            let address = look_address(&mut rng, &lines);
            assert_eq!(one.look_number(address), other.look_number(address));
        }
    }
    assert!(transferred > 200 && framed > 20, "{transferred} {framed}");
    assert!(fetched > 200, "{fetched}");
}

/// Every place of the two differs at address x alone, the first standing for `from`.
fn same_but(x: u32, from: u32, ours: &[u8], theirs: &[u8]) {
    assert_eq!(ours.len(), theirs.len());
    for (place, (ours, theirs)) in ours.iter().zip(theirs).enumerate() {
        let at = u64::from(from) + place as u64;
        assert!(ours == theirs || at == u64::from(x), "byte {place} from {from:#x} on");
    }
}

fn same_lines_but(x: u32, one: &Setup, other: &Setup) {
    let record = &one.record;
    let s = record.sram_size();
    let line = |line: &Line, from: usize, length: u32, ours: &[u8], theirs: &[u8]| {
        let bytes = from..from + length as usize;
        if line.valid {
            same_but(x, line.address, &ours[bytes.clone()], &theirs[bytes]);
        }
    };
    for (set, held) in record.l1d.iter().enumerate() {
        for (way, at) in held.lines.iter().enumerate() {
            line(at, L1d::offset(set, way), L1d::LINE, &one.l1d, &other.l1d);
        }
    }
    for (set, held) in record.l2.iter().enumerate() {
        for (way, at) in held.lines.iter().enumerate() {
            let from = L2::offset(s, L2::sets(record.mode), set, way);
            line(at, from, L2::LINE, &one.l2, &other.l2);
        }
    }
    for (set, held) in record.l1p.iter().enumerate() {
        line(&held.lines[0], L1p::offset(set), L1p::LINE, &one.l1p, &other.l1p);
    }
    assert!(one.l2[..s as usize] == other.l2[..s as usize], "SRAM");
}

#[test]
fn one_byte_stays_at_its_address() {
    let mut rng = Rng::new(80);
    // A byte that is written, by the CPU or by a transfer in, is soon the same in both.
    let mix = Mix { write: 40, transfer: 20, ..Mix::ALL };
    let (mut parted, mut buffers, mut fetched) = (0, 0, 0);
    for turn in 0..150 {
        let mut one = setup(&mut rng, LEGAL_MODES[turn % LEGAL_MODES.len()]);
        let mut lines = hot_for(&mut rng, &one.record);
        let offset = rng.below(one.record.e) as usize;
        let x = EXTERNAL_BASE + offset as u32;
        lines.lines.extend([L1d::line_address(x); 12]);
        let mut other = one.clone();
        other.ext[offset] ^= 1 + rng.below(255) as u8;
        for _ in 0..200 {
            let call = single(&mut rng, &lines, &mix);
            if let Single::Transfer(transfer) = call {
                // "each in transfer's buffer being the same in both"; that of one out is an answer.
                let ((ours, out), (theirs, other_out)) =
                    (one.transfer(&transfer), other.transfer(&transfer));
                assert_eq!(ours, theirs, "{call:?}");
                buffers += u32::from(out != other_out);
                same_but(x, transfer.address, &out, &other_out);
                assert!(one.record == other.record, "{call:?}");
                same_but(x, EXTERNAL_BASE, &one.ext, &other.ext);
                same_lines_but(x, &one, &other);
                continue;
            }
            if let Single::Frame(frame) = call {
                // The pixels, which a transfer in brings, are the same: so are the sums.
                assert_eq!(one.frame(&frame), other.frame(&frame), "{call:?}");
                assert!(one.record == other.record, "{call:?}");
                same_but(x, EXTERNAL_BASE, &one.ext, &other.ext);
                same_lines_but(x, &one, &other);
                continue;
            }
            if let Single::Program(call) = call {
                let (ours, theirs) = (one.program(&call), other.program(&call));
                assert_eq!(
                    (ours.reply, ours.l1p_left),
                    (theirs.reply, theirs.l1p_left),
                    "{call:?}"
                );
                let at = if let Program::Fetch { address } = call { address } else { 0 };
                same_but(x, at, &ours.bytes, &theirs.bytes);
                fetched += u32::from(ours.bytes != theirs.bytes);
                assert!(one.record == other.record, "{call:?}");
                same_but(x, EXTERNAL_BASE, &one.ext, &other.ext);
                same_lines_but(x, &one, &other);
                continue;
            }
            let (ours, theirs) = (one.single(&call).answer, other.single(&call).answer);
            parted += u32::from(ours.value != theirs.value);
            let (at, size) = match call {
                Single::Command(Command::Read { size, address })
                | Single::Unaligned(Unaligned::Read { size, address }) => {
                    (address, size.min(8) as usize)
                }
                _ => (0, 0),
            };
            let (ours, theirs) = (ours.value.to_le_bytes(), theirs.value.to_le_bytes());
            same_but(x, at, &ours[..size], &theirs[..size]);
            assert_eq!(ours[size..], theirs[size..]);
            assert!(one.record == other.record, "{call:?}");
            same_but(x, EXTERNAL_BASE, &one.ext, &other.ext);
            same_lines_but(x, &one, &other);
            let address = look_address(&mut rng, &lines);
            same_but(x, address, one.look(address), other.look(address));
        }
    }
    assert!(parted > 100, "the byte was hardly seen: {parted}");
    assert!(buffers > 10, "a transfer hardly saw it: {buffers}");
    assert!(fetched > 50, "a fetch hardly saw it: {fetched}");
}

//! The calls of include/c64x.h: the structs in C's layout, the declarations,
//! and a safe function for each call.

use std::fmt;
use std::mem::{align_of, offset_of, size_of};
use std::ops::{Deref, DerefMut};
use std::ptr;

use oracle::fetches::FETCHED_BYTES;
use oracle::frames::{place_of, COLUMNS, FRAME_BYTES};
use oracle::gen::{encode, Frame, Rng, Transfer};
use oracle::geometry::{L1d, L1p, L2};
use oracle::record::{L1dSet, L1pSet, L2Set, Line, Record};
use oracle::trace::ANSWER_BYTES;
use oracle::{Command, Direction, Fetched, Left, Program, Report, Unaligned};

/// The structs name their padding, so that it can be filled and compared.
/// Equality is that of the fields: an accepted call may change padding.
#[repr(C)]
#[derive(Clone, Copy, Debug)]
pub struct CLine {
    pub valid: u8,
    pub dirty: u8,
    padding: [u8; 2],
    pub address: u32,
}

#[repr(C)]
#[derive(Clone, Copy, Debug)]
pub struct CL1dSet {
    pub lines: [CLine; 2],
    pub order: [u8; 2],
    padding: [u8; 2],
}

#[repr(C)]
#[derive(Clone, Copy, PartialEq, Eq, Debug)]
pub struct CL2Set {
    pub lines: [CLine; 4],
    pub order: [u8; 4],
}

#[repr(C)]
#[derive(Clone, Copy, PartialEq, Eq, Debug)]
pub struct CL1pSet {
    pub lines: [CLine; 1],
}

#[repr(C)]
#[derive(Clone, Copy, Debug)]
pub struct CRecord {
    pub l2len: u32,
    pub extlen: u32,
    pub mode: u8,
    pub mar128: u8,
    pub mar129: u8,
    pub frozen: u8,
    pub dirty_l1d: u32,
    pub dirty_l2: u32,
    pub l1d: [CL1dSet; 128],
    pub l2: [CL2Set; 512],
    pub l1p: [CL1pSet; 512],
}

/// What left a way that was chosen: by kind 0 to 3, none was chosen, it was empty, a clean
/// line, a dirty one.
#[repr(C)]
#[derive(Clone, Copy, PartialEq, Eq)]
pub struct CLeft {
    pub address: u32,
    pub kind: u8,
}

impl CLeft {
    pub const NONE: CLeft = CLeft { address: 0, kind: 0 };
    pub const EMPTY: CLeft = CLeft { address: 0, kind: 1 };

    pub fn clean(address: u32) -> CLeft {
        CLeft { address, kind: 2 }
    }

    pub fn dirty(address: u32) -> CLeft {
        CLeft { address, kind: 3 }
    }

    pub fn is_line(&self) -> bool {
        self.kind >= 2
    }
}

impl fmt::Debug for CLeft {
    fn fmt(&self, out: &mut fmt::Formatter) -> fmt::Result {
        match (self.kind, self.address) {
            (0, 0) => write!(out, "none"),
            (1, 0) => write!(out, "empty"),
            (0, address) => write!(out, "none {address:#x}"),
            (1, address) => write!(out, "empty {address:#x}"),
            (2, address) => write!(out, "clean {address:#x}"),
            (3, address) => write!(out, "dirty {address:#x}"),
            (kind, address) => write!(out, "kind {kind} {address:#x}"),
        }
    }
}

#[repr(C)]
#[derive(Clone, Copy)]
pub struct CAnswer {
    pub value: u64,
    pub number: u8,
    pub server: u8,
    pub l1d_left: CLeft,
    pub l2_left: CLeft,
    pub external_read: u32,
    pub external_written: u32,
}

impl CAnswer {
    /// A refusal, or with 0 a call that is no access.
    pub fn refused(number: u8) -> CAnswer {
        let left = CLeft::NONE;
        CAnswer {
            value: 0,
            number,
            server: 0,
            l1d_left: left,
            l2_left: left,
            external_read: 0,
            external_written: 0,
        }
    }

    /// What the answer reports beside number, server and value.
    pub fn report(&self) -> CReport {
        CReport {
            l1d_left: self.l1d_left,
            l2_left: self.l2_left,
            read: self.external_read,
            written: self.external_written,
        }
    }
}

/// The report of an access, in C's numbers.
#[derive(Clone, Copy, PartialEq, Eq)]
pub struct CReport {
    pub l1d_left: CLeft,
    pub l2_left: CLeft,
    pub read: u32,
    pub written: u32,
}

impl CReport {
    pub const NONE: CReport =
        CReport { l1d_left: CLeft::NONE, l2_left: CLeft::NONE, read: 0, written: 0 };
}

impl fmt::Debug for CReport {
    fn fmt(&self, out: &mut fmt::Formatter) -> fmt::Result {
        let CReport { l1d_left, l2_left, read, written } = self;
        write!(out, "L1D {l1d_left:?}, L2 {l2_left:?}, read {read}, written {written}")
    }
}

#[repr(C)]
#[derive(Clone, Copy)]
pub struct CRun {
    pub consumed: usize,
    pub count: usize,
    pub stop: u8,
}

/// A short run, and the number of one.
#[repr(C)]
#[derive(Clone, Copy, PartialEq, Eq, Debug)]
pub struct CShortRun {
    pub number: u8,
    pub length: u8,
    pub digits: [u8; 4],
}

#[repr(C)]
#[derive(Clone, Copy, PartialEq, Eq, Debug)]
pub struct CRunNumber {
    pub number: u8,
    pub run: u32,
}

/// What a frame gives back.
#[repr(C)]
#[derive(Clone, Copy, PartialEq, Eq, Debug)]
pub struct CFramed {
    pub number: u8,
    pub turn: u8,
    pub sums: [u32; COLUMNS],
}

/// What a fetch gives back; an invalidation of L1P is made to look like one.
#[repr(C)]
#[derive(Clone, Copy)]
pub struct CFetched {
    pub answer: CAnswer,
    pub l1p_left: CLeft,
    pub bytes: [u8; FETCHED_BYTES],
}

impl CFetched {
    /// An answer without a line of L1P.
    pub fn of(answer: CAnswer) -> CFetched {
        CFetched { answer, l1p_left: CLeft::NONE, bytes: [0; FETCHED_BYTES] }
    }
}

const _: () = {
    assert!(size_of::<CLine>() == 8 && offset_of!(CLine, dirty) == 1);
    assert!(offset_of!(CLine, padding) == 2 && offset_of!(CLine, address) == 4);
    assert!(size_of::<CL1dSet>() == 20 && offset_of!(CL1dSet, order) == 16);
    assert!(offset_of!(CL1dSet, padding) == 18);
    assert!(size_of::<CL2Set>() == 36 && offset_of!(CL2Set, order) == 32);
    assert!(size_of::<CL1pSet>() == 8);
    assert!(size_of::<CRecord>() == RECORD_BYTES && align_of::<CRecord>() == 4);
    assert!(offset_of!(CRecord, extlen) == 4 && offset_of!(CRecord, mode) == 8);
    assert!(offset_of!(CRecord, mar128) == 9 && offset_of!(CRecord, mar129) == 10);
    assert!(offset_of!(CRecord, frozen) == 11);
    assert!(offset_of!(CRecord, dirty_l1d) == 12 && offset_of!(CRecord, dirty_l2) == 16);
    assert!(offset_of!(CRecord, l1d) == 20 && offset_of!(CRecord, l2) == 2_580);
    assert!(offset_of!(CRecord, l1p) == 21_012);
    assert!(size_of::<CLeft>() == 8 && align_of::<CLeft>() == 4);
    assert!(offset_of!(CLeft, address) == 0 && offset_of!(CLeft, kind) == 4);
    assert!(size_of::<CAnswer>() == 40 && offset_of!(CAnswer, value) == 0);
    assert!(offset_of!(CAnswer, number) == 8 && offset_of!(CAnswer, server) == 9);
    assert!(offset_of!(CAnswer, l1d_left) == 12 && offset_of!(CAnswer, l2_left) == 20);
    assert!(offset_of!(CAnswer, external_read) == 28);
    assert!(offset_of!(CAnswer, external_written) == 32);
    assert!(size_of::<CRun>() == 24);
    assert!(offset_of!(CRun, count) == 8 && offset_of!(CRun, stop) == 16);
    assert!(size_of::<CShortRun>() == 6 && offset_of!(CShortRun, length) == 1);
    assert!(offset_of!(CShortRun, digits) == 2);
    assert!(size_of::<CRunNumber>() == 8 && offset_of!(CRunNumber, run) == 4);
    assert!(size_of::<CFramed>() == 260 && align_of::<CFramed>() == 4);
    assert!(offset_of!(CFramed, number) == 0 && offset_of!(CFramed, turn) == 1);
    assert!(offset_of!(CFramed, sums) == 4);
    assert!(size_of::<CFetched>() == 80 && align_of::<CFetched>() == 8);
    assert!(offset_of!(CFetched, answer) == 0 && offset_of!(CFetched, l1p_left) == 40);
    assert!(offset_of!(CFetched, bytes) == 48);
};

pub const RECORD_BYTES: usize = 25_108;

impl PartialEq for CLine {
    fn eq(&self, other: &CLine) -> bool {
        (self.valid, self.dirty, self.address) == (other.valid, other.dirty, other.address)
    }
}

impl Eq for CLine {}

impl PartialEq for CL1dSet {
    fn eq(&self, other: &CL1dSet) -> bool {
        self.lines == other.lines && self.order == other.order
    }
}

impl Eq for CL1dSet {}

impl PartialEq for CRecord {
    fn eq(&self, other: &CRecord) -> bool {
        (self.l2len, self.extlen) == (other.l2len, other.extlen)
            && (self.mode, self.frozen) == (other.mode, other.frozen)
            && (self.mar128, self.mar129) == (other.mar128, other.mar129)
            && (self.dirty_l1d, self.dirty_l2) == (other.dirty_l1d, other.dirty_l2)
            && self.l1d == other.l1d
            && self.l2 == other.l2
            && self.l1p == other.l1p
    }
}

impl Eq for CRecord {}

impl CRecord {
    /// Every byte, padding included.
    pub fn bytes(&self) -> &[u8; RECORD_BYTES] {
        // The structs have no bytes but those of their fields, all of which are
        // whole numbers.
        unsafe { &*(self as *const CRecord).cast() }
    }

    /// Gives this record the padding of another one.
    pub fn pad_like(&mut self, other: &CRecord) {
        for (ours, theirs) in self.l1d.iter_mut().zip(&other.l1d) {
            ours.padding = theirs.padding;
            pad_lines_like(&mut ours.lines, &theirs.lines);
        }
        for (ours, theirs) in self.l2.iter_mut().zip(&other.l2) {
            pad_lines_like(&mut ours.lines, &theirs.lines);
        }
        for (ours, theirs) in self.l1p.iter_mut().zip(&other.l1p) {
            pad_lines_like(&mut ours.lines, &theirs.lines);
        }
    }

    /// A padding byte inside a line, for differences that are planted.
    pub fn some_padding(&mut self) -> &mut u8 {
        &mut self.l2[511].lines[3].padding[1]
    }
}

fn pad_lines_like(ours: &mut [CLine], theirs: &[CLine]) {
    for (ours, theirs) in ours.iter_mut().zip(theirs) {
        ours.padding = theirs.padding;
    }
}

/// A record whose padding is random; 0 stands for padding that is 0.
pub fn padding_of(seed: u64) -> Box<CRecord> {
    let mut record = record_of(&Record::fresh(0, 0));
    if seed == 0 {
        return record;
    }
    let mut rng = Rng::new(seed);
    for set in &mut record.l1d {
        rng.fill(&mut set.padding);
        set.lines.iter_mut().for_each(|line| rng.fill(&mut line.padding));
    }
    for line in record.l2.iter_mut().flat_map(|set| &mut set.lines) {
        rng.fill(&mut line.padding);
    }
    for line in record.l1p.iter_mut().flat_map(|set| &mut set.lines) {
        rng.fill(&mut line.padding);
    }
    record
}

/// A record at an address that is a multiple of 4 and of no larger power of 2:
/// nothing more is promised to the calls.
#[repr(C, align(16))]
#[derive(Clone)]
pub struct Held {
    before: u32,
    record: CRecord,
}

impl Held {
    pub fn new(record: &CRecord) -> Box<Held> {
        Box::new(Held { before: 0, record: *record })
    }
}

impl Deref for Held {
    type Target = CRecord;

    fn deref(&self) -> &CRecord {
        &self.record
    }
}

impl DerefMut for Held {
    fn deref_mut(&mut self) -> &mut CRecord {
        &mut self.record
    }
}

/// Declares the calls that take a record, some numbers and four memories.
macro_rules! calls {
    ($($name:ident($($number:ident: $kind:ty),*);)*) => {
        extern "C" {
            $(fn $name(
                record: *mut CRecord,
                $($number: $kind,)*
                l1d: *mut u8,
                l1d_len: usize,
                l2: *mut u8,
                l2_len: usize,
                ext: *mut u8,
                ext_len: usize,
                l1p: *mut u8,
                l1p_len: usize,
            ) -> CAnswer;)*
        }
    };
}

calls! {
    c64x_fresh();
    c64x_read(size: u32, address: u32);
    c64x_write(size: u32, address: u32, value: u64);
    c64x_read_unaligned(size: u32, address: u32);
    c64x_write_unaligned(size: u32, address: u32, value: u64);
    c64x_l2_writeback_all();
    c64x_l2_writeback_invalidate_all();
    c64x_l2_writeback_block(base: u32, count: u32);
    c64x_l2_writeback_invalidate_block(base: u32, count: u32);
    c64x_l2_invalidate_block(base: u32, count: u32);
    c64x_l1d_writeback_invalidate_block(base: u32, count: u32);
    c64x_l1d_invalidate_block(base: u32, count: u32);
    c64x_l1d_invalidate_all();
    c64x_change_mode(mode: u32);
    c64x_change_mar(mar: u32, bit: u32);
    c64x_freeze(frozen: u32);
    c64x_transfer_in(address: u32, buffer: *const u8, length: usize);
    c64x_transfer_out(address: u32, buffer: *mut u8, length: usize);
    c64x_l1p_invalidate_block(base: u32, count: u32);
    c64x_l1p_invalidate_all();
}

extern "C" {
    fn c64x_fetch(
        record: *mut CRecord,
        address: u32,
        l1d: *mut u8,
        l1d_len: usize,
        l2: *mut u8,
        l2_len: usize,
        ext: *mut u8,
        ext_len: usize,
        l1p: *mut u8,
        l1p_len: usize,
    ) -> CFetched;

    fn c64x_frame(
        record: *mut CRecord,
        turn: u8,
        pixels: *const u8,
        length: usize,
        l1d: *mut u8,
        l1d_len: usize,
        l2: *mut u8,
        l2_len: usize,
        ext: *mut u8,
        ext_len: usize,
        l1p: *mut u8,
        l1p_len: usize,
    ) -> CFramed;

    fn c64x_run(
        record: *mut CRecord,
        trace: *const u8,
        trace_len: usize,
        l1d: *mut u8,
        l1d_len: usize,
        l2: *mut u8,
        l2_len: usize,
        ext: *mut u8,
        ext_len: usize,
        l1p: *mut u8,
        l1p_len: usize,
        answers: *mut u8,
        answers_len: usize,
    ) -> CRun;

    fn c64x_view(
        record: *const CRecord,
        address: u32,
        l2: *const u8,
        l2_len: usize,
        ext: *const u8,
        ext_len: usize,
        seen: *mut u8,
        seen_len: usize,
    ) -> u8;

    fn c64x_view_number(
        record: *const CRecord,
        address: u32,
        l2: *const u8,
        l2_len: usize,
        ext: *const u8,
        ext_len: usize,
    ) -> u8;

    fn c64x_short_run_of(number: u32) -> CShortRun;

    fn c64x_short_run_number(digits: *const u8, length: usize) -> CRunNumber;
}

/// The lent memories.
pub struct Lent<'a> {
    pub l1d: &'a mut [u8],
    pub l2: &'a mut [u8],
    pub ext: &'a mut [u8],
    pub l1p: &'a mut [u8],
}

impl Lent<'_> {
    /// The same memories, lent once more.
    pub fn again(&mut self) -> Lent<'_> {
        Lent { l1d: &mut *self.l1d, l2: &mut *self.l2, ext: &mut *self.ext, l1p: &mut *self.l1p }
    }
}

/// A call that is lent the record and the four memories. Each is a place of its
/// own, so no two overlap, and the call keeps none of them.
macro_rules! call_lent {
    ($name:ident, $record:expr, $lent:expr $(, $number:expr)*) => {
        unsafe {
            $name(
                $record,
                $($number,)*
                $lent.l1d.as_mut_ptr(),
                $lent.l1d.len(),
                $lent.l2.as_mut_ptr(),
                $lent.l2.len(),
                $lent.ext.as_mut_ptr(),
                $lent.ext.len(),
                $lent.l1p.as_mut_ptr(),
                $lent.l1p.len(),
            )
        }
    };
}

/// The direct call of a command.
pub fn direct(record: &mut CRecord, command: &Command, lent: Lent) -> CAnswer {
    macro_rules! call {
        ($name:ident($($number:expr),*)) => { call_lent!($name, record, lent $(, $number)*) };
    }
    match *command {
        Command::Read { size, address } => call!(c64x_read(size, address)),
        Command::Write { size, address, value } => call!(c64x_write(size, address, value)),
        Command::L2WritebackAll => call!(c64x_l2_writeback_all()),
        Command::L2WritebackInvalidateAll => call!(c64x_l2_writeback_invalidate_all()),
        Command::L2BlockWriteback { base, count } => call!(c64x_l2_writeback_block(base, count)),
        Command::L2BlockWritebackInvalidate { base, count } => {
            call!(c64x_l2_writeback_invalidate_block(base, count))
        }
        Command::L2BlockInvalidate { base, count } => call!(c64x_l2_invalidate_block(base, count)),
        Command::L1dBlockWritebackInvalidate { base, count } => {
            call!(c64x_l1d_writeback_invalidate_block(base, count))
        }
        Command::L1dBlockInvalidate { base, count } => {
            call!(c64x_l1d_invalidate_block(base, count))
        }
        Command::L1dInvalidateAll => call!(c64x_l1d_invalidate_all()),
        Command::Mode { mode } => call!(c64x_change_mode(mode)),
        Command::Mar { number, bit } => call!(c64x_change_mar(number, bit)),
        Command::Freeze { frozen } => call!(c64x_freeze(frozen)),
    }
}

/// A non-aligned access.
pub fn unaligned(record: &mut CRecord, access: &Unaligned, lent: Lent) -> CAnswer {
    match *access {
        Unaligned::Read { size, address } => {
            call_lent!(c64x_read_unaligned, record, lent, size, address)
        }
        Unaligned::Write { size, address, value } => {
            call_lent!(c64x_write_unaligned, record, lent, size, address, value)
        }
    }
}

/// A fetch, or an invalidation of L1P.
pub fn program(record: &mut CRecord, call: &Program, lent: Lent) -> CFetched {
    match *call {
        Program::Fetch { address } => call_lent!(c64x_fetch, record, lent, address),
        Program::InvalidateBlock { base, count } => {
            CFetched::of(call_lent!(c64x_l1p_invalidate_block, record, lent, base, count))
        }
        Program::InvalidateAll => CFetched::of(call_lent!(c64x_l1p_invalidate_all, record, lent)),
    }
}

/// The buffer of a transfer, or the pixels of a frame, between bytes that no call may change. Where
/// there is none of that length, and for half of those of no byte, the call is given an address at
/// which nothing stands.
#[derive(Clone)]
pub struct Buffer {
    whole: Vec<u8>,
    length: usize,
    nowhere: bool,
}

impl Buffer {
    /// So many bytes stand in front of a buffer, and as many behind it.
    const AROUND: usize = 64;

    /// The buffer before the transfer.
    pub fn of(transfer: &Transfer) -> Buffer {
        Buffer::drawn(transfer.buffer(), transfer.length, transfer.filling)
    }

    /// The pixels of a frame.
    pub fn of_frame(frame: &Frame) -> Buffer {
        Buffer::drawn(frame.pixels(), frame.length, frame.filling)
    }

    fn drawn(bytes: Option<Vec<u8>>, length: usize, filling: u64) -> Buffer {
        let empty = length == 0 && filling % 2 == 1;
        let nowhere = bytes.is_none() || empty;
        Buffer::around(&bytes.unwrap_or_default(), length, nowhere)
    }

    /// One that holds these bytes.
    fn around(bytes: &[u8], length: usize, nowhere: bool) -> Buffer {
        let guard = [0xA7; Buffer::AROUND];
        Buffer { whole: [&guard, bytes, &guard].concat(), length, nowhere }
    }

    /// The same with other bytes in it.
    pub fn with(&self, bytes: &[u8]) -> Buffer {
        Buffer::around(bytes, self.length, self.nowhere)
    }

    /// The bytes of the buffer; there are none of one that is not there.
    pub fn bytes(&self) -> &[u8] {
        &self.whole[Buffer::AROUND..self.whole.len() - Buffer::AROUND]
    }

    pub fn bytes_mut(&mut self) -> &mut [u8] {
        let behind = self.whole.len() - Buffer::AROUND;
        &mut self.whole[Buffer::AROUND..behind]
    }

    /// The bytes with those around them.
    pub fn whole(&self) -> &[u8] {
        &self.whole
    }

    /// The byte behind the buffer, for differences that are planted.
    pub fn behind(&mut self) -> &mut u8 {
        let behind = self.whole.len() - Buffer::AROUND;
        &mut self.whole[behind]
    }

    fn pointer(&mut self) -> *mut u8 {
        if self.nowhere {
            return ptr::without_provenance_mut(1);
        }
        self.whole[Buffer::AROUND..].as_mut_ptr()
    }
}

/// A transfer, by way of its buffer.
pub fn transfer(
    record: &mut CRecord,
    transfer: &Transfer,
    buffer: &mut Buffer,
    lent: Lent,
) -> CAnswer {
    let (address, length, pointer) = (transfer.address, buffer.length, buffer.pointer());
    match transfer.direction {
        Direction::In => {
            call_lent!(c64x_transfer_in, record, lent, address, pointer.cast_const(), length)
        }
        Direction::Out => call_lent!(c64x_transfer_out, record, lent, address, pointer, length),
    }
}

/// A frame, by way of its pixels.
pub fn frame(record: &mut CRecord, frame: &Frame, pixels: &mut Buffer, lent: Lent) -> CFramed {
    let (turn, length, pointer) = (frame.turn, pixels.length, pixels.pointer().cast_const());
    call_lent!(c64x_frame, record, lent, turn, pointer, length)
}

/// The calls that a frame is made of; a mistaken one is made of others.
#[derive(Clone, Copy)]
pub struct FrameCalls {
    pub place: u32,
    pub l2_command: bool,
    pub l1d_command: bool,
    pub transfer: bool,
    /// From the last pixel to the first.
    pub downwards: bool,
}

impl FrameCalls {
    /// Those that it should be made of.
    pub fn of(frame: &Frame) -> FrameCalls {
        FrameCalls {
            place: place_of(frame.turn),
            l2_command: true,
            l1d_command: true,
            transfer: true,
            downwards: false,
        }
    }

    /// The commands over its place.
    pub fn commands(&self) -> Vec<Command> {
        let (base, count) = (self.place, FRAME_BYTES as u32 / 4);
        let l2 = self.l2_command.then_some(Command::L2BlockWritebackInvalidate { base, count });
        let l1d = self.l1d_command.then_some(Command::L1dBlockWritebackInvalidate { base, count });
        l2.into_iter().chain(l1d).collect()
    }

    /// Makes the commands.
    pub fn cover(&self, record: &mut CRecord, lent: &mut Lent) {
        for command in self.commands() {
            direct(record, &command, lent.again());
        }
    }

    /// Makes them all, the reads as a run over a trace; what each pixel was read as, in the frame's
    /// order.
    pub fn make(&self, record: &mut CRecord, pixels: &[u8], mut lent: Lent) -> Vec<u8> {
        let base = self.place;
        self.cover(record, &mut lent);
        if self.transfer {
            call_lent!(c64x_transfer_in, record, lent, base, pixels.as_ptr(), pixels.len());
        }
        let mut trace = Vec::new();
        for place in 0..FRAME_BYTES as u32 {
            let place = if self.downwards { FRAME_BYTES as u32 - 1 - place } else { place };
            encode(&Command::Read { size: 1, address: base + place }, &mut trace);
        }
        let mut answers = vec![0; FRAME_BYTES * ANSWER_BYTES];
        run(record, &trace, lent, &mut answers);
        let mut read: Vec<u8> = answers.chunks(ANSWER_BYTES).map(|answer| answer[2]).collect();
        if self.downwards {
            read.reverse();
        }
        read
    }
}

/// The columns of so many rows of pixels added up.
pub fn column_sums(pixels: &[u8]) -> [u32; COLUMNS] {
    let mut sums = [0; COLUMNS];
    for (place, &pixel) in pixels.iter().enumerate() {
        sums[place % COLUMNS] += u32::from(pixel);
    }
    sums
}

/// The bytes of a non-aligned access as single calls, from the lowest address up or from the
/// highest down: what each answers, in this order.
pub fn by_bytes(
    record: &mut CRecord,
    access: &Unaligned,
    mut lent: Lent,
    downwards: bool,
) -> Vec<CAnswer> {
    let mut bytes: Vec<u32> = (0..access.size()).collect();
    if downwards {
        bytes.reverse();
    }
    let mut answers = Vec::new();
    for byte in bytes {
        let (size, address) = (1, access.address().wrapping_add(byte));
        let command = match *access {
            Unaligned::Read { .. } => Command::Read { size, address },
            Unaligned::Write { value, .. } => {
                Command::Write { size, address, value: value >> (8 * byte) & 0xFF }
            }
        };
        answers.push(direct(record, &command, lent.again()));
    }
    answers
}

/// A fresh start.
pub fn fresh(record: &mut CRecord, lent: Lent) -> CAnswer {
    call_lent!(c64x_fresh, record, lent)
}

/// A run over a trace.
pub fn run(record: &mut CRecord, trace: &[u8], lent: Lent, answers: &mut [u8]) -> CRun {
    unsafe {
        c64x_run(
            record,
            trace.as_ptr(),
            trace.len(),
            lent.l1d.as_mut_ptr(),
            lent.l1d.len(),
            lent.l2.as_mut_ptr(),
            lent.l2.len(),
            lent.ext.as_mut_ptr(),
            lent.ext.len(),
            lent.l1p.as_mut_ptr(),
            lent.l1p.len(),
            answers.as_mut_ptr(),
            answers.len(),
        )
    }
}

/// The technician's call.
pub fn view(record: &CRecord, address: u32, l2: &[u8], ext: &[u8], seen: &mut [u8]) -> u8 {
    unsafe {
        c64x_view(
            record,
            address,
            l2.as_ptr(),
            l2.len(),
            ext.as_ptr(),
            ext.len(),
            seen.as_mut_ptr(),
            seen.len(),
        )
    }
}

/// The number of the technician's call.
pub fn view_number(record: &CRecord, address: u32, l2: &[u8], ext: &[u8]) -> u8 {
    unsafe { c64x_view_number(record, address, l2.as_ptr(), l2.len(), ext.as_ptr(), ext.len()) }
}

/// The short run of a number.
pub fn short_run_of(number: u32) -> CShortRun {
    unsafe { c64x_short_run_of(number) }
}

/// The number of a short run.
pub fn short_run_number(digits: &[u8]) -> CRunNumber {
    unsafe { c64x_short_run_number(digits.as_ptr(), digits.len()) }
}

// ------------------------------------------------------------- conversion

fn line(line: &Line) -> CLine {
    CLine {
        valid: line.valid.into(),
        dirty: line.dirty.into(),
        padding: [0; 2],
        address: line.address,
    }
}

fn l1d_set(set: &L1dSet) -> CL1dSet {
    CL1dSet { lines: [line(&set.lines[0]), line(&set.lines[1])], order: set.order, padding: [0; 2] }
}

fn l2_set(set: &L2Set) -> CL2Set {
    CL2Set {
        lines: [line(&set.lines[0]), line(&set.lines[1]), line(&set.lines[2]), line(&set.lines[3])],
        order: set.order,
    }
}

fn l1p_set(set: &L1pSet) -> CL1pSet {
    CL1pSet { lines: [line(&set.lines[0])] }
}

/// The record in C's layout, its padding 0. C has a byte for the mode, for each
/// MAR bit and for the freeze: the reference model's record must hold no larger
/// numbers there.
pub fn record_of(record: &Record) -> Box<CRecord> {
    let byte = |number: u32| u8::try_from(number).expect("C's record has a byte for it");
    Box::new(CRecord {
        l2len: record.l,
        extlen: record.e,
        mode: byte(record.mode),
        mar128: byte(record.mar128),
        mar129: byte(record.mar129),
        frozen: byte(record.frozen),
        dirty_l1d: record.dirty_l1d,
        dirty_l2: record.dirty_l2,
        l1d: std::array::from_fn(|set| l1d_set(&record.l1d[set])),
        l2: std::array::from_fn(|set| l2_set(&record.l2[set])),
        l1p: std::array::from_fn(|set| l1p_set(&record.l1p[set])),
    })
}

/// Whether the two records are the same, field by field.
pub fn same_record(ours: &CRecord, theirs: &Record) -> bool {
    ours.l2len == theirs.l
        && ours.extlen == theirs.e
        && u32::from(ours.mode) == theirs.mode
        && u32::from(ours.mar128) == theirs.mar128
        && u32::from(ours.mar129) == theirs.mar129
        && u32::from(ours.frozen) == theirs.frozen
        && ours.dirty_l1d == theirs.dirty_l1d
        && ours.dirty_l2 == theirs.dirty_l2
        && ours.l1d.iter().zip(&theirs.l1d).all(|(ours, theirs)| *ours == l1d_set(theirs))
        && ours.l2.iter().zip(&theirs.l2).all(|(ours, theirs)| *ours == l2_set(theirs))
        && ours.l1p.iter().zip(&theirs.l1p).all(|(ours, theirs)| *ours == l1p_set(theirs))
}

fn left_of(left: Left) -> CLeft {
    match left {
        Left::None => CLeft::NONE,
        Left::Empty => CLeft::EMPTY,
        Left::Clean { address } => CLeft::clean(address),
        Left::Dirty { address } => CLeft::dirty(address),
    }
}

/// What left the way of L1P, in C's numbers.
pub fn l1p_left_of(fetched: &Fetched) -> CLeft {
    left_of(fetched.l1p_left)
}

/// A report of the reference model in C's numbers.
pub fn report_of(report: &Report) -> CReport {
    CReport {
        l1d_left: left_of(report.l1d_left),
        l2_left: left_of(report.l2_left),
        read: report.external_read,
        written: report.external_written,
    }
}

/// The way of a set that holds a line.
fn way_of(lines: &[CLine], address: u32) -> Option<usize> {
    lines.iter().position(|line| line.valid == 1 && line.address == address)
}

/// Whether L1D holds the line of this address.
pub fn l1d_holds(record: &CRecord, address: u32) -> bool {
    way_of(&record.l1d[L1d::set_of(address)].lines, L1d::line_address(address)).is_some()
}

/// Whether L1P holds the line of this address.
pub fn l1p_holds(record: &CRecord, address: u32) -> bool {
    way_of(&record.l1p[L1p::set_of(address)].lines, L1p::line_address(address)).is_some()
}

/// Whether L2 holds the line of this address.
pub fn l2_holds(record: &CRecord, address: u32) -> bool {
    let Some(set) = L2::set_of(record.mode.into(), address) else { return false };
    way_of(&record.l2[set].lines, L2::line_address(address)).is_some()
}

/// Whether L2 holds this line, and dirty.
pub fn l2_is_dirty(record: &CRecord, address: u32) -> bool {
    let Some(set) = L2::set_of(record.mode.into(), address) else { return false };
    let lines = &record.l2[set].lines;
    way_of(lines, L2::line_address(address)).is_some_and(|way| lines[way].dirty == 1)
}

/// Whether L1D holds this line, and dirty.
pub fn l1d_is_dirty(record: &CRecord, address: u32) -> bool {
    let lines = &record.l1d[L1d::set_of(address)].lines;
    way_of(lines, address).is_some_and(|way| lines[way].dirty == 1)
}

/// What a way tells in which a line stood.
fn told(line: &CLine, dirty: bool) -> CLeft {
    match (line.valid, dirty) {
        (0, _) => CLeft::EMPTY,
        (_, false) => CLeft::clean(line.address),
        (_, true) => CLeft::dirty(line.address),
    }
}

/// What the records before and after an access say of the ways that it chose in L1D and in
/// L2: the one that holds the line of its address now was chosen, if none did before. A
/// line of L2 is dirty with a half that was so in L1D. Both records are well formed.
pub fn left_by_records(before: &CRecord, after: &CRecord, address: u32) -> (CLeft, CLeft) {
    let chosen = |before: &[CLine], after: &[CLine], line: u32| match way_of(before, line) {
        None => way_of(after, line).map(|way| before[way]),
        Some(_) => None,
    };
    let set = L1d::set_of(address);
    let (was, now) = (&before.l1d[set].lines, &after.l1d[set].lines);
    let l1d = chosen(was, now, L1d::line_address(address))
        .map_or(CLeft::NONE, |line| told(&line, line.dirty == 1));
    let Some(set) = L2::set_of(before.mode.into(), address) else { return (l1d, CLeft::NONE) };
    let (was, now) = (&before.l2[set].lines, &after.l2[set].lines);
    let l2 = chosen(was, now, L2::line_address(address)).map_or(CLeft::NONE, |line| {
        let halves = [line.address, line.address + L1d::LINE];
        let by_half = line.valid == 1 && halves.iter().any(|&half| l1d_is_dirty(before, half));
        told(&line, line.dirty == 1 || by_half)
    });
    (l1d, l2)
}

/// What they say of the way of L1P that a fetch chose, if it chose one.
pub fn l1p_left_by_records(before: &CRecord, after: &CRecord, address: u32) -> CLeft {
    let was = &before.l1p[L1p::set_of(address)].lines[0];
    if l1p_holds(before, address) || !l1p_holds(after, address) {
        return CLeft::NONE;
    }
    told(was, was.dirty == 1)
}

/// A set in words: for each way valid, dirty and address, then the order.
fn set_words(lines: &[CLine], order: &[u8]) -> String {
    let ways: Vec<String> = lines
        .iter()
        .map(|line| format!("{} {} {:#x}", line.valid, line.dirty, line.address))
        .collect();
    let ways = ways.join(", ");
    match order {
        // L1P has no order of use.
        [] => format!("[{ways}]"),
        _ => format!("[{ways}] order {order:?}"),
    }
}

/// Where the bytes of two records differ whose fields may be the same.
pub fn byte_difference(ours: &CRecord, theirs: &CRecord) -> String {
    if ours != theirs {
        return record_difference(ours, theirs);
    }
    let places = ours.bytes().iter().zip(theirs.bytes()).enumerate();
    let differ: Vec<_> = places.filter(|(_, (ours, theirs))| ours != theirs).collect();
    let Some((place, (ours, theirs))) = differ.first() else { return "no difference".into() };
    let more = differ.len();
    format!("padding byte {place} is {ours:#04x}, expected {theirs:#04x}; {more} bytes differ")
}

/// A dirty line in either cache.
pub fn dirty_line(record: &CRecord) -> Option<String> {
    let l1d = record.l1d.iter().flat_map(|set| &set.lines).map(|line| ("L1D", line));
    let l2 = record.l2.iter().flat_map(|set| &set.lines).map(|line| ("L2", line));
    let (cache, line) = l1d.chain(l2).find(|(_, line)| line.dirty != 0)?;
    Some(format!("{cache} line {:#x}", line.address))
}

/// How many ways of L1D and of L2 are marked dirty.
pub fn dirty_marks(record: &CRecord) -> (u32, u32) {
    let marked = |lines: &[CLine]| lines.iter().filter(|line| line.dirty != 0).count() as u32;
    let l1d = record.l1d.iter().map(|set| marked(&set.lines)).sum();
    let l2 = record.l2.iter().map(|set| marked(&set.lines)).sum();
    (l1d, l2)
}

/// Where two records of C's differ.
pub fn record_difference(ours: &CRecord, theirs: &CRecord) -> String {
    let mut found = Vec::new();
    let mut numbers = |name: &str, ours: u32, theirs: u32| {
        if ours != theirs {
            found.push(format!("{name} is {ours}, expected {theirs}"));
        }
    };
    numbers("l2len", ours.l2len, theirs.l2len);
    numbers("extlen", ours.extlen, theirs.extlen);
    numbers("mode", ours.mode.into(), theirs.mode.into());
    numbers("mar128", ours.mar128.into(), theirs.mar128.into());
    numbers("mar129", ours.mar129.into(), theirs.mar129.into());
    numbers("frozen", ours.frozen.into(), theirs.frozen.into());
    numbers("dirty_l1d", ours.dirty_l1d, theirs.dirty_l1d);
    numbers("dirty_l2", ours.dirty_l2, theirs.dirty_l2);
    for (set, (ours, theirs)) in ours.l1d.iter().zip(&theirs.l1d).enumerate() {
        if ours != theirs {
            let ours = set_words(&ours.lines, &ours.order);
            let theirs = set_words(&theirs.lines, &theirs.order);
            found.push(format!("L1D set {set} is {ours}, expected {theirs}"));
        }
    }
    for (set, (ours, theirs)) in ours.l2.iter().zip(&theirs.l2).enumerate() {
        if ours != theirs {
            let ours = set_words(&ours.lines, &ours.order);
            let theirs = set_words(&theirs.lines, &theirs.order);
            found.push(format!("L2 set {set} is {ours}, expected {theirs}"));
        }
    }
    for (set, (ours, theirs)) in ours.l1p.iter().zip(&theirs.l1p).enumerate() {
        if ours != theirs {
            let ours = set_words(&ours.lines, &[]);
            let theirs = set_words(&theirs.lines, &[]);
            found.push(format!("L1P set {set} is {ours}, expected {theirs}"));
        }
    }
    let more = found.len().saturating_sub(3);
    found.truncate(3);
    let mut text = found.join("; ");
    if more > 0 {
        text.push_str(&format!("; and {more} more"));
    }
    text
}

#[cfg(test)]
mod tests {
    use super::{
        by_bytes, byte_difference, column_sums, dirty_line, dirty_marks, frame, l1d_holds,
        l2_holds, left_by_records, padding_of, record_of, report_of, transfer, Buffer, CAnswer,
        CFramed, CLeft, CReport, FrameCalls, Held, Lent,
    };
    use oracle::gen::{Frame, Setup, Transfer};
    use oracle::{Direction, Left, Line, Record, Report, Unaligned};

    /// 2 for each of 128 sets of L1D, 2 for each line.
    const PADDING_BYTES: usize = 128 * 2 + (128 * 2 + 512 * 4 + 512) * 2;

    #[test]
    fn padding_is_no_field() {
        let (clean, random) = (padding_of(0), padding_of(7));
        assert!(*clean == *random);
        let other = clean.bytes().iter().zip(random.bytes()).filter(|(a, b)| a != b).count();
        // Of random bytes one in 256 is 0.
        assert!(other <= PADDING_BYTES && other > PADDING_BYTES * 9 / 10, "{other}");
        // Those of the first line of L1D.
        assert!(byte_difference(&random, &clean).starts_with("padding byte 22 is"));
    }

    #[test]
    fn all_of_the_padding_is_filled() {
        let (mut record, random) = (padding_of(9), padding_of(7));
        record.pad_like(&random);
        assert!(record.bytes() == random.bytes());
    }

    #[test]
    fn a_field_is_told_before_padding() {
        let (mut record, clean) = (padding_of(7), padding_of(0));
        record.mar129 = 1;
        assert_eq!(byte_difference(&record, &clean), "mar129 is 1, expected 0");
    }

    #[test]
    fn records_stand_at_a_multiple_of_four_alone() {
        let record = Held::new(&padding_of(0));
        assert_eq!((&**record as *const super::CRecord).addr() % 16, 4);
    }

    #[test]
    fn dirty_lines_are_found() {
        let mut record = Record::fresh(65_536, 65_536);
        record.l1d[0].lines[0] = Line { valid: true, dirty: false, address: 0 };
        record.l2[0].lines[0] = Line { valid: true, dirty: false, address: 0x8000_0000 };
        assert_eq!(dirty_line(&record_of(&record)), None);
        record.l2[511].lines[3] = Line { valid: true, dirty: true, address: 0x8000_FF80 };
        let found = dirty_line(&record_of(&record));
        assert_eq!(found.as_deref(), Some("L2 line 0x8000ff80"));
        record.l1d[127].lines[1] = Line { valid: true, dirty: true, address: 0x8000_1FC0 };
        let found = dirty_line(&record_of(&record));
        assert_eq!(found.as_deref(), Some("L1D line 0x80001fc0"));
        // A global writeback sends lines of SRAM home too.
        record.l1d[1].lines[1] = Line { valid: true, dirty: true, address: 64 };
        assert_eq!(dirty_line(&record_of(&record)).as_deref(), Some("L1D line 0x40"));
        assert_eq!(dirty_marks(&record_of(&record)), (2, 1));
    }

    #[test]
    fn reports_in_c_and_in_words() {
        let report = Report {
            l1d_left: Left::Clean { address: 64 },
            l2_left: Left::Dirty { address: 0x8000_0080 },
            external_read: 128,
            external_written: 7,
        };
        let words = "L1D clean 0x40, L2 dirty 0x80000080, read 128, written 7";
        assert_eq!(format!("{:?}", report_of(&report)), words);
        assert_eq!(report_of(&Report::NONE), CReport::NONE);
        assert_eq!(CAnswer::refused(9).report(), CReport::NONE);
        let empty = Report { l1d_left: Left::Empty, ..Report::NONE };
        assert_eq!(report_of(&empty), CReport { l1d_left: CLeft::EMPTY, ..CReport::NONE });
        // What no call may give back is seen.
        let odd = CReport {
            l1d_left: CLeft { address: 64, kind: 1 },
            l2_left: CLeft { address: 128, kind: 4 },
            ..CReport::NONE
        };
        assert_eq!(format!("{odd:?}"), "L1D empty 0x40, L2 kind 4 0x80, read 0, written 0");
        assert_ne!(odd.l1d_left, CLeft::EMPTY);
    }

    /// What the records tell of the next read, and of the next write.
    fn told(setup: &Setup, address: u32) -> [(CLeft, CLeft); 2] {
        let before = record_of(&setup.record);
        let (mut by_read, mut by_write) = (setup.clone(), setup.clone());
        by_read.read(4, address);
        by_write.write(4, address, 1);
        [by_read, by_write]
            .map(|after| left_by_records(&before, &record_of(&after.record), address))
    }

    #[test]
    fn records_tell_what_left() {
        const A: u32 = 0x8000_0000;
        let (none, empty) = (CLeft::NONE, CLeft::EMPTY);
        let mut setup = Setup::fresh(65_536, 65_536);
        assert_eq!(told(&setup, A), [(none, none), (none, none)]);
        setup.mar(128, 1);
        assert_eq!(told(&setup, A), [(empty, none), (none, none)]);
        setup.mode(1);
        assert_eq!(told(&setup, A), [(empty, empty), (none, empty)]);
        assert_eq!(told(&setup, 64), [(empty, none), (none, none)]);
        setup.read(4, A + 64);
        assert_eq!(told(&setup, A), [(empty, none), (none, none)]);
        assert_eq!(told(&setup, A + 64), [(none, none), (none, none)]);
        // The upper half becomes dirty; three more lines come without L1D.
        setup.write(4, A + 64, 1);
        for turn in 1..4 {
            setup.write(4, A + turn * 8_192, 1);
        }
        let next = A + 4 * 8_192;
        assert_eq!(told(&setup, next), [(empty, CLeft::dirty(A)), (none, CLeft::dirty(A))]);
        // The half leaves, and its line is dirty by itself.
        setup.read(4, 64);
        setup.read(4, 64 + 8_192);
        assert_eq!(told(&setup, 64 + 16_384)[0], (CLeft::clean(64), none));
        assert_eq!(told(&setup, next + 64)[0], (CLeft::clean(64), CLeft::dirty(A)));
        setup.freeze(1);
        assert_eq!(told(&setup, next), [(none, CLeft::dirty(A)), (none, CLeft::dirty(A))]);
    }

    /// Whatever the length, the call is made; of a buffer its own bytes change and none around it.
    #[test]
    fn buffers_of_every_length() {
        let mut setup = Setup::fresh_over(32_768, vec![5; 256]);
        let mut record = record_of(&setup.record);
        for direction in [Direction::In, Direction::Out] {
            for (length, number) in
                [(0, 13), (3, 13), (4, 0), (256, 0), (260, 14), (262_144, 13), (usize::MAX, 13)]
            {
                for filling in [2, 3] {
                    let drawn = Transfer { direction, address: 0x8000_0000, length, filling };
                    let mut buffer = Buffer::of(&drawn);
                    let Setup { l1d, l2, ext, l1p, .. } = &mut setup;
                    let stood = ext.clone();
                    let lent = Lent { l1d, l2, ext, l1p };
                    let answer = transfer(&mut record, &drawn, &mut buffer, lent);
                    assert_eq!(answer.number, number, "{drawn:?}");
                    let given = drawn.buffer().unwrap_or_default();
                    let moved = number == 0 && direction == Direction::Out;
                    let expected = if moved { &stood[..length] } else { &given[..] };
                    assert_eq!(buffer.whole(), Buffer::of(&drawn).with(expected).whole());
                    assert_eq!(buffer.bytes(), expected);
                    if number == 0 && !moved {
                        assert!(setup.ext[..length] == given);
                    }
                }
            }
        }
    }

    /// A frame by its calls is the frame, and one without the commands is not where a line of the
    /// place is dirty. Whatever the length, the call is made.
    #[test]
    fn frames_and_their_calls() {
        const A: u32 = 0x8000_0000;
        let mut start = Setup::fresh_over(65_536, vec![5; 8_192]);
        start.mar(128, 1);
        start.mode(1);
        start.read(1, A);
        start.write(1, A, 9);
        for (length, number) in [(3_072, 0), (0, 20), (3_071, 20), (3_073, 20), (usize::MAX, 20)] {
            for filling in [0, 3, Frame::WHITE] {
                let drawn = Frame { turn: 6, length, filling };
                let (mut setup, mut pixels) = (start.clone(), Buffer::of_frame(&drawn));
                let mut record = record_of(&setup.record);
                let Setup { l1d, l2, ext, l1p, .. } = &mut setup;
                let lent = Lent { l1d, l2, ext, l1p };
                let framed = frame(&mut record, &drawn, &mut pixels, lent);
                assert_eq!(pixels.whole(), Buffer::of_frame(&drawn).whole());
                let sums = if number == 0 { column_sums(pixels.bytes()) } else { [0; 64] };
                let turn = u8::from(number == 0);
                assert_eq!(framed, CFramed { number, turn, sums }, "{drawn:?}");
            }
        }
        for (commands, first) in [(true, 7), (false, 9)] {
            let calls = FrameCalls {
                l2_command: commands,
                l1d_command: commands,
                ..FrameCalls::of(&Frame { turn: 0, length: 3_072, filling: 0 })
            };
            let mut setup = start.clone();
            let mut record = record_of(&setup.record);
            let Setup { l1d, l2, ext, l1p, .. } = &mut setup;
            let lent = Lent { l1d, l2, ext, l1p };
            let read = calls.make(&mut record, &[7; 3_072], lent);
            assert_eq!(
                (read[0], read[64], read.len()),
                (first, if commands { 7 } else { 5 }, 3_072)
            );
            assert_eq!(column_sums(&read)[1], if commands { 48 * 7 } else { 46 * 7 + 2 * 5 });
        }
    }

    #[test]
    fn bytes_in_both_directions() {
        let mut setup = Setup::fresh_over(65_536, (0..128).collect());
        setup.mar(128, 1);
        setup.mode(1);
        let access = Unaligned::Read { size: 4, address: 0x8000_003E };
        for (downwards, values) in [(false, [62, 63, 64, 65]), (true, [65, 64, 63, 62])] {
            let Setup { mut l1d, mut l2, mut ext, mut l1p, .. } = setup.clone();
            let mut record = record_of(&setup.record);
            let lent = Lent { l1d: &mut l1d, l2: &mut l2, ext: &mut ext, l1p: &mut l1p };
            let bytes = by_bytes(&mut record, &access, lent, downwards);
            let told = bytes.iter().map(|byte| (byte.number, byte.server, byte.value));
            let servers = [4, 1, 3, 1];
            assert!(told.eq(servers.iter().zip(values).map(|(&server, value)| (0, server, value))));
            for address in [0x8000_0000, 0x8000_003F, 0x8000_0040, 0x8000_007F] {
                assert!(l1d_holds(&record, address) && l2_holds(&record, address));
            }
            assert!(!l1d_holds(&record, 0x8000_0080) && !l2_holds(&record, 0x8000_0080));
            assert!(!l1d_holds(&record, 0x8000_2000) && !l2_holds(&record, 0x8000_2000));
        }
    }
}

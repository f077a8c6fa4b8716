//! Makes a failing case smaller, greedily: fewer calls, shorter traces and
//! answers, fewer lines in the record, as long as a difference of the same kind
//! is left.

use std::time::{Duration, Instant};

use oracle::calls::fresh_start;
use oracle::gen::{Frame, Setup, Transfer};
use oracle::record::{L1dSet, L1pSet, L2Set, Line, Record};
use oracle::trace::{decode, ANSWER_BYTES};

use crate::pair::{compare, Difference, Met, Op, Start};

/// How many smaller cases are tried at most, and for how long: a case with much
/// external memory takes its time.
const TRIES: usize = 4_000;
const LIMIT: Duration = Duration::from_secs(60);

/// A case that fails, and how.
pub struct Case {
    pub start: Start,
    pub ops: Vec<Op>,
    pub difference: Difference,
}

/// What is to become smaller.
#[derive(Clone, Copy, PartialEq, Eq, Default)]
pub struct Size {
    pub calls: usize,
    pub trace_bytes: usize,
    pub answer_bytes: usize,
    pub odd_bytes: usize,
    /// Lines of the record to begin with.
    pub lines: usize,
    pub external: usize,
}

impl Case {
    pub fn size(&self) -> Size {
        let setup = &self.start.setup;
        let l1d = setup.record.l1d.iter().flat_map(|set| set.lines);
        let l2 = setup.record.l2.iter().flat_map(|set| set.lines);
        let l1p = setup.record.l1p.iter().flat_map(|set| set.lines);
        Size {
            calls: self.ops.len(),
            trace_bytes: self.ops.iter().filter_map(run_of).map(|(trace, _)| trace.len()).sum(),
            answer_bytes: self.ops.iter().filter_map(run_of).map(|(_, bytes)| bytes).sum(),
            odd_bytes: self.start.odd.len(),
            lines: l1d.chain(l2).chain(l1p).filter(|line| *line != Line::EMPTY).count(),
            external: setup.ext.len(),
        }
    }
}

struct Shrinker {
    case: Case,
    tries: usize,
    begun: Instant,
}

/// The smallest case that was found.
pub fn shrink(case: Case) -> Case {
    let mut shrinker = Shrinker { case, tries: 0, begun: Instant::now() };
    // Nothing after the difference matters.
    let mut kept = shrinker.case.ops.clone();
    kept.truncate(shrinker.case.difference.op + 1);
    shrinker.try_ops(kept);
    loop {
        let before = shrinker.case.size();
        shrinker.start_before_the_last_call();
        shrinker.shorten_external();
        shrinker.clear_memories();
        shrinker.drop_ops();
        shrinker.make_calls_plain();
        shrinker.shorten_transfers();
        shrinker.make_frames_plain();
        shrinker.shorten_traces();
        shrinker.shorten_answers();
        shrinker.drop_digits();
        shrinker.drop_odd_bytes();
        shrinker.clear_padding();
        shrinker.try_record(|record| record.frozen = 0);
        shrinker.empty_sets();
        shrinker.empty_ways();
        if shrinker.case.size() == before || shrinker.is_over() {
            return shrinker.case;
        }
    }
}

impl Shrinker {
    fn is_over(&self) -> bool {
        self.tries >= TRIES || self.begun.elapsed() >= LIMIT
    }

    /// Whether a difference of the same kind is left; if so the case is taken.
    fn try_case(&mut self, start: Start, mut ops: Vec<Op>) -> bool {
        if self.is_over() {
            return false;
        }
        self.tries += 1;
        match compare(&start, &ops, &mut Met::default()) {
            Some(difference) if difference.kind == self.case.difference.kind => {
                ops.truncate(difference.op + 1);
                self.case = Case { start, ops, difference };
                true
            }
            _ => false,
        }
    }

    fn try_ops(&mut self, ops: Vec<Op>) -> bool {
        self.try_case(self.case.start.clone(), ops)
    }

    fn try_start(&mut self, start: Start) -> bool {
        self.try_case(start, self.case.ops.clone())
    }

    /// Begins with what the calls before the difference leave behind, by the
    /// reference model. That is not enough where an earlier call made it.
    fn start_before_the_last_call(&mut self) {
        let Case { start, ops, difference } = &self.case;
        // Flat memory and histories have to begin with a fresh start. A record with
        // a byte that is no bool stays as it is.
        if start.flat || start.history || !start.odd.is_empty() || difference.op == 0 {
            return;
        }
        let mut setup = start.setup.clone();
        for op in &ops[..difference.op] {
            match op {
                Op::Fresh => {
                    let Setup { l1d, l2, ext, l1p, .. } = &mut setup;
                    let (record, _) = fresh_start(l1d, l2, ext, l1p);
                    setup.record = record;
                }
                Op::Record(record) => setup.record = record.clone(),
                Op::Direct(command) => {
                    setup.call(command);
                }
                Op::Unaligned(access) => {
                    setup.unaligned(access);
                }
                Op::Transfer(transfer) => {
                    setup.transfer(transfer);
                }
                Op::Frame(frame) => {
                    setup.frame(frame);
                }
                Op::Program(call) => {
                    setup.program(call);
                }
                Op::Run { trace, answer_bytes } | Op::RunAndSingleCalls { trace, answer_bytes } => {
                    setup.run(trace, &mut vec![0; *answer_bytes]);
                }
                Op::View { .. } | Op::ShortRunOf(_) | Op::ShortRunNumber(_) => {}
            }
        }
        let last = ops[difference.op..].to_vec();
        let (padding, moves) = (start.padding, start.moves);
        let start = Start { setup, odd: Vec::new(), padding, flat: false, history: false, moves };
        self.try_case(start, last);
    }

    /// Tries shorter external memories, which make all further tries quicker too,
    /// with an E that is like the length if it was so before.
    fn shorten_external(&mut self) {
        let setup = &self.case.start.setup;
        let alike = u32::try_from(setup.ext.len()) == Ok(setup.record.e);
        for e in [128, 256, 8_192, 65_536, 16_777_216, 16_777_216 + 128, 16_777_216 + 65_536] {
            if e as usize >= self.case.start.setup.ext.len() {
                return;
            }
            let mut start = self.case.start.clone();
            start.setup.ext.truncate(e as usize);
            if alike {
                start.setup.record.e = e;
            }
            if self.try_start(start) {
                return;
            }
        }
    }

    /// Makes the bytes of each memory 0.
    fn clear_memories(&mut self) {
        for memory in 0..4 {
            let setup = &self.case.start.setup;
            let memories = [&setup.l1d, &setup.l2, &setup.ext, &setup.l1p];
            if memories[memory].iter().all(|&byte| byte == 0) {
                continue;
            }
            let mut start = self.case.start.clone();
            let setup = &mut start.setup;
            [&mut setup.l1d, &mut setup.l2, &mut setup.ext, &mut setup.l1p][memory].fill(0);
            self.try_start(start);
        }
    }

    /// Leaves out parts of the list, long ones first.
    fn drop_ops(&mut self) {
        let mut length = self.case.ops.len().div_ceil(2);
        while length > 0 {
            let mut from = 0;
            while from < self.case.ops.len() {
                let mut ops = self.case.ops.clone();
                ops.drain(from..(from + length).min(ops.len()));
                if !self.try_ops(ops) {
                    from += length;
                }
            }
            length /= 2;
        }
    }

    /// Tries a run alone where single calls come after it, and a view's buffer
    /// that is just long enough.
    fn make_calls_plain(&mut self) {
        let mut op = 0;
        while let Some(call) = self.case.ops.get(op) {
            let plain = match call {
                Op::RunAndSingleCalls { trace, answer_bytes } => {
                    Some(Op::Run { trace: trace.clone(), answer_bytes: *answer_bytes })
                }
                Op::View { address, buffer: 65.. } => {
                    Some(Op::View { address: *address, buffer: 64 })
                }
                _ => None,
            };
            if let Some(plain) = plain {
                let mut ops = self.case.ops.clone();
                ops[op] = plain;
                self.try_ops(ops);
            }
            op += 1;
        }
    }

    /// Tries shorter transfers, the shortest first, and buffers whose bytes are 0.
    fn shorten_transfers(&mut self) {
        let mut op = 0;
        while let Some(call) = self.case.ops.get(op) {
            if let Op::Transfer(transfer) = *call {
                for length in [4, 64, 128].into_iter().filter(|&length| length < transfer.length) {
                    if self.try_transfer(op, Transfer { length, ..transfer }) {
                        break;
                    }
                }
            }
            if let Some(Op::Transfer(transfer)) = self.case.ops.get(op).cloned() {
                if transfer.filling != 0 {
                    self.try_transfer(op, Transfer { filling: 0, ..transfer });
                }
            }
            op += 1;
        }
    }

    fn try_transfer(&mut self, op: usize, transfer: Transfer) -> bool {
        let mut ops = self.case.ops.clone();
        ops[op] = Op::Transfer(transfer);
        self.try_ops(ops)
    }

    /// Tries frames that are black or white, and the turns 0 and 1.
    fn make_frames_plain(&mut self) {
        let mut op = 0;
        while let Some(call) = self.case.ops.get(op) {
            if let Op::Frame(frame) = *call {
                let black = Frame { filling: 0, ..frame };
                let white = Frame { filling: Frame::WHITE, ..frame };
                if frame.filling != 0 && !self.try_frame(op, black) && frame != white {
                    self.try_frame(op, white);
                }
            }
            if let Some(Op::Frame(frame)) = self.case.ops.get(op).cloned() {
                if frame.turn > 1 {
                    self.try_frame(op, Frame { turn: frame.turn % 2, ..frame });
                }
            }
            op += 1;
        }
    }

    fn try_frame(&mut self, op: usize, frame: Frame) -> bool {
        let mut ops = self.case.ops.clone();
        ops[op] = Op::Frame(frame);
        self.try_ops(ops)
    }

    /// Leaves out commands of traces, then single bytes.
    fn shorten_traces(&mut self) {
        let mut op = 0;
        while op < self.case.ops.len() {
            if let Some((trace, _)) = self.case.ops.get(op).and_then(run_of) {
                let trace = trace.to_vec();
                shorten(trace, |shorter, gone| self.try_trace(op, shorter, gone));
            }
            op += 1;
        }
    }

    /// Tries a trace from which so many commands are gone, without their
    /// answers too.
    fn try_trace(&mut self, op: usize, shorter: &[u8], gone: usize) -> bool {
        let Some((_, answer_bytes)) = self.case.ops.get(op).and_then(run_of) else { return false };
        let fewer = answer_bytes.saturating_sub(ANSWER_BYTES * gone);
        self.try_run(op, shorter.to_vec(), fewer)
            || fewer < answer_bytes && self.try_run(op, shorter.to_vec(), answer_bytes)
    }

    fn try_run(&mut self, op: usize, trace: Vec<u8>, answer_bytes: usize) -> bool {
        let mut ops = self.case.ops.clone();
        ops[op] = with_run(&ops[op], trace, answer_bytes);
        self.try_ops(ops)
    }

    /// Tries smaller answer buffers, the smallest first.
    fn shorten_answers(&mut self) {
        let mut op = 0;
        while let Some(call) = self.case.ops.get(op) {
            if let Some((trace, now)) = run_of(call) {
                let trace = trace.to_vec();
                let whole = now - now % ANSWER_BYTES;
                let less = now.saturating_sub(ANSWER_BYTES);
                let sizes = [0, 1, 10, 20, now / 4, now / 2, less, whole, now.saturating_sub(1)];
                for size in sizes.into_iter().filter(|&size| size < now) {
                    if self.try_run(op, trace.clone(), size) {
                        break;
                    }
                }
            }
            op += 1;
        }
    }

    /// Leaves out digits of short runs.
    fn drop_digits(&mut self) {
        for op in 0..self.case.ops.len() {
            let Some(Op::ShortRunNumber(digits)) = self.case.ops.get(op) else { continue };
            for place in (0..digits.len()).rev() {
                let mut ops = self.case.ops.clone();
                let Some(Op::ShortRunNumber(digits)) = ops.get_mut(op) else { break };
                digits.remove(place);
                self.try_ops(ops);
            }
        }
    }

    /// Leaves out bytes that are no bool.
    fn drop_odd_bytes(&mut self) {
        for place in (0..self.case.start.odd.len()).rev() {
            let mut start = self.case.start.clone();
            start.odd.remove(place);
            self.try_start(start);
        }
    }

    /// Makes the padding of the record 0.
    fn clear_padding(&mut self) {
        if self.case.start.padding != 0 {
            let start = Start { padding: 0, ..self.case.start.clone() };
            self.try_start(start);
        }
    }

    /// Makes sets of the record fresh, many at once first.
    fn empty_sets(&mut self) {
        let mut length = 256;
        while length > 0 {
            for from in (0..1_152).step_by(length) {
                self.try_record(|record| {
                    for set in from..(from + length).min(1_152) {
                        match set {
                            0..128 => record.l1d[set] = L1dSet::FRESH,
                            128..640 => record.l2[set - 128] = L2Set::FRESH,
                            _ => record.l1p[set - 640] = L1pSet::FRESH,
                        }
                    }
                });
            }
            length /= 4;
        }
    }

    /// Makes single ways of the sets that are left empty, and their orders
    /// fresh.
    fn empty_ways(&mut self) {
        for set in 0..128 {
            for way in 0..2 {
                self.try_record(|record| record.l1d[set].lines[way] = Line::EMPTY);
            }
            self.try_record(|record| record.l1d[set].order = L1dSet::FRESH.order);
        }
        for set in 0..512 {
            for way in 0..4 {
                self.try_record(|record| record.l2[set].lines[way] = Line::EMPTY);
            }
            self.try_record(|record| record.l2[set].order = L2Set::FRESH.order);
        }
    }

    /// Tries another record to begin with, if the change makes it another. The
    /// memories, which may be long, are copied only then.
    fn try_record(&mut self, change: impl FnOnce(&mut Record)) {
        // Flat memory and histories begin with a fresh record.
        if self.case.start.flat || self.case.start.history {
            return;
        }
        let mut record = self.case.start.setup.record.clone();
        let counts = Counts::of(&record);
        change(&mut record);
        counts.write(&mut record);
        if record != self.case.start.setup.record {
            let mut start = self.case.start.clone();
            start.setup.record = record;
            self.try_start(start);
        }
    }
}

/// How far the counts of dirty lines are from those of the lines: nothing, where they are
/// right. With other lines they stay as right or as wrong as they were.
pub struct Counts {
    l1d: u32,
    l2: u32,
}

impl Counts {
    pub fn of(record: &Record) -> Counts {
        Counts {
            l1d: record.dirty_l1d.wrapping_sub(record.dirty_in_l1d()),
            l2: record.dirty_l2.wrapping_sub(record.dirty_in_l2()),
        }
    }

    pub fn write(&self, record: &mut Record) {
        record.dirty_l1d = record.dirty_in_l1d().wrapping_add(self.l1d);
        record.dirty_l2 = record.dirty_in_l2().wrapping_add(self.l2);
    }
}

/// Leaves out parts of a trace, long ones first: whole commands, then single
/// bytes. `fails` is given what is left and how many commands are gone from
/// it, and says whether that is taken.
pub fn shorten(trace: Vec<u8>, mut fails: impl FnMut(&[u8], usize) -> bool) -> Vec<u8> {
    let trace = shorten_by(trace, command_ends, &mut fails);
    shorten_by(trace, |trace| (0..=trace.len()).collect(), &mut |left, _| fails(left, 0))
}

fn shorten_by(
    mut trace: Vec<u8>,
    ends: fn(&[u8]) -> Vec<usize>,
    fails: &mut impl FnMut(&[u8], usize) -> bool,
) -> Vec<u8> {
    let mut length = ends(&trace).len() / 2;
    while length > 0 {
        let mut from = 0;
        loop {
            let ends = ends(&trace);
            if from + 1 >= ends.len() {
                break;
            }
            let to = (from + length).min(ends.len() - 1);
            let shorter = [&trace[..ends[from]], &trace[ends[to]..]].concat();
            if fails(&shorter, to - from) {
                trace = shorter;
            } else {
                from += length;
            }
        }
        length /= 2;
    }
    trace
}

/// 0 and the end of each command; a byte with which no command begins stands
/// for one.
fn command_ends(trace: &[u8]) -> Vec<usize> {
    let mut ends = vec![0];
    let mut place = 0;
    while place < trace.len() {
        place += decode(&trace[place..]).map_or(1, |(_, length)| length);
        ends.push(place);
    }
    ends
}

/// The trace and the answer bytes of a run.
fn run_of(op: &Op) -> Option<(&[u8], usize)> {
    match op {
        Op::Run { trace, answer_bytes } | Op::RunAndSingleCalls { trace, answer_bytes } => {
            Some((trace, *answer_bytes))
        }
        _ => None,
    }
}

fn with_run(op: &Op, trace: Vec<u8>, answer_bytes: usize) -> Op {
    match op {
        Op::RunAndSingleCalls { .. } => Op::RunAndSingleCalls { trace, answer_bytes },
        _ => Op::Run { trace, answer_bytes },
    }
}

#[cfg(test)]
mod tests {
    use super::{command_ends, shorten};

    /// MAR 128 bit 1, L2 writeback all, mode 4, read of 4 bytes at 8, mode 1.
    const TRACE: [u8; 12] = [11, 0x80, 1, 1, 2, 10, 4, 0, 4, 8, 10, 1];

    #[test]
    fn commands_end_where_the_next_begins() {
        assert_eq!(command_ends(&[]), [0]);
        assert_eq!(command_ends(&TRACE), [0, 4, 5, 7, 10, 12]);
    }

    #[test]
    fn bytes_with_which_no_command_begins_stand_alone() {
        // Unknown codes, and an end inside a command.
        assert_eq!(command_ends(&[13, 255, 9]), [0, 1, 2, 3]);
        assert_eq!(command_ends(&[9, 0, 0x84]), [0, 1, 2, 3]);
        // An overlong number, in which a read of 2 bytes at 2 begins.
        assert_eq!(command_ends(&[10, 0x80, 0, 2, 2]), [0, 1, 2, 5]);
    }

    fn holds(trace: &[u8], part: &[u8]) -> bool {
        trace.windows(part.len()).any(|window| window == part)
    }

    #[test]
    fn what_does_not_matter_goes() {
        assert_eq!(shorten(TRACE.to_vec(), |left, _| holds(left, &[10, 4])), [10, 4]);
        assert_eq!(shorten(TRACE.to_vec(), |left, _| holds(left, &[2])), [2]);
        assert_eq!(shorten(TRACE.to_vec(), |_, _| true), []);
    }

    #[test]
    fn what_matters_stays_wherever_it_stands() {
        let ends = |left: &[u8], _| left.starts_with(&[11]) && left.ends_with(&[1]);
        assert_eq!(shorten(TRACE.to_vec(), ends), [11, 1]);
        assert_eq!(shorten(TRACE.to_vec(), |_, _| false), TRACE);
        let long = [TRACE.repeat(100), vec![10, 6], TRACE.repeat(57)].concat();
        assert_eq!(shorten(long, |left, _| holds(left, &[10, 6])), [10, 6]);
    }

    #[test]
    fn commands_that_are_gone_are_counted() {
        let (mut now, mut all_gone) = (TRACE.to_vec(), 0);
        shorten(TRACE.to_vec(), |left, gone| {
            assert!(left.len() < now.len());
            let taken = holds(left, &[0, 4, 8]);
            if taken {
                assert_eq!(gone, command_ends(&now).len() - command_ends(left).len());
                now = left.to_vec();
                all_gone += gone;
            }
            taken
        });
        assert_eq!((&now[..], all_gone), (&[0, 4, 8][..], 4));
    }
}

//! "Dropped lines" (02, U13): what is known of each byte along a list of calls
//! from a fresh start, and what its sentences say of a read. The calls are made
//! on a chip of this model, whose events tell when a writeback reached a byte and
//! when a line with it was dropped. They go by the lines that did so and not by the
//! command: since 02, U10, L2's commands too send L1D lines to SRAM, and in mode 0
//! to external memory, and its block invalidate drops them there.

use std::collections::{BTreeSet, HashMap, HashSet};

use crate::calls::{
    direct_with_events, program_with_events, transfer_in_with_events, transfer_out_with_events,
};
use crate::flat::Flat;
use crate::gen::Setup;
use crate::geometry::{external_offset, L1d, EXTERNAL_BASE};
use crate::machine::Events;
use crate::{Answer, Command, Program, Record, Unaligned};

/// A sentence of the request that a read does not keep to, from 1 to 3.
#[derive(Clone, PartialEq, Eq, Debug)]
pub struct Broken {
    pub sentence: u8,
    pub what: String,
}

/// What is known of the bytes, by their addresses.
pub struct History {
    chip: Setup,
    /// What flat memory holds after the same calls.
    pub flat: Flat,
    /// "the last one written", since the fresh start.
    pub last: HashMap<u32, u8>,
    /// The values that a byte "held since a writeback last reached its external
    /// memory (for SRAM, its SRAM byte), that value included". A byte that is not
    /// here held what `start` has, and nothing else.
    pub held: HashMap<u32, BTreeSet<u8>>,
    /// SRAM and external memory after the last "fresh start or mode change",
    /// either "counting as one".
    start: (Vec<u8>, Vec<u8>),
    /// Bytes of "a line that was dropped".
    pub dropped: HashSet<u32>,
    /// The value of a byte that was read or written, "until the next write to it,
    /// drop touching its line (128 bytes for L2's, 64 for L1D's), or mode change."
    pub kept: HashMap<u32, u8>,
}

/// How many bytes were read, and how many of them were not the last one written.
#[derive(Clone, Copy, Default, PartialEq, Eq, Debug)]
pub struct Read {
    pub bytes: u64,
    pub older: u64,
}

impl History {
    /// A list begins: these are the memories after a fresh start.
    pub fn fresh(chip: &Setup) -> History {
        let mut history = History {
            chip: chip.clone(),
            flat: Flat::fresh(chip.record.l, &chip.ext),
            last: HashMap::new(),
            held: HashMap::new(),
            start: (Vec::new(), Vec::new()),
            dropped: HashSet::new(),
            kept: HashMap::new(),
        };
        history.start_anew();
        history
    }

    /// "a fresh start or mode change counting as one": every byte has just the
    /// value that stands in its memory.
    fn start_anew(&mut self) {
        self.start = (self.chip.l2.clone(), self.chip.ext.clone());
        self.held.clear();
    }

    /// One more call of the list, and the answer of the chip that is looked at:
    /// the first sentence that a byte of it breaks, if there is one.
    pub fn call(&mut self, command: &Command, answer: &Answer) -> Result<Read, Broken> {
        let Setup { record, l1d, l2, ext, l1p } = &mut self.chip;
        let (_, events) = direct_with_events(record, l1d, l2, ext, l1p, command);
        self.flat.apply(command);
        let mut read = Read::default();
        if answer.number != 0 {
            return Ok(read);
        }
        self.note_reached(&events);
        for address in events.dropped.into_iter().flatten() {
            self.dropped.insert(address);
            self.kept.remove(&address);
        }
        match *command {
            Command::Read { size, address } => {
                for (address, value) in bytes(address, size, answer.value) {
                    read.bytes += 1;
                    read.older += u64::from(self.last.get(&address).is_some_and(|&v| v != value));
                    self.read(address, value)?;
                }
            }
            Command::Write { size, address, value } => {
                for (address, value) in bytes(address, size, value) {
                    self.write(address, value);
                }
            }
            Command::Mode { .. } => {
                self.start_anew();
                self.kept.clear();
            }
            // Commands do what their events say, and a freeze (02, U11) changes no byte.
            _ => {}
        }
        Ok(read)
    }

    /// A non-aligned access is a CPU access too, "done as single-byte accesses from the
    /// lowest address up" (02, U6): its bytes are as many calls. A refused one is none.
    pub fn unaligned(&mut self, access: &Unaligned, answer: &Answer) -> Result<Read, Broken> {
        let mut read = Read::default();
        if answer.number != 0 {
            return Ok(read);
        }
        let value = if access.is_write() { access.value() } else { answer.value };
        for (address, value) in bytes(access.address(), access.size(), value) {
            let (size, value) = (1, u64::from(value));
            let (command, value) = match access {
                Unaligned::Read { .. } => (Command::Read { size, address }, value),
                Unaligned::Write { .. } => (Command::Write { size, address, value }, 0),
            };
            let seen = self.call(&command, &Answer { value, ..*answer })?;
            read.bytes += seen.bytes;
            read.older += seen.older;
        }
        Ok(read)
    }

    /// A fetch, or an invalidation of L1P (02, U4): no CPU data read. The sentences say nothing of
    /// its bytes, and a line of L1P, never written, is none that was dropped; but an L2 line that
    /// leaves for a fetch may reach external memory.
    pub fn program(&mut self, call: &Program, accepted: bool) {
        let Setup { record, l1d, l2, ext, l1p } = &mut self.chip;
        let (_, events) = program_with_events(record, l1d, l2, ext, l1p, call);
        if accepted {
            self.note_reached(&events);
        }
    }

    /// These lines went home: their bytes have just the value that stands in their memory.
    fn note_reached(&mut self, events: &Events) {
        for address in events.reached.iter().cloned().flatten() {
            let value = in_memory(&self.chip.l2, &self.chip.ext, address);
            self.held.insert(address, BTreeSet::from([value]));
        }
    }

    /// A transfer in (02, U1) to SRAM, "external transfers left out"; or a refused one, which is
    /// none. "a SRAM transfer in writes too", once the lines that it touches have gone home.
    pub fn transfer_in(&mut self, address: u32, buffer: &[u8], answer: &Answer) {
        let before = (self.chip.record.clone(), self.chip.l1d.clone());
        let Setup { record, l1d, l2, ext, l1p } = &mut self.chip;
        let (_, events) = transfer_in_with_events(record, l1d, l2, ext, l1p, address, buffer);
        self.flat.transfer_in(address, buffer);
        if answer.number != 0 {
            return;
        }
        self.went_home(&before.0, &before.1, events);
        for (address, &value) in (address..).zip(buffer) {
            self.write(address, value);
        }
    }

    /// A transfer out (02, U1) of SRAM, or a refused one: it is no read of the CPU, but sends the
    /// lines that it touches home as well.
    pub fn transfer_out(&mut self, address: u32, length: usize, answer: &Answer) {
        let before = (self.chip.record.clone(), self.chip.l1d.clone());
        let Setup { record, l1d, l2, ext, l1p } = &mut self.chip;
        let mut buffer = vec![0; length];
        let (_, events) = transfer_out_with_events(record, l1d, l2, ext, l1p, address, &mut buffer);
        if answer.number == 0 {
            self.went_home(&before.0, &before.1, events);
        }
    }

    /// "a writeback last reached ... its SRAM byte" with what L1D held of it before: the bytes of
    /// a transfer in stand there afterwards.
    fn went_home(&mut self, record: &Record, l1d: &[u8], events: Events) {
        for address in events.reached.into_iter().flatten() {
            let (set, way) = record.find_l1d(address).expect("a line that went home was held");
            let value = l1d[L1d::offset(set, way) + (address % L1d::LINE) as usize];
            self.held.insert(address, BTreeSet::from([value]));
        }
    }

    /// The values that this byte held since a writeback last reached it.
    fn held_at(&mut self, address: u32) -> &mut BTreeSet<u8> {
        let start = &self.start;
        let at_start = || BTreeSet::from([in_memory(&start.0, &start.1, address)]);
        self.held.entry(address).or_insert_with(at_start)
    }

    fn write(&mut self, address: u32, value: u8) {
        self.held_at(address).insert(value);
        self.last.insert(address, value);
        self.kept.insert(address, value);
    }

    /// The three sentences, of one byte of a read.
    fn read(&mut self, address: u32, value: u8) -> Result<(), Broken> {
        let wrong = |sentence: u8, expected: String| {
            let what = format!("byte {address:#x} reads as {value:#04x}, {expected}");
            Err(Broken { sentence, what })
        };
        // "each byte of a CPU data read is the last one written (...), or one it
        // held since a writeback last reached its external memory"
        let last = self.last.get(&address).copied();
        if last != Some(value) && !self.held_at(address).contains(&value) {
            let held = &self.held[&address];
            return wrong(1, format!("in hexadecimal: last written {last:x?}, held {held:x?}"));
        }
        // "Bytes in no line that was dropped read as flat memory."
        let (_, flat) = self.flat.read(1, address);
        if !self.dropped.contains(&address) && u64::from(value) != flat {
            return wrong(2, format!("no line with it was dropped, flat memory has {flat:#04x}"));
        }
        // "A byte keeps its value until ..."
        match self.kept.insert(address, value) {
            Some(kept) if kept != value => wrong(3, format!("its value was {kept:#04x}")),
            _ => Ok(()),
        }
    }
}

/// The addresses and values of an access's bytes, little-endian.
fn bytes(address: u32, size: u32, value: u64) -> impl Iterator<Item = (u32, u8)> {
    (0..size).map(move |place| (address + place, (value >> (8 * place)) as u8))
}

/// What stands at an address in SRAM or external memory themselves.
fn in_memory(l2: &[u8], ext: &[u8], address: u32) -> u8 {
    if address < EXTERNAL_BASE {
        l2[address as usize]
    } else {
        ext[external_offset(address)]
    }
}

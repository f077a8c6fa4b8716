//! "CPU reads and writes". The checks have been passed.

use crate::geometry::{external_offset, L1d};
use crate::machine::{Home, Machine, SERVER_EXTERNAL, SERVER_L1D};
use crate::record::{victim_way, Left, Line};

/// "1, 2, 4 or 8 bytes, little-endian": the number that these bytes are.
fn number_of(bytes: &[u8]) -> u64 {
    bytes.iter().rev().fold(0, |value, &byte| value << 8 | u64::from(byte))
}

/// "1, 2, 4 or 8 bytes, little-endian": the bytes of a number.
fn bytes_of(size: u32, value: u64) -> Vec<u8> {
    value.to_le_bytes()[..size as usize].to_vec()
}

/// The number that stands in a memory.
pub fn load(memory: &[u8], offset: usize, size: u32) -> u64 {
    number_of(&memory[offset..offset + size as usize])
}

/// A number put into a memory.
pub fn store(memory: &mut [u8], offset: usize, size: u32, value: u64) {
    memory[offset..offset + size as usize].copy_from_slice(&bytes_of(size, value));
}

/// The number that stands in external memory, just its bytes being read (02, U2).
fn load_external(machine: &mut Machine, offset: usize, size: u32) -> u64 {
    number_of(&machine.read_external(offset, size))
}

/// A number put into external memory, just its bytes being written (02, U2).
fn store_external(machine: &mut Machine, offset: usize, size: u32, value: u64) {
    machine.write_external(offset, &bytes_of(size, value));
}

/// A CPU read; gives back the server number and the value.
pub fn read(machine: &mut Machine, size: u32, address: u32) -> (u8, u64) {
    // "External memory with MAR bit 0 is reached directly, touching no line."
    if machine.is_reached_directly(address) {
        return (SERVER_EXTERNAL, load_external(machine, external_offset(address), size));
    }
    // "read hit in L1D: its bytes, the way used." 02, U11: "Frozen, hits are
    // served as before but change no order".
    if let Some((set, way)) = machine.record.find_l1d(address) {
        if !machine.record.is_frozen() {
            machine.use_l1d_way(set, way);
        }
        return (SERVER_L1D, load(machine.l1d, l1d_byte(set, way, address), size));
    }
    // 02, U11: "and a read miss takes just its bytes from the home and fills
    // nothing. L2 isn't frozen.": it is reached as by any read, uses its way,
    // fetches and puts lines out.
    if machine.record.is_frozen() {
        let (home, server) = machine.reach_home(address);
        let value = match home {
            Home::Sram { offset } | Home::L2Line { offset, .. } => load(machine.l2, offset, size),
            Home::External { offset } => load_external(machine, offset, size),
        };
        return (server, value);
    }
    // "Read miss: the way is the lowest invalid one, else the last in order; a
    // dirty line there is written back to its home and the way emptied; then
    // the line is fetched from its home, the way filled clean and used." 02, U2: the
    // choice tells what stood there, dirty or clean as it was then.
    let set = L1d::set_of(address);
    let way = victim_way(&machine.record.l1d[set].lines, &machine.record.l1d[set].order);
    machine.report.l1d_left = Left::of(machine.record.l1d[set].lines[way]);
    machine.write_back_l1d_line(set, way);
    machine.empty_l1d_way(set, way);
    let line_address = L1d::line_address(address);
    let (home, server) = machine.reach_home(line_address);
    fill_l1d_way(machine, set, way, home);
    machine.record.l1d[set].lines[way] = Line { valid: true, dirty: false, address: line_address };
    machine.use_l1d_way(set, way);
    (server, load(machine.l1d, l1d_byte(set, way, address), size))
}

/// A CPU write; gives back the server number.
pub fn write(machine: &mut Machine, size: u32, address: u32, value: u64) -> u8 {
    // "External memory with MAR bit 0 is reached directly, touching no line."
    if machine.is_reached_directly(address) {
        store_external(machine, external_offset(address), size, value);
        return SERVER_EXTERNAL;
    }
    // "Write hit: bytes changed, line dirty, way used." 02, U11: "Frozen, hits are
    // served as before but change no order": the line is dirty all the same.
    if let Some((set, way)) = machine.record.find_l1d(address) {
        store(machine.l1d, l1d_byte(set, way, address), size, value);
        machine.record.l1d[set].lines[way].dirty = true;
        if !machine.record.is_frozen() {
            machine.use_l1d_way(set, way);
        }
        return SERVER_L1D;
    }
    // "Write miss: L1D is neither filled nor used, the bytes go to the home
    // (an L2 line that leaves for them still takes its halves out of L1D, as
    // below)." and "A write then makes the L2 line dirty." 02, U11: "Write misses,
    // commands and mode changes are as they were".
    let (home, server) = machine.reach_home(address);
    match home {
        Home::Sram { offset } => store(machine.l2, offset, size, value),
        Home::External { offset } => store_external(machine, offset, size, value),
        Home::L2Line { set, way, offset } => {
            store(machine.l2, offset, size, value);
            machine.record.l2[set].lines[way].dirty = true;
        }
    }
    server
}

/// "Data of set s, way w, at (w × 128 + s) × 64.": the offset of one byte of
/// the line held there.
fn l1d_byte(set: usize, way: usize, address: u32) -> usize {
    L1d::offset(set, way) + (address % L1d::LINE) as usize
}

/// "then the line is fetched from its home": the bytes alone.
fn fill_l1d_way(machine: &mut Machine, set: usize, way: usize, home: Home) {
    let length = L1d::LINE as usize;
    let to = L1d::offset(set, way);
    let line = match home {
        Home::Sram { offset } | Home::L2Line { offset, .. } => {
            machine.l2[offset..offset + length].to_vec()
        }
        Home::External { offset } => machine.read_external(offset, L1d::LINE),
    };
    machine.l1d[to..to + length].copy_from_slice(&line);
}

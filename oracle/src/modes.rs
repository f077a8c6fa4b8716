//! "Modes and MAR", and freezing L1D (02, U11). The checks have been passed, but for the one that looks
//! into the caches.

use crate::geometry::{mar_number, sram_size, L1d, L2};
use crate::machine::Machine;
use crate::record::{L1dSet, L2Set, Record};

/// "An accepted mode change, even to the same mode, writes back all dirty
/// lines of L1D, then of L2, makes every line invalid and every order fresh,
/// and sets zero every L2 byte from the smaller of old and new S on." 02, U11: "a
/// mode change keeps the freeze"; U4: "a mode change drops all" lines of L1P.
pub fn change_mode(machine: &mut Machine, new_mode: u32) {
    for set in 0..L1d::SETS {
        for way in 0..L1d::WAYS {
            machine.write_back_l1d_line(set, way);
        }
    }
    for set in 0..L2::sets(machine.record.mode) {
        for way in 0..L2::WAYS {
            machine.write_out_l2_line(set, way);
        }
    }
    let old_s = machine.record.sram_size();
    let new_s = sram_size(machine.record.l, new_mode);
    machine.record.l1d = [L1dSet::FRESH; L1d::SETS];
    machine.record.l2 = [L2Set::FRESH; L2::SETS_HELD];
    machine.empty_l1p();
    machine.record.mode = new_mode;
    machine.l2[old_s.min(new_s) as usize..].fill(0);
}

/// "A MAR bit may be set at any time."
pub fn change_mar(record: &mut Record, number: u32, bit: u32) {
    match number {
        128 => record.mar128 = bit,
        129 => record.mar129 = bit,
        _ => {}
    }
}

/// "1 freezes, 0 thaws; the record keeps it" (02, U11). Nothing else changes.
pub fn change_freeze(record: &mut Record, frozen: u32) {
    record.frozen = frozen;
}

/// "either cache holds a line of that range". 02, U4: "Check 10 now looks in L1P too".
pub fn holds_a_line_of(record: &Record, number: u32) -> bool {
    let l1d = record.l1d.iter().flat_map(|set| set.lines.iter());
    let l2 = record.l2.iter().flat_map(|set| set.lines.iter());
    let l1p = record.l1p.iter().flat_map(|set| set.lines.iter());
    l1d.chain(l2).chain(l1p).any(|line| line.valid && mar_number(line.address) == number)
}

//! "Cache commands (001, Table 29)". The checks have been passed.

use crate::geometry::{L1d, L2};
use crate::machine::Machine;

/// What an L2 command does to a line.
#[derive(Clone, Copy, PartialEq, Eq, Debug)]
pub enum L2Action {
    Writeback,
    WritebackInvalidate,
    Invalidate,
}

/// What an L1D command does to a line.
#[derive(Clone, Copy, PartialEq, Eq, Debug)]
pub enum L1dAction {
    WritebackInvalidate,
    Invalidate,
}

/// "A block is a base address and a count of 4-byte words. It touches each
/// line with a byte in it; count 0 touches none; what passes FFFFFFFFh is cut
/// off." The line addresses, ascending.
pub fn touched_lines(base: u32, count: u32, line_length: u32) -> impl Iterator<Item = u32> {
    let end = (u64::from(base) + 4 * u64::from(count)).min(1 << 32);
    let first = if count == 0 { end } else { u64::from(base - base % line_length) };
    (first..end).step_by(line_length as usize).map(|address| address as u32)
}

/// L2 writeback all and writeback-invalidate all. 02, U10: they "now send every
/// dirty L1D line home first and empty L1D, in every mode and for SRAM too." Then,
/// as before, the command on "each L2 line (... all)", of which mode 0 has none.
/// Sets ascending, ways ascending, in both caches.
///
/// 01's "L2 commands do nothing in mode 0 and never reach L1D lines of SRAM." is
/// what U10 changes, here and in `l2_block`.
pub fn l2_all(machine: &mut Machine, action: L2Action) {
    for set in 0..L1d::SETS {
        for way in 0..L1d::WAYS {
            machine.write_back_l1d_line(set, way);
            machine.empty_l1d_way(set, way);
        }
    }
    for set in 0..L2::sets(machine.record.mode) {
        for way in 0..L2::WAYS {
            if machine.record.l2[set].lines[way].valid {
                act_on_l2_line(machine, set, way, action);
            }
        }
    }
}

/// The three L2 block commands. 02, U10: "Besides the halves, the two L2 block
/// writebacks first send each touched L1D line home if dirty and make it invalid,
/// and L2 block invalidate drops each touched L1D line, likewise in every mode and
/// for SRAM." An L1D line has 64 bytes, and the block itself says whether it is
/// touched; that is what the L1D block commands do. Then, as before, the command
/// on "each L2 line (touched ...)" with its halves, addresses ascending.
pub fn l2_block(machine: &mut Machine, base: u32, count: u32, action: L2Action) {
    let on_l1d = match action {
        L2Action::Writeback | L2Action::WritebackInvalidate => L1dAction::WritebackInvalidate,
        L2Action::Invalidate => L1dAction::Invalidate,
    };
    l1d_block(machine, base, count, on_l1d);
    for address in touched_lines(base, count, L2::LINE) {
        if let Some((set, way)) = machine.record.find_l2(address) {
            act_on_l2_line(machine, set, way, action);
        }
    }
}

/// What is done to one L2 line, which is valid. 02, U4: "L2 writeback-invalidate, block or
/// all, and L2 block invalidate drop the L1P lines inside valid L2 lines they act on"; a
/// writeback that leaves the line valid drops none.
fn act_on_l2_line(machine: &mut Machine, set: usize, way: usize, action: L2Action) {
    match action {
        // "Writeback: for each L2 line (touched, or all) the dirty L1D halves
        // are written into it, both halves become invalid in L1D, and a dirty
        // line goes out, staying valid and clean."
        L2Action::Writeback => {
            machine.take_in_halves(set, way);
            machine.write_out_l2_line(set, way);
        }
        // "Writeback-invalidate: the same, then the line is invalid."
        L2Action::WritebackInvalidate => {
            machine.drop_l1p_lines_inside(set, way);
            machine.take_in_halves(set, way);
            machine.write_out_l2_line(set, way);
            machine.empty_l2_way(set, way);
        }
        // "Block invalidate: line and halves become invalid, nothing is
        // written."
        L2Action::Invalidate => {
            machine.drop_l1p_lines_inside(set, way);
            machine.drop_halves(set, way);
            machine.drop_l2_line(set, way);
        }
    }
}

/// "L1D block writeback-invalidate sends dirty touched lines home and makes
/// touched lines invalid. L1D invalidate, block or all, drops them unwritten."
/// Addresses ascending.
pub fn l1d_block(machine: &mut Machine, base: u32, count: u32, action: L1dAction) {
    for address in touched_lines(base, count, L1d::LINE) {
        if let Some((set, way)) = machine.record.find_l1d(address) {
            match action {
                L1dAction::WritebackInvalidate => {
                    machine.write_back_l1d_line(set, way);
                    machine.empty_l1d_way(set, way);
                }
                L1dAction::Invalidate => machine.drop_l1d_line(set, way),
            }
        }
    }
}

/// "L1D invalidate, block or all, drops them unwritten."
pub fn l1d_invalidate_all(machine: &mut Machine) {
    for set in 0..L1d::SETS {
        for way in 0..L1d::WAYS {
            machine.drop_l1d_line(set, way);
        }
    }
}

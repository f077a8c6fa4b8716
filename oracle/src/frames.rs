//! "The ribbon frame engine" (02, U14): "The bench should add up camera frames as the splicer
//! does." A frame is no command: no trace has one.

use crate::access;
use crate::calls;
use crate::geometry::EXTERNAL_BASE;
use crate::machine::Machine;
use crate::trace::Command;
use crate::transfers;

/// "A frame is 48 rows of 64 pixels, one byte each, row by row, 3,072 bytes."
pub const ROWS: usize = 48;
pub const COLUMNS: usize = 64;
pub const FRAME_BYTES: usize = 3_072;

/// "19 for external memory below 6,144 bytes".
pub const LEAST_EXTERNAL: u32 = 6_144;

/// What a frame gives back: its number, "the next one's" turn, and "each of the 64 columns" added
/// up.
#[derive(Clone, Copy, PartialEq, Eq, Debug)]
pub struct Framed {
    pub number: u8,
    pub turn: u8,
    pub sums: [u32; COLUMNS],
}

impl Framed {
    /// "Each refused frame, whatever the number, is refused by itself and doesn't change whose turn
    /// it is. ... Sums are 0 with a refusal."
    pub fn refused(number: u8, turn: u8) -> Framed {
        Framed { number, turn: whose_turn(turn), sums: [0; COLUMNS] }
    }
}

/// Whose turn it is "goes in and comes back as 0 (80000000h) or 1; another number is taken by its
/// last bit."
fn whose_turn(turn: u8) -> u8 {
    turn % 2
}

/// "Frames go alternately to 80000000h (first) and 80000C00h".
pub fn place_of(turn: u8) -> u32 {
    match whose_turn(turn) {
        0 => EXTERNAL_BASE,
        _ => EXTERNAL_BASE + 0xC00,
    }
}

/// "Errors: 19 for external memory below 6,144 bytes, after 2; then 20 for a frame not of 3,072
/// bytes." 0 when neither is due.
pub fn check_frame(e: u32, length: usize) -> u8 {
    if e < LEAST_EXTERNAL {
        return 19;
    }
    if length != FRAME_BYTES {
        return 20;
    }
    0
}

/// Checks 19 and 20; then "the L2, then the L1D block writeback-invalidate over the place, transfer
/// in, then 1-byte CPU reads in the frame's order add up each of the 64 columns." The next turn is
/// the other one.
pub fn carry_out_frame(machine: &mut Machine, turn: u8, pixels: &[u8]) -> Framed {
    let mut framed = Framed::refused(check_frame(machine.record.e, pixels.len()), turn);
    if framed.number != 0 {
        return framed;
    }
    let (base, count) = (place_of(turn), FRAME_BYTES as u32 / 4);
    calls::carry_out(machine, &Command::L2BlockWritebackInvalidate { base, count });
    calls::carry_out(machine, &Command::L1dBlockWritebackInvalidate { base, count });
    transfers::carry_in(machine, base, pixels);
    for row in 0..ROWS {
        for column in 0..COLUMNS {
            let (_, pixel) = access::read(machine, 1, base + (row * COLUMNS + column) as u32);
            framed.sums[column] += pixel as u32;
        }
    }
    machine.record.write_counts();
    framed.turn = 1 - framed.turn;
    framed
}

//! "Looking behind L1D".

use crate::calls::check_sizes_and_record;
use crate::geometry::{external_offset, place, L1d, Place};
use crate::record::Record;

/// "For a 64-byte line address, the technician's call returns the bytes of
/// SRAM or of external memory themselves: that part of the lent L2 or of the
/// lent external memory, never the L2 cache's copy. A refusal (1, 2, 4, 5)
/// returns the empty part".
pub fn look<'a>(record: &Record, l2: &'a [u8], ext: &'a [u8], address: u32) -> &'a [u8] {
    if look_number(record, l2, ext, address) != 0 {
        return &[];
    }
    let length = L1d::LINE as usize;
    match place(record.sram_size(), record.e, address, L1d::LINE) {
        Some(Place::Sram) => &l2[address as usize..address as usize + length],
        Some(Place::External) => &ext[external_offset(address)..external_offset(address) + length],
        None => &[],
    }
}

/// The record is checked whole, L1P's lines too (02, U4), but the call is not lent L1P's buffer.
/// "a second call with the same arguments returns the number, 0 when
/// accepted." The numbers are 1, 2, "4: viewed address not of 64" and "5:
/// viewed line not wholly in SRAM or external memory".
pub fn look_number(record: &Record, l2: &[u8], ext: &[u8], address: u32) -> u8 {
    let number = check_sizes_and_record(record, l2.len(), ext.len());
    if number != 0 {
        return number;
    }
    if address % L1d::LINE != 0 {
        return 4;
    }
    if place(record.sram_size(), record.e, address, L1d::LINE).is_none() {
        return 5;
    }
    0
}

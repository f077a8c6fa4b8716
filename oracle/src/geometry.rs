//! Sizes, modes, sets and places.

/// "External: E bytes, ... at address 80000000h."
pub const EXTERNAL_BASE: u32 = 0x8000_0000;

/// "L1D data: exactly 16,384 bytes."
pub const L1D_BYTES: usize = 16_384;

/// "a lent buffer of exactly 16,384 bytes" (02, U4), L1P's.
pub const L1P_BYTES: usize = 16_384;

/// "L2: L bytes, a multiple of 32,768, from 32,768 to 262,144."
pub fn l2_length_is_legal(l: u64) -> bool {
    l % 32_768 == 0 && (32_768..=262_144).contains(&l)
}

/// "External: E bytes, a multiple of 128, from 128 to 33,554,432".
pub fn external_length_is_legal(e: u64) -> bool {
    e % 128 == 0 && (128..=33_554_432).contains(&e)
}

/// "The cache size C goes by mode: 0 is 0; 1 is 32,768; 2 is 65,536; 3 is
/// 131,072; 7 is 262,144." No other mode has a cache size.
pub fn cache_size(mode: u32) -> Option<u32> {
    match mode {
        0 => Some(0),
        1 => Some(32_768),
        2 => Some(65_536),
        3 => Some(131_072),
        7 => Some(262_144),
        _ => None,
    }
}

/// "SRAM is the first S = L − C bytes of L2, at address 0." (A number that is
/// no mode counts as C = 0, and a C above L leaves no SRAM: neither occurs in
/// a well-formed record.)
pub fn sram_size(l: u32, mode: u32) -> u32 {
    l.saturating_sub(cache_size(mode).unwrap_or(0))
}

/// "8: mode not 0 to 3 or 7, or C above L", the opposite of it.
pub fn mode_is_legal(l: u32, mode: u32) -> bool {
    match cache_size(mode) {
        Some(c) => c <= l,
        None => false,
    }
}

/// "L1D: 2 ways, 128 sets."
pub struct L1d;

impl L1d {
    pub const LINE: u32 = 64;
    pub const WAYS: usize = 2;
    pub const SETS: usize = 128;

    /// "Set = (address ÷ 64) mod 128."
    pub fn set_of(address: u32) -> usize {
        (address / Self::LINE) as usize % Self::SETS
    }

    /// "Data of set s, way w, at (w × 128 + s) × 64."
    pub fn offset(set: usize, way: usize) -> usize {
        (way * Self::SETS + set) * Self::LINE as usize
    }

    /// "A line address is that of the line's first byte."
    pub fn line_address(address: u32) -> u32 {
        address - address % Self::LINE
    }
}

/// "L2 cache: 4 ways, C ÷ 512 sets, none in mode 0."
pub struct L2;

impl L2 {
    pub const LINE: u32 = 128;
    pub const WAYS: usize = 4;
    /// "for all 128 L1D and 512 L2 sets"
    pub const SETS_HELD: usize = 512;

    /// "C ÷ 512 sets, none in mode 0."
    pub fn sets(mode: u32) -> usize {
        cache_size(mode).unwrap_or(0) as usize / 512
    }

    /// "Set = (address ÷ 128) mod sets." There is none without sets.
    pub fn set_of(mode: u32, address: u32) -> Option<usize> {
        let sets = Self::sets(mode);
        if sets == 0 {
            return None;
        }
        Some((address / Self::LINE) as usize % sets)
    }

    /// "Data at S + (w × sets + s) × 128."
    pub fn offset(s: u32, sets: usize, set: usize, way: usize) -> usize {
        s as usize + (way * sets + set) * Self::LINE as usize
    }

    /// "A line address is that of the line's first byte."
    pub fn line_address(address: u32) -> u32 {
        address - address % Self::LINE
    }
}

/// "L1P: 16 Kbytes, one way, 32-byte lines, 512 sets" (02, U4).
pub struct L1p;

impl L1p {
    pub const LINE: u32 = 32;
    pub const WAYS: usize = 1;
    pub const SETS: usize = 512;

    /// "set = (address ÷ 32) mod 512".
    pub fn set_of(address: u32) -> usize {
        (address / Self::LINE) as usize % Self::SETS
    }

    /// "set s's data at s × 32 in a lent buffer".
    pub fn offset(set: usize) -> usize {
        set * Self::LINE as usize
    }

    /// "A line address is that of the line's first byte."
    pub fn line_address(address: u32) -> u32 {
        address - address % Self::LINE
    }
}

/// What lies at an address.
#[derive(Clone, Copy, PartialEq, Eq, Debug)]
pub enum Place {
    Sram,
    External,
}

/// "wholly in SRAM or external memory": the memory in which all `length`
/// bytes from `address` on lie, if there is one.
pub fn place(s: u32, e: u32, address: u32, length: u32) -> Option<Place> {
    let first = u64::from(address);
    let end = first + u64::from(length);
    let base = u64::from(EXTERNAL_BASE);
    if end <= u64::from(s) {
        Some(Place::Sram)
    } else if first >= base && end <= base + u64::from(e) {
        Some(Place::External)
    } else {
        None
    }
}

/// The offset of an external address in the lent external memory: "External:
/// E bytes, ... at address 80000000h."
pub fn external_offset(address: u32) -> usize {
    (address - EXTERNAL_BASE) as usize
}

/// "MAR n covers the 16 MiB from n × 1000000h".
pub fn mar_number(address: u32) -> u32 {
    address / 0x0100_0000
}

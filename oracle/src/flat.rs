//! "Flat memory": what a program sees that knows nothing of caches. It shares
//! no function with the machine that it is set against, so that a mistake in a
//! size, a place or a check of that one is seen. Only the names of commands and
//! accesses are those that the machine has.

use crate::trace::Command;
use crate::unaligned::Unaligned;

/// "External: E bytes, ... at address 80000000h."
const EXTERNAL_AT: u64 = 0x8000_0000;

/// "State: L, E, S, S bytes of SRAM, E of external memory."
#[derive(Clone, PartialEq, Eq, Debug)]
pub struct Flat {
    pub l: u32,
    pub e: u32,
    pub s: u32,
    pub sram: Vec<u8>,
    pub ext: Vec<u8>,
}

impl Flat {
    /// "Fresh: S = L, SRAM zero, external memory as lent."
    pub fn fresh(l: u32, ext: &[u8]) -> Flat {
        Flat { l, e: ext.len() as u32, s: l, sram: vec![0; l as usize], ext: ext.to_vec() }
    }

    /// The byte at an address, if there is one: SRAM is "at address 0", "the
    /// first S" bytes, external memory "at address 80000000h", E bytes.
    fn byte(&mut self, address: u64) -> Option<&mut u8> {
        if address < u64::from(self.s) {
            return Some(&mut self.sram[address as usize]);
        }
        if (EXTERNAL_AT..EXTERNAL_AT + u64::from(self.e)).contains(&address) {
            return Some(&mut self.ext[(address - EXTERNAL_AT) as usize]);
        }
        None
    }

    /// "A read or write gets the lowest number due among checks 3 to 6, by
    /// this S." 0 when none is due. A read has no value to check.
    fn due(&mut self, size: u32, address: u32, value: Option<u64>) -> u8 {
        // "3: size not 1, 2, 4, 8". No check below it is asked of such a size.
        if !matches!(size, 1 | 2 | 4 | 8) {
            return 3;
        }
        // "4: address not a multiple of the size"
        let unaligned = address & (size - 1) != 0;
        // "5: access ... not wholly in SRAM or external memory". The two do not
        // adjoin, so bytes that all exist lie in one of them.
        let first = u64::from(address);
        let outside = (first..first + u64::from(size)).any(|at| self.byte(at).is_none());
        // "6: value needs more bytes than the size"
        let needed = value.map_or(0, |value| (64 - value.leading_zeros()).div_ceil(8));
        let too_wide = needed > size;
        let checks = [(4, unaligned), (5, outside), (6, too_wide)];
        checks.into_iter().filter(|check| check.1).map(|check| check.0).min().unwrap_or(0)
    }

    /// "If none is due, a read's value is the bytes at its address,
    /// little-endian". The number, and the value, which is 0 with a refusal.
    pub fn read(&mut self, size: u32, address: u32) -> (u8, u64) {
        let number = self.due(size, address, None);
        let mut value = 0;
        if number == 0 {
            for place in 0..size {
                let byte = *self.byte(u64::from(address) + u64::from(place)).expect("check 5");
                value += u64::from(byte) << (8 * place);
            }
        }
        (number, value)
    }

    /// "and a write puts its value there likewise."
    pub fn write(&mut self, size: u32, address: u32, value: u64) -> u8 {
        let number = self.due(size, address, Some(value));
        if number == 0 {
            for place in 0..size {
                let at = u64::from(address) + u64::from(place);
                *self.byte(at).expect("check 5") = (value >> (8 * place) & 0xFF) as u8;
            }
        }
        number
    }

    /// "A mode change gets 8 if that is due. If not, S becomes L − C for the
    /// new mode; SRAM bytes below the smaller of old and new S are kept, the
    /// other SRAM bytes are zero."
    pub fn change_mode(&mut self, mode: u32) -> u8 {
        // "The cache size C goes by mode: 0 is 0; 1 is 32,768; 2 is 65,536; 3 is
        // 131,072; 7 is 262,144."
        let sizes = [(0, 0), (1, 32_768), (2, 65_536), (3, 131_072), (7, 262_144)];
        let size = sizes.into_iter().find(|&(named, _)| named == mode).map(|(_, c)| c);
        // "8: mode not 0 to 3 or 7, or C above L"
        let Some(s) = size.and_then(|c| self.l.checked_sub(c)) else { return 8 };
        let kept = self.s.min(s) as usize;
        let mut sram = vec![0; s as usize];
        sram[..kept].copy_from_slice(&self.sram[..kept]);
        self.sram = sram;
        self.s = s;
        0
    }

    /// The number and value of a read, a write or a mode change. "No other
    /// call, and no refused one, does anything.": `None` for the others. A freeze
    /// is one of these: "Read values in lists with freezes are still flat memory's."
    /// (02, U11)
    pub fn apply(&mut self, command: &Command) -> Option<(u8, u64)> {
        match *command {
            Command::Read { size, address } => Some(self.read(size, address)),
            Command::Write { size, address, value } => Some((self.write(size, address, value), 0)),
            Command::Mode { mode } => Some((self.change_mode(mode), 0)),
            _ => None,
        }
    }

    /// "Lists with these accesses keep agreeing with flat memory." (02, U6) All the bytes of
    /// one at once, which stand beside each other in one memory; `Err` is the number due: 3,
    /// 5, then 6. No alignment is asked for.
    fn stretch(&mut self, access: &Unaligned) -> Result<&mut [u8], u8> {
        let (size, address, value) = match *access {
            Unaligned::Read { size, address } => (size, address, None),
            Unaligned::Write { size, address, value } => (size, address, Some(value)),
        };
        // "3 refuses sizes 1 and 2"
        let bytes = match size {
            4 => 4,
            8 => 8,
            _ => return Err(3),
        };
        let first = u64::from(address);
        let (memory, offset) = match first.checked_sub(EXTERNAL_AT) {
            Some(offset) => (&mut self.ext, offset as usize),
            None => (&mut self.sram, first as usize),
        };
        let stretch = memory.get_mut(offset..offset + bytes).ok_or(5)?;
        if size == 4 && value.is_some_and(|value| value > u64::from(u32::MAX)) {
            return Err(6);
        }
        Ok(stretch)
    }

    /// The number and value of a non-aligned access.
    pub fn apply_unaligned(&mut self, access: &Unaligned) -> (u8, u64) {
        let stretch = match self.stretch(access) {
            Ok(stretch) => stretch,
            Err(number) => return (number, 0),
        };
        let mut eight = [0; 8];
        match *access {
            Unaligned::Read { .. } => {
                eight[..stretch.len()].copy_from_slice(stretch);
                (0, u64::from_le_bytes(eight))
            }
            Unaligned::Write { value, .. } => {
                eight = value.to_le_bytes();
                stretch.copy_from_slice(&eight[..stretch.len()]);
                (0, 0)
            }
        }
    }

    /// "SRAM transfers join the lists compared with flat memory, which moves the same bytes"
    /// (02, U1), and so do some external ones. All the bytes of one at once; `Err` is the number
    /// due: 4, 13, then 14, by this S.
    fn transferred(&mut self, address: u32, length: usize) -> Result<&mut [u8], u8> {
        // "4 (address not a multiple of 4)"
        if address & 3 != 0 {
            return Err(4);
        }
        // "13 for a length of 0, not a multiple of 4 or above 262,140": so many whole words.
        let words = length / 4;
        if words * 4 != length || !(1..=65_535).contains(&words) {
            return Err(13);
        }
        // "14 for a transfer not wholly in SRAM or external memory."
        let first = u64::from(address);
        let (memory, offset) = match first.checked_sub(EXTERNAL_AT) {
            Some(offset) => (&mut self.ext, offset as usize),
            None => (&mut self.sram, first as usize),
        };
        memory.get_mut(offset..offset + length).ok_or(14)
    }

    /// The number of a transfer of this length, in either direction.
    pub fn transfer_number(&mut self, address: u32, length: usize) -> u8 {
        self.transferred(address, length).err().unwrap_or(0)
    }

    /// The number of a transfer in; with 0 the buffer's bytes stand at the address.
    pub fn transfer_in(&mut self, address: u32, buffer: &[u8]) -> u8 {
        match self.transferred(address, buffer.len()) {
            Ok(stretch) => {
                stretch.copy_from_slice(buffer);
                0
            }
            Err(number) => number,
        }
    }

    /// The number of a transfer out; with 0 the buffer holds the bytes at the address: "an out
    /// transfer's buffer is compared too."
    pub fn transfer_out(&mut self, address: u32, buffer: &mut [u8]) -> u8 {
        match self.transferred(address, buffer.len()) {
            Ok(stretch) => {
                buffer.copy_from_slice(stretch);
                0
            }
            Err(number) => number,
        }
    }

    /// "an accepted fetch gives flat memory's bytes" (02, U4): the number, 15, then 5, by this S,
    /// and the 32 bytes at its address, all 0 with a refusal. `written` says of which of them the
    /// sentence speaks.
    pub fn fetch(&mut self, address: u32) -> (u8, [u8; 32]) {
        let mut bytes = [0; 32];
        // "15 for a fetch address not a multiple of 32"
        if address & 31 != 0 {
            return (15, bytes);
        }
        let there: Option<Vec<u8>> =
            (u64::from(address)..).take(32).map(|at| self.byte(at).copied()).collect();
        match there {
            Some(there) => {
                bytes.copy_from_slice(&there);
                (0, bytes)
            }
            None => (5, bytes),
        }
    }

    /// A frame (02, U14) has the bytes moved as its transfer does, and its reads see them: "the
    /// sums of each accepted frame are those of the camera's pixels." The number, the next turn and
    /// the sums.
    pub fn frame(&mut self, turn: u8, pixels: &[u8]) -> (u8, u8, [u32; 64]) {
        let number = self.frame_number(pixels.len());
        let mut sums = [0; 64];
        let odd = turn & 1 == 1;
        if number != 0 {
            return (number, u8::from(odd), sums);
        }
        // "Frames go alternately to 80000000h (first) and 80000C00h"
        let from = if odd { 0xC00 } else { 0 };
        self.ext[from..from + 3_072].copy_from_slice(pixels);
        for (column, sum) in sums.iter_mut().enumerate() {
            *sum = pixels.iter().skip(column).step_by(64).map(|&pixel| u32::from(pixel)).sum();
        }
        (0, u8::from(!odd), sums)
    }

    /// The number of a frame with so many pixels: "19 for external memory below 6,144 bytes, ...
    /// then 20 for a frame not of 3,072 bytes".
    pub fn frame_number(&self, length: usize) -> u8 {
        match (self.e, length) {
            (0..=6_143, _) => 19,
            (_, 3_072) => 0,
            _ => 20,
        }
    }
}

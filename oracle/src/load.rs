//! "A load to repeat" (02, U9): a trace that is fixed by seed, E and n.

use crate::geometry::{external_length_is_legal, EXTERNAL_BASE};
use crate::trace::Command;
use crate::writer::command_bytes;

/// What making a load gives: the number, 0 where it was made, and how many
/// bytes of the output its trace takes.
#[derive(Clone, Copy, PartialEq, Eq, Debug)]
pub struct Load {
    pub number: u8,
    pub length: usize,
}

/// "From a 32-bit seed make 55 words"
const SEEDED: usize = 55;

/// "each next is the one before plus 9E3779B9h"
const STEP: u32 = 0x9E37_79B9;

/// The words of a seed, all of them from the first on, as far as they were asked
/// for: none is thrown away, so that "places back" is a place in a list.
pub struct Words {
    words: Vec<u32>,
}

impl Words {
    /// "the first is the seed, each next is the one before plus 9E3779B9h."
    pub fn of(seed: u32) -> Words {
        let mut words = vec![seed];
        while words.len() < SEEDED {
            words.push(words[words.len() - 1].wrapping_add(STEP));
        }
        Words { words }
    }

    /// "After that each word is the sum of the words 24 and 55 places back. All
    /// sums drop the carry out of 32 bits."
    pub fn next_word(&mut self) -> u32 {
        let here = self.words.len();
        let word = self.words[here - 24].wrapping_add(self.words[here - 55]);
        self.words.push(word);
        word
    }
}

/// "A word gives an aligned 4-byte access: bit 31 set means write, else read;
/// its remainder by E ÷ 4, times 4, is the offset into external memory; a
/// written value is the word itself."
pub fn access_of(word: u32, e: u32) -> Command {
    let address = EXTERNAL_BASE + word % (e / 4) * 4;
    if word & 0x8000_0000 != 0 {
        Command::Write { size: 4, address, value: word.into() }
    } else {
        Command::Read { size: 4, address }
    }
}

/// "It comes through the writer."
fn bytes_of(access: &Command) -> Vec<u8> {
    let bytes = match *access {
        Command::Write { size, address, value } => {
            command_bytes(1, [size.into(), address.into(), value])
        }
        Command::Read { size, address } => command_bytes(0, [size.into(), address.into(), 0]),
        _ => None,
    };
    bytes.expect("a read or a write whose numbers are narrow")
}

/// "The trace of the first n accesses, from the 56th word on, is fixed by seed,
/// E and n. ... An illegal E gets 1, checked first; output too short for the
/// whole trace gets 16 and changes no byte." Words are made until the trace is
/// whole or longer than the output.
pub fn load_trace(seed: u32, e: u32, accesses: u64, out: &mut [u8]) -> Load {
    if !external_length_is_legal(e.into()) {
        return Load { number: 1, length: 0 };
    }
    let mut words = Words::of(seed);
    let mut trace = Vec::new();
    let mut made = 0;
    while made < accesses {
        trace.extend(bytes_of(&access_of(words.next_word(), e)));
        if trace.len() > out.len() {
            return Load { number: 16, length: 0 };
        }
        made += 1;
    }
    out[..trace.len()].copy_from_slice(&trace);
    Load { number: 0, length: trace.len() }
}

#[cfg(test)]
mod tests {
    use super::{access_of, load_trace, Load, Words, SEEDED, STEP};
    use crate::trace::{decode, Command};

    const SEEDS: [u32; 6] = [0, 1, 0x7FFF_FFFF, 0x8000_0000, 0xDEAD_BEEF, u32::MAX];

    /// The first words, and the 24 behind them, which are sums of seeded words
    /// alone: word k (from 0 on) is the seed plus k steps, so word 55 + k is two
    /// seeds and 31 + k and k steps.
    #[test]
    fn words_worked_out() {
        for seed in SEEDS {
            let mut words = Words::of(seed);
            let wide = u64::from(seed);
            let steps = |count: u64| count * u64::from(STEP);
            for k in 0..55 {
                assert_eq!(words.words[k as usize], (wide + steps(k)) as u32);
            }
            for k in 0..24 {
                assert_eq!(words.next_word(), (2 * wide + steps(31 + k) + steps(k)) as u32);
            }
        }
    }

    /// Words of seed 0 by their number, the first being number 1.
    #[test]
    fn words_of_seed_0() {
        let mut words = Words::of(0);
        while words.words.len() < 160 {
            words.next_word();
        }
        for (number, word) in [
            (1, 0),
            (2, 0x9E37_79B9),
            (55, 0x5FB3_AD06),
            (56, 0x28B7_BD67),
            (80, 0xFDEB_26BF),
            (111, 0x212F_E053),
            (160, 0x3206_B52D),
        ] {
            assert_eq!(words.words[number - 1], word, "word {number}");
        }
    }

    /// Each word without its carry, told once more with numbers that have room
    /// for it, from the words as they stand in the list.
    #[test]
    fn each_later_word_is_a_sum() {
        for seed in SEEDS {
            let mut words = Words::of(seed);
            for _ in 0..1_000 {
                words.next_word();
            }
            for (place, window) in words.words.windows(SEEDED + 1).enumerate() {
                let sum = u64::from(window[0]) + u64::from(window[55 - 24]);
                assert_eq!(u64::from(window[55]), sum % (1 << 32), "word {}", place + 55);
            }
        }
    }

    #[test]
    fn accesses_lie_in_external_memory() {
        for e in [128, 256, 65_536, 33_554_432] {
            for word in [0, 1, 31, 32, 33, 0x7FFF_FFFF, 0x8000_0000, u32::MAX] {
                let (write, address) = match access_of(word, e) {
                    Command::Read { size: 4, address } => (false, address),
                    Command::Write { size: 4, address, value } => {
                        assert_eq!(value, word.into());
                        (true, address)
                    }
                    other => panic!("{other:?}"),
                };
                assert_eq!(write, word >= 0x8000_0000);
                assert!(address >= 0x8000_0000 && address % 4 == 0);
                assert!(address - 0x8000_0000 <= e - 4);
            }
        }
        assert_eq!(access_of(33, 128), Command::Read { size: 4, address: 0x8000_0004 });
        let value = 0xFFFF_FFFF;
        assert_eq!(
            access_of(u32::MAX, 128),
            Command::Write { size: 4, address: 0x8000_007C, value }
        );
    }

    /// The first accesses of seed 0 with E = 128, by hand: 31 steps are
    /// 28B7_BD67h (a read at 1Ch), 33 steps 6526_B0D9h (a read at 64h), 35 steps
    /// A195_A44Bh (a write at 2Ch).
    #[test]
    fn first_accesses_of_seed_0() {
        let mut out = [0xEE; 28];
        assert_eq!(load_trace(0, 128, 3, &mut out), Load { number: 0, length: 26 });
        let expected = [
            0x00, 0x04, 0x9C, 0x80, 0x80, 0x80, 0x08, 0x00, 0x04, 0xE4, 0x80, 0x80, 0x80, 0x08,
            0x01, 0x04, 0xAC, 0x80, 0x80, 0x80, 0x08, 0xCB, 0xC8, 0xD6, 0x8C, 0x0A, 0xEE, 0xEE,
        ];
        assert_eq!(out, expected);
    }

    #[test]
    fn the_trace_reads_back_as_the_accesses() {
        for (seed, e, accesses) in [(7, 128, 1_000), (u32::MAX, 65_536, 999), (0, 33_554_432, 500)]
        {
            let mut out = vec![0; 12_000];
            let load = load_trace(seed, e, accesses, &mut out);
            assert_eq!(load.number, 0);
            let mut words = Words::of(seed);
            let mut place = 0;
            for _ in 0..accesses {
                let (command, length) = decode(&out[place..load.length]).expect("a command");
                assert_eq!(command, access_of(words.next_word(), e));
                place += length;
            }
            assert_eq!(place, load.length);
        }
    }

    #[test]
    fn one_for_an_illegal_length_comes_first() {
        for e in [0, 1, 4, 127, 129, 64, 33_554_431, 33_554_432 + 128, u32::MAX, 0x8000_0000] {
            for accesses in [0, 1, u64::MAX] {
                let mut out = [7; 30];
                assert_eq!(load_trace(3, e, accesses, &mut out), Load { number: 1, length: 0 });
                assert_eq!(load_trace(3, e, accesses, &mut []), Load { number: 1, length: 0 });
                assert_eq!(out, [7; 30]);
            }
        }
    }

    #[test]
    fn sixteen_changes_no_byte_and_exact_room_is_enough() {
        let whole = load_trace(5, 4_096, 9, &mut [0; 200]).length;
        for length in 0..120 {
            let mut out = vec![7; length];
            let load = load_trace(5, 4_096, 9, &mut out);
            if length < whole {
                assert_eq!(load, Load { number: 16, length: 0 });
                assert_eq!(out, vec![7; length]);
            } else {
                assert_eq!(load, Load { number: 0, length: whole });
                assert!(out[whole..].iter().all(|&byte| byte == 7));
            }
        }
        assert_eq!(load_trace(5, 128, u64::MAX, &mut [0; 500]).number, 16);
    }

    #[test]
    fn no_access_is_an_empty_trace() {
        assert_eq!(load_trace(5, 128, 0, &mut []), Load { number: 0, length: 0 });
    }
}

//! "Writing traces" (02, U7): one command put behind a point of a lent output.

/// What putting a command gives: the number, 0 where it was put, and the point
/// that the output has reached.
#[derive(Clone, Copy, PartialEq, Eq, Debug)]
pub struct Put {
    pub number: u8,
    pub at: usize,
}

/// The widths of the numbers that a code takes, in their order: "Codes: 0 read
/// (size, address); 1 write (size, address, value); 2 L2 writeback all; 3 L2
/// writeback-invalidate all; 4, 5, 6 L2 block writeback, writeback-invalidate,
/// invalidate (base, count); 7, 8 L1D block writeback-invalidate, invalidate
/// (base, count); 9 L1D invalidate all; 10 mode; 11 MAR (number, bit). Value is
/// 64 bits wide, the others 32." "in the trace code 12, takes one number" (02,
/// U11). `None` for "a code the trace lacks".
pub fn widths(code: u32) -> Option<&'static [u32]> {
    match code {
        0 => Some(&[32, 32]),
        1 => Some(&[32, 32, 64]),
        2 | 3 => Some(&[]),
        4 | 5 | 6 => Some(&[32, 32]),
        7 | 8 => Some(&[32, 32]),
        9 => Some(&[]),
        10 => Some(&[32]),
        11 => Some(&[32, 32]),
        12 => Some(&[32]),
        _ => None,
    }
}

/// "numbers in groups of seven bits, low group first, top bit set on all but
/// the last, shortest form only"
fn number_bytes(number: u64) -> Vec<u8> {
    let bits = 64 - number.leading_zeros();
    // 0 has a group too.
    let groups = bits.div_ceil(7).max(1);
    let group = |place: u32| (number >> (7 * place)) as u8 & 0x7F;
    (0..groups)
        .map(|place| if place + 1 < groups { group(place) | 0x80 } else { group(place) })
        .collect()
}

/// "A command is a code byte and numbers". `None` stands for 11, "a code the
/// trace lacks or a number too wide". "Numbers a code doesn't take are no part
/// of its command."
pub fn command_bytes(code: u32, numbers: [u64; 3]) -> Option<Vec<u8>> {
    let mut bytes = vec![code as u8];
    for (&width, &number) in widths(code)?.iter().zip(&numbers) {
        if u128::from(number) >= 1 << width {
            return None;
        }
        bytes.extend(number_bytes(number));
    }
    Some(bytes)
}

/// "a writer that keeps the lent output and the point it has reached, and puts
/// one command at a time behind it. ... A command that doesn't fit changes no
/// byte. Errors: 16 for too few bytes left, checked last, after 11". A point
/// behind the end of the output leaves no byte at all.
pub fn put_command(out: &mut [u8], at: usize, code: u32, numbers: [u64; 3]) -> Put {
    let Some(bytes) = command_bytes(code, numbers) else { return Put { number: 11, at } };
    let left = out.len().saturating_sub(at);
    if bytes.len() > left {
        return Put { number: 16, at };
    }
    out[at..at + bytes.len()].copy_from_slice(&bytes);
    Put { number: 0, at: at + bytes.len() }
}

#[cfg(test)]
mod tests {
    use super::{command_bytes, number_bytes, put_command, Put};
    use crate::gen::{code, encode, numbers, Rng};
    use crate::trace::{decode, decode_number};

    #[test]
    fn numbers_of_the_paper() {
        assert_eq!(number_bytes(300), [0xAC, 0x02]);
        assert_eq!(number_bytes(127), [0x7F]);
        assert_eq!(number_bytes(0x8000_0000), [0x80, 0x80, 0x80, 0x80, 0x08]);
        assert_eq!(number_bytes(0), [0]);
        assert_eq!(number_bytes(u64::MAX).len(), 10);
    }

    #[test]
    fn numbers_around_each_group_come_back_and_are_shortest() {
        for bits in 0..64 {
            for number in [(1u64 << bits) - 1, 1 << bits, (1 << bits) + 1] {
                let bytes = number_bytes(number);
                assert_eq!(decode_number(&bytes, 0, 64), Some((number, bytes.len())));
                // One group fewer holds fewer bits than the number has.
                let shorter = 7 * (bytes.len() as u32 - 1);
                assert!(bytes.len() == 1 || number >> shorter != 0, "{number}");
            }
        }
    }

    #[test]
    fn the_worked_example_is_written() {
        let list: [(u32, [u64; 3]); 5] = [
            (11, [128, 1, 0]),
            (1, [4, 0x8000_0000, 5]),
            (0, [4, 0x8000_0000, 0]),
            (0, [4, 0x8000_0000, 99]),
            (10, [4, u64::MAX, u64::MAX]),
        ];
        let mut out = [0xEE; 30];
        let mut at = 0;
        for (code, numbers) in list {
            let put = put_command(&mut out, at, code, numbers);
            assert_eq!(put.number, 0);
            at = put.at;
        }
        let example = [
            0x0B, 0x80, 0x01, 0x01, 0x01, 0x04, 0x80, 0x80, 0x80, 0x80, 0x08, 0x05, 0x00, 0x04,
            0x80, 0x80, 0x80, 0x80, 0x08, 0x00, 0x04, 0x80, 0x80, 0x80, 0x80, 0x08, 0x0A, 0x04,
            0xEE, 0xEE,
        ];
        assert_eq!((at, out), (28, example));
    }

    #[test]
    fn eleven_comes_first_and_only_for_what_the_code_takes() {
        let wide = 1 << 32;
        for (code, numbers) in [
            (13, [0; 3]),
            (14, [0; 3]),
            (255, [0; 3]),
            (256, [0; 3]),
            (u32::MAX, [0; 3]),
            (0, [wide, 0, 0]),
            (1, [0, wide, 0]),
            (4, [0, u64::MAX, 0]),
            (10, [wide, 0, 0]),
            (11, [0, wide, 0]),
            (12, [wide, 0, 0]),
        ] {
            for (length, at) in [(0, 0), (40, 0), (40, 40), (40, 41), (40, usize::MAX)] {
                let mut out = vec![7; length];
                assert_eq!(put_command(&mut out, at, code, numbers), Put { number: 11, at });
                assert_eq!(out, vec![7; length]);
            }
        }
        assert_eq!(command_bytes(2, [u64::MAX; 3]), Some(vec![2]));
        assert_eq!(command_bytes(10, [1, u64::MAX, u64::MAX]), Some(vec![10, 1]));
        assert_eq!(command_bytes(12, [1, u64::MAX, u64::MAX]), Some(vec![12, 1]));
        // What 17 refuses is a command all the same.
        assert_eq!(command_bytes(12, [300, wide, wide]), Some(vec![12, 0xAC, 0x02]));
        assert_eq!(command_bytes(1, [1, 2, wide]), Some(vec![1, 1, 2, 128, 128, 128, 128, 16]));
    }

    #[test]
    fn sixteen_changes_no_byte_and_exact_room_is_enough() {
        let numbers = [u64::from(u32::MAX), u64::from(u32::MAX), u64::MAX];
        for length in 0..40 {
            for at in (0..45).chain([usize::MAX - 20, usize::MAX]) {
                let mut out = vec![7; length];
                let put = put_command(&mut out, at, 1, numbers);
                if at <= length && length - at >= 21 {
                    assert_eq!(put, Put { number: 0, at: at + 21 });
                    assert!(out[..at].iter().chain(&out[at + 21..]).all(|&byte| byte == 7));
                } else {
                    assert_eq!(put, Put { number: 16, at });
                    assert_eq!(out, vec![7; length]);
                }
            }
        }
    }

    /// Random bytes with which a command begins: the command is written as it
    /// stood there, and as the generators' encoder writes it.
    #[test]
    fn what_is_accepted_is_written_as_it_was() {
        let mut rng = Rng::new(7);
        let mut accepted = 0;
        for _ in 0..50_000 {
            let mut bytes = [0; 24];
            rng.fill(&mut bytes);
            bytes[0] %= 14;
            let Some((command, length)) = decode(&bytes) else { continue };
            accepted += 1;
            let mut three = [rng.next_u64(); 3];
            let taken = numbers(&command);
            three[..taken.len()].copy_from_slice(&taken);
            let written = command_bytes(code(&command).into(), three);
            assert_eq!(written.as_deref(), Some(&bytes[..length]));
            let mut encoded = Vec::new();
            encode(&command, &mut encoded);
            assert_eq!(encoded, bytes[..length]);
        }
        assert!(accepted > 5_000, "{accepted}");
    }
}

//! "All short runs" (02, U12). The list that the paper speaks of is written down
//! once, run by run, and everything is looked up in it: there is no formula here
//! that could be wrong in the same way as one of the proved code.

use std::sync::OnceLock;

use crate::trace::Command;

/// "every run of up to four commands"
pub const LONGEST: usize = 4;

/// "eight commands get digits"
pub const DIGITS: u8 = 8;

/// "18 for a number above 4,680, a longer run or a digit above 7"
pub const NO_SHORT_RUN: u8 = 18;

/// The command before a run: "With MAR 128 set".
pub const BEFORE: Command = Command::Mar { number: 128, bit: 1 };

/// "eight commands get digits: 0 and 1 read one byte at 80000000h and
/// 80002000h; 2 and 3 write 1 and 2 there; 4 L2 writeback all; 5 L2
/// writeback-invalidate all; 6 mode 0; 7 mode 1." Other digits have none.
pub fn command_of(digit: u8) -> Option<Command> {
    Some(match digit {
        0 => Command::Read { size: 1, address: 0x8000_0000 },
        1 => Command::Read { size: 1, address: 0x8000_2000 },
        2 => Command::Write { size: 1, address: 0x8000_0000, value: 1 },
        3 => Command::Write { size: 1, address: 0x8000_2000, value: 2 },
        4 => Command::L2WritebackAll,
        5 => Command::L2WritebackInvalidateAll,
        6 => Command::Mode { mode: 0 },
        7 => Command::Mode { mode: 1 },
        _ => return None,
    })
}

/// "List every run of up to four commands, shorter first, then by digits, the
/// first weighing most: 4,681 runs, the empty one being number 0." The runs of
/// a length are those of the length before with each digit behind them, in
/// order: of two runs the one that is earlier without its last digit stays so.
pub fn list() -> &'static [Vec<u8>] {
    static LIST: OnceLock<Vec<Vec<u8>>> = OnceLock::new();
    LIST.get_or_init(|| {
        let mut all = Vec::new();
        let mut of_a_length = vec![Vec::new()];
        for length in 0..=LONGEST {
            if length > 0 {
                of_a_length = one_longer(&of_a_length);
            }
            all.extend(of_a_length.iter().cloned());
        }
        all
    })
}

fn one_longer(runs: &[Vec<u8>]) -> Vec<Vec<u8>> {
    let mut longer = Vec::new();
    for run in runs {
        for digit in 0..DIGITS {
            longer.push([run.as_slice(), &[digit]].concat());
        }
    }
    longer
}

/// "From a number give the run": the number of the answer, and the run. "Errors:
/// 18 for a number above 4,680 ..., the only check of this call; number 0 or the
/// empty run comes with it."
pub fn run_of(number: u32) -> (u8, &'static [u8]) {
    match list().get(number as usize) {
        Some(run) => (0, run),
        None => (NO_SHORT_RUN, &[]),
    }
}

/// "from a run its number": the number of the answer, and that of the run.
/// "Errors: 18 for ... a longer run or a digit above 7, the only check of this
/// call; number 0 or the empty run comes with it."
pub fn number_of(run: &[u8]) -> (u8, u32) {
    match list().iter().position(|listed| listed == run) {
        Some(number) => (0, number as u32),
        None => (NO_SHORT_RUN, 0),
    }
}

#[cfg(test)]
mod tests {
    use super::*;

    /// "4,681 runs, the empty one being number 0"
    #[test]
    fn as_many_as_the_paper_says() {
        assert_eq!(list().len(), 4_681);
        assert!(list()[0].is_empty());
        for length in 0..=LONGEST {
            let runs = list().iter().filter(|run| run.len() == length);
            assert_eq!(runs.count(), 8usize.pow(length as u32));
        }
    }

    /// "shorter first, then by digits, the first weighing most": each run is
    /// earlier than the next one by just that.
    #[test]
    fn in_order() {
        for pair in list().windows(2) {
            let (run, next) = (&pair[0], &pair[1]);
            let differ = run.iter().zip(next).find(|(digit, other)| digit != other);
            let earlier = differ.is_some_and(|(digit, other)| digit < other);
            assert!(run.len() < next.len() || run.len() == next.len() && earlier);
        }
    }

    /// "Each run has exactly one number."
    #[test]
    fn one_number_each() {
        for (number, run) in list().iter().enumerate() {
            assert_eq!(run_of(number as u32), (0, run.as_slice()));
            assert_eq!(number_of(run), (0, number as u32));
        }
    }

    #[test]
    fn ends_of_each_length() {
        let known: [(u32, &[u8]); 10] = [
            (0, &[]),
            (1, &[0]),
            (8, &[7]),
            (9, &[0, 0]),
            (17, &[1, 0]),
            (72, &[7, 7]),
            (73, &[0, 0, 0]),
            (584, &[7, 7, 7]),
            (585, &[0, 0, 0, 0]),
            (4_680, &[7, 7, 7, 7]),
        ];
        for (number, run) in known {
            assert_eq!(run_of(number), (0, run));
            assert_eq!(number_of(run), (0, number));
        }
    }

    #[test]
    fn refused() {
        for number in [4_681, 4_682, 5_000, 65_536, 1 << 31, u32::MAX] {
            assert_eq!(run_of(number), (18, &[][..]));
        }
        let runs: [&[u8]; 6] = [&[8], &[255], &[0, 0, 0, 8], &[7, 8, 0], &[0; 5], &[9; 300]];
        for run in runs {
            assert_eq!(number_of(run), (18, 0));
        }
    }

    #[test]
    fn eight_digits_have_commands() {
        assert!((0..DIGITS).all(|digit| command_of(digit).is_some()));
        assert!((DIGITS..=255).all(|digit| command_of(digit).is_none()));
        assert_eq!(command_of(3), Some(Command::Write { size: 1, address: 0x8000_2000, value: 2 }));
    }
}

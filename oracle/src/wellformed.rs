//! The paragraph that begins "A record is well formed when". One function for
//! each clause; each of them may be asked of a record of any content.
//!
//! "sets not in use are fresh" says all there is to say about an L2 set not in
//! use (a fresh set breaks no other clause), so the other clauses look only at
//! the L2 sets in use; the counts of dirty lines are of all sets.

use crate::geometry::{
    external_length_is_legal, l2_length_is_legal, mode_is_legal, place, L1d, L1p, Place, L2,
};
use crate::record::{L2Set, Line, Record};

/// The clauses of the paragraph.
#[derive(Clone, Copy, PartialEq, Eq, Debug)]
pub enum Clause {
    SizesAndMode,
    MarBits,
    Frozen,
    Orders,
    InvalidWays,
    LineMultiples,
    OwnSets,
    NoLineTwice,
    L1dPlaces,
    L2Places,
    UnusedSets,
    Inclusion,
    DirtyCounts,
    L1pClean,
    L1pPlaces,
}

/// All clauses, with the sizes and the mode first.
pub const CLAUSES: [Clause; 15] = [
    Clause::SizesAndMode,
    Clause::MarBits,
    Clause::Frozen,
    Clause::Orders,
    Clause::InvalidWays,
    Clause::LineMultiples,
    Clause::OwnSets,
    Clause::NoLineTwice,
    Clause::L1dPlaces,
    Clause::L2Places,
    Clause::UnusedSets,
    Clause::Inclusion,
    Clause::DirtyCounts,
    Clause::L1pClean,
    Clause::L1pPlaces,
];

/// "A record is well formed when" every clause holds.
pub fn is_well_formed(record: &Record) -> bool {
    CLAUSES.iter().all(|&clause| holds(record, clause))
}

/// The clauses that do not hold.
pub fn broken_clauses(record: &Record) -> Vec<Clause> {
    CLAUSES.into_iter().filter(|&clause| !holds(record, clause)).collect()
}

/// Whether one clause of "A record is well formed when" holds.
pub fn holds(record: &Record, clause: Clause) -> bool {
    match clause {
        Clause::SizesAndMode => sizes_and_mode_are_legal(record),
        Clause::MarBits => mar_bits_are_bits(record),
        Clause::Frozen => frozen_is_0_or_1(record),
        Clause::Orders => orders_are_permutations(record),
        Clause::InvalidWays => invalid_ways_are_empty(record),
        Clause::LineMultiples => addresses_are_multiples_of_the_line_length(record),
        Clause::OwnSets => lines_lie_in_their_own_set(record),
        Clause::NoLineTwice => no_line_is_held_twice(record),
        Clause::L1dPlaces => l1d_lines_lie_where_they_may(record),
        Clause::L2Places => l2_lines_lie_where_they_may(record),
        Clause::UnusedSets => sets_not_in_use_are_fresh(record),
        Clause::Inclusion => external_l1d_lines_lie_in_l2_lines(record),
        // 02, U5: "A record whose counts are wrong isn't well formed".
        Clause::DirtyCounts => record.counts_are_right(),
        Clause::L1pClean => l1p_lines_are_clean(record),
        Clause::L1pPlaces => l1p_lines_lie_where_they_may(record),
    }
}

/// "L2 cache: 4 ways, C ÷ 512 sets, none in mode 0.": those sets.
fn l2_sets_in_use(record: &Record) -> &[L2Set] {
    &record.l2[..L2::sets(record.mode)]
}

/// "sets not in use": the other ones.
fn l2_sets_not_in_use(record: &Record) -> &[L2Set] {
    &record.l2[L2::sets(record.mode)..]
}

/// "L, E and the mode are legal with C ≤ L".
fn sizes_and_mode_are_legal(record: &Record) -> bool {
    l2_length_is_legal(u64::from(record.l))
        && external_length_is_legal(u64::from(record.e))
        && mode_is_legal(record.l, record.mode)
}

/// "the two MAR bits (128 and 129)": a bit is 0 or 1.
fn mar_bits_are_bits(record: &Record) -> bool {
    record.mar128 <= 1 && record.mar129 <= 1
}

/// 02, U11: "1 freezes, 0 thaws; the record keeps it": no other number is kept.
fn frozen_is_0_or_1(record: &Record) -> bool {
    record.frozen <= 1
}

/// "orders are permutations".
fn orders_are_permutations(record: &Record) -> bool {
    record.l1d.iter().all(|set| is_permutation(&set.order))
        && l2_sets_in_use(record).iter().all(|set| is_permutation(&set.order))
}

/// "a permutation of its ways": each way stands in the order.
fn is_permutation<const N: usize>(order: &[u8; N]) -> bool {
    (0..N).all(|way| order.contains(&(way as u8)))
}

/// "invalid ways are as just said", which is "An invalid way is clean with
/// address 0."
fn invalid_ways_are_empty(record: &Record) -> bool {
    let as_said = |line: &Line| line.valid || (!line.dirty && line.address == 0);
    record.l1d.iter().all(|set| set.lines.iter().all(as_said))
        && l2_sets_in_use(record).iter().all(|set| set.lines.iter().all(as_said))
        && record.l1p.iter().all(|set| set.lines.iter().all(as_said))
}

/// "valid line addresses are multiples of the line length".
fn addresses_are_multiples_of_the_line_length(record: &Record) -> bool {
    let l1d_multiple = |line: &Line| !line.valid || line.address % L1d::LINE == 0;
    let l2_multiple = |line: &Line| !line.valid || line.address % L2::LINE == 0;
    let l1p_multiple = |line: &Line| !line.valid || line.address % L1p::LINE == 0;
    record.l1d.iter().all(|set| set.lines.iter().all(l1d_multiple))
        && l2_sets_in_use(record).iter().all(|set| set.lines.iter().all(l2_multiple))
        && record.l1p.iter().all(|set| set.lines.iter().all(l1p_multiple))
}

/// "and lie in their own set".
fn lines_lie_in_their_own_set(record: &Record) -> bool {
    let l1d = record.l1d.iter().enumerate().all(|(number, set)| {
        set.lines.iter().all(|line| !line.valid || L1d::set_of(line.address) == number)
    });
    let l2 = l2_sets_in_use(record).iter().enumerate().all(|(number, set)| {
        set.lines
            .iter()
            .all(|line| !line.valid || L2::set_of(record.mode, line.address) == Some(number))
    });
    let l1p = record.l1p.iter().enumerate().all(|(number, set)| {
        set.lines.iter().all(|line| !line.valid || L1p::set_of(line.address) == number)
    });
    l1d && l2 && l1p
}

/// "no line twice", in each cache by itself. Lines of different sets have
/// different addresses, each lying in its own set, so one set is looked at at
/// a time. A set of L1P has one line.
fn no_line_is_held_twice(record: &Record) -> bool {
    record.l1d.iter().all(|set| lines_differ(&set.lines))
        && l2_sets_in_use(record).iter().all(|set| lines_differ(&set.lines))
}

/// "no line twice" for the lines of one set.
fn lines_differ<const N: usize>(lines: &[Line; N]) -> bool {
    (0..N).all(|a| {
        (0..a).all(|b| !(lines[a].valid && lines[b].valid && lines[a].address == lines[b].address))
    })
}

/// "L1D lines lie in SRAM or in external memory whose MAR bit is 1".
fn l1d_lines_lie_where_they_may(record: &Record) -> bool {
    let s = record.sram_size();
    record.l1d.iter().all(|set| {
        set.lines.iter().all(|line| {
            !line.valid
                || match place(s, record.e, line.address, L1d::LINE) {
                    Some(Place::Sram) => true,
                    Some(Place::External) => record.mar_bit(line.address) == 1,
                    None => false,
                }
        })
    })
}

/// 02, U4: "L1P lines are always clean". Of an invalid way that is said already.
fn l1p_lines_are_clean(record: &Record) -> bool {
    record.l1p.iter().all(|set| set.lines.iter().all(|line| !line.valid || !line.dirty))
}

/// 02, U4: L1P lines "lie where L1D lines may, and needn't be in L2".
fn l1p_lines_lie_where_they_may(record: &Record) -> bool {
    let s = record.sram_size();
    record.l1p.iter().all(|set| {
        set.lines.iter().all(|line| {
            !line.valid
                || match place(s, record.e, line.address, L1p::LINE) {
                    Some(Place::Sram) => true,
                    Some(Place::External) => record.mar_bit(line.address) == 1,
                    None => false,
                }
        })
    })
}

/// "L2 lines only in the latter", which is "external memory whose MAR bit is
/// 1".
fn l2_lines_lie_where_they_may(record: &Record) -> bool {
    let s = record.sram_size();
    l2_sets_in_use(record).iter().all(|set| {
        set.lines.iter().all(|line| {
            !line.valid
                || (place(s, record.e, line.address, L2::LINE) == Some(Place::External)
                    && record.mar_bit(line.address) == 1)
        })
    })
}

/// "sets not in use are fresh".
fn sets_not_in_use_are_fresh(record: &Record) -> bool {
    l2_sets_not_in_use(record).iter().all(|set| *set == L2Set::FRESH)
}

/// "and in a mode other than 0 each external L1D line lies inside a valid L2
/// line."
fn external_l1d_lines_lie_in_l2_lines(record: &Record) -> bool {
    if record.mode == 0 {
        return true;
    }
    let s = record.sram_size();
    record.l1d.iter().all(|set| {
        set.lines.iter().all(|line| {
            let external =
                line.valid && place(s, record.e, line.address, L1d::LINE) == Some(Place::External);
            !external || record.find_l2(line.address).is_some()
        })
    })
}

//! The worked example of bench-trace, and its edges.

use oracle::bench::bench_trace;

#[test]
fn worked_example_prints_in_full() {
    let input = [
        0x0B, 0x80, 0x01, 0x01, // MAR 128, bit 1
        0x01, 0x04, 0x80, 0x80, 0x80, 0x80, 0x08, 0x05, // write 5
        0x00, 0x04, 0x80, 0x80, 0x80, 0x80, 0x08, // read
        0x00, 0x04, 0x80, 0x80, 0x80, 0x80, 0x08, // the same read again
        0x0A, 0x04, // mode 4
    ];
    let output = "0 0 0\n0 4 0\n0 4 5\n0 1 5\n8 0 0\nend 0 28\n";
    assert_eq!(bench_trace(&input), output);
}

#[test]
fn empty_input_ends_at_once() {
    assert_eq!(bench_trace(&[]), "end 0 0\n");
}

#[test]
fn only_the_first_4096_bytes_are_read() {
    let mut input = vec![2; 4_096];
    let output = format!("{}end 0 4096\n", "0 0 0\n".repeat(4_096));
    assert_eq!(bench_trace(&input), output);
    input.extend([0xFF; 100]);
    assert_eq!(bench_trace(&input), output);
}

#[test]
fn damage_stops_with_11_before_the_command() {
    assert_eq!(bench_trace(&[9, 0, 4, 0x80]), "0 0 0\nend 11 1\n");
    assert_eq!(bench_trace(&[9, 13, 9]), "0 0 0\nend 11 1\n");
    assert_eq!(bench_trace(&[9, 12]), "0 0 0\nend 11 1\n");
}

/// Code 12 (02, U11): the second read of a frozen L1D is no hit, 2 is refused with
/// 17, and thawed the third read fills the line that the fourth hits.
#[test]
fn a_frozen_l1d_prints_so() {
    let input = [12, 1, 0, 1, 0, 0, 1, 0, 12, 2, 12, 0, 0, 1, 0, 0, 1, 0];
    let output = "0 0 0\n0 2 0\n0 2 0\n17 0 0\n0 0 0\n0 2 0\n0 1 0\nend 0 18\n";
    assert_eq!(bench_trace(&input), output);
}

#[test]
fn largest_value_is_printed_in_decimal() {
    let mut input = vec![1, 8, 0];
    input.extend([0xFF; 9]);
    input.push(1);
    input.extend([0, 8, 0]);
    assert_eq!(bench_trace(&input), "0 2 0\n0 2 18446744073709551615\nend 0 16\n");
}

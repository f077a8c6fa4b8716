//! What the program bench-load has to print for a seed, E and n, told by the
//! reference model alone.

use std::process::ExitCode;

use oracle::bench::bench_load;

fn main() -> ExitCode {
    let words: Vec<String> = std::env::args().skip(1).collect();
    let [seed, e, accesses] = &words[..] else { return ExitCode::from(2) };
    match (seed.parse(), e.parse(), accesses.parse()) {
        (Ok(seed), Ok(e), Ok(accesses)) => {
            print!("{}", bench_load(seed, e, accesses));
            ExitCode::SUCCESS
        }
        _ => ExitCode::from(2),
    }
}

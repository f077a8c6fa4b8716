//! Compares the calls of include/c64x.h, through the static library, with the
//! reference model of ../oracle. See `compare --help`.

mod bench;
mod boundary;
mod load;
mod now;
mod pair;
mod plant;
mod report;
mod sections;
mod shrink;
mod two_runs;
mod writing;

use std::panic;
use std::path::PathBuf;
use std::process::ExitCode;
use std::time::Instant;

use oracle::gen::Rng;

use pair::{Met, NUMBERS};
use plant::{Planted, PLANTS};
use report::report;
use sections::{Group, Section, SECTIONS};
use shrink::shrink;

const HELP: &str = "\
compare: the calls of the boundary against the reference model

  --calls N            how many calls at least (default 1000000)
  --seed S             the seed of all that is random (default 640101)
  --bench-trace PATH   the program bench-trace, to be compared as well
  --section NAME       only this section: records, lists, traces, refusals, views,
                       short-runs, writing, two-runs, dropped, reaching, load, frozen,
                       thrashing, transfers, frames, fetches
  --group K            only group K of that section
  --input K            nothing but input K of bench-trace
  --now PATH           a file that says which group is being run
  --plant NAME         with a difference that is planted, to test compare itself
  --help               this text

Equal seeds give equal calls. Exit status: 0 no difference; 1 a difference or a
panic, which is made smaller and printed, or something that should be met was
not; 2 bad usage, or a program or file that cannot be run or written.";

const OPTIONS: [&str; 8] =
    ["--calls", "--seed", "--bench-trace", "--section", "--group", "--input", "--now", "--plant"];

struct Arguments {
    calls: u64,
    seed: u64,
    bench_trace: Option<PathBuf>,
    section: Option<&'static Section>,
    group: Option<u64>,
    input: Option<u64>,
    now: Option<PathBuf>,
    plant: Option<&'static Planted>,
}

impl Arguments {
    /// The words that plant the same difference again.
    fn planted(&self) -> String {
        self.plant.map_or(String::new(), |planted| format!(" --plant {}", planted.name))
    }
}

/// The arguments; `None` if help was asked for.
fn arguments(mut words: impl Iterator<Item = String>) -> Result<Option<Arguments>, String> {
    let mut found = Arguments {
        calls: 1_000_000,
        seed: 640_101,
        bench_trace: None,
        section: None,
        group: None,
        input: None,
        now: None,
        plant: None,
    };
    while let Some(word) = words.next() {
        if word == "--help" {
            return Ok(None);
        }
        if !OPTIONS.contains(&&*word) {
            return Err(format!("'{word}' is no argument of compare"));
        }
        let value = words.next().ok_or(format!("{word} needs a value"))?;
        let number = || {
            value.parse::<u64>().map_err(|_| format!("{word} needs a whole number, not '{value}'"))
        };
        match &*word {
            "--calls" => found.calls = number()?,
            "--seed" => found.seed = number()?,
            "--group" => found.group = Some(number()?),
            "--input" => found.input = Some(number()?),
            "--now" => found.now = Some(PathBuf::from(&value)),
            "--plant" => found.plant = Some(plant::find(&value)?),
            "--bench-trace" => {
                let path = PathBuf::from(&value);
                if !path.is_file() {
                    return Err(format!("--bench-trace: there is no file '{value}'"));
                }
                found.bench_trace = Some(path);
            }
            _ => {
                let section = SECTIONS.iter().find(|section| section.name == value);
                found.section = Some(section.ok_or(format!("there is no section '{value}'"))?);
            }
        }
    }
    if found.calls == 0 {
        return Err("--calls needs a number above 0".into());
    }
    if found.group.is_some() && found.section.is_none() {
        return Err("--group needs --section".into());
    }
    if found.input.is_some() && found.bench_trace.is_none() {
        return Err("--input needs --bench-trace".into());
    }
    if found.input.is_some_and(|input| input >= bench::INPUTS) {
        return Err(format!("--input needs a number below {}", bench::INPUTS));
    }
    Ok(Some(found))
}

fn main() -> ExitCode {
    now::keep_panics();
    let arguments = match arguments(std::env::args().skip(1)) {
        Err(message) => {
            eprintln!("compare: {message}; see compare --help");
            return ExitCode::from(2);
        }
        Ok(None) => {
            println!("{HELP}\n\nDifferences that can be planted:");
            for planted in &PLANTS {
                println!("  {:20} {}", planted.name, planted.about);
            }
            return ExitCode::SUCCESS;
        }
        Ok(Some(arguments)) => arguments,
    };
    match panic::catch_unwind(|| run(&arguments)) {
        Ok(Ok(true)) => ExitCode::SUCCESS,
        Ok(Ok(false)) => ExitCode::from(1),
        Ok(Err(message)) => {
            eprintln!("compare: {message}");
            ExitCode::from(2)
        }
        // One outside the lists of calls, as in making them.
        Err(_) => {
            println!("PANIC in {}", now::place());
            println!("{}", now::last_panic());
            ExitCode::from(1)
        }
    }
}

/// Whether all is well; an error is something that could not be run.
fn run(arguments: &Arguments) -> Result<bool, String> {
    let started = Instant::now();
    if let Some(planted) = arguments.plant {
        plant::choose(planted);
    }
    let mut met = Met::default();
    if arguments.input.is_none() && !run_sections(arguments, &mut met)? {
        return Ok(false);
    }
    if !run_bench(arguments)? {
        return Ok(false);
    }
    let numbers = NUMBERS.map(|number| format!("{number}: {}", met.numbers[number]));
    println!("numbers met: {}", numbers.join(", "));
    println!("servers met, 0 to 5: {:?}; modes: {:?}", met.servers, met.modes);
    println!(
        "refused calls and views with every byte of the record kept: {}; global writebacks with \
         nothing left dirty: {}; memories set against flat memory: {} after calls ({} with a line \
         of SRAM sent home), {} after runs",
        met.untouched,
        met.written_back,
        met.flat_memories.iter().sum::<u64>(),
        met.flat_sram.iter().sum::<u64>(),
        met.flat_runs.iter().sum::<u64>()
    );
    println!(
        "dirty lines that L2 commands took out of L1D and that lay in no L2 line, of SRAM and of \
         external memory, codes 2 to 6: {:?}",
        met.beside_l2
    );
    println!(
        "commands written: {}, refused with 11: {}, with 16: {}",
        met.puts[0], met.puts[1], met.puts[2]
    );
    println!(
        "pairs of calls that differ in data: {}, in one byte: {}; of these, answers that differ in \
         it: {}, held lines: {}",
        met.two_runs.data, met.two_runs.one_byte, met.two_runs.parted, met.two_runs.held
    );
    println!(
        "loads made: {}, refused with 1: {}, with 16: {}",
        met.loads[0], met.loads[1], met.loads[2]
    );
    let frozen = &met.frozen;
    println!(
        "frozen: hits {}, write hits {}, of clean lines {}; misses by SRAM, L2, external memory \
         behind it and in mode 0 {:?}, write misses {:?}; dirty lines of L1D spared {}; L2 lines \
         that left with halves {}, with a dirty one {}",
        frozen.hits,
        frozen.write_hits,
        frozen.dirtied,
        frozen.misses,
        frozen.write_misses,
        frozen.spared,
        frozen.halves,
        frozen.dirty_halves
    );
    println!(
        "frozen: mode changes {}, fresh starts {}, records refused {}; in runs accepted {}, \
         answered with 17 {}; written {}",
        frozen.modes, frozen.fresh, frozen.refused, frozen.run, frozen.run_refused, frozen.puts
    );
    let counts = &met.counts;
    println!(
        "counts of dirty lines: of L1D up {} and down {} times, of L2 up {} and down {}, at most {:?}; \
         writes to dirty lines {:?}; lines counted after {} calls and runs",
        counts.l1d_up.iter().sum::<u64>(),
        counts.l1d_down.iter().sum::<u64>(),
        counts.l2_up.iter().sum::<u64>(),
        counts.l2_down.iter().sum::<u64>(),
        counts.most,
        counts.again,
        counts.counted
    );
    let put_out = &met.put_out;
    println!(
        "reports compared: {}; what L1D told, none, empty, clean, dirty, in mode 0 and in the others: \
         {:?}; L2 of reads, frozen reads and writes: {:?}; lines of SRAM: {:?}",
        put_out.reports, put_out.l1d, put_out.l2, put_out.sram
    );
    println!(
        "reports: L2 lines dirty by the lower half, the upper and both {:?}, by the line that left L1D \
         {}; bytes moved as 64, 64 and 64, 128, 128 and 128: {:?}, as own bytes: {:?}; refused and \
         other calls that report nothing: {:?}; accesses over other bytes: {}",
        put_out.by_half,
        put_out.by_own,
        put_out.lines,
        put_out.own_bytes,
        put_out.silent,
        put_out.moved
    );
    let unaligned = &met.unaligned;
    println!(
        "non-aligned reads and writes by number: {:?}, by server: {:?}, of 4 and 8 bytes: {:?}, \
         aligned: {:?}; across two lines of L1D: {:?}, of L2: {:?}, with the first in L1D alone: \
         {:?}, the second: {:?}, of a frozen L1D: {:?}",
        unaligned.numbers,
        unaligned.servers,
        unaligned.sizes,
        unaligned.aligned,
        unaligned.l1d_lines,
        unaligned.l2_lines,
        unaligned.first_held,
        unaligned.second_held,
        unaligned.frozen
    );
    println!(
        "non-aligned: 256 bytes each way {:?}, past the caches {:?}, across the MAR ranges {:?}; sizes \
         1 and 2 refused {:?}, 5 across the ends of memory {:?}; by flat memory {:?}, bytes by their \
         history {}, not the last one written {}; by single bytes {:?}, of which another from the \
         highest address down {}",
        unaligned.bound,
        unaligned.past,
        unaligned.ranges,
        unaligned.short,
        unaligned.ends,
        unaligned.flat,
        unaligned.history_bytes,
        unaligned.older_bytes,
        unaligned.single,
        unaligned.direction
    );
    let transfers = &met.transfers;
    println!(
        "transfers out and in by number: {:?}; of SRAM by mode: {:?}, over clean lines of L1D: {:?}, \
         dirty: {:?}, dirty ones in part: {:?}, none: {:?}, dirty of a frozen L1D: {:?}; of external \
         memory by mode: {:?}, over clean and dirty lines of L1D: {:?}, of L2: {:?}, with MAR bit 0: \
         {:?}, held by a frozen L1D: {:?}, across the MAR ranges: {:?}",
        transfers.numbers,
        transfers.sram,
        transfers.clean,
        transfers.dirty,
        transfers.in_part,
        transfers.untouched,
        transfers.frozen,
        transfers.external,
        transfers.l1d_lines,
        transfers.l2_lines,
        transfers.past,
        transfers.external_frozen,
        transfers.ranges
    );
    println!(
        "transfers: longest of SRAM and of external memory {:?}, refused of length 0, no multiple of 4, \
         262,144 and no buffer's {:?}, 1 to 3 behind a multiple of 4 {:?}, to the ends {:?}, a word \
         behind {:?}, 4 before 13 and 13 before 14 {:?}; by flat memory of SRAM {:?}, external {:?}, of \
         those covered {:?}; left out {}; in lists with drops {:?}; in parts {:?}",
        transfers.longest,
        transfers.lengths,
        transfers.misaligned,
        transfers.ends,
        transfers.beyond,
        transfers.several,
        transfers.flat_sram,
        transfers.flat_external,
        transfers.flat_covered,
        transfers.left_out,
        transfers.history,
        transfers.in_parts
    );
    let frames = &met.frames;
    println!(
        "frames by number: {:?}; accepted by mode, with MAR bit 0 and 1: {:?}, thawed and frozen: {:?}, by \
         place: {:?}; turns above 1, accepted and refused: {:?}; over lines of the place that are clean and \
         dirty in L1D: {:?}, in L2: {:?}, with dirty ones of the other place: {}; that put lines out of L1D \
         and L2: {:?}",
        frames.numbers,
        frames.modes,
        frames.frozen,
        frames.places,
        frames.turns,
        frames.l1d_lines,
        frames.l2_lines,
        frames.other_place,
        frames.put_out
    );
    println!(
        "frames: refused of no pixel, 3,071, 3,073, 3,072 in their last 16 bits, no buffer's {:?}; with \
         6,144 bytes of external memory and 128 less {:?}, 19 before 20 {}; with the turn that one before \
         left, accepted and refused {:?}; by flat memory {:?}, over dirty lines {}; in other lists {}, left \
         out {}; by their calls {}",
        frames.lengths,
        frames.least,
        frames.several,
        frames.in_a_row,
        frames.flat,
        frames.flat_dirty,
        frames.other_lists,
        frames.left_out,
        frames.by_calls
    );
    let programs = &met.programs;
    println!(
        "fetches, L1P block and whole invalidations by number: {:?}; fetches by server, thawed and \
         frozen: {:?}, by mode, with MAR bit 0 and 1: {:?}, of SRAM: {}; what L1P told, none, empty, \
         clean: {:?}, L2: {:?}; of lines dirty in L1D by SRAM, L2 and external memory: {:?}; L2 lines \
         that a half made dirty: {}; 15 before 5 and 4 before 7: {:?}; 5 at the ends: {:?}",
        programs.numbers,
        programs.servers,
        programs.modes,
        programs.sram,
        programs.l1p,
        programs.l2,
        programs.beside_l1d,
        programs.halves,
        programs.several,
        programs.ends
    );
    println!(
        "L1P: lines that invalidations took and left beside them {:?}; commands of codes 3 to 6 and 10, \
         and frames, that dropped lines {:?}, that left some L2 did not hold {:?}, all four of an L2 line \
         {}; writes to lines held {}, L2 lines put out with some {}, transfers in over some {:?}; 10 by \
         L1P alone {}, 1 by its length alone {}; bytes by flat memory, written, of those others {:?}, \
         fetches with both {}, refused {}; in lists with drops {}; over other bytes {}",
        programs.taken,
        programs.dropped,
        programs.kept,
        programs.four,
        programs.written,
        programs.put_out,
        programs.transfers,
        programs.mar,
        programs.lengths,
        programs.flat,
        programs.both,
        programs.flat_refused,
        programs.history,
        programs.moved
    );
    let faults = met.possible_faults();
    println!(
        "ill-formed records made: {}; of each fault in each mode: {} at least",
        faults.iter().map(|fault| fault.2).sum::<u64>(),
        faults.iter().map(|fault| fault.2).min().unwrap_or(0)
    );
    println!("short runs carried out: {}", met.short_runs);
    println!(
        "bytes set against their history: {}, of which not the last one written: {}",
        met.history_bytes, met.older_bytes
    );
    let everything = arguments.section.is_none() && arguments.input.is_none();
    if everything && arguments.calls >= 200_000 && !met_everything(&met) {
        println!("something that should be met was not: {met:?}");
        return Ok(false);
    }
    println!(
        "compare: {} calls, seed {}, no difference, {:.1} s",
        met.calls,
        arguments.seed,
        started.elapsed().as_secs_f64()
    );
    Ok(true)
}

/// Runs the groups of the sections; false after a difference.
fn run_sections(arguments: &Arguments, met: &mut Met) -> Result<bool, String> {
    for (number, section) in SECTIONS.iter().enumerate() {
        if arguments.section.is_some_and(|only| only.name != section.name) {
            continue;
        }
        let share = if arguments.section.is_some() { 100 } else { section.share };
        let until = met.calls + (arguments.calls * share).div_ceil(100);
        let begun = Instant::now();
        let before = met.calls;
        let mut group = arguments.group.unwrap_or(0);
        // A section that goes through all of something does so with few calls too.
        while met.calls < until || group < section.groups {
            if !run_group(arguments, number as u64, section, group, met)? {
                return Ok(false);
            }
            if arguments.group.is_some() {
                break;
            }
            group += 1;
        }
        println!(
            "{:10} {:8} calls {:6.1} s  {}",
            section.name,
            met.calls - before,
            begun.elapsed().as_secs_f64(),
            section.about
        );
    }
    Ok(true)
}

/// Runs one group; false after a difference, which is printed.
fn run_group(
    arguments: &Arguments,
    number: u64,
    section: &Section,
    group: u64,
    met: &mut Met,
) -> Result<bool, String> {
    let (seed, name) = (arguments.seed, section.name);
    let place = format!(
        "section {name}, group {group}, seed {seed}\n\
         again: compare --seed {seed} --section {name} --group {group}{}",
        arguments.planted()
    );
    now::enter(arguments.now.as_deref(), place.clone())?;
    let salt = (number + 1) << 48 | group;
    let mut rng = Rng::new(seed ^ salt.wrapping_mul(0xD129_0D3B_3C5E_9A35));
    match section.group {
        Group::Calls(run) => {
            let Some(case) = run(&mut rng, group, met) else { return Ok(true) };
            println!("DIFFERENCE in {place}");
            report(&shrink(case));
        }
        Group::Words(run) => {
            let Some(words) = run(&mut rng, group, met) else { return Ok(true) };
            println!("DIFFERENCE in {place}\n{words}");
        }
    }
    Ok(false)
}

/// Runs bench-trace on its inputs, if its path is known; false after a
/// difference, which is printed.
fn run_bench(arguments: &Arguments) -> Result<bool, String> {
    let Some(program) = &arguments.bench_trace else { return Ok(true) };
    let seed = arguments.seed;
    let begun = Instant::now();
    let inputs = match arguments.input {
        Some(input) => input..input + 1,
        None => 0..bench::INPUTS,
    };
    for input in inputs.clone() {
        let place = format!(
            "bench-trace, input {input}, seed {seed}\n\
             again: compare --seed {seed} --bench-trace {} --input {input}{}",
            program.display(),
            arguments.planted()
        );
        now::enter(arguments.now.as_deref(), place.clone())?;
        if let Some(difference) = bench::compare(program, seed, input)? {
            println!("DIFFERENCE in {place}\n{difference}");
            return Ok(false);
        }
    }
    println!(
        "bench      {:8} inputs {:5.1} s  the program bench-trace, byte for byte",
        inputs.end - inputs.start,
        begun.elapsed().as_secs_f64()
    );
    Ok(true)
}

/// Every number, server, mode, MAR range, length class and fault came up.
fn met_everything(met: &Met) -> bool {
    NUMBERS.iter().all(|&number| met.numbers[number] > 50)
        && met.servers.iter().all(|&count| count > 1_000)
        && [0, 1, 2, 3, 7].iter().all(|&mode| met.modes[mode] > 1_000)
        // Mode 7 needs the largest L, and would be rare without care.
        && met.modes[7] * 100 >= met.modes.iter().sum::<u64>() * 8
        && met.ranges.iter().flatten().all(|&count| count > 50)
        && [met.odd, met.views, met.runs, met.flat_reads].iter().all(|&count| count > 1_000)
        && [0, 1, 2, 3, 7].iter().all(|&mode| met.flat_memories[mode] > 30)
        && [0, 1, 2, 3, 7].iter().all(|&mode| met.flat_runs[mode] > 10)
        // Mode 7 leaves no SRAM.
        && [0, 1, 2, 3].iter().all(|&mode| met.flat_sram[mode] > 20)
        && met.beside_l2.iter().flatten().all(|&count| count > 50)
        && met.untouched > 10_000
        && met.written_back > 500
        && met.puts.iter().all(|&count| count > 1_000)
        && met.two_runs.met_everything()
        && met.frozen.met_everything()
        && met.counts.met_everything()
        && met.put_out.met_everything()
        && met.unaligned.met_everything()
        && met.transfers.met_everything()
        && met.frames.met_everything()
        && met.programs.met_everything()
        && met.loads.iter().all(|&count| count > 500)
        && met.long_runs > 0
        && met.short_runs == 4_681
        && met.history_bytes > 10_000
        && met.older_bytes > 100
        && met.externals.iter().all(|&count| count > 0)
        && met.possible_faults().iter().all(|&(_, _, count)| count > 0)
}

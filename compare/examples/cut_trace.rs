//! What examples/cut-trace.c has to leave of a trace, told by the reference model
//! alone. `cargo run --example cut_trace -- TRACE N`; N counts answers from 1.

use std::io::Write;
use std::process::ExitCode;

use oracle::gen::{encode, Setup};
use oracle::trace::decode;
use oracle::{Answer, Command};

fn main() -> ExitCode {
    let words: Vec<String> = std::env::args().skip(1).collect();
    let [name, number] = &words[..] else {
        eprintln!("usage: cut_trace TRACE N");
        return ExitCode::from(2);
    };
    let trace = match std::fs::read(name) {
        Ok(trace) => trace,
        Err(error) => {
            eprintln!("cut_trace: {name}: {error}");
            return ExitCode::from(2);
        }
    };
    let commands = commands_of(&trace);
    let wanted =
        number.parse::<usize>().ok().filter(|wanted| (1..=commands.len()).contains(wanted));
    let Some(wanted) = wanted else {
        eprintln!("cut_trace: there is no answer '{number}'");
        return ExitCode::from(2);
    };
    let mut bytes = Vec::new();
    for command in cut(commands[..wanted].to_vec()) {
        encode(&command, &mut bytes);
    }
    std::io::stdout().write_all(&bytes).expect("standard output is open");
    ExitCode::SUCCESS
}

fn commands_of(trace: &[u8]) -> Vec<Command> {
    let mut commands = Vec::new();
    let mut place = 0;
    while let Some((command, length)) = decode(&trace[place..]) {
        commands.push(command);
        place += length;
    }
    commands
}

/// The answer of the last command, by single calls from a fresh start.
fn last_answer(commands: &[Command]) -> Answer {
    let mut setup = Setup::fresh(65_536, 65_536);
    commands.iter().map(|command| setup.call(command)).last().expect("a command")
}

/// Leaves out one command after another, again and again, as long as the last
/// answer is the same.
fn cut(mut commands: Vec<Command>) -> Vec<Command> {
    let wanted = last_answer(&commands);
    loop {
        let before = commands.len();
        let mut place = 0;
        while place + 1 < commands.len() {
            let mut fewer = commands.clone();
            fewer.remove(place);
            if last_answer(&fewer) == wanted {
                commands = fewer;
            } else {
                place += 1;
            }
        }
        if commands.len() == before {
            return commands;
        }
    }
}

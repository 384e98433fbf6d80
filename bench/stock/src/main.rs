//! Writes a Squeak image without its garbage: the algorithm of `sqzcompact` in stock Rust, with
//! `std` alone and without proofs. `README.md` says what is the same, and what differs.

mod arguments;
mod bits;
mod chunk;
mod compaction;
mod defects;
mod deque;
mod fault;
mod forward;
mod header;
mod heap;
mod image;
mod index;
mod input;
mod marking;
mod marks;
mod object;
mod output;
mod ranks;
mod regions;
mod scanning;
mod slide;
mod stages;
mod threads;
mod words;

use arguments::Arguments;
use compaction::compact;
use fault::Fault;
use std::env;
use std::process::ExitCode;

/// The number of runs that are timed.
const TIMED_RUNS: u32 = 3;

fn main() -> ExitCode {
    let Some(arguments) = Arguments::read(env::args_os().skip(1)) else {
        eprintln!("usage: sqzstock [--workers N] [--times] IN OUT");
        return ExitCode::FAILURE;
    };
    let outcome = if arguments.times {
        print_times(&arguments)
    } else {
        compact(&arguments).map(drop)
    };
    if let Err(fault) = outcome {
        eprintln!("{fault}");
        return ExitCode::FAILURE;
    }
    ExitCode::SUCCESS
}

/// Prints a line of the stages' names, and for each of some runs a line of milliseconds.
fn print_times(arguments: &Arguments) -> Result<(), Fault> {
    for run in 0..TIMED_RUNS {
        let stages = compact(arguments)?;
        if run == 0 {
            println!("{}", stages.names());
        }
        println!("{}", stages.milliseconds());
    }
    Ok(())
}

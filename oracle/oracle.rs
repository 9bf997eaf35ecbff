//! Draws with the Rust being judged, and writes each draw as a case for `vectors` to draw again.
//! README.md has the format. `run` builds this: it puts the three judged files beside these, as
//! they were published.

// The judged files name these two crates; what they use of them is in shim.rs.
extern crate self as num_traits;
extern crate self as rand;

mod cases;
mod chance;
mod edges;
mod geometric;
mod hypergeometric;
mod judge;
mod lean;
mod poisson;
mod powers;
mod random;
mod rates;
mod shim;
mod stored;
mod thresholds;
mod trays;

pub use shim::*;
use std::fs::File;
use std::io;
use std::os::fd::AsFd;
use std::process::ExitCode;

const USAGE: &str =
    "usage: oracle random SEED MILLIONS | oracle lambdas SEED MILLIONS | oracle stored";

/// What the arguments ask for.
enum Command {
    Random { seed: u64, draws: u64 },
    Lambdas { seed: u64, draws: u64 },
    Stored,
}

fn command(arguments: &[String]) -> Option<Command> {
    let arguments: Vec<&str> = arguments.iter().map(String::as_str).collect();
    match arguments[..] {
        ["random", seed, millions] => Some(Command::Random {
            seed: seed.parse().ok()?,
            draws: draws_of(millions)?,
        }),
        ["lambdas", seed, millions] => Some(Command::Lambdas {
            seed: seed.parse().ok()?,
            draws: draws_of(millions)?,
        }),
        ["stored"] => Some(Command::Stored),
        _ => None,
    }
}

fn draws_of(millions: &str) -> Option<u64> {
    millions.parse::<u64>().ok()?.checked_mul(1_000_000)
}

/// Standard output as a file: a block is then one write, and no line buffer looks into it.
fn output() -> io::Result<File> {
    Ok(File::from(io::stdout().as_fd().try_clone_to_owned()?))
}

/// Does what was asked for. Gives what is to be told of it, and whether all is as it has to be.
fn obey(command: Command) -> io::Result<(String, bool)> {
    let out = output()?;
    match command {
        Command::Random { seed, draws } => Ok((random::random(out, seed, draws)?, true)),
        Command::Lambdas { seed, draws } => random::lambdas(out, seed, draws),
        Command::Stored => Ok((stored::stored(out)?, true)),
    }
}

fn main() -> ExitCode {
    let arguments: Vec<String> = std::env::args().skip(1).collect();
    let Some(command) = command(&arguments) else {
        eprintln!("{USAGE}");
        return ExitCode::from(2);
    };
    judge::check_handing();
    match obey(command) {
        Ok((told, is_well)) => {
            eprintln!("{told}");
            ExitCode::from(u8::from(!is_well))
        }
        Err(error) => {
            eprintln!("oracle: unwritten: {error}");
            ExitCode::FAILURE
        }
    }
}

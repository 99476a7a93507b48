//! Reference program of the grain loading panel, written from documents 01 and 02 alone.
//!
//! It reads lines from standard input and writes one reply for each to standard output. All arithmetic is done in
//! wide whole numbers and follows the paper's wording; the proved service is compared with it line by line.
//!
//! `reference [--max-lines N] [--max-bytes N]` lowers the two limits of the service for tests.

mod arms;
mod boards;
mod code;
mod deck;
mod grain;
mod limits;
mod line;
mod panel;
mod rounding;
mod service;
mod shape;
mod show;
mod weights;

use std::process::ExitCode;

use service::ServiceLimits;

const USAGE: &str = "usage: reference [--max-lines N] [--max-bytes N]";

fn main() -> ExitCode {
    let Some(limits) = limits_asked_for(std::env::args().skip(1)) else {
        eprintln!("{USAGE}");
        return ExitCode::from(2);
    };
    let mut input = std::io::stdin().lock();
    let mut output = std::io::stdout().lock();
    match service::serve(&mut input, &mut output, limits) {
        Ok(()) => ExitCode::SUCCESS,
        Err(error) => {
            eprintln!("reference: {error}");
            ExitCode::FAILURE
        }
    }
}

/// The service's limits, lowered where an argument says so; None if an argument is not understood.
fn limits_asked_for(mut arguments: impl Iterator<Item = String>) -> Option<ServiceLimits> {
    let mut limits = ServiceLimits::default();
    while let Some(name) = arguments.next() {
        let value = arguments.next()?.parse().ok()?;
        match name.as_str() {
            "--max-lines" => limits.lines = value,
            "--max-bytes" => limits.bytes = value,
            _ => return None,
        }
    }
    Some(limits)
}

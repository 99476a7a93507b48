//! Writes lines for the panel, repeatable from a seed: `generate KIND SEED COUNT`.
//!
//! - `runs`: valid runs of lines, likely and odd
//! - `edges`: figures next to each limit
//! - `damaged`: lines with every kind of fault
//! - `mixed`: all of these, damaged lines between valid ones
//! - `shows`: show lines, with totals and weighings between them; about one in ten lines of the other kinds is a show line too
//!
//! COUNT lines are written, each ended by byte 10. The reference's own modules find the figures next to a limit.

mod chance;
mod damage;
mod edge_arms;
mod edge_decks;
mod edge_figures;
mod edge_splits;
mod edge_totals;
mod edge_voids;
mod edge_weighings;
mod edges;
mod records;
mod runs;
mod search;
mod shows;
mod spelling;
mod splits;
mod totals;
mod wanted;
mod weighings;

#[path = "../reference/arms.rs"]
mod arms;
#[path = "../reference/boards.rs"]
mod boards;
#[path = "../reference/code.rs"]
#[allow(dead_code)]
mod code;
#[path = "../reference/deck.rs"]
mod deck;
#[path = "../reference/grain.rs"]
#[allow(dead_code)]
mod grain;
#[path = "../reference/limits.rs"]
mod limits;
#[path = "../reference/line.rs"]
mod line;
#[path = "../reference/panel.rs"]
#[allow(dead_code)]
mod panel;
#[path = "../reference/rounding.rs"]
mod rounding;
#[path = "../reference/shape.rs"]
mod shape;
#[path = "../reference/show.rs"]
mod show;
#[path = "../reference/weights.rs"]
mod weights;

use std::io::{self, BufWriter, Write};
use std::process::ExitCode;

use chance::Chance;

const USAGE: &str = "usage: generate runs|edges|damaged|mixed|shows SEED COUNT";

fn main() -> ExitCode {
    let arguments: Vec<String> = std::env::args().skip(1).collect();
    let Some((kind, seed, count)) = understood(&arguments) else {
        eprintln!("{USAGE}");
        return ExitCode::from(2);
    };
    let mut output = BufWriter::new(io::stdout().lock());
    match write_lines(&mut output, kind, seed, count) {
        Ok(()) => ExitCode::SUCCESS,
        Err(error) => {
            eprintln!("generate: {error}");
            ExitCode::FAILURE
        }
    }
}

/// One lot of lines that belong together.
type Lot = fn(&mut Chance) -> Vec<Vec<u8>>;

struct Kind {
    name: &'static str,
    lot: Lot,
}

const KINDS: [Kind; 5] = [
    Kind { name: "runs", lot: runs::run },
    Kind { name: "edges", lot: edges::edge },
    Kind { name: "damaged", lot: damage::damaged_run },
    Kind { name: "mixed", lot: mixed },
    Kind { name: "shows", lot: shows::alone },
];

fn understood(arguments: &[String]) -> Option<(&'static Kind, u64, usize)> {
    let [kind, seed, count] = arguments else { return None };
    let kind = KINDS.iter().find(|known| known.name == kind)?;
    Some((kind, seed.parse().ok()?, count.parse().ok()?))
}

/// Lot after lot until the count is full; the last lot may be cut.
fn write_lines(output: &mut impl Write, kind: &Kind, seed: u64, count: usize) -> io::Result<()> {
    let mut chance = Chance::new(kind.name, seed);
    let mut left = count;
    while left > 0 {
        let lot = (kind.lot)(&mut chance);
        for line in lot.iter().take(left) {
            output.write_all(line)?;
            output.write_all(b"\n")?;
        }
        left -= lot.len().min(left);
    }
    output.flush()
}

/// A lot of any kind; damaged copies of its lines fall between them while the condition holds.
fn mixed(chance: &mut Chance) -> Vec<Vec<u8>> {
    match chance.below(5) {
        0 => damage::damaged_run(chance),
        kind => {
            let valid = if kind < 3 { runs::run(chance) } else { edges::edge(chance) };
            let mut lines = Vec::new();
            for line in valid {
                if chance.one_in(4) {
                    lines.push(damage::damaged(chance, line.clone()));
                }
                lines.push(line);
            }
            lines
        }
    }
}

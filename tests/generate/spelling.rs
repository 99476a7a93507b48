//! Records spelled as lines, and lines spelled with other spaces.

use crate::chance::Chance;
use crate::line::LONGEST_LINE;
use crate::shape::{Cell, Column, Hold, Item, Load, Mode, Part, Rule, Ship};

pub const JUDGE: &str = "(judge)";
pub const CLEAR: &str = "(clear)";
pub const TOTAL: &str = "(total)";
pub const UNWEIGH: &str = "(unweigh)";

pub fn ship(ship: &Ship) -> String {
    let rule = match ship.rule {
        Rule::New => "new",
        Rule::Old => "old",
    };
    format!("(ship {rule} {} {})", ship.edge, ship.flood)
}

pub fn column(column: &Column) -> String {
    let kn: Vec<String> = column.kn.iter().map(|kn| kn.to_string()).collect();
    format!("(column {} {} ({}))", column.d, column.km, kn.join(" "))
}

pub fn load(load: &Load) -> String {
    format!("(load {} {} {})", load.d, load.kg, load.fs)
}

pub fn hold(hold: &Hold) -> String {
    let mode = match hold.mode {
        Mode::Trimmed => "trimmed",
        Mode::Voided => "voided",
        Mode::Partial => "partial",
    };
    let parts: Vec<String> = hold.parts.iter().map(part).collect();
    format!("(hold {} {mode} {} {})", hold.n, hold.sf, parts.join(" "))
}

fn part(part: &Part) -> String {
    match part {
        Part::Section { length, cells } => {
            let cells: Vec<String> = cells.iter().map(cell).collect();
            format!("(part {length} {})", cells.join(" "))
        }
        Part::PartlyFilled { length, breadth, void, grain } => format!("(part {length} {breadth} {void} {grain})"),
        Part::Split { length, run, left, right } => format!("(split {length} {run} {left} {right})"),
    }
}

fn cell(cell: &Cell) -> String {
    match cell {
        Cell::Wing { width, dist, girder, lip } => format!("(wing {width} {dist} {girder} {lip})"),
        Cell::Hatch { width, open, lip } => format!("(hatch {width} {open} {lip})"),
        Cell::Void { width, depth, lip } => format!("(void {width} {depth} {lip})"),
    }
}

pub fn drop(n: i128) -> String {
    format!("(drop {n})")
}

pub fn weight(item: &Item) -> String {
    format!("(weight {} {})", item.tonnes, item.height)
}

pub fn weighed(fs: i128) -> String {
    format!("(weighed {fs})")
}

/// The brackets and runs of a line, any other byte than a space counted to the runs.
pub fn pieces(line: &[u8]) -> Vec<&[u8]> {
    let mut pieces = Vec::new();
    let mut from = 0;
    while from < line.len() {
        let mut to = from + 1;
        if !b"() ".contains(&line[from]) {
            while to < line.len() && !b"() ".contains(&line[to]) {
                to += 1;
            }
        }
        if line[from] != b' ' {
            pieces.push(&line[from..to]);
        }
        from = to;
    }
    pieces
}

/// Joins pieces with `spaces(needed)` spaces in each place; a space is needed between two runs.
pub fn joined(pieces: &[&[u8]], mut spaces: impl FnMut(bool) -> usize) -> Vec<u8> {
    let is_bracket = |piece: &[u8]| piece == b"(" || piece == b")";
    let mut line = vec![b' '; spaces(false)];
    for (place, piece) in pieces.iter().enumerate() {
        line.extend_from_slice(piece);
        let needed = place + 1 < pieces.len() && !is_bracket(piece) && !is_bracket(pieces[place + 1]);
        let count = spaces(needed).max(usize::from(needed));
        line.resize(line.len() + count, b' ');
    }
    line
}

/// The line as it is, with no space but the needed ones, or with spaces wherever they are free. A valid line stays
/// valid: if it grew too long it is left as it was.
pub fn respaced(chance: &mut Chance, line: &str) -> Vec<u8> {
    let spread = match chance.below(8) {
        0 => 0,
        1 => 2,
        2 => 4,
        _ => return line.as_bytes().to_vec(),
    };
    let spelled = joined(&pieces(line.as_bytes()), |_| if spread == 0 { 0 } else { chance.below(spread) });
    if spelled.len() > LONGEST_LINE {
        return line.as_bytes().to_vec();
    }
    spelled
}

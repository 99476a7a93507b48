//! Records by chance: likely ones of a bulk carrier, and odd ones anywhere within the limits.

use crate::arms::ANGLES;
use crate::boards;
use crate::chance::Chance;
use crate::grain;
use crate::search::least_that_holds;
use crate::shape::{Cell, Column, Hold, Load, Mode, Part, Rule, Ship};

/// Sines of the ten angles in thousandths, near enough for likely cross curves.
const SINES: [i128; 10] = [0, 87, 174, 208, 259, 342, 423, 500, 574, 643];

pub fn rule(chance: &mut Chance) -> Rule {
    chance.pick(&[Rule::New, Rule::Old])
}

pub fn mode(chance: &mut Chance) -> Mode {
    chance.pick(&[Mode::Trimmed, Mode::Voided, Mode::Partial])
}

pub fn likely_ship(chance: &mut Chance) -> Ship {
    Ship { rule: rule(chance), edge: chance.between(600, 3_000), flood: chance.between(1_500, 5_000) }
}

pub fn odd_ship(chance: &mut Chance) -> Ship {
    let odd_angle = |chance: &mut Chance| {
        if chance.one_in(3) {
            (chance.pick(&ANGLES) + chance.between(-1, 1)).clamp(1, 9_000)
        } else {
            chance.odd(1, 9_000)
        }
    };
    Ship { rule: rule(chance), edge: odd_angle(chance), flood: odd_angle(chance) }
}

/// Likely columns: a hull whose KM falls slowly and whose KN follow KM × sine, bent a little.
pub fn likely_columns(chance: &mut Chance, count: usize) -> Vec<Column> {
    let first_d = chance.between(3_000, 60_000);
    let step = chance.between(200, 8_000);
    let km = chance.between(4_000, 16_000);
    let bend = chance.between(-250, 150);
    // One hull in five has a dip at one angle, so that 42 is reached.
    let dip_at = if chance.one_in(5) { 4 + chance.below(5) } else { 0 };
    let dip = chance.between(50, 500);
    let mut columns = Vec::new();
    for place in 0..count as i128 {
        let km = km - place * chance.between(0, 60);
        let mut kn = [0; 10];
        for at in 1..10 {
            let bent = 1_000 + bend * ANGLES[at] / 4_000 * ANGLES[at] / 4_000;
            let dip = if at == dip_at { dip } else { 0 };
            kn[at] = (km * SINES[at] * bent / 1_000_000 + chance.between(-15, 15) - dip).clamp(0, 50_000);
        }
        columns.push(Column { d: first_d + place * step + chance.between(0, 99), km, kn });
    }
    columns
}

/// Columns with any figures, in rising order of D.
pub fn odd_columns(chance: &mut Chance, count: usize) -> Vec<Column> {
    let mut d = chance.odd(100, 390_000);
    let mut columns = Vec::new();
    for _ in 0..count {
        let mut kn = [0; 10];
        for value in &mut kn[1..] {
            *value = chance.odd(0, 50_000);
        }
        if chance.one_in(2) {
            kn.sort();
        }
        columns.push(Column { d, km: chance.odd(1, 50_000), kn });
        d = (d + chance.small(1, 20_000)).min(400_000);
    }
    columns
}

/// A load between the given columns whose GM is near the interesting figures.
pub fn likely_load(chance: &mut Chance, columns: &[Column]) -> Load {
    let d = chance.between(columns[0].d, columns[columns.len() - 1].d);
    let km = columns[0].km;
    let gm = if chance.one_in(3) { chance.between(200, 600) } else { chance.between(200, 3_500) };
    let fs = chance.between(0, 300);
    Load { d, kg: (km - gm - fs).clamp(1, 50_000), fs }
}

pub fn odd_load(chance: &mut Chance, columns: &[Column]) -> Load {
    let d = match (columns.first(), columns.last()) {
        (Some(first), Some(last)) if !chance.one_in(8) => chance.odd(first.d, last.d),
        _ => chance.odd(100, 400_000),
    };
    Load { d, kg: chance.odd(1, 50_000), fs: chance.odd(0, 10_000) }
}

pub fn likely_hold(chance: &mut Chance) -> Hold {
    let mode = mode(chance);
    let mut parts = Vec::new();
    for _ in 0..chance.pick(&[1, 1, 1, 2, 2, 3]) {
        parts.push(likely_part(chance, mode));
    }
    Hold { n: chance.between(1, 16), mode, sf: chance.between(11_000, 18_000), parts }
}

fn likely_part(chance: &mut Chance, mode: Mode) -> Part {
    let length = chance.between(1_500, 16_000);
    if mode == Mode::Partial {
        let breadth = chance.between(5_000, 24_000);
        if chance.one_in(3) {
            return likely_split(chance, length, breadth);
        }
        let void = depth_reached_or_not(chance, breadth, 9_000);
        return Part::PartlyFilled { length, breadth, void, grain: depth_reached_or_not(chance, breadth, 15_000) };
    }
    let wing = |chance: &mut Chance| Cell::Wing {
        width: chance.between(2_000, 7_000),
        dist: chance.between(0, 9_000),
        girder: chance.between(0, 1_400),
        lip: chance.between(0, 2_500),
    };
    let hatch = |chance: &mut Chance| Cell::Hatch {
        width: chance.between(5_000, 16_000),
        open: chance.between(0, 900),
        lip: chance.between(300, 2_500),
    };
    let void = |chance: &mut Chance| Cell::Void {
        width: chance.between(3_000, 20_000),
        depth: chance.between(0, 600),
        lip: chance.between(1_000, 9_000),
    };
    let cells = match chance.below(4) {
        0 => vec![void(chance)],
        1 => vec![wing(chance), hatch(chance)],
        2 => vec![wing(chance), hatch(chance), wing(chance)],
        _ => vec![wing(chance), void(chance), wing(chance)],
    };
    Part::Section { length, cells: with_a_lip_that_fits(chance, cells) }
}

/// A board about the middle or elsewhere, as long as the part or shorter.
fn likely_split(chance: &mut Chance, length: i128, breadth: i128) -> Part {
    let left = if chance.one_in(2) { breadth / 2 } else { chance.between(1, breadth - 1) };
    let run = if chance.one_in(4) { length } else { chance.between(1, length) };
    Part::Split { length, run, left, right: breadth - left }
}

/// RUN, LEFT and RIGHT, anywhere within the limits, of a part of this length; every other board is about as long as the
/// deduction, or as short as a part that is shorter.
pub fn odd_board(chance: &mut Chance, length: i128) -> (i128, i128, i128) {
    let breadth = chance.odd(2, 40_000);
    let left = chance.odd(1, breadth - 1);
    let right = breadth - left;
    let run = if chance.one_in(2) {
        (boards::deduction(left, right) + chance.between(-1, 1)).clamp(1, length)
    } else {
        chance.odd(1, length)
    };
    (run, left, right)
}

/// The greatest depth of void or grain that the 25 degree line reaches, over half the breadth.
pub fn depth_reached(breadth: i128) -> i128 {
    46_631 * breadth / 200_000
}

/// A depth of void or grain that the line reaches, or one that it does not reach. Of void and grain it then reaches
/// neither, one or both, and each way in which they can lie comes often.
fn depth_reached_or_not(chance: &mut Chance, breadth: i128, most: i128) -> i128 {
    let reached = depth_reached(breadth);
    if chance.one_in(2) {
        chance.between(1, reached.max(1))
    } else {
        chance.between(reached + 1, most.max(reached + 1))
    }
}

/// A hold with any figures within the limits; most of them fit.
pub fn odd_hold(chance: &mut Chance) -> Hold {
    let mode = mode(chance);
    let mut parts = Vec::new();
    for _ in 0..chance.pick(&[1, 1, 1, 1, 2, 3, 5, 6]) {
        parts.push(odd_part(chance, mode));
    }
    let sf = if chance.one_in(2) {
        chance.pick(&[5_000, 10_000, 12_500, 20_000, 40_000])
    } else {
        chance.odd(5_000, 40_000)
    };
    Hold { n: chance.odd(1, 16), mode, sf, parts }
}

pub fn odd_part(chance: &mut Chance, mode: Mode) -> Part {
    let length = chance.odd(1, 60_000);
    if mode == Mode::Partial && chance.one_in(3) {
        let (run, left, right) = odd_board(chance, length);
        return Part::Split { length, run, left, right };
    }
    if mode == Mode::Partial {
        let breadth = chance.odd(1, 40_000);
        let by_breadth = chance.one_in(2);
        let mut depth =
            || if by_breadth { depth_reached_or_not(chance, breadth, 30_000) } else { chance.odd(1, 30_000) };
        return Part::PartlyFilled { length, breadth, void: depth(), grain: depth() };
    }
    Part::Section { length, cells: odd_cells(chance) }
}

/// One to eight cells with any figures, their widths together at most 40,000.
pub fn odd_cells(chance: &mut Chance) -> Vec<Cell> {
    let count = chance.pick(&[1, 1, 2, 2, 3, 4, 6, 8]);
    let mut room = 40_000;
    let mut cells = Vec::new();
    for place in 0..count {
        let still_to_come = count - place - 1;
        let width = if still_to_come == 0 && chance.one_in(3) {
            room
        } else {
            chance.odd(1, (room - still_to_come) / if still_to_come == 0 { 1 } else { 2 })
        };
        room -= width;
        let lip = chance.odd(0, 10_000);
        cells.push(odd_cell(chance, width, lip));
    }
    with_a_lip_that_fits(chance, cells)
}

pub fn odd_cell(chance: &mut Chance, width: i128, lip: i128) -> Cell {
    match chance.below(3) {
        0 => {
            let dist = if chance.one_in(2) {
                (500 * chance.between(0, 40) + chance.between(-1, 1)).clamp(0, 20_000)
            } else {
                chance.odd(0, 20_000)
            };
            Cell::Wing { width, dist, girder: chance.odd(0, 3_000), lip }
        }
        1 => Cell::Hatch { width, open: chance.odd(0, 3_000), lip },
        _ => Cell::Void { width, depth: chance.odd(0, 5_000), lip },
    }
}

/// The same cell with another lip.
pub fn with_lip(cell: &Cell, lip: i128) -> Cell {
    match *cell {
        Cell::Wing { width, dist, girder, .. } => Cell::Wing { width, dist, girder, lip },
        Cell::Hatch { width, open, .. } => Cell::Hatch { width, open, lip },
        Cell::Void { width, depth, .. } => Cell::Void { width, depth, lip },
    }
}

/// The least lip of the last cell with which the section's void fits, if there is one.
pub fn least_lip(cells: &[Cell]) -> Option<i128> {
    let (last, others) = cells.split_last()?;
    let fits = |lip: i128| {
        let mut cells = others.to_vec();
        cells.push(with_lip(last, lip));
        grain::section_moment(&cells).is_some()
    };
    if fits(0) {
        return Some(0);
    }
    least_that_holds(0, 10_000, fits)
}

/// Three times in four the last cell gets a lip that holds the section's void, if there is one.
fn with_a_lip_that_fits(chance: &mut Chance, mut cells: Vec<Cell>) -> Vec<Cell> {
    if chance.one_in(4) {
        return cells;
    }
    if let (Some(least), Some(last)) = (least_lip(&cells), cells.last().copied()) {
        let lip = chance.small(least, 10_000);
        cells.pop();
        cells.push(with_lip(&last, lip));
    }
    cells
}

//! Limits of voids, depths and weight moments: codes 21 and 34.

use crate::chance::Chance;
use crate::grain;
use crate::panel::MOST_WEIGHT_MOMENT;
use crate::records;
use crate::shape::{Cell, Hold, Mode, Part};
use crate::spelling::{self, JUDGE, TOTAL};
use crate::wanted;

/// Weight moments together of 1,000,000,000 and next to it (34).
pub fn weight_moments_at_the_limit(chance: &mut Chance) -> Vec<String> {
    let mut condition = wanted::condition_that_shows_weight();
    condition.load.d = chance.pick(&[100, 101]);
    let mut lines = condition.lines();
    let mut held = 0;
    for by in [0, 1, -1, 2] {
        // Each lot of holds replaces the one before it, hold by hold.
        let holds = wanted::holds_of_weight(MOST_WEIGHT_MOMENT + by);
        lines.extend(holds.iter().map(spelling::hold));
        lines.extend((holds.len() + 1..=held).map(|n| spelling::drop(n as i128)));
        lines.extend([TOTAL, JUDGE].map(str::to_string));
        held = holds.len();
    }
    lines
}

/// Hold 2 with these sections under the condition that shows its weight, each with a judge.
fn judged_sections(chance: &mut Chance, sections: &[Vec<Cell>]) -> Vec<String> {
    let mut lines = wanted::condition_that_shows_weight().lines();
    let mode = chance.pick(&[Mode::Trimmed, Mode::Voided]);
    let length = chance.small(1_000, 60_000);
    let before = chance.below(6);
    for cells in sections {
        let part = Part::Section { length, cells: cells.clone() };
        let mut parts =
            vec![Part::Section { length: 1, cells: vec![Cell::Void { width: 1, depth: 0, lip: 0 }] }; before];
        parts.push(part);
        lines.push(spelling::hold(&Hold { n: 2, mode, sf: 10_000, parts }));
        lines.push(JUDGE.to_string());
    }
    lines
}

/// The same cells with another lip for the last.
fn with_last_lip(cells: &[Cell], lip: i128) -> Vec<Cell> {
    let mut cells = cells.to_vec();
    if let Some(last) = cells.last_mut() {
        *last = records::with_lip(last, lip.clamp(0, 10_000));
    }
    cells
}

/// The least lip with which a section's void fits, and one less (21).
pub fn voids_that_just_fit(chance: &mut Chance) -> Vec<String> {
    let cells = records::odd_cells(chance);
    let Some(least) = records::least_lip(&cells) else {
        return judged_sections(chance, &[cells]);
    };
    let sections = [least, least - 1, least + 1, 10_000].map(|lip| with_last_lip(&cells, lip));
    judged_sections(chance, &sections)
}

/// A cell whose area is exactly the most it can hold, one mm² more and less, as the last cell and before it.
pub fn areas_equal_to_the_most_held(chance: &mut Chance) -> Vec<String> {
    let width = chance.small(1, 3_000);
    let lip = chance.small(0, 5_000);
    let most = grain::most_held(width, lip);
    let depth = most / width;
    let own = Cell::Void { width, depth, lip };
    let deeper = Cell::Void { width, depth: depth + 1, lip };
    let behind = Cell::Void { width: 5_000, depth: 3, lip: 4_000 };
    let mut sections = vec![vec![own], vec![deeper], vec![own, behind], vec![deeper, behind]];
    // What is missing to the most comes as excess from a cell that keeps nothing.
    let missing = most - width * depth;
    for given in [missing, missing + 1, missing - 1] {
        if given > 0 {
            sections.push(vec![Cell::Void { width: given, depth: 1, lip: 0 }, own]);
        }
    }
    judged_sections(chance, &sections)
}

/// Lips next to slope × width, where the most that a cell can hold changes its formula.
pub fn lips_at_the_slope(chance: &mut Chance) -> Vec<String> {
    let width = if chance.one_in(3) { 20_000 } else { chance.between(1, 35_000) };
    let border = 26_795 * width / 100_000;
    // The first cell has far more than it can hold, so that it keeps exactly the most.
    let sections: Vec<Vec<Cell>> = [border, border + 1, border - 1]
        .iter()
        .map(|&lip| {
            let first = Cell::Void { width, depth: 5_000, lip: lip.clamp(0, 10_000) };
            vec![first, Cell::Void { width: 40_000 - width, depth: 0, lip: 10_000 }]
        })
        .collect();
    judged_sections(chance, &sections)
}

/// Kept areas at slope × w²/2, where a triangle becomes a trapezium; with w a multiple of 200 that is whole.
pub fn triangles_and_trapeziums(chance: &mut Chance) -> Vec<String> {
    let k = chance.small(1, 180);
    let width = if chance.one_in(3) { chance.between(200, 36_000) } else { 200 * k };
    let border = 26_795 * width * width / 200_000;
    sections_with_last_area(chance, width, border)
}

/// Kept areas next to those whose base is a whole number.
pub fn bases_at_whole_roots(chance: &mut Chance) -> Vec<String> {
    let base = chance.small(1, 38_000);
    let area = (26_795 * base * base + 199_999) / 200_000;
    let width = (base + chance.between(0, 1_000)).min(38_999);
    sections_with_last_area(chance, width, area - 1)
}

/// Sections whose last cell keeps this area, one mm² less and one and two more.
fn sections_with_last_area(chance: &mut Chance, width: i128, area: i128) -> Vec<String> {
    let mut sections = Vec::new();
    for area in [area, area - 1, area + 1, area + 2] {
        let depth = (area / width).clamp(0, 5_000);
        let missing = area - width * depth;
        // What is missing comes as excess from cells that keep nothing.
        let giver_depth = missing / 900 + 1;
        let giver_width = missing / giver_depth;
        let left = missing - giver_width * giver_depth;
        if giver_depth > 5_000 || missing < 0 {
            continue;
        }
        let mut cells = Vec::new();
        if giver_width > 0 {
            cells.push(Cell::Void { width: giver_width, depth: giver_depth, lip: 0 });
        }
        if left > 0 {
            cells.push(Cell::Void { width: 1, depth: left, lip: 0 });
        }
        cells.push(Cell::Void { width, depth, lip: 10_000 });
        sections.push(cells);
    }
    judged_sections(chance, &sections)
}

/// Wings next to each entry of the table, and girders next to the least depth of 100 mm.
pub fn wing_depths(chance: &mut Chance) -> Vec<String> {
    let mut sections = Vec::new();
    for _ in 0..6 {
        let dist = match chance.below(3) {
            0 => 500 * chance.between(0, 40) + chance.between(-2, 2),
            1 => chance.between(0, 8_600),
            _ => chance.between(0, 20_000),
        }
        .clamp(0, 20_000);
        let least = (0..=3_000).rfind(|&girder| grain::wing_depth(dist, girder) == 1_000).unwrap_or(0);
        let girder = match chance.below(3) {
            0 => least + chance.between(-1, 4),
            1 => 600 + chance.between(-4, 4),
            _ => chance.between(0, 3_000),
        }
        .clamp(0, 3_000);
        // With all but the first of these widths the area can lie between two whole mm² before it is rounded.
        let width = chance.pick(&[10_000, 9_999, 9_997, 9_991, 1]);
        sections.push(vec![Cell::Wing { width, dist, girder, lip: 10_000 }]);
    }
    judged_sections(chance, &sections)
}

/// Wings whose area, rounded up, is just the most they can hold, one mm² more and one less, as the last cell and before it.
pub fn wings_next_to_the_most_held(chance: &mut Chance) -> Vec<String> {
    let behind = Cell::Void { width: 5_000, depth: 3, lip: 4_000 };
    let mut sections = Vec::new();
    for wanted in [0, 1, -1] {
        let (dist, girder) = (chance.between(0, 20_000), chance.between(0, 1_000));
        let lip = chance.between(grain::wing_depth(dist, girder) / 10 + 1, 5_000);
        let found = (1..=20_000).map(|width| Cell::Wing { width, dist, girder, lip }).find(|cell| {
            let unrounded = cell.width() * grain::depth(cell) % 10 != 0;
            unrounded && grain::void_area(cell) - grain::most_held(cell.width(), lip) == wanted
        });
        if let Some(wing) = found {
            sections.push(vec![wing]);
            sections.push(vec![wing, behind]);
        }
    }
    if sections.is_empty() {
        sections.push(vec![behind]);
    }
    judged_sections(chance, &sections)
}

/// Holds whose parts, percentages and stowage factors divide without rest, and next to that.
pub fn roundings_up(chance: &mut Chance) -> Vec<String> {
    let mut lines = wanted::condition_that_shows_weight().lines();
    for _ in 0..6 {
        let breadth = chance.pick(&[1, 2, 100, 1_000, 2_000, 10_000, 12_000, 20_000, 39_999, 40_000]);
        let length = chance.pick(&[1, 2, 3, 100, 1_000, 15_625, 50_000, 60_000]);
        let partial = Part::PartlyFilled { length, breadth, void: wanted::DEEP, grain: wanted::DEEP };
        let section = Part::Section { length, cells: vec![Cell::Void { width: 10_000, depth: 500, lip: 5_000 }] };
        let sf = chance.pick(&[5_000, 8_000, 9_999, 10_000, 10_001, 11_200, 12_500, 40_000]);
        let hold = match chance.below(3) {
            0 => Hold { n: 2, mode: Mode::Trimmed, sf, parts: vec![section.clone(), section] },
            1 => Hold { n: 2, mode: Mode::Voided, sf, parts: vec![section] },
            _ => Hold { n: 2, mode: Mode::Partial, sf, parts: vec![partial.clone(), partial] },
        };
        lines.push(spelling::hold(&hold));
        lines.push(JUDGE.to_string());
    }
    lines
}

/// Sections as wide, deep and long as the limits allow.
pub fn greatest_sections(chance: &mut Chance) -> Vec<String> {
    let mut lines = wanted::condition_that_shows_weight().lines();
    for _ in 0..4 {
        let mut parts = Vec::new();
        for _ in 0..chance.pick(&[1, 1, 2, 6]) {
            let length = chance.pick(&[60_000, 59_999]);
            parts.push(Part::Section { length, cells: greatest_cells(chance) });
        }
        let mode = chance.pick(&[Mode::Trimmed, Mode::Voided]);
        lines.push(spelling::hold(&Hold { n: 2, mode, sf: chance.pick(&[5_000, 5_001, 40_000]), parts }));
        // Of a weight moment that gives 34 the total alone tells how great it is.
        lines.extend([JUDGE, TOTAL].map(str::to_string));
    }
    lines
}

/// Cells that together are 40,000 wide, most of them of the greatest depth, with lips of 0 and 10,000 and a last cell
/// that often just fits.
fn greatest_cells(chance: &mut Chance) -> Vec<Cell> {
    let count = 1 + chance.below(8);
    let mut room = 40_000;
    let mut cells = Vec::new();
    for place in 0..count {
        let left = (count - place - 1) as i128;
        let width = if left == 0 { room } else { chance.pick(&[room / (left + 1), 1, (room - left) / 2]) };
        room -= width;
        let lip = chance.pick(&[0, 10_000, 10_000]);
        cells.push(match chance.below(4) {
            0 => Cell::Wing { width, dist: 20_000, girder: 3_000, lip },
            1 => Cell::Hatch { width, open: 3_000, lip },
            2 => Cell::Void { width, depth: chance.between(4_000, 5_000), lip },
            _ => Cell::Void { width, depth: chance.pick(&[0, 5_000]), lip },
        });
    }
    match records::least_lip(&cells) {
        Some(least) if chance.one_in(2) => with_last_lip(&cells, least),
        _ => cells,
    }
}

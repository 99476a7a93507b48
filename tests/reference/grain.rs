//! From void depth to the weight moment of a hold: code 21.
//!
//! Lengths are in mm, void depths in tenths of a mm, areas in mm², section moments in mm³, part and hold moments in
//! thousandths of m⁴, weight moments in kg·m.

use crate::boards;
use crate::deck;
use crate::rounding::{rounded_down, rounded_up};
use crate::shape::{Cell, Hold, Mode, Part, MOST_CELLS};

/// Table B 1-1: standard depth at 500 mm, 1,000 mm and so on to 8,000 mm.
const STANDARD_DEPTHS: [i128; 16] = [570, 530, 500, 480, 450, 440, 430, 430, 430, 430, 450, 470, 490, 520, 550, 590];
/// The step of distance in Table B 1-1.
const TABLE_STEP: i128 = 500;
const TABLE_END: i128 = 8_000;
/// Above the table: 80 mm for each metre.
const DEEPER_FOR_EACH_METRE: i128 = 80;
const LEAST_WING_DEPTH: i128 = 100;
/// A void depth is in tenths of a mm: so many in one.
const TENTHS: i128 = 10;

/// Slopes are so many hundred-thousandths.
pub const SLOPE_UNIT: i128 = 100_000;
/// The slope of 15 degrees.
const SLOPE_15: i128 = 26_795;

/// mm⁴ in a thousandth of m⁴.
const MM4_IN_THOUSANDTH: i128 = 1_000_000_000;

// ---- Void depth ----

/// Standard depth of Table B 1-1, in 500ths of a mm so that no reading is rounded: linear between the entries,
/// 570 below the first, 80 mm more for each metre above the last.
fn standard_depth_in_500ths(dist: i128) -> i128 {
    if dist <= TABLE_STEP {
        return 500 * STANDARD_DEPTHS[0];
    }
    if dist >= TABLE_END {
        return 500 * STANDARD_DEPTHS[15] + 500 * DEEPER_FOR_EACH_METRE * (dist - TABLE_END) / 1_000;
    }
    let entry = (dist / TABLE_STEP) as usize - 1;
    let beyond = dist % TABLE_STEP;
    STANDARD_DEPTHS[entry] * (TABLE_STEP - beyond) + STANDARD_DEPTHS[entry + 1] * beyond
}

/// A wing's depth in tenths: the standard depth plus 0.75 × (GIRDER − 600), at least 100 mm, rounded up once to a
/// tenth.
pub fn wing_depth(dist: i128, girder: i128) -> i128 {
    let depth_in_500ths = standard_depth_in_500ths(dist) + 375 * (girder - 600);
    rounded_up(TENTHS * depth_in_500ths.max(500 * LEAST_WING_DEPTH), 500)
}

/// The void depth of a cell in tenths; those of a hatch and of a void cell are whole mm.
pub fn depth(cell: &Cell) -> i128 {
    match *cell {
        Cell::Wing { dist, girder, .. } => wing_depth(dist, girder),
        Cell::Hatch { open, .. } => TENTHS * (open + 150),
        Cell::Void { depth, .. } => TENTHS * depth,
    }
}

/// A cell's void area: width × depth, rounded up to whole mm².
pub fn void_area(cell: &Cell) -> i128 {
    rounded_up(cell.width() * depth(cell), TENTHS)
}

// ---- Shifted voids of a trimmed section ----

/// The most that a cell of this width can hold against a lip: g²/(2 × slope) if g ≤ slope × w, else
/// w × g − slope × w²/2, rounded down.
pub fn most_held(width: i128, lip: i128) -> i128 {
    if SLOPE_UNIT * lip <= SLOPE_15 * width {
        rounded_down(SLOPE_UNIT * lip * lip, 2 * SLOPE_15)
    } else {
        rounded_down(2 * SLOPE_UNIT * width * lip - SLOPE_15 * width * width, 2 * SLOPE_UNIT)
    }
}

/// The kept areas: every cell but the last keeps the smaller of its area and the most it can hold, the excess of
/// all goes to the last. None if the last then has more than it can hold (21).
fn kept_areas(cells: &[Cell]) -> Option<[i128; MOST_CELLS]> {
    let mut kept = [0; MOST_CELLS];
    let (last, others) = cells.split_last()?;
    let mut excess = 0;
    for (place, cell) in others.iter().enumerate() {
        let area = void_area(cell);
        kept[place] = area.min(most_held(cell.width(), cell.lip()));
        excess += area - kept[place];
    }
    let in_last = void_area(last) + excess;
    kept[others.len()] = in_last;
    let fits = in_last <= most_held(last.width(), last.lip());
    fits.then_some(kept)
}

/// Whether a kept area lies as a triangle against the high boundary: A ≤ slope × w²/2.
fn is_triangle(area: i128, width: i128) -> bool {
    2 * SLOPE_UNIT * area <= SLOPE_15 * width * width
}

/// The base b of a triangle, b² = 2A/slope, rounded down.
pub fn base(area: i128) -> i128 {
    rounded_down(2 * SLOPE_UNIT * area, SLOPE_15).isqrt()
}

/// First moment of a kept area from the high boundary, rounded down: A × b/3, or A × w/2 − slope × w³/12.
fn first_moment(area: i128, width: i128) -> i128 {
    if is_triangle(area, width) {
        rounded_down(area * base(area), 3)
    } else {
        let cube = width * width * width;
        rounded_down(6 * SLOPE_UNIT * area * width - SLOPE_15 * cube, 12 * SLOPE_UNIT)
    }
}

/// Section moment of a trimmed section: kept areas at their high boundaries, less first moments, less old areas at
/// their cell middles. None if the void does not fit.
pub fn section_moment(cells: &[Cell]) -> Option<i128> {
    let kept = kept_areas(cells)?;
    let mut low_boundary = 0;
    let mut kept_sum = 0;
    let mut first_moments = 0;
    let mut twice_old_sum = 0;
    for (cell, area) in cells.iter().zip(kept) {
        let width = cell.width();
        let high_boundary = low_boundary + width;
        kept_sum += area * high_boundary;
        first_moments += first_moment(area, width);
        twice_old_sum += void_area(cell) * (low_boundary + high_boundary);
        low_boundary = high_boundary;
    }
    Some(kept_sum - first_moments - rounded_down(twice_old_sum, 2))
}

// ---- Partly filled, and the sum ----

/// A part: section moment × LENGTH, of a split the sum of its two stretches, rounded up once to thousandths of m⁴. None
/// if the void does not fit.
fn part_moment(part: &Part) -> Option<i128> {
    let moment = match part {
        Part::Section { length, cells } => section_moment(cells)? * length,
        Part::PartlyFilled { length, breadth, void, grain } => deck::section_moment(*breadth, *void, *grain) * length,
        Part::Split { length, run, left, right } => boards::moment(*length, *run, *left, *right),
    };
    Some(rounded_up(moment, MM4_IN_THOUSANDTH))
}

/// The percentage of a hold's mode.
fn percentage(mode: Mode) -> i128 {
    match mode {
        Mode::Trimmed => 100,
        Mode::Voided => 106,
        Mode::Partial => 112,
    }
}

/// A hold: the sum of its parts × its percentage, rounded up. None if the void of some part does not fit.
fn hold_moment(hold: &Hold) -> Option<i128> {
    let mut sum = 0;
    for part in &hold.parts {
        sum += part_moment(part)?;
    }
    Some(rounded_up(sum * percentage(hold.mode), 100))
}

/// The weight moment of a hold: 10,000 × its moment/SF, rounded up. None is code 21.
pub fn weight_moment(hold: &Hold) -> Option<i128> {
    Some(rounded_up(10_000 * hold_moment(hold)?, hold.sf))
}

#[cfg(test)]
mod tests {
    use super::*;

    fn void(width: i128, depth: i128, lip: i128) -> Cell {
        Cell::Void { width, depth, lip }
    }

    fn hold(mode: Mode, sf: i128, parts: Vec<Part>) -> Hold {
        Hold { n: 1, mode, sf, parts }
    }

    #[test]
    fn wing_at_distance_4000() {
        let depths = [600, 0, 160, 161].map(|girder| wing_depth(4_000, girder));
        assert_eq!(depths, [4_300, 1_000, 1_000, 1_008]);
    }

    #[test]
    fn wing_with_girder_600() {
        let depths = [8_000, 8_001, 5_250, 499].map(|dist| wing_depth(dist, 600));
        assert_eq!(depths, [5_900, 5_901, 4_400, 5_700]);
    }

    #[test]
    fn wing_goes_by_every_entry_of_the_table() {
        let printed = [
            (500, 570),
            (1_000, 530),
            (1_500, 500),
            (2_000, 480),
            (2_500, 450),
            (3_000, 440),
            (3_500, 430),
            (4_000, 430),
            (4_500, 430),
            (5_000, 430),
            (5_500, 450),
            (6_000, 470),
            (6_500, 490),
            (7_000, 520),
            (7_500, 550),
            (8_000, 590),
        ];
        for (dist, depth) in printed {
            assert_eq!(wing_depth(dist, 600), 10 * depth, "distance {dist}");
        }
        assert_eq!(wing_depth(0, 600), 5_700);
        assert_eq!(wing_depth(501, 600), 5_700, "569.92 rounded up");
        assert_eq!(wing_depth(502, 600), 5_699, "569.84 rounded up");
        assert_eq!(wing_depth(513, 600), 5_690, "568.96 rounded up");
        assert_eq!(wing_depth(9_000, 600), 6_700);
        assert_eq!(wing_depth(20_000, 600), 15_500);
    }

    #[test]
    fn the_girder_term_is_added_before_the_least_depth_and_rounded_once() {
        assert_eq!(wing_depth(5_250, 601), 4_408, "440.75 rounded up");
        assert_eq!(wing_depth(5_251, 603), 4_423, "440.04 + 2.25 = 442.29 rounded up once, not 440.1 + 2.3");
        assert_eq!(wing_depth(8_001, 601), 5_909, "590.08 + 0.75 = 590.83");
        assert_eq!(wing_depth(8_000, 3_000), 23_900);
        assert_eq!(wing_depth(20_000, 3_000), 33_500, "the deepest");
    }

    #[test]
    fn depths_of_hatch_and_void() {
        assert_eq!(depth(&Cell::Hatch { width: 1, open: 300, lip: 0 }), 4_500);
        assert_eq!(depth(&void(1, 300, 0)), 3_000);
    }

    #[test]
    fn areas_are_whole_mm2_rounded_up() {
        let wing = |width, dist, girder| void_area(&Cell::Wing { width, dist, girder, lip: 0 });
        assert_eq!(wing(3, 4_000, 161), 303, "3 × 100.8 = 302.4");
        assert_eq!(wing(10, 8_001, 600), 5_901, "10 × 590.1, a whole number");
        assert_eq!(wing(1, 8_001, 600), 591);
        assert_eq!(void_area(&Cell::Hatch { width: 7, open: 301, lip: 0 }), 7 * 451);
        assert_eq!(void_area(&void(7, 301, 0)), 7 * 301);
    }

    #[test]
    fn a_section_that_a_tenth_makes_greater() {
        // The base is rounded down: with whole mm the area was greater, and the moment smaller (2,369,778).
        let part = Part::Section {
            length: 20_000,
            cells: vec![Cell::Wing { width: 18_789, dist: 14_268, girder: 2_495, lip: 10_000 }],
        };
        assert_eq!(weight_moment(&hold(Mode::Trimmed, 12_500, vec![part])), Some(2_369_999));
    }

    #[test]
    fn lip_100_width_2000_holds_18660() {
        assert_eq!(most_held(2_000, 100), 18_660);
    }

    #[test]
    fn a_lip_above_the_slope_holds_a_trapezium() {
        assert_eq!(most_held(20_000, 5_359), 53_590_000, "both formulas at the border");
        assert_eq!(most_held(20_001, 5_359), 53_590_000, "still the first; the second would give 53,589,999.87");
        assert_eq!(most_held(1, 1), 0);
        assert_eq!(most_held(1, 10), 9);
        assert_eq!(most_held(200, 1_000), 194_641);
        assert_eq!(most_held(200, 0), 0);
    }

    #[test]
    fn void_10000_500_5000() {
        assert_eq!(base(5_000_000), 6_109);
        assert_eq!(section_moment(&[void(10_000, 500, 5_000)]), Some(14_818_333_334));
    }

    #[test]
    fn bases_next_to_whole_ones() {
        // 133,975 is slope × 1,000²/2. For 1,449, b² is 10,815.4: below 104², which is 10,816.
        assert_eq!([133_974, 133_975, 1_449].map(base), [999, 1_000, 103]);
    }

    #[test]
    fn the_last_cell_takes_the_excess_of_all() {
        // 100 and 59 mm² against lips of 0 go to the last cell: 200 × 26 + 159 = 5,359 is slope × 200²/2.
        let cells = [void(100, 1, 0), void(59, 1, 0), void(200, 26, 10_000)];
        assert_eq!(kept_areas(&cells).map(|kept| kept[..3].to_vec()), Some(vec![0, 0, 5_359]));
        assert!(is_triangle(5_359, 200));
        assert!(!is_triangle(5_360, 200));
    }

    #[test]
    fn a_void_that_just_fits_and_one_that_just_does_not() {
        // 200 × 26 = 5,200 mm²; a lip of 53 holds 5,241, a lip of 52 holds 5,045.
        assert_eq!([53, 52].map(|lip| most_held(200, lip)), [5_241, 5_045]);
        assert!(section_moment(&[void(200, 26, 53)]).is_some());
        assert!(section_moment(&[void(200, 26, 52)]).is_none());
        // Equal fits: width 1 and lip 10 hold 9 mm².
        assert!(section_moment(&[void(1, 9, 10)]).is_some());
        assert!(section_moment(&[void(1, 10, 10)]).is_none());
    }

    #[test]
    fn a_trapezium_and_a_half_old_sum() {
        // One cell 1 wide with 9 mm²: first moment 4.5 − 0.0223 rounded down is 4, old sum 4.5 rounded down is 4.
        assert_eq!(section_moment(&[void(1, 9, 10)]), Some(9 - 4 - 4));
        // Two such cells: the old sum 4.5 + 13.5 = 18 is rounded once.
        assert_eq!(section_moment(&[void(1, 9, 10), void(1, 9, 10)]), Some(9 + 18 - 4 - 4 - 18));
    }

    #[test]
    fn weight_moments_of_the_panel_run() {
        let first = Part::Section { length: 10_000, cells: vec![void(10_000, 500, 5_000)] };
        let second = Part::PartlyFilled { length: 10_000, breadth: 12_000, void: 3_000, grain: 6_000 };
        assert_eq!(weight_moment(&hold(Mode::Trimmed, 12_500, vec![first])), Some(118_548));
        assert_eq!(weight_moment(&hold(Mode::Partial, 12_500, vec![second])), Some(601_653));
    }

    #[test]
    fn a_tween_deck_of_little_height() {
        // 144,826,278,293 × 10,000 is 1,448,262.8 × 10⁹; 1,448,263 × 1.12 = 1,622,054.56; 1,622,055 × 0.8 is whole.
        let part = Part::PartlyFilled { length: 10_000, breadth: 20_000, void: 1_500, grain: 1_500 };
        assert_eq!(weight_moment(&hold(Mode::Partial, 12_500, vec![part])), Some(1_297_644));
    }

    #[test]
    fn a_board_beside_a_tween_deck_and_an_uncut_part() {
        let weight = |part: Part| weight_moment(&hold(Mode::Partial, 12_500, vec![part]));
        let partly = |void, grain| Part::PartlyFilled { length: 20_000, breadth: 12_000, void, grain };
        let split = |run| Part::Split { length: 20_000, run, left: 6_000, right: 6_000 };
        assert_eq!(weight(split(10_000)), Some(829_453));
        assert_eq!(weight(partly(600, 6_000)), Some(535_149));
        assert_eq!(weight(partly(30_000, 30_000)), Some(1_203_304));
        assert_eq!(weight(split(1_715)), Some(1_203_304), "no effective length");
        assert_eq!(weight(split(1_716)), Some(1_203_260), "1 mm of it");
        // 422,113.1 × 10⁹; 422,114 × 1.12 = 472,767.68; 472,768 × 0.8 = 378,214.4.
        assert_eq!(weight(split(20_000)), Some(378_215), "no exception where the board is as long as the part");
    }

    #[test]
    fn a_split_is_rounded_up_once_and_each_part_by_itself() {
        let split = || Part::Split { length: 60_000, run: 30_000, left: 1, right: 1 };
        let part = Part::PartlyFilled { length: 1, breadth: 1, void: 1, grain: 1 };
        let moment = |parts: Vec<Part>| hold_moment(&hold(Mode::Partial, 10_000, parts));
        // Both stretches have far less than a thousandth: 1 together, × 1.12 rounded up.
        assert_eq!(moment(vec![split()]), Some(2));
        assert_eq!(moment(vec![split(), split()]), Some(3));
        assert_eq!(moment(vec![split(), part, split()]), Some(4));
        // 1.088 × 10⁹ apart and 88.910 × 10⁹ together: 2 and 89, were each rounded up.
        let stretches = Part::Split { length: 300, run: 300, left: 1_000, right: 1_000 };
        assert_eq!(part_moment(&stretches), Some(90));
    }

    #[test]
    fn percentages_and_the_three_roundings_up() {
        let part = || Part::PartlyFilled { length: 1, breadth: 1, void: 1, grain: 1 };
        // Each part is 1 thousandth after rounding up; two of them × 1.12 = 2.24, rounded up 3.
        assert_eq!(hold_moment(&hold(Mode::Partial, 10_000, vec![part(), part()])), Some(3));
        // 10,000 × 3/7,000 = 4.29, rounded up 5.
        assert_eq!(weight_moment(&hold(Mode::Partial, 7_000, vec![part(), part()])), Some(5));
        let section = || Part::Section { length: 60_000, cells: vec![void(10_000, 500, 5_000)] };
        // 14,818,333,334 × 60,000 = 889,100.00004 × 10⁹, rounded up 889,101.
        assert_eq!(hold_moment(&hold(Mode::Trimmed, 10_000, vec![section()])), Some(889_101));
        // 889,101 × 1.06 = 942,447.06, rounded up.
        assert_eq!(hold_moment(&hold(Mode::Voided, 10_000, vec![section()])), Some(942_448));
    }

    #[test]
    fn one_part_that_does_not_fit_turns_the_hold_down() {
        let good = Part::Section { length: 1, cells: vec![void(200, 26, 53)] };
        let bad = Part::Section { length: 1, cells: vec![void(200, 26, 52)] };
        assert_eq!(weight_moment(&hold(Mode::Trimmed, 12_500, vec![good.clone(), bad])), None);
        assert_eq!(weight_moment(&hold(Mode::Trimmed, 12_500, vec![good.clone(), good])), Some(2));
    }
}

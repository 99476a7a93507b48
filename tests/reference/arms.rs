//! Columns around D, arms, GM, DIFF, UPPER, AREA and the verdict: codes 40 to 43.
//!
//! Arms are in µm, angles in hundredths of a degree, areas in µm times hundredths of a degree.

use crate::code::Code;
use crate::rounding::{rounded_down, rounded_up};
use crate::shape::{Column, Load, Rule, Ship, ANGLE_COUNT};

/// The ten angles.
pub const ANGLES: [i128; ANGLE_COUNT] = [0, 500, 1_000, 1_200, 1_500, 2_000, 2_500, 3_000, 3_500, 4_000];
/// Their sines, in millionths.
const SINES: [i128; ANGLE_COUNT] = [0, 87_156, 173_648, 207_912, 258_819, 342_020, 422_618, 500_000, 573_576, 642_788];

/// Code 40 below this GM.
pub const LEAST_GM: i128 = 300_000;
/// The heel limit, unless EDGE is smaller under `new`.
const HEEL_LIMIT: i128 = 1_200;
/// Code 43 below this AREA: 0.075 metre-radian, rounded up.
pub const LEAST_AREA: i128 = 429_718_347;

/// What a judge replies: `(verdict CC GM DIFF UPPER AREA)`.
#[derive(Clone, Copy, Debug, PartialEq, Eq)]
pub struct Verdict {
    pub code: Code,
    pub gm: i128,
    pub diff: i128,
    pub upper: i128,
    pub area: i128,
}

/// DIFF at each of the ten angles.
pub type Diffs = [i128; ANGLE_COUNT];

/// The columns below and above a displacement; None if it is below the first or above the last.
pub fn columns_around(columns: &[Column], d: i128) -> Option<(&Column, &Column)> {
    let pair = columns.windows(2).find(|pair| pair[0].d <= d && d <= pair[1].d)?;
    Some((&pair[0], &pair[1]))
}

/// A column's figure at D: linear between the columns, in µm, rounded down.
fn interpolated(around: (&Column, &Column), d: i128, figure: impl Fn(&Column) -> i128) -> i128 {
    let (low, high) = around;
    let weighted = figure(low) * (high.d - d) + figure(high) * (d - low.d);
    rounded_down(1_000 * weighted, high.d - low.d)
}

/// Fluid KG in mm: KG + FS.
fn fluid_kg(load: &Load) -> i128 {
    load.kg + load.fs
}

/// GM: KM less fluid KG, rounded down. Fluid KG is a whole number of µm, so the rounding is that of KM.
pub fn gm(around: (&Column, &Column), load: &Load) -> i128 {
    interpolated(around, load.d, |column| column.km) - 1_000 * fluid_kg(load)
}

/// Fluid KG × sine at one of the ten angles, rounded up.
pub fn fluid_kg_arm(load: &Load, at: usize) -> i128 {
    rounded_up(fluid_kg(load) * SINES[at], 1_000)
}

/// The righting arm at one of the ten angles: KN rounded down, less fluid KG × sine rounded up.
fn righting_arm(around: (&Column, &Column), load: &Load, at: usize) -> i128 {
    interpolated(around, load.d, |column| column.kn[at]) - fluid_kg_arm(load, at)
}

/// The heeling arm at one of the ten angles: 1,000 × W/D × (20,000 − angle)/20,000, rounded up once.
pub fn heeling_arm(weight_moment: i128, d: i128, at: usize) -> i128 {
    rounded_up(1_000 * weight_moment * (20_000 - ANGLES[at]), 20_000 * d)
}

/// DIFF at each of the ten angles: the righting arm less the heeling arm.
pub fn diffs(around: (&Column, &Column), load: &Load, weight_moment: i128) -> Diffs {
    std::array::from_fn(|at| righting_arm(around, load, at) - heeling_arm(weight_moment, load.d, at))
}

/// The height of the straight line from (0, `start`) to (`step`, `end`) at `along`, times `step`.
fn height_times_step(start: i128, end: i128, step: i128, along: i128) -> i128 {
    start * (step - along) + end * along
}

/// DIFF at an angle from 0 to 4,000: between the ten angles linear, rounded down.
pub fn diff_at(diffs: &Diffs, angle: i128) -> i128 {
    let above = ANGLES.iter().position(|&table_angle| table_angle >= angle).unwrap_or(ANGLE_COUNT - 1);
    if ANGLES[above] == angle {
        return diffs[above];
    }
    let below = above - 1;
    let step = ANGLES[above] - ANGLES[below];
    rounded_down(height_times_step(diffs[below], diffs[above], step, angle - ANGLES[below]), step)
}

/// The heel limit: 1,200; under `new`, EDGE if smaller.
pub fn heel_limit(ship: &Ship) -> i128 {
    match ship.rule {
        Rule::New => ship.edge.min(HEEL_LIMIT),
        Rule::Old => HEEL_LIMIT,
    }
}

/// UPPER: the least of the ten angles at which DIFF is greatest, or FLOOD if smaller.
pub fn upper(diffs: &Diffs, flood: i128) -> i128 {
    let mut peak = 0;
    for at in 1..ANGLE_COUNT {
        if diffs[at] > diffs[peak] {
            peak = at;
        }
    }
    ANGLES[peak].min(flood)
}

/// The area above zero of one stretch, rounded down: the line runs from `start` to `end` over `step`, and the
/// stretch is its first `length`. The point at the stretch's end is not rounded: heights are taken times `step`.
fn stretch_area(start: i128, end: i128, step: i128, length: i128) -> i128 {
    let first = start * step;
    let last = height_times_step(start, end, step, length);
    if first >= 0 && last >= 0 {
        // A trapezium.
        rounded_down(length * (first + last), 2 * step)
    } else if first > 0 {
        // Falling through zero: a triangle with base length × first/(first − last).
        rounded_down(length * first * first, 2 * step * (first - last))
    } else if last > 0 {
        // Rising through zero: a triangle with base length × last/(last − first).
        rounded_down(length * last * last, 2 * step * (last - first))
    } else {
        0
    }
}

/// AREA: the area above zero, from 0 to UPPER, under the straight lines joining the ten DIFFs, each stretch rounded
/// down.
pub fn area(diffs: &Diffs, upper: i128) -> i128 {
    let mut area = 0;
    for at in 0..ANGLE_COUNT - 1 {
        let (from, to) = (ANGLES[at], ANGLES[at + 1]);
        if from >= upper {
            break;
        }
        area += stretch_area(diffs[at], diffs[at + 1], to - from, upper.min(to) - from);
    }
    area
}

/// Code 42: DIFF below zero at one of the ten angles above the heel limit and not above UPPER, or at UPPER itself if
/// that is above the heel limit.
fn is_arm_below_zero(diffs: &Diffs, heel_limit: i128, upper: i128) -> bool {
    let at_the_ten = (0..ANGLE_COUNT).any(|at| heel_limit < ANGLES[at] && ANGLES[at] <= upper && diffs[at] < 0);
    let at_upper = upper > heel_limit && diff_at(diffs, upper) < 0;
    at_the_ten || at_upper
}

/// The verdict on a complete condition. The first code that applies is given.
pub fn verdict(ship: &Ship, around: (&Column, &Column), load: &Load, weight_moment: i128) -> Verdict {
    let gm = gm(around, load);
    let diffs = diffs(around, load, weight_moment);
    let heel_limit = heel_limit(ship);
    let diff = diff_at(&diffs, heel_limit);
    let upper = upper(&diffs, ship.flood);
    let area = area(&diffs, upper);
    let code = if gm < LEAST_GM {
        Code::LowGm
    } else if diff < 0 {
        Code::HeelLimitPassed
    } else if is_arm_below_zero(&diffs, heel_limit, upper) {
        Code::ArmBelowZero
    } else if area < LEAST_AREA {
        Code::ShortOfArea
    } else {
        Code::Done
    };
    Verdict { code, gm, diff, upper, area }
}

#[cfg(test)]
mod tests {
    use super::*;

    const KN: [i128; 10] = [0, 870, 1_740, 2_080, 2_600, 3_450, 4_300, 5_100, 5_850, 6_500];
    const SHIP: Ship = Ship { rule: Rule::New, edge: 1_430, flood: 3_500 };
    const LOAD: Load = Load { d: 25_000, kg: 8_000, fs: 100 };
    const W: i128 = 118_548 + 601_653;

    fn column(d: i128, km: i128) -> Column {
        Column { d, km, kn: KN }
    }

    fn judged(ship: Ship, load: Load, weight_moment: i128) -> Verdict {
        let (low, high) = (column(20_000, 9_000), column(30_000, 9_000));
        verdict(&ship, (&low, &high), &load, weight_moment)
    }

    #[test]
    fn the_panel_run() {
        assert_eq!(
            judged(SHIP, LOAD, W),
            Verdict { code: Code::Done, gm: 900_000, diff: 368_832, upper: 3_500, area: 2_012_606_617 }
        );
    }

    #[test]
    fn gm_300000_is_not_40_and_299999_is() {
        let at_300000 = judged(SHIP, Load { kg: 8_600, ..LOAD }, W);
        assert_eq!((at_300000.gm, at_300000.code == Code::LowGm), (300_000, false));
        // KM falls 1 mm over 10,000 t; at 1 t above the first column it is a tenth of a µm below 9,000.
        let (low, high) = (column(20_000, 9_000), column(30_000, 8_999));
        let load = Load { d: 20_001, kg: 8_600, ..LOAD };
        let at_299999 = verdict(&SHIP, (&low, &high), &load, W);
        assert_eq!((at_299999.gm, at_299999.code), (299_999, Code::LowGm));
    }

    #[test]
    fn flood_1_gives_upper_1() {
        let at_1 = judged(Ship { flood: 1, ..SHIP }, LOAD, W);
        assert_eq!(at_1.upper, 1);
        let before = judged(Ship { flood: 3_499, ..SHIP }, LOAD, W);
        assert_eq!(before.upper, 3_499);
    }

    #[test]
    fn upper_is_0_where_diff_is_greatest_at_0_or_equal_everywhere() {
        assert_eq!(upper(&[5, 4, 3, 2, 1, 0, 1, 2, 3, 4], 9_000), 0);
        assert_eq!(upper(&[-7; 10], 9_000), 0);
        assert_eq!(area(&[-7; 10], 0), 0);
        assert_eq!(area(&[7; 10], 0), 0);
    }

    #[test]
    fn upper_is_the_least_of_equal_peaks_also_beyond_flood() {
        let diffs = [0, 1, 9, 2, 3, 9, 8, 9, 1, 0];
        assert_eq!(upper(&diffs, 9_000), 1_000);
        let late = [0, 1, 2, 3, 4, 5, 6, 7, 8, 9];
        assert_eq!(upper(&late, 1_700), 1_700);
        assert_eq!(upper(&late, 9_000), 4_000);
    }

    #[test]
    fn the_heel_limit_goes_by_edge_only_under_new_and_only_if_smaller() {
        let limit = |rule, edge| heel_limit(&Ship { rule, edge, flood: 1 });
        assert_eq!([1, 1_199, 1_200, 1_201, 9_000].map(|edge| limit(Rule::New, edge)), [1, 1_199, 1_200, 1_200, 1_200]);
        assert_eq!([1, 1_199, 9_000].map(|edge| limit(Rule::Old, edge)), [1_200; 3]);
    }

    #[test]
    fn diff_between_the_ten_angles_is_linear_and_rounded_down() {
        let diffs = [0, -1, 9, 0, 0, 0, 0, 0, 0, 0];
        assert_eq!(diff_at(&diffs, 0), 0);
        assert_eq!(diff_at(&diffs, 1), -1, "-1/500 rounded down");
        assert_eq!(diff_at(&diffs, 500), -1);
        assert_eq!(diff_at(&diffs, 549), -1, "-0.02 rounded down");
        assert_eq!(diff_at(&diffs, 550), 0);
        assert_eq!(diff_at(&diffs, 999), 8, "8.98 rounded down");
        assert_eq!(diff_at(&diffs, 4_000), 0);
    }

    #[test]
    fn the_heeling_arm_is_rounded_up_once_and_falls_to_eight_tenths_at_40_degrees() {
        assert_eq!(heeling_arm(1, 1_000, 0), 1);
        assert_eq!(heeling_arm(10, 1_000, 9), 8);
        assert_eq!(heeling_arm(720_201, 25_000, 0), 28_809, "28,808.04 rounded up");
        // 1,000 × 1/1,001 × 0.8 = 0.7992: rounded up once it is 1, and 0 without weight.
        assert_eq!(heeling_arm(1, 1_001, 9), 1);
        assert_eq!(heeling_arm(0, 100, 0), 0);
        // 1,000 × 11/3,000 = 3.67; × 0.8 = 2.93, rounded up 3; rounding the first up to 4 would give 3.2 and so 4.
        assert_eq!(heeling_arm(11, 3_000, 9), 3);
    }

    #[test]
    fn kn_is_rounded_down_and_fluid_kg_by_sine_up() {
        let (mut low, mut high) = (column(20_000, 9_000), column(30_000, 9_000));
        low.kn[1] = 870;
        high.kn[1] = 871;
        let load = Load { d: 20_009, kg: 1, fs: 0 };
        // KN is 870.0009 mm: 870,000 µm rounded down. 1 × 87.156 µm rounded up is 88.
        assert_eq!(diffs((&low, &high), &load, 0)[1], 870_000 - 88);
        assert_eq!(diffs((&low, &high), &Load { d: 20_010, ..load }, 0)[1], 870_001 - 88);
    }

    #[test]
    fn areas_of_the_four_signs() {
        assert_eq!(stretch_area(10, 20, 500, 500), 7_500);
        assert_eq!(stretch_area(-10, -20, 500, 500), 0);
        assert_eq!(stretch_area(-10, 0, 500, 500), 0);
        assert_eq!(stretch_area(0, 10, 500, 500), 2_500);
        // Falling from 30 to -20: zero at 300, area 30 × 300/2.
        assert_eq!(stretch_area(30, -20, 500, 500), 4_500);
        // Rising from -20 to 30: zero at 200, area 30 × 300/2.
        assert_eq!(stretch_area(-20, 30, 500, 500), 4_500);
        // Rounded down: 500 × 1/(2 × 3) = 83.3.
        assert_eq!(stretch_area(1, -2, 500, 500), 83);
    }

    #[test]
    fn the_stretch_that_ends_at_upper() {
        // Rising from -20 to 30 over 500, cut at 250: height 5, base 50, area 125.
        assert_eq!(stretch_area(-20, 30, 500, 250), 125);
        assert_eq!(stretch_area(-20, 30, 500, 200), 0);
        // Cut at 201: height 0.1, base 1, area 0.05, rounded down.
        assert_eq!(stretch_area(-20, 30, 500, 201), 0);
        // From 10 to 20, cut at 1: heights 10 and 10.02, area 10.01.
        assert_eq!(stretch_area(10, 20, 500, 1), 10);
        // Falling from 30 to -20, cut before and behind zero at 300.
        assert_eq!(stretch_area(30, -20, 500, 100), 2_500);
        assert_eq!(stretch_area(30, -20, 500, 400), 4_500);
    }

    #[test]
    fn the_area_is_not_measured_past_upper_and_each_stretch_is_rounded_down() {
        let diffs = [0, 100, 100, 100, 100, 100, 100, 100, 100, 100];
        assert_eq!(area(&diffs, 500), 25_000);
        assert_eq!(area(&diffs, 1_100), 25_000 + 50_000 + 10_000);
        // Stretches of 83.3 and 83.3 (falling and rising) give 166 + nothing between.
        let dipping = [1, -2, -2, -2, -2, -2, -2, -2, -2, 1];
        assert_eq!(area(&dipping, 4_000), 83 + 83);
    }

    #[test]
    fn forty_two_is_between_heel_limit_and_upper() {
        let at = |place: usize, value: i128| {
            let mut diffs = [10; 10];
            diffs[place] = value;
            diffs
        };
        assert!(!is_arm_below_zero(&[10; 10], 1_200, 4_000));
        assert!(is_arm_below_zero(&at(9, -1), 1_200, 4_000));
        assert!(!is_arm_below_zero(&at(9, -1), 1_200, 3_500), "above UPPER");
        assert!(!is_arm_below_zero(&at(3, -1), 1_200, 4_000), "at the heel limit");
        assert!(is_arm_below_zero(&at(3, -1), 1_199, 4_000));
        assert!(is_arm_below_zero(&at(9, -1), 1_200, 3_999), "-0.98 at UPPER between the angles");
        assert!(!is_arm_below_zero(&at(9, -1), 1_200, 3_954), "0.01 at UPPER");
        assert!(!is_arm_below_zero(&at(3, -100), 1_200, 1_100), "UPPER below the heel limit");
        assert!(!is_arm_below_zero(&at(3, -100), 1_200, 1_200), "UPPER at the heel limit");
    }

    #[test]
    fn columns_around_a_displacement() {
        let columns = [column(100, 1), column(200, 2), column(300, 3)];
        let around = |d| columns_around(&columns, d).map(|(low, high)| (low.d, high.d));
        assert_eq!(around(99), None);
        assert_eq!(around(100), Some((100, 200)));
        assert_eq!(around(250), Some((200, 300)));
        assert_eq!(around(300), Some((200, 300)));
        assert_eq!(around(301), None);
        assert_eq!(columns_around(&columns[..1], 100), None);
    }

    #[test]
    fn a_held_columns_displacement_means_that_columns_figures() {
        let columns = [column(100, 7), column(200, 11), column(300, 17)];
        for (d, km) in [(100, 7_000), (200, 11_000), (300, 17_000)] {
            let around = columns_around(&columns, d).expect("held");
            assert_eq!(interpolated(around, d, |column| column.km), km);
        }
    }

    #[test]
    fn diff_0_at_the_heel_limit_is_not_41_and_minus_1_is() {
        // Fluid KG 1,000 × 0.207912 is 207,912 µm. One tonne above the first of two columns 1,000 t apart, KN is
        // 1,000 × 207 plus what the second column has more.
        let (mut low, mut high) = (column(20_000, 9_000), column(21_000, 9_000));
        let load = Load { d: 20_001, kg: 1_000, fs: 0 };
        (low.kn[3], high.kn[3]) = (207, 207 + 912);
        let at_zero = verdict(&SHIP, (&low, &high), &load, 0);
        assert_eq!((at_zero.diff, at_zero.code), (0, Code::Done));
        high.kn[3] -= 1;
        let below = verdict(&SHIP, (&low, &high), &load, 0);
        assert_eq!((below.diff, below.code), (-1, Code::HeelLimitPassed));
    }

    #[test]
    fn area_429718347_is_not_43_and_one_less_is() {
        let ship = Ship { rule: Rule::New, edge: 3_330, flood: 3_009 };
        let kn_low = [0, 1_847, 3_631, 4_367, 5_410, 7_111, 8_720, 11_099, 11_753, 14_026];
        let mut kn_high = [0, 2_796, 3_670, 4_494, 5_917, 7_193, 9_430, 11_638, 12_730, 14_143];
        let load = Load { d: 2_055, kg: 10_491, fs: 9_999 };
        let judged = |kn_high| {
            let low = Column { d: 2_054, km: 21_390, kn: kn_low };
            let high = Column { d: 3_054, km: 21_390, kn: kn_high };
            let verdict = verdict(&ship, (&low, &high), &load, 0);
            (verdict.upper, verdict.area, verdict.code)
        };
        assert_eq!(judged(kn_high), (3_009, 429_718_347, Code::Done));
        kn_high[8] -= 1;
        assert_eq!(judged(kn_high), (3_009, 429_718_346, Code::ShortOfArea));
    }

    #[test]
    fn the_first_code_that_applies_is_given() {
        let worse = Load { kg: 8_701, fs: 0, ..LOAD };
        assert_eq!(judged(SHIP, worse, 1_000_000_000).code, Code::LowGm);
        assert_eq!(judged(SHIP, LOAD, 1_000_000_000).code, Code::HeelLimitPassed);
        assert_eq!(judged(Ship { flood: 1_200, ..SHIP }, LOAD, W).code, Code::ShortOfArea);
    }
}

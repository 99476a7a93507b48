//! The section moment of a partly filled part: the 25 degree line stops at deck and floor.
//!
//! The section is a rectangle, BREADTH wide and VOID + GRAIN high. The line comes down from the low side to the high
//! side, placed so that the areas of void and grain stay what they were. The void is above it, against the high side.
//! Lengths are in mm, areas in mm², moments in mm³.

use crate::grain::SLOPE_UNIT;
use crate::rounding::{rounded_down, rounded_up};

/// The slope of 25 degrees.
const SLOPE_25: i128 = 46_631;

/// How void and grain lie, by what the line meets.
#[derive(Clone, Copy, Debug, PartialEq)]
pub enum Lie {
    /// The line meets both sides.
    Uncut,
    /// It meets the deck and the high side.
    VoidTriangle,
    /// It meets the floor and the low side.
    GrainTriangle,
    /// It meets the deck and the floor.
    NoTriangle,
}

/// Whether the line meets both sides where nothing else is in its way: over the whole breadth it comes down by
/// slope × B, which is at most the height.
fn has_height(breadth: i128, height: i128) -> bool {
    SLOPE_25 * breadth <= SLOPE_UNIT * height
}

/// Whether an area lies as a triangle in a corner. The greatest that has room there is as broad as the section, with
/// an area of slope × B²/2, or as high as the section, with an area of H²/(2 × slope).
fn is_triangle(area: i128, breadth: i128, height: i128) -> bool {
    if has_height(breadth, height) {
        2 * SLOPE_UNIT * area <= SLOPE_25 * breadth * breadth
    } else {
        2 * SLOPE_25 * area <= SLOPE_UNIT * height * height
    }
}

/// How void and grain lie. No border between two of these has whole numbers within the limits on it.
pub fn lie(breadth: i128, void: i128, grain: i128) -> Lie {
    let height = void + grain;
    if is_triangle(breadth * void, breadth, height) {
        Lie::VoidTriangle
    } else if is_triangle(breadth * grain, breadth, height) {
        Lie::GrainTriangle
    } else if has_height(breadth, height) {
        Lie::Uncut
    } else {
        Lie::NoTriangle
    }
}

/// The base c of a triangle, c² = 2A/slope, rounded down.
pub fn base(area: i128) -> i128 {
    rounded_down(2 * SLOPE_UNIT * area, SLOPE_25).isqrt()
}

/// The old figure: slope × B³/12.
fn uncut_moment(breadth: i128) -> (i128, i128) {
    (SLOPE_25 * breadth * breadth * breadth, 12 * SLOPE_UNIT)
}

/// The old figure rounded up: the section moment where neither deck nor floor is in the line's way.
pub fn uncut_section_moment(breadth: i128) -> i128 {
    let (numerator, denominator) = uncut_moment(breadth);
    rounded_up(numerator, denominator)
}

/// A triangle's area at B/2 − c/3 from mid-breadth. That of grain counts as that of void: together they fill the
/// rectangle, so that their moments are alike, to different sides.
fn triangle_moment(area: i128, breadth: i128) -> (i128, i128) {
    (area * (3 * breadth - 2 * base(area)), 6)
}

/// The line from deck to floor: a rectangle of void lies against the high side, as high as the section, and beside it
/// a triangle as high, whose base is the run of the line, H/slope.
fn deck_to_floor_moment(breadth: i128, void: i128, height: i128) -> (i128, i128) {
    // Lengths along the breadth are in so many parts of a mm, so that each is a whole number.
    let parts = 2 * SLOPE_25 * height;
    let run = 2 * SLOPE_UNIT * height * height;
    // The rectangle and half the run are together B × V/H.
    let rectangle = 2 * SLOPE_25 * breadth * void - run / 2;
    let mid_breadth = SLOPE_25 * height * breadth;
    // Height × rectangle at its middle, and height × run/2 at the run's first third, both times six.
    let six_fold = 3 * rectangle * (2 * mid_breadth - rectangle) + run * (3 * mid_breadth - 3 * rectangle - run);
    (height * six_fold, 6 * parts * parts)
}

/// The first moment of the shifted void about mid-breadth before it is rounded up, as numerator and denominator.
pub fn unrounded_moment(breadth: i128, void: i128, grain: i128) -> (i128, i128) {
    match lie(breadth, void, grain) {
        Lie::Uncut => uncut_moment(breadth),
        Lie::VoidTriangle => triangle_moment(breadth * void, breadth),
        Lie::GrainTriangle => triangle_moment(breadth * grain, breadth),
        Lie::NoTriangle => deck_to_floor_moment(breadth, void, void + grain),
    }
}

/// Section moment of a partly filled part, rounded up once.
pub fn section_moment(breadth: i128, void: i128, grain: i128) -> i128 {
    let (numerator, denominator) = unrounded_moment(breadth, void, grain);
    rounded_up(numerator, denominator)
}

#[cfg(test)]
mod tests {
    use super::*;
    use Lie::*;

    /// Each section with its lie and moment, and the same with void and grain exchanged.
    fn assert_moments(sections: &[((i128, i128, i128), Lie, i128)]) {
        for &((breadth, void, grain), lies, moment) in sections {
            let exchanged = match lies {
                VoidTriangle => GrainTriangle,
                GrainTriangle => VoidTriangle,
                other => other,
            };
            for (void, grain, lies) in [(void, grain, lies), (grain, void, exchanged)] {
                assert_eq!(lie(breadth, void, grain), lies, "{breadth} {void} {grain}");
                assert_eq!(section_moment(breadth, void, grain), moment, "{breadth} {void} {grain}");
            }
        }
    }

    /// Sections by chance, the same ones each time: breadth, void and grain, each order of magnitude alike.
    fn many_sections() -> impl Iterator<Item = (i128, i128, i128)> {
        let mut state = 25_u64;
        let mut up_to = move |most: u64| {
            let mut next = || {
                state = state.wrapping_mul(6_364_136_223_846_793_005).wrapping_add(1_442_695_040_888_963_407);
                state >> 33
            };
            let limit = [10, 100, 1_000, 10_000, most][next() as usize % 5];
            i128::from(1 + next() % limit)
        };
        (0..8_000).map(move |_| (up_to(40_000), up_to(30_000), up_to(30_000)))
    }

    #[test]
    fn partly_filled_12000() {
        assert_moments(&[((12_000, 3_000, 6_000), Uncut, 67_148_640_000)]);
    }

    #[test]
    fn each_lie_and_void_and_grain_exchanged() {
        assert_moments(&[
            ((20_000, 500, 9_000), VoidTriangle, 78_170_000_000),
            ((20_000, 9_000, 500), GrainTriangle, 78_170_000_000),
            ((20_000, 1_500, 1_500), NoTriangle, 144_826_278_293),
            ((20_000, 9_000, 9_000), Uncut, 310_873_333_334),
        ]);
    }

    #[test]
    fn void_or_grain_just_reached_and_just_not() {
        // Half the breadth times the slope is 4,663.1; 9,326.2; 1.17 and 0.93.
        assert_moments(&[
            ((20_000, 4_664, 6_000), Uncut, 310_873_333_334),
            ((20_000, 4_663, 6_000), VoidTriangle, 310_897_753_334),
            ((40_000, 9_327, 20_000), Uncut, 2_486_986_666_667),
            ((40_000, 9_326, 20_000), VoidTriangle, 2_487_057_680_000),
            ((40_000, 9_326, 9_327), VoidTriangle, 2_487_057_680_000),
            ((5, 2, 2), Uncut, 5),
            ((5, 1, 2), VoidTriangle, 6),
            ((4, 1, 3), Uncut, 3),
        ]);
    }

    #[test]
    fn void_and_grain_alike_have_no_triangle() {
        // Slope × breadth is 18,652.4; 18,651.93; 2.33 and 1.87.
        assert_moments(&[
            ((40_000, 9_327, 9_327), Uncut, 2_486_986_666_667),
            ((40_000, 9_326, 9_326), NoTriangle, 2_486_986_664_952),
            ((39_999, 9_326, 9_326), Uncut, 2_486_800_147_330),
            ((40_000, 9_322, 9_322), NoTriangle, 2_486_985_910_202),
            ((5, 1, 1), NoTriangle, 5),
            ((4, 1, 1), Uncut, 3),
        ]);
    }

    #[test]
    fn a_triangle_that_just_has_the_height_and_just_not() {
        assert_moments(&[
            ((20_000, 500, 2_554), VoidTriangle, 78_170_000_000),
            ((20_000, 500, 2_553), NoTriangle, 78_169_864_417),
            ((20_000, 4_000, 4_638), VoidTriangle, 306_053_333_334),
            ((20_000, 4_000, 4_637), NoTriangle, 306_040_476_281),
            ((40_000, 9_000, 9_324), VoidTriangle, 2_484_720_000_000),
            ((40_000, 9_000, 9_323), NoTriangle, 2_484_691_303_085),
            ((1_055, 221, 246), VoidTriangle, 45_270_930),
            ((1_055, 221, 245), NoTriangle, 45_270_878),
        ]);
    }

    #[test]
    fn bases_next_to_whole_ones() {
        // 233,155 is slope × 1,000²/2, and 1,055 × 221.
        assert_eq!([233_154, 233_155, 233_156].map(base), [999, 1_000, 1_000]);
        assert_moments(&[((1_055, 221, 6_000), VoidTriangle, 45_270_930)]);
        // slope × 6,550²/2 is 10,002,932.4.
        assert_eq!([10_000_000, 10_002_932, 10_002_933].map(base), [6_549, 6_549, 6_550]);
    }

    #[test]
    fn the_least_and_the_greatest_sizes() {
        assert_moments(&[
            ((1, 1, 1), Uncut, 1),
            ((1, 30_000, 30_000), Uncut, 1),
            ((40_000, 30_000, 30_000), Uncut, 2_486_986_666_667),
            // The greatest moment of all: a base of 39,990.99 becomes 39,990.
            ((40_000, 9_322, 30_000), VoidTriangle, 2_487_109_600_000),
            ((40_000, 1, 30_000), VoidTriangle, 794_480_000),
            ((40_000, 1, 193), VoidTriangle, 794_480_000),
            ((40_000, 1, 192), NoTriangle, 794_477_361),
            ((40_000, 1, 1), NoTriangle, 399_999_999),
        ]);
    }

    #[test]
    fn void_and_grain_may_be_exchanged() {
        for (breadth, void, grain) in many_sections() {
            let moment = section_moment(breadth, void, grain);
            assert_eq!(section_moment(breadth, grain, void), moment, "{breadth} {void} {grain}");
        }
    }

    /// Whether the moment is not below A × (3B − 2c)/6 with c the root of 2A/slope, said by squares, and exceeds it by
    /// less than 1 and a third of A.
    fn near_exact_triangle(moment: i128, area: i128, breadth: i128) -> bool {
        let twice_area_by_base_squared = 800_000 * area * area * area;
        let least = 3 * area * breadth - 6 * moment;
        let most = least + 6 + 2 * area;
        let not_below = least <= 0 || twice_area_by_base_squared >= SLOPE_25 * least * least;
        not_below && most > 0 && twice_area_by_base_squared < SLOPE_25 * most * most
    }

    /// Whether the moment is a fraction rounded up.
    fn is_next_whole(moment: i128, numerator: i128, denominator: i128) -> bool {
        (moment - 1) * denominator < numerator && numerator <= moment * denominator
    }

    /// The exact moment by the two printed formulas: slope × B³/12, and B²VG/(2H) − H³/(24 × slope²).
    fn near_exact(breadth: i128, void: i128, grain: i128) -> bool {
        let moment = section_moment(breadth, void, grain);
        let height = void + grain;
        match lie(breadth, void, grain) {
            Uncut => is_next_whole(moment, 46_631 * breadth.pow(3), 1_200_000),
            VoidTriangle => near_exact_triangle(moment, breadth * void, breadth),
            GrainTriangle => near_exact_triangle(moment, breadth * grain, breadth),
            NoTriangle => {
                let numerator =
                    12 * SLOPE_25.pow(2) * breadth.pow(2) * void * grain - SLOPE_UNIT.pow(2) * height.pow(4);
                is_next_whole(moment, numerator, 24 * SLOPE_25.pow(2) * height)
            }
        }
    }

    #[test]
    fn never_below_the_exact_value_and_not_far_above() {
        let mut found = [0; 4];
        for (breadth, void, grain) in many_sections() {
            assert!(near_exact(breadth, void, grain), "{breadth} {void} {grain}");
            found[lie(breadth, void, grain) as usize] += 1;
        }
        assert!(found.iter().all(|&count| count > 300), "{found:?}");
    }

    #[test]
    fn the_accuracy_rule_tells_a_little_more_or_less() {
        let area = 20_000 * 500;
        let moment = section_moment(20_000, 500, 9_000);
        assert!(near_exact_triangle(moment, area, 20_000));
        // The base is 6,549.04, a little above the whole one, so that the moment is near the exact value.
        assert!(!near_exact_triangle(moment - area / 3, area, 20_000));
        assert!(!near_exact_triangle(moment + area / 3, area, 20_000));
    }

    #[test]
    fn borders_have_no_whole_numbers_on_them() {
        for (breadth, void, grain) in many_sections() {
            let (least, height) = (void.min(grain), void + grain);
            assert_ne!(SLOPE_25 * breadth, 2 * SLOPE_UNIT * least);
            assert_ne!(2 * SLOPE_25 * breadth * least, SLOPE_UNIT * height * height);
        }
    }
}

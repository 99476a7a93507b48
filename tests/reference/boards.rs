//! The moment of a part with a longitudinal board in it that stops short of the bulkheads (document 02, P7).
//!
//! Beside the board the grain shifts over each of the two breadths by itself, elsewhere over both together. The board's
//! ends count for nothing: source document 001, part B section IV, takes two-sevenths of the greater breadth off its
//! length. Lengths are in mm, section moments in mm³, the moment of a part in mm⁴.

use crate::deck;
use crate::rounding::rounded_up;

/// A length of the hold, and the breadths over which its grain shifts, each by itself.
struct Stretch {
    length: i128,
    breadths: Vec<i128>,
}

impl Stretch {
    /// Depths are not given, so that neither deck nor floor is in the line's way. Each section moment is rounded up.
    fn moment(&self) -> i128 {
        let section: i128 = self.breadths.iter().map(|&breadth| deck::uncut_section_moment(breadth)).sum();
        section * self.length
    }
}

/// Two-sevenths of the greater of the breadths beside the board, rounded up.
pub fn deduction(left: i128, right: i128) -> i128 {
    let greater = if left > right { left } else { right };
    rounded_up(2 * greater, 7)
}

/// The length over which the board keeps the breadths apart: its own less the deduction, 0 where nothing is left. A board
/// from bulkhead to bulkhead is no exception.
pub fn effective_length(run: i128, left: i128, right: i128) -> i128 {
    let left_over = run - deduction(left, right);
    if left_over < 0 {
        return 0;
    }
    left_over
}

/// The moment before it is rounded up to thousandths of m⁴.
pub fn moment(length: i128, run: i128, left: i128, right: i128) -> i128 {
    let effective = effective_length(run, left, right);
    let beside_the_board = Stretch { length: effective, breadths: vec![left, right] };
    let elsewhere = Stretch { length: length - effective, breadths: vec![left + right] };
    beside_the_board.moment() + elsewhere.moment()
}

#[cfg(test)]
mod tests {
    use super::*;

    #[test]
    fn the_deduction_is_rounded_up_wherever_7_does_not_divide() {
        let greater = [7, 8, 9, 10, 11, 12, 13, 14];
        assert_eq!(greater.map(|left| deduction(left, 1)), [2, 3, 3, 3, 4, 4, 4, 4]);
        assert_eq!(greater.map(|right| deduction(1, right)), [2, 3, 3, 3, 4, 4, 4, 4]);
        assert_eq!([1, 2, 3, 4].map(|breadth| deduction(breadth, breadth)), [1, 1, 1, 2]);
        assert_eq!(deduction(39_999, 1), 11_429, "11,428.3 rounded up");
        assert_eq!(deduction(1, 39_998), 11_428, "7 divides 79,996");
    }

    #[test]
    fn the_greater_breadth_counts_on_either_side() {
        assert_eq!([deduction(7_000, 3_500), deduction(3_500, 7_000), deduction(7_000, 7_000)], [2_000; 3]);
        assert_eq!(deduction(3_500, 3_500), 1_000);
        assert_eq!(deduction(7_001, 7_000), 2_001, "2,000.3 rounded up");
    }

    #[test]
    fn a_run_next_to_the_deduction() {
        // 7 divides twice 7,000 and leaves 4 of twice 6,000.
        for (breadth, deduction) in [(7_000, 2_000), (6_000, 1_715)] {
            let runs = [1, deduction - 1, deduction, deduction + 1, deduction + 2, 60_000];
            let effective = runs.map(|run| effective_length(run, breadth, 1));
            assert_eq!(effective, [0, 0, 0, 1, 2, 60_000 - deduction]);
            assert_eq!(runs.map(|run| effective_length(run, 1, breadth)), effective);
        }
    }

    #[test]
    fn the_worked_split() {
        // 8,285 mm of twice 8,393,580,000 mm³, and 11,715 mm of 67,148,640,000 mm³.
        assert_eq!(effective_length(10_000, 6_000, 6_000), 8_285);
        assert_eq!(moment(20_000, 10_000, 6_000, 6_000), 925_727_938_200_000);
    }

    #[test]
    fn left_and_right_may_be_exchanged() {
        for (length, run, left, right) in [(20_000, 10_000, 1_000, 9_000), (60_000, 60_000, 39_999, 1), (5, 3, 4, 2)] {
            assert_eq!(moment(length, run, left, right), moment(length, run, right, left));
        }
    }

    #[test]
    fn without_effective_length_it_is_a_part_as_broad_as_both() {
        let uncut = |length: i128, breadth: i128| deck::section_moment(breadth, 30_000, 30_000) * length;
        for run in [1, 1_714, 1_715] {
            assert_eq!(moment(20_000, run, 6_000, 6_000), uncut(20_000, 12_000), "run {run}");
        }
        // One mm apart: 50,361,480,000 mm³ less.
        assert_eq!(moment(20_000, 1_716, 6_000, 6_000), uncut(20_000, 12_000) - 50_361_480_000);
        assert_eq!(moment(1_715, 1_715, 6_000, 6_000), uncut(1_715, 12_000), "as long as the part all the same");
        assert_eq!(moment(60_000, 11_429, 39_999, 1), uncut(60_000, 40_000));
    }

    #[test]
    fn a_run_as_long_as_the_part_has_a_deduction_too() {
        // 18,285 mm apart and 1,715 mm together.
        assert_eq!(moment(20_000, 20_000, 6_000, 6_000), 16_787_160_000 * 18_285 + 67_148_640_000 * 1_715);
    }

    #[test]
    fn breadths_of_1() {
        // Slope/12 is 0.04 and rounded up 1, twice 1 apart; slope × 8/12 is 0.3 and rounded up 1 together.
        assert_eq!([1, 2, 60_000].map(|run| moment(60_000, run, 1, 1)), [60_000, 60_001, 119_999]);
        assert_eq!(moment(1, 1, 1, 1), 1);
    }

    #[test]
    fn each_section_moment_is_rounded_up_by_itself() {
        // Slope × 4³/12 is 2.49, and twice that 4.97: 3 and 3 apart. Slope × 8³/12 is 19.9 together.
        assert_eq!(moment(10, 5, 4, 4), 6 * 3 + 20 * 7);
    }
}

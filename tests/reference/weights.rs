//! The ship weighed from her parts (document 02, P5): the items, their sums, and the load they make. Codes 26 and 27.

use crate::code::Code;
use crate::rounding::rounded_up;
use crate::shape::{Item, Load};

/// Code 26 above these tonnes together.
pub const MOST_TONNES: i128 = 400_000;
/// Code 27 below these tonnes together.
pub const LEAST_TONNES: i128 = 100;
/// KG of a load is at least this, also where every item lies at height 0.
const LEAST_KG: i128 = 1;

/// The items taken since the start or the last removal, in their order. No sum is stored: each one is added up anew
/// whenever it is asked for, and a program that stores the sums is compared with that. There are never more than
/// 400,000 items, since each has at least one tonne.
#[derive(Clone, Debug, Default, PartialEq, Eq)]
pub struct Weights {
    items: Vec<Item>,
}

impl Weights {
    /// Adds an item that is within its limits, or answers code 26.
    pub fn add(&mut self, item: Item) -> Result<(), Code> {
        if self.tonnes() + item.tonnes > MOST_TONNES {
            return Err(Code::TooManyTonnes);
        }
        self.items.push(item);
        Ok(())
    }

    pub fn remove_all(&mut self) {
        self.items.clear();
    }

    /// D is the sum of the tonnes, KG the summed products divided by D, rounded up; or code 27.
    pub fn load(&self, fs: i128) -> Result<Load, Code> {
        let d = self.tonnes();
        if d < LEAST_TONNES {
            return Err(Code::TooFewTonnes);
        }
        let kg = rounded_up(self.products(), d).max(LEAST_KG);
        Ok(Load { d, kg, fs })
    }

    fn tonnes(&self) -> i128 {
        self.items.iter().map(|item| item.tonnes).sum()
    }

    /// The sum of tonnes × height.
    fn products(&self) -> i128 {
        self.items.iter().map(|item| item.tonnes * item.height).sum()
    }
}

#[cfg(test)]
mod tests {
    use super::*;

    /// The items of these tonnes and heights, all of them taken.
    fn taken(items: &[(i128, i128)]) -> Weights {
        let mut weights = Weights::default();
        for &(tonnes, height) in items {
            assert_eq!(weights.add(Item { tonnes, height }), Ok(()), "{tonnes} {height}");
        }
        weights
    }

    /// D and KG of these items.
    fn weighed(items: &[(i128, i128)]) -> Result<(i128, i128), Code> {
        taken(items).load(0).map(|load| (load.d, load.kg))
    }

    #[test]
    fn twenty_six_is_a_sum_above_400000() {
        for before in [&[][..], &[(1, 0)], &[(399_999, 50_000)], &[(200_000, 7), (199_999, 8)], &[(1, 1); 9]] {
            let weights = taken(before);
            let left = 400_000 - weights.tonnes();
            for more in [left + 1, left + 2, 400_000 + left] {
                let mut with_more = weights.clone();
                assert_eq!(with_more.add(Item { tonnes: more, height: 0 }), Err(Code::TooManyTonnes), "{before:?}");
                assert_eq!(with_more, weights, "nothing is added");
            }
            let mut full = weights.clone();
            assert_eq!(full.add(Item { tonnes: left, height: 0 }), Ok(()), "{before:?}");
            assert_eq!(full.tonnes(), 400_000);
            assert_eq!(full.add(Item { tonnes: 1, height: 0 }), Err(Code::TooManyTonnes));
        }
    }

    #[test]
    fn twenty_seven_is_a_sum_under_100() {
        for items in [&[][..], &[(1, 50_000)], &[(99, 0)], &[(50, 1), (49, 2)], &[(1, 1); 99]] {
            assert_eq!(weighed(items), Err(Code::TooFewTonnes), "{items:?}");
        }
        assert_eq!(weighed(&[(100, 7)]), Ok((100, 7)));
        assert_eq!(weighed(&[(50, 1), (50, 3)]), Ok((100, 2)));
        assert_eq!(weighed(&[(1, 1); 100]), Ok((100, 1)));
    }

    #[test]
    fn kg_is_rounded_up() {
        // 20,000 × 7,000 + 5,000 × 12,000 is 8,000 × 25,000.
        assert_eq!(weighed(&[(20_000, 7_000), (5_000, 12_000)]), Ok((25_000, 8_000)));
        assert_eq!(weighed(&[(24_999, 8_000), (1, 8_001)]), Ok((25_000, 8_001)), "one more than a multiple");
        assert_eq!(weighed(&[(24_999, 8_000), (1, 7_999)]), Ok((25_000, 8_000)), "one less than a multiple");
        assert_eq!(weighed(&[(1, 8_000), (24_999, 8_001)]), Ok((25_000, 8_001)));
        assert_eq!(weighed(&[(99, 0), (1, 1)]), Ok((100, 1)), "0.01 rounded up");
        assert_eq!(weighed(&[(99, 1), (1, 2)]), Ok((100, 2)), "1.01 rounded up");
        assert_eq!(weighed(&[(50, 1), (50, 1)]), Ok((100, 1)), "rounded once, and not 0.5 for each item");
    }

    #[test]
    fn kg_is_1_where_every_height_is_0() {
        assert_eq!(weighed(&[(100, 0)]), Ok((100, 1)));
        assert_eq!(weighed(&[(399_999, 0), (1, 0)]), Ok((400_000, 1)));
        assert_eq!(weighed(&[(100, 1)]), Ok((100, 1)));
        assert_eq!(weighed(&[(99, 1), (1, 2)]), Ok((100, 2)));
    }

    #[test]
    fn the_greatest_sums() {
        assert_eq!(weighed(&[(400_000, 50_000)]), Ok((400_000, 50_000)));
        assert_eq!(taken(&[(400_000, 50_000)]).products(), 20_000_000_000);
        assert_eq!(weighed(&[(399_999, 50_000), (1, 0)]), Ok((400_000, 50_000)), "49,999.875 rounded up");
        assert_eq!(weighed(&[(100, 50_000)]), Ok((100, 50_000)));
    }

    #[test]
    fn equal_items_count_as_often_as_they_are_taken() {
        assert_eq!(weighed(&[(60, 9), (60, 9), (60, 0)]), Ok((180, 6)));
        assert_eq!(weighed(&[(60, 9), (60, 0), (60, 9)]), Ok((180, 6)));
    }

    #[test]
    fn a_load_keeps_the_items_and_a_removal_leaves_none() {
        let mut weights = taken(&[(70, 3), (50, 4)]);
        let before = weights.clone();
        assert_eq!(weights.load(5), Ok(Load { d: 120, kg: 4, fs: 5 }));
        assert_eq!(weights.load(10_000), Ok(Load { d: 120, kg: 4, fs: 10_000 }));
        assert_eq!(weights, before);
        weights.remove_all();
        assert_eq!(weights, Weights::default());
        assert_eq!(weights.load(0), Err(Code::TooFewTonnes));
    }
}

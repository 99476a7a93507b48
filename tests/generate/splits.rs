//! Lines that are nearly a hold with a split, have a split in the wrong place, or one out of its limits.

use crate::chance::Chance;

/// In the place of a part of a partial hold: 11 to 14.
const NO_SPLIT: [&str; 42] = [
    "(split)",
    "(split 9000)",
    "(split 9000 4000)",
    "(split 9000 4000 3000)",
    "(split 9000 4000 3000)",
    "(split 9000 4000 3000 6000 6000)",
    "(split 9000 4000 3000 6000 6000)",
    "(split a 4000 3000 6000)",
    "(split 9000 a 3000 6000)",
    "(split 9000 4000 a1 6000)",
    "(split 9000 4000 3000 split)",
    "(split 9000 4000 (3000 6000))",
    "(split (9000 4000 3000 6000))",
    "(split 9000 4000 3000 6000 ())",
    "(split 9000 (void 1000 50 5000))",
    "(split 9000 (void 1000 50 5000))",
    "(split 9000 4000 3000 6000 (void 1000 50 5000))",
    "(split 9000 4000 (wing 1000 4000 600 5000))",
    "(split 9000 (split 9000 4000 3000 6000))",
    "(part 9000 (split 9000 4000 3000 6000))",
    "(part split 9000 4000 3000 6000)",
    "(split part 9000 4000 3000 6000)",
    "(9000 split 4000 3000 6000)",
    "((split 9000 4000 3000 6000))",
    "split 9000 4000 3000 6000",
    "split",
    "(splits 9000 4000 3000 6000)",
    "(spli 9000 4000 3000 6000)",
    "(splitt 9000 4000 3000 6000)",
    "(plit 9000 4000 3000 6000)",
    "(spilt 9000 4000 3000 6000)",
    "(sp lit 9000 4000 3000 6000)",
    "(split9000 4000 3000 6000)",
    "(board 9000 4000 3000 6000)",
    "(split 09000 4000 3000 6000)",
    "(split 9000 04000 3000 6000)",
    "(split 9000 4000 1000000000 6000)",
    "(split 9000 4000 3000 6a)",
    "(split 9000 4000 3000 6000",
    "split 9000 4000 3000 6000)",
    "(Split 9000 4000 3000 6000)",
    "(split 9000 4000 3000 -6000)",
];

/// Lines with a split where there is none: 12 and 14.
const NO_HOLD: [&str; 22] = [
    "(split 9000 4000 3000 6000)",
    "(split 9000 4000 3000 6000)",
    "((split 9000 4000 3000 6000))",
    "(split)",
    "(split 2 partial 12500 (part 9000 12000 3000 6000))",
    "(hold 2 split 12500 (split 9000 4000 3000 6000))",
    "(hold 2 partial (split 9000 4000 3000 6000))",
    "(hold 2 partial 12500 (split 9000 4000 3000 6000)",
    "(hold 2 partial 12500 (split 9000 4000 3000 6000)))",
    "(hold 2 partial 12500) (split 9000 4000 3000 6000)",
    "(hold 2 partial 12500 ((split 9000 4000 3000 6000) (split 9000 4000 3000 6000)))",
    "(hold 2 trimmed 12500 (split 9000 4000 3000 6000))",
    "(hold 2 voided 12500 (split 9000 4000 3000 6000))",
    "(hold 2 trimmed 12500 (part 9000 (void 1000 50 5000)) (split 9000 4000 3000 6000))",
    "(hold 2 voided 12500 (part 9000 (void 1000 50 5000)) (split 9000 4000 3000 6000))",
    "(hold 2 trimmed 12500 (split 9000 4000 3000 6000) (part 9000 (void 1000 50 5000)))",
    "(hold 2 trimmed 12500 (split 9000 (void 1000 50 5000)))",
    "(hold 2 voided 12500 (split 9000 (hatch 1000 50 5000)))",
    "(hold 2 trimmed 4999 (split 0 0 0 0))",
    "(hold 17 voided 12500 (split 9000 9001 65536 1))",
    "(hold 2 trimmed 12500 (part 9000 (split 9000 4000 3000 6000)))",
    "(hold 2 voided 12500 (part 9000 (void 1000 50 5000) (split 9000 4000 3000 6000)))",
];

/// Splits out of their limits: 20.
const BEYOND: [&str; 8] = [
    "(split 60001 4000 3000 6000)",
    "(split 9000 0 3000 6000)",
    "(split 9000 9001 3000 6000)",
    "(split 9000 65537 3000 6000)",
    "(split 9000 4000 0 6000)",
    "(split 9000 4000 3000 0)",
    "(split 9000 4000 34001 6000)",
    "(split 9000 4000 40000 25537)",
];

/// Parts that are right.
const GOOD: [&str; 3] = ["(part 9000 12000 3000 6000)", "(split 9000 4000 3000 6000)", "(split 9000 9000 6000 3000)"];

/// A line that is nearly a hold with a split, or has a split in the wrong place.
pub fn turned_down(chance: &mut Chance) -> String {
    if chance.one_in(3) {
        return chance.pick(&NO_HOLD).to_string();
    }
    let part = chance.pick(&NO_SPLIT);
    hold_with(chance, part)
}

/// A hold with a split that is out of its limits.
pub fn out_of_limits(chance: &mut Chance) -> String {
    let part = chance.pick(&BEYOND);
    hold_with(chance, part)
}

/// A partial hold with this in the place of a part. The parts beside it are right.
fn hold_with(chance: &mut Chance, part: &str) -> String {
    let mut parts = vec![part];
    for _ in 0..chance.below(3) {
        let place = chance.below(parts.len() + 1);
        parts.insert(place, chance.pick(&GOOD));
    }
    format!("(hold {} partial 12500 {})", chance.between(1, 16), parts.join(" "))
}

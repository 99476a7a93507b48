//! Limits of splits: their numbers, boards next to the deduction and as long as the part, moments next to whole
//! thousandths of m⁴, and splits beside parts.

use crate::boards;
use crate::chance::Chance;
use crate::deck;
use crate::records;
use crate::shape::{Cell, Hold, Mode, Part};
use crate::spelling::{self, CLEAR, JUDGE, TOTAL};
use crate::splits;
use crate::wanted;

/// LENGTH, RUN, LEFT and RIGHT.
type Split = [i128; 4];

const LONGEST: i128 = 60_000;
/// The most that LEFT and RIGHT may be together.
const BROADEST: i128 = 40_000;
/// One more than the greatest number of 16 bits.
const SIXTEEN_BITS: i128 = 65_536;
const HUGE: i128 = 999_999_999;
/// mm⁴ in a thousandth of m⁴.
const THOUSANDTH: u64 = 1_000_000_000;

fn part_of([length, run, left, right]: Split) -> Part {
    Part::Split { length, run, left, right }
}

/// A split within its limits.
fn split_by_chance(chance: &mut Chance) -> Split {
    let length = chance.odd(1, LONGEST);
    let (run, left, right) = records::odd_board(chance, length);
    [length, run, left, right]
}

/// These splits, each with a judge, among light parts of hold 2 under the condition that shows its weight.
fn judged_splits(chance: &mut Chance, splits: &[Split]) -> Vec<String> {
    let mut lines = wanted::condition_that_shows_weight().lines();
    for &split in splits {
        let light = [part_of([1; 4]), Part::PartlyFilled { length: 1, breadth: 1, void: 1, grain: 1 }];
        let mut parts = vec![light[chance.below(2)].clone(); chance.pick(&[0, 0, 0, 1, 2, 5])];
        parts.insert(chance.below(parts.len() + 1), part_of(split));
        lines.push(spelling::hold(&Hold { n: 2, mode: Mode::Partial, sf: 10_000, parts }));
        lines.push(JUDGE.to_string());
    }
    lines
}

/// One of the four numbers, or two that have a limit together, at the limits and beyond, up to where 16 bits are not
/// enough; the others are within their limits.
pub fn numbers_at_their_limits(chance: &mut Chance) -> Vec<String> {
    let split = split_by_chance(chance);
    let splits = match chance.below(6) {
        0 => lengths(split),
        1 => runs(split),
        2 => lengths_with_runs(split),
        3 => breadths(split),
        4 => breadths(split).into_iter().map(|[length, run, left, right]| [length, run, right, left]).collect(),
        _ => breadths_together(chance, split),
    };
    let splits: Vec<Split> = chance.shuffled(splits).into_iter().take(9).collect();
    judged_splits(chance, &splits)
}

fn lengths([length, run, left, right]: Split) -> Vec<Split> {
    let lengths = [run - 1, run, run + 1, LONGEST - 1, LONGEST, LONGEST + 1];
    let beyond = [SIXTEEN_BITS - 1, SIXTEEN_BITS, SIXTEEN_BITS + length, HUGE];
    let mut splits: Vec<Split> = lengths.iter().chain(&beyond).map(|&length| [length, run, left, right]).collect();
    splits.extend([[0, 1, left, right], [1, 1, left, right]]);
    splits
}

fn runs([length, run, left, right]: Split) -> Vec<Split> {
    let runs = [0, 1, length - 1, length, length + 1, LONGEST, LONGEST + 1];
    let beyond = [SIXTEEN_BITS - 1, SIXTEEN_BITS, SIXTEEN_BITS + run, SIXTEEN_BITS + length, HUGE];
    runs.iter().chain(&beyond).map(|&run| [length, run, left, right]).collect()
}

/// A board as long as the part, or shorter, and both too long.
fn lengths_with_runs([length, run, left, right]: Split) -> Vec<Split> {
    let both = [0, 1, 2, LONGEST - 1, LONGEST, LONGEST + 1, SIXTEEN_BITS - 1, SIXTEEN_BITS, SIXTEEN_BITS + 1, HUGE];
    let mut splits: Vec<Split> = both.iter().map(|&both| [both, both, left, right]).collect();
    let pairs = [(LONGEST + 1, LONGEST), (LONGEST, LONGEST + 1), (SIXTEEN_BITS + length, SIXTEEN_BITS + run)];
    splits.extend(pairs.map(|(length, run)| [length, run, left, right]));
    splits
}

fn breadths([length, run, _, right]: Split) -> Vec<Split> {
    let most = BROADEST - right;
    let lefts = [0, 1, 2, most - 1, most, most + 1, BROADEST, BROADEST + 1];
    // LEFT that 16 bits would take for another, or with a sum that they would.
    let beyond = [SIXTEEN_BITS - 1, SIXTEEN_BITS - right, SIXTEEN_BITS + 1 - right, SIXTEEN_BITS, SIXTEEN_BITS + most];
    let all = lefts.iter().chain(&beyond).chain(&[HUGE]);
    all.map(|&left| [length, run, left, right]).collect()
}

fn breadths_together(chance: &mut Chance, [length, run, left, _]: Split) -> Vec<Split> {
    let mut pairs = vec![
        (1, 1),
        (1, BROADEST - 1),
        (1, BROADEST),
        (0, BROADEST),
        (BROADEST, 0),
        (BROADEST, 1),
        (BROADEST / 2, BROADEST / 2),
        (BROADEST / 2, BROADEST / 2 + 1),
        (BROADEST, BROADEST),
        (SIXTEEN_BITS - 1, 1),
        (1, SIXTEEN_BITS - 1),
        (SIXTEEN_BITS / 2, SIXTEEN_BITS / 2),
        (HUGE, HUGE),
    ];
    for sum in [BROADEST - 1, BROADEST, BROADEST + 1] {
        pairs.push((left.min(sum - 1), sum - left.min(sum - 1)));
    }
    // Sums that 16 bits would take for one within the limit, of breadths that are each within it or not.
    for sum in [SIXTEEN_BITS, SIXTEEN_BITS + 1, SIXTEEN_BITS + BROADEST, chance.between(SIXTEEN_BITS, 80_000)] {
        let left = chance.between(sum - SIXTEEN_BITS + 1, SIXTEEN_BITS - 1);
        pairs.extend([(BROADEST, sum - BROADEST), (left, sum - left)]);
    }
    pairs.into_iter().map(|(left, right)| [length, run, left, right]).collect()
}

/// A greater breadth with this rest modulo 7 on either side, or on both, and a lesser one.
fn breadths_with_rest(chance: &mut Chance, rest: i128) -> (i128, i128) {
    let sevens = if chance.one_in(3) { chance.small(0, 5_713) } else { chance.between(0, 5_713) };
    let greater = (rest + 7 * sevens).max(1);
    let most = greater.min(BROADEST - greater);
    let lesser = match chance.below(4) {
        0 => most,
        1 if 2 * greater <= BROADEST => greater,
        2 => chance.small(1, most),
        _ => chance.between(1, most),
    };
    chance.pick(&[(greater, lesser), (lesser, greater)])
}

/// Boards as long as the deduction, 1 mm shorter and 1 mm longer, with a greater breadth of each rest modulo 7.
pub fn runs_at_the_deduction(chance: &mut Chance) -> Vec<String> {
    let mut splits = Vec::new();
    for rest in chance.shuffled((0..7).collect()).into_iter().take(4) {
        let (left, right) = breadths_with_rest(chance, rest);
        let deduction = boards::deduction(left, right);
        let length = if chance.one_in(4) { deduction + 1 } else { chance.between(deduction + 1, LONGEST) };
        let runs = [deduction, deduction - 1, deduction + 1].into_iter().filter(|&run| run > 0);
        splits.extend(runs.map(|run| [length, run, left, right]));
    }
    judged_splits(chance, &splits)
}

/// Boards as long as the part, which have the deduction too, and 1 mm shorter, in parts of every length.
pub fn runs_as_long_as_the_part(chance: &mut Chance) -> Vec<String> {
    let rest = chance.between(0, 6);
    let (left, right) = breadths_with_rest(chance, rest);
    let deduction = boards::deduction(left, right);
    let mut splits = Vec::new();
    for length in [1, deduction - 1, deduction, deduction + 1, LONGEST, chance.between(1, LONGEST)] {
        let runs = [length, length - 1].into_iter().filter(|&run| run > 0);
        splits.extend(runs.map(|run| [length, run, left, right]));
    }
    judged_splits(chance, &splits)
}

/// A part that deck and floor do not cut, replaced by splits as broad whose boards have no effect, which weigh the same,
/// and then by one whose board keeps the breadths apart over 1 mm.
pub fn boards_without_effect(chance: &mut Chance) -> Vec<String> {
    let mut lines = wanted::condition_that_shows_weight().lines();
    for _ in 0..3 {
        let rest = chance.between(0, 6);
        let (left, right) = breadths_with_rest(chance, rest);
        let deduction = boards::deduction(left, right);
        let length = chance.between(deduction + 1, LONGEST);
        let uncut = Part::PartlyFilled { length, breadth: left + right, void: wanted::DEEP, grain: wanted::DEEP };
        let split = |run: i128| part_of([length, run, left, right]);
        let (n, sf) = (chance.between(1, 16), chance.odd(5_000, 40_000));
        for part in [uncut, split(chance.between(1, deduction)), split(deduction), split(deduction + 1)] {
            lines.push(spelling::hold(&Hold { n, mode: Mode::Partial, sf, parts: vec![part] }));
            lines.push(TOTAL.to_string());
        }
        lines.extend([spelling::drop(n), TOTAL.to_string()]);
    }
    lines
}

/// Splits whose thousandths of m⁴ hang on 1 mm³ of a section moment, as far as there are such, and splits that have no
/// rest, with 1 mm more and less of the stretch where the breadths shift together.
pub fn moments_next_to_a_thousandth(chance: &mut Chance) -> Vec<String> {
    let mut splits = Vec::new();
    for _ in 0..5 {
        splits.push(telling_split(chance));
    }
    for _ in 0..2 {
        // Breadths of whole multiples of 6,000 have section moments that end in four zeros.
        let (left, right) = chance.pick(&[(1, 1), (1, 2), (2, 1), (1, 3), (3, 1), (2, 2), (3, 3), (5, 1)]);
        let split = split_without_rest(chance, 6_000 * left, 6_000 * right);
        splits.extend([0, 1, -1].map(|by| [split[0] + by, split[1], split[2], split[3]]));
    }
    splits.retain(|&[length, run, _, _]| (run..=LONGEST).contains(&length));
    let mut lines = vec![CLEAR.to_string()];
    for split in splits {
        let parts = vec![part_of(split)];
        lines.push(spelling::hold(&Hold { n: 2, mode: Mode::Partial, sf: 10_000, parts }));
        lines.push(TOTAL.to_string());
    }
    lines
}

/// A split with a board by chance, and the first length, from one by chance on, that is wanted by the mm⁴ above a whole
/// thousandth, the effective length and the rest of the length; or, where there is none, that one by chance.
fn split_with_length(chance: &mut Chance, left: i128, right: i128, is_wanted: impl Fn(u64, u64, u64) -> bool) -> Split {
    let deduction = boards::deduction(left, right);
    // A multiple of 4, with which most breadths that can leave no rest do so at some length.
    let effective = 4 * chance.between(1, (LONGEST - deduction) / 4);
    let run = effective + deduction;
    let apart = (deck::uncut_section_moment(left) + deck::uncut_section_moment(right)) as u64;
    let together = deck::uncut_section_moment(left + right) as u64;
    let is_wanted = |length: &u64| {
        let effective = effective as u64;
        let rest = length - effective;
        is_wanted((apart * effective + together * rest) % THOUSANDTH, effective, rest)
    };
    let (first, shortest) = (chance.between(run, LONGEST) as u64, run as u64);
    let length = (first..=LONGEST as u64).chain(shortest..first).find(is_wanted).unwrap_or(first);
    [i128::from(length), run, left, right]
}

/// A split that would have other thousandths with a section moment 1 mm³ greater, or 1 mm³ less, of the two breadths
/// apart or of both together. The breadths are such that those apart would have 1 mm³ less if they were rounded up together.
fn telling_split(chance: &mut Chance) -> Split {
    let (greater, apart) = (chance.one_in(4), !chance.one_in(3));
    let mut breadth = || chance.between(1, BROADEST / 2);
    let (mut left, mut right) = (breadth(), breadth());
    while !is_less_together(left, right) {
        (left, right) = (breadth(), breadth());
    }
    split_with_length(chance, left, right, |above, effective, rest| {
        let stretch = if apart { effective } else { rest };
        if greater {
            (THOUSANDTH - above) % THOUSANDTH < stretch
        } else {
            (1..=stretch).contains(&above)
        }
    })
}

/// Whether two section moments are 1 mm³ less where they are added before they are rounded up.
fn is_less_together(left: i128, right: i128) -> bool {
    // Above a whole number, in parts of which 1,200,000 are 1 mm³.
    let rest = |breadth: i128| 46_631 * breadth.pow(3) % 1_200_000;
    let (one, other) = (rest(left), rest(right));
    one > 0 && other > 0 && one + other <= 1_200_000
}

fn split_without_rest(chance: &mut Chance, left: i128, right: i128) -> Split {
    split_with_length(chance, left, right, |above, _, _| above == 0)
}

/// Holds of splits alone, and beside parts, up to six and one more, in a trimmed and in a voided hold too; each replaces
/// the one before, with a total behind it, and some are dropped.
pub fn splits_beside_parts(chance: &mut Chance) -> Vec<String> {
    let mut lines = wanted::condition_that_shows_weight().lines();
    let n = chance.between(1, 16);
    for count in chance.shuffled(vec![1, 2, 3, 6, 6, 7]) {
        let splits_alone = chance.one_in(2);
        let parts = (0..count).map(|_| split_or_part(chance, splits_alone)).collect();
        lines.push(spelling::hold(&Hold { n, mode: Mode::Partial, sf: chance.odd(5_000, 40_000), parts }));
        if !chance.one_in(3) {
            lines.push(TOTAL.to_string());
        }
        match chance.below(3) {
            0 => lines.push(spelling::drop(n)),
            1 => lines.push(format!("(hold {n} partial 12500 (part 9000 12000 3000 6000))")),
            _ => continue,
        }
        lines.push(chance.pick(&[TOTAL, JUDGE]).to_string());
    }
    for mode in [Mode::Trimmed, Mode::Voided] {
        let section = Part::Section { length: 9_000, cells: vec![Cell::Void { width: 1_000, depth: 50, lip: 5_000 }] };
        let mut parts = vec![section; chance.below(3)];
        parts.insert(chance.below(parts.len() + 1), split_or_part(chance, true));
        lines.extend([spelling::hold(&Hold { n, mode, sf: 12_500, parts }), TOTAL.to_string()]);
    }
    lines.extend([spelling::drop(n), TOTAL.to_string(), JUDGE.to_string()]);
    lines
}

/// A split; or, where there are not splits alone, as often a part.
fn split_or_part(chance: &mut Chance, splits_alone: bool) -> Part {
    if splits_alone || chance.one_in(2) {
        return part_of(split_by_chance(chance));
    }
    Part::PartlyFilled { length: chance.odd(1, LONGEST), breadth: chance.odd(1, BROADEST), void: 3_000, grain: 6_000 }
}

/// Splits as long, broad, short and narrow as the limits allow, one and six of each.
pub fn greatest_and_least_sizes(chance: &mut Chance) -> Vec<String> {
    let mut splits = Vec::new();
    for _ in 0..6 {
        let most = BROADEST - 1;
        let (left, right) = chance.pick(&[(1, 1), (1, 2), (2, 1), (1, most), (most, 1), (BROADEST / 2, BROADEST / 2)]);
        let length = chance.pick(&[1, 2, LONGEST - 1, LONGEST, LONGEST]);
        let deduction = boards::deduction(left, right);
        let run = chance.pick(&[1, 2, deduction, deduction + 1, length - 1, length]).clamp(1, length);
        splits.push([length, run, left, right]);
    }
    let mut lines = judged_splits(chance, &splits);
    let parts = vec![part_of(chance.pick(&splits)); 6];
    for sf in [5_000, 40_000] {
        lines.push(spelling::hold(&Hold { n: 2, mode: Mode::Partial, sf, parts: parts.clone() }));
        // Of a weight moment that gives 34 the total alone tells how great it is.
        lines.extend([JUDGE, TOTAL].map(str::to_string));
    }
    lines
}

/// Lines that are nearly a hold with a split, with a hold that has one stored, and what shows that it stays.
pub fn turned_down(chance: &mut Chance) -> Vec<String> {
    let mut lines = wanted::condition_that_shows_weight().lines();
    lines.push("(hold 2 partial 12500 (split 20000 10000 6000 6000))".to_string());
    for _ in 0..7 {
        lines.push(splits::turned_down(chance));
        lines.push(chance.pick(&[TOTAL, TOTAL, JUDGE]).to_string());
    }
    lines
}

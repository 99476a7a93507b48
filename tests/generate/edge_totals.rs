//! Totals: next to the numbers that matter, of all sixteen holds, and behind what changes them by 1 kg·m or not at all.

use crate::chance::Chance;
use crate::grain;
use crate::records;
use crate::search::least_that_holds;
use crate::shape::{Cell, Hold, Mode, Part};
use crate::spelling::{self, CLEAR, JUDGE, TOTAL};
use crate::totals;
use crate::wanted;

const HOLD_COUNT: i128 = 16;
/// The heaviest part that the limits allow: six of them at a stowage factor of 5,000 are the heaviest hold.
const HEAVIEST: Part = Part::PartlyFilled { length: 60_000, breadth: 40_000, void: 9_322, grain: 30_000 };

/// The numbers of the sixteen holds in an order by chance.
fn numbers(chance: &mut Chance) -> Vec<i128> {
    chance.shuffled((1..=HOLD_COUNT).collect())
}

/// Any hold, often one that fits, under this number.
fn any_hold(chance: &mut Chance, n: i128) -> Hold {
    let hold = if chance.one_in(2) { records::likely_hold(chance) } else { records::odd_hold(chance) };
    Hold { n, ..hold }
}

/// A hold of no weight moment, which counts as a hold all the same.
fn weightless_hold(n: i128) -> Hold {
    let part = Part::Section { length: 1_000, cells: vec![Cell::Void { width: 1_000, depth: 0, lip: 0 }] };
    Hold { n, mode: Mode::Voided, sf: 12_500, parts: vec![part] }
}

/// Totals at and next to powers of ten, where there is one digit more, and powers of two, where numbers of so many bits
/// end. Each lot of holds replaces the one before it, hold by hold.
pub fn totals_at_powers(chance: &mut Chance) -> Vec<String> {
    let power = if chance.one_in(2) {
        10_i128.pow(chance.between(0, 10) as u32)
    } else {
        1 << chance.pick(&[8, 15, 16, 24, 30, 31, 31, 32, 32, 33, 34])
    };
    let numbers = numbers(chance);
    let mut lines = vec![CLEAR.to_string()];
    let mut held = 0;
    for by in [0, -1, 1] {
        let holds = wanted::holds_of_weight(power + by);
        lines.extend(holds.iter().zip(&numbers).map(|(hold, &n)| spelling::hold(&Hold { n, ..hold.clone() })));
        lines.extend((holds.len()..held).map(|place| spelling::drop(numbers[place])));
        lines.push(TOTAL.to_string());
        held = holds.len();
    }
    lines
}

/// All sixteen holds, one lot in three with the greatest total that the limits allow, and then some of them replaced
/// or dropped.
pub fn sixteen_holds(chance: &mut Chance) -> Vec<String> {
    let heaviest = |n: i128| Hold { n, mode: Mode::Partial, sf: 5_000, parts: vec![HEAVIEST; 6] };
    let share = chance.pick(&[0, 50, 100]);
    let mut lines = vec![CLEAR.to_string()];
    for n in numbers(chance) {
        let hold = if chance.percent(share) { heaviest(n) } else { fitting_hold(chance, n) };
        lines.push(spelling::hold(&hold));
    }
    lines.push(TOTAL.to_string());
    for n in numbers(chance).into_iter().take(6) {
        lines.push(match chance.below(4) {
            0 => spelling::drop(n),
            1 => spelling::hold(&heaviest(n)),
            2 => spelling::hold(&weightless_hold(n)),
            _ => spelling::hold(&any_hold(chance, n)),
        });
        lines.push(TOTAL.to_string());
    }
    lines
}

/// A hold that is taken: any that fits, or one of no weight moment.
fn fitting_hold(chance: &mut Chance, n: i128) -> Hold {
    let hold = any_hold(chance, n);
    if grain::weight_moment(&hold).is_some() {
        hold
    } else {
        weightless_hold(n)
    }
}

/// A hold replaced by one that has 1 kg·m more, and back, and by itself, among others that stay.
pub fn replaced_by_one_more(chance: &mut Chance) -> Vec<String> {
    let numbers = numbers(chance);
    let (n, others) = (numbers[0], &numbers[1..]);
    let mut lines = vec![CLEAR.to_string()];
    for &other in &others[..chance.below(6)] {
        lines.push(spelling::hold(&any_hold(chance, other)));
    }
    // One more mm of the light section adds at most 1 kg·m.
    let heavy = Part::Section { length: chance.small(1, 60_000), cells: vec![wanted::SECTIONS[0]] };
    let of_length = |length: i128| {
        let light = Part::Section { length, cells: vec![wanted::SECTIONS[3]] };
        Hold { n, mode: Mode::Trimmed, sf: 10_000, parts: vec![heavy.clone(), light] }
    };
    let weight = |length: i128| grain::weight_moment(&of_length(length));
    let length = chance.between(1, 50_000);
    let longer = least_that_holds(length, 60_000, |longer| weight(longer) > weight(length)).unwrap_or(60_000);
    for length in [length, longer, longer, length, longer] {
        lines.extend([spelling::hold(&of_length(length)), TOTAL.to_string()]);
    }
    lines.extend([spelling::drop(n), TOTAL.to_string()]);
    lines
}

/// Lines that leave the total as it was: holds and drops that are turned down, of a number that is held and of one that
/// is not, and a hold of no weight moment.
pub fn totals_that_stay(chance: &mut Chance) -> Vec<String> {
    let numbers = numbers(chance);
    let mut lines = wanted::condition_that_shows_weight().lines();
    let held = 1 + chance.below(4);
    for &n in &numbers[..held] {
        lines.push(spelling::hold(&fitting_hold(chance, n)));
    }
    lines.push(TOTAL.to_string());
    let empty = numbers[held];
    for n in [numbers[0], empty] {
        let mut turned_down = vec![
            // 20 by the stowage factor, and by the last part.
            format!("(hold {n} partial {} (part 9000 12000 3000 6000))", chance.pick(&[0, 4_999, 40_001])),
            format!("(hold {n} partial 12500 (part 9000 12000 3000 6000) (part 0 12000 3000 6000))"),
            format!("(hold {n} partial 12500 (split 9000 4000 3000 6000) (split 9000 9001 3000 6000))"),
            // 21 by the only part, and by the last.
            format!("(hold {n} trimmed 12500 (part 9000 (void 10000 500 1)))"),
            format!("(hold {n} voided 12500 (part 9000 (void 10000 500 5000)) (part 9000 (void 10000 500 1)))"),
            // 14 by the part of another mode.
            format!("(hold {n} trimmed 12500 (part 9000 (void 10000 500 5000)) (part 9000 12000 3000 6000))"),
            format!("(hold {n} trimmed 12500 (part 9000 (void 10000 500 5000)) (split 9000 4000 3000 6000))"),
        ];
        for _ in 0..2 {
            lines.push(turned_down.swap_remove(chance.below(turned_down.len())));
            lines.push(TOTAL.to_string());
        }
    }
    let beyond = chance.pick(&[0, 17, 18, 65_536 + numbers[0]]);
    let hold = spelling::hold(&Hold { n: beyond, ..records::likely_hold(chance) });
    let weightless = spelling::hold(&weightless_hold(empty));
    for line in [hold, spelling::drop(beyond), spelling::drop(empty), weightless, spelling::drop(empty)] {
        lines.extend([line, TOTAL.to_string()]);
    }
    lines.push(JUDGE.to_string());
    lines
}

/// Lines that are nearly a total, between totals of a condition with a hold or without.
pub fn totals_turned_down(chance: &mut Chance) -> Vec<String> {
    let mut lines = vec![CLEAR.to_string()];
    if chance.one_in(2) {
        lines.push(spelling::hold(&records::likely_hold(chance)));
    }
    for _ in 0..6 {
        lines.extend([totals::turned_down(chance), TOTAL.to_string()]);
    }
    lines
}

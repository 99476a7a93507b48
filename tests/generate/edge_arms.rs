//! Limits of GM, DIFF, UPPER and AREA: codes 40 to 43.

use crate::arms::{self, Diffs, ANGLES, LEAST_AREA, LEAST_GM};
use crate::chance::Chance;
use crate::code::Code;
use crate::panel::MOST_WEIGHT_MOMENT;
use crate::records;
use crate::search::least_that_holds;
use crate::shape::{Column, Load, Rule, Ship};
use crate::spelling::{self, CLEAR, JUDGE};
use crate::wanted::{self, Wanted};

// ---- GM ----

/// GM exactly at the limit and next to it, with arms that decide the code where GM does not.
pub fn gm_at_the_limit(chance: &mut Chance) -> Vec<String> {
    let mut lines = Vec::new();
    for gm in [LEAST_GM, LEAST_GM - 1, LEAST_GM + 1] {
        let load = wanted::load(chance);
        let weight = wanted::weight_moment_up_to(chance, 200_000, load.d);
        let diffs = diffs_by_chance(chance, -100_000, 900_000);
        let ship = records::odd_ship(chance);
        if let Some(condition) = wanted::with_diffs(ship, load, weight, gm, &diffs) {
            lines.extend(condition.judged());
        }
    }
    lines
}

/// GM at the limit with KM between two columns of any distance: the displacement decides the last µm.
pub fn gm_between_columns(chance: &mut Chance) -> Vec<String> {
    let columns = records::likely_columns(chance, 2);
    let (low, mut high) = (columns[0], columns[1]);
    if high.km == low.km {
        high.km += 1;
    }
    let mut lines = vec![
        CLEAR.to_string(),
        spelling::ship(&records::likely_ship(chance)),
        spelling::column(&low),
        spelling::column(&high),
    ];
    let start = chance.between(low.d, high.d);
    let mut sought = vec![0, 999];
    for step in 0..(high.d - low.d) {
        let d = low.d + (start - low.d + step) % (high.d - low.d);
        let km = arms::gm((&low, &high), &Load { d, kg: 0, fs: 0 });
        let Some(found) = sought.iter().position(|&last_digits| km % 1_000 == last_digits) else { continue };
        sought.swap_remove(found);
        // Fluid KG leaves exactly 300,000 or 299,999.
        let fluid_kg = (km - LEAST_GM).div_euclid(1_000) + i128::from(km % 1_000 == 999);
        let fs = chance.between(0, 100);
        for by in [0, 1, -1] {
            lines.push(spelling::load(&Load { d: d + by, kg: fluid_kg - fs, fs }));
            lines.push(JUDGE.to_string());
        }
        if sought.is_empty() {
            break;
        }
    }
    lines
}

// ---- DIFF ----

/// The condition's lines and a judge the first time; later only its ship, which alone has changed.
fn judge_with_ship(lines: &mut Vec<String>, ship: Ship, condition: Option<Wanted>) {
    match condition {
        Some(condition) if lines.is_empty() => lines.extend(condition.judged()),
        Some(_) => lines.extend([spelling::ship(&ship), JUDGE.to_string()]),
        None => {}
    }
}

/// Ten DIFFs by chance; the first is not free and is left 0.
pub fn diffs_by_chance(chance: &mut Chance, low: i128, high: i128) -> Diffs {
    let mut diffs = [0; 10];
    for diff in &mut diffs[1..] {
        *diff = chance.between(low, high);
    }
    diffs
}

/// The place of the table angle at or below an angle.
fn place_below(angle: i128) -> usize {
    (0..9).rfind(|&place| ANGLES[place] <= angle).unwrap_or(0)
}

/// DIFF at the heel limit at 0, -1 and the fractions between, the heel limit at a table angle or between two.
pub fn diff_at_the_heel_limit(chance: &mut Chance) -> Vec<String> {
    let load = wanted::load(chance);
    let weight = wanted::weight_moment_up_to(chance, 150_000, load.d);
    let edge = if chance.one_in(2) { chance.pick(&[500, 1_000, 1_200, 1_201]) } else { chance.between(1, 1_199) };
    let ship = Ship { rule: Rule::New, edge, flood: chance.odd(1, 9_000) };
    let heel_limit = arms::heel_limit(&ship);
    let place = place_below(heel_limit);
    let (along, step) = (heel_limit - ANGLES[place], ANGLES[place + 1] - ANGLES[place]);
    let mut diffs = diffs_by_chance(chance, 1_000, 900_000);
    if place > 0 {
        diffs[place] = chance.pick(&[0, -1, 1, -1_000, 777]);
    } else {
        diffs[0] = -arms::heeling_arm(weight, load.d, 0);
    }
    let mut lines = Vec::new();
    if along == 0 {
        for diff in [0, -1, 1] {
            diffs[place] = diff;
            lines.extend(wanted::with_diffs(ship, load, weight, 900_000, &diffs).iter().flat_map(Wanted::judged));
        }
        return lines;
    }
    // The line passes zero at the heel limit if the DIFF behind it is this; whole µm beside it give 0 and -1.
    let zero = (-diffs[place] * (step - along)).div_euclid(along);
    for diff in [zero, zero + 1, zero - 1] {
        diffs[place + 1] = diff;
        lines.extend(wanted::with_diffs(ship, load, weight, 900_000, &diffs).iter().flat_map(Wanted::judged));
    }
    lines
}

/// A weight moment for which a test of the verdict holds while it fails for 1 kg·m more; None if it fails for 0 or
/// holds for the greatest.
fn greatest_weight(condition: &Wanted, holds: impl Fn(&Wanted) -> bool) -> Option<i128> {
    let fails = |weight_moment: i128| !holds(&Wanted { weight_moment, ..condition.clone() });
    least_that_holds(0, MOST_WEIGHT_MOMENT, fails).map(|weight| weight - 1)
}

/// The condition with these weight moments, each with a judge.
fn judged_at_weights(condition: &Wanted, weights: &[i128]) -> Vec<String> {
    let mut lines = Vec::new();
    for &weight_moment in weights {
        if (0..=MOST_WEIGHT_MOMENT).contains(&weight_moment) {
            lines.extend(Wanted { weight_moment, ..condition.clone() }.judged());
        }
    }
    lines
}

/// A likely ship with two columns and a load that is well above 40.
fn likely_condition(chance: &mut Chance) -> Wanted {
    let columns = records::likely_columns(chance, 2);
    let mut load = records::likely_load(chance, &columns);
    load.kg = (load.kg - 500).max(1);
    let ship = records::likely_ship(chance);
    Wanted { ship, low: columns[0], high: columns[1], load, weight_moment: 0 }
}

/// A likely ship, loaded to the last kg·m at which DIFF at the heel limit is not below zero.
pub fn diff_at_the_heel_limit_by_weight(chance: &mut Chance) -> Vec<String> {
    let condition = likely_condition(chance);
    match greatest_weight(&condition, |condition| condition.verdict().diff >= 0) {
        Some(weight) => judged_at_weights(&condition, &[weight, weight + 1, weight - 1]),
        None => condition.judged(),
    }
}

/// A likely ship with a dip in its cross curves, loaded to the last kg·m at which 41 and 42 do not apply.
pub fn diff_above_the_heel_limit_by_weight(chance: &mut Chance) -> Vec<String> {
    let mut condition = likely_condition(chance);
    let place = 4 + chance.below(5);
    let dip = chance.between(20, 400);
    for column in [&mut condition.low, &mut condition.high] {
        column.kn[place] = (column.kn[place] - dip).max(0);
    }
    let holds = |condition: &Wanted| !matches!(condition.verdict().code, Code::HeelLimitPassed | Code::ArmBelowZero);
    match greatest_weight(&condition, holds) {
        Some(weight) => judged_at_weights(&condition, &[weight, weight + 1, weight - 1]),
        None => condition.judged(),
    }
}

/// One of the ten angles above the heel limit at DIFF 0 and -1, below, at and above UPPER.
pub fn diff_above_the_heel_limit(chance: &mut Chance) -> Vec<String> {
    let load = wanted::load(chance);
    let weight = wanted::weight_moment_up_to(chance, 150_000, load.d);
    let place = 1 + chance.below(9);
    let edge = (ANGLES[place] + chance.pick(&[-1, 0, 1, -200])).clamp(1, 9_000);
    let flood = (ANGLES[place] + chance.pick(&[-1, 0, 1, 300, 5_000])).clamp(1, 9_000);
    let ship = Ship { rule: records::rule(chance), edge, flood };
    let mut diffs = diffs_by_chance(chance, 1_000, 900_000);
    let mut lines = Vec::new();
    for diff in [0, -1, 1] {
        diffs[place] = diff;
        lines.extend(wanted::with_diffs(ship, load, weight, 900_000, &diffs).iter().flat_map(Wanted::judged));
    }
    lines
}

/// FLOOD between two of the ten angles where the line falls or rises through zero: UPPER next to the zero.
pub fn diff_at_upper(chance: &mut Chance) -> Vec<String> {
    let load = wanted::load(chance);
    let weight = wanted::weight_moment_up_to(chance, 100_000, load.d);
    let place = 1 + chance.below(7);
    let mut diffs = diffs_by_chance(chance, 1_000, 900_000);
    let size = chance.small(1, 300_000);
    diffs[place] = chance.between(1, size);
    diffs[place + 1] = -chance.between(1, size);
    if chance.one_in(3) {
        diffs.swap(place, place + 1);
    }
    // The peak is behind the zero, so that FLOOD alone sets UPPER.
    diffs[9] = 1_000_000;
    let step = ANGLES[place + 1] - ANGLES[place];
    let zero = ANGLES[place] + step * diffs[place] / (diffs[place] - diffs[place + 1]);
    let edge = if chance.one_in(2) { chance.between(1, 9_000) } else { (zero + chance.between(-2, 2)).clamp(1, 9_000) };
    let rule = records::rule(chance);
    let mut lines = Vec::new();
    for by in [0, 1, -1, 2] {
        let ship = Ship { rule, edge, flood: (zero + by).clamp(1, 9_000) };
        judge_with_ship(&mut lines, ship, wanted::with_diffs(ship, load, weight, 900_000, &diffs));
    }
    lines
}

// ---- AREA ----

/// AREA with another DIFF at one of the ten angles.
fn area_with(diffs: &Diffs, place: usize, diff: i128, upper: i128) -> i128 {
    let mut diffs = *diffs;
    diffs[place] = diff;
    arms::area(&diffs, upper)
}

/// AREA at the limit to the unit: FLOOD lies a little behind one of the ten angles, and the DIFF at the angle behind
/// FLOOD moves AREA by less than 1 for each µm.
pub fn area_at_the_limit(chance: &mut Chance) -> Vec<String> {
    let load = wanted::load(chance);
    let weight = wanted::weight_moment_up_to(chance, 60_000, load.d);
    let place = 2 + chance.below(7);
    let flood = ANGLES[place] + chance.between(1, 17);
    let ship = Ship { rule: records::rule(chance), edge: chance.between(1, 9_000), flood };
    let mean = LEAST_AREA / flood;
    let lowest = chance.pick(&[0, 0, 0, -mean / 4]);
    let mut diffs = diffs_by_chance(chance, lowest, mean);
    diffs[0] = -arms::heeling_arm(weight, load.d, 0);
    diffs[place + 1] = 0;
    let Some(enough) = least_that_holds(0, 30_000_000, |diff| area_with(&diffs, place, diff, flood) >= LEAST_AREA)
    else {
        return Vec::new();
    };
    diffs[place] = enough - 1;
    let reaches = |diff: i128| area_with(&diffs, place + 1, diff, flood) >= LEAST_AREA;
    let Some(least) = least_that_holds(0, 30_000_000, reaches) else {
        return Vec::new();
    };
    let some = chance.between(2, 40);
    let peak = enough.max(least) + 40 + chance.between(0, 1_000);
    let mut lines = Vec::new();
    for diff in [least, least - 1, least + some, least - some] {
        diffs[place + 1] = diff.max(0);
        if place + 1 < 9 {
            // The peak is behind FLOOD, so that FLOOD sets UPPER.
            diffs[9] = peak;
        }
        lines.extend(wanted::with_diffs(ship, load, weight, 900_000, &diffs).iter().flat_map(Wanted::judged));
    }
    lines
}

/// A likely ship, loaded to the last kg·m at which AREA is not below the limit, then by other displacements.
pub fn area_at_the_limit_by_weight(chance: &mut Chance) -> Vec<String> {
    let condition = likely_condition(chance);
    let Some(weight) = greatest_weight(&condition, |condition| condition.verdict().area >= LEAST_AREA) else {
        return condition.judged();
    };
    let mut lines = judged_at_weights(&condition, &[weight, weight + 1]);
    for by in [1, -1, 2] {
        lines.push(spelling::load(&Load { d: condition.load.d + by, ..condition.load }));
        lines.push(JUDGE.to_string());
    }
    lines
}

/// DIFF rising through zero in the stretch that ends at UPPER, with UPPER next to the zero and anywhere behind it; the
/// DIFFs from a few µm to the greatest that the limits allow.
pub fn area_rising_through_zero(chance: &mut Chance) -> Vec<String> {
    let load = wanted::load(chance);
    let greatest_arm = chance.pick(&[10, 1_000, 40_000]);
    let weight = chance.between(1, (greatest_arm * load.d).min(MOST_WEIGHT_MOMENT));
    let place = chance.below(9);
    let heeling_arm = arms::heeling_arm(weight, load.d, 0);
    let room = 49_000_000 - heeling_arm - arms::fluid_kg_arm(&load, place + 1);
    if room < 1 {
        return Vec::new();
    }
    let mut diffs = diffs_by_chance(chance, -50_000, room.min(50_000));
    diffs[0] = -heeling_arm;
    if place > 0 {
        diffs[place] = -chance.small(1, heeling_arm + 1);
    }
    let greatest = chance.pick(&[10, 1_000, 100_000, room]).min(room);
    diffs[place + 1] = chance.between(1, greatest);
    let step = ANGLES[place + 1] - ANGLES[place];
    let zero = ANGLES[place] + step * -diffs[place] / (diffs[place + 1] - diffs[place]);
    let rule = records::rule(chance);
    let mut lines = Vec::new();
    for flood in [zero, zero + 1, zero + 2, chance.between(zero, ANGLES[place + 1]), ANGLES[place + 1] - 1] {
        let ship = Ship { rule, edge: chance.odd(1, 9_000), flood: flood.clamp(1, 9_000) };
        judge_with_ship(&mut lines, ship, wanted::with_diffs(ship, load, weight, 900_000, &diffs));
    }
    lines
}

// ---- UPPER ----

/// FLOOD next to the peak, to the other angles and at 1; equal peaks, peaks 1 µm apart, and the peak at 0.
pub fn upper_at_the_peaks(chance: &mut Chance) -> Vec<String> {
    let load = wanted::load(chance);
    let weight = wanted::weight_moment_up_to(chance, 100_000, load.d);
    let mut diffs = match chance.below(3) {
        0 => diffs_by_chance(chance, -40_000, 400_000),
        1 => [-arms::heeling_arm(weight, load.d, 0); 10],
        _ => [chance.between(1, 400_000); 10],
    };
    let peak = diffs.iter().copied().max().unwrap_or(0);
    let (one, other) = (chance.below(9) + 1, chance.below(9) + 1);
    match chance.below(4) {
        0 => {
            diffs[one] = peak + 1;
            diffs[other] = peak + 1;
        }
        1 => {
            diffs[one] = peak + 1;
            diffs[other] = peak + 2;
        }
        2 => diffs = diffs.map(|diff| diff.min(0) - 1),
        _ => {}
    }
    let around = ANGLES[one];
    let mut lines = Vec::new();
    for flood in [around, around - 1, around + 1, 1, 9_000, ANGLES[other] - 1] {
        let ship = Ship { rule: records::rule(chance), edge: chance.odd(1, 9_000), flood: flood.max(1) };
        judge_with_ship(&mut lines, ship, wanted::with_diffs(ship, load, weight, 900_000, &diffs));
    }
    lines
}

/// EDGE next to 1,200 and to the table angles below it, under both rules, with UPPER below, at and above.
pub fn heel_limit_and_upper(chance: &mut Chance) -> Vec<String> {
    let load = wanted::load(chance);
    let weight = wanted::weight_moment_up_to(chance, 100_000, load.d);
    let diffs = diffs_by_chance(chance, -20_000, 200_000);
    let mut lines = Vec::new();
    for _ in 0..6 {
        let edge = (chance.pick(&[1, 500, 1_000, 1_200, 9_000]) + chance.between(-1, 1)).clamp(1, 9_000);
        let flood = (chance.pick(&[edge, 1_200, 1_000]) + chance.between(-1, 1)).clamp(1, 9_000);
        let ship = Ship { rule: records::rule(chance), edge, flood };
        judge_with_ship(&mut lines, ship, wanted::with_diffs(ship, load, weight, 900_000, &diffs));
    }
    lines
}

// ---- The greatest figures ----

/// Arms, areas and weight moments as great as the limits allow, above and below zero.
pub fn greatest_arms(chance: &mut Chance) -> Vec<String> {
    let (first_d, last_d) =
        chance.pick(&[(100, 101), (100, 102), (100, 400_000), (399_998, 400_000), (399_999, 400_000)]);
    let low = Column { d: first_d, km: chance.pick(&[1, 50_000]), kn: greatest_kn(chance) };
    let high = Column { d: last_d, km: chance.pick(&[1, 50_000]), kn: greatest_kn(chance) };
    let load = Load {
        d: chance.pick(&[first_d, first_d + 1, last_d - 1, last_d]),
        kg: chance.pick(&[1, 1, 50_000]),
        fs: chance.pick(&[0, 0, 10_000]),
    };
    let weight_moment = match chance.below(4) {
        0 => 0,
        1 => MOST_WEIGHT_MOMENT - chance.between(0, 2),
        2 => chance.between(1, 50_000 * load.d).min(MOST_WEIGHT_MOMENT),
        _ => chance.small(1, MOST_WEIGHT_MOMENT),
    };
    let condition = Wanted { ship: records::odd_ship(chance), low, high, load, weight_moment };
    let mut lines = condition.judged();
    for _ in 0..5 {
        let flood = if chance.one_in(2) {
            chance.pick(&[1, 499, 999, 1_199, 1_999, 3_999, 9_000])
        } else {
            chance.between(1, 4_000)
        };
        let edge = chance.pick(&[1, 499, 750, 1_199, 9_000]);
        lines.push(spelling::ship(&Ship { rule: records::rule(chance), edge, flood }));
        lines.push(JUDGE.to_string());
    }
    lines
}

/// Ten KN of 0 and 50,000, or close to 50,000 and rising, falling or level.
fn greatest_kn(chance: &mut Chance) -> [i128; 10] {
    let pattern = chance.below(5);
    let peak = chance.below(10);
    std::array::from_fn(|at| match pattern {
        _ if at == 0 => 0,
        0 => 49_991 + at as i128,
        1 => 50_000 - at as i128,
        2 => 50_000,
        3 => 50_000 * chance.between(0, 1),
        _ => 50_000 * i128::from(at == peak),
    })
}

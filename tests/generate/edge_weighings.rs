//! Limits of items and their sums: codes 26 and 27, KG next to whole ones, and loads that are weighed next to the limits
//! of GM and of the columns.

use crate::arms::LEAST_GM;
use crate::chance::Chance;
use crate::edge_arms;
use crate::records;
use crate::shape::{Column, Item, Load, Rule, Ship};
use crate::spelling::{self, CLEAR, JUDGE, TOTAL, UNWEIGH};
use crate::wanted;
use crate::weighings::{self, HIGHEST};
use crate::weights::{LEAST_TONNES, MOST_TONNES};

/// A clear, a ship and columns from 100 to 400,000 t between which GM and DIFF together tell D and KG. Up to 50,000 t KM
/// is 1 mm for each tonne, beyond that it falls by 0.1 mm for each.
fn ship_that_shows_a_load() -> Vec<String> {
    let mut lines = vec![CLEAR.to_string()];
    lines.push(spelling::ship(&Ship { rule: Rule::Old, edge: 9_000, flood: 9_000 }));
    for (d, km) in [(100, 100), (50_000, 50_000), (400_000, 15_000)] {
        lines.push(spelling::column(&Column { d, km, kn: [0; 10] }));
    }
    lines
}

/// The load weighed with this FS, and a judge.
fn weighed_and_judged(fs: i128) -> [String; 2] {
    [spelling::weighed(fs), JUDGE.to_string()]
}

/// A ship that shows a load, and a load weighed for it.
pub fn weighed_ship(chance: &mut Chance) -> Vec<String> {
    let mut lines = ship_that_shows_a_load();
    let load = records::odd_load(chance, &[]);
    lines.extend(weighings::weighing(chance, &load));
    lines
}

/// Loads weighed from items with these sums of tonnes and products, in an order by chance, each with a judge.
fn judged_weighings(chance: &mut Chance, sums: &[(i128, i128)]) -> Vec<String> {
    let mut lines = ship_that_shows_a_load();
    for (tonnes, products) in chance.shuffled(sums.to_vec()) {
        if (0..=HIGHEST * tonnes).contains(&products) {
            lines.push(UNWEIGH.to_string());
            lines.extend(weighings::weights_of(chance, tonnes, products));
            lines.extend(weighed_and_judged(chance.odd(0, 10_000)));
        }
    }
    lines
}

/// Weight lines of so many tonnes together, at heights by chance.
fn weights_of_tonnes(chance: &mut Chance, tonnes: i128) -> Vec<String> {
    let products = chance.between(0, HIGHEST * tonnes);
    weighings::weights_of(chance, tonnes, products)
}

/// T, H and FS: the line with `@` for the field, and the field's limits.
const FIELDS: [(&str, i128, i128); 3] =
    [("(weight @ 500)", 1, MOST_TONNES), ("(weight 500 @)", 0, HIGHEST), ("(weighed @)", 0, 10_000)];

/// One field at its limits, one beyond, and huge: without items, and with one that makes a load.
pub fn fields(chance: &mut Chance) -> Vec<String> {
    let (form, low, high) = chance.pick(&FIELDS);
    let mut values = vec![low, low + 1, high - 1, high, high + 1, high + 65_536, 999_999_999, 1_000_000_000];
    values.extend([low - 1, chance.between(low, high)]);
    values.retain(|&value| value >= 0);
    let mut lines = ship_that_shows_a_load();
    for value in chance.shuffled(values).into_iter().take(6) {
        let line = form.replace('@', &value.to_string());
        let own = Item { tonnes: LEAST_TONNES, height: chance.odd(0, HIGHEST) };
        lines.extend([UNWEIGH.to_string(), line.clone(), spelling::weight(&own), line, JUDGE.to_string()]);
        lines.extend(weighed_and_judged(0));
    }
    lines
}

/// Sums at and next to 400,000 t (26), and what is turned down there.
pub fn sums_at_the_most(chance: &mut Chance) -> Vec<String> {
    let mut lines = ship_that_shows_a_load();
    let left = if chance.one_in(2) { 1 } else { chance.small(1, 399_900) };
    lines.extend(weights_of_tonnes(chance, MOST_TONNES - left));
    lines.extend(weighed_and_judged(chance.odd(0, 10_000)));
    for tonnes in [left + 1, MOST_TONNES, chance.between(left + 1, MOST_TONNES)] {
        lines.push(spelling::weight(&Item { tonnes, height: chance.odd(0, HIGHEST) }));
        if chance.one_in(2) {
            // 20 comes before 26.
            let high = Item { tonnes, height: HIGHEST + chance.small(1, 10_000) };
            lines.push(spelling::weight(&high));
        }
        lines.extend(weighed_and_judged(chance.odd(0, 10_000)));
    }
    // Up to just 400,000, by one item or by two.
    let first = chance.between(1, left);
    for tonnes in [first, left - first, 1] {
        if tonnes > 0 {
            lines.push(spelling::weight(&Item { tonnes, height: chance.odd(0, HIGHEST) }));
            lines.extend(weighed_and_judged(chance.odd(0, 10_000)));
        }
    }
    lines.push(chance.pick(&[UNWEIGH, CLEAR]).to_string());
    lines.extend([spelling::weight(&Item { tonnes: left, height: 1 }), spelling::weighed(0), JUDGE.to_string()]);
    lines
}

/// Sums at and next to 100 t (27), now and then of a hundred items.
pub fn sums_at_the_least(chance: &mut Chance) -> Vec<String> {
    let mut lines = ship_that_shows_a_load();
    lines.extend(weighed_and_judged(0));
    if chance.one_in(2) {
        lines.push(spelling::load(&records::odd_load(chance, &[])));
    }
    let below = LEAST_TONNES - 1;
    if chance.one_in(4) {
        for _ in 0..below {
            lines.push(spelling::weight(&Item { tonnes: 1, height: chance.odd(0, HIGHEST) }));
        }
    } else {
        lines.extend(weights_of_tonnes(chance, below));
    }
    // 20 comes before 27.
    lines.push(spelling::weighed(chance.pick(&[10_001, 65_536, 999_999_999])));
    lines.extend(weighed_and_judged(chance.odd(0, 10_000)));
    for tonnes in [0, 1, 1] {
        lines.push(spelling::weight(&Item { tonnes, height: chance.odd(0, HIGHEST) }));
        lines.extend(weighed_and_judged(chance.odd(0, 10_000)));
    }
    lines.push(UNWEIGH.to_string());
    lines.extend(weighed_and_judged(0));
    lines
}

/// Products at a multiple of D, one and two beside it, and one before the next.
pub fn kg_next_to_whole(chance: &mut Chance) -> Vec<String> {
    let d = chance.odd(LEAST_TONNES, MOST_TONNES);
    let multiple = d * chance.odd(0, HIGHEST);
    let sums = [0, 1, -1, 2, d - 1, 1 - d].map(|by| (d, multiple + by));
    judged_weighings(chance, &sums)
}

/// The least and the greatest products: all heights 0, KG 1 and 2, KG 50,000 and 49,999.
pub fn kg_least_and_greatest(chance: &mut Chance) -> Vec<String> {
    let d = chance.odd(LEAST_TONNES, MOST_TONNES);
    let greatest = d * HIGHEST;
    let mut sums = vec![(d, 0), (d, 1), (d, d), (d, d + 1), (d, greatest), (d, greatest - d), (d, greatest - d + 1)];
    sums.push((MOST_TONNES, chance.pick(&[0, 1, HIGHEST * MOST_TONNES, HIGHEST * MOST_TONNES - 1])));
    judged_weighings(chance, &sums)
}

/// Products at and next to powers of two, where numbers of so many bits end. D is a power too, so that one more gives
/// another KG.
pub fn products_at_powers(chance: &mut Chance) -> Vec<String> {
    let mut sums = Vec::new();
    for exponent in [31, 32, chance.pick(&[16, 24, 33])] {
        let power = 1_i128 << exponent;
        let divides = |&d: &i128| (LEAST_TONNES..=MOST_TONNES).contains(&d) && power / d < HIGHEST;
        let divisors: Vec<i128> = (0..=exponent).map(|exponent| 1 << exponent).filter(divides).collect();
        let d = chance.pick(&divisors);
        sums.extend([power, power - 1, power + 1].map(|products| (d, products)));
    }
    judged_weighings(chance, &sums)
}

/// The ship weighed parcel by parcel: D one below the first column, at it and above it, and likewise at the last (33).
pub fn displacements_at_columns(chance: &mut Chance) -> Vec<String> {
    let count = 2 + chance.below(3);
    let columns = records::likely_columns(chance, count);
    let (first, last) = (columns[0].d, columns[count - 1].d);
    let load = records::likely_load(chance, &columns);
    let mut lines = vec![CLEAR.to_string(), spelling::ship(&records::likely_ship(chance))];
    lines.extend(columns.iter().map(spelling::column));
    lines.extend(weighings::weighing(chance, &Load { d: first - 1, ..load }));
    lines.push(JUDGE.to_string());
    for tonnes in [1, 1, last - first - 2, 1, 1] {
        lines.extend(weighings::weights_of(chance, tonnes, tonnes * load.kg));
        lines.extend(weighed_and_judged(load.fs));
    }
    lines
}

/// GM less than 1 mm above its limit (40) at this KG: whether the products are rounded up to it, or to one more, decides.
pub fn gm_at_the_limit(chance: &mut Chance) -> Vec<String> {
    let load = wanted::load(chance);
    let weight = wanted::weight_moment_up_to(chance, 100_000, load.d);
    let diffs = edge_arms::diffs_by_chance(chance, -20_000, 900_000);
    let gm = LEAST_GM + chance.pick(&[0, 0, 1, 999]);
    let Some(condition) = wanted::with_diffs(records::odd_ship(chance), load, weight, gm, &diffs) else {
        return Vec::new();
    };
    let mut lines = condition.judged();
    let (d, just) = (load.d, load.kg * load.d);
    for products in chance.shuffled(vec![just, just + 1, just - 1, just + d - 1, just + d, just - d + 1]) {
        lines.push(UNWEIGH.to_string());
        lines.extend(weighings::weights_of(chance, d, products));
        lines.extend(weighed_and_judged(load.fs));
    }
    lines
}

/// Lines that leave the items as they were, taken and turned down, each with the load weighed anew behind it; then all
/// items are removed.
pub fn items_that_stay(chance: &mut Chance) -> Vec<String> {
    let columns = records::likely_columns(chance, 2);
    let load = records::likely_load(chance, &columns);
    let mut lines = vec![CLEAR.to_string(), spelling::ship(&records::likely_ship(chance))];
    lines.extend(columns.iter().map(spelling::column));
    lines.push("(hold 7 partial 12500 (part 9000 12000 3000 6000))".to_string());
    lines.extend(weighings::weighing(chance, &load));
    lines.push(JUDGE.to_string());
    let mut others = lines_that_are_taken(chance, &columns);
    others.extend(lines_that_are_turned_down(chance, &columns, &load));
    for line in chance.shuffled(others).into_iter().take(14) {
        lines.push(line);
        lines.extend(weighed_and_judged(load.fs));
    }
    lines.push(chance.pick(&[UNWEIGH, CLEAR]).to_string());
    for tonnes in [LEAST_TONNES - 1, 1] {
        lines.extend(weighed_and_judged(load.fs));
        lines.push(spelling::weight(&Item { tonnes, height: load.kg }));
    }
    lines.extend(weighed_and_judged(load.fs));
    lines
}

/// Lines that change something else than the items, or nothing.
fn lines_that_are_taken(chance: &mut Chance, columns: &[Column]) -> Vec<String> {
    let last = columns[columns.len() - 1];
    let load = spelling::load(&records::likely_load(chance, columns));
    let mut lines = vec![
        spelling::ship(&records::odd_ship(chance)),
        spelling::column(&Column { d: last.d + 1, ..last }),
        spelling::hold(&records::likely_hold(chance)),
        spelling::weighed(chance.odd(0, 10_000)),
        format!("(show {load})"),
        load,
    ];
    lines.extend(["(drop 7)", "(show (clear))", "(show (drop 7))", JUDGE, TOTAL].map(str::to_string));
    lines
}

/// Lines that are turned down behind this load, some of which would have added or removed items.
fn lines_that_are_turned_down(chance: &mut Chance, columns: &[Column], load: &Load) -> Vec<String> {
    let too_heavy = Item { tonnes: MOST_TONNES - load.d + chance.small(1, load.d), height: load.kg };
    let mut lines = vec![spelling::column(&columns[0]), spelling::weight(&too_heavy)];
    let empty = chance.pick(&[1, 6, 8, 16]);
    lines.push(spelling::drop(empty));
    lines.extend(weighings::OUT_OF_LIMITS.map(str::to_string));
    lines.extend(["(unweigh 1)", "(unweigh", "(show (unweigh))", "(clear 1)", "(clear"].map(str::to_string));
    lines
}

/// Lines that are nearly a weight, a weighed or an unweigh, each with the load weighed anew behind it.
pub fn turned_down(chance: &mut Chance) -> Vec<String> {
    let mut lines = weighed_ship(chance);
    for _ in 0..6 {
        lines.push(weighings::turned_down(chance));
        lines.extend(weighed_and_judged(chance.odd(0, 10_000)));
    }
    lines
}

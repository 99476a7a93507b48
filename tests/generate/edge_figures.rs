//! Limits of single figures, of counts, and of columns: codes 14, 20, 22, 23 and 33.

use crate::chance::Chance;
use crate::records;
use crate::shape::{Column, Load};
use crate::spelling::{self, CLEAR, JUDGE};
use crate::wanted;

/// Every field of every form: the form with `@` for the field, and the field's limits. The other figures are such
/// that the record is taken when the field is within its limits.
const FIELDS: [(&str, i128, i128); 35] = [
    ("(ship new @ 3500)", 1, 9_000),
    ("(ship old @ 3500)", 1, 9_000),
    ("(ship new 1430 @)", 1, 9_000),
    ("(ship old 1430 @)", 1, 9_000),
    ("(column @ 9000 (0 870 1740 2080 2600 3450 4300 5100 5850 6500))", 100, 400_000),
    ("(column 400000 @ (0 870 1740 2080 2600 3450 4300 5100 5850 6500))", 1, 50_000),
    ("(column 400000 9000 (@ 870 1740 2080 2600 3450 4300 5100 5850 6500))", 0, 0),
    ("(column 400000 9000 (0 @ 1740 2080 2600 3450 4300 5100 5850 6500))", 0, 50_000),
    ("(column 400000 9000 (0 870 1740 2080 @ 3450 4300 5100 5850 6500))", 0, 50_000),
    ("(column 400000 9000 (0 870 1740 2080 2600 3450 4300 5100 5850 @))", 0, 50_000),
    ("(load @ 8000 100)", 100, 400_000),
    ("(load 100 @ 100)", 1, 50_000),
    ("(load 100 8000 @)", 0, 10_000),
    ("(hold @ trimmed 12500 (part 10 (void 1000 50 5000)))", 1, 16),
    ("(hold 2 voided @ (part 10 (void 1000 50 5000)))", 5_000, 40_000),
    ("(hold 2 trimmed 12500 (part @ (void 1000 50 5000)))", 1, 60_000),
    ("(hold 2 trimmed 12500 (part 10 (wing @ 4000 600 10000)))", 1, 40_000),
    ("(hold 2 trimmed 12500 (part 10 (wing 1000 @ 600 10000)))", 0, 20_000),
    ("(hold 2 trimmed 12500 (part 10 (wing 1000 4000 @ 10000)))", 0, 3_000),
    ("(hold 2 trimmed 12500 (part 10 (wing 1000 4000 600 @) (void 1000 0 10000)))", 0, 10_000),
    ("(hold 2 voided 12500 (part 10 (hatch @ 100 10000)))", 1, 40_000),
    ("(hold 2 voided 12500 (part 10 (hatch 1000 @ 10000)))", 0, 3_000),
    ("(hold 2 voided 12500 (part 10 (hatch 1000 100 @) (void 1000 0 10000)))", 0, 10_000),
    ("(hold 2 trimmed 12500 (part 10 (void @ 50 10000)))", 1, 40_000),
    ("(hold 2 trimmed 12500 (part 10 (void 1000 @ 10000)))", 0, 5_000),
    ("(hold 2 trimmed 12500 (part 10 (void 1000 50 @) (void 1000 0 10000)))", 0, 10_000),
    ("(hold 2 partial 12500 (part @ 10 3000 6000))", 1, 60_000),
    ("(hold 2 partial 12500 (part 10 @ 3000 6000))", 1, 40_000),
    ("(hold 2 partial 12500 (part 10 5000 @ 6000))", 1, 30_000),
    ("(hold 2 partial 12500 (part 10 5000 3000 @))", 1, 30_000),
    ("(hold 2 partial 12500 (split @ 1 3000 6000))", 1, 60_000),
    ("(hold 2 partial 12500 (split 9000 @ 3000 6000))", 1, 9_000),
    ("(hold 2 partial 12500 (split 9000 4000 @ 6000))", 1, 34_000),
    ("(hold 2 partial 12500 (split 9000 4000 3000 @))", 1, 37_000),
    ("(drop @)", 1, 16),
];

/// One field at its limits, one beyond, and huge.
pub fn field_limits(chance: &mut Chance) -> Vec<String> {
    let (form, low, high) = chance.pick(&FIELDS);
    let mut values = vec![low, low + 1, high - 1, high, high + 1, high + 65_536, 999_999_999, 1_000_000_000];
    values.push(low - 1);
    values.push(chance.between(low, high));
    values.retain(|&value| value >= 0);
    let mut lines = wanted::condition_that_shows_weight().lines();
    while !values.is_empty() {
        let value = values.swap_remove(chance.below(values.len()));
        lines.push(form.replace('@', &value.to_string()));
        lines.push(JUDGE.to_string());
    }
    lines
}

/// Numbers of parts, cells and KN, and widths together, at and beyond their limits.
pub fn counts(chance: &mut Chance) -> Vec<String> {
    let mut lines = wanted::condition_that_shows_weight().lines();
    let mode = chance.pick(&["trimmed", "voided", "partial"]);
    let cells = |count: usize| "(void 100 5 60)".repeat(count);
    let slack = chance.pick(&["(part 300 900 1 1)", "(split 300 200 400 500)"]);
    let part = |count: usize| {
        if mode == "partial" {
            slack.to_string()
        } else {
            format!("(part 300 {})", cells(count))
        }
    };
    for parts in [0, 1, 6, 7, 12] {
        let several = part(1 + chance.below(8)).repeat(parts);
        lines.push(format!("(hold 3 {mode} 12500 {several})"));
        lines.push(JUDGE.to_string());
    }
    for count in [0, 1, 8, 9, 16] {
        let place = chance.below(6);
        let mut several: Vec<String> = (0..6).map(|_| part(2)).collect();
        several[place] = format!("(part 300 {})", cells(count));
        lines.push(format!("(hold 3 {mode} 12500 {})", several.join("")));
        lines.push(JUDGE.to_string());
    }
    for together in [39_999, 40_000, 40_001, 80_000] {
        let first = chance.between(1, 20_000);
        let second = chance.between(1, 19_000);
        let last = (together - first - second).min(40_000);
        lines.push(format!(
            "(hold 4 trimmed 12500 (part 7 (void {first} 1 0) (hatch {second} 1 0) (void {last} 1 10000)))"
        ));
        lines.push(JUDGE.to_string());
    }
    for kn in [0, 9, 10, 11] {
        lines.push(format!("(column 300000 9000 (0 {}))", vec!["5"; kn].join(" ")));
    }
    lines
}

/// D at each column, one beside it, and one outside the first and the last (33).
pub fn displacements_at_columns(chance: &mut Chance) -> Vec<String> {
    let count = 2 + chance.below(6);
    let columns = records::likely_columns(chance, count);
    let mut lines = vec![CLEAR.to_string(), spelling::ship(&records::odd_ship(chance))];
    lines.extend(columns.iter().map(spelling::column));
    lines.push(spelling::hold(&records::likely_hold(chance)));
    let load = records::likely_load(chance, &columns);
    let last = columns[columns.len() - 1].d;
    let any = columns[chance.below(count)].d;
    for d in [columns[0].d, columns[0].d - 1, columns[0].d + 1, last, last + 1, last - 1, any, any + 1, any - 1] {
        lines.push(spelling::load(&Load { d, ..load }));
        lines.push(JUDGE.to_string());
    }
    lines
}

/// Nineteen columns, the twentieth, and more (23), with D too low and figures out of their limits among them.
pub fn twenty_columns(chance: &mut Chance) -> Vec<String> {
    let first = chance.between(100, 300_000);
    let column = |place: i128| Column { d: first + place, km: 9_000 + place, kn: [0; 10] };
    let mut lines = vec![CLEAR.to_string(), spelling::ship(&records::odd_ship(chance))];
    lines.push(spelling::load(&Load { d: first + 19, kg: 100, fs: 0 }));
    for place in 0..19 {
        lines.push(spelling::column(&column(place)));
    }
    lines.push(JUDGE.to_string());
    lines.push(spelling::column(&column(18)));
    lines.push(spelling::column(&column(19)));
    lines.push(JUDGE.to_string());
    lines.push(spelling::column(&column(20)));
    lines.push(spelling::column(&column(5)));
    lines.push(spelling::column(&Column { km: 0, ..column(5) }));
    lines.push(JUDGE.to_string());
    lines
}

/// D of a new column equal to the last one's, one below and one above.
pub fn columns_not_above(chance: &mut Chance) -> Vec<String> {
    let mut lines = vec![CLEAR.to_string(), spelling::ship(&records::odd_ship(chance))];
    let mut d = chance.odd(100, 400_000);
    lines.push(spelling::load(&Load { d, kg: 500, fs: 0 }));
    let column = |d: i128, km: i128| spelling::column(&Column { d, km, kn: [0; 10] });
    lines.push(column(d, 900));
    for by in [0, -1, 1, 0, -1, 50, 49, 51] {
        let next = (d + by).clamp(99, 400_001);
        lines.push(column(next, 1_000 + by));
        lines.push(JUDGE.to_string());
        if next > d && next <= 400_000 {
            d = next;
        }
    }
    lines
}

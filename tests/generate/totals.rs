//! Total lines: behind lines that change the holds or might have, and those that are turned down.

use crate::chance::Chance;
use crate::spelling::{JUDGE, TOTAL};

/// Lines that are nearly a total, and totals in the wrong place: 11 to 14.
const NO_TOTAL: [&str; 40] = [
    "(total 1)",
    "(total 0)",
    "(total 999999999)",
    "(total 1 2)",
    "(total a)",
    "(total total)",
    "(total judge)",
    "(total a1)",
    "(total ())",
    "(total (1))",
    "(total (total))",
    "(total (judge))",
    "(total (hold 1 partial 12500 (part 1 1 1 1)))",
    "(total (a (b (c))))",
    "(total (a (b (c (d)))))",
    "((total))",
    "((((total))))",
    "(((((total)))))",
    "((total) 1)",
    "(1 total)",
    "(total1)",
    "(totals)",
    "(tota)",
    "(ttotal)",
    "(to tal)",
    "(judge total)",
    "(clear total)",
    "(clear (total))",
    "(drop total)",
    "(show (total))",
    "(show total)",
    "(show (total 1))",
    "(show (total) (judge))",
    "(show (show (total)))",
    "(total 01)",
    "(total 1000000000)",
    "(total 1a)",
    "(total) (total)",
    "(total))",
    "(Total)",
];

/// The lines of a lot with total lines behind some of them: behind one in so many that are about holds, taken or not,
/// and seldom behind others. Now and then a line about holds is shown before it is sent, or a line that is nearly a
/// total stands before one. No condition changes by that.
pub fn with_totals(chance: &mut Chance, lines: Vec<String>, one_in: usize) -> Vec<String> {
    let mut all = Vec::new();
    for line in lines {
        let about_holds = ["(hold", "(drop", "(clear"].iter().any(|begins| line.starts_with(begins));
        let is_followed = if about_holds {
            chance.one_in(one_in)
        } else if line == JUDGE {
            chance.one_in(6)
        } else {
            chance.one_in(30)
        };
        if about_holds && chance.one_in(12) {
            all.extend([format!("(show {line})"), TOTAL.to_string()]);
        }
        all.push(line);
        if is_followed {
            if chance.one_in(20) {
                all.push(turned_down(chance));
            }
            all.push(TOTAL.to_string());
        }
    }
    all
}

/// A line that is nearly a total, or a total in the wrong place.
pub fn turned_down(chance: &mut Chance) -> String {
    chance.pick(&NO_TOTAL).to_string()
}

//! Conditions made to measure: holds of a wanted total weight moment, columns with wanted arms.

use crate::arms::{self, Diffs, Verdict};
use crate::chance::Chance;
use crate::grain;
use crate::rounding::rounded_up;
use crate::shape::{Cell, Column, Hold, Load, Mode, Part, Rule, Ship};
use crate::spelling;

/// A complete condition; the judge's figures follow from it.
#[derive(Clone, Debug)]
pub struct Wanted {
    pub ship: Ship,
    pub low: Column,
    pub high: Column,
    pub load: Load,
    /// W, the total weight moment.
    pub weight_moment: i128,
}

impl Wanted {
    pub fn verdict(&self) -> Verdict {
        arms::verdict(&self.ship, (&self.low, &self.high), &self.load, self.weight_moment)
    }

    /// A clear and the lines of the condition, but for a judge.
    pub fn lines(&self) -> Vec<String> {
        let mut lines = vec![
            spelling::CLEAR.to_string(),
            spelling::ship(&self.ship),
            spelling::column(&self.low),
            spelling::column(&self.high),
            spelling::load(&self.load),
        ];
        lines.extend(holds_of_weight(self.weight_moment).iter().map(spelling::hold));
        lines
    }

    /// The lines and a judge.
    pub fn judged(&self) -> Vec<String> {
        let mut lines = self.lines();
        lines.push(spelling::JUDGE.to_string());
        lines
    }
}

/// A depth of void and of grain that the 25 degree line does not reach at any breadth.
pub const DEEP: i128 = 10_000;

/// A heavy part of a partial hold: the longest and broadest, not cut by deck or floor.
const HEAVY: Part = Part::PartlyFilled { length: 60_000, breadth: 40_000, void: DEEP, grain: DEEP };

/// Partial holds from heavy to less heavy: how many heavy parts, and the stowage factor.
const HEAVY_HOLDS: [(usize, i128); 3] = [(6, 5_000), (6, 10_000), (1, 10_000)];

/// Sections from heavy to light; the last is below 10⁹ mm³, so that one more mm of length adds at most 1 kg·m.
pub const SECTIONS: [Cell; 4] = [
    Cell::Void { width: 40_000, depth: 4_650, lip: 10_000 },
    Cell::Void { width: 40_000, depth: 1_000, lip: 10_000 },
    Cell::Void { width: 10_000, depth: 500, lip: 5_000 },
    Cell::Void { width: 4_000, depth: 100, lip: 1_000 },
];

/// Holds whose weight moments together are exactly this, numbered from 1; up to 18,000,000,000 there are at most sixteen.
pub fn holds_of_weight(total: i128) -> Vec<Hold> {
    let mut holds = Vec::new();
    let mut rest = total;
    for (count, sf) in HEAVY_HOLDS {
        let heavy = Hold { n: 0, mode: Mode::Partial, sf, parts: vec![HEAVY; count] };
        let heavy_weight = grain::weight_moment(&heavy).expect("a partial hold always fits");
        while rest > heavy_weight {
            holds.push(Hold { n: holds.len() as i128 + 1, ..heavy.clone() });
            rest -= heavy_weight;
        }
    }
    let mut parts = Vec::new();
    for cell in SECTIONS {
        let section = grain::section_moment(&[cell]).expect("the lip is high enough");
        // Two parts of each section, since one may be too short. The light ones make up what the heavy ones leave.
        for _ in 0..2 {
            let length = (rest * 1_000_000_000 / section).min(60_000);
            if length > 0 {
                rest -= rounded_up(section * length, 1_000_000_000);
                parts.push(Part::Section { length, cells: vec![cell] });
            }
        }
    }
    while !parts.is_empty() {
        let rest_of_parts = parts.split_off(parts.len().min(6));
        holds.push(Hold { n: holds.len() as i128 + 1, mode: Mode::Trimmed, sf: 10_000, parts });
        parts = rest_of_parts;
    }
    let reached: i128 = holds.iter().filter_map(grain::weight_moment).sum();
    assert_eq!(reached, total, "holds of a wanted weight moment");
    holds
}

/// How far the wanted columns lie apart; the load lies 1 t above the first. KN in µm is then 1,000 × the first
/// column's figure plus the difference to the second's, so that every µm can be had.
const APART: i128 = 1_000;

/// The figures of the two columns that give this many µm at the load.
fn pair_of_figures(micrometres: i128) -> Option<(i128, i128)> {
    let first = micrometres.div_euclid(1_000);
    let second = first + micrometres.rem_euclid(1_000);
    let possible = first >= 0 && second <= 50_000;
    possible.then_some((first, second))
}

/// A condition with exactly these DIFFs and this GM, if the limits allow it. DIFF at 0 degrees is not free: it is
/// the heeling arm below zero.
pub fn with_diffs(ship: Ship, load: Load, weight_moment: i128, gm: i128, wanted: &Diffs) -> Option<Wanted> {
    let mut low = Column { d: load.d - 1, km: 0, kn: [0; 10] };
    let mut high = Column { d: load.d - 1 + APART, km: 0, kn: [0; 10] };
    (low.km, high.km) = pair_of_figures(gm + 1_000 * (load.kg + load.fs))?;
    if low.km == 0 || low.d < 100 || high.d > 400_000 {
        return None;
    }
    for at in 1..10 {
        let kn = wanted[at] + arms::fluid_kg_arm(&load, at) + arms::heeling_arm(weight_moment, load.d, at);
        (low.kn[at], high.kn[at]) = pair_of_figures(kn)?;
    }
    let condition = Wanted { ship, low, high, load, weight_moment };
    let reached = arms::diffs((&condition.low, &condition.high), &load, weight_moment);
    assert_eq!(reached[1..], wanted[1..], "columns with wanted arms");
    Some(condition)
}

/// A load for wanted columns, with a KG that leaves room for them.
pub fn load(chance: &mut Chance) -> Load {
    Load { d: chance.small(2_000, 398_000), kg: chance.between(100, 20_000), fs: chance.odd(0, 10_000) }
}

/// A weight moment whose heeling arm at 0 degrees is at most this many µm.
pub fn weight_moment_up_to(chance: &mut Chance, arm: i128, d: i128) -> i128 {
    if chance.one_in(4) {
        return 0;
    }
    chance.between(0, (arm * d / 1_000).min(900_000_000))
}

/// A ship, two columns 1 t apart and a load of 100 t under which the DIFF shown tells W to the kg·m.
pub fn condition_that_shows_weight() -> Wanted {
    let column =
        |d: i128| Column { d, km: 9_000, kn: [0, 870, 1_740, 2_080, 2_600, 3_450, 4_300, 5_100, 5_850, 6_500] };
    Wanted {
        ship: Ship { rule: Rule::Old, edge: 9_000, flood: 9_000 },
        low: column(100),
        high: column(101),
        load: Load { d: 100, kg: 1, fs: 0 },
        weight_moment: 0,
    }
}

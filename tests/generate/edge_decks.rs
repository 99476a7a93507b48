//! Limits of partly filled sections: the line next to deck and floor, bases and moments next to whole ones.

use crate::chance::Chance;
use crate::deck::{self, Lie};
use crate::records::depth_reached;
use crate::search::least_that_holds;
use crate::shape::{Hold, Mode, Part};
use crate::spelling::{self, JUDGE, TOTAL};
use crate::wanted;

/// Breadth, and the depths of void and grain, the one and the other of them.
type Section = (i128, i128, i128);

const BROADEST: i128 = 40_000;
const DEEPEST: i128 = 30_000;
const LONGEST: i128 = 60_000;
/// mm⁴ in a thousandth of m⁴.
const THOUSANDTH: u64 = 1_000_000_000;
/// The void or grain with which the broadest section has the greatest moment of all, for what its base is rounded down.
const HEAVIEST: i128 = 9_322;

/// Those of these sections that are within the limits, each with a judge, as the last part of hold 2 under the
/// condition that shows its weight. Either depth may be that of the void.
fn judged_decks(chance: &mut Chance, sections: &[Section]) -> Vec<String> {
    let mut lines = wanted::condition_that_shows_weight().lines();
    let before = chance.below(6);
    for &(breadth, one, other) in sections {
        let within = |size: i128, most: i128| (1..=most).contains(&size);
        if !within(breadth, BROADEST) || !within(one, DEEPEST) || !within(other, DEEPEST) {
            continue;
        }
        let (void, grain) = chance.pick(&[(one, other), (other, one)]);
        let length = telling_length(chance, deck::section_moment(breadth, void, grain));
        let mut parts = vec![Part::PartlyFilled { length: 1, breadth: 1, void: 1, grain: 1 }; before];
        parts.push(Part::PartlyFilled { length, breadth, void, grain });
        lines.push(spelling::hold(&Hold { n: 2, mode: Mode::Partial, sf: 10_000, parts }));
        lines.push(JUDGE.to_string());
    }
    lines
}

/// A length with which a section moment 1 mm³ greater, or 1 mm³ less, gives another part, if there is one. A part is
/// rounded up to thousandths of m⁴, so that most lengths do not tell.
fn telling_length(chance: &mut Chance, section_moment: i128) -> i128 {
    let rest = (section_moment % i128::from(THOUSANDTH)) as u64;
    let first = chance.between(1, LONGEST) as u64;
    let greater = chance.one_in(2);
    let tells = |length: &u64| {
        let rest = rest * length % THOUSANDTH;
        if greater {
            (THOUSANDTH - rest) % THOUSANDTH < *length
        } else {
            (1..=*length).contains(&rest)
        }
    };
    (first..=LONGEST as u64).chain(1..first).find(tells).map_or(LONGEST, i128::from)
}

/// Depths next to half the breadth times the slope, where the line begins to reach deck or floor.
pub fn depths_at_the_reach(chance: &mut Chance) -> Vec<String> {
    let mut sections = Vec::new();
    for _ in 0..2 {
        let breadth = chance.odd(1, BROADEST);
        let reached = depth_reached(breadth);
        let other = chance.between(reached + 1, DEEPEST);
        sections.extend([reached - 1, reached, reached + 1, reached + 2].map(|one| (breadth, one, other)));
        // The greatest breadth at which the line does not reach this depth, and the next ones.
        let depth = chance.between(1, depth_reached(BROADEST));
        let other = chance.small(depth + 1, DEEPEST);
        let broadest = 200_000 * depth / 46_631;
        sections.extend([broadest, broadest + 1, broadest - 1].map(|breadth| (breadth, depth, other)));
    }
    judged_decks(chance, &sections)
}

/// Triangles that just have the height, and just not: then the line goes from deck to floor.
pub fn triangles_at_the_height(chance: &mut Chance) -> Vec<String> {
    let mut sections = Vec::new();
    for _ in 0..3 {
        let breadth = if chance.one_in(4) { BROADEST } else { chance.between(5, BROADEST) };
        let one = chance.small(1, depth_reached(breadth));
        let is_triangle = |other: i128| deck::lie(breadth, one, other) != Lie::NoTriangle;
        let Some(other) = least_that_holds(one, DEEPEST, is_triangle) else { continue };
        sections.extend([other, other - 1, other + 1].map(|other| (breadth, one, other)));
        sections.extend([one - 1, one + 1].map(|one| (breadth, one, other)));
        // The greatest breadth with the same depths, and the next one.
        let broadest = 100_000 * (one + other) * (one + other) / (93_262 * one);
        sections.extend([broadest, broadest + 1].map(|breadth| (breadth, one, other)));
    }
    judged_decks(chance, &sections)
}

/// Void and grain alike, which never lie as triangles, and next to that; next to the line's reach too.
pub fn void_and_grain_alike(chance: &mut Chance) -> Vec<String> {
    let breadth = chance.odd(5, BROADEST);
    let reached = depth_reached(breadth);
    let less = chance.small(1, reached);
    let more = chance.between(reached + 1, DEEPEST);
    let mut sections = Vec::new();
    for depth in [reached, reached + 1, less, more] {
        sections.extend([(breadth, depth, depth), (breadth, depth, depth + 1)]);
    }
    sections.extend([breadth - 1, breadth + 1].map(|breadth| (breadth, reached, reached)));
    let just_reached = 200_000 * less / 46_631;
    sections.extend([just_reached, just_reached + 1].map(|breadth| (breadth, less, less)));
    judged_decks(chance, &sections)
}

/// Triangles with an area next to one whose base is a whole number; with a base of whole metres it is just that.
pub fn bases_at_whole_mm(chance: &mut Chance) -> Vec<String> {
    let mut sections = Vec::new();
    for _ in 0..4 {
        let base = if chance.one_in(2) { 1_000 * chance.between(1, 38) } else { chance.small(2, 38_000) };
        let least = (46_631 * base * base + 199_999) / 200_000;
        for area in [least, least - 1, least + 1] {
            sections.extend(triangle_with(chance, base, area));
        }
    }
    judged_decks(chance, &sections)
}

/// A section in which this area lies as a triangle of this base, if whole numbers give it.
fn triangle_with(chance: &mut Chance, base: i128, area: i128) -> Option<Section> {
    let breadths: Vec<i128> = (base + 1..=BROADEST).filter(|breadth| area % breadth == 0).collect();
    if area < 1 || breadths.is_empty() {
        return None;
    }
    let breadth = chance.pick(&breadths);
    let one = area / breadth;
    let least = least_that_holds(0, DEEPEST, |other| deck::lie(breadth, one, other) == Lie::VoidTriangle)?;
    let other = if chance.one_in(2) { least } else { chance.between(least, DEEPEST) };
    Some((breadth, one, other))
}

/// Moments that divide without rest and next to that. Those of a line from deck to floor always leave a rest: the least
/// and the greatest of many.
pub fn moments_without_rest(chance: &mut Chance) -> Vec<String> {
    let mut sections = Vec::new();
    // slope × B³/12 is whole where the breadth is a multiple of 600.
    let breadth = 600 * chance.between(1, 66);
    sections.extend([0, 1, -1].map(|by| (breadth + by, wanted::DEEP, wanted::DEEP)));
    sections.extend(triangles_with_each_rest(chance));
    let mut cut: Vec<Section> = (0..200).filter_map(|_| section_from_deck_to_floor(chance)).collect();
    cut.sort_by_key(|&section| rest_in_millionths(section));
    sections.extend(cut.first().into_iter().chain(cut.last()));
    judged_decks(chance, &sections)
}

/// Triangles whose moments leave each of the six rests that a sixth can leave, as far as they are soon found.
fn triangles_with_each_rest(chance: &mut Chance) -> Vec<Section> {
    let mut found = [None; 6];
    for _ in 0..40 {
        let breadth = chance.between(5, BROADEST);
        let reached = depth_reached(breadth);
        let section = (breadth, chance.between(1, reached), chance.between(reached + 1, DEEPEST));
        let (sixths, _) = unrounded_moment(section);
        found[sixths as usize % 6] = Some(section);
    }
    found.into_iter().flatten().collect()
}

/// A section by chance whose line goes from deck to floor.
fn section_from_deck_to_floor(chance: &mut Chance) -> Option<Section> {
    let breadth = chance.between(5, BROADEST);
    let reached = depth_reached(breadth);
    let (one, other) = (chance.between(1, reached), chance.between(1, reached));
    (deck::lie(breadth, one, other) == Lie::NoTriangle).then_some((breadth, one, other))
}

fn unrounded_moment((breadth, one, other): Section) -> (i128, i128) {
    deck::unrounded_moment(breadth, one, other)
}

/// What a moment has above a whole number before it is rounded up, in millionths.
fn rest_in_millionths(section: Section) -> i128 {
    let (numerator, denominator) = unrounded_moment(section);
    numerator % denominator * 1_000_000 / denominator
}

/// Sections as broad, deep, narrow and flat as the limits allow, and the depths that matter in the broadest.
pub fn greatest_and_least_sizes(chance: &mut Chance) -> Vec<String> {
    let reached = depth_reached(BROADEST);
    let mut sections = Vec::new();
    for _ in 0..8 {
        let breadth = chance.pick(&[1, 2, 3, 4, 5, BROADEST - 1, BROADEST, BROADEST]);
        let mut depth = || chance.pick(&[1, 2, 3, HEAVIEST, reached, reached + 1, 2 * reached, DEEPEST - 1, DEEPEST]);
        sections.push((breadth, depth(), depth()));
    }
    let mut lines = judged_decks(chance, &sections);
    // Six of one section, the longest, at the least stowage factor and at the greatest.
    let (breadth, void, grain) = chance.pick(&sections);
    let parts = vec![Part::PartlyFilled { length: LONGEST, breadth, void, grain }; 6];
    for sf in [5_000, 40_000] {
        lines.push(spelling::hold(&Hold { n: 2, mode: Mode::Partial, sf, parts: parts.clone() }));
        // Of a weight moment that gives 34 the total alone tells how great it is.
        lines.extend([JUDGE, TOTAL].map(str::to_string));
    }
    lines
}

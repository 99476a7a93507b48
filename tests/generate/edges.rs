//! Figures next to each limit of the papers, most of them followed by a judge that shows what came of them.

use crate::chance::Chance;
use crate::edge_arms;
use crate::edge_decks;
use crate::edge_figures;
use crate::edge_splits;
use crate::edge_totals;
use crate::edge_voids;
use crate::edge_weighings;
use crate::shows;
use crate::spelling;
use crate::totals;
use crate::weighings;

type Family = fn(&mut Chance) -> Vec<String>;

/// Single fields have a greater share, since there are many of them.
const FAMILIES: [Family; 60] = [
    edge_figures::field_limits,
    edge_figures::field_limits,
    edge_figures::field_limits,
    edge_figures::counts,
    edge_arms::gm_at_the_limit,
    edge_arms::gm_between_columns,
    edge_arms::diff_at_the_heel_limit,
    edge_arms::diff_at_the_heel_limit_by_weight,
    edge_arms::diff_above_the_heel_limit,
    edge_arms::diff_above_the_heel_limit_by_weight,
    edge_arms::diff_at_upper,
    edge_arms::area_at_the_limit,
    edge_arms::area_at_the_limit_by_weight,
    edge_arms::area_rising_through_zero,
    edge_arms::upper_at_the_peaks,
    edge_arms::heel_limit_and_upper,
    edge_voids::weight_moments_at_the_limit,
    edge_voids::voids_that_just_fit,
    edge_voids::areas_equal_to_the_most_held,
    edge_voids::lips_at_the_slope,
    edge_voids::triangles_and_trapeziums,
    edge_voids::bases_at_whole_roots,
    edge_voids::wing_depths,
    edge_voids::wings_next_to_the_most_held,
    edge_voids::roundings_up,
    edge_decks::depths_at_the_reach,
    edge_decks::triangles_at_the_height,
    edge_decks::void_and_grain_alike,
    edge_decks::bases_at_whole_mm,
    edge_decks::moments_without_rest,
    edge_decks::greatest_and_least_sizes,
    edge_splits::numbers_at_their_limits,
    edge_splits::numbers_at_their_limits,
    edge_splits::runs_at_the_deduction,
    edge_splits::runs_as_long_as_the_part,
    edge_splits::boards_without_effect,
    edge_splits::moments_next_to_a_thousandth,
    edge_splits::splits_beside_parts,
    edge_splits::greatest_and_least_sizes,
    edge_splits::turned_down,
    edge_figures::displacements_at_columns,
    edge_figures::twenty_columns,
    edge_figures::columns_not_above,
    edge_arms::greatest_arms,
    edge_voids::greatest_sections,
    edge_totals::totals_at_powers,
    edge_totals::sixteen_holds,
    edge_totals::replaced_by_one_more,
    edge_totals::totals_that_stay,
    edge_totals::totals_turned_down,
    edge_weighings::fields,
    edge_weighings::sums_at_the_most,
    edge_weighings::sums_at_the_least,
    edge_weighings::kg_next_to_whole,
    edge_weighings::kg_least_and_greatest,
    edge_weighings::products_at_powers,
    edge_weighings::displacements_at_columns,
    edge_weighings::gm_at_the_limit,
    edge_weighings::items_that_stay,
    edge_weighings::turned_down,
];

/// The lines of one family of limits.
pub fn edge(chance: &mut Chance) -> Vec<Vec<u8>> {
    let family = chance.pick(&FAMILIES);
    let lines = family(chance);
    let lines = weighings::in_place_of_loads(chance, lines, 8);
    let lines = totals::with_totals(chance, lines, 4);
    let lines = lines.iter().map(|line| spelling::respaced(chance, line)).collect();
    shows::with_shows(chance, lines)
}

//! Valid lines in runs, as a mate would send them, and odd ones, reaching every code; 10 to 13 seldom.

use crate::chance::Chance;
use crate::damage;
use crate::records;
use crate::shape::Column;
use crate::shows;
use crate::spelling::{self, CLEAR, JUDGE, UNWEIGH};
use crate::splits;
use crate::totals;
use crate::weighings;

/// One run: most often a clear, a ship with its columns, load and holds, then changes with judges between them.
pub fn run(chance: &mut Chance) -> Vec<Vec<u8>> {
    let mut lines = Vec::new();
    if !chance.one_in(6) {
        lines.push(CLEAR.to_string());
    }
    let likely = chance.percent(60);
    let columns = columns(chance, likely);
    let mut records = Vec::new();
    if !chance.one_in(15) {
        records.push(ship(chance, likely));
    }
    records.extend(columns.iter().map(spelling::column));
    if !chance.one_in(15) {
        // Now and then the load comes before ship and columns.
        let place = if chance.one_in(6) { 0 } else { records.len() };
        records.splice(place..place, load(chance, likely, &columns));
    }
    let mut sent = Vec::new();
    for _ in 0..chance.below(5) {
        records.push(hold(chance, likely, &mut sent));
    }
    if chance.one_in(4) && !records.is_empty() {
        // Columns must keep their order; the other records may come at any place.
        let first = records.remove(0);
        let place = chance.below(records.len() + 1);
        records.insert(place, first);
    }
    for record in records {
        lines.push(record);
        if chance.one_in(12) {
            lines.push(JUDGE.to_string());
        }
    }
    lines.push(JUDGE.to_string());
    for _ in 0..chance.below(10) {
        lines.extend(change(chance, likely, &columns, &mut sent));
        lines.push(JUDGE.to_string());
    }
    let lines = weighings::with_weighed(chance, lines);
    let lines = totals::with_totals(chance, lines, 2);
    let lines = lines.iter().map(|line| spoilt_or_respaced(chance, line)).collect();
    shows::with_shows(chance, lines)
}

fn ship(chance: &mut Chance, likely: bool) -> String {
    let ship = if likely { records::likely_ship(chance) } else { records::odd_ship(chance) };
    spelling::ship(&ship)
}

/// Two to six columns as a rule; now and then none, one, or more than twenty, or some out of order.
fn columns(chance: &mut Chance, likely: bool) -> Vec<Column> {
    let count = match chance.below(40) {
        0 => chance.below(2),
        1 => 19 + chance.below(4),
        _ => 2 + chance.below(5),
    };
    let mut columns = if likely { records::likely_columns(chance, count) } else { records::odd_columns(chance, count) };
    if count > 1 && chance.one_in(12) {
        let place = chance.below(count - 1);
        columns.swap(place, place + 1);
    }
    columns
}

/// A load line; or, one in four, the lines that weigh this load, now and then on top of the items that are there.
fn load(chance: &mut Chance, likely: bool, columns: &[Column]) -> Vec<String> {
    let in_order = columns.len() > 1 && columns[0].d < columns[columns.len() - 1].d;
    let load = match (in_order, likely) {
        (true, true) => records::likely_load(chance, columns),
        (true, false) => records::odd_load(chance, columns),
        (false, _) => records::odd_load(chance, &[]),
    };
    if !chance.one_in(4) {
        return vec![spelling::load(&load)];
    }
    let mut lines = weighings::weighing(chance, &load);
    if chance.one_in(4) {
        lines.retain(|line| line != UNWEIGH);
    }
    lines
}

/// Some items more, as parcels come aboard, and as a rule the load weighed anew.
fn parcels(chance: &mut Chance, likely: bool) -> Vec<String> {
    let mut lines = Vec::new();
    for _ in 0..1 + chance.below(3) {
        let item = if likely { weighings::likely_item(chance) } else { weighings::odd_item(chance) };
        lines.push(spelling::weight(&item));
        if chance.one_in(8) {
            // Two parcels alike count as two.
            lines.push(spelling::weight(&item));
        }
    }
    if !chance.one_in(4) {
        lines.push(spelling::weighed(weighings::likely_fs(chance)));
    }
    lines
}

/// A hold, one in four under the number of one that was sent before.
fn hold(chance: &mut Chance, likely: bool, sent: &mut Vec<i128>) -> String {
    let mut hold = if likely { records::likely_hold(chance) } else { records::odd_hold(chance) };
    if chance.one_in(4) && !sent.is_empty() {
        hold.n = chance.pick(sent);
    }
    sent.push(hold.n);
    spelling::hold(&hold)
}

/// A drop, every other one of a hold that was sent before.
fn drop(chance: &mut Chance, sent: &[i128]) -> String {
    let is_sent = chance.one_in(2) && !sent.is_empty();
    spelling::drop(if is_sent { chance.pick(sent) } else { chance.odd(1, 16) })
}

/// A further record, a drop or a weighing, as a condition is altered between two judges; now and then a hold with a split
/// that is turned down. The numbers are those of the holds sent.
fn change(chance: &mut Chance, likely: bool, columns: &[Column], sent: &mut Vec<i128>) -> Vec<String> {
    let line = match chance.below(24) {
        0 if chance.one_in(2) => CLEAR.to_string(),
        0 => too_heavy_a_hold(chance),
        1 | 2 => ship(chance, likely),
        3 => {
            let mut extra = records::odd_columns(chance, 1)[0];
            if let Some(last) = columns.last() {
                extra.d = (last.d + chance.between(-2, 2)).clamp(100, 400_000);
            }
            spelling::column(&extra)
        }
        4..=8 => return load(chance, likely, columns),
        9..=11 => drop(chance, sent),
        12 => hold(chance, false, sent),
        13 | 14 => return parcels(chance, likely),
        15 => UNWEIGH.to_string(),
        16 if chance.one_in(3) => splits::out_of_limits(chance),
        16 => splits::turned_down(chance),
        _ => hold(chance, likely, sent),
    };
    vec![line]
}

/// A hold that alone has more than 1,000,000,000 kg·m (34).
fn too_heavy_a_hold(chance: &mut Chance) -> String {
    let part = "(part 60000 40000 9000 9000)".repeat(6);
    format!("(hold {} partial {} {part})", chance.odd(1, 16), chance.between(5_000, 9_000))
}

/// The line with random spaces; one in forty has some number replaced, often by one out of its limits (20), one in
/// eighty an item too many, too few or in the wrong place (14).
fn spoilt_or_respaced(chance: &mut Chance, line: &str) -> Vec<u8> {
    if chance.one_in(40) {
        let spoilt = with_another_number(chance, line);
        return respaced_bytes(chance, &spoilt);
    }
    if chance.one_in(80) {
        return damage::out_of_shape(chance, line.as_bytes().to_vec());
    }
    spelling::respaced(chance, line)
}

fn respaced_bytes(chance: &mut Chance, line: &[u8]) -> Vec<u8> {
    match std::str::from_utf8(line) {
        Ok(text) => spelling::respaced(chance, text),
        Err(_) => line.to_vec(),
    }
}

/// The line with one of its numbers replaced by another.
fn with_another_number(chance: &mut Chance, line: &str) -> Vec<u8> {
    let mut pieces = spelling::pieces(line.as_bytes());
    let is_number = |piece: &[u8]| piece[0].is_ascii_digit();
    let places: Vec<usize> = (0..pieces.len()).filter(|&place| is_number(pieces[place])).collect();
    if places.is_empty() {
        return line.as_bytes().to_vec();
    }
    let number = match chance.below(4) {
        0 => 0,
        1 => 999_999_999,
        2 => chance.pick(&[17, 9_001, 10_001, 20_001, 30_001, 40_001, 50_001, 60_001, 65_535, 65_536, 65_537, 400_001]),
        _ => chance.small(0, 999_999_999),
    }
    .to_string();
    pieces[chance.pick(&places)] = number.as_bytes();
    spelling::joined(&pieces, usize::from)
}

//! Show lines: around every form, with every spacing, at the lengths that matter, and those that are turned down.

use crate::chance::Chance;
use crate::damage;
use crate::line::{self, LONGEST_LINE};
use crate::records;
use crate::shape::Item;
use crate::show;
use crate::spelling::{self, CLEAR, JUDGE, TOTAL, UNWEIGH};
use crate::splits;
use crate::weighings;

/// Words that are nearly `show`, and others: no line that begins with one of them may be five deep.
const OTHER_WORDS: [&str; 12] =
    ["shown", "sho", "showw", "shows", "sshow", "how", "s", "show1", "sh0w", "showshow", "sho w", "tell"];

/// What show is not around, and words in the wrong place: 14.
const NO_FORM: [&str; 30] = [
    "(show)",
    "(show ())",
    "(show (()))",
    "(show judge)",
    "(show show)",
    "(show 7)",
    "(show (show))",
    "(show (show (judge)))",
    "(show (show (show (clear))))",
    "(show ((judge)))",
    "(show (judge) 1)",
    "(show 1 (judge))",
    "(show show (judge))",
    "(show (answer 14))",
    "(show (total))",
    "(show total)",
    "(show (total) (judge))",
    "(show (part 1 (void 1 1 1)))",
    "(show (part 1 1 1 1))",
    "(show (split 1 1 1 1))",
    "(show split)",
    "(show (hold 1 trimmed 12500 (split 1 1 1 1)))",
    "(show (hold 1 voided 12500 (part 1 (void 1 1 1)) (split 1 1 1 1)))",
    "(show (hold 1 partial 12500 (split 1 1 1)))",
    "(show (wing 1 2 3 4))",
    "(show (0 1 2 3 4 5 6 7 8 9))",
    "(show (drop a1))",
    "(show (hold 1 trimmed 12500 (part 1 (void 1 1 (1)))))",
    "((show) (judge))",
    "((show (judge)))",
];

/// The lines of a lot with show lines before one in ten of them. No condition changes by that: where a line is shown
/// before it is sent, it may be sent as the reply spells it.
pub fn with_shows(chance: &mut Chance, lines: Vec<Vec<u8>>) -> Vec<Vec<u8>> {
    let mut all = Vec::new();
    for line in lines {
        match chance.below(400) {
            0..=19 => {
                all.push(around(chance, &line));
                all.push(if chance.one_in(2) { copied(&line) } else { line });
                continue;
            }
            20..=30 => all.push(of_any_form(chance)),
            31..=39 => all.push(turned_down(chance)),
            40 => {
                let (shown, reply) = long(chance);
                all.extend([shown, reply]);
            }
            _ => {}
        }
        all.push(line);
    }
    all
}

/// Show lines, most of them taken. No hold and no verdict comes about: a total now and then tells. Items are taken and
/// removed between them.
pub fn alone(chance: &mut Chance) -> Vec<Vec<u8>> {
    let line = match chance.below(20) {
        0 => turned_down(chance),
        1 => long(chance).0,
        2..=5 => of_any_form(chance),
        _ => {
            let record = record(chance);
            around(chance, record.as_bytes())
        }
    };
    let mut lines = vec![line];
    if chance.one_in(10) {
        lines.push(spaced(chance, TOTAL.as_bytes()));
    }
    if chance.one_in(15) {
        let weighing = weighing(chance);
        lines.push(spaced(chance, weighing.as_bytes()));
    }
    lines
}

/// A line that adds an item, weighs the items or removes them. Without a ship only 26 and 27 tell their sum, and these
/// tonnes bring it next to both.
fn weighing(chance: &mut Chance) -> String {
    match chance.below(6) {
        0..=2 => {
            let tonnes = chance.pick(&[1, 1, 49, 98, 99, 100, 399_900, 400_000]);
            spelling::weight(&Item { tonnes, height: chance.odd(0, weighings::HIGHEST) })
        }
        3 | 4 => spelling::weighed(chance.odd(0, 10_000)),
        _ => UNWEIGH.to_string(),
    }
}

/// A line's form as show replies with it; a line that has no form stays as it is.
fn copied(line: &[u8]) -> Vec<u8> {
    line::read(line).map_or(line.to_vec(), show::spelled)
}

/// A show line around this line, in the line's own spaces or in others.
fn around(chance: &mut Chance, line: &[u8]) -> Vec<u8> {
    let shown = [b"(show ", line, b")"].concat();
    if chance.one_in(3) {
        return shown;
    }
    spaced(chance, &shown)
}

/// The line with no space but the needed ones, or with up to one, two or three spaces in each place. A line that grew
/// too long is left as it was.
fn spaced(chance: &mut Chance, line: &[u8]) -> Vec<u8> {
    let most = chance.pick(&[0, 0, 1, 1, 2, 3]);
    let spaced = spelling::joined(&spelling::pieces(line), |_| chance.below(most + 1));
    if spaced.len() > LONGEST_LINE {
        return line.to_vec();
    }
    spaced
}

/// A record as it is stored, or a judge, a clear or a drop.
fn record(chance: &mut Chance) -> String {
    match chance.below(8) {
        0 => spelling::ship(&records::likely_ship(chance)),
        1 => spelling::column(&records::likely_columns(chance, 1)[0]),
        2 => spelling::load(&records::odd_load(chance, &[])),
        3 | 4 => spelling::hold(&records::likely_hold(chance)),
        5 => spelling::hold(&records::odd_hold(chance)),
        6 => spelling::drop(chance.odd(1, 16)),
        _ => chance.pick(&[JUDGE, CLEAR]).to_string(),
    }
}

/// Any number that a line may have; limits are not tested.
fn number(chance: &mut Chance) -> i128 {
    match chance.below(8) {
        0 => 0,
        1 => 999_999_999,
        2 => chance.pick(&[9, 10, 255, 256, 65_535, 65_536, 65_537, 99_999_999, 100_000_000, 999_999_998]),
        3 => chance.between(0, 999_999_999),
        _ => chance.small(0, 999_999_999),
    }
}

fn numbers(chance: &mut Chance, count: usize) -> String {
    let numbers: Vec<String> = (0..count).map(|_| number(chance).to_string()).collect();
    numbers.join(" ")
}

/// Any of the seven forms, with any numbers.
fn any_form(chance: &mut Chance) -> String {
    match chance.below(8) {
        0 => format!("(ship {} {})", chance.pick(&["new", "old"]), numbers(chance, 2)),
        1 => format!("(column {} ({}))", numbers(chance, 2), numbers(chance, 10)),
        2 => format!("(load {})", numbers(chance, 3)),
        3 | 4 => any_hold(chance),
        5 => format!("(drop {})", number(chance)),
        6 => JUDGE.to_string(),
        _ => CLEAR.to_string(),
    }
}

fn any_hold(chance: &mut Chance) -> String {
    let mode = chance.pick(&["trimmed", "voided", "partial"]);
    let mut parts = Vec::new();
    for _ in 0..chance.pick(&[1, 1, 1, 2, 3, 6]) {
        if mode == "partial" {
            parts.push(format!("({} {})", chance.pick(&["part", "split"]), numbers(chance, 4)));
            continue;
        }
        let mut cells = Vec::new();
        for _ in 0..chance.pick(&[1, 1, 2, 3, 8]) {
            let (word, count) = chance.pick(&CELLS);
            cells.push(format!("({word} {})", numbers(chance, count)));
        }
        parts.push(format!("(part {} {})", number(chance), cells.join(" ")));
    }
    format!("(hold {} {mode} {} {})", number(chance), number(chance), parts.join(" "))
}

/// The words of the cells, and how many numbers follow each.
const CELLS: [(&str, usize); 3] = [("wing", 4), ("hatch", 3), ("void", 3)];

fn of_any_form(chance: &mut Chance) -> Vec<u8> {
    let form = any_form(chance);
    around(chance, form.as_bytes())
}

/// A show line around a hold with the most inner forms, 54, and its reply as a line. Either the show line without a
/// free space or the reply is at or next to 2,000 bytes long, so that the longest replies are reached.
fn long(chance: &mut Chance) -> (Vec<u8>, Vec<u8>) {
    // The line without a free space has six bytes more than the form, which has 54 fewer than its one spelling.
    let line_less_reply = "(show)".len() as i128 - 54;
    let wanted = match chance.below(3) {
        0 => chance.between(1_999, 2_001) - line_less_reply,
        1 => chance.between(1_999, 2_001),
        _ => chance.between(1_940, 2_060),
    };
    // Each number has one digit at first, and then as many as are missing, spread by chance.
    // Every other cell is a wing: with fewer numbers of nine digits the longest lines could not be reached.
    let cells: Vec<(&str, usize)> =
        (0..48).map(|place| if place % 2 == 0 { CELLS[0] } else { chance.pick(&CELLS) }).collect();
    let mode = chance.pick(&["trimmed", "voided"]);
    let count = 2 + 6 + cells.iter().map(|cell| cell.1).sum::<usize>();
    let mut numbers: Vec<String> = (0..count).map(|_| chance.between(1, 9).to_string()).collect();
    let mut missing = wanted as usize - hold_of(mode, &cells, &numbers).len();
    while missing > 0 {
        let place = chance.below(count);
        if numbers[place].len() < 9 {
            numbers[place] += &chance.between(0, 9).to_string();
            missing -= 1;
        }
    }
    let reply = hold_of(mode, &cells, &numbers);
    let tight = spelling::joined(&spelling::pieces(format!("(show {reply})").as_bytes()), |_| 0);
    (filled(chance, tight), reply.into_bytes())
}

/// A hold with these cells, eight to a part, and these numbers in their order, in single spaces.
fn hold_of(mode: &str, cells: &[(&str, usize)], numbers: &[String]) -> String {
    let mut numbers = numbers.iter();
    let mut next = |count: usize| -> String {
        let some: Vec<&str> = numbers.by_ref().take(count).map(String::as_str).collect();
        some.join(" ")
    };
    let mut hold = format!("(hold {} {mode} {}", next(1), next(1));
    for part in cells.chunks(8) {
        hold += &format!(" (part {}", next(1));
        for (word, count) in part {
            hold += &format!(" ({word} {})", next(*count));
        }
        hold += ")";
    }
    hold + ")"
}

/// The line as it is, or with as many free spaces, at places by chance, as 2,000 bytes have room for.
fn filled(chance: &mut Chance, line: Vec<u8>) -> Vec<u8> {
    if line.len() >= LONGEST_LINE || chance.one_in(2) {
        return line;
    }
    let mut room = LONGEST_LINE - line.len();
    spelling::joined(&spelling::pieces(&line), |needed| {
        let free = chance.below(3).min(room);
        room -= free;
        free + usize::from(needed)
    })
}

/// A show line that gets 11 to 14, or a line that is nearly one.
fn turned_down(chance: &mut Chance) -> Vec<u8> {
    let form = if chance.one_in(2) { record(chance) } else { any_form(chance) };
    let line = match chance.below(13) {
        0 | 1 => chance.pick(&NO_FORM).to_string(),
        2 => chance.pick(&weighings::SHOWN_WEIGHING).to_string(),
        3 => format!("(show {})", splits::turned_down(chance)),
        4 => format!("(show {form} {})", any_form(chance)),
        5 => format!("(show (show {form}))"),
        6 => format!("({} {form})", chance.pick(&OTHER_WORDS)),
        7 => format!("(show ({form}))"),
        8..=10 => deep(chance),
        11 => return damage::out_of_shape(chance, format!("(show {form})").into_bytes()),
        _ => return damage::unsound_number(chance, format!("(show {form})").into_bytes()),
    };
    spaced(chance, line.as_bytes())
}

/// Forms within forms, four to six deep, in a line that begins with `show` or with another word; at the deepest place
/// a word, a number, one with a needless zero, or nothing.
fn deep(chance: &mut Chance) -> String {
    let word = if chance.one_in(2) { "show" } else { chance.pick(&OTHER_WORDS) };
    let mut inner = chance.pick(&["d", "7", "01", "", "judge"]).to_string();
    for _ in 0..3 + chance.below(3) {
        let before = chance.pick(&["", "a ", "1 ", "show ", "hold 1 trimmed 12500 "]);
        let behind = chance.pick(&["", "", " 2", " (b)"]);
        inner = format!("({before}{inner}{behind})");
    }
    match chance.below(8) {
        // The word show is not the outer form's first item.
        0 => format!("(({word} {inner}))"),
        1 => format!("(a {word} {inner})"),
        _ => format!("({word} {inner})"),
    }
}

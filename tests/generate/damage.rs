//! Damaged lines: every fault that codes 10 to 14 name, alone and several in one line, between lines that hold.

use crate::chance::Chance;
use crate::edge_weighings;
use crate::edges;
use crate::runs;
use crate::spelling::{self, CLEAR, JUDGE, TOTAL, UNWEIGH};
use crate::splits;
use crate::wanted;
use crate::weighings;

type Fault = fn(&mut Chance, Vec<u8>) -> Vec<u8>;

const FAULTS: [Fault; 26] = [
    any_byte_for_another,
    any_byte_between,
    byte_taken_away,
    bytes_exchanged,
    bracket_taken_away,
    bracket_doubled,
    bracket_turned,
    brackets_around,
    show_around,
    leading_zeros,
    huge_number,
    number_with_letter,
    word_with_digit,
    word_misspelled,
    other_word,
    item_taken_away,
    item_doubled,
    item_between,
    items_exchanged,
    run_cut_by_space,
    runs_joined,
    line_cut,
    text_outside,
    two_forms,
    carriage_return,
    spaced_to_a_length,
];

/// Damaged lines between valid ones, with judges, totals and weighed lines that show that the condition is as it was.
pub fn damaged_run(chance: &mut Chance) -> Vec<Vec<u8>> {
    if chance.one_in(8) {
        return damaged_weighings(chance);
    }
    let before = match chance.below(12) {
        0..=3 => wanted::condition_that_shows_weight().lines(),
        4 => edge_weighings::weighed_ship(chance),
        _ => Vec::new(),
    };
    let mut lines = into_bytes(before);
    let valid = if chance.one_in(2) { runs::run(chance) } else { edges::edge(chance) };
    for line in valid {
        if chance.one_in(4) {
            lines.push(line.clone());
        }
        let telling = telling(chance, &line);
        lines.push(damaged(chance, line));
        lines.extend(into_bytes(telling));
    }
    lines
}

fn into_bytes(lines: Vec<String>) -> Vec<Vec<u8>> {
    lines.into_iter().map(String::into_bytes).collect()
}

/// What tells, behind a damaged line, whether it changed something after all: now and then a judge, and as it is about
/// holds or about items, rather a total or a weighed line.
fn telling(chance: &mut Chance, line: &[u8]) -> Vec<String> {
    let (totals, weighings) = match spelling::pieces(line).get(1) {
        Some(&b"hold") => (3, 0),
        Some(&b"drop") => (5, 0),
        Some(&b"clear") => (5, 2),
        Some(&(b"weight" | b"weighed" | b"unweigh")) => (1, 3),
        _ => (2, 0),
    };
    match chance.below(12) {
        0 => vec![JUDGE.to_string()],
        place if place <= totals => vec![TOTAL.to_string()],
        place if place <= totals + weighings => weighed_and_judged(chance),
        _ => Vec::new(),
    }
}

fn weighed_and_judged(chance: &mut Chance) -> Vec<String> {
    vec![spelling::weighed(weighings::likely_fs(chance)), JUDGE.to_string()]
}

/// A weighed ship, and damaged lines that would add items, weigh or remove them, each with a weighed line behind it.
fn damaged_weighings(chance: &mut Chance) -> Vec<Vec<u8>> {
    let mut lines = into_bytes(edge_weighings::weighed_ship(chance));
    for _ in 0..6 {
        let line = chance.pick(&[CLEAR, CLEAR, UNWEIGH, UNWEIGH, "(weight 500 500)", "(weighed 0)"]);
        lines.push(damaged(chance, line.as_bytes().to_vec()));
        lines.extend(into_bytes(weighed_and_judged(chance)));
    }
    lines
}

/// A line with one fault, or several, or one of the lines that are faulty from the start.
pub fn damaged(chance: &mut Chance, line: Vec<u8>) -> Vec<u8> {
    if chance.one_in(12) {
        return faulty_from_the_start(chance);
    }
    let faults = chance.pick(&[1, 1, 1, 1, 1, 2, 2, 2, 3, 4]);
    let mut line = line;
    for _ in 0..faults {
        let fault = chance.pick(&FAULTS);
        line = fault(chance, line);
    }
    line.retain(|&byte| byte != b'\n');
    line
}

/// A line that is still one closed form with sound numbers, but as a rule none of the shapes.
pub fn out_of_shape(chance: &mut Chance, line: Vec<u8>) -> Vec<u8> {
    let fault: Fault = chance.pick(&[item_taken_away as Fault, item_doubled, item_between, other_word]);
    fault(chance, line)
}

/// A line with a number that is none (13).
pub fn unsound_number(chance: &mut Chance, line: Vec<u8>) -> Vec<u8> {
    let fault: Fault = chance.pick(&[leading_zeros as Fault, leading_zeros, huge_number, number_with_letter]);
    fault(chance, line)
}

/// Any byte but 10, which ends a line.
fn any_byte(chance: &mut Chance) -> u8 {
    match chance.below(255) as u8 {
        b'\n' => 255,
        byte => byte,
    }
}

/// A place in the line; 0 for an empty one.
fn place_in(chance: &mut Chance, line: &[u8]) -> usize {
    chance.below(line.len().max(1))
}

fn any_byte_for_another(chance: &mut Chance, mut line: Vec<u8>) -> Vec<u8> {
    let place = place_in(chance, &line);
    if let Some(byte) = line.get_mut(place) {
        *byte = any_byte(chance);
    }
    line
}

fn any_byte_between(chance: &mut Chance, mut line: Vec<u8>) -> Vec<u8> {
    let place = chance.below(line.len() + 1);
    line.insert(place, any_byte(chance));
    line
}

fn byte_taken_away(chance: &mut Chance, mut line: Vec<u8>) -> Vec<u8> {
    let place = place_in(chance, &line);
    if place < line.len() {
        line.remove(place);
    }
    line
}

fn bytes_exchanged(chance: &mut Chance, mut line: Vec<u8>) -> Vec<u8> {
    let place = place_in(chance, &line);
    if place + 1 < line.len() {
        line.swap(place, place + 1);
    }
    line
}

/// The place of one of the line's brackets.
fn bracket(chance: &mut Chance, line: &[u8]) -> Option<usize> {
    let places: Vec<usize> = (0..line.len()).filter(|&place| b"()".contains(&line[place])).collect();
    if places.is_empty() {
        return None;
    }
    Some(chance.pick(&places))
}

fn bracket_taken_away(chance: &mut Chance, mut line: Vec<u8>) -> Vec<u8> {
    if let Some(place) = bracket(chance, &line) {
        line.remove(place);
    }
    line
}

fn bracket_doubled(chance: &mut Chance, mut line: Vec<u8>) -> Vec<u8> {
    if let Some(place) = bracket(chance, &line) {
        line.insert(place, line[place]);
    }
    line
}

fn bracket_turned(chance: &mut Chance, mut line: Vec<u8>) -> Vec<u8> {
    if let Some(place) = bracket(chance, &line) {
        line[place] = if line[place] == b'(' { b')' } else { b'(' };
    }
    line
}

/// One to four more pairs of brackets around the whole: nesting of four is 14, of five 12.
fn brackets_around(chance: &mut Chance, line: Vec<u8>) -> Vec<u8> {
    let pairs = 1 + chance.below(4);
    [b"(".repeat(pairs), line, b")".repeat(pairs)].concat()
}

/// A show around the whole, which is no fault where the line is one of the seven forms.
fn show_around(_: &mut Chance, line: Vec<u8>) -> Vec<u8> {
    [b"(show ", line.as_slice(), b")"].concat()
}

/// The pieces of a line, changed by the fault at the place of one that is wanted, put together with single spaces.
fn with_piece(
    chance: &mut Chance,
    line: &[u8],
    is_wanted: impl Fn(&[u8]) -> bool,
    change: impl FnOnce(&mut Chance, &mut Vec<Vec<u8>>, usize),
) -> Vec<u8> {
    let mut pieces: Vec<Vec<u8>> = spelling::pieces(line).into_iter().map(<[u8]>::to_vec).collect();
    let places: Vec<usize> = (0..pieces.len()).filter(|&place| is_wanted(&pieces[place])).collect();
    if places.is_empty() {
        return line.to_vec();
    }
    let place = chance.pick(&places);
    change(chance, &mut pieces, place);
    let pieces: Vec<&[u8]> = pieces.iter().map(Vec::as_slice).collect();
    spelling::joined(&pieces, usize::from)
}

fn is_number(piece: &[u8]) -> bool {
    piece[0].is_ascii_digit()
}

fn is_word(piece: &[u8]) -> bool {
    piece[0].is_ascii_lowercase()
}

fn is_run(piece: &[u8]) -> bool {
    is_number(piece) || is_word(piece)
}

fn leading_zeros(chance: &mut Chance, line: Vec<u8>) -> Vec<u8> {
    with_piece(chance, &line, is_number, |chance, pieces, place| {
        let zeros = 1 + chance.below(3);
        pieces[place].splice(0..0, b"0".repeat(zeros));
    })
}

fn huge_number(chance: &mut Chance, line: Vec<u8>) -> Vec<u8> {
    with_piece(chance, &line, is_number, |chance, pieces, place| {
        let huge: &[&[u8]] = &[
            b"999999999",
            b"1000000000",
            b"1000000001",
            b"4294967295",
            b"4294967296",
            b"9223372036854775807",
            b"18446744073709551616",
            b"340282366920938463463374607431768211456",
        ];
        pieces[place] = chance.pick(huge).to_vec();
        if chance.one_in(8) {
            let digits = 10 + chance.below(60);
            pieces[place] = b"9".repeat(digits);
        }
    })
}

fn number_with_letter(chance: &mut Chance, line: Vec<u8>) -> Vec<u8> {
    with_piece(chance, &line, is_number, |chance, pieces, place| {
        let at = 1 + chance.below(pieces[place].len());
        let letter = b'a' + chance.below(26) as u8;
        pieces[place].insert(at, letter);
    })
}

/// A run that begins with a letter and has a digit.
fn word_with_digit(chance: &mut Chance, line: Vec<u8>) -> Vec<u8> {
    with_piece(chance, &line, is_run, |chance, pieces, place| {
        if is_number(&pieces[place]) {
            pieces[place].insert(0, b'a' + chance.below(26) as u8);
        } else {
            let at = 1 + chance.below(pieces[place].len());
            pieces[place].insert(at, b'0' + chance.below(10) as u8);
        }
    })
}

fn word_misspelled(chance: &mut Chance, line: Vec<u8>) -> Vec<u8> {
    with_piece(chance, &line, is_word, |chance, pieces, place| {
        let word = &mut pieces[place];
        let at = chance.below(word.len());
        match chance.below(5) {
            0 => word[at] = b'a' + chance.below(26) as u8,
            1 => word.insert(at, b'a' + chance.below(26) as u8),
            2 if word.len() > 1 => {
                word.remove(at);
            }
            3 => word[at] = word[at].to_ascii_uppercase(),
            _ => word.push(b's'),
        }
    })
}

/// Another word of the panel: among them the mode whose part has another shape.
fn other_word(chance: &mut Chance, line: Vec<u8>) -> Vec<u8> {
    with_piece(chance, &line, is_word, |chance, pieces, place| {
        let words: &[&[u8]] = &[
            b"ship", b"column", b"load", b"hold", b"drop", b"judge", b"clear", b"new", b"old", b"trimmed", b"voided",
            b"partial", b"part", b"split", b"wing", b"hatch", b"void", b"answer", b"verdict", b"show", b"total",
            b"weight", b"weighed", b"unweigh",
        ];
        pieces[place] = chance.pick(words).to_vec();
    })
}

fn item_taken_away(chance: &mut Chance, line: Vec<u8>) -> Vec<u8> {
    with_piece(chance, &line, is_run, |_, pieces, place| {
        pieces.remove(place);
    })
}

fn item_doubled(chance: &mut Chance, line: Vec<u8>) -> Vec<u8> {
    with_piece(chance, &line, is_run, |_, pieces, place| pieces.insert(place, pieces[place].clone()))
}

fn item_between(chance: &mut Chance, line: Vec<u8>) -> Vec<u8> {
    with_piece(
        chance,
        &line,
        |_| true,
        |chance, pieces, place| {
            let items: &[&[u8]] = &[
                b"7",
                b"0",
                b"void",
                b"zz",
                b"()",
                b"(1)",
                b"(part 1 1 1 1)",
                b"(split 1 1 1 1)",
                b"(void 1 1 1)",
                b"((1))",
                b"(judge)",
                b"(total)",
                b"(unweigh)",
            ];
            pieces.insert(place, chance.pick(items).to_vec());
        },
    )
}

fn items_exchanged(chance: &mut Chance, line: Vec<u8>) -> Vec<u8> {
    with_piece(chance, &line, is_run, |_, pieces, place| {
        if place + 1 < pieces.len() {
            pieces.swap(place, place + 1);
        }
    })
}

fn run_cut_by_space(chance: &mut Chance, line: Vec<u8>) -> Vec<u8> {
    with_piece(chance, &line, is_run, |chance, pieces, place| {
        let at = chance.below(pieces[place].len());
        pieces[place].insert(at, b' ');
    })
}

/// One space fewer: two runs may become one.
fn runs_joined(chance: &mut Chance, mut line: Vec<u8>) -> Vec<u8> {
    let places: Vec<usize> = (0..line.len()).filter(|&place| line[place] == b' ').collect();
    if !places.is_empty() {
        line.remove(chance.pick(&places));
    }
    line
}

fn line_cut(chance: &mut Chance, mut line: Vec<u8>) -> Vec<u8> {
    let length = place_in(chance, &line);
    if chance.one_in(4) {
        line.drain(..length);
    } else {
        line.truncate(length);
    }
    line
}

const OUTSIDE: [&[u8]; 14] = [
    b"a",
    b"0",
    b"(",
    b")",
    b"()",
    b"judge",
    b"total",
    b"unweigh",
    b" x ",
    b"  7",
    b"00",
    b";",
    b"\t",
    b"\xef\xbb\xbf",
];

fn text_outside(chance: &mut Chance, line: Vec<u8>) -> Vec<u8> {
    let text = chance.pick(&OUTSIDE).to_vec();
    if chance.one_in(2) {
        [text, line].concat()
    } else {
        [line, text].concat()
    }
}

fn two_forms(chance: &mut Chance, line: Vec<u8>) -> Vec<u8> {
    let other: &[u8] = chance.pick(&[b"(clear)".as_slice(), b"(judge)", b"(total)", b"(unweigh)", b" (drop 1)", b"()"]);
    if chance.one_in(2) {
        [line.as_slice(), other].concat()
    } else {
        [other, line.as_slice()].concat()
    }
}

fn carriage_return(chance: &mut Chance, mut line: Vec<u8>) -> Vec<u8> {
    if chance.one_in(4) {
        line.insert(0, b'\r');
    } else {
        line.push(b'\r');
    }
    line
}

/// The line brought to a length at or next to 2,000 bytes, or far longer, with spaces or other bytes in one place.
fn spaced_to_a_length(chance: &mut Chance, mut line: Vec<u8>) -> Vec<u8> {
    if !chance.one_in(3) {
        return line;
    }
    let length = match chance.below(40) {
        0..=9 => 1_999,
        10..=19 => 2_000,
        20..=29 => 2_001,
        30..=37 => 1_990 + chance.below(30),
        38 => 2_100 + chance.below(6_000),
        _ if chance.one_in(3) => 60_000 + chance.below(80_000),
        _ => 4_096 + chance.below(9_000),
    };
    if line.len() >= length {
        return line;
    }
    let filler = if chance.percent(80) { b' ' } else { chance.pick(b"a0(\r\xff") };
    let places: Vec<usize> =
        (0..=line.len()).filter(|&place| place == 0 || place == line.len() || b"() ".contains(&line[place])).collect();
    let place = chance.pick(&places);
    let missing = length - line.len();
    line.splice(place..place, vec![filler; missing]);
    line
}

/// Lines that no change of a good line brings about.
const FAULTY_LINES: [&[u8]; 42] = [
    b"",
    b" ",
    b"     ",
    b"()",
    b"( )",
    b"(())",
    b"((((a))))",
    b"(((((a)))))",
    b"(((())))",
    b"((((()))))",
    b"judge",
    b"clear)",
    b"(clear",
    b"(drop 00",
    b"(judge 00 A)",
    b"(0)",
    b"(00)",
    b"(12ab)",
    b"(ab12)",
    b"(hold1)",
    b"\r",
    b"\0",
    b")(",
    b"(judge)\r",
    b"(Judge)",
    b"total",
    b"(total",
    b"(total)\r",
    b"(TOTAL)",
    b"(total 00 A)",
    b"unweigh",
    b"(unweigh",
    b"(unweigh)\r",
    b"(weight 007 1)",
    b"(weight 1 1",
    b"(weighed 00 A)",
    b"(show)",
    b"(show (a (b (c (d)))))",
    b"(show (a (b (c (01)))))",
    b"(shown (a (b (c (d)))))",
    b"((show (a (b (c)))))",
    b"(show (a (b (c (d (e))))))",
];

/// Lines that are no form's spelling at all, and the smallest forms.
fn faulty_from_the_start(chance: &mut Chance) -> Vec<u8> {
    match chance.below(8) {
        0 => {
            let length = chance.below(40);
            (0..length).map(|_| any_byte(chance)).collect()
        }
        1 => {
            let length = chance.below(60);
            (0..length).map(|_| chance.pick(b"()() ab01 ")).collect()
        }
        2 => {
            // One long line of a good or bad sort, its length at or next to 2,000 bytes.
            let length = 1_999 + chance.below(3);
            let filler = chance.pick(b" a1(\r");
            let mut line = chance
                .pick(&[CLEAR, TOTAL, UNWEIGH, "(weight 1 1)", "(weighed 0)", "(drop 1)", "", "("])
                .as_bytes()
                .to_vec();
            line.resize(length, filler);
            line
        }
        3 => weighings::turned_down(chance).into_bytes(),
        4 => splits::turned_down(chance).into_bytes(),
        _ => chance.pick(&FAULTY_LINES).to_vec(),
    }
}

//! The forms of the panel, the records they carry, and what a line asks for: code 14.
//!
//! Numbers stand in the records as they were read; limits.rs holds them to their limits.

use crate::code::Code;
use crate::line::{number, Token, Tokens};

/// The ten angles at which a column gives KN.
pub const ANGLE_COUNT: usize = 10;
const MOST_PARTS: usize = 6;
pub const MOST_CELLS: usize = 8;

#[derive(Clone, Copy, Debug, PartialEq, Eq)]
pub enum Rule {
    /// The Code.
    New,
    /// A.264.
    Old,
}

/// `(ship RULE EDGE FLOOD)`
#[derive(Clone, Copy, Debug, PartialEq, Eq)]
pub struct Ship {
    pub rule: Rule,
    pub edge: i128,
    pub flood: i128,
}

/// `(column D KM (K K K K K K K K K K))`
#[derive(Clone, Copy, Debug, PartialEq, Eq)]
pub struct Column {
    pub d: i128,
    pub km: i128,
    pub kn: [i128; ANGLE_COUNT],
}

/// `(load D KG FS)`
#[derive(Clone, Copy, Debug, PartialEq, Eq)]
pub struct Load {
    pub d: i128,
    pub kg: i128,
    pub fs: i128,
}

/// `(weight T H)` (document 02, P5)
#[derive(Clone, Copy, Debug, PartialEq, Eq)]
pub struct Item {
    pub tonnes: i128,
    pub height: i128,
}

#[derive(Clone, Copy, Debug, PartialEq, Eq)]
pub enum Mode {
    Trimmed,
    Voided,
    Partial,
}

/// A cell of a trimmed section.
#[derive(Clone, Copy, Debug, PartialEq, Eq)]
pub enum Cell {
    /// `(wing WIDTH DIST GIRDER LIP)`
    Wing { width: i128, dist: i128, girder: i128, lip: i128 },
    /// `(hatch WIDTH OPEN LIP)`
    Hatch { width: i128, open: i128, lip: i128 },
    /// `(void WIDTH DEPTH LIP)`
    Void { width: i128, depth: i128, lip: i128 },
}

#[derive(Clone, Debug, PartialEq, Eq)]
pub enum Part {
    /// `(part LENGTH CELL ..)`, of `trimmed` and `voided`.
    Section { length: i128, cells: Vec<Cell> },
    /// `(part LENGTH BREADTH VOID GRAIN)`, of `partial`.
    PartlyFilled { length: i128, breadth: i128, void: i128, grain: i128 },
    /// `(split LENGTH RUN LEFT RIGHT)`, of `partial` too (document 02, P7).
    Split { length: i128, run: i128, left: i128, right: i128 },
}

/// `(hold N MODE SF PART ..)`
#[derive(Clone, Debug, PartialEq, Eq)]
pub struct Hold {
    pub n: i128,
    pub mode: Mode,
    pub sf: i128,
    pub parts: Vec<Part>,
}

/// The seven forms of document 01.
#[derive(Clone, Debug, PartialEq, Eq)]
pub enum Form {
    Ship(Ship),
    Column(Column),
    Load(Load),
    Hold(Hold),
    Drop(i128),
    Judge,
    Clear,
}

/// What a line asks for. Those of document 02 are none of document 01's forms, so that show does not take them.
#[derive(Clone, Debug, PartialEq, Eq)]
pub enum Request<'a> {
    Form(Form),
    /// `(show FORM)`: the tokens of FORM, which has the shape of one of the seven.
    Show(Tokens<'a>),
    /// `(total)` (document 02, P4)
    Total,
    /// `(weight T H)` (document 02, P5)
    Weight(Item),
    /// `(weighed FS)`
    Weighed(i128),
    /// `(unweigh)`
    Unweigh,
}

impl Cell {
    pub fn width(&self) -> i128 {
        match *self {
            Cell::Wing { width, .. } | Cell::Hatch { width, .. } | Cell::Void { width, .. } => width,
        }
    }

    pub fn lip(&self) -> i128 {
        match *self {
            Cell::Wing { lip, .. } | Cell::Hatch { lip, .. } | Cell::Void { lip, .. } => lip,
        }
    }
}

/// What a line's tokens ask for, or code 14. The tokens are those of one closed form.
pub fn request(tokens: Tokens<'_>) -> Result<Request<'_>, Code> {
    let mut items = Items { tokens };
    items.open()?;
    let request = match items.word()? {
        b"show" => Request::Show(shown(&mut items)?),
        b"total" => Request::Total,
        b"weight" => Request::Weight(Item { tonnes: items.number()?, height: items.number()? }),
        b"weighed" => Request::Weighed(items.number()?),
        b"unweigh" => Request::Unweigh,
        word => Request::Form(form_behind(word, &mut items)?),
    };
    items.close()?;
    Ok(request)
}

/// The tokens of what show is around: one of the seven forms.
fn shown<'a>(items: &mut Items<'a>) -> Result<Tokens<'a>, Code> {
    let shown = items.tokens;
    items.open()?;
    let word = items.word()?;
    form_behind(word, items)?;
    items.close()?;
    Ok(shown.before(items.tokens))
}

/// One of the seven forms: what stands behind its word, up to its closing bracket.
fn form_behind(word: &[u8], items: &mut Items) -> Result<Form, Code> {
    let form = match word {
        b"ship" => Form::Ship(ship(items)?),
        b"column" => Form::Column(column(items)?),
        b"load" => Form::Load(load(items)?),
        b"hold" => Form::Hold(hold(items)?),
        b"drop" => Form::Drop(items.number()?),
        b"judge" => Form::Judge,
        b"clear" => Form::Clear,
        _ => return Err(Code::NoSuchShape),
    };
    Ok(form)
}

fn ship(items: &mut Items) -> Result<Ship, Code> {
    let rule = match items.word()? {
        b"new" => Rule::New,
        b"old" => Rule::Old,
        _ => return Err(Code::NoSuchShape),
    };
    Ok(Ship { rule, edge: items.number()?, flood: items.number()? })
}

fn column(items: &mut Items) -> Result<Column, Code> {
    let d = items.number()?;
    let km = items.number()?;
    let mut kn = [0; ANGLE_COUNT];
    items.open()?;
    for value in &mut kn {
        *value = items.number()?;
    }
    items.close()?;
    Ok(Column { d, km, kn })
}

fn load(items: &mut Items) -> Result<Load, Code> {
    Ok(Load { d: items.number()?, kg: items.number()?, fs: items.number()? })
}

/// A hold has one to six parts.
fn hold(items: &mut Items) -> Result<Hold, Code> {
    let n = items.number()?;
    let mode = match items.word()? {
        b"trimmed" => Mode::Trimmed,
        b"voided" => Mode::Voided,
        b"partial" => Mode::Partial,
        _ => return Err(Code::NoSuchShape),
    };
    let sf = items.number()?;
    let mut parts = vec![part(items, mode)?];
    while !items.at_close() {
        if parts.len() == MOST_PARTS {
            return Err(Code::NoSuchShape);
        }
        parts.push(part(items, mode)?);
    }
    Ok(Hold { n, mode, sf, parts })
}

fn part(items: &mut Items, mode: Mode) -> Result<Part, Code> {
    items.open()?;
    let word = items.word()?;
    let length = items.number()?;
    let part = match (word, mode) {
        (b"part", Mode::Trimmed | Mode::Voided) => Part::Section { length, cells: cells(items)? },
        (b"part", Mode::Partial) => {
            Part::PartlyFilled { length, breadth: items.number()?, void: items.number()?, grain: items.number()? }
        }
        (b"split", Mode::Partial) => {
            Part::Split { length, run: items.number()?, left: items.number()?, right: items.number()? }
        }
        _ => return Err(Code::NoSuchShape),
    };
    items.close()?;
    Ok(part)
}

/// A section has one to eight cells.
fn cells(items: &mut Items) -> Result<Vec<Cell>, Code> {
    let mut cells = vec![cell(items)?];
    while !items.at_close() {
        if cells.len() == MOST_CELLS {
            return Err(Code::NoSuchShape);
        }
        cells.push(cell(items)?);
    }
    Ok(cells)
}

fn cell(items: &mut Items) -> Result<Cell, Code> {
    items.open()?;
    let cell = match items.word()? {
        b"wing" => {
            Cell::Wing { width: items.number()?, dist: items.number()?, girder: items.number()?, lip: items.number()? }
        }
        b"hatch" => Cell::Hatch { width: items.number()?, open: items.number()?, lip: items.number()? },
        b"void" => Cell::Void { width: items.number()?, depth: items.number()?, lip: items.number()? },
        _ => return Err(Code::NoSuchShape),
    };
    items.close()?;
    Ok(cell)
}

/// What is left of a form; each call takes the next item and answers 14 if it is of another sort.
struct Items<'a> {
    tokens: Tokens<'a>,
}

impl<'a> Items<'a> {
    fn open(&mut self) -> Result<(), Code> {
        match self.tokens.next() {
            Some(Token::Open) => Ok(()),
            _ => Err(Code::NoSuchShape),
        }
    }

    fn close(&mut self) -> Result<(), Code> {
        match self.tokens.next() {
            Some(Token::Close) => Ok(()),
            _ => Err(Code::NoSuchShape),
        }
    }

    fn word(&mut self) -> Result<&'a [u8], Code> {
        match self.tokens.next() {
            Some(Token::Run(run)) => Ok(run),
            _ => Err(Code::NoSuchShape),
        }
    }

    /// A run that begins with a letter has no value and so fits no number's place.
    fn number(&mut self) -> Result<i128, Code> {
        match self.tokens.next() {
            Some(Token::Run(run)) => number(run).ok_or(Code::NoSuchShape),
            _ => Err(Code::NoSuchShape),
        }
    }

    fn at_close(&self) -> bool {
        self.tokens.clone().next() == Some(Token::Close)
    }
}

#[cfg(test)]
mod tests {
    use super::*;
    use crate::line::read;

    fn read_form(line: &str) -> Result<Form, Code> {
        match read(line.as_bytes()).and_then(request)? {
            Request::Form(form) => Ok(form),
            other => panic!("{other:?}: {line:?}"),
        }
    }

    /// The tokens that a show form shows.
    fn read_shown(line: &str) -> Result<Vec<Token<'_>>, Code> {
        match read(line.as_bytes()).and_then(request)? {
            Request::Show(shown) => Ok(shown.collect()),
            other => panic!("{other:?}: {line:?}"),
        }
    }

    fn hold_of(parts: &[&str], mode: &str) -> String {
        format!("(hold 1 {mode} 12500 {})", parts.join(" "))
    }

    #[test]
    fn each_form_is_read_into_its_record() {
        assert_eq!(
            read_form("(ship new 1430 3500)"),
            Ok(Form::Ship(Ship { rule: Rule::New, edge: 1430, flood: 3500 }))
        );
        assert_eq!(read_form("(ship old 1 2)"), Ok(Form::Ship(Ship { rule: Rule::Old, edge: 1, flood: 2 })));
        assert_eq!(
            read_form("(column 1 2(0 1 2 3 4 5 6 7 8 9))"),
            Ok(Form::Column(Column { d: 1, km: 2, kn: [0, 1, 2, 3, 4, 5, 6, 7, 8, 9] }))
        );
        assert_eq!(read_form("(load 1 2 3)"), Ok(Form::Load(Load { d: 1, kg: 2, fs: 3 })));
        assert_eq!(
            read_form("(hold 1 voided 2(part 3(wing 4 5 6 7)(hatch 8 9 10)(void 11 12 13)))"),
            Ok(Form::Hold(Hold {
                n: 1,
                mode: Mode::Voided,
                sf: 2,
                parts: vec![Part::Section {
                    length: 3,
                    cells: vec![
                        Cell::Wing { width: 4, dist: 5, girder: 6, lip: 7 },
                        Cell::Hatch { width: 8, open: 9, lip: 10 },
                        Cell::Void { width: 11, depth: 12, lip: 13 },
                    ],
                }],
            }))
        );
        assert_eq!(
            read_form("(hold 1 partial 2 (part 3 4 5 6))"),
            Ok(Form::Hold(Hold {
                n: 1,
                mode: Mode::Partial,
                sf: 2,
                parts: vec![Part::PartlyFilled { length: 3, breadth: 4, void: 5, grain: 6 }],
            }))
        );
        assert_eq!(
            read_form("(hold 1 partial 2(split 3 4 5 6)(part 7 8 9 10)  ( split 11 12 13 14 ) )"),
            Ok(Form::Hold(Hold {
                n: 1,
                mode: Mode::Partial,
                sf: 2,
                parts: vec![
                    Part::Split { length: 3, run: 4, left: 5, right: 6 },
                    Part::PartlyFilled { length: 7, breadth: 8, void: 9, grain: 10 },
                    Part::Split { length: 11, run: 12, left: 13, right: 14 },
                ],
            }))
        );
        assert_eq!(read_form("(drop 999999999)"), Ok(Form::Drop(999_999_999)));
        assert_eq!(read_form(" ( judge ) "), Ok(Form::Judge));
        assert_eq!(read_form("(clear)"), Ok(Form::Clear));
    }

    #[test]
    fn what_is_not_one_of_the_shapes_is_14() {
        for line in [
            "()",
            "(1)",
            "((judge))",
            "((((a))))",
            "(a)",
            "(hold1)",
            "(judge1)",
            "(judge 1)",
            "(judge ())",
            "(clear clear)",
            "(drop)",
            "(drop a1)",
            "(drop (1))",
            "(drop 1 2)",
            "(ship 1 2 3)",
            "(ship newer 1 2)",
            "(ship new 1)",
            "(ship new 1 2 3)",
            "(ship new (1) 2)",
            "(load 1 2)",
            "(load 1 2 3 4)",
            "(column 1 2 (0 1 2 3 4 5 6 7 8))",
            "(column 1 2 (0 1 2 3 4 5 6 7 8 9 10))",
            "(column 1 2 0 1 2 3 4 5 6 7 8 9)",
            "(column 1 2)",
            "(hold 1 trimmed 12500)",
            "(hold 1 partial 12500)",
            "(hold 1 trimmed 12500 (part 1))",
            "(hold 1 trimmed 12500 (part 1 2 3 4))",
            "(hold 1 partial 12500 (part 1 (void 1 1 1)))",
            "(hold 1 trimmed 12500 (part 1 (wing 1 1 1)))",
            "(hold 1 trimmed 12500 (part 1 (hatch 1 1 1 1)))",
            "(hold 1 trimmed 12500 (part 1 (void 1 1)))",
            "(hold 1 trimmed 12500 (part 1 (well 1 1 1)))",
            "(hold 1 trimmed 12500 (piece 1 (void 1 1 1)))",
            "(hold 1 trimmed 12500 (part 1 (void 1 1 1) 5))",
            "(hold 1 trimmed 12500 (part 1 (void 1 1 1)) 5)",
            "(hold 1 filled 12500 (part 1 (void 1 1 1)))",
            "(hold 1 trimmed (part 1 (void 1 1 1)))",
        ] {
            assert_eq!(read_form(line), Err(Code::NoSuchShape), "{line:?}");
        }
    }

    #[test]
    fn one_to_six_parts_and_one_to_eight_cells() {
        let eight_cells = format!("(part 1{})", "(void 1 1 1)".repeat(8));
        let nine_cells = format!("(part 1{})", "(void 1 1 1)".repeat(9));
        for mode in ["trimmed", "voided"] {
            assert!(read_form(&hold_of(&[eight_cells.as_str(); 6], mode)).is_ok());
            assert_eq!(read_form(&hold_of(&["(part 1 (void 1 1 1))"; 7], mode)), Err(Code::NoSuchShape));
            assert_eq!(read_form(&hold_of(&[nine_cells.as_str()], mode)), Err(Code::NoSuchShape));
        }
        for six in [["(part 1 1 1 1)"; 6], ["(split 1 1 1 1)"; 6]] {
            assert!(read_form(&hold_of(&six, "partial")).is_ok());
            for seventh in ["(part 1 1 1 1)", "(split 1 1 1 1)"] {
                let seven = [&six[..], &[seventh]].concat();
                assert_eq!(read_form(&hold_of(&seven, "partial")), Err(Code::NoSuchShape));
            }
        }
    }

    #[test]
    fn a_split_has_four_numbers_in_a_partial_hold() {
        let (part, split, section) = ("(part 1 1 1 1)", "(split 1 1 1 1)", "(part 1 (void 1 1 1))");
        for parts in [vec![split], vec![split, part], vec![part, split, split, part], vec![split; 6]] {
            assert!(read_form(&hold_of(&parts, "partial")).is_ok(), "{parts:?}");
        }
        for mode in ["trimmed", "voided"] {
            for parts in [vec![split], vec![section, split], vec![split, section], vec!["(split 1 (void 1 1 1))"]] {
                assert_eq!(read_form(&hold_of(&parts, mode)), Err(Code::NoSuchShape), "{parts:?}");
            }
        }
        for part in [
            "(split)",
            "(split 1)",
            "(split 1 1 1)",
            "(split 1 1 1 1 1)",
            "(split 1 1 1 a)",
            "(split a 1 1 1)",
            "(split 1 1 1 a1)",
            "(split 1 1 (1 1))",
            "(split (1 1 1 1))",
            "(split 1 1 1 1 ())",
            "(split 1 (void 1 1 1))",
            "(split 1 1 1 1 (void 1 1 1))",
            "(split split 1 1 1 1)",
            "(split1 1 1 1)",
            "(splits 1 1 1 1)",
            "(spli 1 1 1 1)",
            "(splitt 1 1 1 1)",
            "(sp lit 1 1 1 1)",
            "(plit 1 1 1 1)",
            "(1 split 1 1 1)",
            "((split 1 1 1 1))",
            "split",
            "split 1 1 1 1",
            "(part 1 (split 1 1 1 1))",
        ] {
            for parts in [vec![part], vec![split, part], vec![part, split]] {
                assert_eq!(read_form(&hold_of(&parts, "partial")), Err(Code::NoSuchShape), "{parts:?}");
            }
        }
        for line in [
            "(split 1 1 1 1)",
            "((split 1 1 1 1))",
            "(show (split 1 1 1 1))",
            "(hold 1 split 12500 (split 1 1 1 1))",
            "(hold 1 partial (split 1 1 1 1))",
            "(split 1 partial 12500 (part 1 1 1 1))",
            "(show (hold 1 trimmed 12500 (split 1 1 1 1)))",
            "(show (hold 1 partial 12500 (split 1 1 1)))",
        ] {
            assert_eq!(read(line.as_bytes()).and_then(request), Err(Code::NoSuchShape), "{line:?}");
        }
        for part in ["(split 01 1 1 1)", "(split 1 1 1 00)", "(split 1 1000000000 1 1)", "(split 1 1 1a 1)"] {
            for mode in ["trimmed", "partial"] {
                assert_eq!(read_form(&hold_of(&[part], mode)), Err(Code::NotANumber), "{part:?}");
            }
        }
    }

    #[test]
    fn show_is_around_any_of_the_seven_forms_whatever_its_numbers() {
        for form in [
            "(ship new 0 999999999)",
            "(column 1 2 (9 8 7 6 5 4 3 2 1 0))",
            "(load 0 0 0)",
            "(hold 99 voided 2 (part 3 (wing 4 5 6 7) (hatch 8 9 10) (void 11 12 13)))",
            "(hold 1 partial 2 (part 3 4 5 6) (part 0 0 0 0))",
            "(hold 1 partial 2 (split 3 4 5 6))",
            "(hold 1 partial 2 (split 0 999999999 0 999999999) (part 0 0 0 0) (split 3 4 5 6))",
            "(drop 99)",
            "(judge)",
            "(clear)",
        ] {
            let tokens: Vec<Token> = read(form.as_bytes()).expect(form).collect();
            for line in [format!("(show {form})"), format!("(show{form})"), format!(" ( show  {form} ) ")] {
                assert_eq!(read_shown(&line), Ok(tokens.clone()), "{line:?}");
            }
        }
    }

    #[test]
    fn show_of_anything_else_is_14() {
        for line in [
            "(show)",
            "(show ())",
            "(show judge)",
            "(show show)",
            "(show 1)",
            "(show ((judge)))",
            "(show (show (judge)))",
            "(show (show))",
            "(show (judge) (judge))",
            "(show (judge) 1)",
            "(show (judge) judge)",
            "(show (judge) ())",
            "(show 1 (judge))",
            "(show show (judge))",
            "(show (part 1 (void 1 1 1)))",
            "(show (part 1 1 1 1))",
            "(show (void 1 1 1))",
            "(show (0 1 2 3 4 5 6 7 8 9))",
            "(show (answer 14))",
            "(show (total))",
            "(show(total))",
            "(show total)",
            "(show (total 1))",
            "(show (total) (judge))",
            "(show (judge) (total))",
            "(show (weight 1 1))",
            "(show(weight 0 0))",
            "(show (weighed 0))",
            "(show (unweigh))",
            "(show unweigh)",
            "(show weighed 0)",
            "(show (unweigh) (judge))",
            "(show (judge) (unweigh))",
            "(show (judge 1))",
            "(show (judge1))",
            "(show (drop))",
            "(show (drop a))",
            "(show (ship newer 1 2))",
            "(show (hold 1 trimmed 12500))",
            "(show (hold 1 partial 12500 (part 1 (void 1 1 1))))",
            "(show (hold 1 trimmed 12500 (part 1 (void 1 1 (1)))))",
            "(show (a (b (c (d)))))",
            "(show1 (judge))",
            "(shown (judge))",
            "(sho (judge))",
            "(showw (judge))",
            "(sho w (judge))",
            "((show) (judge))",
            "((show (judge)))",
        ] {
            assert_eq!(read(line.as_bytes()).and_then(request), Err(Code::NoSuchShape), "{line:?}");
        }
    }

    #[test]
    fn total_stands_alone() {
        for line in ["(total)", " ( total ) ", "(total   )"] {
            assert_eq!(read(line.as_bytes()).and_then(request), Ok(Request::Total), "{line:?}");
        }
        for line in [
            "(total 1)",
            "(total 0)",
            "(total a)",
            "(total total)",
            "(total ())",
            "(total (1))",
            "(total (total))",
            "(total (judge))",
            "(total (a (b (c))))",
            "((total))",
            "((((total))))",
            "((total) 1)",
            "(1 total)",
            "(total1)",
            "(totals)",
            "(tota)",
            "(to tal)",
            "(judge total)",
            "(clear (total))",
        ] {
            assert_eq!(read(line.as_bytes()).and_then(request), Err(Code::NoSuchShape), "{line:?}");
        }
    }

    #[test]
    fn weight_has_two_numbers_weighed_one_and_unweigh_none() {
        let item = |tonnes: i128, height: i128| Ok(Request::Weight(Item { tonnes, height }));
        for (line, wanted) in [
            ("(weight 1 2)", item(1, 2)),
            (" ( weight  0   999999999 ) ", item(0, 999_999_999)),
            ("(weight 999999999 0)", item(999_999_999, 0)),
            ("(weighed 0)", Ok(Request::Weighed(0))),
            ("( weighed 999999999)", Ok(Request::Weighed(999_999_999))),
            ("(unweigh)", Ok(Request::Unweigh)),
            (" ( unweigh ) ", Ok(Request::Unweigh)),
        ] {
            assert_eq!(read(line.as_bytes()).and_then(request), wanted, "{line:?}");
        }
        for line in [
            "(weight)",
            "(weight 1)",
            "(weight 1 2 3)",
            "(weight a 2)",
            "(weight 1 a)",
            "(weight 1 a2)",
            "(weight (1) 2)",
            "(weight 1 (2))",
            "(weight (1 2))",
            "(weight 1 2 ())",
            "(weight weight 1 2)",
            "(weight1 2)",
            "(1 weight 2)",
            "(weigh 1 2)",
            "(weights 1 2)",
            "(weighed)",
            "(weighed 1 2)",
            "(weighed a)",
            "(weighed (1))",
            "(weighed ())",
            "(weighed weighed)",
            "(weighd 0)",
            "(weighing 0)",
            "(weighed0)",
            "(unweigh 0)",
            "(unweigh ())",
            "(unweigh unweigh)",
            "(unweigh (unweigh))",
            "(unweighed)",
            "(un weigh)",
            "((unweigh))",
            "((weighed 0))",
            "(clear (unweigh))",
            "(clear unweigh)",
        ] {
            assert_eq!(read(line.as_bytes()).and_then(request), Err(Code::NoSuchShape), "{line:?}");
        }
        for line in ["(weight 007 1)", "(weight 1 00)", "(weighed 01)", "(weighed 1000000000)", "(unweigh 0a)"] {
            assert_eq!(read(line.as_bytes()).and_then(request), Err(Code::NotANumber), "{line:?}");
        }
    }

    #[test]
    fn a_shape_is_looked_for_before_any_limit() {
        assert_eq!(read_form("(hold 99 filled 1 (part 0 (void 0 0 0)))"), Err(Code::NoSuchShape));
        assert!(read_form("(hold 99 trimmed 1 (part 0 (void 0 0 0)))").is_ok());
    }
}

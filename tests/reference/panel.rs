//! The condition, each operation on it, and the replies.

use std::io::Write;

use crate::arms::{self, Verdict};
use crate::code::Code;
use crate::grain;
use crate::limits;
use crate::line::{self, Tokens};
use crate::shape::{self, Column, Form, Hold, Item, Load, Request, Ship};
use crate::show::{self, LEAST_FOR_SHOW};
use crate::weights::Weights;

/// A lent reply buffer shorter than this is code 15.
pub const LEAST_BUFFER: usize = 96;
const MOST_COLUMNS: usize = 20;
const HOLD_COUNT: usize = 16;
/// Code 34 above these weight moments together, in kg·m.
pub const MOST_WEIGHT_MOMENT: i128 = 1_000_000_000;

/// One loading condition of one ship. Of a hold only the weight moment is kept, worked out when it is taken, since
/// no reply depends on more of it.
#[derive(Clone, Debug, Default, PartialEq, Eq)]
pub struct Condition {
    ship: Option<Ship>,
    columns: Vec<Column>,
    load: Option<Load>,
    weight_moments: [Option<i128>; HOLD_COUNT],
    weights: Weights,
}

/// What the panel replies to a line.
#[derive(Clone, Copy, Debug, PartialEq, Eq)]
enum Reply<'a> {
    /// `(answer CC)`
    Answer(Code),
    /// `(answer 00 W)`, of total
    Total(i128),
    /// The form that show is around, in one spelling
    Shown(Tokens<'a>),
    /// `(verdict CC)`, of 30 to 34
    NoVerdict(Code),
    /// `(verdict CC GM DIFF UPPER AREA)`
    Verdict(Verdict),
}

impl Condition {
    /// Takes one line and writes its reply at the front of the lent buffer. Answers the code and the reply's length.
    pub fn step(&mut self, line: &[u8], buffer: &mut [u8]) -> (Code, usize) {
        if buffer.len() < LEAST_BUFFER {
            return (Code::ShortBuffer, 0);
        }
        let reply = self.reply_to(line, buffer.len());
        (reply.code(), reply.write(buffer))
    }

    /// The reply to a line where this many bytes are lent.
    fn reply_to<'a>(&mut self, line: &'a [u8], lent: usize) -> Reply<'a> {
        match line::read(line).and_then(shape::request) {
            Ok(Request::Form(form)) => self.take(form),
            Ok(Request::Show(_)) if lent < LEAST_FOR_SHOW => Reply::Answer(Code::ShortForShow),
            Ok(Request::Show(shown)) => Reply::Shown(shown),
            Ok(Request::Total) => Reply::Total(self.total_weight_moment()),
            Ok(Request::Weight(item)) => Reply::answer(self.take_item(item)),
            Ok(Request::Weighed(fs)) => Reply::answer(self.take_weighed_load(fs)),
            Ok(Request::Unweigh) => Reply::answer(self.unweigh()),
            Err(code) => Reply::Answer(code),
        }
    }

    fn take(&mut self, form: Form) -> Reply<'static> {
        let done = match form {
            Form::Judge => return self.judge(),
            Form::Ship(ship) => self.take_ship(ship),
            Form::Column(column) => self.take_column(column),
            Form::Load(load) => self.take_load(load),
            Form::Hold(hold) => self.take_hold(&hold),
            Form::Drop(n) => self.drop_hold(n),
            Form::Clear => self.clear(),
        };
        Reply::answer(done)
    }

    /// A new ship replaces the former one.
    fn take_ship(&mut self, ship: Ship) -> Result<(), Code> {
        if !limits::ship(&ship) {
            return Err(Code::OutOfLimits);
        }
        self.ship = Some(ship);
        Ok(())
    }

    /// At most 20 columns, each D above the one before.
    fn take_column(&mut self, column: Column) -> Result<(), Code> {
        if !limits::column(&column) {
            return Err(Code::OutOfLimits);
        }
        if self.columns.len() == MOST_COLUMNS {
            return Err(Code::TwentyColumns);
        }
        if self.columns.last().is_some_and(|last| column.d <= last.d) {
            return Err(Code::ColumnNotAbove);
        }
        self.columns.push(column);
        Ok(())
    }

    /// A new load replaces the former one.
    fn take_load(&mut self, load: Load) -> Result<(), Code> {
        if !limits::load(&load) {
            return Err(Code::OutOfLimits);
        }
        self.load = Some(load);
        Ok(())
    }

    /// A new hold N replaces the former one.
    fn take_hold(&mut self, hold: &Hold) -> Result<(), Code> {
        if !limits::hold(hold) {
            return Err(Code::OutOfLimits);
        }
        let Some(weight_moment) = grain::weight_moment(hold) else {
            return Err(Code::VoidDoesNotFit);
        };
        *self.held(hold.n) = Some(weight_moment);
        Ok(())
    }

    fn drop_hold(&mut self, n: i128) -> Result<(), Code> {
        if !limits::hold_number(n) {
            return Err(Code::OutOfLimits);
        }
        match self.held(n).take() {
            Some(_) => Ok(()),
            None => Err(Code::NoSuchHold),
        }
    }

    /// Clear empties everything.
    fn clear(&mut self) -> Result<(), Code> {
        self.ship = None;
        self.columns.clear();
        self.load = None;
        self.weight_moments = Default::default();
        self.unweigh()
    }

    /// A further item; two alike are two.
    fn take_item(&mut self, item: Item) -> Result<(), Code> {
        if !limits::item(&item) {
            return Err(Code::OutOfLimits);
        }
        self.weights.add(item)
    }

    /// The load that the items make replaces the former one; the items stay.
    fn take_weighed_load(&mut self, fs: i128) -> Result<(), Code> {
        if !limits::free_surface(fs) {
            return Err(Code::OutOfLimits);
        }
        self.load = Some(self.weights.load(fs)?);
        Ok(())
    }

    /// Removes all items, if there are any. The load stays.
    fn unweigh(&mut self) -> Result<(), Code> {
        self.weights.remove_all();
        Ok(())
    }

    /// The place of hold N, 1 to 16.
    fn held(&mut self, n: i128) -> &mut Option<i128> {
        &mut self.weight_moments[n as usize - 1]
    }

    /// W, the total weight moment, 0 without holds. It is added up hold by hold whenever it is asked for: a program that
    /// stores the sum (document 02, P4) is compared with it after every change.
    fn total_weight_moment(&self) -> i128 {
        self.weight_moments.iter().flatten().sum()
    }

    /// Codes 30 to 34 in their order, then the verdict. Changes nothing.
    fn judge(&self) -> Reply<'static> {
        let Some(ship) = &self.ship else {
            return Reply::NoVerdict(Code::NoShip);
        };
        if self.columns.len() < 2 {
            return Reply::NoVerdict(Code::FewerThanTwoColumns);
        }
        let Some(load) = &self.load else {
            return Reply::NoVerdict(Code::NoLoad);
        };
        let Some(around) = arms::columns_around(&self.columns, load.d) else {
            return Reply::NoVerdict(Code::OutsideColumns);
        };
        let weight_moment = self.total_weight_moment();
        if weight_moment > MOST_WEIGHT_MOMENT {
            return Reply::NoVerdict(Code::WeightMomentsTooHigh);
        }
        Reply::Verdict(arms::verdict(ship, around, load, weight_moment))
    }
}

impl Reply<'_> {
    /// `(answer CC)` to a line that was taken, or turned down with a code.
    fn answer(done: Result<(), Code>) -> Self {
        Reply::Answer(done.err().unwrap_or(Code::Done))
    }

    fn code(&self) -> Code {
        match self {
            Reply::Answer(code) | Reply::NoVerdict(code) => *code,
            Reply::Shown(_) | Reply::Total(_) => Code::Done,
            Reply::Verdict(verdict) => verdict.code,
        }
    }

    /// Writes the reply and its newline at the buffer's front and answers their length. The longest reply is far
    /// below 96 bytes, that of show below 2,100; the bytes behind it keep their contents.
    fn write(&self, buffer: &mut [u8]) -> usize {
        let lent = buffer.len();
        let mut left = buffer;
        let number = self.code().number();
        let written = match self {
            Reply::Answer(_) => writeln!(left, "(answer {number:02})"),
            Reply::Total(weight_moment) => writeln!(left, "(answer {number:02} {weight_moment})"),
            Reply::NoVerdict(_) => writeln!(left, "(verdict {number:02})"),
            Reply::Shown(form) => left.write_all(&show::spelled(*form)).and_then(|()| writeln!(left)),
            Reply::Verdict(Verdict { gm, diff, upper, area, .. }) => {
                writeln!(left, "(verdict {number:02} {gm} {diff} {upper} {area})")
            }
        };
        written.expect("the buffer holds every reply");
        lent - left.len()
    }
}

#[cfg(test)]
mod tests {
    use super::*;

    const RUN: [&str; 7] = [
        "(ship new 1430 3500)",
        "(column 20000 9000 (0 870 1740 2080 2600 3450 4300 5100 5850 6500))",
        "(column 30000 9000 (0 870 1740 2080 2600 3450 4300 5100 5850 6500))",
        "(load 25000 8000 100)",
        "(hold 1 trimmed 12500 (part 10000 (void 10000 500 5000)))",
        "(hold 2 partial 12500 (part 10000 12000 3000 6000))",
        "(judge)",
    ];
    const VERDICT: &str = "(verdict 00 900000 368832 3500 2012606617)\n";

    fn reply(condition: &mut Condition, line: &str) -> String {
        lent(condition, line, LEAST_BUFFER).1
    }

    /// The code and the reply of a line where this many bytes are lent; those behind the reply keep their contents.
    fn lent(condition: &mut Condition, line: &str, bytes: usize) -> (u8, String) {
        let mut buffer = vec![b'#'; bytes];
        let (code, length) = condition.step(line.as_bytes(), &mut buffer);
        assert!(buffer[length..].iter().all(|&byte| byte == b'#'), "{line}");
        (code.number(), String::from_utf8_lossy(&buffer[..length]).into_owned())
    }

    /// A show line's reply, which must come with 00.
    fn shown(condition: &mut Condition, line: &str) -> String {
        let (code, reply) = lent(condition, line, LEAST_FOR_SHOW);
        assert_eq!(code, 0, "{line}");
        reply
    }

    /// The condition after these lines, all of which are taken with 00.
    fn after(lines: &[&str]) -> Condition {
        let mut condition = Condition::default();
        for line in lines {
            assert_eq!(reply(&mut condition, line), "(answer 00)\n", "{line}");
        }
        condition
    }

    /// The code of one line sent to a condition; every code but 00 leaves the condition unchanged.
    fn code(condition: &mut Condition, line: &str) -> u8 {
        let before = condition.clone();
        let mut buffer = [0; LEAST_BUFFER];
        let (code, _) = condition.step(line.as_bytes(), &mut buffer);
        if code != Code::Done {
            assert_eq!(*condition, before, "{line}");
        }
        code.number()
    }

    #[test]
    fn the_panel_run() {
        let mut condition = after(&RUN[..6]);
        assert_eq!(condition.weight_moments[..3], [Some(118_548), Some(601_653), None]);
        assert_eq!(reply(&mut condition, RUN[6]), VERDICT);
        assert_eq!(reply(&mut condition, RUN[6]), VERDICT, "judge changes nothing");
    }

    #[test]
    fn after_a_clear_it_is_as_when_newly_started() {
        let mut condition = after(&RUN[..6]);
        assert_eq!(reply(&mut condition, "(clear)"), "(answer 00)\n");
        assert_eq!(condition, Condition::default());
    }

    #[test]
    fn fifteen_comes_before_everything_and_writes_nothing() {
        let mut condition = after(&RUN[..6]);
        let before = condition.clone();
        for line in ["(clear)", "(judge)", "(total)", "(weight 1 1)", "(weighed 0)", "(unweigh)", "A", ""] {
            let mut buffer = [b'#'; LEAST_BUFFER - 1];
            assert_eq!(condition.step(line.as_bytes(), &mut buffer), (Code::ShortBuffer, 0));
            assert_eq!(buffer, [b'#'; LEAST_BUFFER - 1]);
            assert_eq!(condition, before);
        }
    }

    #[test]
    fn the_bytes_behind_the_reply_keep_their_contents() {
        let mut condition = after(&RUN[..6]);
        let mut buffer = [b'#'; 200];
        let (code, length) = condition.step(b"(judge)", &mut buffer);
        assert_eq!((code, length), (Code::Done, VERDICT.len()));
        assert_eq!(&buffer[..length], VERDICT.as_bytes());
        assert!(buffer[length..].iter().all(|&byte| byte == b'#'));
    }

    #[test]
    fn the_longest_replies_fit_96_bytes() {
        let figures =
            Verdict { code: Code::LowGm, gm: -60_000_000, diff: -10_060_000_000, upper: 4_000, area: 200_000_000_000 };
        let mut buffer = [0; LEAST_BUFFER];
        let length = Reply::Verdict(figures).write(&mut buffer);
        assert_eq!(&buffer[..length], b"(verdict 40 -60000000 -10060000000 4000 200000000000)\n");
    }

    #[test]
    fn total_of_an_empty_condition_is_0() {
        let mut condition = Condition::default();
        assert_eq!(reply(&mut condition, "(total)"), "(answer 00 0)\n");
        assert_eq!(condition, Condition::default());
        let mut without_holds = after(&RUN[..4]);
        assert_eq!(reply(&mut without_holds, "(total)"), "(answer 00 0)\n");
    }

    #[test]
    fn total_follows_each_hold_that_is_new_replaced_or_dropped() {
        let mut condition = Condition::default();
        for (line, total) in [
            (RUN[4], 118_548),
            (RUN[5], 118_548 + 601_653),
            // Hold 2 with the stowage factor 10,000: 752,066.
            ("(hold 2 partial 10000 (part 10000 12000 3000 6000))", 118_548 + 752_066),
            ("(hold 2 partial 10000 (part 10000 12000 3000 6000))", 118_548 + 752_066),
            (RUN[5], 118_548 + 601_653),
            ("(hold 16 trimmed 12500 (part 10000 (void 10000 500 5000)))", 2 * 118_548 + 601_653),
            ("(hold 1 trimmed 12500 (part 10000 (void 10000 0 0)))", 118_548 + 601_653),
            ("(drop 1)", 118_548 + 601_653),
            ("(drop 2)", 118_548),
            ("(drop 16)", 0),
            (RUN[5], 601_653),
            ("(clear)", 0),
            (RUN[4], 118_548),
        ] {
            assert_eq!(reply(&mut condition, line), "(answer 00)\n", "{line}");
            let before = condition.clone();
            for _ in 0..2 {
                assert_eq!(reply(&mut condition, "(total)"), format!("(answer 00 {total})\n"), "{line}");
            }
            assert_eq!(condition, before, "total changes nothing");
        }
    }

    #[test]
    fn total_stays_after_a_line_that_is_turned_down_or_concerns_no_hold() {
        let mut condition = after(&RUN[..6]);
        for (line, number) in [
            ("(hold 1 trimmed 4999 (part 10000 (void 10000 500 5000)))", 20),
            ("(hold 17 trimmed 12500 (part 10000 (void 10000 500 5000)))", 20),
            ("(hold 3 partial 12500 (part 10000 0 3000 6000))", 20),
            ("(hold 1 trimmed 12500 (part 10000 (void 10000 500 1)))", 21),
            ("(hold 3 voided 12500 (part 10000 (void 10000 500 5000)) (part 10000 (void 10000 500 1)))", 21),
            ("(hold 1 trimmed 12500 (part 10000))", 14),
            ("(drop 17)", 20),
            ("(drop 3)", 24),
            ("(total 1)", 14),
            ("(show (total))", 14),
            ("(total 01)", 13),
            ("(total", 12),
            ("(Total)", 11),
            ("(clear 1)", 14),
            ("(judge)", 0),
            ("(ship old 1 1)", 0),
            ("(load 20000 1 0)", 0),
            ("(load 1 1 1)", 20),
        ] {
            assert_eq!(code(&mut condition, line), number, "{line}");
            assert_eq!(reply(&mut condition, "(total)"), "(answer 00 720201)\n", "{line}");
        }
        assert_eq!(shown(&mut condition, "(show (clear))"), "(clear)\n");
        assert_eq!(shown(&mut condition, "(show (drop 1))"), "(drop 1)\n");
        assert_eq!(reply(&mut condition, "(total)"), "(answer 00 720201)\n");
    }

    #[test]
    fn total_above_the_limit_of_34_is_shown() {
        let mut condition = after(&RUN[..4]);
        condition.weight_moments[0] = Some(999_999_999);
        condition.weight_moments[15] = Some(1);
        assert_eq!(reply(&mut condition, "(total)"), "(answer 00 1000000000)\n");
        condition.weight_moments[7] = Some(1);
        assert_eq!(code(&mut condition, "(judge)"), 34);
        assert_eq!(reply(&mut condition, "(total)"), "(answer 00 1000000001)\n");
    }

    #[test]
    fn the_greatest_total_is_32089682912() {
        let mut condition = Condition::default();
        let heaviest = "(part 60000 40000 9322 30000)".repeat(6);
        for n in 1..=16 {
            assert_eq!(code(&mut condition, &format!("(hold {n} partial 5000 {heaviest})")), 0);
            assert_eq!(reply(&mut condition, "(total)"), format!("(answer 00 {})\n", n * 2_005_605_182_i64));
        }
        assert_eq!(reply(&mut condition, "(total)"), "(answer 00 32089682912)\n");
        assert_eq!(code(&mut condition, "(drop 7)"), 0);
        assert_eq!(reply(&mut condition, "(total)"), "(answer 00 30084077730)\n");
    }

    /// The worked split: 829,453 kg·m.
    const SPLIT: &str = "(hold 2 partial 12500 (split 20000 10000 6000 6000))";

    #[test]
    fn a_hold_with_a_split_is_kept_replaced_dropped_and_totalled_as_any() {
        let mut condition = after(&RUN[..5]);
        for (line, total) in [
            (SPLIT, 118_548 + 829_453),
            (SPLIT, 118_548 + 829_453),
            // Beside a part of 535,149 kg·m: 597,264 and 925,728 thousandths of m⁴.
            ("(hold 2 partial 12500 (part 20000 12000 600 6000) (split 20000 10000 6000 6000))", 118_548 + 1_364_602),
            (RUN[5], 118_548 + 601_653),
            (SPLIT, 118_548 + 829_453),
            ("(hold 16 partial 12500 (split 20000 1715 6000 6000))", 118_548 + 829_453 + 1_203_304),
            ("(hold 1 partial 12500 (split 20000 20000 6000 6000))", 378_215 + 829_453 + 1_203_304),
            ("(drop 2)", 378_215 + 1_203_304),
            ("(drop 16)", 378_215),
            ("(clear)", 0),
        ] {
            assert_eq!(reply(&mut condition, line), "(answer 00)\n", "{line}");
            assert_eq!(reply(&mut condition, "(total)"), format!("(answer 00 {total})\n"), "{line}");
        }
    }

    #[test]
    fn a_split_turned_down_keeps_the_former_hold() {
        let mut condition = after(&[&RUN[..5], &[SPLIT]].concat());
        let verdict = reply(&mut condition, RUN[6]);
        for (line, number) in [
            ("(hold 2 partial 12500 (split 20000 20001 6000 6000))", 20),
            ("(hold 2 partial 12500 (split 20000 0 6000 6000))", 20),
            ("(hold 2 partial 12500 (split 20000 10000 0 6000))", 20),
            ("(hold 2 partial 12500 (split 20000 10000 6000 34001))", 20),
            ("(hold 2 partial 12500 (split 20000 10000 6000 6000) (split 60001 10000 6000 6000))", 20),
            ("(hold 3 partial 12500 (split 20000 10000 65535 1))", 20),
            ("(hold 17 partial 12500 (split 20000 10000 6000 6000))", 20),
            ("(hold 2 trimmed 12500 (split 20000 10000 6000 6000))", 14),
            ("(hold 2 voided 12500 (part 20000 (void 1 1 1)) (split 20000 10000 6000 6000))", 14),
            // 14 comes before 20, and 13 before 14.
            ("(hold 2 trimmed 12500 (split 0 0 0 0))", 14),
            ("(hold 2 trimmed 12500 (split 00 0 0 0))", 13),
            ("(hold 2 partial 12500 (split 20000 10000 6000))", 14),
            ("(hold 2 partial 12500 (split 20000 10000 6000 6000)", 12),
            ("(hold 2 partial 12500 (Split 20000 10000 6000 6000))", 11),
            ("(split 20000 10000 6000 6000)", 14),
        ] {
            assert_eq!(code(&mut condition, line), number, "{line}");
        }
        assert_eq!(reply(&mut condition, RUN[6]), verdict);
        assert_eq!(reply(&mut condition, "(total)"), "(answer 00 948001)\n");
    }

    /// Two items that make the load of the panel run, and the line that makes it of them.
    const PARTS: [&str; 2] = ["(weight 20000 7000)", "(weight 5000 12000)"];
    const WEIGHED: &str = "(weighed 100)";

    /// The panel run without its load.
    fn run_without_load() -> Condition {
        after(&[&RUN[..3], &RUN[4..6]].concat())
    }

    #[test]
    fn the_panel_run_with_a_weighed_load() {
        let mut condition = run_without_load();
        assert_eq!(code(&mut condition, WEIGHED), 27, "no items");
        for line in PARTS {
            assert_eq!(reply(&mut condition, line), "(answer 00)\n");
            assert_eq!(code(&mut condition, "(judge)"), 32, "items alone are no load");
        }
        assert_eq!(reply(&mut condition, WEIGHED), "(answer 00)\n");
        assert_eq!(condition.load, Some(Load { d: 25_000, kg: 8_000, fs: 100 }));
        assert_eq!(reply(&mut condition, RUN[6]), VERDICT);
        assert_eq!(reply(&mut condition, WEIGHED), "(answer 00)\n", "weighed keeps the items");
        assert_eq!(reply(&mut condition, RUN[6]), VERDICT);
    }

    #[test]
    fn a_weighed_load_replaces_the_former_one_and_is_replaced_by_a_load() {
        let mut condition = after(&[&RUN[..6], &PARTS].concat());
        assert_eq!(condition.load, Some(Load { d: 25_000, kg: 8_000, fs: 100 }), "weights leave the load");
        for (line, d, kg, fs) in [
            ("(load 20000 1 0)", 20_000, 1, 0),
            (WEIGHED, 25_000, 8_000, 100),
            ("(weighed 0)", 25_000, 8_000, 0),
            ("(weight 1 8001)", 25_000, 8_000, 0),
            ("(weighed 0)", 25_001, 8_001, 0),
            ("(load 400000 50000 10000)", 400_000, 50_000, 10_000),
            ("(weighed 10000)", 25_001, 8_001, 10_000),
            ("(unweigh)", 25_001, 8_001, 10_000),
        ] {
            assert_eq!(reply(&mut condition, line), "(answer 00)\n", "{line}");
            assert_eq!(condition.load, Some(Load { d, kg, fs }), "{line}");
        }
        assert_eq!(code(&mut condition, "(weighed 0)"), 27);
    }

    #[test]
    fn twenty_comes_before_26_and_27() {
        let mut condition = Condition::default();
        assert_eq!(code(&mut condition, "(weighed 10001)"), 20, "and the sum is under 100");
        assert_eq!(code(&mut condition, "(weighed 10000)"), 27);
        assert_eq!(code(&mut condition, "(weight 399999 0)"), 0);
        for line in ["(weight 2 50001)", "(weight 400001 0)", "(weight 0 0)", "(weight 999999999 999999999)"] {
            assert_eq!(code(&mut condition, line), 20, "{line}");
        }
        assert_eq!(code(&mut condition, "(weight 2 50000)"), 26);
        assert_eq!(code(&mut condition, "(weight 1 50000)"), 0);
        assert_eq!(code(&mut condition, "(weight 1 0)"), 26);
        assert_eq!(code(&mut condition, "(weighed 10001)"), 20);
        assert_eq!(code(&mut condition, "(weighed 10000)"), 0);
        // (399,999 × 0 + 50,000)/400,000 rounded up.
        assert_eq!(condition.load, Some(Load { d: 400_000, kg: 1, fs: 10_000 }));
    }

    #[test]
    fn twenty_seven_leaves_the_load() {
        let mut condition = after(&[&RUN[..6], &["(weight 99 1)"]].concat());
        assert_eq!(code(&mut condition, WEIGHED), 27);
        assert_eq!(reply(&mut condition, RUN[6]), VERDICT);
        assert_eq!(code(&mut condition, "(weight 1 1)"), 0);
        assert_eq!(code(&mut condition, WEIGHED), 0);
        assert_eq!(condition.load, Some(Load { d: 100, kg: 1, fs: 100 }));
    }

    #[test]
    fn unweigh_and_clear_remove_all_items() {
        for removal in ["(unweigh)", "(clear)"] {
            let mut condition = after(&[PARTS[0], PARTS[1], WEIGHED, removal]);
            assert_eq!(condition.weights, Weights::default(), "{removal}");
            assert_eq!(code(&mut condition, WEIGHED), 27, "{removal}");
            assert_eq!(code(&mut condition, removal), 0, "also where there are none");
            // What was weighed before does not count any more, for 26 either.
            for line in ["(weight 399900 3)", "(weight 100 3)", WEIGHED] {
                assert_eq!(code(&mut condition, line), 0, "{line}");
            }
            assert_eq!(condition.load, Some(Load { d: 400_000, kg: 3, fs: 100 }));
        }
    }

    #[test]
    fn unweigh_leaves_all_else() {
        let mut condition = after(&[&RUN[..6], &PARTS].concat());
        assert_eq!(reply(&mut condition, "(unweigh)"), "(answer 00)\n");
        assert_eq!(condition, after(&RUN[..6]));
        assert_eq!(reply(&mut condition, "(unweigh)"), "(answer 00)\n");
        assert_eq!(condition, after(&RUN[..6]));
    }

    #[test]
    fn every_other_line_leaves_the_items() {
        let mut condition = after(&[&RUN[..6], &PARTS].concat());
        let items = condition.weights.clone();
        for (line, number) in [
            ("(ship old 1 1)", 0),
            ("(ship new 0 1)", 20),
            ("(column 40000 9000 (0 0 0 0 0 0 0 0 0 0))", 0),
            ("(column 40000 9000 (0 0 0 0 0 0 0 0 0 0))", 22),
            ("(column 99 9000 (0 0 0 0 0 0 0 0 0 0))", 20),
            ("(load 20000 1 0)", 0),
            ("(load 99 1 0)", 20),
            ("(hold 1 partial 12500 (part 1 1 1 1))", 0),
            ("(hold 1 trimmed 12500 (part 10000 (void 10000 500 1)))", 21),
            ("(hold 17 partial 12500 (part 1 1 1 1))", 20),
            ("(drop 1)", 0),
            ("(drop 1)", 24),
            ("(drop 17)", 20),
            ("(judge)", 43),
            ("(total)", 0),
            ("(weighed 0)", 0),
            ("(weighed 10001)", 20),
            ("(weight 0 1)", 20),
            ("(weight 1 50001)", 20),
            ("(weight 375001 1)", 26),
            ("(weight 400000 1)", 26),
            ("(weight 1)", 14),
            ("(weight 1 1 1)", 14),
            ("(weight 01 1)", 13),
            ("(weight 1 1", 12),
            ("(Weight 1 1)", 11),
            ("(unweigh 1)", 14),
            ("(unweigh 01)", 13),
            ("(unweigh", 12),
            ("(unweigh)\r", 11),
            ("(show (unweigh))", 14),
            ("(show (weight 1 1))", 14),
            ("(show (weighed 0))", 14),
            ("(clear 1)", 14),
            ("(clear", 12),
            ("(clear)\r", 11),
        ] {
            assert_eq!(code(&mut condition, line), number, "{line}");
            assert_eq!(condition.weights, items, "{line}");
        }
        for form in ["(clear)", "(load 100 1 0)", "(drop 2)"] {
            assert_eq!(shown(&mut condition, &format!("(show {form})")), format!("{form}\n"));
            assert_eq!(condition.weights, items, "{form} shown");
        }
        assert_eq!(code(&mut condition, WEIGHED), 0);
        assert_eq!(condition.load, Some(Load { d: 25_000, kg: 8_000, fs: 100 }));
    }

    #[test]
    fn a_weighed_load_of_400000_tonnes_and_one_of_100_are_judged() {
        let columns = [100, 400_000].map(|d| format!("(column {d} 50000 (0 0 0 0 0 0 0 0 0 0))"));
        let mut condition = after(&[RUN[0], &columns[0], &columns[1]]);
        assert_eq!(code(&mut condition, "(weight 100 0)"), 0);
        assert_eq!(code(&mut condition, "(weighed 0)"), 0);
        // KG 1: 50,000 − 1 mm, and −0.207912 mm rounded down.
        assert_eq!(reply(&mut condition, "(judge)"), "(verdict 41 49999000 -208 0 0)\n");
        assert_eq!(code(&mut condition, "(weight 399900 50000)"), 0);
        assert_eq!(code(&mut condition, "(weighed 0)"), 0);
        // 399,900 × 50,000/400,000 is 49,987.5.
        assert_eq!(reply(&mut condition, "(judge)").split(' ').nth(2), Some("12000"));
    }

    #[test]
    fn ship_load_and_hold_replace_the_former_ones() {
        let mut condition = after(&RUN[..6]);
        for line in ["(ship old 1 1)", "(load 20000 1 0)", "(hold 2 partial 12500 (part 1 1 1 1))"] {
            assert_eq!(code(&mut condition, line), 0);
        }
        assert_eq!(reply(&mut condition, RUN[6]).split(' ').nth(4), Some("1"), "FLOOD 1");
        for line in [RUN[0], RUN[3], RUN[5]] {
            assert_eq!(code(&mut condition, line), 0);
        }
        assert_eq!(reply(&mut condition, RUN[6]), VERDICT);
    }

    #[test]
    fn a_refused_record_keeps_the_former_one() {
        let mut condition = after(&RUN[..6]);
        for (line, number) in [
            ("(ship new 0 3500)", 20),
            ("(ship old 9001 3500)", 20),
            ("(load 25000 8000 10001)", 20),
            ("(hold 1 trimmed 12500 (part 10000 (void 10000 500 1)))", 21),
            ("(hold 1 trimmed 12500 (part 10000 (void 10000 500 1)) (part 0 (void 1 1 1)))", 20),
            ("(hold 17 trimmed 12500 (part 10000 (void 10000 500 5000)))", 20),
            ("(hold 1 trimmed 12500 (part 10000))", 14),
            ("(drop 0)", 20),
            ("(drop 17)", 20),
            ("(drop 3)", 24),
            ("(drop 01)", 13),
            ("(drop 1", 12),
            ("(drop 1) \r", 11),
        ] {
            assert_eq!(code(&mut condition, line), number, "{line}");
        }
        assert_eq!(reply(&mut condition, RUN[6]), VERDICT);
    }

    #[test]
    fn columns_20_then_23_then_22() {
        let column = |d: i128| format!("(column {d} 9000 (0 0 0 0 0 0 0 0 0 0))");
        let bad_kn = |d: i128| format!("(column {d} 9000 (1 0 0 0 0 0 0 0 0 0))");
        let mut condition = Condition::default();
        assert_eq!(code(&mut condition, &column(100)), 0);
        assert_eq!(code(&mut condition, &column(100)), 22);
        assert_eq!(code(&mut condition, &bad_kn(100)), 20);
        assert_eq!(code(&mut condition, &column(99)), 20);
        for d in 101..120 {
            assert_eq!(code(&mut condition, &column(d)), 0);
        }
        assert_eq!(code(&mut condition, &column(120)), 23);
        assert_eq!(code(&mut condition, &column(119)), 23);
        assert_eq!(code(&mut condition, &bad_kn(119)), 20);
    }

    #[test]
    fn judge_30_to_34_in_their_order_without_figures() {
        let mut condition = Condition::default();
        assert_eq!(reply(&mut condition, "(judge)"), "(verdict 30)\n");
        let heaviest = "(part 60000 40000 30000 30000)".repeat(6);
        for n in 1..=2 {
            assert_eq!(code(&mut condition, &format!("(hold {n} partial 5000 {heaviest})")), 0);
        }
        assert_eq!(code(&mut condition, "(judge)"), 30);
        assert_eq!(code(&mut condition, RUN[0]), 0);
        assert_eq!(reply(&mut condition, "(judge)"), "(verdict 31)\n");
        assert_eq!(code(&mut condition, RUN[1]), 0);
        assert_eq!(code(&mut condition, "(judge)"), 31);
        assert_eq!(code(&mut condition, RUN[2]), 0);
        assert_eq!(reply(&mut condition, "(judge)"), "(verdict 32)\n");
        for d in [19_999, 30_001] {
            assert_eq!(code(&mut condition, &format!("(load {d} 8000 100)")), 0);
            assert_eq!(reply(&mut condition, "(judge)"), "(verdict 33)\n");
        }
        for d in [20_000, 30_000] {
            assert_eq!(code(&mut condition, &format!("(load {d} 8000 100)")), 0);
            assert_eq!(reply(&mut condition, "(judge)"), "(verdict 34)\n");
        }
    }

    #[test]
    fn weight_moments_together_of_1000000000_are_not_34() {
        let mut condition = after(&RUN[..4]);
        condition.weight_moments[0] = Some(999_999_999);
        condition.weight_moments[15] = Some(1);
        assert_eq!(code(&mut condition, "(judge)"), 41);
        condition.weight_moments[7] = Some(1);
        assert_eq!(code(&mut condition, "(judge)"), 34);
    }

    #[test]
    fn drop_takes_one_hold_away() {
        let mut condition = after(&RUN[..6]);
        assert_eq!(code(&mut condition, "(drop 2)"), 0);
        assert_eq!(condition.total_weight_moment(), 118_548);
        assert_eq!(code(&mut condition, "(drop 2)"), 24);
        assert_eq!(code(&mut condition, "(drop 1)"), 0);
        assert_eq!(condition.total_weight_moment(), 0);
        // Without holds DIFF is the righting arm: 2,080,000 − 8,100 × 207.912 rounded up.
        assert_eq!(reply(&mut condition, "(judge)").split(' ').nth(3), Some("395912"));
    }

    #[test]
    fn show_replies_with_the_form_and_no_code() {
        let mut condition = Condition::default();
        for (line, right) in [
            ("(show (judge))", "(judge)\n"),
            ("(show(clear))", "(clear)\n"),
            (" ( show ( drop  99 ) ) ", "(drop 99)\n"),
            ("(show(load 999999999 0 65536))", "(load 999999999 0 65536)\n"),
            ("(show (ship old 0 9001))", "(ship old 0 9001)\n"),
            ("(show(hold 17 trimmed 0(part 0(void 1 1 0))))", "(hold 17 trimmed 0 (part 0 (void 1 1 0)))\n"),
            ("(show(hold 0 partial 0(split 0 65536 9 0)))", "(hold 0 partial 0 (split 0 65536 9 0))\n"),
        ] {
            assert_eq!(shown(&mut condition, line), right, "{line}");
        }
    }

    #[test]
    fn show_never_changes_the_condition() {
        let mut condition = after(&RUN[..6]);
        let before = condition.clone();
        let others =
            ["(clear)", "(drop 1)", "(ship old 1 1)", "(load 25000 1 0)", "(hold 1 partial 5000 (part 1 1 1 1))"];
        for form in RUN.iter().chain(&others) {
            assert_eq!(shown(&mut condition, &format!("(show {form})")), format!("{form}\n"));
            assert_eq!(condition, before, "{form}");
        }
        assert_eq!(reply(&mut condition, RUN[6]), VERDICT);
    }

    #[test]
    fn a_condition_of_shown_lines_is_that_of_the_lines() {
        let mut condition = Condition::default();
        for line in &RUN[..6] {
            let spaced = line.replace(" (", "(").replace(' ', "   ").replace(')', " ) ");
            let copied = shown(&mut condition, &format!("(show {spaced})"));
            assert_eq!(copied, format!("{line}\n"));
            assert_eq!(code(&mut condition, copied.trim_end()), 0, "{line}");
        }
        assert_eq!(condition, after(&RUN[..6]));
    }

    #[test]
    fn sixteen_comes_after_14_and_fifteen_before_everything() {
        let mut condition = after(&RUN[..6]);
        let before = condition.clone();
        for bytes in [0, 1, 95] {
            for line in ["(show (clear))", "(show)", "(show (drop 01))", "A"] {
                assert_eq!(lent(&mut condition, line, bytes), (15, String::new()), "{line} lent {bytes}");
            }
        }
        for bytes in [96, 97, 2_099] {
            for (line, number) in [
                ("(show (clear))", 16),
                ("(show (drop 99))", 16),
                ("(show)", 14),
                ("(show (show (judge)))", 14),
                ("(show (total))", 14),
                ("(show (unweigh))", 14),
                ("(show (a (b (c (d)))))", 14),
                ("(show (drop 01))", 13),
                ("(show (judge)", 12),
                ("(Show (judge))", 11),
                (&format!("(show (judge){})", " ".repeat(2_000)), 10),
                ("(clear 1)", 14),
                ("(drop 99)", 20),
            ] {
                assert_eq!(lent(&mut condition, line, bytes), (number, format!("(answer {number})\n")), "{line}");
            }
            assert_eq!(lent(&mut condition, "(judge)", bytes), (0, VERDICT.to_string()), "96 bytes are enough");
            assert_eq!(lent(&mut condition, "(total)", bytes), (0, "(answer 00 720201)\n".to_string()));
        }
        for bytes in [2_100, 2_101, 5_000] {
            assert_eq!(lent(&mut condition, "(show (clear))", bytes), (0, "(clear)\n".to_string()));
            assert_eq!(lent(&mut condition, "(show)", bytes), (14, "(answer 14)\n".to_string()));
        }
        assert_eq!(condition, before);
    }

    /// A show line of this many bytes around the hold form with the most inner forms, 54, with no space but the needed
    /// ones, and the form in the one spelling.
    fn show_of_54_inner_forms(length: usize) -> (String, String) {
        let mut numbers = 0;
        let mut line = String::new();
        let mut spelled = String::new();
        // Each pass makes the line's numbers one digit longer, one after the other, until it is long enough.
        while line.len() < length {
            let mut place = 0;
            let mut next = || {
                place += 1;
                "9".repeat(1 + numbers / 200 + usize::from(place <= numbers % 200))
            };
            let parts: Vec<String> = (0..6)
                .map(|_| {
                    let cells: Vec<String> =
                        (0..8).map(|_| format!("(wing {} {} {} {})", next(), next(), next(), next())).collect();
                    format!("(part {} {})", next(), cells.join(" "))
                })
                .collect();
            spelled = format!("(hold {} trimmed {} {})", next(), next(), parts.join(" "));
            line = format!("(show{})", spelled.replace(" (", "("));
            numbers += 1;
        }
        assert_eq!(line.len(), length);
        (line, spelled)
    }

    #[test]
    fn the_longest_reply_of_show_has_2049_bytes() {
        let mut condition = Condition::default();
        let (line, spelled) = show_of_54_inner_forms(2_000);
        let reply = shown(&mut condition, &line);
        assert_eq!(reply, format!("{spelled}\n"));
        assert_eq!(reply.len(), 2_049);
        assert_eq!(code(&mut condition, &spelled), 10, "as a line it is too long");
        let (longer, _) = show_of_54_inner_forms(2_001);
        assert_eq!(code(&mut condition, &longer), 10);
    }

    #[test]
    fn a_reply_of_2000_bytes_is_read_as_the_same_form() {
        let mut condition = Condition::default();
        let (line, spelled) = show_of_54_inner_forms(1_952);
        assert_eq!(shown(&mut condition, &line), format!("{spelled}\n"));
        assert_eq!(spelled.len(), 2_000);
        assert_eq!(code(&mut condition, &spelled), 20);
        assert_eq!(code(&mut condition, &format!("(show {spelled})")), 10);
        let (_, one_more) = show_of_54_inner_forms(1_953);
        assert_eq!(code(&mut condition, &one_more), 10);
    }

    #[test]
    fn readings_of_lines() {
        let mut condition = Condition::default();
        for (line, number) in [
            ("", 12),
            ("judge", 12),
            ("(((((a)))))", 12),
            ("((((a))))", 14),
            ("()", 14),
            ("(12ab)", 13),
            ("(ab12)", 14),
            ("(hold1)", 14),
            ("(00)", 13),
            ("(01)", 13),
            ("(drop 1000000000)", 13),
            ("(drop 999999999)", 20),
            ("(drop 00", 12),
            ("(judge 00 A)", 11),
            ("(clear)\r", 11),
            ("(hold 1 trimmed 12500(part 1(void 1 1 2)))", 0),
            ("(hold 1 partial 12500(part 0(void 1 1 2)))", 14),
            ("(show (a (b (c (d)))))", 14),
            ("(show (a (b (c (01)))))", 13),
            ("(shown (a (b (c (d)))))", 12),
            ("((show (a (b (c)))))", 12),
            ("(show (a (b (c (d (e))))))", 12),
        ] {
            assert_eq!(code(&mut condition, line), number, "{line:?}");
        }
    }
}

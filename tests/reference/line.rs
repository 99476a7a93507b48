//! A line's bytes, brackets, runs and numbers: codes 10 to 13.

use crate::code::Code;

/// The longest line, in bytes, that is not code 10.
pub const LONGEST_LINE: usize = 2_000;
/// The deepest nesting; the outer bracket is depth 1.
const DEEPEST: usize = 4;
/// The deepest nesting of a line whose outer form begins with the word `show` (document 02, P2).
const DEEPEST_OF_SHOW: usize = 5;
/// A number has at most nine digits: 0 to 999,999,999.
const MOST_DIGITS: usize = 9;

/// A bracket, or a run: a longest stretch of letters and digits, as the very bytes of the line.
#[derive(Clone, Copy, Debug, PartialEq, Eq)]
pub enum Token<'a> {
    Open,
    Close,
    Run(&'a [u8]),
}

/// The brackets and runs of a line whose bytes are all right, in their order.
#[derive(Clone, Copy, Debug, PartialEq, Eq)]
pub struct Tokens<'a> {
    rest: &'a [u8],
}

/// Codes 10 to 13, each test made over the entire line before the next; then the line's tokens.
pub fn read(line: &[u8]) -> Result<Tokens<'_>, Code> {
    if line.len() > LONGEST_LINE {
        return Err(Code::LongerThan2000);
    }
    if !line.iter().all(|&byte| is_panel_byte(byte)) {
        return Err(Code::WrongByte);
    }
    let tokens = Tokens { rest: line };
    if !is_one_closed_form(line, deepest(tokens)) {
        return Err(Code::NotOneForm);
    }
    if !every_number_is_sound(tokens) {
        return Err(Code::NotANumber);
    }
    Ok(tokens)
}

/// Code 11: brackets, space, a to z, 0 to 9.
fn is_panel_byte(byte: u8) -> bool {
    matches!(byte, b'(' | b')' | b' ') || is_run_byte(byte)
}

fn is_run_byte(byte: u8) -> bool {
    matches!(byte, b'a'..=b'z' | b'0'..=b'9')
}

/// How deep a line may be nested: the first item of its outer form decides. Of a line that is not one form, which is
/// code 12 at any depth, it does not matter.
fn deepest(tokens: Tokens) -> usize {
    if tokens.begin_with(b"show") {
        DEEPEST_OF_SHOW
    } else {
        DEEPEST
    }
}

/// Code 12: exactly one closed form, only spaces outside it, nested at most so deep.
fn is_one_closed_form(line: &[u8], deepest: usize) -> bool {
    let mut forms = 0;
    let mut depth = 0;
    for &byte in line {
        match byte {
            b'(' => {
                if depth == 0 {
                    forms += 1;
                }
                depth += 1;
                if depth > deepest {
                    return false;
                }
            }
            b')' => {
                if depth == 0 {
                    return false;
                }
                depth -= 1;
            }
            b' ' => {}
            _ => {
                if depth == 0 {
                    return false;
                }
            }
        }
    }
    forms == 1 && depth == 0
}

/// Code 13: every run that begins with a digit is a number.
fn every_number_is_sound(tokens: Tokens) -> bool {
    for token in tokens {
        if let Token::Run(run) = token {
            if run[0].is_ascii_digit() && number(run).is_none() {
                return false;
            }
        }
    }
    true
}

/// The number a run spells: 0 to 999,999,999 without needless leading zeros.
pub fn number(run: &[u8]) -> Option<i128> {
    let leading_zero = run.len() > 1 && run[0] == b'0';
    if run.is_empty() || run.len() > MOST_DIGITS || leading_zero {
        return None;
    }
    let mut value: i128 = 0;
    for &byte in run {
        if !byte.is_ascii_digit() {
            return None;
        }
        value = 10 * value + i128::from(byte - b'0');
    }
    Some(value)
}

impl<'a> Tokens<'a> {
    /// Whether the first item of the outer form is this word.
    pub fn begin_with(mut self, word: &[u8]) -> bool {
        self.next() == Some(Token::Open) && self.next() == Some(Token::Run(word))
    }

    /// Those of the tokens that come before `later`, which is what is left of them after some calls of `next`.
    pub fn before(self, later: Tokens<'a>) -> Tokens<'a> {
        Tokens { rest: &self.rest[..self.rest.len() - later.rest.len()] }
    }
}

impl<'a> Iterator for Tokens<'a> {
    type Item = Token<'a>;

    fn next(&mut self) -> Option<Token<'a>> {
        while let Some((b' ', behind)) = self.rest.split_first() {
            self.rest = behind;
        }
        let (&first, behind) = self.rest.split_first()?;
        match first {
            b'(' => {
                self.rest = behind;
                Some(Token::Open)
            }
            b')' => {
                self.rest = behind;
                Some(Token::Close)
            }
            _ => {
                let ends = |&byte: &u8| !is_run_byte(byte);
                let length = self.rest.iter().position(ends).unwrap_or(self.rest.len());
                let (run, behind) = self.rest.split_at(length);
                self.rest = behind;
                Some(Token::Run(run))
            }
        }
    }
}

#[cfg(test)]
mod tests {
    use super::*;

    fn code(line: &[u8]) -> Code {
        match read(line) {
            Ok(_) => Code::Done,
            Err(code) => code,
        }
    }

    #[test]
    fn ten_is_above_2000_bytes() {
        let mut line = b"(judge)".to_vec();
        line.resize(2_000, b' ');
        assert_eq!(code(&line), Code::Done);
        line.push(b' ');
        assert_eq!(code(&line), Code::LongerThan2000);
        line[0] = b'A';
        assert_eq!(code(&line), Code::LongerThan2000, "10 comes before 11");
    }

    #[test]
    fn eleven_is_any_byte_but_brackets_space_letters_digits() {
        for byte in 0..=255u8 {
            let allowed = b"() abcdefghijklmnopqrstuvwxyz0123456789".contains(&byte);
            let line = [b'(', b'a', b' ', byte, b' ', b')'];
            let wrong_byte = code(&line) == Code::WrongByte;
            assert_eq!(wrong_byte, !allowed, "byte {byte}");
        }
        assert_eq!(code(b"(judge)\r"), Code::WrongByte);
        assert_eq!(code(b"(judge\n)"), Code::WrongByte);
        assert_eq!(code(b"(judge 00 A)"), Code::WrongByte, "11 comes before 13");
        assert_eq!(code(b"(judge 00 A"), Code::WrongByte, "11 comes before 12");
    }

    #[test]
    fn twelve_is_not_exactly_one_closed_form() {
        for line in [
            "",
            " ",
            "judge",
            "(",
            ")",
            ")(",
            "(judge",
            "judge)",
            "(judge))",
            "((judge)",
            "(judge)(judge)",
            "(judge) (judge)",
            "(judge) judge",
            "0 (judge)",
            "(judge)0",
            "(((((a)))))",
            "()()",
            "())(",
        ] {
            assert_eq!(code(line.as_bytes()), Code::NotOneForm, "{line:?}");
        }
        for line in ["()", "(judge)", "  ( judge )  ", "((((a))))", "(()())", "(a(b)(c(d(e))))", "(total(a(b(c))))"] {
            assert_eq!(code(line.as_bytes()), Code::Done, "{line:?}");
        }
        assert_eq!(code(b"(drop 00"), Code::NotOneForm, "12 comes before 13");
    }

    #[test]
    fn five_deep_where_the_outer_form_begins_with_the_word_show_and_four_elsewhere() {
        for line in [
            "(show (a (b (c (d)))))",
            "(show(a(b(c(d)))))",
            "  (  show  (a(b(c(d)))))",
            "(show ((((a)))))",
            "(show (a (b (c (d)))) (e (f (g (h)))))",
            "(show a (b (c (d (e)))))",
        ] {
            assert_eq!(code(line.as_bytes()), Code::Done, "{line:?}");
        }
        for line in [
            "(show (a (b (c (d (e))))))",
            "(show (((((a))))))",
            "(show (a) (b (c (d (e (f))))))",
            "(shown (a (b (c (d)))))",
            "(sho (a (b (c (d)))))",
            "(showw (a (b (c (d)))))",
            "(show1 (a (b (c (d)))))",
            "(1show (a (b (c (d)))))",
            "(sh ow (a (b (c (d)))))",
            "(a show (b (c (d (e)))))",
            "(() show (b (c (d (e)))))",
            "((show (a (b (c)))))",
            "((((show))) (((((a))))))",
            "(judge (show (a (b (c)))))",
            "(total (a (b (c (d)))))",
            "(total (show (a (b (c)))))",
            "(show (a (b (c (d))))) (judge)",
            "(judge) (show (a (b (c (d)))))",
            "show (show (a (b (c (d)))))",
            "(show (a (b (c (d))))",
            "(show (a (b (c (d))))))",
        ] {
            assert_eq!(code(line.as_bytes()), Code::NotOneForm, "{line:?}");
        }
        assert_eq!(code(b"(show (a (b (c (01)))))"), Code::NotANumber);
        assert_eq!(code(b"(show (a (b (c (d (01))))))"), Code::NotOneForm, "12 comes before 13");
    }

    #[test]
    fn thirteen_is_a_run_that_begins_with_a_digit_and_is_no_number() {
        for line in
            ["(00)", "(01)", "(drop 010)", "(12ab)", "(0a)", "(1000000000)", "(99999999999999999999)", "(a (1z))"]
        {
            assert_eq!(code(line.as_bytes()), Code::NotANumber, "{line:?}");
        }
        for line in ["(0)", "(10)", "(999999999)", "(ab12)", "(a00)", "(hold1)", "(0 0)", "(0(0)0)"] {
            assert_eq!(code(line.as_bytes()), Code::Done, "{line:?}");
        }
    }

    #[test]
    fn numbers_are_read_to_their_value() {
        assert_eq!(number(b"0"), Some(0));
        assert_eq!(number(b"7"), Some(7));
        assert_eq!(number(b"999999999"), Some(999_999_999));
        assert_eq!(number(b"1000000000"), None);
        assert_eq!(number(b"00"), None);
        assert_eq!(number(b"12a"), None);
        assert_eq!(number(b"a12"), None);
    }

    #[test]
    fn runs_are_the_very_bytes_of_the_line() {
        let line = b" (part 1(void  20 a3) )";
        let tokens: Vec<Token> = read(line).unwrap_or(Tokens { rest: b"" }).collect();
        assert_eq!(
            tokens,
            [
                Token::Open,
                Token::Run(b"part"),
                Token::Run(b"1"),
                Token::Open,
                Token::Run(b"void"),
                Token::Run(b"20"),
                Token::Run(b"a3"),
                Token::Close,
                Token::Close,
            ]
        );
        let Token::Run(void) = tokens[4] else { panic!("the fifth token is a run") };
        assert_eq!(void.as_ptr(), line[9..].as_ptr());
    }
}

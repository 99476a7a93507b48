//! A form in one spelling: the reply to `(show FORM)` (document 02, P2), and code 16.

use crate::line::{Token, Tokens};

/// A show form that is lent a shorter reply buffer than this is code 16.
pub const LEAST_FOR_SHOW: usize = 2_100;

/// The form that these tokens are, with single spaces between items and nowhere else. Words and numbers are the very
/// bytes of the line.
pub fn spelled(form: Tokens) -> Vec<u8> {
    let mut spelling = Vec::new();
    for token in form {
        // No space stands at the front, none behind an opening bracket and none before a closing one.
        let is_next_item = token != Token::Close && !matches!(spelling.last(), None | Some(b'('));
        if is_next_item {
            spelling.push(b' ');
        }
        match token {
            Token::Open => spelling.push(b'('),
            Token::Close => spelling.push(b')'),
            Token::Run(run) => spelling.extend_from_slice(run),
        }
    }
    spelling
}

#[cfg(test)]
mod tests {
    use super::*;
    use crate::line::read;

    fn spelling(line: &str) -> String {
        String::from_utf8(spelled(read(line.as_bytes()).expect(line))).expect("panel bytes are plain text")
    }

    #[test]
    fn single_spaces_between_items_and_nowhere_else() {
        for (line, right) in [
            ("(judge)", "(judge)"),
            ("   (  judge  )   ", "(judge)"),
            ("( drop  99 )", "(drop 99)"),
            ("(column 1 2(0 1 2 3 4 5 6 7 8 9))", "(column 1 2 (0 1 2 3 4 5 6 7 8 9))"),
            ("(column   1   2   (   0 1 2 3 4 5 6 7 8 9   )   )", "(column 1 2 (0 1 2 3 4 5 6 7 8 9))"),
            ("(hold 1 partial 2(part 3 4 5 6)(part 7 8 9 10))", "(hold 1 partial 2 (part 3 4 5 6) (part 7 8 9 10))"),
            (
                "(hold 1 partial 2(split 3 4 5 6)( split 7  8 9 0))",
                "(hold 1 partial 2 (split 3 4 5 6) (split 7 8 9 0))",
            ),
            (
                "(hold 1 voided 2(part 3(wing 4 5 6 7)(hatch 8 9 10)  (  void 11 12 13 ) ) )",
                "(hold 1 voided 2 (part 3 (wing 4 5 6 7) (hatch 8 9 10) (void 11 12 13)))",
            ),
        ] {
            assert_eq!(spelling(line), right, "{line:?}");
        }
    }

    #[test]
    fn the_rule_holds_for_items_in_any_order() {
        assert_eq!(spelling("()"), "()");
        assert_eq!(spelling("( ( ) ( ) )"), "(() ())");
        assert_eq!(spelling("(a(b)c((d))1)"), "(a (b) c ((d)) 1)");
    }

    #[test]
    fn a_form_so_spelled_comes_back_unchanged() {
        for line in ["(clear)", "(load 1 2 3)", "(hold 1 trimmed 2 (part 3 (void 4 5 6)) (part 7 (void 8 9 0)))"] {
            assert_eq!(spelling(line), line);
        }
    }

    #[test]
    fn numbers_come_back_as_they_are_written() {
        for line in ["(drop 0)", "(drop 65535)", "(drop 65536)", "(drop 999999999)", "(ship old 999999999 0)"] {
            assert_eq!(spelling(line), line);
        }
    }
}

//! Standard input to standard output, within the two limits of the service.

use std::io::{self, ErrorKind, Read, Write};

use crate::line::LONGEST_LINE;
use crate::panel::Condition;
use crate::show::LEAST_FOR_SHOW;

const BLOCK: usize = 64 * 1024;

/// After so many lines or so many bytes the service ends. Byte 10 counts as a byte.
#[derive(Clone, Copy, Debug)]
pub struct ServiceLimits {
    pub lines: u64,
    pub bytes: u64,
}

impl Default for ServiceLimits {
    fn default() -> Self {
        ServiceLimits { lines: 4_000_000_000, bytes: 9_000_000_000_000 }
    }
}

/// Reads lines until the input or a limit ends, and writes one reply for each.
pub fn serve(input: &mut impl Read, output: &mut impl Write, limits: ServiceLimits) -> io::Result<()> {
    let mut panel = Panel::new(output);
    let mut block = vec![0; BLOCK];
    let mut begun = Vec::with_capacity(LONGEST_LINE + 1);
    let mut lines_left = limits.lines;
    let mut bytes_left = limits.bytes;
    while lines_left > 0 {
        // Whoever waits for a reply has it before the service waits for more input.
        panel.send()?;
        if bytes_left == 0 {
            // A line not ended at the last byte allowed is taken only if the input ends there too.
            if !begun.is_empty() && read_some(input, &mut block[..1])? == 0 {
                panel.take(&begun)?;
            }
            break;
        }
        let wanted = bytes_left.min(BLOCK as u64) as usize;
        let count = read_some(input, &mut block[..wanted])?;
        if count == 0 {
            if !begun.is_empty() {
                panel.take(&begun)?;
            }
            break;
        }
        bytes_left -= count as u64;
        let mut rest = &block[..count];
        while let Some(end) = rest.iter().position(|&byte| byte == b'\n') {
            if begun.is_empty() {
                panel.take(&rest[..end])?;
            } else {
                keep(&mut begun, &rest[..end]);
                panel.take(&begun)?;
                begun.clear();
            }
            rest = &rest[end + 1..];
            lines_left -= 1;
            if lines_left == 0 {
                break;
            }
        }
        keep(&mut begun, rest);
    }
    panel.send()
}

/// Adds bytes to a line that has begun, but never more than one byte above 2,000: that is already code 10.
fn keep(begun: &mut Vec<u8>, bytes: &[u8]) {
    let room = LONGEST_LINE + 1 - begun.len();
    begun.extend_from_slice(&bytes[..room.min(bytes.len())]);
}

/// Reads what is there, at least one byte unless the input has ended.
fn read_some(input: &mut impl Read, into: &mut [u8]) -> io::Result<usize> {
    loop {
        match input.read(into) {
            Err(error) if error.kind() == ErrorKind::Interrupted => {}
            result => return result,
        }
    }
}

/// The condition and the replies that are still to be sent.
struct Panel<'a, W: Write> {
    condition: Condition,
    replies: Vec<u8>,
    used: usize,
    output: &'a mut W,
}

impl<'a, W: Write> Panel<'a, W> {
    fn new(output: &'a mut W) -> Self {
        Panel { condition: Condition::default(), replies: vec![0; BLOCK], used: 0, output }
    }

    fn take(&mut self, line: &[u8]) -> io::Result<()> {
        // Every line is lent as much as a show form needs.
        if self.replies.len() - self.used < LEAST_FOR_SHOW {
            self.send()?;
        }
        let (_, length) = self.condition.step(line, &mut self.replies[self.used..]);
        self.used += length;
        Ok(())
    }

    fn send(&mut self) -> io::Result<()> {
        if self.used > 0 {
            self.output.write_all(&self.replies[..self.used])?;
            self.output.flush()?;
            self.used = 0;
        }
        Ok(())
    }
}

#[cfg(test)]
mod tests {
    use super::*;

    /// Hands out its bytes in pieces of at most this size.
    struct Pieces<'a> {
        bytes: &'a [u8],
        size: usize,
    }

    impl Read for Pieces<'_> {
        fn read(&mut self, into: &mut [u8]) -> io::Result<usize> {
            let count = self.size.min(into.len()).min(self.bytes.len());
            let (piece, behind) = self.bytes.split_at(count);
            into[..count].copy_from_slice(piece);
            self.bytes = behind;
            Ok(count)
        }
    }

    fn served_in_pieces(bytes: &[u8], size: usize, limits: ServiceLimits) -> String {
        let mut output = Vec::new();
        serve(&mut Pieces { bytes, size }, &mut output, limits).expect("no fault of input or output");
        String::from_utf8(output).expect("replies are plain text")
    }

    /// The output for an input, which is the same however the input comes in pieces.
    fn served(bytes: &[u8], limits: ServiceLimits) -> String {
        let whole = served_in_pieces(bytes, usize::MAX, limits);
        for size in [1, 2, 7, 4_096] {
            assert_eq!(served_in_pieces(bytes, size, limits), whole, "pieces of {size}");
        }
        whole
    }

    fn served_unlimited(bytes: &[u8]) -> String {
        served(bytes, ServiceLimits::default())
    }

    fn lines(lines: u64) -> ServiceLimits {
        ServiceLimits { lines, ..ServiceLimits::default() }
    }

    fn bytes(bytes: u64) -> ServiceLimits {
        ServiceLimits { bytes, ..ServiceLimits::default() }
    }

    #[test]
    fn no_input_is_no_line_and_a_lone_newline_is_one() {
        assert_eq!(served_unlimited(b""), "");
        assert_eq!(served_unlimited(b"\n"), "(answer 12)\n");
        assert_eq!(served_unlimited(b"\n\n"), "(answer 12)\n(answer 12)\n");
    }

    #[test]
    fn a_last_line_needs_no_newline() {
        assert_eq!(served_unlimited(b"(clear)\n(judge)"), "(answer 00)\n(verdict 30)\n");
        assert_eq!(served_unlimited(b"(clear)\n(judge)\n"), "(answer 00)\n(verdict 30)\n");
        assert_eq!(served_unlimited(b"(clear)\n "), "(answer 00)\n(answer 12)\n");
    }

    #[test]
    fn long_lines_in_pieces() {
        let mut input = b"(judge)".to_vec();
        input.resize(2_000, b' ');
        input.push(b'\n');
        input.extend_from_slice(b"(judge)");
        input.resize(2_001 + 2_001, b' ');
        input.push(b'\n');
        input.resize(input.len() + 300_000, b'x');
        input.extend_from_slice(b"\n(clear)");
        assert_eq!(served_unlimited(&input), "(verdict 30)\n(answer 10)\n(answer 10)\n(answer 00)\n");
    }

    #[test]
    fn the_limit_of_lines() {
        let input = b"(clear)\n(judge)\n()\n";
        assert_eq!(served(input, lines(0)), "");
        assert_eq!(served(input, lines(1)), "(answer 00)\n");
        assert_eq!(served(input, lines(2)), "(answer 00)\n(verdict 30)\n");
        assert_eq!(served(input, lines(3)), "(answer 00)\n(verdict 30)\n(answer 14)\n");
        assert_eq!(served(input, lines(4)), "(answer 00)\n(verdict 30)\n(answer 14)\n");
        assert_eq!(served(b"(clear)\n(judge)", lines(2)), "(answer 00)\n(verdict 30)\n");
        assert_eq!(served(b"(clear)\n(judge)", lines(1)), "(answer 00)\n");
    }

    #[test]
    fn the_limit_of_bytes() {
        let input = b"(clear)\n(judge)\n()";
        assert_eq!(input.len(), 18);
        assert_eq!(served(input, bytes(0)), "");
        assert_eq!(served(input, bytes(7)), "", "all of the line but not its byte 10");
        assert_eq!(served(input, bytes(8)), "(answer 00)\n", "byte 10 is the last byte allowed");
        assert_eq!(served(input, bytes(9)), "(answer 00)\n", "cut short");
        assert_eq!(served(input, bytes(15)), "(answer 00)\n");
        assert_eq!(served(input, bytes(16)), "(answer 00)\n(verdict 30)\n");
        assert_eq!(served(input, bytes(17)), "(answer 00)\n(verdict 30)\n");
        assert_eq!(served(input, bytes(18)), "(answer 00)\n(verdict 30)\n(answer 14)\n", "the input ends there too");
        assert_eq!(served(b"()x", bytes(2)), "");
        assert_eq!(served(b"()\n", bytes(2)), "", "its byte 10 is one byte beyond");
        assert_eq!(served(b"()", bytes(2)), "(answer 14)\n");
    }

    #[test]
    fn many_replies_fill_the_output_more_than_once() {
        let input = b"(judge)\n".repeat(20_000);
        assert_eq!(served_in_pieces(&input, usize::MAX, ServiceLimits::default()), "(verdict 30)\n".repeat(20_000));
    }

    #[test]
    fn every_line_is_lent_enough_for_show() {
        // Short replies between them, so that show lines come wherever the output is nearly full.
        let shown = format!("(hold 1 trimmed 1 {})", ["(part 123456789 (wing 1 2 3 4))"; 6].join(" "));
        let (mut input, mut right) = (String::new(), String::new());
        for count in 0..700 {
            input += &format!("{}(show {shown})\n", "(judge)\n".repeat(count % 13));
            right += &format!("{}{shown}\n", "(verdict 30)\n".repeat(count % 13));
        }
        assert_eq!(served_in_pieces(input.as_bytes(), usize::MAX, ServiceLimits::default()), right);
    }
}

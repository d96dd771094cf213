//! The text that `encode` makes a trace of (docs/PROGRAMS.md). What stands in quotes is the
//! page's.

use std::fmt;

use crate::ring::{Action, Answer, Ring};
use crate::trace;

/// "Of the text as a whole, before any line: `ring: NAME: longer than 1048576 bytes`."
pub const LONGEST: usize = 1_048_576;

/// Why a text is refused.
#[derive(Clone, Copy, Debug, PartialEq)]
pub enum Refused {
    TooLong,
    /// The line's "number from 1".
    Line(usize, Reason),
    NothingSaid,
}

/// "The reasons, in the order in which they are looked for".
#[derive(Clone, Copy, Debug, PartialEq)]
pub enum Reason {
    /// "a line that says none of these".
    Unknown,
    /// "another first, or a second `fresh`".
    Order,
    /// "a set-up out of range, or a mode that is another number".
    Sizes,
    /// "it would be, with this line".
    Length,
}

impl fmt::Display for Refused {
    fn fmt(&self, f: &mut fmt::Formatter<'_>) -> fmt::Result {
        match self {
            Refused::TooLong => write!(f, "longer than {LONGEST} bytes"),
            Refused::Line(number, reason) => write!(f, "line {number}: {reason}"),
            Refused::NothingSaid => f.write_str("nothing is said"),
        }
    }
}

impl fmt::Display for Reason {
    fn fmt(&self, f: &mut fmt::Formatter<'_>) -> fmt::Result {
        f.write_str(match self {
            Reason::Unknown => {
                "fresh N S MODE, begin VALUE (0 to 4294967295), write or read is wanted"
            }
            Reason::Order => "fresh N S MODE is wanted first, and once",
            Reason::Sizes => "refused 8 SIZES: N is 2 to 16, S 1 to 16, mode overwrite or stop",
            Reason::Length => "refused 6 MARK: the trace is longer than 65536 bytes",
        })
    }
}

/// What a line says.
#[derive(Clone, Copy, Debug, PartialEq)]
enum Said {
    Nothing,
    Fresh(u32, u32, u32),
    Act(Action),
}

/// The trace that a text says: "version 1, with the mode byte 0 or 1". "A line ends at a
/// newline, or with the text."
pub fn trace(text: &[u8]) -> Result<Vec<u8>, Refused> {
    if text.len() > LONGEST {
        return Err(Refused::TooLong);
    }
    let mut trace = Vec::new();
    for (i, line) in text.split(|&byte| byte == b'\n').enumerate() {
        said(line)
            .ok_or(Reason::Unknown)
            .and_then(|said| take(&mut trace, said))
            .map_err(|reason| Refused::Line(i + 1, reason))?;
    }
    if trace.is_empty() {
        return Err(Refused::NothingSaid);
    }
    Ok(trace)
}

/// "What follows a `#` is a comment. Words are parted by spaces, tabs and carriage
/// returns, and may have them before and after. A line with no word says nothing. The
/// others say one thing each, in lower case".
fn said(line: &[u8]) -> Option<Said> {
    let before = line.split(|&byte| byte == b'#').next()?;
    let words: Vec<&[u8]> = before
        .split(|byte| b" \t\r".contains(byte))
        .filter(|word| !word.is_empty())
        .collect();
    Some(match words[..] {
        [] => Said::Nothing,
        [b"fresh", n, s, of_ring] => Said::Fresh(number(n)?, number(s)?, mode(of_ring)?),
        [b"begin", value] => Said::Act(Action::Begin(number(value)?)),
        [b"write"] => Said::Act(Action::Write),
        [b"read"] => Said::Act(Action::Read),
        _ => return None,
    })
}

/// "numbers in decimal digits of at most 4294967295".
fn number(word: &[u8]) -> Option<u32> {
    word.iter().try_fold(0u32, |number, digit| {
        let digit = char::from(*digit).to_digit(10)?;
        number.checked_mul(10)?.checked_add(digit)
    })
}

/// "mode, which is overwrite or 0, stop or 1".
fn mode(word: &[u8]) -> Option<u32> {
    match word {
        b"overwrite" => Some(0),
        b"stop" => Some(1),
        _ => number(word),
    }
}

/// What a line says goes into the trace. "The first thing said is `fresh`, and nothing
/// after it."
fn take(trace: &mut Vec<u8>, said: Said) -> Result<(), Reason> {
    match (said, trace.is_empty()) {
        (Said::Nothing, _) => {}
        (Said::Fresh(..), false) | (Said::Act(_), true) => return Err(Reason::Order),
        (Said::Fresh(n, s, mode), true) => {
            if Ring::fresh(n, s, mode).1 != Answer::Accepted {
                return Err(Reason::Sizes);
            }
            trace.extend(*b"PTR\x01\x00");
            trace.extend([n, s, mode].map(|size| size as u8));
        }
        (Said::Act(Action::Begin(value)), false) => {
            trace.push(1);
            trace.extend(value.to_le_bytes());
        }
        (Said::Act(Action::Write), false) => trace.push(2),
        (Said::Act(Action::Read), false) => trace.push(3),
    }
    if trace.len() > trace::LONGEST {
        return Err(Reason::Length);
    }
    Ok(())
}

#[cfg(test)]
mod tests {
    use super::*;

    fn hold(line: &[u8], due: Option<Said>) {
        assert_eq!(said(line), due, "{}", line.escape_ascii());
    }

    #[test]
    fn words() {
        for (line, due) in [
            (&b""[..], Said::Nothing),
            (b" \t\r", Said::Nothing),
            (b"#\x00\xff fresh", Said::Nothing),
            (b"write", Said::Act(Action::Write)),
            (b"\r\tread \r", Said::Act(Action::Read)),
            (b"write#read", Said::Act(Action::Write)),
            (b"begin\r70#0", Said::Act(Action::Begin(70))),
            (b"fresh 2 1 overwrite", Said::Fresh(2, 1, 0)),
            (b"fresh 02 01 01", Said::Fresh(2, 1, 1)),
            (b"fresh 258 0 7", Said::Fresh(258, 0, 7)),
        ] {
            hold(line, Some(due));
        }
        for line in [
            &b"begin"[..],
            b"begin 1 2",
            b"begin70",
            b"begin\x0b70",
            b"Write",
            b"write\x0c",
            b"write\x00",
            b"write write",
            b"be#gin 70",
            b"fresh 2 1 Stop",
            b"fresh 2 1",
            b"fresh 2 1 stop stop",
            b"fresh stop 1 2",
        ] {
            hold(line, None);
        }
    }

    #[test]
    fn numbers() {
        for (digits, due) in [
            ("0", Some(0)),
            ("0000000000000000000070", Some(70)),
            ("4294967295", Some(u32::MAX)),
            ("00004294967295", Some(u32::MAX)),
            ("4294967296", None),
            ("42949672950", None),
            ("99999999999999999999999999999999", None),
            ("18446744073709551616", None),
            ("+1", None),
            ("-0", None),
            ("0x1", None),
            ("\u{664}", None),
        ] {
            let due = due.map(|value| Said::Act(Action::Begin(value)));
            hold(format!("begin {digits}").as_bytes(), due);
        }
    }

    #[test]
    fn traces() {
        let text = b"#\nfresh 2 16 stop\n\nbegin 67305985\r\nwrite\nread # last";
        let due = b"PTR\x01\x00\x02\x10\x01\x01\x01\x02\x03\x04\x02\x03";
        assert_eq!(trace(text), Ok(due.to_vec()));
    }

    #[test]
    fn order_of_reasons() {
        let line = |number, reason| Err(Refused::Line(number, reason));
        for (text, due) in [
            (&b""[..], Err(Refused::NothingSaid)),
            (b"#\n\n \n", Err(Refused::NothingSaid)),
            (b"begin 1\n", line(1, Reason::Order)),
            (b"\n\nbegin x", line(3, Reason::Unknown)),
            (b"fresh 17 1 stop", line(1, Reason::Sizes)),
            (b"fresh 2 1 2", line(1, Reason::Sizes)),
            (b"fresh 2 1 0\nfresh 17 1 2", line(2, Reason::Order)),
            (b"fresh 2 1 0\nfresh 17 1 two", line(2, Reason::Unknown)),
            (b"fresh 1 1 0\nfresh", line(1, Reason::Sizes)),
        ] {
            assert_eq!(trace(text), due, "{}", text.escape_ascii());
        }
    }

    #[test]
    fn longest() {
        let mut text = b"fresh 2 1 0\n".to_vec();
        text.extend(b"read\n".repeat(trace::LONGEST - 8));
        assert_eq!(trace(&text).map(|trace| trace.len()), Ok(trace::LONGEST));
        text.extend(b"# and\nread");
        let number = trace::LONGEST - 8 + 3;
        assert_eq!(trace(&text), Err(Refused::Line(number, Reason::Length)));
        text.resize(LONGEST, b'#');
        assert_eq!(trace(&text), Err(Refused::Line(number, Reason::Length)));
        text.push(b'#');
        assert_eq!(trace(&text), Err(Refused::TooLong));
    }

    #[test]
    fn told() {
        let told = Refused::Line(3, Reason::Order).to_string();
        assert_eq!(told, "line 3: fresh N S MODE is wanted first, and once");
        assert_eq!(Refused::TooLong.to_string(), "longer than 1048576 bytes");
    }
}

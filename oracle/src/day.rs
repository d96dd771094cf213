//! A day: the replay of a trace that could be read, and what `replay` says of its bytes
//! (docs/PROGRAMS.md). What stands in quotes is the page's.

use crate::ring::Receipt;
use crate::trace::{self, Replay, TraceRefusal, LONGEST};

pub struct Day {
    /// How many bytes the trace has, 65,537 where it has more than that.
    pub bytes: usize,
    pub replay: Replay,
}

/// How a trace is counted among all of a call.
#[derive(Clone, Copy, Debug, PartialEq)]
pub enum Outcome {
    Complete,
    NotComplete,
    Refused,
    Unreadable,
}

/// "6 MARK" and so on.
pub fn label(refusal: TraceRefusal) -> &'static str {
    match refusal {
        TraceRefusal::Mark => "6 MARK",
        TraceRefusal::Version => "7 VERSION",
        TraceRefusal::Sizes => "8 SIZES",
        TraceRefusal::Action(_) => "9 ACTION",
    }
}

/// "a number that is 1 has its word in the singular".
pub fn counted(number: u64, word: &str) -> String {
    match number {
        1 => format!("1 {word}"),
        _ => format!("{number} {word}s"),
    }
}

impl Day {
    pub fn of(trace: &[u8]) -> Day {
        Day {
            bytes: trace.len().min(LONGEST + 1),
            replay: trace::replay(trace),
        }
    }

    pub fn receipt(&self) -> Receipt {
        self.replay.ring.receipt()
    }

    /// "A trace that is refused is counted as refused, whatever its counts."
    pub fn outcome(&self) -> Outcome {
        match self.replay.refusal {
            Some(_) => Outcome::Refused,
            None if self.receipt().complete => Outcome::Complete,
            None => Outcome::NotComplete,
        }
    }

    /// "how many bytes were read: all of them, the offset of 9, or 0".
    pub fn stop(&self) -> usize {
        match self.replay.refusal {
            None => self.bytes,
            Some(TraceRefusal::Action(offset)) => offset,
            Some(_) => 0,
        }
    }

    /// "where the trace is refused, ... its refusal".
    pub fn refusal(&self) -> Option<String> {
        let refusal = self.replay.refusal?;
        let why = match refusal {
            TraceRefusal::Mark if self.bytes > LONGEST => ": longer than 65536 bytes",
            TraceRefusal::Mark => ": no mark PTR at its start",
            TraceRefusal::Version => ": other than 1, or cut",
            TraceRefusal::Sizes => ": N, S or mode out of range, or cut",
            TraceRefusal::Action(offset) => &format!(" at byte {offset}: unknown or cut"),
        };
        Some(format!("refused {}{why}", label(refusal)))
    }

    /// "The length is `49 bytes`, or `more than 65536 bytes`, and then `, read whole`;
    /// `, refused 9 ACTION: read up to byte 16`; or `, refused 6 MARK: nothing read`".
    pub fn length(&self) -> String {
        let length = match self.bytes {
            0..=LONGEST => counted(self.bytes as u64, "byte"),
            _ => format!("more than {LONGEST} bytes"),
        };
        let read = match self.replay.refusal {
            None => "read whole",
            Some(why @ TraceRefusal::Action(offset)) => {
                &format!("refused {}: read up to byte {offset}", label(why))
            }
            Some(why) => &format!("refused {}: nothing read", label(why)),
        };
        format!("{length}, {read}")
    }
}

#[cfg(test)]
mod tests {
    use super::*;

    const ONE: [u8; 14] = [80, 84, 82, 1, 0, 2, 1, 0, 1, 70, 0, 0, 0, 2];

    fn told(trace: &[u8]) -> (String, Option<String>, usize) {
        let day = Day::of(trace);
        (day.length(), day.refusal(), day.stop())
    }

    fn due(length: &str, refusal: &str, stop: usize) -> (String, Option<String>, usize) {
        (length.to_string(), Some(refusal.to_string()), stop)
    }

    #[test]
    fn lengths() {
        let whole = ("14 bytes, read whole".to_string(), None, 14);
        assert_eq!(told(&ONE), whole);
        let no_mark = "refused 6 MARK: no mark PTR at its start";
        assert_eq!(
            told(&ONE[..0]),
            due("0 bytes, refused 6 MARK: nothing read", no_mark, 0)
        );
        assert_eq!(
            told(&ONE[..1]),
            due("1 byte, refused 6 MARK: nothing read", no_mark, 0)
        );
        let version = "refused 7 VERSION: other than 1, or cut";
        assert_eq!(
            told(&ONE[..4]),
            due("4 bytes, refused 7 VERSION: nothing read", version, 0)
        );
        let sizes = "refused 8 SIZES: N, S or mode out of range, or cut";
        assert_eq!(
            told(&ONE[..7]),
            due("7 bytes, refused 8 SIZES: nothing read", sizes, 0)
        );
        let action = "refused 9 ACTION at byte 8: unknown or cut";
        assert_eq!(
            told(&ONE[..12]),
            due("12 bytes, refused 9 ACTION: read up to byte 8", action, 8)
        );
    }

    #[test]
    fn longest() {
        let mut bytes = ONE.to_vec();
        bytes.resize(LONGEST, 3);
        let whole = ("65536 bytes, read whole".to_string(), None, LONGEST);
        assert_eq!(told(&bytes), whole);
        let longer = due(
            "more than 65536 bytes, refused 6 MARK: nothing read",
            "refused 6 MARK: longer than 65536 bytes",
            0,
        );
        bytes.push(3);
        assert_eq!(told(&bytes), longer);
        bytes.extend([3; 9]);
        assert_eq!(told(&bytes), longer);
        assert_eq!(Day::of(&bytes).bytes, 65_537);
    }
}

//! Traces put together byte by byte, as E1 of document 02 says they are; nothing here
//! is shared with the reading of them in `trace`.

use crate::ring::{Action, Answer, Ring};

/// A whole trace, its actions and their answers one by one.
#[derive(Clone)]
pub struct Builder {
    pub bytes: Vec<u8>,
    /// The offset of each action's first byte.
    pub starts: Vec<usize>,
    pub made: Vec<(Action, Answer)>,
    /// The ring after the last action.
    pub ring: Ring,
}

impl Builder {
    /// A header with a set-up in range, and no action.
    pub fn new(n: u8, s: u8, mode: u8) -> Builder {
        let of_ring = if mode == 2 { 0 } else { u32::from(mode) };
        let (ring, answer) = Ring::fresh(u32::from(n), u32::from(s), of_ring);
        assert_eq!(answer, Answer::Accepted);
        Builder {
            bytes: vec![b'P', b'T', b'R', 1, 0, n, s, mode],
            starts: Vec::new(),
            made: Vec::new(),
            ring,
        }
    }

    pub fn act(&mut self, action: Action) -> Answer {
        self.starts.push(self.bytes.len());
        match action {
            Action::Begin(value) => {
                let byte = |i| (value / 256u32.pow(i) % 256) as u8;
                self.bytes.extend([1, byte(0), byte(1), byte(2), byte(3)]);
            }
            Action::Write => self.bytes.push(2),
            Action::Read => self.bytes.push(3),
        }
        let answer = self.ring.act(action);
        self.made.push((action, answer));
        answer
    }

    /// A Begin, and Writes until its writer is done.
    pub fn reading(&mut self, value: u32) {
        let depth = self.ring.depth;
        self.act(Action::Begin(value));
        while self.ring.depth > depth {
            self.act(Action::Write);
        }
    }

    /// Reads until the answer is Empty or Busy, or a refusal, so that a wrong ring ends
    /// too.
    pub fn read_all(&mut self) {
        let ends = |answer| matches!(answer, Answer::Empty | Answer::Busy | Answer::Refused(_));
        while !ends(self.act(Action::Read)) {}
    }
}

//! The trace of request E1 of document 02, in its words, and its replay. What stands
//! in quotes is E1's.

use crate::ring::{Action, Answer, Refusal, Ring};
use crate::text;

/// "A file has at most 65,536 bytes."
pub const LONGEST: usize = 65_536;
/// "the mark "PTR"".
const MARK: [u8; 3] = *b"PTR";
/// "version 1 in two bytes, low first".
const VERSION: [u8; 2] = 1u16.to_le_bytes();
/// "Mode 2 is whatever mode the plain ring has."
const PLAIN: u8 = 2;

/// "Refusals, in this order".
#[derive(Clone, Copy, Debug, PartialEq)]
pub enum TraceRefusal {
    /// "6 longer than that, or mark wrong or cut".
    Mark,
    /// "7 version other or cut".
    Version,
    /// "8 set-up cut, or out of range".
    Sizes,
    /// "9 an unknown or cut action, with the offset of that action's first byte".
    Action(usize),
}

/// What comes of a trace.
#[derive(Clone, Debug, PartialEq)]
pub struct Replay {
    /// N, S and the ring's mode, where the set-up is accepted.
    pub set_up: Option<(u32, u32, u32)>,
    /// Each action made and its answer.
    pub made: Vec<(Action, Answer)>,
    pub refusal: Option<TraceRefusal>,
    /// "On 9 the state is that after the last whole action; on the others it is the
    /// plain ring."
    pub ring: Ring,
}

/// What is left of the bytes after the last whole action.
struct Actions<'a> {
    rest: &'a [u8],
}

impl Iterator for Actions<'_> {
    type Item = Action;

    /// "byte 1 and four value bytes, low first, for Begin; 2 for Write; 3 for Read".
    /// None at the end of the bytes, and at an unknown or cut action, which stays.
    #[inline]
    fn next(&mut self) -> Option<Action> {
        let (action, rest) = match *self.rest {
            [1, a, b, c, d, ref rest @ ..] => {
                (Action::Begin(u32::from_le_bytes([a, b, c, d])), rest)
            }
            [2, ref rest @ ..] => (Action::Write, rest),
            [3, ref rest @ ..] => (Action::Read, rest),
            _ => return None,
        };
        self.rest = rest;
        Some(action)
    }
}

/// The ring that the header sets up, and the actions that follow it.
fn open(bytes: &[u8]) -> Result<(Ring, Actions<'_>), TraceRefusal> {
    if bytes.len() > LONGEST {
        return Err(TraceRefusal::Mark);
    }
    let rest = bytes.strip_prefix(&MARK).ok_or(TraceRefusal::Mark)?;
    let rest = rest.strip_prefix(&VERSION).ok_or(TraceRefusal::Version)?;
    let [n, s, mode, ref rest @ ..] = *rest else {
        return Err(TraceRefusal::Sizes);
    };
    let mode = match mode {
        PLAIN => Ring::plain().mode,
        _ => u32::from(mode),
    };
    match Ring::fresh(u32::from(n), u32::from(s), mode) {
        (ring, Answer::Accepted) => Ok((ring, Actions { rest })),
        _ => Err(TraceRefusal::Sizes),
    }
}

/// "Replay equals the actions one by one"; "a refused Begin or Write in the trace is
/// an ordinary answer".
pub fn replay(bytes: &[u8]) -> Replay {
    let (mut ring, mut actions) = match open(bytes) {
        Ok(opened) => opened,
        Err(refusal) => {
            return Replay {
                set_up: None,
                made: Vec::new(),
                refusal: Some(refusal),
                ring: Ring::plain(),
            }
        }
    };
    let set_up = Some((ring.n, ring.s, ring.mode));
    let mut made = Vec::new();
    for action in actions.by_ref() {
        made.push((action, ring.act(action)));
    }
    let refusal = match actions.rest.len() {
        0 => None,
        left => Some(TraceRefusal::Action(bytes.len() - left)),
    };
    Replay {
        set_up,
        made,
        refusal,
        ring,
    }
}

/// The same in place, for timing: each answer goes into `answers` as three numbers,
/// its code, its first and its second value. `act` is `Ring::act`, or
/// `Ring::act_in_shape` where shape is not to be tested before each action. Gives the
/// number of actions made; where `answers` has no room for three more, it ends.
pub fn replay_into(
    bytes: &[u8],
    answers: &mut [u64],
    act: impl Fn(&mut Ring, Action) -> Answer,
) -> usize {
    match open(bytes) {
        Ok((mut ring, mut actions)) => walk(&mut actions, &mut ring, answers, act),
        Err(_) => 0,
    }
}

/// Makes actions one by one and lays down their answers; the number of them. Ends with
/// the actions, or where there is no room for three more numbers.
#[inline]
fn walk(
    actions: &mut Actions<'_>,
    ring: &mut Ring,
    answers: &mut [u64],
    act: impl Fn(&mut Ring, Action) -> Answer,
) -> usize {
    let mut made = 0;
    for (room, action) in answers.chunks_exact_mut(3).zip(actions) {
        let answer = act(ring, action);
        let (first, second) = text::values(answer);
        room.copy_from_slice(&[text::code(answer), first, second].map(u64::from));
        made += 1;
    }
    made
}

/// How far a replay in lent room came.
#[derive(Clone, Copy, Debug, Default, PartialEq)]
pub struct Reach {
    /// The number of actions made.
    pub made: usize,
    /// The place of the first byte after them.
    pub stop: usize,
}

/// The actions of bytes that have no header, "one by one" on a ring, up to the first
/// that is unknown or cut. Where `room` is too short for all their answers: 10, no
/// action is made, and nothing is stored.
pub fn replay_in_room(bytes: &[u8], ring: &mut Ring, room: &mut [u64]) -> Result<Reach, Refusal> {
    if room.len() < 3 * (Actions { rest: bytes }).count() {
        return Err(Refusal::Room);
    }
    let mut actions = Actions { rest: bytes };
    let made = walk(&mut actions, ring, room, Ring::act);
    let stop = bytes.len() - actions.rest.len();
    Ok(Reach { made, stop })
}

#[cfg(test)]
mod tests {
    use super::*;

    const WHOLE: [u8; 15] = [80, 84, 82, 1, 0, 2, 1, 2, 1, 70, 0, 0, 1, 2, 3];

    #[test]
    fn whole() {
        let replay = replay(&WHOLE);
        assert_eq!(replay.set_up, Some((2, 1, 0)));
        assert_eq!(
            replay.made,
            [
                (Action::Begin(16_777_286), Answer::Begun(1)),
                (Action::Write, Answer::Reserved(0)),
                (Action::Read, Answer::Found),
            ]
        );
        assert_eq!(replay.refusal, None);
        assert_eq!((replay.ring.begun, replay.ring.taken), (1, 1));
    }

    #[test]
    fn cut() {
        for length in 0..=WHOLE.len() {
            let due = match length {
                0..=2 => Some(TraceRefusal::Mark),
                3..=4 => Some(TraceRefusal::Version),
                5..=7 => Some(TraceRefusal::Sizes),
                9..=12 => Some(TraceRefusal::Action(8)),
                _ => None,
            };
            let replay = replay(&WHOLE[..length]);
            assert_eq!(replay.refusal, due, "{length} bytes");
            if length < 8 {
                assert_eq!(replay.ring, Ring::plain());
            }
        }
    }

    #[test]
    fn order() {
        let mut bytes = WHOLE;
        let damages = [
            (13, 0, TraceRefusal::Action(13)),
            (5, 17, TraceRefusal::Sizes),
            (4, 1, TraceRefusal::Version),
            (0, 0, TraceRefusal::Mark),
        ];
        for (place, byte, refusal) in damages {
            bytes[place] = byte;
            assert_eq!(replay(&bytes).refusal, Some(refusal));
        }
    }

    #[test]
    fn longest() {
        let mut bytes = WHOLE.to_vec();
        bytes.resize(LONGEST, 3);
        assert_eq!(replay(&bytes).refusal, None);
        bytes.push(3);
        assert_eq!(replay(&bytes).refusal, Some(TraceRefusal::Mark));
    }

    #[test]
    fn into() {
        let mut answers = [9; 10];
        assert_eq!(replay_into(&WHOLE, &mut answers, Ring::act), 3);
        assert_eq!(answers, [1, 1, 0, 2, 0, 0, 18, 0, 0, 9]);
        let mut few = [9; 5];
        assert_eq!(replay_into(&WHOLE, &mut few, Ring::act_in_shape), 1);
        assert_eq!(few, [1, 1, 0, 9, 9]);
    }

    #[test]
    fn in_room() {
        let (fresh, _) = Ring::fresh(2, 1, 0);
        let bytes = [1, 70, 0, 0, 0, 2, 3, 1, 70];
        for (length, room, made, stop) in [(9, 9, 3, 7), (9, 10, 3, 7), (6, 6, 2, 6), (4, 0, 0, 0)]
        {
            let (mut ring, mut answers) = (fresh.clone(), [9; 10]);
            let replayed = replay_in_room(&bytes[..length], &mut ring, &mut answers[..room]);
            assert_eq!(replayed, Ok(Reach { made, stop }), "{length} bytes");
            let laid = [1, 1, 0, 2, 0, 0, 18, 0, 0];
            assert_eq!(answers[..3 * made], laid[..3 * made]);
            assert_eq!(answers[3 * made..], [9; 10][3 * made..]);
        }
        for room in 0..9 {
            let (mut ring, mut answers) = (fresh.clone(), [9; 8]);
            let replayed = replay_in_room(&bytes, &mut ring, &mut answers[..room]);
            assert_eq!(replayed, Err(Refusal::Room), "room of {room}");
            assert_eq!((ring, answers), (fresh.clone(), [9; 8]));
        }
    }
}

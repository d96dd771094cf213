//! The generator and the digest of docs/PROGRAMS.md.

use crate::ring::{Answer, Phase, Reader, Receipt, Record, Ring, PAGES, SLOTS};
use crate::text;

/// "A generator holds a number s."
pub struct Generator {
    s: u64,
}

impl Generator {
    /// "starts at s = k and its first three draws are thrown away".
    pub fn new(seed: u64) -> Generator {
        let mut generator = Generator { s: seed };
        for _ in 0..3 {
            generator.draw();
        }
        generator
    }

    /// "Each draw makes s the remainder of 48271 * s by 2147483647, and gives s."
    fn draw(&mut self) -> u64 {
        self.s = 48271 * self.s % 2147483647;
        self.s
    }

    /// "the remainder of one draw by n"; n is at most 1,000,000 in every use.
    pub fn below(&mut self, n: u32) -> u32 {
        (self.draw() % u64::from(n)) as u32
    }

    /// "65536 * below(65536) + below(65536), the first factor drawn first".
    pub fn any(&mut self) -> u32 {
        let high = self.below(65536);
        let low = self.below(65536);
        65536 * high + low
    }

    /// "x where below(2) is 0, and otherwise x + 1 + below(1000000)".
    pub fn over(&mut self, x: u64) -> u64 {
        if self.below(2) == 0 {
            x
        } else {
            x + 1 + u64::from(self.below(1_000_000))
        }
    }

    /// `over` of a number that is not a count.
    pub fn over32(&mut self, x: u32) -> u32 {
        self.over(u64::from(x)) as u32
    }

    /// Yes where one draw below(n) is 0.
    pub fn zero_of(&mut self, n: u32) -> bool {
        self.below(n) == 0
    }
}

/// "A digest h is a number below 2^32 that starts at 0."
#[derive(Clone, Copy, Default)]
pub struct Digest {
    h: u32,
}

impl Digest {
    pub fn new() -> Digest {
        Digest { h: 0 }
    }

    /// "h becomes the remainder of 1664525 * h + x + 1013904223 by 2^32".
    fn fold(&mut self, x: u32) {
        let h = 1664525u32.wrapping_mul(self.h);
        self.h = h.wrapping_add(x).wrapping_add(1013904223);
    }

    fn fold_all(&mut self, xs: &[u32]) {
        for &x in xs {
            self.fold(x);
        }
    }

    /// "To fold in a count (64 bits), fold its remainder by 2^32, then its quotient."
    fn count(&mut self, count: u64) {
        self.fold(count as u32);
        self.fold((count >> 32) as u32);
    }

    /// "its code, then its first and its second value, 0 for a value that it does
    /// not have".
    pub fn answer(&mut self, answer: Answer) {
        let (first, second) = text::values(answer);
        self.fold_all(&[text::code(answer), first, second]);
    }

    /// "five digests of its own, each from 0, then folded into h in this order".
    pub fn ring(&mut self, ring: &Ring) {
        let mut parts = [Digest::new(); 5];
        parts[0].all_but_slots(ring);
        let half = SLOTS / 2;
        for i in 0..half {
            parts[1].fold(ring.numbers[i]);
            parts[2].fold(ring.numbers[half + i]);
            parts[3].fold(ring.values[i]);
            parts[4].fold(ring.values[half + i]);
        }
        for part in parts {
            self.fold(part.h);
        }
    }

    fn all_but_slots(&mut self, ring: &Ring) {
        self.fold_all(&[ring.n, ring.s, ring.mode]);
        self.fold_all(&[ring.reader_page, ring.tail_page, ring.commit_page]);
        self.fold_all(&[ring.commit_index, ring.position]);
        self.count(ring.begun);
        self.count(ring.taken);
        self.count(ring.committed);
        self.count(ring.handed);
        self.count(ring.overwritten);
        self.count(ring.dropped);
        self.fold(ring.depth);
        self.fold_all(&match ring.reader {
            Reader::Idle => [0, 0, 0],
            Reader::Found { p, h } => [1, p, h],
            Reader::Ready { p, h } => [2, p, h],
        });
        for record in &ring.records {
            self.record(record);
        }
        for page in 0..PAGES {
            self.fold(ring.words[page]);
            self.fold(ring.used[page]);
        }
    }

    /// "each as value, phase code, and three numbers".
    fn record(&mut self, record: &Record) {
        self.fold(record.value);
        self.fold_all(&match record.phase {
            Phase::Want => [0, 0, 0, 0],
            Phase::Mark { t, n } => [1, t, n, 0],
            Phase::Promote { t, n, own } => [2, t, n, u32::from(own)],
            Phase::Clear { t, n } => [3, t, n, 0],
            Phase::Push { t, n } => [4, t, n, 0],
            Phase::Held { page, slot } => [5, page, slot, 0],
            Phase::Filled => [6, 0, 0, 0],
        });
    }

    /// "the refusal's number (0 for none), the seven counts in the paper's order,
    /// each as a count, then 1 for complete and 0 for not complete".
    pub fn receipt(&mut self, receipt: &Receipt) {
        self.fold(receipt.refusal.map_or(0, text::refusal_number));
        for count in receipt.counts() {
            self.count(count);
        }
        self.fold(u32::from(receipt.complete));
    }

    /// "the last answer, as 0 for none and else 1, then, where there is one, the answer;
    /// how many elements the part has ...; all 40 elements of the buffer, each as a
    /// count; and the ring".
    pub fn drain(&mut self, last: Option<Answer>, part: usize, buffer: &[u64], ring: &Ring) {
        self.fold(u32::from(last.is_some()));
        if let Some(answer) = last {
            self.answer(answer);
        }
        self.fold(part as u32);
        for &element in buffer {
            self.count(element);
        }
        self.ring(ring);
    }

    /// "eight hexadecimal digits".
    pub fn text(&self) -> String {
        format!("{:08x}", self.h)
    }
}

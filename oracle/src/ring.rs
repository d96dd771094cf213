//! The ring of document 01, in its words. What stands in quotes is 01's or, where E3 is
//! named, that request's of document 02.

/// "4,294,967,295": the limit of every count.
pub const LIMIT: u64 = 4_294_967_295;
/// "plus one reader page: pages 0 to N", N at most 16.
pub const PAGES: usize = 17;
/// "The ring has room for 272 slots".
pub const SLOTS: usize = 272;
/// "The stack is four writer records".
pub const RECORDS: usize = 4;

/// "NORMAL 0, HEADER 1, UPDATE 2".
pub const NORMAL: u32 = 0;
pub const HEADER: u32 = 1;
pub const UPDATE: u32 = 2;

/// "Mode: 0 overwrite, 1 stop".
const STOP: u32 = 1;

/// "A writer's record holds its value and one of these phases; t is the tail
/// seen, n the page after it."
#[derive(Clone, Copy, Debug, PartialEq)]
pub enum Phase {
    Want,
    Mark { t: u32, n: u32 },
    Promote { t: u32, n: u32, own: bool },
    Clear { t: u32, n: u32 },
    Push { t: u32, n: u32 },
    Held { page: u32, slot: u32 },
    Filled,
}

#[derive(Clone, Copy, Debug, PartialEq)]
pub struct Record {
    pub value: u32,
    pub phase: Phase,
}

/// "A popped record's place is reset to WANT with value 0."
const UNUSED: Record = Record {
    value: 0,
    phase: Phase::Want,
};

/// "The reader's phase: IDLE, FOUND (p, h), READY (p, h)."
#[derive(Clone, Copy, Debug, PartialEq)]
pub enum Reader {
    Idle,
    Found { p: u32, h: u32 },
    Ready { p: u32, h: u32 },
}

#[derive(Clone, Copy, Debug, PartialEq)]
pub enum Refusal {
    Shape,
    Depth,
    Nobody,
    Worn,
    Setup,
    /// Not 01's and of no action: lent room is too short (docs/PROGRAMS.md, `cases`).
    Room,
}

#[derive(Clone, Copy, Debug, PartialEq)]
pub enum Answer {
    Accepted,
    Begun(u32),
    Reserved(u32),
    Looked,
    Dropped,
    Marked,
    Shared,
    Retry,
    Promoted,
    Standing,
    Cleared,
    Pushed,
    Passed,
    Filled,
    Committed(u32),
    Pending,
    Event(u32, u32),
    Empty,
    Found,
    Busy,
    Prepared,
    Swapped,
    Missed,
    Refused(Refusal),
}

#[derive(Clone, Copy, Debug, PartialEq)]
pub enum Action {
    Begin(u32),
    Write,
    Read,
}

/// "Begun, taken, handed, overwritten, dropped; waiting ...; open ..."
#[derive(Clone, Copy, Debug, PartialEq)]
pub struct Receipt {
    pub refusal: Option<Refusal>,
    pub begun: u64,
    pub taken: u64,
    pub handed: u64,
    pub overwritten: u64,
    pub dropped: u64,
    pub waiting: u64,
    pub open: u64,
    pub complete: bool,
}

/// "Parts of a ring". `n` is N, `s` is S; slot s of page p stands at p * S + s.
#[derive(Clone, Debug, PartialEq)]
pub struct Ring {
    pub n: u32,
    pub s: u32,
    pub mode: u32,
    pub words: [u32; PAGES],
    pub used: [u32; PAGES],
    pub numbers: [u32; SLOTS],
    pub values: [u32; SLOTS],
    pub reader_page: u32,
    pub tail_page: u32,
    pub commit_page: u32,
    pub commit_index: u32,
    pub position: u32,
    pub begun: u64,
    pub taken: u64,
    pub committed: u64,
    pub handed: u64,
    pub overwritten: u64,
    pub dropped: u64,
    pub records: [Record; RECORDS],
    pub depth: u32,
    pub reader: Reader,
}

/// "4 × (next page) + flag".
pub fn word(page: u32, flag: u32) -> u32 {
    4 * page + flag
}

pub fn page_in(word: u32) -> u32 {
    word / 4
}

pub fn flag_in(word: u32) -> u32 {
    word % 4
}

/// "N ring pages, 2 to 16"; "S slots in each page, 1 to 16"; mode 0 or 1.
fn sizes_in_range(n: u32, s: u32, mode: u32) -> bool {
    (2..=16).contains(&n) && (1..=16).contains(&s) && mode <= 1
}

impl Ring {
    /// Refusal 5: "fresh with N, S or mode out of range" gives "the plain ring".
    pub fn fresh(n: u32, s: u32, mode: u32) -> (Ring, Answer) {
        if sizes_in_range(n, s, mode) {
            (Ring::made(n, s, mode), Answer::Accepted)
        } else {
            (Ring::plain(), Answer::Refused(Refusal::Setup))
        }
    }

    /// "The plain ring is 8 pages of 16 slots in overwrite mode."
    pub fn plain() -> Ring {
        Ring::made(8, 16, 0)
    }

    /// "Fresh: page i links to i+1, page N−1 to 0 with HEADER, other words
    /// NORMAL. Reader page N links to 0, NORMAL. Words of pages above N are 0.
    /// Tail and commit page 0; all else 0; reader IDLE."
    fn made(n: u32, s: u32, mode: u32) -> Ring {
        let mut words = [0; PAGES];
        for i in 0..n - 1 {
            words[i as usize] = word(i + 1, NORMAL);
        }
        words[n as usize - 1] = word(0, HEADER);
        words[n as usize] = word(0, NORMAL);
        Ring {
            n,
            s,
            mode,
            words,
            used: [0; PAGES],
            numbers: [0; SLOTS],
            values: [0; SLOTS],
            reader_page: n,
            tail_page: 0,
            commit_page: 0,
            commit_index: 0,
            position: 0,
            begun: 0,
            taken: 0,
            committed: 0,
            handed: 0,
            overwritten: 0,
            dropped: 0,
            records: [UNUSED; RECORDS],
            depth: 0,
            reader: Reader::Idle,
        }
    }

    /// "In shape means: ..." N comes first, so that no page above 16 is looked at.
    pub fn in_shape(&self) -> bool {
        sizes_in_range(self.n, self.s, self.mode)
            && self.pages_in_shape()
            && self.fill_in_shape()
            && self.stack_in_shape()
            && self.reader_in_shape()
            && self.counts_in_shape()
    }

    /// "every page named by the ring, by a word of pages 0..N ... is at most N;
    /// no flag 3 in those words".
    fn pages_in_shape(&self) -> bool {
        let named = [self.reader_page, self.tail_page, self.commit_page];
        let words = &self.words[..=self.n as usize];
        named.iter().all(|&page| page <= self.n)
            && words
                .iter()
                .all(|&w| page_in(w) <= self.n && flag_in(w) != 3)
    }

    /// "the used of pages 0..N, the commit index and the read position at most S".
    fn fill_in_shape(&self) -> bool {
        let used = &self.used[..=self.n as usize];
        used.iter().all(|&used| used <= self.s)
            && self.commit_index <= self.s
            && self.position <= self.s
    }

    /// "depth at most 4"; "every page named ... by a record below the depth ... is
    /// at most N"; "a held slot of a record below the depth below S".
    fn stack_in_shape(&self) -> bool {
        let depth = self.depth as usize;
        depth <= RECORDS
            && self.records[..depth]
                .iter()
                .all(|record| match record.phase {
                    Phase::Mark { t, n }
                    | Phase::Promote { t, n, .. }
                    | Phase::Clear { t, n }
                    | Phase::Push { t, n } => t <= self.n && n <= self.n,
                    Phase::Held { page, slot } => page <= self.n && slot < self.s,
                    Phase::Want | Phase::Filled => true,
                })
    }

    /// "every page named ... by the reader's phase is at most N".
    fn reader_in_shape(&self) -> bool {
        match self.reader {
            Reader::Idle => true,
            Reader::Found { p, h } | Reader::Ready { p, h } => p <= self.n && h <= self.n,
        }
    }

    /// "every count ... at most 4,294,967,295; handed + overwritten ≤ committed ≤
    /// taken; taken + dropped ≤ begun". The limits come first: below them no sum
    /// leaves 64 bits. A slot's number has 32 bits and can't pass its limit.
    fn counts_in_shape(&self) -> bool {
        let counts = [
            self.begun,
            self.taken,
            self.committed,
            self.handed,
            self.overwritten,
            self.dropped,
        ];
        counts.iter().all(|&count| count <= LIMIT)
            && self.handed + self.overwritten <= self.committed
            && self.committed <= self.taken
            && self.taken + self.dropped <= self.begun
    }

    /// Any of the three actions. Refusal 1: "an action ... on a state not in shape".
    pub fn act(&mut self, action: Action) -> Answer {
        if !self.in_shape() {
            return Answer::Refused(Refusal::Shape);
        }
        self.act_in_shape(action)
    }

    /// The same on a ring that is known to be in shape.
    #[inline]
    pub fn act_in_shape(&mut self, action: Action) -> Answer {
        match action {
            Action::Begin(value) => self.begin(value),
            Action::Write => self.write(),
            Action::Read => self.read(),
        }
    }

    /// "Begin(v): begun + 1, a new record on top in phase WANT. Answer Begun(new
    /// depth)." Refusals: "2 before 4".
    #[inline]
    fn begin(&mut self, value: u32) -> Answer {
        if self.depth == 4 {
            return Answer::Refused(Refusal::Depth);
        }
        if self.begun == LIMIT {
            return Answer::Refused(Refusal::Worn);
        }
        self.begun += 1;
        self.records[self.depth as usize] = Record {
            value,
            phase: Phase::Want,
        };
        self.depth += 1;
        Answer::Begun(self.depth)
    }

    /// "Write moves the top record by one step."
    #[inline]
    fn write(&mut self) -> Answer {
        if self.depth == 0 {
            return Answer::Refused(Refusal::Nobody);
        }
        match self.records[self.top()].phase {
            Phase::Want => self.want(),
            Phase::Mark { t, n } => self.mark(t, n),
            Phase::Promote { t, n, own } => self.promote(t, n, own),
            Phase::Clear { t, n } => self.clear(t, n),
            Phase::Push { t, n } => self.push(t, n),
            Phase::Held { page, slot } => self.fill(page, slot),
            Phase::Filled => self.finish(),
        }
    }

    /// The place of the top record.
    fn top(&self) -> usize {
        self.depth as usize - 1
    }

    /// The top record goes into a phase and the step has an answer.
    #[inline]
    fn step(&mut self, phase: Phase, answer: Answer) -> Answer {
        let top = self.top();
        self.records[top].phase = phase;
        answer
    }

    #[inline]
    fn pop(&mut self) {
        let top = self.top();
        self.records[top] = UNUSED;
        self.depth -= 1;
    }

    /// Where slot `slot` of page `page` stands among the 272.
    pub fn place(&self, page: u32, slot: u32) -> usize {
        (page * self.s + slot) as usize
    }

    /// "WANT, tail page t with used < S: slot used gets the number taken; taken +
    /// 1, used + 1; phase HELD (t, slot). Answer Reserved(number). The slot's old
    /// value stays."
    #[inline]
    fn want(&mut self) -> Answer {
        let t = self.tail_page;
        let slot = self.used[t as usize];
        if slot == self.s {
            return self.look(t);
        }
        let number = self.taken as u32;
        let place = self.place(t, slot);
        self.numbers[place] = number;
        self.taken += 1;
        self.used[t as usize] += 1;
        self.step(Phase::Held { page: t, slot }, Answer::Reserved(number))
    }

    /// "WANT, t full: n is the page in t's word. First that applies:" a to f.
    #[inline]
    fn look(&mut self, t: u32) -> Answer {
        let n = page_in(self.words[t as usize]);
        let flag = flag_in(self.words[t as usize]);
        if t == self.reader_page {
            return self.step(Phase::Push { t, n }, Answer::Looked);
        }
        let behind_reader = flag == HEADER && self.commit_page == self.reader_page;
        let stopped = flag == HEADER && self.mode == STOP;
        if n == self.commit_page || behind_reader || stopped {
            return self.drop_reading();
        }
        if flag == HEADER || flag == UPDATE {
            self.step(Phase::Mark { t, n }, Answer::Looked)
        } else {
            self.step(Phase::Push { t, n }, Answer::Looked)
        }
    }

    /// "Dropped: dropped + 1, record popped, nothing else." But E3: "a drop at depth 1
    /// moves commit page, commit index and committed exactly as a commit there does,
    /// after counting the drop"; "answer still Dropped". Its depth is the one before the
    /// pop, as a commit's.
    fn drop_reading(&mut self) -> Answer {
        let outermost = self.depth == 1;
        self.dropped += 1;
        self.pop();
        if outermost {
            self.commit();
        }
        Answer::Dropped
    }

    /// "MARK: if t's word is n HEADER, it becomes n UPDATE, overwritten grows by
    /// n's used, n's used becomes 0, all in one step; PROMOTE (t, n, own). Answer
    /// Marked. If it is n UPDATE: PROMOTE (t, n, not own). Answer Shared. Otherwise
    /// WANT, answer Retry."
    #[inline]
    fn mark(&mut self, t: u32, n: u32) -> Answer {
        let seen = self.words[t as usize];
        if seen == word(n, HEADER) {
            self.words[t as usize] = word(n, UPDATE);
            self.overwritten += u64::from(self.used[n as usize]);
            self.used[n as usize] = 0;
            self.step(Phase::Promote { t, n, own: true }, Answer::Marked)
        } else if seen == word(n, UPDATE) {
            self.step(Phase::Promote { t, n, own: false }, Answer::Shared)
        } else {
            self.step(Phase::Want, Answer::Retry)
        }
    }

    /// "PROMOTE: if no page other than the reader page has a HEADER word, n's word
    /// becomes HEADER, same page; answer Promoted. Else nothing; answer Standing.
    /// ... Then CLEAR if own, else PUSH."
    #[inline]
    fn promote(&mut self, t: u32, n: u32, own: bool) -> Answer {
        let after = if own {
            Phase::Clear { t, n }
        } else {
            Phase::Push { t, n }
        };
        if self.header().is_some() {
            return self.step(after, Answer::Standing);
        }
        let next = page_in(self.words[n as usize]);
        self.words[n as usize] = word(next, HEADER);
        self.step(after, Answer::Promoted)
    }

    /// "the lowest page p other than the reader page whose word is HEADER".
    fn header(&self) -> Option<u32> {
        (0..=self.n).find(|&p| p != self.reader_page && flag_in(self.words[p as usize]) == HEADER)
    }

    /// "CLEAR: t's word, if n UPDATE, becomes n NORMAL. Answer Cleared; PUSH."
    #[inline]
    fn clear(&mut self, t: u32, n: u32) -> Answer {
        if self.words[t as usize] == word(n, UPDATE) {
            self.words[t as usize] = word(n, NORMAL);
        }
        self.step(Phase::Push { t, n }, Answer::Cleared)
    }

    /// "PUSH: if the tail page is t, it becomes n, answer Pushed; else answer
    /// Passed. Then WANT."
    #[inline]
    fn push(&mut self, t: u32, n: u32) -> Answer {
        if self.tail_page == t {
            self.tail_page = n;
            self.step(Phase::Want, Answer::Pushed)
        } else {
            self.step(Phase::Want, Answer::Passed)
        }
    }

    /// "HELD: the value goes into the slot; phase FILLED. Answer Filled."
    #[inline]
    fn fill(&mut self, page: u32, slot: u32) -> Answer {
        let place = self.place(page, slot);
        self.values[place] = self.records[self.top()].value;
        self.step(Phase::Filled, Answer::Filled)
    }

    /// "FILLED: record popped. At depth 1 before the pop, ...: answer
    /// Committed(committed). Deeper: answer Pending."
    #[inline]
    fn finish(&mut self) -> Answer {
        let outermost = self.depth == 1;
        self.pop();
        if !outermost {
            return Answer::Pending;
        }
        self.commit();
        Answer::Committed(self.committed as u32)
    }

    /// "the commit page becomes the tail page, the commit index that page's used,
    /// committed becomes taken": a commit's, and from E3 on a drop's at depth 1.
    #[inline]
    fn commit(&mut self) {
        self.commit_page = self.tail_page;
        self.commit_index = self.used[self.commit_page as usize];
        self.committed = self.taken;
    }

    /// "Read" in its three phases.
    #[inline]
    fn read(&mut self) -> Answer {
        match self.reader {
            Reader::Idle => self.idle(),
            Reader::Found { p, h } => self.found(p, h),
            Reader::Ready { p, h } => self.ready(p, h),
        }
    }

    /// "IDLE: the limit is the commit index if the commit page is the reader page,
    /// else the reader page's used. Position below limit: position + 1, handed + 1,
    /// answer Event(number, value). Else, commit page is reader page: Empty. Else,
    /// the lowest page p ..., h its page: FOUND (p, h), answer Found. No such page:
    /// Busy."
    #[inline]
    fn idle(&mut self) -> Answer {
        let at_commit = self.commit_page == self.reader_page;
        let limit = if at_commit {
            self.commit_index
        } else {
            self.used[self.reader_page as usize]
        };
        if self.position < limit {
            let place = self.place(self.reader_page, self.position);
            self.position += 1;
            self.handed += 1;
            return Answer::Event(self.numbers[place], self.values[place]);
        }
        if at_commit {
            return Answer::Empty;
        }
        match self.header() {
            Some(p) => {
                let h = page_in(self.words[p as usize]);
                self.reader = Reader::Found { p, h };
                Answer::Found
            }
            None => Answer::Busy,
        }
    }

    /// "FOUND: the reader page's word becomes (page in h's word) HEADER. READY,
    /// answer Prepared."
    #[inline]
    fn found(&mut self, p: u32, h: u32) -> Answer {
        let next = page_in(self.words[h as usize]);
        self.words[self.reader_page as usize] = word(next, HEADER);
        self.reader = Reader::Ready { p, h };
        Answer::Prepared
    }

    /// "READY: if p's word is h HEADER, it becomes (reader page) NORMAL; the old
    /// reader page's used becomes 0; h is the reader page; position 0. Answer
    /// Swapped. Else answer Missed. Either way IDLE."
    #[inline]
    fn ready(&mut self, p: u32, h: u32) -> Answer {
        self.reader = Reader::Idle;
        if self.words[p as usize] != word(h, HEADER) {
            return Answer::Missed;
        }
        self.words[p as usize] = word(self.reader_page, NORMAL);
        self.used[self.reader_page as usize] = 0;
        self.reader_page = h;
        self.position = 0;
        Answer::Swapped
    }

    /// "Begun, taken, handed, overwritten, dropped; waiting = committed − handed −
    /// overwritten; open = taken − committed. Complete exactly when begun =
    /// handed." Out of shape: "receipt all zero, not complete".
    pub fn receipt(&self) -> Receipt {
        if !self.in_shape() {
            return Receipt::refused();
        }
        Receipt {
            refusal: None,
            begun: self.begun,
            taken: self.taken,
            handed: self.handed,
            overwritten: self.overwritten,
            dropped: self.dropped,
            waiting: self.committed - self.handed - self.overwritten,
            open: self.taken - self.committed,
            complete: self.begun == self.handed,
        }
    }
}

impl Receipt {
    fn refused() -> Receipt {
        Receipt {
            refusal: Some(Refusal::Shape),
            begun: 0,
            taken: 0,
            handed: 0,
            overwritten: 0,
            dropped: 0,
            waiting: 0,
            open: 0,
            complete: false,
        }
    }

    /// "in the paper's order".
    pub fn counts(&self) -> [u64; 7] {
        [
            self.begun,
            self.taken,
            self.handed,
            self.overwritten,
            self.dropped,
            self.waiting,
            self.open,
        ]
    }
}

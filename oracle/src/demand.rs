//! Demand 3, tested on one list as it runs. What happened to a reading is told from
//! the answers alone, where it lies from the ring's pages; 01, "Receipt", says how, and
//! E3 of document 02 what a drop at depth 1 counts as and what holds at depth 0.

use crate::ring::{
    flag_in, page_in, Action, Answer, Phase, Receipt, Refusal, Ring, HEADER, LIMIT, PAGES, UPDATE,
};

/// A writer, from its Begun on: the value "in that writer's Begin" and, once a
/// Reserved gave it one, the number of its reading.
struct Writer {
    value: u32,
    number: Option<usize>,
}

/// "A reading is numbered when a Reserved gave its number: that writer is its own,
/// and its value is the one in that writer's Begin."
struct Reading {
    value: u32,
    /// "an answer Committed has come after its Reserved", or what counts as one.
    committed: bool,
    /// "an Event gave it".
    handed: bool,
    /// "it lay below n's used just before a Marked".
    overwritten: bool,
}

/// In how many slots a reading lies.
#[derive(Clone, Copy, Default)]
struct Lies {
    /// Its number, "below used ... of all pages".
    below_used: u32,
    /// Its number with its value, "of the slots below the used of a ring page, or
    /// below the used of the reader page and not below the read position".
    unread: u32,
}

/// What the answers of a list tell. Writers and readings stand by their number.
pub struct History {
    writers: Vec<Writer>,
    at_work: Vec<usize>,
    readings: Vec<Reading>,
    dropped: u64,
    last_event: Option<u32>,
    /// The writer of the update mark that stands in the word of each page.
    marks: [Option<usize>; PAGES],
    lies: Vec<Lies>,
}

pub fn must(holds: bool, otherwise: &str) -> Result<(), String> {
    if holds {
        Ok(())
    } else {
        Err(otherwise.to_string())
    }
}

impl History {
    pub fn new() -> History {
        History {
            writers: Vec::new(),
            at_work: Vec::new(),
            readings: Vec::new(),
            dropped: 0,
            last_event: None,
            marks: [None; PAGES],
            lies: Vec::new(),
        }
    }

    /// After an action: its answer is noted, and the ring must hold to the history.
    pub fn check(
        &mut self,
        before: &Ring,
        action: Action,
        answer: Answer,
        after: &Ring,
    ) -> Result<(), String> {
        self.refusals(before, action, answer, after)?;
        self.note(before, action, answer)?;
        self.holds(after)
    }

    /// "Given exactly when": 2 at depth 4, 3 at depth 0, 4 with begun at its limit;
    /// 1 and 5 never in a list. "Comes back: the same state."
    fn refusals(
        &self,
        before: &Ring,
        action: Action,
        answer: Answer,
        after: &Ring,
    ) -> Result<(), String> {
        let depth = self.at_work.len();
        let due = match action {
            Action::Begin(_) if depth == 4 => Some(Refusal::Depth),
            Action::Begin(_) if self.writers.len() as u64 == LIMIT => Some(Refusal::Worn),
            Action::Write if depth == 0 => Some(Refusal::Nobody),
            _ => None,
        };
        let given = match answer {
            Answer::Refused(refusal) => Some(refusal),
            _ => None,
        };
        must(given == due, "refused where it must not be, or not refused")?;
        must(
            given.is_none() || before == after,
            "a refusal changed the ring",
        )
    }

    /// Who is at work, and what happened to which reading.
    fn note(&mut self, before: &Ring, action: Action, answer: Answer) -> Result<(), String> {
        match (action, answer) {
            (_, Answer::Refused(_)) => Ok(()),
            (Action::Begin(value), Answer::Begun(_)) => {
                self.at_work.push(self.writers.len());
                self.writers.push(Writer {
                    value,
                    number: None,
                });
                Ok(())
            }
            (Action::Begin(_), _) => Err("a Begin is answered with Begun".to_string()),
            (Action::Write, _) => self.note_write(before, answer),
            (Action::Read, Answer::Event(number, value)) => self.event(number, value),
            (Action::Read, _) => Ok(()),
        }
    }

    /// "The answer of a Write that isn't refused belongs to the latest begun writer
    /// at work; Committed, Pending or Dropped ends that writer's work." Of a drop at depth
    /// 1, whose writer was the only one at work, E3 of document 02: "Such a drop counts as
    /// an answer Committed in the places of demand 3".
    fn note_write(&mut self, before: &Ring, answer: Answer) -> Result<(), String> {
        let Some(&writer) = self.at_work.last() else {
            return Err("a Write with no writer at work".to_string());
        };
        match answer {
            Answer::Reserved(number) => return self.reserved(writer, number),
            Answer::Marked => return self.marked(before, writer),
            Answer::Cleared => self.cleared(writer),
            Answer::Committed(_) => {
                self.committed();
                self.at_work.pop();
            }
            Answer::Pending => {
                self.at_work.pop();
            }
            Answer::Dropped => {
                self.dropped += 1;
                if self.at_work.len() == 1 {
                    self.committed();
                }
                self.at_work.pop();
            }
            _ => {}
        }
        Ok(())
    }

    /// All readings numbered so far are committed.
    fn committed(&mut self) {
        for reading in &mut self.readings {
            reading.committed = true;
        }
    }

    /// Numbers are given in turn, from 0, and each writer gets one.
    fn reserved(&mut self, writer: usize, number: u32) -> Result<(), String> {
        let next = self.readings.len();
        must(number as usize == next, "the number is not the next one")?;
        let own = &mut self.writers[writer];
        must(own.number.is_none(), "the writer has a number already")?;
        own.number = Some(next);
        self.readings.push(Reading {
            value: own.value,
            committed: false,
            handed: false,
            overwritten: false,
        });
        Ok(())
    }

    /// Events come in rising order, each with its own writer's value.
    fn event(&mut self, number: u32, value: u32) -> Result<(), String> {
        let rising = self.last_event.is_none_or(|last| last < number);
        must(rising, "the events' numbers do not rise")?;
        self.last_event = Some(number);
        let Some(reading) = self.readings.get_mut(number as usize) else {
            return Err("an event of a number that no Reserved gave".to_string());
        };
        must(
            value == reading.value,
            "the event's value is not its writer's",
        )?;
        reading.handed = true;
        Ok(())
    }

    /// "An overwriting is a Write answered Marked; it takes page n, and the pages
    /// are judged as they stand just before it." It takes the oldest ring page, all
    /// of it committed, and every ring page was full: "full is used = S". "A Marked
    /// makes its writer the writer of that update mark."
    fn marked(&mut self, before: &Ring, writer: usize) -> Result<(), String> {
        let Some(Phase::Mark { t, n }) = top_phase(before) else {
            return Err("Marked, and the top record was not in MARK".to_string());
        };
        must(n != before.reader_page, "the page taken is not a ring page")?;
        must(
            ring_pages(before).all(|page| before.used[page as usize] == before.s),
            "a page was taken, and not every ring page was full",
        )?;
        must(
            oldest_page(before) == Some(n),
            "the page taken was not the oldest",
        )?;
        for &number in numbers_on(before, n) {
            let Some(reading) = self.readings.get_mut(number as usize) else {
                return Err("a number that no Reserved gave was overwritten".to_string());
            };
            must(reading.committed, "a reading not committed was overwritten")?;
            reading.overwritten = true;
        }
        self.marks[t as usize] = Some(writer);
        Ok(())
    }

    /// "Only the writer that made the mark clears it."
    fn cleared(&mut self, writer: usize) {
        for mark in &mut self.marks {
            if *mark == Some(writer) {
                *mark = None;
            }
        }
    }

    /// All that demand 3 says of the ring as it stands.
    pub fn holds(&mut self, ring: &Ring) -> Result<(), String> {
        must(ring.in_shape(), "the ring is out of shape")?;
        must(
            self.at_work.len() == ring.depth as usize,
            "the writers at work are not as many as the records",
        )?;
        self.settled(ring)?;
        self.places(ring)?;
        links(ring)?;
        self.marks(ring)
    }

    /// E3's clause, "at depth 0, no reading is uncommitted": by the history, and by the
    /// receipt.
    fn settled(&self, ring: &Ring) -> Result<(), String> {
        if !self.at_work.is_empty() {
            return Ok(());
        }
        must(
            self.readings.iter().all(|reading| reading.committed),
            "at depth 0 a reading is uncommitted",
        )?;
        must(
            ring.receipt().open == 0,
            "at depth 0 the receipt has readings that are open",
        )
    }

    /// "exactly one slot" of the pages: how often each reading lies there.
    fn find(&mut self, ring: &Ring) {
        self.lies.clear();
        self.lies.resize(self.readings.len(), Lies::default());
        for page in 0..=ring.n {
            let read = if page == ring.reader_page {
                ring.position
            } else {
                0
            };
            for slot in 0..ring.used[page as usize] {
                let place = ring.place(page, slot);
                let number = ring.numbers[place] as usize;
                let Some(reading) = self.readings.get(number) else {
                    continue;
                };
                let lies = &mut self.lies[number];
                lies.below_used += 1;
                if slot >= read && ring.values[place] == reading.value {
                    lies.unread += 1;
                }
            }
        }
    }

    /// Every numbered reading is in exactly one of the four places, each told for
    /// itself; those not yet committed are above all others; and the receipt's
    /// counts are the places' sizes.
    fn places(&mut self, ring: &Ring) -> Result<(), String> {
        self.find(ring);
        let (mut handed, mut overwritten, mut open, mut waiting) = (0, 0, 0, 0);
        for (number, (reading, lies)) in self.readings.iter().zip(&self.lies).enumerate() {
            let is_handed = u64::from(reading.handed);
            let is_overwritten = u64::from(reading.overwritten);
            let is_open = u64::from(!reading.committed && lies.below_used == 1);
            let is_waiting = u64::from(reading.committed && lies.unread == 1);
            let places = is_handed + is_overwritten + is_open + is_waiting;
            if places != 1 {
                return Err(format!("reading {number} is in {places} places"));
            }
            must(
                is_open == 1 || open == 0,
                "a reading not yet committed is below another one",
            )?;
            handed += is_handed;
            overwritten += is_overwritten;
            open += is_open;
            waiting += is_waiting;
        }
        let receipt = Receipt {
            refusal: None,
            begun: self.writers.len() as u64,
            taken: self.readings.len() as u64,
            handed,
            overwritten,
            dropped: self.dropped,
            waiting,
            open,
            complete: self.all_handed(),
        };
        must(
            ring.receipt() == receipt,
            "the receipt is not that of the history",
        )
    }

    /// "Complete exactly when" every reading begun has been handed out.
    fn all_handed(&self) -> bool {
        self.writers.iter().all(|writer| match writer.number {
            Some(number) => self.readings[number].handed,
            None => false,
        })
    }

    /// Of the ring pages' words at most one has a header mark; if none has, one has
    /// an update mark. Update marks stand from a Marked to its writer's Cleared, in
    /// no other words, and their writers are at work.
    fn marks(&self, ring: &Ring) -> Result<(), String> {
        let (mut headers, mut updates) = (0, 0);
        for page in 0..=ring.n {
            let flag = flag_in(ring.words[page as usize]);
            let mark = self.marks[page as usize];
            must(
                (flag == UPDATE) == mark.is_some(),
                "the update marks are not those Marked and not Cleared",
            )?;
            let at_work = mark.is_none_or(|writer| self.at_work.contains(&writer));
            must(at_work, "the writer of an update mark is not at work")?;
            if page != ring.reader_page {
                headers += u32::from(flag == HEADER);
                updates += u32::from(flag == UPDATE);
            }
        }
        must(headers <= 1, "two ring pages have a header mark")?;
        must(headers + updates > 0, "neither a header nor an update mark")
    }
}

/// The phase of the top record.
fn top_phase(ring: &Ring) -> Option<Phase> {
    let top = (ring.depth as usize).checked_sub(1)?;
    Some(ring.records[top].phase)
}

/// The numbers below a page's used.
fn numbers_on(ring: &Ring, page: u32) -> &[u32] {
    let first = ring.place(page, 0);
    let end = ring.place(page, ring.used[page as usize]);
    &ring.numbers[first..end]
}

/// "Ring pages are those of 0 to N other than the reader page."
fn ring_pages(ring: &Ring) -> impl Iterator<Item = u32> + '_ {
    (0..=ring.n).filter(move |&page| page != ring.reader_page)
}

/// "The oldest page is the one with the lowest number below its used", of the ring
/// pages: what lies on the reader page is the reader's already.
fn oldest_page(ring: &Ring) -> Option<u32> {
    ring_pages(ring)
        .filter_map(|page| Some((numbers_on(ring, page).iter().min()?, page)))
        .min()
        .map(|(_, page)| page)
}

/// "from any ring page, N moves to the page in the word meet each ring page once
/// and end at the start".
fn links(ring: &Ring) -> Result<(), String> {
    let all = ring_pages(ring).fold(0u32, |pages, page| pages | 1 << page);
    for start in ring_pages(ring) {
        let mut met = 0u32;
        let mut page = start;
        for _ in 0..ring.n {
            page = page_in(ring.words[page as usize]);
            met |= 1 << page;
        }
        must(
            met == all && page == start,
            "the forward links are not one round",
        )?;
    }
    Ok(())
}

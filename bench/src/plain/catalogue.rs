// An unverified program of the catalogue's rules, in plain Rust, over the unverified store.
use crate::plain::store::{Store, Written};

pub const OPEN_PLACES: usize = 16;
pub const DRAFTS: usize = 32;
pub const LAST_NUMBER: u32 = 1_000_000;

#[derive(Clone, Copy, PartialEq, Eq, Debug)]
pub enum Refusal {
    NotOpen = 6,
    NoCard = 7,
    AllTaken = 8,
    NoNumber = 9,
    Unread = 10,
    ManyDrafts = 11,
    Conflict = 12,
    NoPlace = 13,
    NoLines = 14,
    OtherShelf = 15,
}

// A card that a transaction has read, and what it drafted for it.
struct Read {
    card: u32,
    version: u32,
    draft: Option<(u64, u64)>,
}

struct Open {
    number: u32,
    reads: Vec<Read>,
    drafts: usize,
}

#[allow(dead_code)]
pub enum Line {
    Read { transaction: u32, card: u32, writer: u32 },
    Writ { transaction: u32, card: u32, words: (u64, u64) },
    Done { transaction: u32 },
}

pub struct Catalogue {
    pub store: Store,
    width: usize,
    open: Vec<Option<Open>>,
    // Lists of ended transactions, used again.
    spare: Vec<Vec<Read>>,
    given: u32,
    pub journal: Vec<Line>,
    lines: usize,
}

pub struct Reading {
    pub version: u32,
    pub words: (u64, u64),
}

impl Catalogue {
    pub fn new(store: Store, width: usize, lines: usize) -> Catalogue {
        let spare = (0..OPEN_PLACES).map(|_| Vec::with_capacity(store.cards())).collect();
        Catalogue {
            store,
            width,
            open: (0..OPEN_PLACES).map(|_| None).collect(),
            spare,
            given: 0,
            journal: Vec::with_capacity(lines),
            lines,
        }
    }

    pub fn open(&mut self) -> Result<u32, Refusal> {
        let place = self.open.iter().position(Option::is_none).ok_or(Refusal::AllTaken)?;
        if self.given == LAST_NUMBER {
            return Err(Refusal::NoNumber);
        }
        self.given += 1;
        let reads = self.spare.pop().unwrap_or_default();
        self.open[place] = Some(Open {
            number: self.given,
            reads,
            drafts: 0,
        });
        Ok(self.given)
    }

    fn place(&self, slip: u32) -> Result<usize, Refusal> {
        self.open
            .iter()
            .position(|o| matches!(o, Some(o) if o.number == slip))
            .ok_or(Refusal::NotOpen)
    }

    pub fn read(&mut self, slip: u32, card: u32) -> Result<Reading, Refusal> {
        let place = self.place(slip)?;
        let store = &self.store;
        let newest = store.newest(card).ok_or(Refusal::NoCard)?;
        let open = self.open[place].as_mut().ok_or(Refusal::NotOpen)?;
        if let Some(read) = open.reads.iter().find(|r| r.card == card) {
            let words = match read.draft {
                Some(words) => words,
                None => words_of(store, card, read.version)?,
            };
            return Ok(Reading {
                version: read.version,
                words,
            });
        }
        let version = newest_that_fits(store, &open.reads, card, newest).ok_or(Refusal::OtherShelf)?;
        open.reads.push(Read {
            card,
            version,
            draft: None,
        });
        Ok(Reading {
            version,
            words: words_of(store, card, version)?,
        })
    }

    pub fn draft(&mut self, slip: u32, card: u32, words: (u64, u64)) -> Result<(), Refusal> {
        let place = self.place(slip)?;
        if card as usize >= self.store.cards() {
            return Err(Refusal::NoCard);
        }
        let open = self.open[place].as_mut().ok_or(Refusal::NotOpen)?;
        let read = open.reads.iter_mut().find(|r| r.card == card).ok_or(Refusal::Unread)?;
        if read.draft.is_none() {
            if open.drafts == DRAFTS {
                return Err(Refusal::ManyDrafts);
            }
            open.drafts += 1;
        }
        read.draft = Some(words);
        Ok(())
    }

    fn end(&mut self, place: usize) {
        if let Some(mut open) = self.open[place].take() {
            open.reads.clear();
            self.spare.push(open.reads);
        }
    }

    pub fn commit(&mut self, slip: u32) -> Result<(), Refusal> {
        let place = self.place(slip)?;
        let open = self.open[place].as_mut().ok_or(Refusal::NotOpen)?;
        if open.drafts == 0 {
            self.end(place);
            return Ok(());
        }
        let store = &mut self.store;
        if open.reads.iter().any(|r| store.version(r.card, r.version).is_none()) {
            return Err(Refusal::OtherShelf);
        }
        if open
            .reads
            .iter()
            .any(|r| r.draft.is_some() && store.newest(r.card) != Some(r.version))
        {
            self.end(place);
            return Err(Refusal::Conflict);
        }
        open.reads.sort_unstable_by_key(|r| r.card);
        if !has_room(store, &open.reads) {
            return Err(Refusal::NoPlace);
        }
        if self.lines - self.journal.len() < open.reads.len() + open.drafts + 1 {
            return Err(Refusal::NoLines);
        }
        write(store, &mut self.journal, open, self.width);
        self.end(place);
        Ok(())
    }

    pub fn abandon(&mut self, slip: u32) -> Result<(), Refusal> {
        let place = self.place(slip)?;
        self.end(place);
        Ok(())
    }

    pub fn close(&mut self) {
        (0..OPEN_PLACES).for_each(|place| self.end(place));
    }
}

fn words_of(store: &Store, card: u32, version: u32) -> Result<(u64, u64), Refusal> {
    let written = store.version(card, version).ok_or(Refusal::OtherShelf)?;
    Ok((written.first, written.second))
}

// The newest version of the card that fits all cards read so far.
fn newest_that_fits(store: &Store, reads: &[Read], card: u32, newest: u32) -> Option<u32> {
    let mut least = 0;
    for read in reads {
        least = least.max(u32::from(store.entry(read.card, read.version, card)?));
    }
    (least..=newest).rev().find(|n| {
        let Some(stamp) = store.stamp(card, *n) else {
            return false;
        };
        reads.iter().all(|r| u32::from(stamp[r.card as usize]) <= r.version)
    })
}

fn has_room(store: &Store, reads: &[Read]) -> bool {
    let drafted = || reads.iter().filter(|r| r.draft.is_some());
    drafted().all(|r| {
        let together = drafted().filter(|s| store.shares(r.card, s.card) == Some(true)).count();
        store.free(r.card).is_some_and(|free| together <= free as usize)
    })
}

// Puts the drafts, whose transaction has passed every test, and writes its block of the journal.
fn write(store: &mut Store, journal: &mut Vec<Line>, open: &Open, width: usize) {
    let mut counts = [0u32; 256];
    for read in &open.reads {
        if let Some(stamp) = store.stamp(read.card, read.version) {
            for (count, entry) in counts.iter_mut().zip(stamp) {
                *count = (*count).max(u32::from(*entry));
            }
        }
        let writer = store.version(read.card, read.version).map_or(0, |v| v.writer);
        journal.push(Line::Read {
            transaction: open.number,
            card: read.card,
            writer,
        });
    }
    for read in open.reads.iter().filter(|r| r.draft.is_some()) {
        let count = &mut counts[read.card as usize];
        *count = (*count + 1).min(65_535);
    }
    for read in &open.reads {
        if let Some(words) = read.draft {
            let written = Written {
                first: words.0,
                second: words.1,
                writer: open.number,
            };
            let _ = store.put(read.card, written, &counts[..width]);
            journal.push(Line::Writ {
                transaction: open.number,
                card: read.card,
                words,
            });
        }
    }
    journal.push(Line::Done { transaction: open.number });
}

#[cfg(test)]
mod tests;

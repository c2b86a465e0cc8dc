// An unverified judge of the same job, in plain Rust: hash maps for the rules of a file, a bit matrix for dependence.
use super::hash::Map;

pub const RECORD: usize = 32;
pub const LARGEST: usize = 65_536;

#[derive(Clone, Copy, PartialEq, Eq, Debug)]
pub enum Answer {
    Judged { aca: bool, cons: bool, wcf: bool },
    Refused { number: u32, place: usize },
}

#[derive(Clone, Copy, PartialEq, Eq)]
enum Kind {
    Read,
    Writ,
    Done,
    Gone,
}

#[derive(Clone, Copy)]
struct Record {
    kind: Kind,
    transaction: u32,
    card: u32,
    writer: u32,
}

// One transaction, by its place in the order of first records.
#[derive(Default)]
struct Transaction {
    first: usize,
    end: Option<(usize, bool)>,
    // Card, and the version read: the place of the WRIT plus 1, or 0.
    reads: Vec<(u32, usize)>,
    // The transactions that it reads from.
    from: Vec<u32>,
}

fn be32(bytes: &[u8], at: usize) -> u32 {
    u32::from_be_bytes(bytes[at..at + 4].try_into().unwrap())
}

fn be64(bytes: &[u8], at: usize) -> u64 {
    u64::from_be_bytes(bytes[at..at + 8].try_into().unwrap())
}

fn decode(bytes: &[u8]) -> Option<Record> {
    let kind = match &bytes[..4] {
        b"READ" => Kind::Read,
        b"WRIT" => Kind::Writ,
        b"DONE" => Kind::Done,
        b"GONE" => Kind::Gone,
        _ => return None,
    };
    let (transaction, card, writer) = (be32(bytes, 4), be32(bytes, 8), be32(bytes, 12));
    let no_words = be64(bytes, 16) == 0 && be64(bytes, 24) == 0;
    let good = (1..=1_000_000).contains(&transaction)
        && match kind {
            Kind::Read => card <= 255 && writer <= 1_000_000 && no_words,
            Kind::Writ => card <= 255 && writer == transaction,
            Kind::Done | Kind::Gone => card == 0 && writer == 0 && no_words,
        };
    good.then_some(Record {
        kind,
        transaction,
        card,
        writer,
    })
}

#[derive(Default)]
struct History {
    number: Map<u32, u32>,
    transactions: Vec<Transaction>,
    // (transaction, card) to the read, and to the place of the WRIT plus 1.
    read: Map<(u32, u32), ()>,
    written: Map<(u32, u32), usize>,
    // By card: the version and the transaction of each WRIT, oldest first.
    writes: Vec<Vec<(usize, u32)>>,
    aca: bool,
}

impl History {
    fn of(&mut self, number: u32, place: usize) -> u32 {
        let next = self.transactions.len() as u32;
        let at = *self.number.entry(number).or_insert(next);
        if at == next {
            self.transactions.push(Transaction {
                first: place,
                ..Transaction::default()
            });
        }
        at
    }

    // Takes in one record; false where it is out of place.
    fn take(&mut self, record: Record, place: usize) -> bool {
        let at = self.of(record.transaction, place);
        if self.transactions[at as usize].end.is_some() {
            return false;
        }
        match record.kind {
            Kind::Read => self.take_read(record, at, place),
            Kind::Writ => {
                if !self.read.contains_key(&(at, record.card)) || self.written.contains_key(&(at, record.card)) {
                    return false;
                }
                self.written.insert((at, record.card), place + 1);
                self.writes[record.card as usize].push((place + 1, at));
                true
            }
            Kind::Done | Kind::Gone => {
                self.transactions[at as usize].end = Some((place, record.kind == Kind::Done));
                true
            }
        }
    }

    fn take_read(&mut self, record: Record, at: u32, place: usize) -> bool {
        if record.writer == record.transaction || self.read.insert((at, record.card), ()).is_some() {
            return false;
        }
        let mut version = 0;
        if record.writer != 0 {
            let Some(&from) = self.number.get(&record.writer) else {
                return false;
            };
            let Some(&written) = self.written.get(&(from, record.card)) else {
                return false;
            };
            version = written;
            self.aca &= matches!(self.transactions[from as usize].end, Some((end, true)) if end < place);
            self.transactions[at as usize].from.push(from);
        }
        self.transactions[at as usize].reads.push((record.card, version));
        true
    }
}

// For each transaction, the set of those that it depends on.
struct Dependence {
    words: usize,
    rows: Vec<u64>,
}

impl Dependence {
    fn of(transactions: &[Transaction]) -> Dependence {
        let words = transactions.len().div_ceil(64);
        let mut rows = vec![0u64; words * transactions.len()];
        let mut work: Vec<u32> = Vec::with_capacity(transactions.len());
        for start in 0..transactions.len() {
            let row = &mut rows[start * words..(start + 1) * words];
            work.push(start as u32);
            while let Some(t) = work.pop() {
                for &u in &transactions[t as usize].from {
                    let (word, bit) = (u as usize / 64, 1u64 << (u % 64));
                    if row[word] & bit == 0 {
                        row[word] |= bit;
                        work.push(u);
                    }
                }
            }
        }
        Dependence { words, rows }
    }

    fn depends(&self, t: u32, u: u32) -> bool {
        self.rows[t as usize * self.words + u as usize / 64] >> (u % 64) & 1 == 1
    }
}

fn consistent(history: &History, dependence: &Dependence) -> bool {
    for (t, transaction) in history.transactions.iter().enumerate() {
        for &(card, version) in &transaction.reads {
            for &(newer, writer) in history.writes[card as usize].iter().rev() {
                if newer <= version {
                    break;
                }
                if dependence.depends(t as u32, writer) {
                    return false;
                }
            }
        }
    }
    true
}

fn conflict_free(history: &History, dependence: &Dependence) -> bool {
    let mut done = Vec::new();
    for writes in &history.writes {
        done.clear();
        done.extend(
            writes
                .iter()
                .map(|w| w.1)
                .filter(|w| matches!(history.transactions[*w as usize].end, Some((_, true)))),
        );
        for (i, &t) in done.iter().enumerate() {
            for &u in &done[..i] {
                if !dependence.depends(t, u) && !dependence.depends(u, t) {
                    return false;
                }
            }
        }
    }
    true
}

fn refused(number: u32, place: usize) -> Answer {
    Answer::Refused { number, place }
}

pub fn judge(file: &[u8]) -> Answer {
    if file.len() > LARGEST {
        return refused(20, LARGEST / RECORD);
    }
    if file.len() % RECORD != 0 {
        return refused(21, file.len() / RECORD);
    }
    let records = file.len() / RECORD;
    let mut history = History {
        aca: true,
        writes: vec![Vec::new(); 256],
        ..History::default()
    };
    history.read.reserve(records);
    for (place, bytes) in file.chunks_exact(RECORD).enumerate() {
        let Some(record) = decode(bytes) else {
            return refused(22, place);
        };
        if !history.take(record, place) {
            return refused(23, place);
        }
    }
    if let Some(open) = history.transactions.iter().find(|t| t.end.is_none()) {
        return refused(24, open.first);
    }
    let dependence = Dependence::of(&history.transactions);
    Answer::Judged {
        aca: history.aca,
        cons: consistent(&history, &dependence),
        wcf: conflict_free(&history, &dependence),
    }
}

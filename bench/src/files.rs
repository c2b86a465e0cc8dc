// History files to measure with: well-behaved ones, and the worst in shape and in order.
use crate::dice::Dice;
use crate::plain::judge::RECORD;

#[derive(Default)]
pub struct File(pub Vec<u8>);

impl File {
    fn add(&mut self, kind: &[u8; 4], fields: [u32; 3], words: [u64; 2]) {
        self.0.extend_from_slice(kind);
        fields.iter().for_each(|f| self.0.extend_from_slice(&f.to_be_bytes()));
        words.iter().for_each(|w| self.0.extend_from_slice(&w.to_be_bytes()));
    }

    pub fn read(&mut self, t: u32, card: u32, writer: u32) {
        self.add(b"READ", [t, card, writer], [0, 0]);
    }

    pub fn writ(&mut self, t: u32, card: u32) {
        self.add(b"WRIT", [t, card, t], [u64::from(t), u64::from(card)]);
    }

    pub fn done(&mut self, t: u32) {
        self.add(b"DONE", [t, 0, 0], [0, 0]);
    }

    pub fn records(&self) -> usize {
        self.0.len() / RECORD
    }
}

// A transaction under way in a well-behaved history.
struct Open {
    number: u32,
    cards: Vec<u32>,
    // How many of its cards it writes.
    drafts: usize,
    // How many of its records stand in the file.
    told: usize,
}

// A well-behaved history over this many cards: four transactions at a time, each with 2 to 5 reads of the newest versions and 0 to 2
// writes. No card is given to two transactions at a time, so every snapshot is consistent and no write is lost.
pub fn typical(records: usize, cards: u32, seed: u64) -> File {
    let mut dice = Dice::new(seed);
    let mut file = File::default();
    let mut newest = vec![0u32; cards as usize];
    let mut in_use = vec![false; cards as usize];
    let mut open: Vec<Open> = Vec::new();
    let mut number = 0;
    loop {
        let left = records - file.records() - open.iter().map(|o| o.cards.len() + o.drafts + 1 - o.told).sum::<usize>();
        if open.len() < 4 && left > 0 {
            number += 1;
            let reads = (2 + dice.below(4) as usize).min(left - 1);
            let mut mine = Vec::new();
            while mine.len() < reads {
                let card = dice.below(u64::from(cards)) as u32;
                if !in_use[card as usize] {
                    in_use[card as usize] = true;
                    mine.push(card);
                }
            }
            let drafts = (dice.below(3) as usize).min(reads).min(left - 1 - reads);
            open.push(Open {
                number,
                cards: mine,
                drafts,
                told: 0,
            });
            continue;
        }
        if open.is_empty() {
            return file;
        }
        let at = dice.below(open.len() as u64) as usize;
        let one = &mut open[at];
        let (reads, told) = (one.cards.len(), one.told);
        one.told += 1;
        if told < reads {
            let card = one.cards[told];
            file.read(one.number, card, newest[card as usize]);
        } else if told < reads + one.drafts {
            let card = one.cards[told - reads];
            file.writ(one.number, card);
        } else {
            let one = open.swap_remove(at);
            file.done(one.number);
            for (i, card) in one.cards.iter().enumerate() {
                in_use[*card as usize] = false;
                if i < one.drafts {
                    newest[*card as usize] = one.number;
                }
            }
        }
    }
}

// Each transaction reads what the one before wrote, on one card: the longest chain. Ended at once, or all at the end of the file.
pub fn chain(records: usize, ends_last: bool, stride: u32) -> File {
    let mut file = File::default();
    let count = (records / 3) as u32;
    for t in 1..=count {
        file.read(t * stride, 0, (t - 1) * stride);
        file.writ(t * stride, 0);
        if !ends_last {
            file.done(t * stride);
        }
    }
    if ends_last {
        for t in (1..=count).rev() {
            file.done(t * stride);
        }
    }
    file
}

// One cycle: each transaction writes a card of its own and then reads what the one before wrote; the first reads from the last.
// Cards are taken in turn.
pub fn cycle(records: usize, stride: u32) -> File {
    let mut file = File::default();
    let count = (records / 4) as u32;
    for t in 1..=count {
        file.read(t * stride, t % 256, 0);
    }
    for t in 1..=count {
        file.writ(t * stride, t % 256);
    }
    for t in 1..=count {
        let from = if t == 1 { count } else { t - 1 };
        // A second READ of the transaction's own card would be out of place; the neighbour's card differs.
        file.read(t * stride, from % 256, from * stride);
    }
    for t in (1..=count).rev() {
        file.done(t * stride);
    }
    file
}

// One transaction writes, all others read what it wrote.
pub fn readers(records: usize, ends_last: bool, stride: u32) -> File {
    let mut file = File::default();
    file.read(stride, 0, 0);
    file.writ(stride, 0);
    file.done(stride);
    let count = ((records - 3) / 2) as u32;
    for t in 2..=count + 1 {
        file.read(t * stride, 0, stride);
        if !ends_last {
            file.done(t * stride);
        }
    }
    if ends_last {
        for t in (2..=count + 1).rev() {
            file.done(t * stride);
        }
    }
    file
}

// All write one card, each reading what the one before wrote, and all commit at the end: every two are looked at.
pub fn writers(records: usize, stride: u32) -> File {
    let mut file = File::default();
    let count = (records / 3) as u32;
    for t in 1..=count {
        file.read(t * stride, 0, (t - 1) * stride);
        file.writ(t * stride, 0);
    }
    for t in 1..=count {
        file.done(t * stride);
    }
    file
}

// Few transactions that read and write all cards: the most records by one transaction.
pub fn large(records: usize) -> File {
    let mut file = File::default();
    let mut before = 0;
    let mut t = 1;
    while records - file.records() >= 3 {
        let cards = ((records - file.records() - 1) / 2).min(256) as u32;
        (0..cards).for_each(|card| file.read(t, card, before));
        (0..cards).for_each(|card| file.writ(t, card));
        file.done(t);
        before = t;
        t += 1;
    }
    file
}

// A well-behaved file with one fault at random: a changed byte, two records that changed places, or a record left out.
pub fn damaged(records: usize, seed: u64) -> File {
    let mut dice = Dice::new(seed);
    let mut file = typical(records, 32, seed);
    let mut place = || dice.below(records as u64) as usize * RECORD;
    let (one, other) = (place(), place());
    match seed % 3 {
        0 => file.0[one + seed as usize / 3 % RECORD] ^= 1 << (seed % 8),
        1 => (0..RECORD).for_each(|i| file.0.swap(one + i, other + i)),
        _ => drop(file.0.drain(one..one + RECORD)),
    }
    file
}

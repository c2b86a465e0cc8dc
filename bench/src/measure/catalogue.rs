// Transactions a second by the catalogue's rules, and beside SQLite in memory.
use crate::dice::Dice;
use crate::plain::catalogue::{Catalogue, Refusal};
use crate::proved::{self, EditingWork};
use crate::sqlite;
use crate::timing::best;

use super::in_sqlite::in_sqlite;
use super::shelves::{Make, plain_store};

// What is done: how many transactions, on how many cards.
#[derive(Clone, Copy)]
pub struct Work {
    pub cards: u32,
    pub places: u32,
    // Versions of each card before the work begins.
    pub depth: u32,
    pub transactions: u32,
    // How many transactions are open at a time, where the workload has many.
    pub open: u32,
}

// Numbered as in crate `workloads`.
#[derive(Clone, Copy)]
pub enum Kind {
    // Each reads four cards.
    Reads = 0,
    // Each reads two cards and drafts both.
    Drafts = 1,
    // Many open at a time, each reading two of four hot cards and drafting one of them.
    Hot = 2,
    // One reads a card now and then, while others commit; it begins anew once it has read all cards.
    LongReader = 3,
}

impl Kind {
    // How many transactions are open at a time.
    fn open(self, work: &Work) -> u32 {
        match self {
            Kind::Reads | Kind::Drafts => 1,
            Kind::Hot => work.open,
            Kind::LongReader => 2,
        }
    }
}

// A checksum of answers.
#[derive(Default)]
pub struct Sum(pub u64);

impl Sum {
    pub fn add(&mut self, n: u64) {
        self.0 = self.0.wrapping_mul(31).wrapping_add(n);
    }

    fn read(&mut self, catalogue: &mut Catalogue, slip: u32, card: u32) {
        match catalogue.read(slip, card) {
            Ok(reading) => self.add(
                u64::from(reading.version)
                    .wrapping_add(reading.words.0)
                    .wrapping_add(reading.words.1),
            ),
            Err(refusal) => self.add(refusal as u64),
        }
    }

    fn commit(&mut self, catalogue: &mut Catalogue, slip: u32) {
        match catalogue.commit(slip) {
            Ok(()) => self.add(1),
            Err(refusal) => {
                self.add(refusal as u64);
                if refusal != Refusal::Conflict {
                    let _ = catalogue.abandon(slip);
                }
            }
        }
    }
}

// Reads these cards, drafts the first of them, and commits.
fn transaction(catalogue: &mut Catalogue, sum: &mut Sum, cards: &[u32], drafts: usize, words: (u64, u64)) {
    let Ok(slip) = catalogue.open() else {
        return;
    };
    for card in cards {
        sum.read(catalogue, slip, *card);
    }
    for card in &cards[..drafts] {
        let _ = catalogue.draft(slip, *card, words);
    }
    sum.commit(catalogue, slip);
}

// Two cards that differ.
pub fn pair(dice: &mut Dice, cards: u32) -> [u32; 2] {
    let one = dice.below(u64::from(cards)) as u32;
    let other = (one + 1 + dice.below(u64::from(cards) - 1) as u32) % cards;
    [one, other]
}

fn reads(catalogue: &mut Catalogue, sum: &mut Sum, work: &Work) {
    let mut dice = Dice::new(3);
    for _ in 0..work.transactions {
        let cards = [0; 4].map(|_| dice.below(u64::from(work.cards)) as u32);
        transaction(catalogue, sum, &cards, 0, (0, 0));
    }
}

fn drafts(catalogue: &mut Catalogue, sum: &mut Sum, work: &Work) {
    let mut dice = Dice::new(4);
    for i in 0..work.transactions {
        let cards = pair(&mut dice, work.cards);
        transaction(catalogue, sum, &cards, 2, (u64::from(i), 1));
    }
}

fn hot(catalogue: &mut Catalogue, sum: &mut Sum, work: &Work) {
    let mut dice = Dice::new(5);
    let hot = work.cards.min(4);
    let mut open: Vec<(u32, [u32; 2])> = Vec::new();
    for i in 0..work.transactions {
        if let Ok(slip) = catalogue.open() {
            let cards = pair(&mut dice, hot);
            cards.iter().for_each(|card| sum.read(catalogue, slip, *card));
            let _ = catalogue.draft(slip, cards[0], (u64::from(i), 2));
            open.push((slip, cards));
        }
        if open.len() >= work.open as usize {
            let (slip, _) = open.swap_remove(dice.below(open.len() as u64) as usize);
            sum.commit(catalogue, slip);
        }
    }
    catalogue.close();
}

fn long_reader(catalogue: &mut Catalogue, sum: &mut Sum, work: &Work) {
    let mut dice = Dice::new(6);
    let mut next = 0;
    let mut reader = catalogue.open();
    for i in 0..work.transactions {
        let cards = pair(&mut dice, work.cards);
        transaction(catalogue, sum, &cards, 2, (u64::from(i), 3));
        if i % 16 == 0 {
            if let Ok(slip) = reader {
                sum.read(catalogue, slip, next);
                next += 1;
                if next == work.cards {
                    sum.commit(catalogue, slip);
                    reader = catalogue.open();
                    next = 0;
                }
            }
        }
    }
    catalogue.close();
}

fn plain(make: Make, kind: Kind, work: &Work) -> u64 {
    let lines = (work.transactions * 5 + work.depth * work.cards * 3 + 100) as usize;
    let mut catalogue = Catalogue::new(plain_store(make, work.cards, work.cards, work.places), work.cards as usize, lines);
    let mut sum = Sum::default();
    for i in 0..work.depth * work.cards {
        transaction(&mut catalogue, &mut sum, &[i % work.cards], 1, (u64::from(i), 4));
    }
    match kind {
        Kind::Reads => reads(&mut catalogue, &mut sum, work),
        Kind::Drafts => drafts(&mut catalogue, &mut sum, work),
        Kind::Hot => hot(&mut catalogue, &mut sum, work),
        Kind::LongReader => long_reader(&mut catalogue, &mut sum, work),
    }
    sum.0
}

fn by_proved(make: Make, kind: Kind, work: &Work) -> u64 {
    let work = EditingWork {
        cards: work.cards,
        places: work.places,
        depth: work.depth,
        transactions: work.transactions,
        open: work.open,
        kind: kind as u32,
    };
    proved::editing(make, &work)
}

// Transactions in a second, of the work less what making and filling the shelf costs.
fn rate(work: Work, run: impl Fn(&Work) -> u64) -> f64 {
    let (_, made) = best(9, || run(&Work { transactions: 0, ..work }));
    let (_, all) = best(9, || run(&work));
    f64::from(work.transactions) / (all - made).max(1.0) * 1e9
}

fn line(name: &str, make: Make, make_name: &str, kind: Kind, work: Work) {
    assert_eq!(plain(make, kind, &work), by_proved(make, kind, &work), "{name}, {make_name}");
    let proved = rate(work, |w| by_proved(make, kind, w));
    let unverified = rate(work, |w| plain(make, kind, w));
    let sqlite = rate(work, |w| in_sqlite(kind, w));
    println!(
        "| {name} | {make_name} | {} | {} | {} | {proved:.0} | {unverified:.0} | {sqlite:.0} | {:.2} | {:.1} |",
        work.cards,
        work.depth,
        kind.open(&work),
        unverified / proved,
        proved / sqlite
    );
}

fn head(title: &str) {
    println!(
        "\n{title}\n\n| workload | make | cards | versions before | open | proved | unverified Rust | SQLite | time, proved to unverified | proved to SQLite |\n|---|---|---|---|---|---|---|---|---|---|"
    );
}

pub fn run() {
    println!("\nSQLite {} in memory, its defaults, prepared statements", sqlite::version());
    let work = Work {
        cards: 64,
        places: 60_000,
        depth: 10,
        transactions: 20_000,
        open: 16,
    };
    let kinds = [
        ("4 reads", Kind::Reads),
        ("2 reads, 2 drafts", Kind::Drafts),
        ("16 open, hot cards", Kind::Hot),
        ("long reader", Kind::LongReader),
    ];
    head("Catalogue: transactions a second");
    for (name, kind) in kinds {
        line(name, Make::Row, "row", kind, Work { places: 1_000, ..work });
        line(name, Make::Pool, "pool", kind, work);
        line(name, Make::Split, "split of two pools", kind, Work { places: 100_000, ..work });
    }
    head("Catalogue: on a pile of splits");
    for (name, kind) in kinds {
        let work = Work { cards: 63, places: 100_000, ..work };
        line(name, Make::Pool, "pool", kind, Work { places: 60_000, ..work });
        line(name, Make::Pile, "eight splits on nine pools", kind, work);
    }
    head("Catalogue: growth with the cards");
    for cards in [4, 16, 64, 256] {
        line(
            "2 reads, 2 drafts",
            Make::Pool,
            "pool",
            Kind::Drafts,
            Work { cards, depth: 10, ..work },
        );
    }
    head("Catalogue: growth with the versions");
    for depth in [1, 10, 100, 300] {
        line(
            "4 reads",
            Make::Pool,
            "pool",
            Kind::Reads,
            Work {
                depth,
                transactions: 100_000,
                ..work
            },
        );
        line("long reader", Make::Pool, "pool", Kind::LongReader, Work { depth, ..work });
    }
    head("Catalogue: growth with the open transactions");
    for open in [1, 4, 16] {
        line("hot cards", Make::Pool, "pool", Kind::Hot, Work { open, ..work });
    }
}

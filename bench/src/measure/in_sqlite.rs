// The catalogue's workloads in SQLite.
use super::catalogue::{Kind, Sum, Work, pair};
use crate::dice::Dice;
use crate::sqlite;

// The same reads and updates in SQLite's transactions. It has one transaction at a time on a connection, so those that are open together here
// follow one another there, and the long reader's reads are transactions of their own.
pub fn in_sqlite(kind: Kind, work: &Work) -> u64 {
    let table = sqlite::Cards::new(work.cards);
    let mut dice = Dice::new(7);
    let mut sum = Sum::default();
    let mut next = 0;
    for i in 0..work.transactions {
        let (cards, count, drafts) = match kind {
            Kind::Reads => ([0; 4].map(|_| dice.below(u64::from(work.cards)) as u32), 4, 0),
            Kind::Drafts | Kind::LongReader => (four(pair(&mut dice, work.cards)), 2, 2),
            Kind::Hot => (four(pair(&mut dice, work.cards.min(4))), 2, 1),
        };
        table.begin();
        for card in &cards[..count] {
            table.read(*card).iter().for_each(|n| sum.add(*n as u64));
        }
        for card in &cards[..drafts] {
            table.write(*card, (u64::from(i), 5));
        }
        table.commit();
        if matches!(kind, Kind::LongReader) && i % 16 == 0 {
            table.begin();
            table.read(next).iter().for_each(|n| sum.add(*n as u64));
            table.commit();
            next = (next + 1) % work.cards;
        }
    }
    sum.0
}

fn four(cards: [u32; 2]) -> [u32; 4] {
    [cards[0], cards[1], 0, 0]
}

// Questions and puts on each make of shelf, beside a `Vec` of versions for each card.
use crate::dice::Dice;
use crate::plain::store::{Store, Written};
use crate::proved::{self, ShelfWork};
use crate::timing::best;

#[derive(Clone, Copy)]
pub enum Make {
    Row,
    Pool,
    // Of two pools.
    Split,
    // Eight splits on nine pools.
    Pile,
}

pub fn plain_store(make: Make, cards: u32, width: u32, places: u32) -> Store {
    let (cards, width) = (cards as usize, width as usize);
    let mut store = match make {
        Make::Row => Store::row(cards, width, places),
        Make::Pool => Store::pool(cards, width, places),
        Make::Split => Store::parts(cards, width, 2, places / 2),
        Make::Pile => Store::parts(cards, width, 9, places / 9),
    };
    store.reserve(match make {
        Make::Row => places as usize,
        Make::Pool | Make::Split | Make::Pile => places as usize / cards * 5 / 4 + 8,
    });
    store
}

fn put_all(store: &mut Store, work: &ShelfWork) -> u64 {
    let mut counts = [0u32; 256];
    let mut dice = Dice::new(1);
    let mut taken = 0;
    for i in 0..work.puts {
        let state = dice.roll();
        let card = ((state >> 33) % u64::from(work.cards)) as u32;
        counts[card as usize] = i % 65_536;
        let written = Written {
            first: u64::from(i),
            second: state,
            writer: i,
        };
        if store.put(card, written, &counts[..work.width as usize]).is_ok() {
            taken += 1;
        }
    }
    taken
}

fn ask(store: &Store, card: u32, state: u64) -> Option<u64> {
    let newest = store.newest(card)?;
    let version = ((state >> 8) % (u64::from(newest) + 1)) as u32;
    // Three questions, as they are asked of a shelf.
    let words = store.version(card, version)?;
    let sum = words.first.wrapping_add(words.second);
    let writer = store.version(card, version)?.writer;
    let count = store.entry(card, version, card)?;
    Some(sum.wrapping_add(u64::from(writer)).wrapping_add(u64::from(count)))
}

fn ask_all(store: &Store, work: &ShelfWork) -> u64 {
    let mut dice = Dice::new(2);
    let mut sum = 0u64;
    for _ in 0..work.asks {
        let state = dice.roll();
        let card = ((state >> 33) % u64::from(work.cards)) as u32;
        sum = sum.wrapping_mul(31).wrapping_add(ask(store, card, state).unwrap_or(7));
    }
    sum
}

fn plain(make: Make, work: &ShelfWork) -> u64 {
    let mut store = plain_store(make, work.cards, work.width, work.places);
    put_all(&mut store, work).wrapping_add(ask_all(&store, work))
}

// The nanoseconds of one put and of one round of questions: the work with and without them, less what making the shelf costs.
fn costs(work: ShelfWork, run: impl Fn(&ShelfWork) -> u64) -> (f64, f64) {
    let runs = if work.puts > 10_000 { 9 } else { 60 };
    let (_, made) = best(runs, || run(&ShelfWork { puts: 0, asks: 0, ..work }));
    let (_, put) = best(runs, || run(&ShelfWork { asks: 0, ..work }));
    let (_, asked) = best(runs, || run(&work));
    (
        (put - made).max(0.0) / f64::from(work.puts),
        (asked - put).max(0.0) / f64::from(work.asks),
    )
}

fn row(name: &str, make: Make, work: ShelfWork) {
    assert_eq!(plain(make, &work), proved::shelf(make, &work), "{name}");
    let (plain_put, plain_ask) = costs(work, |w| plain(make, w));
    let (put, ask) = costs(work, |w| proved::shelf(make, w));
    println!(
        "| {name} | {} | {} | {put:.1} | {plain_put:.1} | {:.2} | {ask:.1} | {plain_ask:.1} | {:.2} |",
        work.cards,
        work.puts,
        put / plain_put,
        ask / plain_ask
    );
}

pub fn run() {
    println!("\nShelves: nanoseconds of one put, and of one round of four questions (newest, words, writer, one count)\n");
    println!(
        "| make | cards | versions | put, proved | put, unverified | ratio | questions, proved | questions, unverified | ratio |\n|---|---|---|---|---|---|---|---|---|"
    );
    for (cards, versions) in [(2, 10), (16, 1_000), (16, 60_000), (1, 60_000), (256, 60_000)] {
        let work = ShelfWork {
            cards,
            width: cards,
            places: versions,
            puts: versions,
            asks: 200_000,
        };
        let each = ShelfWork {
            places: (versions / cards * 3 / 2 + 8).min(4_095),
            ..work
        };
        if versions / cards < 4_095 {
            row("row", Make::Row, each);
        }
        row("pool", Make::Pool, work);
        if cards > 1 {
            row(
                "split of two pools",
                Make::Split,
                ShelfWork {
                    places: versions * 5 / 4,
                    ..work
                },
            );
        }
    }
    for (cards, versions) in [(18, 90), (18, 1_000), (18, 60_000), (252, 60_000)] {
        let work = ShelfWork {
            cards,
            width: cards,
            places: versions * 5 / 4,
            puts: versions,
            asks: 200_000,
        };
        row("pool", Make::Pool, ShelfWork { places: versions, ..work });
        row("split of two pools", Make::Split, work);
        row("eight splits on nine pools", Make::Pile, work);
    }
}

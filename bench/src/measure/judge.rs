// The judge on well-behaved files, on the worst ones, and how its work grows with the records.
use crate::files::{self, File};
use crate::plain::judge::{Answer, judge};
use crate::proved;
use crate::timing::best;
use std::hint::black_box;

const RUNS: usize = 200;

// An answer in the form in which the proved judge's export gives it.
fn told_by(answer: &Answer) -> u32 {
    match answer {
        Answer::Refused { number, .. } => *number,
        Answer::Judged { aca, cons, wcf } => 100 + 4 * u32::from(*aca) + 2 * u32::from(*cons) + u32::from(*wcf),
    }
}

fn row(name: &str, file: &File) {
    let (answer, plain) = best(RUNS, || judge(black_box(&file.0)));
    let (told, proved) = best(RUNS, || proved::judge(black_box(&file.0)));
    assert_eq!(told, told_by(&answer), "{name}: {answer:?}");
    println!(
        "| {name} | {} | {:.1} | {:.1} | {:.2} |",
        file.records(),
        proved / 1000.0,
        plain / 1000.0,
        proved / plain
    );
}

fn head(title: &str) {
    println!("\n{title}\n\n| file | records | proved judge, us | unverified judge, us | ratio |\n|---|---|---|---|---|");
}

// Multiples of this are linked under one node; there are 488 of them among the transaction numbers.
const COLLIDING: u32 = 2048;

// Both on many damaged files: the answers must be the same.
fn compare(count: u64) {
    let mut refused = 0;
    for seed in 0..count {
        let file = files::damaged(64, seed);
        let answer = judge(&file.0);
        assert_eq!(proved::judge(&file.0), told_by(&answer), "damaged file {seed}");
        refused += u64::from(matches!(answer, Answer::Refused { .. }));
    }
    println!("\n{count} damaged files, {refused} of them refused: the same answers by both");
}

pub fn run() {
    compare(5_000);
    head("Judge, typical files");
    for records in [256, 512, 1024, 2048] {
        row("well-behaved, 32 cards", &files::typical(records, 32, 1));
    }
    row("well-behaved, 64 cards", &files::typical(2048, 64, 2));
    row("well-behaved, 200 cards", &files::typical(2048, 200, 3));
    head("Judge, worst files");
    for (name, file) in [
        ("chain", files::chain(2048, false, 1)),
        ("chain, ends last", files::chain(2048, true, 1)),
        ("chain of colliding numbers", files::chain(488 * 3, true, COLLIDING)),
        ("cycle", files::cycle(2048, 1)),
        ("cycle of colliding numbers", files::cycle(488 * 4, COLLIDING)),
        ("all read from one", files::readers(2048, false, 1)),
        ("all read from one, ends last", files::readers(2048, true, 1)),
        ("all write one card", files::writers(2048, 1)),
        ("all write one card, colliding", files::writers(488 * 3, COLLIDING)),
        ("few transactions, all cards", files::large(2048)),
    ] {
        row(name, &file);
    }
    head("Judge, growth");
    for records in [256, 512, 1024, 2048] {
        row("chain, ends last", &files::chain(records, true, 1));
        row("cycle", &files::cycle(records, 1));
        row("all write one card", &files::writers(records, 1));
    }
}

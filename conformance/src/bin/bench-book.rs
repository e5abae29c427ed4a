//! How long the proved admission of a formula book takes, against a Rust `HashSet` that takes in
//! the same rows, and against the separate checker; and with a column of sizes that is lent, against
//! that without. Ratios of medians, in one run.

use std::collections::HashSet;
use std::hint::black_box;
use std::time::Instant;

use conformance::builder::data;
use conformance::checker::{admit_book, ABSENT};
use conformance::proved;
use conformance::random::{row, Row};

/// Half predicates, a quarter conjunctions of neighbours, a quarter says.
fn ordinary(count: usize) -> Vec<Row> {
    (0..count)
        .map(|k| match k % 4 {
            0 | 1 => row(0, (k % 5) as u8, [(k % 9) as u16, data(k as u16), ABSENT]),
            2 => row(3, 0, [k as u16 - 1, k as u16 - 2, ABSENT]),
            _ => row(2, 0, [(k % 3) as u16, k as u16 - 2, (k % 7) as u16]),
        })
        .collect()
}

/// Bodies of 62 nodes, each under its own for-all: every second row asks for a walk.
fn walks(count: usize) -> Vec<Row> {
    let mut book = vec![row(0, 0, [ABSENT; 3])];
    for k in 1..62 {
        book.push(row(4, (k % 2) as u8, [k - 1, ABSENT, ABSENT]));
    }
    for k in 62..count as u16 {
        book.push(if k % 2 == 0 {
            row(2, 0, [k, 61, 0])
        } else {
            row(4, 0, [k - 1, ABSENT, ABSENT])
        });
    }
    book
}

fn median(mut times: Vec<f64>) -> f64 {
    times.sort_by(f64::total_cmp);
    times[times.len() / 2]
}

/// Microseconds of one run, the median of many; the bytes are in the cache.
fn time<T>(mut run: impl FnMut() -> T) -> f64 {
    let runs = 401;
    median(
        (0..runs)
            .map(|_| {
                let start = Instant::now();
                black_box(run());
                start.elapsed().as_secs_f64() * 1e6
            })
            .collect(),
    )
}

fn main() {
    println!(
        "book       rows  proved us  HashSet us  ratio  separate us  ratio  with sizes us  ratio"
    );
    for (name, make) in [("ordinary", ordinary as fn(usize) -> Vec<Row>), ("walks", walks)] {
        for count in [128, 256, 512, 1_024] {
            let book = make(count);
            let bytes = book.concat();
            assert_eq!(proved::admit_book(&bytes), Ok(()));
            let proved = time(|| proved::admit_book(black_box(&bytes)));
            let set = time(|| black_box(&book).iter().copied().collect::<HashSet<Row>>());
            let separate = time(|| admit_book(black_box(&bytes)).is_ok());
            let mut column = [0; 1_024];
            let sizes = time(|| proved::size_column(black_box(&bytes), black_box(&mut column)));
            println!(
                "{name:9} {count:5} {proved:10.1} {set:11.1} {:6.2} {separate:12.1} {:6.2} {sizes:14.1} {:6.2}",
                proved / set,
                proved / separate,
                sizes / proved
            );
        }
    }
}

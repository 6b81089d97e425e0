//! Times a public call of the library beside the same call of the Rust crate `data-url`, or with the feature `against`
//! of the library of another commit. With the feature `bindings`, other bindings for Rust are in the crate's place, and
//! only the rows of bindings are timed.
//!
//!     bench                 writes the names of the rows, a line each, and after a tab `slow` where one call takes
//!                           seconds
//!     bench NAME            writes the bytes of a text of a row, how often it was faster than its counterpart, and
//!                           the nanoseconds of a call of each
//!
//! A row is as many texts of its kind, each from another seed, as have some 300 KB, and at most 1,000. In a round all
//! are passed to the one library and then to the other. So no text comes twice in a round, and the processor learns
//! less of its branches than of one text. What is written are medians over the rounds, so a busy machine slows all of a
//! round alike.

mod rows;
mod shapes;
mod texts;

/// The calls of the library as it is. `bench/calls` gave its symbols a prefix.
#[cfg(not(feature = "bindings"))]
mod ours {
    macro_rules! symbol {
        ($export:ident) => {
            concat!("ours_", stringify!($export))
        };
    }
    include!("ours.rs");
}

/// With the feature `bindings`, that library is not linked. Rows of it are made with these calls, and left out.
#[cfg(feature = "bindings")]
mod ours {
    use proved as library;
    include!("calls.rs");
}

/// The calls of the library of another commit, whose symbols have another prefix.
#[cfg(feature = "against")]
mod theirs {
    macro_rules! symbol {
        ($export:ident) => {
            concat!("before_", stringify!($export))
        };
    }
    include!("ours.rs");
}

/// The calls of the Rust crate `data-url`.
#[cfg(not(feature = "against"))]
mod theirs {
    use published as library;
    include!("calls.rs");
}

/// The calls of `bindings/rust`, which takes its place.
#[cfg(not(feature = "against"))]
#[allow(dead_code)]
mod bindings {
    use proved as library;
    include!("calls.rs");
}

use rows::{rows, Row};
use std::hint::black_box;
use std::time::{Duration, Instant};
use texts::Numbers;

/// How many bytes the texts of a row have, about, and how many texts there are at most.
const BYTES: usize = 300_000;
const TEXTS: usize = 1000;

/// How many rounds are timed at least and at most, and for how long the rounds between these go on.
const ROUNDS: std::ops::Range<usize> = 15..301;
const LONG_ENOUGH: Duration = Duration::from_millis(150);

/// A call: it returns how many bytes its result has, and copies them to the output as far as they fit.
type Call = fn(&[u8], &mut [u8]) -> usize;

/// The texts of a row.
fn texts_of(row: &Row) -> Vec<Vec<u8>> {
    let first = (row.make)(&mut Numbers::new(1));
    let count = if row.is_slow {
        1
    } else {
        (BYTES / first.len()).clamp(1, TEXTS)
    };
    let others = (2..=count as u64).map(|seed| (row.make)(&mut Numbers::new(seed)));
    std::iter::once(first).chain(others).collect()
}

/// Returns the nanoseconds that a call takes for all the texts.
fn time(call: Call, texts: &[Vec<u8>], room: &mut [u8]) -> f64 {
    let start = Instant::now();
    for text in texts {
        black_box(call(black_box(text), black_box(&mut *room)));
    }
    start.elapsed().as_nanos() as f64
}

fn median(values: &mut [f64]) -> f64 {
    values.sort_by(f64::total_cmp);
    values[values.len() / 2]
}

/// Panics if the two calls of a row differ on one of the texts.
fn compare(row: &Row, texts: &[Vec<u8>]) {
    for text in texts {
        let mut ours = vec![0; text.len() + 4096];
        let mut theirs = ours.clone();
        let timed = ((row.ours)(text, &mut ours), (row.theirs)(text, &mut theirs));
        ours.fill(0);
        theirs.fill(0);
        let shown = (
            (row.shows_ours)(text, &mut ours),
            (row.shows_theirs)(text, &mut theirs),
        );
        for (len, their_len) in [timed, shown] {
            assert_eq!(len, their_len, "{}: how many bytes", row.name);
            assert_ne!(len, usize::MAX, "{}: refused", row.name);
        }
        assert!(ours == theirs, "{}: the bytes", row.name);
    }
}

/// Times a round: both calls, in turn the one or the other first. Returns the nanoseconds of each.
fn time_both(row: &Row, texts: &[Vec<u8>], room: &mut [u8], is_first: bool) -> (f64, f64) {
    if is_first {
        let ours = time(row.ours, texts, room);
        (ours, time(row.theirs, texts, room))
    } else {
        let theirs = time(row.theirs, texts, room);
        (time(row.ours, texts, room), theirs)
    }
}

fn measure(row: &Row) {
    let texts = texts_of(row);
    let longest = texts.iter().map(Vec::len).max().unwrap();
    let mut room = vec![
        0;
        if row.is_timed_with_room {
            longest + 4096
        } else {
            0
        }
    ];
    let rounds = if row.is_slow { 1..1 } else { ROUNDS };
    if !row.is_slow {
        compare(row, &texts);
    }
    let (mut ours, mut theirs, mut times) = (vec![], vec![], vec![]);
    let start = Instant::now();
    while ours.len() < rounds.start || ours.len() < rounds.end && start.elapsed() < LONG_ENOUGH {
        let (mine, other) = time_both(row, &texts, &mut room, ours.len() % 2 == 0);
        times.push(other / mine);
        ours.push(mine);
        theirs.push(other);
    }
    let count = texts.len() as f64;
    let bytes = texts.iter().map(Vec::len).sum::<usize>() / texts.len();
    println!(
        "{bytes} {} {} {}",
        median(&mut times),
        median(&mut ours) / count,
        median(&mut theirs) / count
    );
}

fn main() {
    let wanted = std::env::args().nth(1);
    for row in rows() {
        match &wanted {
            None => println!("{}\t{}", row.name, if row.is_slow { "slow" } else { "" }),
            Some(name) if *name == row.name => measure(&row),
            Some(_) => {}
        }
    }
}

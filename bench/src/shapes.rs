//! Rows of texts that users have, in Rattle and through `bindings/rust`. Their closures keep no bytes: they add up how
//! many there are, and some of them.

use crate::rows::{base64_url, plain_url, Table};
use crate::texts::{base64, base64_with_escapes, escaped, icon, url, Lines, Numbers};
use crate::{ours, theirs, Call};

type Make = fn(&mut Numbers) -> Vec<u8>;

/// The size of the parts of a text that is fed at once.
const WHOLE: usize = usize::MAX;

/// A line of 76 symbols and its newline.
const LINE: usize = 77;

/// The same call of each library that is linked.
#[derive(Clone, Copy)]
struct Each {
    ours: Call,
    theirs: Call,
    #[cfg(not(feature = "against"))]
    bindings: Call,
}

macro_rules! each {
    ($($call:tt)*) => {
        Each {
            ours: ours::$($call)*,
            theirs: theirs::$($call)*,
            #[cfg(not(feature = "against"))]
            bindings: crate::bindings::$($call)*,
        }
    };
}

/// Adds a row of a call and, beside the crate, a row of it through `bindings/rust`. `shown` returns the bytes that
/// `timed` adds up.
fn push(table: &mut Table, name: String, make: Make, timed: Each, shown: Each) {
    let row = table.push(name.clone(), make, (timed.ours, timed.theirs));
    (row.shows_ours, row.shows_theirs) = (shown.ours, shown.theirs);
    #[cfg(not(feature = "against"))]
    {
        let calls = (timed.bindings, timed.theirs);
        let row = table.push(format!("bindings {name}"), make, calls);
        (row.shows_ours, row.shows_theirs) = (shown.bindings, shown.theirs);
    }
}

/// The length of a long text.
const LONG: usize = 1 << 16;

fn icon_url<const LEN: usize>(numbers: &mut Numbers) -> Vec<u8> {
    url("image/svg+xml", &icon(numbers, LEN))
}

fn symbols<const LEN: usize>(numbers: &mut Numbers) -> Vec<u8> {
    base64(numbers, LEN, Lines::NONE)
}

fn symbols_url<const LEN: usize>(numbers: &mut Numbers) -> Vec<u8> {
    base64_url(&symbols::<LEN>(numbers))
}

fn lines(numbers: &mut Numbers) -> Vec<u8> {
    base64(numbers, LONG, Lines::of(LINE - 1, "\n"))
}

fn letters_url<const LEN: usize>(numbers: &mut Numbers) -> Vec<u8> {
    plain_url(&escaped(numbers, LEN, 0))
}

/// Icons through `Pieces`, and the same beside the crate's `decode`.
fn push_pieces(table: &mut Table, icons: &[(&str, Make)]) {
    let calls = (ours::pieces as Call, theirs::pieces as Call);
    for (name, make) in icons {
        table.push(format!("{name} pieces summed"), *make, calls);
        table
            .push(format!("{name} pieces"), *make, calls)
            .is_timed_with_room = true;
    }
}

/// URLs: icons in style sheets, pictures and fonts in base64, and plain texts.
fn push_urls(table: &mut Table) {
    let shapes: [(&str, Make); 13] = [
        ("icon 300", icon_url::<300>),
        ("icon 1100", icon_url::<1100>),
        ("icon 5000", icon_url::<5000>),
        ("url base64 clean 100", symbols_url::<100>),
        ("url base64 clean 400", symbols_url::<400>),
        ("url base64 clean 4000", symbols_url::<4000>),
        ("url base64 clean 64K", symbols_url::<LONG>),
        ("url base64 lines 76 64K", |numbers| {
            base64_url(&lines(numbers))
        }),
        ("url base64 escapes 10% 64K", |numbers| {
            base64_url(&base64_with_escapes(numbers, LONG, 10))
        }),
        ("plain 20", letters_url::<20>),
        ("plain 1000", letters_url::<1000>),
        ("plain 64K", letters_url::<LONG>),
        ("no header 20", |numbers| url("", &escaped(numbers, 20, 0))),
    ];
    let (summed, all) = (each!(decode_summed), each!(decode));
    let to_vec = each!(decode_to_vec);
    // The first three are the icons.
    push_pieces(table, &shapes[..3]);
    for (name, make) in shapes {
        push(table, format!("{name} decode summed"), make, summed, all);
        push(table, format!("{name} decode_to_vec"), make, to_vec, to_vec);
    }
}

/// A `Decoder` that is fed a whole text, or parts.
fn push_feeds(table: &mut Table) {
    let at_once = each!(base64_feed_summed::<WHOLE>);
    let in_4096 = each!(base64_feed_summed::<4096>);
    #[rustfmt::skip]
    let feeds: [(&str, Make, Each); 10] = [
        ("clean 64K feed", symbols::<LONG>, at_once),
        ("clean 64K feed in 4096", symbols::<LONG>, in_4096),
        ("clean 64K feed in 1000", symbols::<LONG>, each!(base64_feed_summed::<1000>)),
        ("clean 8192 feed in 64", symbols::<8192>, each!(base64_feed_summed::<64>)),
        ("clean 8192 feed in 10", symbols::<8192>, each!(base64_feed_summed::<10>)),
        ("clean 40 feed", symbols::<40>, at_once),
        ("clean 8 feed", symbols::<8>, at_once),
        ("lines 76 64K feed", lines, at_once),
        ("lines 76 64K feed in 4096", lines, in_4096),
        ("lines 76 64K feed by line", lines, each!(base64_feed_summed::<LINE>)),
    ];
    let all = each!(base64_feed);
    for (name, make, summed) in feeds {
        push(table, format!("base64 {name} summed"), make, summed, all);
    }
}

pub fn push_shapes(table: &mut Table) {
    push_urls(table);
    push_feeds(table);
    let to_vec = each!(base64_to_vec);
    let shapes: [(&str, Make); 2] = [("clean 40", symbols::<40>), ("lines 76 64K", lines)];
    for (name, make) in shapes {
        push(
            table,
            format!("base64 {name} decode_to_vec"),
            make,
            to_vec,
            to_vec,
        );
    }
}

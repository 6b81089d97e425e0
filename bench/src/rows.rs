//! The rows of the table: the call that each times, and how its texts are made.

use crate::shapes::push_shapes;
use crate::texts::{
    base64, base64_with_escapes, escaped, fragment, growing_names, indented, lone_percents,
    names_that_end_alike, numbered_names, quoted, quoted_letters, quoted_quotes, raw_svg, svg,
    type_in_use, url, wrapped, Lines, Numbers,
};
use crate::{ours, theirs, Call};
use std::collections::HashSet;

type Make = Box<dyn Fn(&mut Numbers) -> Vec<u8>>;

pub struct Row {
    pub name: String,
    pub make: Make,
    pub ours: Call,
    pub theirs: Call,
    /// Calls that return the result of the timed ones, if those return only a number.
    pub shows_ours: Call,
    pub shows_theirs: Call,
    /// Whether the timed call is passed an output, since its closure writes to it.
    pub is_timed_with_room: bool,
    /// Whether one call takes seconds.
    pub is_slow: bool,
}

const SIZES: [(usize, &str); 3] = [(1 << 10, "1K"), (1 << 16, "64K"), (1 << 22, "4M")];

/// The size of a text where no other one is named.
const SOME: usize = 8000;

#[derive(Default)]
pub struct Table(Vec<Row>);

impl Table {
    /// Adds a row of two calls that return their results.
    pub fn push(
        &mut self,
        name: String,
        make: impl Fn(&mut Numbers) -> Vec<u8> + 'static,
        calls: (Call, Call),
    ) -> &mut Row {
        self.0.push(Row {
            name,
            make: Box::new(make),
            ours: calls.0,
            theirs: calls.1,
            shows_ours: calls.0,
            shows_theirs: calls.1,
            is_timed_with_room: false,
            is_slow: false,
        });
        self.0.last_mut().unwrap()
    }

    fn push_decode(&mut self, name: &str, make: impl Fn(&mut Numbers) -> Vec<u8> + 'static) {
        let calls: (Call, Call) = (ours::decode, theirs::decode);
        self.push(format!("{name} decode"), make, calls)
            .is_timed_with_room = true;
    }

    fn push_decode_to_vec(&mut self, name: &str, make: impl Fn(&mut Numbers) -> Vec<u8> + 'static) {
        self.push(
            format!("{name} decode_to_vec"),
            make,
            (ours::decode_to_vec, theirs::decode_to_vec),
        );
    }

    fn push_process(&mut self, name: &str, make: impl Fn(&mut Numbers) -> Vec<u8> + 'static) {
        let row = self.push(
            format!("{name} process"),
            make,
            (ours::process, theirs::process),
        );
        row.shows_ours = ours::process_mime;
        row.shows_theirs = theirs::process_mime;
    }

    fn push_feed(&mut self, name: &str, make: impl Fn(&mut Numbers) -> Vec<u8> + 'static) {
        let calls: (Call, Call) = (ours::base64_feed, theirs::base64_feed);
        self.push(format!("base64 {name} feed"), make, calls)
            .is_timed_with_room = true;
    }

    fn push_base64_to_vec(&mut self, name: &str, make: impl Fn(&mut Numbers) -> Vec<u8> + 'static) {
        self.push(
            format!("base64 {name} decode_to_vec"),
            make,
            (ours::base64_to_vec, theirs::base64_to_vec),
        );
    }

    /// Adds a row of a MIME type that is parsed and not printed.
    fn push_parsed(
        &mut self,
        name: &str,
        make: impl Fn(&mut Numbers) -> Vec<u8> + 'static,
    ) -> &mut Row {
        let row = self.push(
            format!("mime {name} parse"),
            make,
            (ours::mime, theirs::mime),
        );
        row.shows_ours = ours::mime_printed;
        row.shows_theirs = theirs::mime_printed;
        row
    }

    fn push_printed(&mut self, name: &str, make: impl Fn(&mut Numbers) -> Vec<u8> + 'static) {
        self.push(
            format!("mime {name} parse and print"),
            make,
            (ours::mime_printed, theirs::mime_printed),
        );
    }
}

/// The ways in which base64 is divided into lines.
fn kinds_of_lines() -> Vec<(String, Lines)> {
    let mut kinds: Vec<(String, Lines)> = [4, 14, 16, 20, 28, 30, 60, 64, 70, 76, 77, 100]
        .map(|width| (format!("lines {width}"), Lines::of(width, "\n")))
        .into();
    for width in [60, 76] {
        kinds.push((format!("crlf {width}"), Lines::of(width, "\r\n")));
    }
    kinds.push(("lines 40-80".into(), Lines::mixed(40, 80, "\n")));
    kinds
}

fn push_base64(table: &mut Table) {
    for len in [4, 8, 22, 44, 64, 256] {
        table.push_base64_to_vec(&format!("clean {len}"), move |numbers| {
            base64(numbers, len, Lines::NONE)
        });
        table.push_feed(&format!("clean {len}"), move |numbers| {
            base64(numbers, len, Lines::NONE)
        });
    }
    table.push_feed("padded 22", |numbers| {
        [&base64(numbers, 22, Lines::NONE)[..], b"=="].concat()
    });
    for len in [22, 64, 256] {
        table.push_feed(&format!("one newline {len}"), move |numbers| {
            let lines = Lines::of(0, "\n").after(len / 3 + numbers.below(len / 3));
            base64(numbers, len, lines)
        });
    }
    for (len, least, most) in [(30, 1, 3), (30, 4, 8), (50, 9, 15), (50, 16, 28)] {
        table.push_feed(&format!("{len} in lines {least}-{most}"), move |numbers| {
            let first = least + numbers.below(most - least + 1);
            base64(numbers, len, Lines::mixed(least, most, "\n").after(first))
        });
    }
    for width in [64, 76] {
        table.push_feed(&format!("100 in lines of {width}"), move |numbers| {
            base64(numbers, 100, Lines::of(width, "\n"))
        });
    }
    for (len, size) in SIZES {
        for (kind, lines) in [("clean", Lines::NONE), ("lines 76", Lines::of(76, "\n"))] {
            table.push_feed(&format!("{kind} {size}"), move |numbers| {
                base64(numbers, len, lines)
            });
        }
    }
    for (kind, lines) in [
        ("clean", Lines::NONE),
        ("lines 76", Lines::of(76, "\n")),
        ("spaced 1", Lines::of(1, " ")),
    ] {
        table.push_base64_to_vec(&format!("{kind} 64K"), move |numbers| {
            base64(numbers, 1 << 16, lines)
        });
    }
    let mut kinds = kinds_of_lines();
    for (kind, width, end) in [
        ("two newlines", 76, "\n\n"),
        ("newline and tab", 76, "\n\t"),
        ("spaced 1", 1, " "),
        ("spaced 5", 5, " "),
    ] {
        kinds.push((kind.into(), Lines::of(width, end)));
    }
    for (kind, lines) in kinds {
        table.push_feed(&format!("{kind} 8K"), move |numbers| {
            base64(numbers, SOME, lines)
        });
    }
    table.push_feed("indented 8K", |numbers| indented(numbers, SOME));
    table.push_feed("after a newline 8K", |numbers| {
        [&b"\n"[..], &base64(numbers, SOME, Lines::NONE)].concat()
    });
}

pub fn base64_url(body: &[u8]) -> Vec<u8> {
    url("image/png;base64", body)
}

fn push_base64_urls(table: &mut Table) {
    for (len, size) in SIZES {
        for (kind, lines) in [("clean", Lines::NONE), ("lines 76", Lines::of(76, "\n"))] {
            let name = format!("url base64 {kind} {size}");
            table.push_decode(&name, move |numbers| {
                base64_url(&base64(numbers, len, lines))
            });
            table.push_decode_to_vec(&name, move |numbers| {
                base64_url(&base64(numbers, len, lines))
            });
        }
    }
    for len in [40, 100, 400, 1000] {
        let name = format!("url base64 clean {len}");
        table.push_decode_to_vec(&name, move |numbers| {
            base64_url(&base64(numbers, len, Lines::NONE))
        });
    }
    let mut kinds = kinds_of_lines();
    kinds.push(("lines 60-100".into(), Lines::mixed(60, 100, "\n")));
    for (first, width) in [(32, 30), (32, 14), (48, 70)] {
        kinds.push((
            format!("first {first} lines {width}"),
            Lines::of(width, "\n").after(first),
        ));
    }
    for (kind, lines) in kinds {
        let name = format!("url base64 {kind} 8K");
        table.push_decode_to_vec(&name, move |numbers| {
            base64_url(&base64(numbers, SOME, lines))
        });
    }
    for percent in [1, 3, 10] {
        let name = format!("url base64 escapes {percent}% 8K");
        table.push_decode_to_vec(&name, move |numbers| {
            base64_url(&base64_with_escapes(numbers, SOME, percent))
        });
    }
}

pub fn plain_url(body: &[u8]) -> Vec<u8> {
    url("text/plain", body)
}

fn push_bodies(table: &mut Table) {
    for (len, size) in [
        (20, "20"),
        (60, "60"),
        (120, "120"),
        (400, "400"),
        (1 << 10, "1K"),
        (1 << 12, "4K"),
        (1 << 16, "64K"),
    ] {
        table.push_decode_to_vec(&format!("plain {size}"), move |numbers| {
            plain_url(&escaped(numbers, len, 0))
        });
    }
    for (len, size) in SIZES {
        table.push_decode(&format!("plain {size}"), move |numbers| {
            plain_url(&escaped(numbers, len, 0))
        });
        table.push_decode(&format!("escapes 10% {size}"), move |numbers| {
            plain_url(&escaped(numbers, len, 10))
        });
        table.push_decode(&format!("svg {size}"), move |numbers| {
            url("image/svg+xml", &svg(numbers, len))
        });
    }
    for len in [100, 400, SOME] {
        for percent in [1, 3, 10, 30, 60] {
            let name = format!("escapes {percent}% {len}");
            table.push_decode_to_vec(&name, move |numbers| {
                plain_url(&escaped(numbers, len, percent))
            });
        }
    }
    for (len, size) in [
        (24, "24"),
        (100, "100"),
        (200, "200"),
        (SOME, "8K"),
        (1 << 16, "64K"),
    ] {
        table.push_decode_to_vec(&format!("escapes alone {size}"), move |numbers| {
            plain_url(&escaped(numbers, len, 100))
        });
    }
    for (len, size) in [(1 << 11, "2K"), (1 << 16, "64K")] {
        table.push_decode_to_vec(&format!("svg {size}"), move |numbers| {
            url("image/svg+xml", &svg(numbers, len))
        });
    }
    table.push_decode_to_vec("raw svg 2K", |numbers| {
        url("image/svg+xml", &raw_svg(numbers, 1 << 11))
    });
}

/// Bodies with newlines, or with a `%` that begins no escape.
fn push_awkward_bodies(table: &mut Table) {
    table.push_decode_to_vec("plain lines 70 8K", |numbers| {
        plain_url(&wrapped(numbers, SOME, 0, 70))
    });
    table.push_decode_to_vec("lone percents 8K", |numbers| {
        plain_url(&lone_percents(numbers, SOME))
    });
}

/// Bodies with a newline inside an escape, which the crate does not remove.
#[cfg(feature = "against")]
fn push_cut_escapes(table: &mut Table) {
    use crate::texts::cut_escapes;
    table.push_decode_to_vec("escapes cut 8K", |numbers| {
        plain_url(&cut_escapes(numbers, SOME))
    });
    for (kind, percent) in [("10%", 10), ("alone", 100)] {
        let name = format!("escapes {kind} lines 76 8K");
        table.push_decode_to_vec(&name, move |numbers| {
            plain_url(&wrapped(numbers, SOME, percent, 76))
        });
    }
}

/// Headers of URLs with a body of twenty bytes.
const HEADERS: [(&str, &str); 6] = [
    ("empty", ""),
    ("type", "image/png"),
    ("charset", "text/html;charset=utf-8"),
    ("base64", "image/png;base64"),
    ("letters", "text/plain;a=\"é\""),
    (
        "five",
        "text/html;charset=utf-8;a=one;b=two;c=\"three four\";d=five",
    ),
];

fn push_short_urls(table: &mut Table) {
    for (kind, header) in HEADERS {
        table.push_process(&format!("short {kind}"), move |numbers| {
            url(header, &base64(numbers, 20, Lines::NONE))
        });
    }
    for (kind, header, percent) in [("plain", "", 0), ("escapes", "text/html;charset=utf-8", 20)] {
        let name = format!("short {kind}");
        table.push_decode(&name, move |numbers| {
            url(header, &escaped(numbers, 16, percent))
        });
        table.push_decode_to_vec(&name, move |numbers| {
            url(header, &escaped(numbers, 16, percent))
        });
    }
    table.push_decode("short base64", |numbers| {
        base64_url(&base64(numbers, 20, Lines::NONE))
    });
    table.push_decode_to_vec("short base64", |numbers| {
        base64_url(&base64(numbers, 20, Lines::NONE))
    });
}

fn push_mimes(table: &mut Table) {
    for (kind, header) in [HEADERS[2], HEADERS[5]] {
        table.push_printed(kind, move |numbers| {
            format!("{header}{}", numbers.below(1000)).into_bytes()
        });
    }
    table.push_process("header value 64K", |numbers| {
        let value = String::from_utf8(base64(numbers, 1 << 16, Lines::NONE)).unwrap();
        url(&format!("text/plain;a={value}"), b"x")
    });
    table.push_parsed("spaces 64K", |numbers| {
        let spaces = "\t ".repeat((1 << 14) + numbers.below(16));
        format!("{spaces}text/html;a=b{spaces}").into_bytes()
    });
    for count in [1, 5, 20, 50, 100, 200] {
        table.push_parsed(&format!("names {count}"), move |numbers| {
            numbered_names(numbers, count)
        });
    }
    table.push_parsed("names that end alike 100", |numbers| {
        names_that_end_alike(numbers, 100)
    });
    table.push_parsed("growing names 120", |numbers| growing_names(numbers, 120));
    table
        .push_parsed("names 100000", |numbers| numbered_names(numbers, 100_000))
        .is_slow = true;
    table.push_parsed("quoted 4K", |numbers| quoted(numbers, 1 << 12, 0));
    table.push_parsed("quoted, few backslashes 4K", |numbers| {
        quoted(numbers, 1 << 12, 40)
    });
    table.push_parsed("quoted, backslashes alone 4K", |numbers| {
        quoted_quotes(numbers, 1 << 12)
    });
    table.push_parsed("quoted letters 4K", |numbers| {
        quoted_letters(numbers, 1 << 12)
    });
}

fn push_fragments(table: &mut Table) {
    for (len, size) in SIZES {
        let calls: (Call, Call) = (ours::fragment, theirs::fragment);
        table.push(
            format!("fragment {size}"),
            move |numbers| url("", &[b"#", &fragment(numbers, len)[..]].concat()),
            calls,
        );
        let letters = move |numbers: &mut Numbers| {
            url("", &[b"#", &base64(numbers, len, Lines::NONE)[..]].concat())
        };
        table.push(format!("fragment letters {size}"), letters, calls);
    }
}

/// Adds a row of `bindings/rust` in which the header is read, and two in which the body is decoded as well.
#[cfg(not(feature = "against"))]
fn push_short_binding(table: &mut Table, name: &str, make: fn(&mut Numbers) -> Vec<u8>) {
    use crate::bindings;
    let row = table.push(
        format!("bindings short {name} process"),
        make,
        (bindings::process, theirs::process),
    );
    row.shows_ours = bindings::process_mime;
    row.shows_theirs = theirs::process_mime;
    let calls: (Call, Call) = (bindings::decode_to_vec, theirs::decode_to_vec);
    table.push(
        format!("bindings short {name} process, decode_to_vec"),
        make,
        calls,
    );
    let calls: (Call, Call) = (bindings::decode, theirs::decode);
    table
        .push(
            format!("bindings short {name} process, decode"),
            make,
            calls,
        )
        .is_timed_with_room = true;
}

/// Short URLs through `bindings/rust`: kinds of headers, and kinds of bodies.
#[cfg(not(feature = "against"))]
fn push_short_bindings(table: &mut Table) {
    /// A URL with this header and a body of twenty bytes.
    fn with(header: &str, numbers: &mut Numbers) -> Vec<u8> {
        url(header, &base64(numbers, 20, Lines::NONE))
    }
    let headers: [(&str, fn(&mut Numbers) -> Vec<u8>); 13] = [
        ("empty", |numbers| with(HEADERS[0].1, numbers)),
        ("type", |numbers| with(HEADERS[1].1, numbers)),
        ("charset", |numbers| with(HEADERS[2].1, numbers)),
        ("base64", |numbers| with(HEADERS[3].1, numbers)),
        ("charset, base64", |numbers| {
            with("text/html;charset=utf-8;base64", numbers)
        }),
        ("letters", |numbers| with(HEADERS[4].1, numbers)),
        ("quoted", |numbers| {
            with("text/html;charset=\"utf-8\";base64", numbers)
        }),
        ("five", |numbers| with(HEADERS[5].1, numbers)),
        ("only base64", |numbers| with(";base64", numbers)),
        ("space", |numbers| with("text/html; charset=utf-8", numbers)),
        ("two", |numbers| {
            with("text/html;charset=utf-8;name=a", numbers)
        }),
        ("utf8", |numbers| with("image/svg+xml;utf8", numbers)),
        ("upper case", |numbers| {
            let text = with("image/png;base64", numbers);
            [b"DATA:", &text[5..]].concat()
        }),
    ];
    let bodies: [(&str, fn(&mut Numbers) -> Vec<u8>); 10] = [
        ("no body", |_| plain_url(b"")),
        ("plain 20", |numbers| plain_url(&escaped(numbers, 20, 0))),
        ("plain 60", |numbers| plain_url(&escaped(numbers, 60, 0))),
        ("plain 300", |numbers| plain_url(&escaped(numbers, 300, 0))),
        ("escapes 20% 20", |numbers| {
            plain_url(&escaped(numbers, 20, 20))
        }),
        ("escapes 20% 60", |numbers| {
            plain_url(&escaped(numbers, 60, 20))
        }),
        ("escapes 20% 300", |numbers| {
            plain_url(&escaped(numbers, 300, 20))
        }),
        ("base64 60", |numbers| {
            base64_url(&base64(numbers, 60, Lines::NONE))
        }),
        ("base64 300", |numbers| {
            base64_url(&base64(numbers, 300, Lines::NONE))
        }),
        ("base64 escapes 10% 300", |numbers| {
            base64_url(&base64_with_escapes(numbers, 300, 10))
        }),
    ];
    for (name, make) in headers.iter().chain(&bodies) {
        push_short_binding(table, name, *make);
    }
}

/// MIME types and fragments through `bindings/rust`. The rows of fragments open the URL as well.
#[cfg(not(feature = "against"))]
fn push_text_bindings(table: &mut Table) {
    use crate::bindings;
    for (kind, header) in [HEADERS[2], HEADERS[5]] {
        let make =
            move |numbers: &mut Numbers| format!("{header}{}", numbers.below(1000)).into_bytes();
        let calls: (Call, Call) = (bindings::mime, theirs::mime);
        let row = table.push(format!("bindings mime {kind} from_str"), make, calls);
        row.shows_ours = bindings::mime_printed;
        row.shows_theirs = theirs::mime_printed;
    }
    for (kind, parameters) in [
        ("bare", ""),
        ("UTF-8", "; charset=UTF-8"),
        ("boundary", "; boundary=\"----=_Part_123\"; charset=utf-8"),
    ] {
        let make = move |numbers: &mut Numbers| type_in_use(numbers, parameters);
        let calls: (Call, Call) = (bindings::mime, theirs::mime);
        let row = table.push(format!("bindings mime {kind} from_str"), make, calls);
        row.shows_ours = bindings::mime_printed;
        row.shows_theirs = theirs::mime_printed;
        let calls: (Call, Call) = (bindings::mime_printed, theirs::mime_printed);
        table.push(
            format!("bindings mime {kind} from_str, to_string"),
            make,
            calls,
        );
        let calls: (Call, Call) = (bindings::mime_charset, theirs::mime_charset);
        table.push(
            format!("bindings mime {kind} from_str, get_parameter"),
            make,
            calls,
        );
    }
    for (len, size) in [(20, "20"), SIZES[0], SIZES[1]] {
        table.push(
            format!("bindings fragment {size} to_percent_encoded"),
            move |numbers| url("", &[b"#", &fragment(numbers, len)[..]].concat()),
            (bindings::fragment, theirs::fragment),
        );
    }
}

/// Rows of `bindings/rust` beside the crate whose place it takes.
#[cfg(not(feature = "against"))]
fn push_bindings(table: &mut Table) {
    use crate::bindings;
    push_short_bindings(table);
    push_text_bindings(table);
    let kinds: [(&str, fn(&mut Numbers, usize) -> Vec<u8>); 5] = [
        ("url base64 clean", |numbers, len| {
            base64_url(&base64(numbers, len, Lines::NONE))
        }),
        ("url base64 lines 76", |numbers, len| {
            base64_url(&base64(numbers, len, Lines::of(76, "\n")))
        }),
        ("plain", |numbers, len| plain_url(&escaped(numbers, len, 0))),
        ("escapes 10%", |numbers, len| {
            plain_url(&escaped(numbers, len, 10))
        }),
        ("svg", |numbers, len| {
            url("image/svg+xml", &svg(numbers, len))
        }),
    ];
    for (len, size) in SIZES {
        for (kind, make) in kinds {
            let calls: (Call, Call) = (bindings::decode_to_vec, theirs::decode_to_vec);
            table.push(
                format!("bindings {kind} {size} decode_to_vec"),
                move |numbers| make(numbers, len),
                calls,
            );
            let calls: (Call, Call) = (bindings::decode, theirs::decode);
            table
                .push(
                    format!("bindings {kind} {size} decode"),
                    move |numbers| make(numbers, len),
                    calls,
                )
                .is_timed_with_room = true;
        }
    }
    let long = |numbers: &mut Numbers| plain_url(&escaped(numbers, 1 << 22, 0));
    table.push(
        "bindings plain 4M process".into(),
        long,
        (bindings::process, theirs::process),
    );
}

pub fn rows() -> Vec<Row> {
    let mut table = Table::default();
    push_base64(&mut table);
    push_base64_urls(&mut table);
    push_bodies(&mut table);
    push_awkward_bodies(&mut table);
    #[cfg(feature = "against")]
    push_cut_escapes(&mut table);
    push_short_urls(&mut table);
    push_mimes(&mut table);
    push_fragments(&mut table);
    #[cfg(not(feature = "against"))]
    push_bindings(&mut table);
    push_shapes(&mut table);
    let mut rows = table.0;
    if cfg!(feature = "bindings") {
        rows.retain(|row| row.name.starts_with("bindings "));
    }
    // Some of the shapes are in other tables too.
    let mut names = HashSet::new();
    rows.retain(|row| names.insert(row.name.clone()));
    rows
}

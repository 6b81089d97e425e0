//! How much room the vectors keep that are returned, and how often it is allocated.

mod level;

use data_url::{forgiving_base64, DataUrl};
use std::alloc::{GlobalAlloc, Layout, System};
use std::cell::Cell;

/// The system's allocator, which counts the calls of each thread.
struct Counting;

thread_local!(static CALLS: Cell<usize> = Cell::new(0));

fn count() {
    CALLS.with(|calls| calls.set(calls.get() + 1));
}

unsafe impl GlobalAlloc for Counting {
    unsafe fn alloc(&self, layout: Layout) -> *mut u8 {
        count();
        System.alloc(layout)
    }

    unsafe fn realloc(&self, bytes: *mut u8, layout: Layout, size: usize) -> *mut u8 {
        count();
        System.realloc(bytes, layout, size)
    }

    unsafe fn dealloc(&self, bytes: *mut u8, layout: Layout) {
        System.dealloc(bytes, layout)
    }
}

#[global_allocator]
static ALLOCATOR: Counting = Counting;

/// What a call returns, and how often it allocates.
fn counted<T>(call: impl FnOnce() -> T) -> (T, usize) {
    CALLS.with(|calls| calls.set(0));
    let result = call();
    (result, CALLS.with(|calls| calls.get()))
}

/// The body of a URL, and how often `decode_to_vec` allocates.
fn body_of(url: &str) -> (Vec<u8>, usize) {
    let url = DataUrl::process(url).unwrap();
    counted(|| url.decode_to_vec().unwrap().0)
}

/// How often a vector is allocated whose room is given back: an empty one has none then.
fn calls_for(bytes: &[u8]) -> usize {
    if bytes.is_empty() {
        1
    } else {
        2
    }
}

/// Room for many bytes.
const MANY: usize = 1_000_000;

#[test]
fn room_that_a_body_does_not_need_is_given_back() {
    let a_lot = |unit: &str| unit.repeat(MANY);
    let letters = a_lot("a");
    for (url, body) in [
        (format!("data:,x#{}", letters), "x"),
        (format!("data:,x{}y", a_lot("\t")), "xy"),
        (format!("data:,{}#", a_lot("\n")), ""),
        (format!("data:,{}", a_lot("%61")), &*letters),
        (format!("data:;base64,QQ#{}", letters), "A"),
        (format!("data:;base64,QQ{}==", a_lot(" ")), "A"),
        (format!("data:;base64,QU{}JD", a_lot("\t")), "ABC"),
        (
            format!("data:;base64,{}", a_lot("%59%57%46%68")),
            &*letters.repeat(3),
        ),
    ] {
        let (given, calls) = body_of(&url);
        let about = &url[..20];
        assert!(given == body.as_bytes(), "{:?}", about);
        assert_eq!(given.capacity(), given.len(), "{:?}", about);
        assert_eq!(calls, calls_for(&given), "{:?}", about);
    }
}

#[test]
fn room_that_is_small_or_mostly_used_is_kept() {
    for (url, room) in [
        ("data:,".to_owned(), 0),
        ("data:,x".to_owned(), 8),
        (format!("data:,x#{}", "a".repeat(4094)), 4096),
        (
            format!("data:,{}#{}", "a".repeat(2049), "a".repeat(2047)),
            4097,
        ),
        (format!("data:,{}", "a".repeat(MANY)), MANY),
        (
            format!("data:,{}{}", "a".repeat(MANY), "\t".repeat(MANY) + "a"),
            2 * MANY + 1,
        ),
        (
            format!("data:;base64,{}", "QUJD".repeat(MANY)),
            3 * MANY + 8,
        ),
    ] {
        let (body, calls) = body_of(&url);
        assert_eq!(body.capacity(), room, "{:.20}", url);
        assert_eq!(calls, if room == 0 { 0 } else { 1 }, "{:.20}", url);
    }
    // One byte more is given back.
    let (body, calls) = body_of(&format!("data:,x#{}", "a".repeat(4095)));
    assert_eq!((body.capacity(), calls), (1, 2));
}

#[test]
fn room_that_base64_does_not_need_is_given_back() {
    for (text, bytes) in [("QUJD", "ABC"), ("QQ==", "A"), ("", "")] {
        let text = "\t".repeat(MANY) + text;
        let (given, calls) = counted(|| forgiving_base64::decode_to_vec(text.as_bytes()).unwrap());
        assert_eq!(given, bytes.as_bytes());
        assert_eq!((given.capacity(), calls), (given.len(), calls_for(&given)));
    }
    let text = "QUJD".repeat(MANY);
    let (given, calls) = counted(|| forgiving_base64::decode_to_vec(text.as_bytes()).unwrap());
    assert_eq!(
        (given.len(), given.capacity(), calls),
        (3 * MANY, 3 * MANY + 8, 1)
    );
}

#[test]
fn room_that_a_fragment_does_not_need_is_given_back() {
    let text = format!("data:,#{}a", "\t".repeat(MANY));
    let url = DataUrl::process(&text).unwrap();
    let fragment = url.decode_to_vec().unwrap().1.unwrap();
    let (given, calls) = counted(|| fragment.to_percent_encoded());
    assert_eq!((given.as_str(), given.capacity(), calls), ("a", 1, 2));
}

//! The exports of `crates/data_url_c` for Rust. Everything that is unsafe is in this file.

use alloc::alloc::{handle_alloc_error, Layout};
use alloc::string::String;
use alloc::vec::Vec;
use core::mem::MaybeUninit;

pub(crate) const DONE: u32 = 0;
pub(crate) const NOT_A_DATA_URL: u32 = 1;
pub(crate) const NO_COMMA: u32 = 2;
const OUT_OF_MEMORY: u32 = 3;
const OUTPUT_TOO_SMALL: u32 = 5;
pub(crate) const PADDING: u32 = 8;
pub(crate) const LONE_SYMBOL: u32 = 9;
pub(crate) const SYMBOL_AFTER_PADDING: u32 = 10;
pub(crate) const MORE: u32 = 11;
pub(crate) const UNEXPECTED_SYMBOL: u32 = 256;

/// How many bytes that the library writes fit on the stack. Where there are more, they are written again, into a
/// vector.
const WRITTEN: usize = 256;

/// A fragment of at most this many bytes is encoded by one call.
const SHORT_FRAGMENT: usize = 256;

/// A vector of at most this many bytes keeps its room, whatever its length is.
const SMALL: usize = 4096;

/// How many bytes the length of a part takes.
const LENGTH: usize = 8;

/// How many bytes an output needs at least for the next bytes of a body.
pub(crate) const LEAST_ROOM: usize = 8;

#[repr(C)]
pub(crate) struct Answer {
    status: u32,
    len: usize,
}

#[repr(C)]
struct OpenedUrl {
    status: u32,
    is_base64: bool,
    len: usize,
    tail: usize,
    tail_len: usize,
}

#[repr(C)]
struct Fed {
    status: u32,
    len: usize,
    read: usize,
}

/// The place of a body that is decoded in parts.
#[repr(C)]
pub(crate) struct Body {
    from: usize,
    symbols: [u8; 3],
    pending: u8,
    padding: u8,
    is_base64: u8,
}

/// What is left over of base64 that is fed in parts.
#[repr(C)]
pub(crate) struct Base64 {
    symbols: [u8; 3],
    pending: u8,
    padding: u8,
}

extern "C" {
    fn dataurl_open_parts_utf8(url: *const u8, len: usize, out: *mut u8, room: usize) -> OpenedUrl;
    fn dataurl_type_parts_utf8(text: *const u8, len: usize, out: *mut u8, room: usize) -> Answer;
    fn dataurl_fragment_next(text: *const u8, len: usize, out: *mut u8, room: usize) -> Fed;
    fn dataurl_body_next(
        body: *mut Body,
        tail: *const u8,
        len: usize,
        out: *mut u8,
        room: usize,
    ) -> Answer;
    fn dataurl_base64_feed(
        state: *mut Base64,
        input: *const u8,
        len: usize,
        out: *mut u8,
        room: usize,
    ) -> Fed;
    fn dataurl_base64_finish(state: *mut Base64, out: *mut u8, room: usize) -> Answer;
}

/// Panics if the processor is older than the library needs. It is looked at once.
#[cfg(all(
    target_arch = "x86_64",
    not(all(target_feature = "sse4.2", target_feature = "popcnt"))
))]
fn check_processor() {
    use core::arch::x86_64::__cpuid;
    use core::sync::atomic::{AtomicBool, Ordering};
    const SSE4_2_AND_POPCNT: u32 = 1 << 20 | 1 << 23;
    static IS_CHECKED: AtomicBool = AtomicBool::new(false);
    if IS_CHECKED.load(Ordering::Relaxed) {
        return;
    }
    #[allow(unused_unsafe)]
    let features = unsafe { __cpuid(1) }.ecx;
    assert!(
        features & SSE4_2_AND_POPCNT == SSE4_2_AND_POPCNT,
        "data-url: this processor has no SSE4.2 or no POPCNT, which the library needs (x86-64-v2)"
    );
    IS_CHECKED.store(true, Ordering::Relaxed);
}

/// The program itself does not run on an older processor than the library.
#[cfg(not(all(
    target_arch = "x86_64",
    not(all(target_feature = "sse4.2", target_feature = "popcnt"))
)))]
fn check_processor() {}

/// A buffer on the stack, to which nothing is written yet.
pub(crate) struct Buffer<const N: usize> {
    bytes: [MaybeUninit<u8>; N],
}

impl<const N: usize> Buffer<N> {
    pub(crate) fn new() -> Buffer<N> {
        Buffer {
            bytes: [MaybeUninit::uninit(); N],
        }
    }

    fn as_mut_ptr(&mut self) -> *mut u8 {
        self.bytes.as_mut_ptr() as *mut u8
    }

    /// The bytes that a call wrote: the library writes `len` bytes at the start, and never more than fit.
    fn written(&self, len: usize) -> &[u8] {
        assert!(len <= N);
        unsafe { core::slice::from_raw_parts(self.bytes.as_ptr() as *const u8, len) }
    }
}

/// Calls a function with room on the stack and, if the answer does not fit, again with a vector. Returns what `read`
/// makes of the bytes that it wrote, or what `refuse` makes of a status that is not success. It is compiled into its
/// callers, so that the result is not moved.
#[inline(always)]
fn written<A, T>(
    call: impl Fn(*mut u8, usize) -> A,
    answer: impl Fn(&A) -> (u32, usize),
    read: impl Fn(&A, &[u8]) -> T,
    refuse: impl Fn(u32) -> T,
) -> T {
    check_processor();
    let mut buffer = Buffer::<WRITTEN>::new();
    let mut more = Vec::new();
    let mut given = call(buffer.as_mut_ptr(), WRITTEN);
    let (status, len) = answer(&given);
    let bytes = if status == DONE {
        buffer.written(len)
    } else {
        if status != OUTPUT_TOO_SMALL {
            return refuse(refusal(status));
        }
        more.reserve_exact(len);
        given = call(more.as_mut_ptr(), len);
        let (status, len) = answer(&given);
        if status != DONE {
            return refuse(refusal(status));
        }
        assert!(len <= more.capacity());
        unsafe { more.set_len(len) };
        &more
    };
    read(&given, bytes)
}

/// Returns bytes as a text.
///
/// # Safety
///
/// They are UTF-8, as each text that the library writes.
unsafe fn text_of(bytes: &[u8]) -> &str {
    core::str::from_utf8_unchecked(bytes)
}

/// The parts of a MIME type that are left: the type, the subtype, and the name and the value of each parameter. Each
/// comes after its length. Only `open` and `mime_type` make one, of what the library wrote, so each length is that of
/// its part, and each part is UTF-8.
#[derive(Clone)]
pub(crate) struct Parts<'a>(&'a [u8]);

/// `text/plain;charset=US-ASCII` in parts.
const DEFAULT: &[u8] = b"\x04\0\0\0\0\0\0\0text\x05\0\0\0\0\0\0\0plain\
\x07\0\0\0\0\0\0\0charset\x08\0\0\0\0\0\0\0US-ASCII";

impl Parts<'_> {
    /// Returns whether this is the MIME type of a URL that names none.
    #[inline(always)]
    pub(crate) fn is_default(&self) -> bool {
        self.0 == DEFAULT
    }
}

impl<'a> Iterator for Parts<'a> {
    type Item = &'a str;

    #[inline(always)]
    fn next(&mut self) -> Option<&'a str> {
        if self.0.is_empty() {
            return None;
        }
        // The library wrote each part, a text, after its length.
        debug_assert!(LENGTH <= self.0.len());
        unsafe {
            let len = (self.0.as_ptr() as *const [u8; LENGTH]).read();
            let end = LENGTH + u64::from_le_bytes(len) as usize;
            debug_assert!(end <= self.0.len());
            let part = text_of(self.0.get_unchecked(LENGTH..end));
            self.0 = self.0.get_unchecked(end..);
            Some(part)
        }
    }
}

/// A status that is not success. If allocation failed, this ends the program as Rust's own types do.
fn refusal(status: u32) -> u32 {
    if status == OUT_OF_MEMORY {
        handle_alloc_error(Layout::new::<u8>());
    }
    status
}

/// Opens a URL: the result of `read` for the parts of its MIME type, whether its body is base64, and the text after its
/// comma, or that of `refuse` for the status.
#[inline(always)]
pub(crate) fn open<'a, T>(
    url: &'a str,
    read: impl Fn(Parts<'_>, bool, &'a str) -> T,
    refuse: impl Fn(u32) -> T,
) -> T {
    written(
        // The bytes of a `str` are UTF-8.
        |out, room| unsafe { dataurl_open_parts_utf8(url.as_ptr(), url.len(), out, room) },
        |opened| (opened.status, opened.len),
        |opened, parts| {
            // The tail begins after the comma, and ends where the text does or before controls and spaces at its end.
            // So it is cut between characters.
            let tail = opened.tail..opened.tail + opened.tail_len;
            debug_assert!(url.get(tail.clone()).is_some());
            let tail = unsafe { url.get_unchecked(tail) };
            read(Parts(parts), opened.is_base64, tail)
        },
        refuse,
    )
}

/// Parses a MIME type: the result of `read` for its parts, or that of `refuse` if the text is none.
#[inline(always)]
pub(crate) fn mime_type<T>(
    text: &str,
    read: impl Fn(Parts<'_>) -> T,
    refuse: impl Fn(u32) -> T,
) -> T {
    written(
        |out, room| unsafe { dataurl_type_parts_utf8(text.as_ptr(), text.len(), out, room) },
        |answer| (answer.status, answer.len),
        |_, parts| read(Parts(parts)),
        refuse,
    )
}

/// Gives back room, by one call of the allocator, if it is more than twice the length and more than `SMALL`. A
/// fragment, escapes, tabs and newlines took it, of which a body has fewer bytes or none.
#[inline]
fn give_back(bytes: &mut Vec<u8>) {
    if bytes.capacity() > SMALL && bytes.capacity() / 2 > bytes.len() {
        bytes.shrink_to_fit();
    }
}

/// The text of a fragment, encoded.
pub(crate) fn fragment(text: &str) -> String {
    check_processor();
    let mut bytes = Vec::new();
    let mut rest = text.as_bytes();
    while !rest.is_empty() {
        bytes.reserve(room_for_fragment(rest.len()));
        let encode =
            |out, room| unsafe { dataurl_fragment_next(rest.as_ptr(), rest.len(), out, room) };
        let encoded = unsafe { append(&mut bytes, encode, |encoded| encoded.len) };
        rest = &rest[encoded.read..];
    }
    give_back(&mut bytes);
    // The library writes ASCII alone.
    unsafe { String::from_utf8_unchecked(bytes) }
}

/// How much room is made for the rest of a fragment of this length. A short one fits whatever its bytes are. A long one
/// fits if each byte is written as it is. The library stops if fewer than three bytes of room are left, hence the 2.
fn room_for_fragment(len: usize) -> usize {
    (3 * len.min(SHORT_FRAGMENT)).max(len + 2)
}

/// How many bytes an output needs for all bytes of a text of base64 of this length, so that one call writes them.
fn room_for_base64(len: usize) -> usize {
    len / 4 * 3 + LEAST_ROOM
}

/// Calls a function with the room that a vector has left, which is at least `LEAST_ROOM` bytes. The bytes that it
/// writes become those of the vector.
///
/// # Safety
///
/// `len` returns how many bytes the call wrote, from the start of that room.
unsafe fn append<A>(
    bytes: &mut Vec<u8>,
    call: impl FnOnce(*mut u8, usize) -> A,
    len: impl FnOnce(&A) -> usize,
) -> A {
    bytes.reserve(LEAST_ROOM);
    let room = bytes.capacity() - bytes.len();
    let answer = call(bytes.as_mut_ptr().add(bytes.len()), room);
    let len = len(&answer);
    assert!(len <= room);
    bytes.set_len(bytes.len() + len);
    answer
}

impl Body {
    /// A body of which nothing was decoded.
    pub(crate) fn new(is_base64: bool) -> Body {
        Body {
            from: 0,
            symbols: [0; 3],
            pending: 0,
            padding: 0,
            is_base64: is_base64 as u8,
        }
    }

    /// Writes the next bytes of the body to the start of `room` bytes at `out`, which are at least `LEAST_ROOM`.
    #[inline]
    unsafe fn write_next(&mut self, tail: &str, out: *mut u8, room: usize) -> Answer {
        dataurl_body_next(self, tail.as_ptr(), tail.len(), out, room)
    }

    /// The next bytes of the body, and the status.
    pub(crate) fn next<'r, const N: usize>(
        &mut self,
        tail: &str,
        buffer: &'r mut Buffer<N>,
    ) -> (u32, &'r [u8]) {
        let answer = unsafe { self.write_next(tail, buffer.as_mut_ptr(), N) };
        (answer.status, buffer.written(answer.len))
    }

    /// Writes the next bytes of the body to an output of at least `LEAST_ROOM` bytes. Returns the status, and how many
    /// bytes.
    pub(crate) fn next_into(&mut self, tail: &str, output: &mut [u8]) -> (u32, usize) {
        let answer = unsafe { self.write_next(tail, output.as_mut_ptr(), output.len()) };
        assert!(answer.len <= output.len());
        (answer.status, answer.len)
    }

    /// All bytes of the body up to a fault, and the status. The vector is made so that one call has room for them.
    #[inline]
    pub(crate) fn whole(&mut self, tail: &str) -> (u32, Vec<u8>) {
        if tail.is_empty() {
            return (DONE, Vec::new());
        }
        let room = match self.is_base64 {
            0 => tail.len().max(LEAST_ROOM),
            _ => room_for_base64(tail.len()),
        };
        let mut bytes = Vec::with_capacity(room);
        loop {
            let write = |out, room| unsafe { self.write_next(tail, out, room) };
            let answer = unsafe { append(&mut bytes, write, |answer| answer.len) };
            if answer.status != MORE {
                give_back(&mut bytes);
                return (answer.status, bytes);
            }
        }
    }

    /// The place in the tail at which a body ended whose last status is `DONE`: that of the `#`, or the tail's length.
    #[inline]
    pub(crate) fn end(&self) -> usize {
        self.from
    }
}

impl Base64 {
    /// A text of which nothing was fed.
    pub(crate) fn new() -> Base64 {
        check_processor();
        Base64 {
            symbols: [0; 3],
            pending: 0,
            padding: 0,
        }
    }

    /// Feeds as much of the input as there is room for. Returns the status, the bytes, and how much was read.
    pub(crate) fn feed<'r, const N: usize>(
        &mut self,
        input: &[u8],
        buffer: &'r mut Buffer<N>,
    ) -> (u32, &'r [u8], usize) {
        let fed = unsafe {
            dataurl_base64_feed(self, input.as_ptr(), input.len(), buffer.as_mut_ptr(), N)
        };
        (fed.status, buffer.written(fed.len), fed.read)
    }

    /// How many symbols the group of the symbols left over lacks, or 0 if none are left over. After a fault it must not
    /// be called.
    #[inline(always)]
    pub(crate) fn missing(&self) -> usize {
        (4 - usize::from(self.pending)) % 4
    }

    /// Whether nothing is left over: the text is valid then, and has no more bytes.
    pub(crate) fn is_whole(&self) -> bool {
        self.pending == 0 && self.padding == 0
    }

    /// Ends the text: the status, and the last bytes.
    pub(crate) fn finish<'r, const N: usize>(
        &mut self,
        buffer: &'r mut Buffer<N>,
    ) -> (u32, &'r [u8]) {
        let answer = unsafe { dataurl_base64_finish(self, buffer.as_mut_ptr(), N) };
        (answer.status, buffer.written(answer.len))
    }
}

/// All bytes of a text of base64 up to a fault, and the status. The vector is made so that one feed has room for them.
pub(crate) fn base64(input: &[u8]) -> (u32, Vec<u8>) {
    if input.is_empty() {
        return (DONE, Vec::new());
    }
    let mut bytes = Vec::with_capacity(room_for_base64(input.len()));
    let mut state = Base64::new();
    let mut rest = input;
    while !rest.is_empty() {
        let feed = |out, room| unsafe {
            dataurl_base64_feed(&mut state, rest.as_ptr(), rest.len(), out, room)
        };
        let fed = unsafe { append(&mut bytes, feed, |fed| fed.len) };
        if fed.status != DONE {
            return (fed.status, bytes);
        }
        rest = &rest[fed.read..];
    }
    let mut status = DONE;
    if !state.is_whole() {
        let finish = |out, room| unsafe { dataurl_base64_finish(&mut state, out, room) };
        status = unsafe { append(&mut bytes, finish, |answer| answer.len) }.status;
    }
    give_back(&mut bytes);
    (status, bytes)
}

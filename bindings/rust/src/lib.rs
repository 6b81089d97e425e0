//! Data URLs, read as the Fetch Standard says (<https://fetch.spec.whatwg.org/#data-urls>), over a library whose calls
//! are proved. What is read is a text, not a URL that a parser made of it.
//!
//! Its names are those of the crate `data-url` 0.3.2, so it can take that crate's place. In `Cargo.toml`, one of:
//!
//! ```toml
//! [patch.crates-io]                 # also for the crates that you depend on
//! data-url = { path = ".../bindings/rust" }
//!
//! [dependencies]
//! data-url = { path = ".../bindings/rust" }
//! data-url = { git = "file:///.../checkout" }
//! ```
//!
//! The package has all that it links, so it can be vendored, and is built offline. `README.md` says how a registry of
//! your own takes it.
//!
//! The module [`parts`] is not in the crate: it has a body that is read in parts, with `std::io::Read` or without.
//!
//! # Platforms
//!
//! Linux on x86-64 with SSE4.2 and POPCNT (most processors since 2009), and on 64-bit ARM. The library is built for
//! these, and linked as it is; no other tool than cargo is needed. On a processor with AVX2 (x86-64-v3) its calls use
//! that. On one without SSE4.2 or POPCNT the first call panics with a message that says so.
//!
//! # What differs from the crate
//!
//! - Where the crate does not follow the Fetch Standard, the answers are those of the Standard. `docs/DIFFERENCES.md`
//!   lists them.
//! - [`DataUrl::decode`] calls the closure with pieces of at most 8 KiB, and allocates nothing.
//! - A [`forgiving_base64::Decoder`] that is fed after a fault returns the fault again.
//! - If allocation fails, the program ends as with Rust's own types.
//!
//! # Speed
//!
//! Times as fast as the crate, from the shortest texts to long ones; `docs/MEASUREMENTS.md` has all figures.
//!
//! - [`DataUrl::process`]: 1.62 to 2.9 with a MIME type, 1.05 without a header, 1.10 with `;base64` alone.
//! - With [`DataUrl::decode_to_vec`]: 1.06 without a header, 1.27 with `;base64` alone, otherwise 1.53 to 33. With
//!   [`DataUrl::decode`]: 0.93, 1.10, and 1.28 to 23.
//! - [`mime::Mime`] from a text: 1.24 to 1.54, printed 1.13 to 1.36.
//! - [`forgiving_base64::decode_to_vec`]: 2.2 to 8.7. A [`forgiving_base64::Decoder`]: 1.17 to 16; 0.51 for 8 symbols,
//!   and 0.50 if it is fed ten at a time.
//! - [`FragmentIdentifier::to_percent_encoded`]: 1.50 to 11, with `process` and `decode`.
//!
//! # Example
//!
//! ```rust
//! let url = data_url::DataUrl::process("data:text/csv;charset=utf-8,name%0AZo%C3%AB#first-row").unwrap();
//! assert!(url.mime_type().matches("text", "csv"));
//! assert_eq!(url.mime_type().get_parameter("charset"), Some("utf-8"));
//!
//! let (table, fragment) = url.decode_to_vec().unwrap();
//! assert_eq!(table, "name\nZo\u{eb}".as_bytes());
//! assert_eq!(fragment.unwrap().to_percent_encoded(), "first-row");
//! ```
#![no_std]
#![deny(missing_docs)]

#[cfg(not(feature = "alloc"))]
compile_error!("data-url: its feature `alloc` is needed");

extern crate alloc;
#[cfg(feature = "std")]
extern crate std;

use alloc::string::String;
use alloc::vec::Vec;
use core::fmt;

pub mod forgiving_base64;
mod library;
pub mod mime;
pub mod parts;

use forgiving_base64::{DecodeError, InvalidBase64};
use library::{Body, Buffer, DONE, MORE};

/// How many bytes are decoded at most before a closure is called with them.
const LONG: usize = 8192;

/// A text of fewer bytes than this is decoded into a buffer of this many bytes, in place of `LONG`.
const SHORT: usize = 512;

/// A data: URL: its MIME type, whether its body is base64, and the text after its comma: the body and the fragment.
pub struct DataUrl<'a> {
    mime_type: mime::Mime,
    is_base64: bool,
    tail: &'a str,
}

/// Why a text is not a data: URL.
#[derive(Debug)]
pub enum DataUrlError {
    /// The text does not begin with `data:`.
    NotADataUrl,
    /// There is no comma before the fragment.
    NoComma,
}

#[cfg(feature = "std")]
impl std::error::Error for DataUrlError {}

impl fmt::Display for DataUrlError {
    fn fmt(&self, f: &mut fmt::Formatter<'_>) -> fmt::Result {
        f.write_str(match self {
            DataUrlError::NotADataUrl => "not a valid data url",
            DataUrlError::NoComma => "data url is missing comma delimiting attributes and body",
        })
    }
}

impl<'a> DataUrl<'a> {
    /// Reads the header of a data: URL. The body is not read.
    /// <https://fetch.spec.whatwg.org/#data-url-processor>
    ///
    /// # Errors
    ///
    /// `NotADataUrl` if the text does not begin with `data:`, and `NoComma` if there is no comma before the fragment.
    pub fn process(input: &'a str) -> Result<Self, DataUrlError> {
        library::open(
            input,
            |parts, is_base64, tail| {
                if parts.is_default() {
                    return DataUrl::with_default_type(is_base64, tail);
                }
                Ok(DataUrl {
                    mime_type: mime::Mime::from_parts(parts),
                    is_base64,
                    tail,
                })
            },
            |status| match status {
                library::NOT_A_DATA_URL => Err(DataUrlError::NotADataUrl),
                library::NO_COMMA => Err(DataUrlError::NoComma),
                status => unreachable!("status {}", status),
            },
        )
    }

    /// Returns the URL with the default MIME type and this tail. Its strings are copied from constants.
    #[inline(never)]
    fn with_default_type(is_base64: bool, tail: &'a str) -> Result<Self, DataUrlError> {
        Ok(DataUrl {
            mime_type: mime::Mime::default_type(),
            is_base64,
            tail,
        })
    }

    /// Returns the MIME type: that of the header or, if the header has none, `text/plain;charset=US-ASCII`.
    pub fn mime_type(&self) -> &mime::Mime {
        &self.mime_type
    }

    /// Calls `write_body_bytes` with the body's bytes, piece by piece, and returns the fragment if there is one.
    ///
    /// A piece has at least one byte and at most 8 KiB. Nothing is allocated.
    ///
    /// # Errors
    ///
    /// `WriteError` with the closure's error, which is not called again. `InvalidBase64` if the body is base64 that is
    /// not valid, after the closure was called with the bytes before the first fault.
    pub fn decode<F, E>(
        &self,
        write_body_bytes: F,
    ) -> Result<Option<FragmentIdentifier<'a>>, DecodeError<E>>
    where
        F: FnMut(&[u8]) -> Result<(), E>,
    {
        if self.tail.len() < SHORT {
            self.decode_through::<F, E, SHORT>(write_body_bytes)
        } else {
            self.decode_long(write_body_bytes)
        }
    }

    /// Decodes as `decode` does, through the larger buffer, which is not on the stack where a short body is decoded.
    #[inline(never)]
    fn decode_long<F, E>(
        &self,
        write_body_bytes: F,
    ) -> Result<Option<FragmentIdentifier<'a>>, DecodeError<E>>
    where
        F: FnMut(&[u8]) -> Result<(), E>,
    {
        self.decode_through::<F, E, LONG>(write_body_bytes)
    }

    /// Decodes as `decode` does, through a buffer of `N` bytes.
    #[inline(always)]
    fn decode_through<F, E, const N: usize>(
        &self,
        mut write_body_bytes: F,
    ) -> Result<Option<FragmentIdentifier<'a>>, DecodeError<E>>
    where
        F: FnMut(&[u8]) -> Result<(), E>,
    {
        let mut body = Body::new(self.is_base64);
        let mut buffer = Buffer::<N>::new();
        loop {
            let (status, bytes) = body.next(self.tail, &mut buffer);
            if !bytes.is_empty() {
                write_body_bytes(bytes).map_err(DecodeError::WriteError)?;
            }
            match status {
                MORE => {}
                DONE => return Ok(FragmentIdentifier::after(self.tail, &body)),
                fault => return Err(DecodeError::InvalidBase64(InvalidBase64::of(fault))),
            }
        }
    }

    /// Returns the body's bytes, and the fragment if there is one.
    ///
    /// The vector is made with room for all that follows the comma. Room that is more than twice the body's length and
    /// more than 4 KiB is given back.
    ///
    /// # Errors
    ///
    /// `InvalidBase64` if the body is base64 that is not valid.
    pub fn decode_to_vec(
        &self,
    ) -> Result<(Vec<u8>, Option<FragmentIdentifier<'a>>), InvalidBase64> {
        let mut body = Body::new(self.is_base64);
        match body.whole(self.tail) {
            (DONE, bytes) => Ok((bytes, FragmentIdentifier::after(self.tail, &body))),
            (fault, _) => Err(InvalidBase64::of(fault)),
        }
    }
}

/// The fragment of a data: URL, the text after `#`.
pub struct FragmentIdentifier<'a>(&'a str);

impl<'a> FragmentIdentifier<'a> {
    /// The text after the `#` at which a body ended, if it ended at one and not with the tail.
    #[inline]
    fn after(tail: &'a str, body: &Body) -> Option<Self> {
        tail.get(body.end() + 1..).map(FragmentIdentifier)
    }
}

impl FragmentIdentifier<'_> {
    /// Returns the fragment as the URL parser leaves it, percent-encoded.
    /// <https://url.spec.whatwg.org/#fragment-state>
    pub fn to_percent_encoded(&self) -> String {
        library::fragment(self.0)
    }
}

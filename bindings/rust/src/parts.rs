//! A body that the caller reads in parts, as far as the caller's output has room.
//!
//! [`DataUrl::decode`] calls a closure with a body; here the caller asks for its next bytes. This module is not in the
//! crate `data-url`.
//!
//! ```rust
//! use data_url::parts::BodyReader;
//! use data_url::DataUrl;
//!
//! let url = DataUrl::process("data:;base64,SGVsbG8gV29ybGQh#part").unwrap();
//! let mut reader = BodyReader::new(&url);
//! let mut output = [0; 5];
//! let mut body = Vec::new();
//! loop {
//!     let len = reader.read_part(&mut output).unwrap();
//!     if len == 0 {
//!         break;
//!     }
//!     body.extend_from_slice(&output[..len]);
//! }
//! assert_eq!(body, b"Hello World!");
//! assert_eq!(reader.fragment().unwrap().to_percent_encoded(), "part");
//! ```
//!
//! With the feature `std`, which is on by default, a reader is a [`Read`](std::io::Read):
//!
//! ```rust
//! # use data_url::{parts::BodyReader, DataUrl};
//! let url = DataUrl::process("data:,Hello%20World!").unwrap();
//! let len = std::io::copy(&mut BodyReader::new(&url), &mut std::io::stdout()).unwrap();
//! assert_eq!(len, 12);
//! ```

use crate::forgiving_base64::InvalidBase64;
use crate::library::{Body, DONE, LEAST_ROOM, MORE};
use crate::{DataUrl, FragmentIdentifier};
use core::ops::Range;

/// The body of a data: URL, from its first byte that was not returned yet. It allocates nothing.
pub struct BodyReader<'a> {
    tail: &'a str,
    body: Body,
    /// The status of the last call of the library: `MORE` before the first one, and while the body goes on.
    status: u32,
    /// Bytes that were decoded for an output that is too small for the library, and where those are that were not
    /// returned yet.
    kept: [u8; LEAST_ROOM],
    waiting: Range<usize>,
}

impl<'a> BodyReader<'a> {
    /// Returns a reader of the whole body of a URL. Nothing is decoded yet.
    pub fn new(url: &DataUrl<'a>) -> Self {
        BodyReader {
            tail: url.tail,
            body: Body::new(url.is_base64),
            status: MORE,
            kept: [0; LEAST_ROOM],
            waiting: 0..0,
        }
    }

    /// Writes the next bytes of the body to the start of `output`, and returns how many bytes these are.
    ///
    /// They may be fewer than the output has room for. 0 means that the body has ended, or that the output has no room.
    /// The output may have any length; one of at least 8 bytes is written to without a copy, and the longer it is, the
    /// fewer calls are needed.
    ///
    /// # Errors
    ///
    /// `InvalidBase64` if the body is base64 that is not valid, once the bytes before the first fault were returned.
    /// Later calls return it again.
    pub fn read_part(&mut self, output: &mut [u8]) -> Result<usize, InvalidBase64> {
        if output.is_empty() {
            return Ok(0);
        }
        while self.waiting.is_empty() {
            match self.status {
                MORE => {}
                DONE => return Ok(0),
                fault => return Err(InvalidBase64::of(fault)),
            }
            if output.len() < LEAST_ROOM {
                let (status, len) = self.body.next_into(self.tail, &mut self.kept);
                self.status = status;
                self.waiting = 0..len;
            } else {
                let (status, len) = self.body.next_into(self.tail, output);
                self.status = status;
                if len > 0 {
                    return Ok(len);
                }
            }
        }
        Ok(self.take_waiting(output))
    }

    /// Writes bytes that are waiting to the start of an output, and returns how many these are.
    fn take_waiting(&mut self, output: &mut [u8]) -> usize {
        let bytes = &self.kept[self.waiting.clone()];
        let len = bytes.len().min(output.len());
        output[..len].copy_from_slice(&bytes[..len]);
        self.waiting.start += len;
        len
    }

    /// Returns the fragment, if the URL has one and the body has ended.
    ///
    /// The body has ended when [`read_part`](BodyReader::read_part) has returned 0 for an output with room. The last
    /// bytes may come with the end, so that it is known one call earlier. Before all bytes were returned, and after a
    /// fault, this is `None`.
    pub fn fragment(&self) -> Option<FragmentIdentifier<'a>> {
        if self.status == DONE && self.waiting.is_empty() {
            FragmentIdentifier::after(self.tail, &self.body)
        } else {
            None
        }
    }
}

/// Reads the bytes that [`read_part`](BodyReader::read_part) writes.
///
/// # Errors
///
/// An error of the kind `InvalidData` whose inner error (`get_ref`) is the [`InvalidBase64`], once the bytes before the
/// first fault were read. Later calls return it again.
#[cfg(feature = "std")]
impl std::io::Read for BodyReader<'_> {
    fn read(&mut self, output: &mut [u8]) -> std::io::Result<usize> {
        let read = self.read_part(output);
        read.map_err(|fault| std::io::Error::new(std::io::ErrorKind::InvalidData, fault))
    }
}

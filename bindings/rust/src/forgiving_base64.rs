//! Base64 as the Infra Standard decodes it: <https://infra.spec.whatwg.org/#forgiving-base64-decode>

use crate::library::{self, Base64, Buffer, DONE};
use crate::{LONG, SHORT};
use alloc::vec::Vec;
use core::fmt;

/// Why a text is not valid base64.
#[derive(Debug)]
pub struct InvalidBase64(Fault);

/// The kinds of faults. `Debug` prints their names.
#[derive(Clone, Copy, Debug)]
enum Fault {
    Padding,
    LoneAlphabetSymbol,
    AlphabetSymbolAfterPadding,
    UnexpectedSymbol(u8),
}

impl InvalidBase64 {
    /// The fault that a status names.
    pub(crate) fn of(status: u32) -> InvalidBase64 {
        InvalidBase64(match status {
            library::PADDING => Fault::Padding,
            library::LONE_SYMBOL => Fault::LoneAlphabetSymbol,
            library::SYMBOL_AFTER_PADDING => Fault::AlphabetSymbolAfterPadding,
            status if status >= library::UNEXPECTED_SYMBOL => {
                Fault::UnexpectedSymbol((status - library::UNEXPECTED_SYMBOL) as u8)
            }
            status => unreachable!("status {}", status),
        })
    }
}

impl fmt::Display for InvalidBase64 {
    fn fmt(&self, f: &mut fmt::Formatter<'_>) -> fmt::Result {
        f.write_str(match self.0 {
            Fault::Padding => "incorrect padding",
            Fault::LoneAlphabetSymbol => "lone alphabet symbol present",
            Fault::AlphabetSymbolAfterPadding => "alphabet symbol present after padding",
            Fault::UnexpectedSymbol(byte) => {
                return write!(f, "symbol with codepoint {} not expected", byte)
            }
        })
    }
}

/// Why decoding ended early.
#[derive(Debug)]
pub enum DecodeError<E> {
    /// The text is not valid base64.
    InvalidBase64(InvalidBase64),
    /// The closure returned this error.
    WriteError(E),
}

#[cfg(feature = "std")]
mod errors {
    use super::{DecodeError, InvalidBase64};
    use std::error::Error;

    impl Error for InvalidBase64 {}
    impl<E: Error> Error for DecodeError<E> {}
}

impl<E: fmt::Display> fmt::Display for DecodeError<E> {
    fn fmt(&self, f: &mut fmt::Formatter<'_>) -> fmt::Result {
        let (what, why): (_, &dyn fmt::Display) = match self {
            DecodeError::InvalidBase64(fault) => ("base64 not valid", fault),
            DecodeError::WriteError(error) => ("write error", error),
        };
        write!(f, "{}: {}", what, why)
    }
}

/// Decodes a whole text. Room that is more than twice the length of the result and more than 4 KiB is given back.
///
/// # Errors
///
/// `InvalidBase64` if the text is not valid base64.
pub fn decode_to_vec(input: &[u8]) -> Result<Vec<u8>, InvalidBase64> {
    match library::base64(input) {
        (DONE, bytes) => Ok(bytes),
        (fault, _) => Err(InvalidBase64::of(fault)),
    }
}

/// A decoder that is fed a text in parts and calls a closure with the bytes as they are complete.
pub struct Decoder<F, E>
where
    F: FnMut(&[u8]) -> Result<(), E>,
{
    state: Base64,
    /// `DONE`, or the first fault.
    status: u32,
    write_bytes: F,
}

impl<F: FnMut(&[u8]) -> Result<(), E>, E> Decoder<F, E> {
    /// Returns a decoder that has seen no text.
    pub fn new(write_bytes: F) -> Self {
        Decoder {
            state: Base64::new(),
            status: DONE,
            write_bytes,
        }
    }

    /// Feeds the next part of the text. Calls the closure with the bytes of the groups of four symbols that it
    /// completes.
    ///
    /// # Errors
    ///
    /// `WriteError` with the closure's error. `InvalidBase64` at the first fault, after the closure was called with the
    /// bytes before it.
    ///
    /// A decoder that is fed after a fault returns it again. After a `WriteError` the decoder does not call the closure
    /// again with the bytes that it refused, and the rest of the input of that call is lost: do not feed it any more.
    pub fn feed(&mut self, input: &[u8]) -> Result<(), DecodeError<E>> {
        if input.len() < SHORT {
            self.feed_through::<SHORT>(input)
        } else {
            self.feed_long(input)
        }
    }

    /// Feeds as `feed` does, through the larger buffer, which is not on the stack where a short part is fed.
    #[inline(never)]
    fn feed_long(&mut self, input: &[u8]) -> Result<(), DecodeError<E>> {
        self.feed_through::<LONG>(input)
    }

    /// Feeds as `feed` does, through a buffer of `N` bytes. Through the larger one, if symbols are left over, it first
    /// feeds as many bytes as their group lacks symbols, once before each part. The library decodes blocks of 64
    /// symbols only from the start of a group.
    #[inline(always)]
    fn feed_through<const N: usize>(&mut self, input: &[u8]) -> Result<(), DecodeError<E>> {
        let mut buffer = Buffer::<N>::new();
        let mut rest = input;
        let mut completes_group = false;
        while self.status == DONE && !rest.is_empty() {
            completes_group = N == LONG && !completes_group && self.state.missing() > 0;
            let most = if completes_group {
                self.state.missing()
            } else {
                rest.len()
            };
            let part = &rest[..most.min(rest.len())];
            let (status, bytes, read) = self.state.feed(part, &mut buffer);
            self.status = status;
            rest = &rest[read..];
            if !bytes.is_empty() {
                (self.write_bytes)(bytes).map_err(DecodeError::WriteError)?;
            }
        }
        self.ended()
    }

    /// Returns the first fault, if there was one.
    fn ended(&self) -> Result<(), DecodeError<E>> {
        match self.status {
            DONE => Ok(()),
            fault => Err(DecodeError::InvalidBase64(InvalidBase64::of(fault))),
        }
    }

    /// Ends the text: checks its padding, and calls the closure with the last bytes, if any.
    ///
    /// # Errors
    ///
    /// `InvalidBase64` if the text is not valid, and `WriteError` with the closure's error.
    pub fn finish(mut self) -> Result<(), DecodeError<E>> {
        self.ended()?;
        if self.state.is_whole() {
            return Ok(());
        }
        let mut buffer = Buffer::<4>::new();
        let (status, bytes) = self.state.finish(&mut buffer);
        self.status = status;
        if !bytes.is_empty() {
            (self.write_bytes)(bytes).map_err(DecodeError::WriteError)?;
        }
        self.ended()
    }
}

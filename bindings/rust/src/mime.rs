//! MIME types: <https://mimesniff.spec.whatwg.org/#understanding-mime-types>

use crate::library::{self, Parts};
use alloc::borrow::ToOwned;
use alloc::string::String;
use alloc::vec;
use alloc::vec::Vec;
use core::fmt;
use core::str::FromStr;

/// A MIME type, as the standard represents it: <https://mimesniff.spec.whatwg.org/#mime-type-representation>
#[derive(Clone, Debug, PartialEq, Eq)]
pub struct Mime {
    /// The type, as `text` of `text/html`.
    pub type_: String,
    /// The subtype, as `html` of `text/html`.
    pub subtype: String,
    /// Each name with its value, in order.
    pub parameters: Vec<(String, String)>,
}

impl Mime {
    /// Returns a MIME type with this type and subtype, and no parameters.
    pub fn new(type_: &str, subtype: &str) -> Self {
        Self {
            type_: type_.to_owned(),
            subtype: subtype.to_owned(),
            parameters: Vec::new(),
        }
    }

    /// Returns whether these are the type and the subtype. Parameters do not matter.
    pub fn matches(&self, type_: &str, subtype: &str) -> bool {
        self.type_ == type_ && self.subtype == subtype
    }

    /// Returns the value of the first parameter with this name.
    pub fn get_parameter<P>(&self, name: &P) -> Option<&str>
    where
        P: ?Sized + PartialEq<str>,
    {
        let mut parameters = self.parameters.iter();
        let (_, value) = parameters.find(|(key, _)| name == key.as_str())?;
        Some(value)
    }

    /// Returns the MIME type of a URL that names none.
    #[inline(always)]
    pub(crate) fn default_type() -> Mime {
        Mime {
            type_: "text".to_owned(),
            subtype: "plain".to_owned(),
            parameters: vec![("charset".to_owned(), "US-ASCII".to_owned())],
        }
    }

    /// Returns the MIME type with these parts.
    #[inline(always)]
    pub(crate) fn from_parts(mut parts: Parts<'_>) -> Mime {
        let type_ = parts.next().expect("a type").to_owned();
        let subtype = parts.next().expect("a subtype").to_owned();
        let mut parameters = Vec::with_capacity(parts.clone().count() / 2);
        while let (Some(name), Some(value)) = (parts.next(), parts.next()) {
            parameters.push((name.to_owned(), value.to_owned()));
        }
        Mime {
            type_,
            subtype,
            parameters,
        }
    }
}

/// Parses a MIME type as the standard says: <https://mimesniff.spec.whatwg.org/#parsing-a-mime-type>
impl FromStr for Mime {
    type Err = MimeParsingError;

    fn from_str(text: &str) -> Result<Mime, MimeParsingError> {
        library::mime_type(
            text,
            |parts| Ok(Mime::from_parts(parts)),
            |_| Err(MimeParsingError(())),
        )
    }
}

/// The text is not a MIME type.
#[derive(Debug)]
pub struct MimeParsingError(());

#[cfg(feature = "std")]
impl std::error::Error for MimeParsingError {}

impl fmt::Display for MimeParsingError {
    fn fmt(&self, f: &mut fmt::Formatter<'_>) -> fmt::Result {
        f.write_str("invalid mime type")
    }
}

/// Prints the MIME type as the standard serializes it: <https://mimesniff.spec.whatwg.org/#serializing-a-mime-type>
impl fmt::Display for Mime {
    fn fmt(&self, f: &mut fmt::Formatter<'_>) -> fmt::Result {
        write_all(f, &[&self.type_, "/", &self.subtype])?;
        for (name, value) in &self.parameters {
            write_all(f, &[";", name, "="])?;
            write_value(f, value)?;
        }
        Ok(())
    }
}

/// Writes texts, one after the other.
fn write_all(f: &mut fmt::Formatter<'_>, texts: &[&str]) -> fmt::Result {
    texts.iter().try_for_each(|text| f.write_str(text))
}

/// Writes a value, in quotes if it is not a token.
fn write_value(f: &mut fmt::Formatter<'_>, value: &str) -> fmt::Result {
    if !value.is_empty() && value.bytes().all(is_token) {
        return f.write_str(value);
    }
    f.write_str("\"")?;
    let mut from = 0;
    for (place, _) in value.match_indices(&['"', '\\'][..]) {
        write_all(f, &[&value[from..place], "\\"])?;
        from = place;
    }
    write_all(f, &[&value[from..], "\""])
}

/// <https://mimesniff.spec.whatwg.org/#http-token-code-point>
fn is_token(byte: u8) -> bool {
    byte.is_ascii_alphanumeric() || b"!#$%&'*+-.^_`|~".contains(&byte)
}

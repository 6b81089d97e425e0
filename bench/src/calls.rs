// The calls of a crate with the names of `data-url`, in the form of the library's exports. It is included where
// `library` names that crate.

use self::library::forgiving_base64::{decode_to_vec as base64, Decoder};
use self::library::mime::Mime;
use self::library::DataUrl;

const REFUSED: usize = usize::MAX;

struct Buffer<'a> {
    output: &'a mut [u8],
    len: usize,
}

impl Buffer<'_> {
    #[inline(always)]
    fn append(&mut self, piece: &[u8]) -> Result<(), ()> {
        let end = self.len.saturating_add(piece.len());
        if end > self.output.len() {
            return Err(());
        }
        self.output[self.len..end].copy_from_slice(piece);
        self.len = end;
        Ok(())
    }
}

/// What a closure adds up that keeps none of its bytes: how many there are, and every twelfth of the first 48 bytes of
/// each piece.
#[derive(Default)]
struct Sum {
    len: usize,
    some_bytes: u8,
}

impl Sum {
    #[inline(always)]
    fn add(&mut self, piece: &[u8]) -> Result<(), ()> {
        self.len = self.len.wrapping_add(piece.len());
        for twelve in piece[..piece.len().min(48)].chunks(12) {
            self.some_bytes = self.some_bytes.wrapping_add(twelve[0]);
        }
        Ok(())
    }

    fn show(self, out: &mut [u8]) -> usize {
        if let Some(byte) = out.first_mut() {
            *byte = self.some_bytes;
        }
        self.len
    }
}

fn show(bytes: &[u8], out: &mut [u8]) -> usize {
    let len = bytes.len().min(out.len());
    out[..len].copy_from_slice(&bytes[..len]);
    bytes.len()
}

fn text_of(text: &[u8]) -> &str {
    unsafe { std::str::from_utf8_unchecked(text) }
}

pub fn base64_to_vec(input: &[u8], out: &mut [u8]) -> usize {
    match base64(input) {
        Ok(bytes) => show(&bytes, out),
        Err(_) => REFUSED,
    }
}

pub fn base64_feed(input: &[u8], out: &mut [u8]) -> usize {
    let mut buffer = Buffer {
        output: out,
        len: 0,
    };
    let mut decoder = Decoder::new(|piece: &[u8]| buffer.append(piece));
    if decoder.feed(input).is_err() || decoder.finish().is_err() {
        return REFUSED;
    }
    buffer.len
}

/// Feeds parts of `SIZE` bytes.
pub fn base64_feed_summed<const SIZE: usize>(input: &[u8], out: &mut [u8]) -> usize {
    let mut sum = Sum::default();
    let mut decoder = Decoder::new(|piece: &[u8]| sum.add(piece));
    for part in input.chunks(SIZE) {
        if decoder.feed(part).is_err() {
            return REFUSED;
        }
    }
    match decoder.finish() {
        Ok(()) => sum.show(out),
        Err(_) => REFUSED,
    }
}

pub fn process(text: &[u8], _: &mut [u8]) -> usize {
    match DataUrl::process(text_of(text)) {
        Ok(url) => url.mime_type().parameters.len(),
        Err(_) => REFUSED,
    }
}

pub fn process_mime(text: &[u8], out: &mut [u8]) -> usize {
    match DataUrl::process(text_of(text)) {
        Ok(url) => show(url.mime_type().to_string().as_bytes(), out),
        Err(_) => REFUSED,
    }
}

pub fn decode(text: &[u8], out: &mut [u8]) -> usize {
    let Ok(url) = DataUrl::process(text_of(text)) else {
        return REFUSED;
    };
    let mut buffer = Buffer {
        output: out,
        len: 0,
    };
    match url.decode(|piece: &[u8]| buffer.append(piece)) {
        Ok(_) => buffer.len,
        Err(_) => REFUSED,
    }
}

/// The crate has no `Pieces`. This is `decode`, with a closure that adds its pieces up, and keeps them while they fit.
#[allow(dead_code)]
pub fn pieces(text: &[u8], out: &mut [u8]) -> usize {
    let Ok(url) = DataUrl::process(text_of(text)) else {
        return REFUSED;
    };
    let mut buffer = Buffer {
        output: out,
        len: 0,
    };
    let mut sum = Sum::default();
    let decoded = url.decode(|piece: &[u8]| {
        if buffer.append(piece).is_err() {
            buffer.len = buffer.output.len();
        }
        sum.add(piece)
    });
    match decoded {
        Ok(_) => sum.len,
        Err(_) => REFUSED,
    }
}

pub fn decode_summed(text: &[u8], out: &mut [u8]) -> usize {
    let Ok(url) = DataUrl::process(text_of(text)) else {
        return REFUSED;
    };
    let mut sum = Sum::default();
    match url.decode(|piece: &[u8]| sum.add(piece)) {
        Ok(_) => sum.show(out),
        Err(_) => REFUSED,
    }
}

pub fn decode_to_vec(text: &[u8], out: &mut [u8]) -> usize {
    let Ok(url) = DataUrl::process(text_of(text)) else {
        return REFUSED;
    };
    match url.decode_to_vec() {
        Ok((bytes, _)) => show(&bytes, out),
        Err(_) => REFUSED,
    }
}

pub fn fragment(text: &[u8], out: &mut [u8]) -> usize {
    let Ok(url) = DataUrl::process(text_of(text)) else {
        return REFUSED;
    };
    match url.decode(|_: &[u8]| Ok::<(), ()>(())) {
        Ok(Some(fragment)) => show(fragment.to_percent_encoded().as_bytes(), out),
        _ => REFUSED,
    }
}

pub fn mime(text: &[u8], _: &mut [u8]) -> usize {
    match text_of(text).parse::<Mime>() {
        Ok(mime) => mime.parameters.len(),
        Err(_) => REFUSED,
    }
}

#[allow(dead_code)]
pub fn mime_charset(text: &[u8], _: &mut [u8]) -> usize {
    match text_of(text).parse::<Mime>() {
        Ok(mime) => {
            let charset = mime.get_parameter("charset").unwrap_or("");
            charset.len() + usize::from(mime.matches("text", "html"))
        }
        Err(_) => REFUSED,
    }
}

pub fn mime_printed(text: &[u8], out: &mut [u8]) -> usize {
    match text_of(text).parse::<Mime>() {
        Ok(mime) => show(mime.to_string().as_bytes(), out),
        Err(_) => REFUSED,
    }
}

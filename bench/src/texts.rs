//! The texts that the rows of the table are timed on. Each function makes another text from other numbers.

/// Numbers that look random: the same at each run, others from another seed.
pub struct Numbers(u64);

const ALPHABET: &[u8; 64] = b"ABCDEFGHIJKLMNOPQRSTUVWXYZabcdefghijklmnopqrstuvwxyz0123456789+/";

/// MIME types that are in use.
const TYPES: [&str; 64] = [
    "text/html",
    "text/css",
    "text/plain",
    "text/csv",
    "text/javascript",
    "text/markdown",
    "text/calendar",
    "text/vcard",
    "text/x-python",
    "text/xml",
    "text/event-stream",
    "text/cache-manifest",
    "text/tab-separated-values",
    "text/x-c",
    "image/png",
    "image/jpeg",
    "image/gif",
    "image/webp",
    "image/svg+xml",
    "image/avif",
    "image/bmp",
    "image/tiff",
    "image/x-icon",
    "image/vnd.microsoft.icon",
    "image/heic",
    "image/x-canon-cr2",
    "font/woff",
    "font/woff2",
    "font/ttf",
    "font/otf",
    "audio/mpeg",
    "audio/ogg",
    "audio/wav",
    "audio/aac",
    "audio/x-flac",
    "audio/midi",
    "video/mp4",
    "video/webm",
    "video/quicktime",
    "video/x-matroska",
    "application/json",
    "application/ld+json",
    "application/pdf",
    "application/xml",
    "application/xhtml+xml",
    "application/atom+xml",
    "application/zip",
    "application/gzip",
    "application/wasm",
    "application/octet-stream",
    "application/x-www-form-urlencoded",
    "application/x-tar",
    "application/x-7z-compressed",
    "application/rtf",
    "application/epub+zip",
    "application/msword",
    "application/vnd.ms-excel",
    "application/sql",
    "application/vnd.openxmlformats-officedocument.wordprocessingml.document",
    "application/vnd.oasis.opendocument.text",
    "application/vnd.google-earth.kml+xml",
    "application/vnd.debian.binary-package",
    "application/x-shellscript",
    "message/rfc822",
];

/// One of these MIME types, with a text after it.
pub fn type_in_use(numbers: &mut Numbers, parameters: &str) -> Vec<u8> {
    format!("{}{parameters}", TYPES[numbers.below(TYPES.len())]).into_bytes()
}

impl Numbers {
    pub fn new(seed: u64) -> Self {
        Numbers(seed.wrapping_mul(0x9E37_79B9_7F4A_7C15))
    }

    pub fn below(&mut self, end: usize) -> usize {
        self.0 = self
            .0
            .wrapping_mul(6364136223846793005)
            .wrapping_add(1442695040888963407);
        (self.0 >> 33) as usize % end
    }

    fn symbol(&mut self) -> u8 {
        ALPHABET[self.below(64)]
    }

    fn lower(&mut self) -> u8 {
        b'a' + self.below(26) as u8
    }

    /// A printable byte greater than `%`.
    fn letter(&mut self) -> u8 {
        b' ' + 6 + self.below(80) as u8
    }

    fn escape(&mut self) -> [u8; 3] {
        let digits = b"0123456789ABCDEF";
        [b'%', digits[self.below(16)], digits[self.below(16)]]
    }
}

/// How base64 is divided into lines, in symbols. A line of 0 symbols has no end.
#[derive(Clone, Copy)]
pub struct Lines {
    first: usize,
    least: usize,
    most: usize,
    end: &'static str,
}

impl Lines {
    pub const NONE: Lines = Lines::of(0, "");

    pub const fn of(width: usize, end: &'static str) -> Self {
        Lines::mixed(width, width, end)
    }

    pub const fn mixed(least: usize, most: usize, end: &'static str) -> Self {
        Lines {
            first: least,
            least,
            most,
            end,
        }
    }

    /// The same but for the first line.
    pub const fn after(self, first: usize) -> Self {
        Lines { first, ..self }
    }
}

/// Base64 with `len` symbols.
pub fn base64(numbers: &mut Numbers, len: usize, lines: Lines) -> Vec<u8> {
    let mut text = vec![];
    let mut left = lines.first;
    for place in 0..len {
        text.push(numbers.symbol());
        left = left.wrapping_sub(1);
        if left == 0 && place + 1 < len {
            text.extend(lines.end.bytes());
            left = lines.least + numbers.below(lines.most - lines.least + 1);
        }
    }
    text
}

/// Base64 of `len` symbols in lines of 76. Each line is indented by one to six spaces.
pub fn indented(numbers: &mut Numbers, len: usize) -> Vec<u8> {
    let mut text = vec![];
    for line in base64(numbers, len, Lines::of(76, "\n")).split(|byte| *byte == b'\n') {
        text.extend(&b"\n      "[..2 + numbers.below(6)]);
        text.extend(line);
    }
    text
}

/// Base64 with `len` symbols, of which `percent` of each hundred are a `+` that is written as `%2B`.
pub fn base64_with_escapes(numbers: &mut Numbers, len: usize, percent: usize) -> Vec<u8> {
    let mut text = vec![];
    for _ in 0..len {
        if numbers.below(100) < percent {
            text.extend(b"%2B");
        } else {
            text.push(numbers.symbol());
        }
    }
    text
}

/// A body of `len` bytes. About `percent` of each hundred decoded bytes are written as escapes.
pub fn escaped(numbers: &mut Numbers, len: usize, percent: usize) -> Vec<u8> {
    let mut text = vec![];
    while text.len() < len {
        if numbers.below(100) < percent {
            text.extend(numbers.escape());
        } else {
            text.push(numbers.letter());
        }
    }
    text
}

/// A body as `escaped` makes it, with a newline after each `width` bytes.
pub fn wrapped(numbers: &mut Numbers, len: usize, percent: usize, width: usize) -> Vec<u8> {
    escaped(numbers, len, percent)
        .chunks(width)
        .collect::<Vec<_>>()
        .join(&b'\n')
}

/// A body of escapes with a newline inside one of two, and up to seven bytes after each.
#[cfg(feature = "against")]
pub fn cut_escapes(numbers: &mut Numbers, len: usize) -> Vec<u8> {
    let mut text = vec![];
    while text.len() < len {
        let [percent, high, low] = numbers.escape();
        match numbers.below(4) {
            0 => text.extend([percent, b'\n', high, low]),
            1 => text.extend([percent, high, b'\n', low]),
            _ => text.extend([percent, high, low]),
        }
        for _ in 0..numbers.below(8) {
            text.push(numbers.letter());
        }
    }
    text
}

/// A body with a `%` that begins no escape about every thirty bytes.
pub fn lone_percents(numbers: &mut Numbers, len: usize) -> Vec<u8> {
    let mut text = vec![];
    while text.len() < len {
        for _ in 0..20 + numbers.below(20) {
            text.push(numbers.letter());
        }
        text.extend(b"% ");
    }
    text
}

/// A percent-encoded drawing: escapes with 3 to 20 bytes between them.
pub fn svg(numbers: &mut Numbers, len: usize) -> Vec<u8> {
    let mut text = vec![];
    while text.len() < len {
        text.extend([&b"%3C"[..], b"%22", b"%20", b"%3E"][numbers.below(4)]);
        for _ in 0..3 + numbers.below(18) {
            text.push(numbers.letter());
        }
    }
    text
}

/// A percent-encoded icon of about `len` bytes. The stretches between its escapes are as long as in the style sheets of
/// Debian packages, so some 44 of 100 bytes are in escapes.
pub fn icon(numbers: &mut Numbers, len: usize) -> Vec<u8> {
    let escapes = b" \"=<>/ \" \":#,";
    let letters = b"abcdefghijklmnopqrstuvwxyz0123456789.-0123456789.-";
    let mut text = vec![];
    while text.len() < len {
        let escape = escapes[numbers.below(escapes.len())];
        text.extend(format!("%{escape:02X}").bytes());
        let stretch = match numbers.below(100) {
            0..=29 => 0,
            30..=44 => 1,
            45..=54 => 2,
            55..=60 => 3,
            61..=70 => 4,
            71..=80 => 5,
            81..=95 => 6 + numbers.below(7),
            _ => 13 + numbers.below(28),
        };
        text.extend((0..stretch).map(|_| letters[numbers.below(letters.len())]));
    }
    text
}

/// A drawing in which `#` alone is percent-encoded.
pub fn raw_svg(numbers: &mut Numbers, len: usize) -> Vec<u8> {
    let mut text = b"<svg xmlns='http://www.w3.org/2000/svg' viewBox='0 0 24 24'>".to_vec();
    while text.len() < len {
        let path = format!(
            "<path d='M{} {}h{}v",
            numbers.below(24),
            numbers.below(24),
            numbers.below(9)
        );
        text.extend(path.bytes());
        for _ in 0..numbers.below(60) {
            text.push(b'0' + numbers.below(10) as u8);
        }
        text.extend(format!("z' fill='%23{:03x}'/>", numbers.below(4096)).bytes());
    }
    text
}

/// A fragment in which about every eighth character has to be encoded.
pub fn fragment(numbers: &mut Numbers, len: usize) -> Vec<u8> {
    let mut text = String::new();
    while text.len() < len {
        match numbers.below(24) {
            0 => text.push(' '),
            1 => text.push('"'),
            2 => text.push('é'),
            _ => text.push(numbers.letter() as char),
        }
    }
    text.into_bytes()
}

/// A MIME type with a parameter of each name.
fn with_names(names: impl Iterator<Item = String>) -> Vec<u8> {
    let mut text = String::from("a/b");
    for name in names {
        text.push_str(&format!(";{name}=v"));
    }
    text.into_bytes()
}

/// A MIME type with `count` parameters whose names end with a number.
pub fn numbered_names(numbers: &mut Numbers, count: usize) -> Vec<u8> {
    let start = numbers.lower() as char;
    with_names((0..count).map(|number| format!("{start}{number}")))
}

/// A MIME type with `count` parameters whose names differ only at their start, as `aaaabc` and `baaabc`.
pub fn names_that_end_alike(numbers: &mut Numbers, count: usize) -> Vec<u8> {
    let end: String = (0..3).map(|_| numbers.lower() as char).collect();
    let letter = |number: usize| (b'a' + (number % 26) as u8) as char;
    with_names((0..count).map(|it| format!("{}{}a{end}", letter(it), letter(it / 26))))
}

/// A MIME type with `count` parameters whose names are one letter, repeated once, twice and so on.
pub fn growing_names(numbers: &mut Numbers, count: usize) -> Vec<u8> {
    let letter = (numbers.lower() as char).to_string();
    with_names((1..=count).map(|len| letter.repeat(len)))
}

/// A MIME type with a quoted value of about `len` bytes. One of `every` is a `\` with the byte that it escapes. With
/// `every` at 0, there is none.
pub fn quoted(numbers: &mut Numbers, len: usize, every: usize) -> Vec<u8> {
    let mut text = b"a/b;c=\"".to_vec();
    while text.len() < len {
        if every > 0 && numbers.below(every) == 0 {
            text.extend([&b"\\\""[..], b"\\\\"][numbers.below(2)]);
        } else {
            text.push(numbers.symbol());
        }
    }
    text.push(b'"');
    text
}

/// A MIME type with a quoted value of `\"` alone, of about `len` bytes.
pub fn quoted_quotes(numbers: &mut Numbers, len: usize) -> Vec<u8> {
    let len = len + 2 * numbers.below(16);
    [&b"a/b;c=\""[..], &b"\\\"".repeat(len / 2), b"\""].concat()
}

/// A MIME type with a quoted value of about `len` bytes that has a letter which is not ASCII.
pub fn quoted_letters(numbers: &mut Numbers, len: usize) -> Vec<u8> {
    let mut text = quoted(numbers, len, 0);
    let place = 8 + numbers.below(len - 16);
    text.splice(place..place, "é".bytes());
    text
}

/// A data: URL. Its subtype gets a few letters, so that no two are the same where their bodies are.
pub fn url(header: &str, body: &[u8]) -> Vec<u8> {
    [b"data:", header.as_bytes(), b",", body].concat()
}

//! Each byte at each place, each cut, and random texts, beside the rules alone, a byte at a time.

mod level;

use data_url::forgiving_base64::{decode_to_vec, DecodeError, Decoder};
use data_url::DataUrl;
use std::convert::Infallible;

/// Returns the first byte of an escape without its tabs and newlines, and the text after it.
fn escape(text: &[u8]) -> Option<(u8, &[u8])> {
    let digit = |byte: &u8| char::from(*byte).to_digit(16);
    match text {
        [b'%', high, low, rest @ ..] => Some(((digit(high)? * 16 + digit(low)?) as u8, rest)),
        _ => None,
    }
}

/// Returns a body: the text before the first `#`, without tabs and newlines, percent-decoded.
fn body_of(text: &str) -> Vec<u8> {
    let front = text.bytes().take_while(|byte| *byte != b'#');
    let front: Vec<u8> = front.filter(|byte| !b"\t\n\r".contains(byte)).collect();
    let (mut rest, mut body) = (&front[..], Vec::new());
    while let [first, others @ ..] = rest {
        let (byte, after) = escape(rest).unwrap_or((*first, others));
        body.push(byte);
        rest = after;
    }
    body
}

/// Asserts the body of a URL, by each call that decodes it.
fn assert_body(text: &str) {
    let body = body_of(text);
    let whole = format!("data:,{}", text);
    let url = DataUrl::process(&whole).unwrap();
    assert_eq!(url.decode_to_vec().unwrap().0, body, "{:?}", text);
    let mut pieces = Vec::new();
    let ended = url.decode(|piece| -> Result<(), Infallible> {
        pieces.extend_from_slice(piece);
        Ok(())
    });
    assert!(ended.is_ok() && pieces == body, "{:?}", text);
}

/// Parts with bytes that the body does not hold as they are, and two without.
const SPECIALS: [&str; 15] = [
    "\t",
    "\n",
    "\r",
    "#",
    "%",
    "%41",
    "%4\t1",
    "%\n\n4\r1",
    "%4",
    "%%41",
    "%41%42%43%44",
    "\u{e9}",
    "%2",
    "%\t",
    "a",
];

#[test]
fn special_bytes_at_every_place() {
    let rest = "abcdefghijklmnopqrstuvwxyz".repeat(3);
    for place in 0..131 {
        for special in &SPECIALS {
            assert_body(&format!("{}{}{}", "a".repeat(place), special, rest));
        }
    }
}

/// Returns the next of a sequence of random numbers.
fn random(state: &mut u32) -> u32 {
    *state = state.wrapping_mul(1_664_525).wrapping_add(1_013_904_223);
    *state / 256
}

#[test]
fn random_texts() {
    let mut state = 20_261_122;
    for count in 0..600 {
        let parts = (0..count).map(|_| match random(&mut state) % 24 {
            0..=5 => "%41",
            6 => "%",
            7 => "\t",
            8 => "%4",
            9 => "\n",
            10 => "4",
            11 if random(&mut state) % 64 == 0 => "#",
            12 => "%\t41",
            13 => "A long stretch, which goes on over the edge of a block of 64 bytes.",
            _ => "x",
        });
        assert_body(&parts.collect::<String>());
    }
}

/// The symbols of base64, by their six bits.
const ALPHABET: &[u8; 64] = b"ABCDEFGHIJKLMNOPQRSTUVWXYZabcdefghijklmnopqrstuvwxyz0123456789+/";

/// Returns the six bits of a symbol.
fn six_bits(byte: u8) -> Option<u8> {
    let place = ALPHABET.iter().position(|symbol| *symbol == byte);
    place.map(|place| place as u8)
}

/// Returns the six bits of each symbol before the first fault, and the message for that fault, by the steps of
/// forgiving-base64 decode. The message is empty for a valid text.
fn read(text: &[u8]) -> (Vec<u8>, String) {
    let (mut values, mut padding) = (Vec::new(), 0);
    for byte in text.iter().filter(|byte| !byte.is_ascii_whitespace()) {
        match six_bits(*byte) {
            Some(value) if padding == 0 => values.push(value),
            Some(_) => return (values, "alphabet symbol present after padding".to_owned()),
            None if *byte == b'=' => padding += 1,
            None => {
                return (
                    values,
                    format!("symbol with codepoint {} not expected", byte),
                )
            }
        }
    }
    let message = match (values.len() % 4, padding) {
        (0, 0) | (2, 0) | (2, 2) | (3, 0) | (3, 1) => "",
        (1, _) => "lone alphabet symbol present",
        _ => "incorrect padding",
    };
    (values, message.to_owned())
}

/// Returns the bytes of symbols, by their six bits. Those of symbols that are left over are added if the text is valid.
fn bytes_of(values: &[u8], is_valid: bool) -> Vec<u8> {
    let whole = if is_valid {
        values.len()
    } else {
        values.len() / 4 * 4
    };
    let bits = values[..whole]
        .iter()
        .flat_map(|value| (0..6).rev().map(move |at| value >> at & 1));
    let bits: Vec<u8> = bits.collect();
    bits.chunks_exact(8)
        .map(|byte| byte.iter().fold(0, |all, bit| all * 2 + bit))
        .collect()
}

/// Asserts what a text that is fed in these parts decodes to, and its message.
fn assert_fed(parts: &[&[u8]], bytes: &[u8], message: &str) {
    let mut found = Vec::new();
    let mut decoder = Decoder::new(|piece: &[u8]| {
        found.extend_from_slice(piece);
        Ok(())
    });
    let fed = parts.iter().try_for_each(|part| decoder.feed(part));
    let ended: Result<(), DecodeError<Infallible>> = fed.and_then(|()| decoder.finish());
    let fault = match ended {
        Ok(()) => String::new(),
        Err(DecodeError::InvalidBase64(fault)) => fault.to_string(),
        Err(DecodeError::WriteError(never)) => match never {},
    };
    assert!(
        fault == message && found == bytes,
        "{:?}: {} {:?}",
        parts,
        fault,
        found
    );
}

/// Asserts what a whole text decodes to, and its message, and returns both.
fn assert_base64(text: &[u8]) -> (Vec<u8>, String) {
    let (values, message) = read(text);
    let bytes = bytes_of(&values, message.is_empty());
    assert_fed(&[text], &bytes, &message);
    match decode_to_vec(text) {
        Ok(found) => assert!(message.is_empty() && found == bytes, "{:?}", text),
        Err(fault) => assert_eq!(fault.to_string(), message, "{:?}", text),
    }
    (bytes, message)
}

/// Asserts the same of each byte at each place of a text.
fn assert_each_byte(text: &str) {
    for place in 0..text.len() {
        for byte in 0..=255 {
            let mut changed = text.as_bytes().to_vec();
            changed[place] = byte;
            assert_base64(&changed);
        }
    }
}

#[test]
fn each_byte_at_each_place() {
    assert_each_byte(&"ABCDEFGHIJKLMNOPQRSTUVWXYZ".repeat(5));
    assert_each_byte(
        "ABCDEFGHIJKLMNOPQRSTUVWXYZABCDEFGH\r\nIJKLMNOPQRSTUV W X Y Z A B C D E F G H\n    IJ",
    );
}

/// Asserts what a text decodes to, whole and cut in two at each place. Returns its bytes.
fn assert_each_cut(text: &[u8]) -> Vec<u8> {
    let (bytes, message) = assert_base64(text);
    for cut in 0..=text.len() {
        let (front, back) = text.split_at(cut);
        assert_fed(&[front, back], &bytes, &message);
    }
    bytes
}

#[test]
fn each_cut_in_two() {
    let text = "gtD7fGUOv8fwNfBb0jXxUJR4QQAAabVVloZaXZxmCu1VShIqmArIntn9oX98WHgCtzC1uwB5FXZP\r\n\
        f7stg7NvlE3LaruSrjLnonWKTn9UGKzEesg61SHE/qaQQ0NV3vTH1lS6V6+o9jl8\n\
        zSOwW/r \tXL+iuItEnuj+h\u{c}lrWB8gpj7ktsjs0sW5=              =";
    assert!(text.len() == 200 && assert_each_cut(text.as_bytes()).len() == 133);
}

/// Returns random symbols, with white space after each `width` of them, and a longer run of it after half of them.
fn spaced_symbols(state: &mut u32, count: usize, width: usize) -> String {
    let mut text = String::new();
    for place in 0..count {
        text.push(char::from(ALPHABET[random(state) as usize % 64]));
        match place {
            _ if place == count / 2 => text.push_str(&" ".repeat(37)),
            _ if place % width == width - 1 => text.push('\n'),
            _ => {}
        }
    }
    text
}

/// Symbols of rows with white space are packed, up to 256 of them and 15 more, and decoded together. They may end in
/// every row and at every place of one, with up to three symbols that are left over.
#[test]
fn symbols_that_are_packed() {
    let mut state = 20_261_127;
    for count in (60..80).chain(250..276) {
        for width in &[1, 5, 14] {
            let text = spaced_symbols(&mut state, count, *width);
            for end in &["", "=", "==", "!", " \n\t ", "Q!QQQQ QQQQ", "=Q"] {
                assert_each_cut(format!("{}{}", text, end).as_bytes());
            }
        }
    }
}

/// Asserts what the body of a URL in base64 decodes to, by each call that decodes it, and its message or the fragment.
fn assert_base64_url(text: &str) {
    let (values, message) = read(&body_of(text));
    let bytes = bytes_of(&values, message.is_empty());
    let whole = format!("data:;base64,{}", text);
    let url = DataUrl::process(&whole).unwrap();
    let fragment = text
        .find('#')
        .map(|at| text[at + 1..].replace(&['\t', '\n'][..], ""));
    match url.decode_to_vec() {
        Ok((found, rest)) => {
            assert!(message.is_empty() && found == bytes, "{:?}", text);
            assert_eq!(
                rest.map(|it| it.to_percent_encoded()),
                fragment,
                "{:?}",
                text
            );
        }
        Err(fault) => assert_eq!(fault.to_string(), message, "{:?}", text),
    }
    let mut pieces = Vec::new();
    let ended = url.decode(|piece| -> Result<(), Infallible> {
        pieces.extend_from_slice(piece);
        Ok(())
    });
    assert!(
        ended.is_ok() == message.is_empty() && pieces == bytes,
        "{:?}",
        text
    );
}

/// Returns lines of random symbols, each followed by a newline.
fn lines(width: usize, count: usize) -> String {
    let mut state = 20_261_122;
    let mut symbol = || char::from(ALPHABET[random(&mut state) as usize % 64]);
    let mut line = || {
        (0..width)
            .map(|_| symbol())
            .chain(Some('\n'))
            .collect::<String>()
    };
    (0..count).map(|_| line()).collect()
}

/// Parts of 512 bytes and more are fed through a larger buffer. If symbols are left over, as many bytes as their group
/// lacks are fed first. They may be symbols, white space, padding or a fault.
#[test]
fn long_parts_that_begin_within_a_group() {
    for between in &["", "     ", "\n", "=", "==", "===", "=Q", "!"] {
        for width in 73..77 {
            let front = format!("{}{}", lines(76, 10), lines(width, 1));
            let text = format!("{}{}{}", front, between, lines(75, 20));
            let (bytes, message) = assert_base64(text.as_bytes());
            for cut in front.len() - 4..front.len() + 4 {
                let (front, back) = text.as_bytes().split_at(cut);
                assert_fed(&[front, back], &bytes, &message);
            }
            for size in 512..600 {
                let parts: Vec<&[u8]> = text.as_bytes().chunks(size).collect();
                assert_fed(&parts, &bytes, &message);
            }
        }
    }
}

/// Parts of a text that may be in base64 in lines: escapes, what is skipped, faults, and the end of the body.
const BETWEEN_SYMBOLS: [&str; 8] = ["%41", "%2B", "%0A", "%4\n\t1", "\t", "%", "=", "#"];

/// Asserts what lines of base64 decode to with each of these parts at a place.
fn assert_lines_with_parts(text: &str, place: usize) {
    let (front, back) = text.split_at(place);
    for part in &BETWEEN_SYMBOLS {
        assert_base64_url(&format!("{}{}{}", front, part, back));
    }
}

/// The newlines stay in what the decoder is fed, up to the first escape.
#[test]
fn lines_of_base64() {
    for width in &[27, 28, 29, 31, 61, 64, 76, 77] {
        let text = lines(*width, 9);
        (27..=text.len()).for_each(|place| assert_lines_with_parts(&text, place));
    }
}

/// The lines are longer than the 4 KiB whose bytes decide how much room is allocated, and than what the decoder is
/// fed at once.
#[test]
fn long_lines_of_base64() {
    let text = lines(76, 220);
    let places = (4_080..4_240).chain(16_368..16_528);
    places.for_each(|place| assert_lines_with_parts(&text, place));
}

/// The decoder is fed 16 KiB at once: text ends before, there and after, and two bytes before each end may be another
/// part.
#[test]
fn clean_text_of_16_kib() {
    for len in 16_378..16_390 {
        let text = "QUJD".repeat(4_098)[..len].to_owned();
        assert_base64_url(&text);
        assert_lines_with_parts(&text, len - 2);
    }
}

/// A long subtype in lower case, around the lengths from which its parts are in a vector, and from which it is read
/// as any other header.
#[test]
fn long_types() {
    for len in 230..265 {
        let subtype = "b".repeat(len);
        for (suffix, body) in &[("", "QQ"), (";base64", "A")] {
            let url = format!("data:a/{}{},QQ", subtype, suffix);
            let url = DataUrl::process(&url).unwrap();
            assert!(
                url.mime_type().matches("a", &subtype) && url.mime_type().parameters.is_empty()
            );
            assert_eq!(url.decode_to_vec().unwrap().0, body.as_bytes());
        }
    }
}

/// A long value of the only parameter, around the lengths from which the parts are in a vector, and from which the
/// header is read as any other.
#[test]
fn long_values() {
    for len in 215..262 {
        let value = "D".repeat(len);
        for (suffix, body) in &[("", "QQ"), (";base64", "A")] {
            let url = format!("data:a/b;c={}{},QQ", value, suffix);
            let url = DataUrl::process(&url).unwrap();
            let mime = url.mime_type();
            assert!(mime.matches("a", "b") && mime.parameters.len() == 1);
            assert_eq!(mime.get_parameter("c"), Some(&value[..]));
            assert_eq!(url.decode_to_vec().unwrap().0, body.as_bytes());
        }
    }
}

/// How many symbols a decoder reads in one step, with or without white space in one place.
const ROW: usize = 16;

/// Each kind of gap between two symbols.
const GAPS: [&str; 7] = ["\n", "\r\n", "\n ", "\n\t", "   ", "\u{c}", "\r"];

/// Calls a closure with each place from the first row of symbols to the end of the third, for each kind of gap.
fn at_each_gap(mut assert: impl FnMut(usize, &str)) {
    for place in 0..=3 * ROW {
        GAPS.iter().for_each(|gap| assert(place, gap));
    }
}

/// Up to twenty symbols may follow the gap, or the rest of the text is long.
#[test]
fn a_gap_at_each_place_before_each_end() {
    let symbols = lines(150, 1);
    at_each_gap(|place, gap| {
        let (front, back) = symbols.split_at(place);
        assert_base64(format!("{}{}{}", front, gap, back).as_bytes());
        for rest in 0..=20 {
            for end in &["", "=", "==", "\n", "-"] {
                assert_base64(format!("{}{}{}{}", front, gap, &back[..rest], end).as_bytes());
            }
        }
    });
}

/// The second gap comes up to sixteen symbols after the first one.
#[test]
fn two_gaps_within_a_row() {
    let symbols = lines(100, 1);
    at_each_gap(|place, gap| {
        let (front, back) = symbols.split_at(place);
        for between in 0..=ROW {
            let (middle, back) = back.split_at(between);
            for other in &GAPS {
                let text = format!("{}{}{}{}{}", front, gap, middle, other, back);
                assert_base64(text.as_bytes());
            }
        }
    });
}

/// A byte that is no symbol may come before the gap, in its place and after it.
#[test]
fn a_gap_and_each_fault() {
    let symbols = lines(100, 1);
    at_each_gap(|place, gap| {
        let (front, back) = symbols.split_at(place);
        let text = format!("{}{}{}", front, gap, back).into_bytes();
        for at in place.saturating_sub(ROW)..place + gap.len() + ROW + 4 {
            for fault in b"-=_%\0\x0b\x7f\x80\x8a\xa0\xc1\xff" {
                let mut changed = text.clone();
                changed[at] = *fault;
                assert_base64(&changed);
            }
        }
    });
}

/// One text in eight is cut in two at each place.
#[test]
fn gaps_cut_in_two() {
    let symbols = lines(100, 1);
    let mut count = 0;
    at_each_gap(|place, gap| {
        let (front, back) = symbols.split_at(place);
        count += 1;
        if count % 8 == 0 {
            assert_each_cut(format!("{}{}{}", front, gap, back).as_bytes());
            let (middle, back) = back.split_at(5);
            for part in &["\n", "-", "\u{80}", "="] {
                let text = format!("{}{}{}{}{}", front, gap, middle, part, back);
                assert_each_cut(text.as_bytes());
            }
        }
    });
}

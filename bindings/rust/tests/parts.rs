//! Bodies that are read in parts, beside `decode_to_vec`.

mod level;

use data_url::forgiving_base64::{DecodeError, InvalidBase64};
use data_url::parts::BodyReader;
use data_url::DataUrl;
use std::convert::Infallible;
use std::io::{self, Cursor, ErrorKind, Read};

/// Short bodies, after `data:a/b,` and after `data:;base64,`.
const PLAIN: [&str; 16] = [
    "",
    "#",
    "#fragment, %41",
    "a",
    "Hello%20World!",
    "%41%42%43%44%45%46%47%48%49%4A%4B%4C",
    "%e2%82%AC%C3%A4\u{20ac}\u{e4}\u{10348}",
    "%4\t1%\n\r\t4\n1b%\r#%41",
    "\t\n\r\t\n\r\t\n\r\t\n\r\t\n\r\t\n\r",
    "%%%%4%41%4%zz%",
    "before#after#twice",
    "letters alone, more of them than a word of the processor has",
    "%3Csvg%20xmlns%3D%22http%3A%2F%2Fwww.w3.org%2F2000%2Fsvg%22%3E%3C%2Fsvg%3E#icon",
    "1234567%38#",
    "12345678",
    "123456789",
];
const BASE64: [&str; 20] = [
    "",
    "#x",
    "QQ",
    "QQ==#x",
    "QUI",
    "QUJD",
    "QUJDRA%3D%3D",
    "QUJDREVGR0hJSktMTU5PUFFSU1RVVldYWVo=",
    "QU\tJ\nD%0ARE\r\nVGR0hJ%20Sks %3D# f",
    "%2B%2B%2B%2B%2F%2F%2F%2F",
    "Q%2BQ%4\n1 Q Q",
    "QUJDREVGR0hJSktMTU5PUFFSU1RVVldYWVo!QUJD#x",
    "!",
    "QUJDR",
    "QUJDREU==",
    "QUJDRA=",
    "====",
    "QUJDRA==QUJD",
    "QUJDREVG%",
    "QUJDREVG\u{e9}",
];

/// Numbers that look random: the same at each run.
fn random(state: &mut u32) -> usize {
    *state = state.wrapping_mul(1_664_525).wrapping_add(1_013_904_223);
    (*state >> 8) as usize
}

/// A body of these parts, in an order that looks random, of about `len` bytes.
fn mixed(parts: &[&str], len: usize) -> String {
    let mut state = len as u32;
    let mut text = String::new();
    while text.len() < len {
        text.push_str(parts[random(&mut state) % parts.len()]);
    }
    text
}

/// URLs of every kind: short ones, and ones around the sizes at which `decode` takes a larger buffer or needs it again.
fn urls() -> Vec<String> {
    let plain = PLAIN.iter().map(|body| format!("data:a/b,{}", body));
    let base64 = BASE64.iter().map(|body| format!("data:;base64,{}", body));
    let mut urls: Vec<String> = plain.chain(base64).collect();
    let marks = ["%41", "%c3%A9", "%4\n2", "\t", "%", "\u{20ac}", "abcdefgh"];
    let symbols = ["QUJD", "REVG", "Q", "%2B", "%2f", "\n", "%4\t1", " "];
    for len in &[70, 500, 511, 512, 513, 9_000] {
        urls.push(format!("data:,{}#long", "x".repeat(*len)));
        urls.push(format!("data:,{}", mixed(&marks, *len)));
        urls.push(format!("data:image/svg+xml,{}#", mixed(&marks[..3], *len)));
        let clean = "QUJD".repeat(len / 4);
        for end in &["", "QQ#x", "Q", "!#x", "QQ==Q", "Q=", "%3D"] {
            urls.push(format!("data:;base64,{}{}", clean, end));
        }
        let lines = format!("{}\n", "QUJD".repeat(19)).repeat(len / 77 + 1);
        urls.push(format!("data:;base64,{}#{}", lines, lines));
        urls.push(format!("data:;base64,{}", mixed(&symbols, *len)));
    }
    urls
}

/// What is known of a body: its bytes up to a fault, the fault's message, and the fragment.
#[derive(Debug, PartialEq)]
struct Answer {
    bytes: Vec<u8>,
    fault: Option<String>,
    fragment: Option<String>,
}

/// The answer of `decode`, which `decode_to_vec` shares if the body is valid.
fn answer_of(url: &DataUrl) -> Answer {
    let mut bytes = Vec::new();
    let decoded = url.decode(|piece| -> Result<(), Infallible> {
        bytes.extend_from_slice(piece);
        Ok(())
    });
    match (decoded, url.decode_to_vec()) {
        (Ok(fragment), Ok((body, other))) => {
            let fragment = fragment.map(|it| it.to_percent_encoded());
            assert_eq!(other.map(|it| it.to_percent_encoded()), fragment);
            assert!(body == bytes);
            Answer {
                bytes,
                fault: None,
                fragment,
            }
        }
        (Err(DecodeError::InvalidBase64(fault)), Err(other)) => {
            assert_eq!(fault.to_string(), other.to_string());
            Answer {
                bytes,
                fault: Some(fault.to_string()),
                fragment: None,
            }
        }
        _ => panic!("decode and decode_to_vec differ"),
    }
}

/// Reads a body with outputs of these lengths, in turn. Asserts that nothing is written after an output, and that a
/// call after the end says the same again.
fn read_in(url: &DataUrl, mut lens: impl FnMut() -> usize) -> Answer {
    let mut reader = BodyReader::new(url);
    let mut bytes = Vec::new();
    let mut room = [0; 4_096 + 8];
    let fault = loop {
        let (output, after) = room.split_at_mut(lens());
        after[..8].copy_from_slice(b"a marker");
        let read = reader.read_part(output);
        assert_eq!(&after[..8], b"a marker");
        match read {
            Ok(0) => break None,
            Ok(len) => bytes.extend_from_slice(&output[..len]),
            Err(fault) => break Some(fault.to_string()),
        }
    };
    for len in &[1, 8, 4_096] {
        let again = reader.read_part(&mut room[..*len]);
        assert_eq!(again.err().map(|it| it.to_string()), fault);
    }
    let fragment = reader.fragment().map(|it| it.to_percent_encoded());
    Answer {
        bytes,
        fault,
        fragment,
    }
}

#[test]
fn outputs_of_every_size() {
    for text in urls() {
        let url = DataUrl::process(&text).unwrap();
        let answer = answer_of(&url);
        for len in (1..=70).chain(511..=513).chain(Some(4_096)) {
            assert_eq!(read_in(&url, || len), answer, "{} bytes: {:?}", len, text);
        }
    }
}

/// A small output leaves bytes behind that a larger one takes.
#[test]
fn outputs_of_mixed_sizes() {
    for text in urls() {
        let url = DataUrl::process(&text).unwrap();
        let answer = answer_of(&url);
        for seed in 0..8 {
            let mut state = seed;
            let lens = || match random(&mut state) % 4 {
                0 => 1 + random(&mut state) % 40,
                _ => 1 + random(&mut state) % 10,
            };
            assert_eq!(read_in(&url, lens), answer, "{:?}", text);
        }
    }
}

/// The fragment comes with the end, and not before all bytes were returned.
#[test]
fn fragments_come_with_the_end() {
    let url = DataUrl::process("data:,%41%42%43%44#f").unwrap();
    let mut reader = BodyReader::new(&url);
    let mut output = [0; 1];
    for byte in b"ABCD" {
        assert!(reader.fragment().is_none());
        assert_eq!(reader.read_part(&mut []).unwrap(), 0);
        assert_eq!(reader.read_part(&mut output).unwrap(), 1);
        assert_eq!(output[0], *byte);
    }
    assert_eq!(reader.read_part(&mut output).unwrap(), 0);
    assert_eq!(reader.fragment().unwrap().to_percent_encoded(), "f");
}

/// A fragment that outlives the reader and the URL, but not the text.
fn fragment_of(text: &str) -> Option<String> {
    let fragment = {
        let url = DataUrl::process(text).ok()?;
        let mut reader = BodyReader::new(&url);
        while reader.read_part(&mut [0; 16]).ok()? > 0 {}
        reader.fragment()
    };
    fragment.map(|it| it.to_percent_encoded())
}

#[test]
fn fragments_borrow_the_text() {
    assert_eq!(fragment_of("data:,x#a b").unwrap(), "a%20b");
    assert_eq!(fragment_of("data:,x#").unwrap(), "");
    assert_eq!(fragment_of("data:,x"), None);
    assert_eq!(fragment_of("data:;base64,QQ#x").unwrap(), "x");
    assert_eq!(fragment_of("data:;base64,Q!#x"), None);
}

#[test]
fn bytes_before_a_fault_come_first() {
    let url = DataUrl::process("data:;base64,QUJDREVG!QUJD#x").unwrap();
    for len in 1..20 {
        let mut reader = BodyReader::new(&url);
        let mut output = [0; 20];
        let mut bytes = Vec::new();
        while bytes.len() < 6 {
            let written = reader.read_part(&mut output[..len]).unwrap();
            bytes.extend_from_slice(&output[..written]);
        }
        assert_eq!(bytes, b"ABCDEF");
        for _ in 0..3 {
            let fault = reader.read_part(&mut output[..len]).unwrap_err();
            assert_eq!(fault.to_string(), "symbol with codepoint 33 not expected");
            assert!(reader.fragment().is_none());
        }
    }
}

/// Asserts that an error of reading holds the fault with this message.
fn assert_is_fault(error: &io::Error, message: &str) {
    assert_eq!(error.kind(), ErrorKind::InvalidData);
    assert_eq!(error.to_string(), message);
    assert!(error.get_ref().unwrap().is::<InvalidBase64>());
}

#[test]
fn readers_of_std() {
    for text in urls() {
        let url = DataUrl::process(&text).unwrap();
        let answer = answer_of(&url);
        let (mut read, mut copied) = (Vec::new(), Vec::new());
        let mut reader = BodyReader::new(&url);
        let ended = [
            reader.read_to_end(&mut read),
            io::copy(&mut BodyReader::new(&url), &mut copied).map(|len| len as usize),
        ];
        assert!(read == answer.bytes && copied == answer.bytes, "{:?}", text);
        for ended in &ended {
            match (ended, &answer.fault) {
                (Ok(len), None) => assert_eq!(*len, answer.bytes.len()),
                (Err(error), Some(message)) => assert_is_fault(error, message),
                _ => panic!("{:?}: {:?}", text, ended),
            }
        }
        let fragment = reader.fragment().map(|it| it.to_percent_encoded());
        assert_eq!(fragment, answer.fragment, "{:?}", text);
    }
}

#[test]
fn a_reader_of_std_that_has_failed_fails_again() {
    let url = DataUrl::process("data:;base64,QUJDQ!").unwrap();
    let mut reader = BodyReader::new(&url);
    let mut output = [0; 3];
    reader.read_exact(&mut output).unwrap();
    assert_eq!(&output, b"ABC");
    for _ in 0..3 {
        let error = reader.read(&mut output).unwrap_err();
        assert_is_fault(&error, "symbol with codepoint 33 not expected");
    }
    assert_eq!(reader.read(&mut []).unwrap(), 0);
}

/// A reader goes where any `Read` goes, also to another thread.
#[test]
fn readers_are_passed_on() {
    fn is_shared<T: Send + Sync>() {}
    is_shared::<BodyReader<'_>>();
    let url = DataUrl::process("data:text/csv,a%0Ab%0A").unwrap();
    let reader: Box<dyn Read> = Box::new(BodyReader::new(&url));
    let mut body = String::new();
    reader
        .chain(Cursor::new("c"))
        .read_to_string(&mut body)
        .unwrap();
    assert_eq!(body, "a\nb\nc");
}

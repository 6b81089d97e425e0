//! Worked examples, with the crate's names. The expected results follow from the standards.

mod level;

use data_url::forgiving_base64::{self, DecodeError, Decoder};
use data_url::mime::Mime;
use data_url::{DataUrl, DataUrlError};
use std::cell::RefCell;

#[test]
fn refusals() {
    for text in ["", "da ta:,x", "date:,x"] {
        let refused = DataUrl::process(text);
        assert!(
            matches!(refused, Err(DataUrlError::NotADataUrl)),
            "{:?}",
            text
        );
    }
    assert!(matches!(
        DataUrl::process("data:#,x"),
        Err(DataUrlError::NoComma)
    ));
}

#[test]
fn mime_types() {
    let mime: Mime = "TEXT/HTML;a=\"b;\\\"c\";d=;e=\"\";f=\u{e9}"
        .parse()
        .unwrap();
    assert!(mime.matches("text", "html") && !mime.matches("text", "plain"));
    assert_eq!(
        (mime.type_.as_str(), mime.subtype.as_str()),
        ("text", "html")
    );
    assert_eq!(mime.get_parameter("a"), Some("b;\"c"));
    assert_eq!(mime.get_parameter("d"), None);
    assert_eq!(mime.get_parameter("e"), Some(""));
    assert_eq!(mime.get_parameter("f"), Some("\u{e9}"));
    assert_eq!(mime.parameters.len(), 3);
    assert_eq!(
        mime.to_string(),
        "text/html;a=\"b;\\\"c\";e=\"\";f=\"\u{e9}\""
    );
    assert_eq!(
        "text".parse::<Mime>().unwrap_err().to_string(),
        "invalid mime type"
    );
}

#[test]
fn debug_texts_are_short() {
    let text = format!("{}!", "QUJD".repeat(10_000));
    let refusal = forgiving_base64::decode_to_vec(text.as_bytes()).unwrap_err();
    assert!(format!("{:?}", refusal).len() < 80);
    let url = format!("data:;base64,{}", text);
    let refusal = DataUrl::process(&url)
        .unwrap()
        .decode_to_vec()
        .err()
        .unwrap();
    assert!(format!("{:?}", refusal).len() < 80);
}

/// A tail of 512 bytes or more is decoded through a larger buffer than a shorter one.
#[test]
fn long_tails_are_decoded_as_short_ones() {
    for len in (490..540).chain([65_000]) {
        for (header, part, end) in [
            ("data:,", "letters", ""),
            ("data:a/b,", "%4\t1\u{e9}%", "%4#1 x  "),
            ("data:;base64,", "QUJD", ""),
            ("data:a/b;base64,", "QU\nJD", "Q%3D= \n#x"),
            ("data:;base64,", "QUJD", "Q!"),
            ("data:;base64,", "Q U J D", "=Q"),
        ] {
            let text = format!("{}{}{}", header, part.repeat(len / part.len()), end);
            let url = DataUrl::process(&text).unwrap();
            let mut bytes = Vec::new();
            let in_parts = url.decode::<_, ()>(|piece| {
                bytes.extend_from_slice(piece);
                Ok(())
            });
            match (url.decode_to_vec(), in_parts) {
                (Ok((body, fragment)), Ok(other)) => {
                    assert!(body == bytes, "{}", text);
                    let encoded = fragment.map(|it| it.to_percent_encoded());
                    assert_eq!(encoded, other.map(|it| it.to_percent_encoded()));
                }
                (Err(refusal), Err(DecodeError::InvalidBase64(other))) => {
                    assert_eq!(refusal.to_string(), other.to_string(), "{}", text);
                }
                _ => panic!("{}", text),
            }
        }
    }
}

#[test]
fn a_decoder_that_has_failed_fails_again() {
    let mut bytes = Vec::new();
    let mut decoder = Decoder::new(|piece: &[u8]| -> Result<(), String> {
        bytes.extend_from_slice(piece);
        Ok(())
    });
    assert!(decoder.feed(b"QUJDQ!QUJD").is_err());
    assert!(decoder.feed(b"QUJD").is_err());
    assert!(decoder.finish().is_err());
    assert_eq!(bytes, b"ABC");
}

/// The pieces of a text that a decoder is fed in parts of a length, up to a call of the closure that returns an
/// error, and how feeding and finishing ended. Asserts that the error ends the call in which it was returned, and
/// that no other call ends.
fn fed_pieces(text: &[u8], part: usize, refused: usize) -> (Vec<Vec<u8>>, Result<(), String>) {
    let pieces = RefCell::new(Vec::new());
    let mut decoder = Decoder::new(|piece: &[u8]| {
        let mut pieces = pieces.borrow_mut();
        pieces.push(piece.to_vec());
        if pieces.len() == refused {
            Err(format!("call {}", refused))
        } else {
            Ok(())
        }
    });
    let mut ended = Ok(());
    for part in text.chunks(part) {
        ended = decoder.feed(part);
        let is_refused = refused > 0 && pieces.borrow().len() == refused;
        assert_eq!(matches!(ended, Err(DecodeError::WriteError(_))), is_refused);
        if ended.is_err() {
            break;
        }
    }
    let ended = ended.and_then(|()| decoder.finish());
    (
        pieces.into_inner(),
        ended.map_err(|error| error.to_string()),
    )
}

/// A part of 512 bytes or more is fed through a larger buffer than a shorter one, and a long one needs that more than
/// once.
#[test]
fn closures_of_a_decoder_that_refuse_each_call() {
    for (text, end) in [
        ("QUJD".to_owned(), Ok(())),
        ("QUI=".to_owned(), Ok(())),
        ("QUJDQQ".to_owned(), Ok(())),
        ("QUJDQ".to_owned(), Err("lone alphabet symbol present")),
        (
            "QUJD!".to_owned(),
            Err("symbol with codepoint 33 not expected"),
        ),
        ("QUJDRUZH".repeat(6_000) + "QQ", Ok(())),
        (
            "QUJDRUZH\n".repeat(6_000) + "Q=",
            Err("lone alphabet symbol present"),
        ),
        (
            "QUJDRUZH".repeat(6_000) + "=Q",
            Err("alphabet symbol present after padding"),
        ),
    ] {
        let wanted = end.map_err(|fault| format!("base64 not valid: {}", fault));
        for part in [1, 3, 511, 512, 20_000, 60_000] {
            if part < 500 && text.len() > 100 {
                continue;
            }
            let (all, ended) = fed_pieces(text.as_bytes(), part, 0);
            assert!(all.iter().all(|piece| !piece.is_empty()));
            assert_eq!(ended, wanted);
            for n in 1..=all.len() {
                let (some, ended) = fed_pieces(text.as_bytes(), part, n);
                assert!(some == all[..n], "the calls up to the refused one");
                assert_eq!(ended, Err(format!("write error: call {}", n)));
            }
        }
    }
}

#[test]
fn the_first_of_equal_names() {
    let pair = |name: &str, value: &str| (name.to_owned(), value.to_owned());
    let mut mime = Mime::new("a", "b");
    mime.parameters = vec![
        pair("c", "1"),
        pair("d", "2"),
        pair("c", "3"),
        pair("d", "4"),
        pair("C", "5"),
    ];
    assert_eq!(mime.get_parameter("c"), Some("1"));
    assert_eq!(mime.get_parameter("d"), Some("2"));
    assert_eq!(mime.get_parameter("C"), Some("5"));
    assert_eq!(mime.get_parameter("e"), None);
    assert_eq!(mime.to_string(), "a/b;c=1;d=2;c=3;d=4;C=5");
}

/// Bodies of every kind; long ones have more than one piece.
fn bodies() -> Vec<String> {
    let escapes: String = (0..9_000).map(|i| format!("%{:02x}b", i % 256)).collect();
    let mut bodies = vec![
        "data:,".to_owned(),
        "data:,%41b\tc#d".to_owned(),
        "data:;base64,QUJDQUI=#x".to_owned(),
        "data:;base64,QUJDQU\nJDQ!JD".to_owned(),
        "data:;base64,QUJDQ".to_owned(),
    ];
    for (head, body) in [
        ("data:,", "x".repeat(50_000)),
        ("data:,", escapes),
        ("data:,", "\u{e9}%\t4\n1".repeat(9_000)),
        ("data:;base64,", "QUJDRUZH\n".repeat(9_000)),
        ("data:;base64,", "QUJDRUZH".repeat(9_000) + "!"),
    ] {
        bodies.push(format!("{}{}#f", head, body));
    }
    bodies
}

/// The pieces of a body up to a call that returns an error, and how decoding ended.
fn pieces(url: &DataUrl, refused: usize) -> (Vec<Vec<u8>>, Result<(), String>) {
    let mut pieces: Vec<Vec<u8>> = Vec::new();
    let ended = url.decode(|piece| {
        pieces.push(piece.to_vec());
        if pieces.len() == refused {
            Err(format!("call {}", refused))
        } else {
            Ok(())
        }
    });
    (pieces, ended.map(drop).map_err(|error| error.to_string()))
}

#[test]
fn closures_that_refuse_each_call() {
    for text in bodies() {
        let url = DataUrl::process(&text).unwrap();
        let (all, ended) = pieces(&url, 0);
        assert!(all
            .iter()
            .all(|piece| !piece.is_empty() && piece.len() <= 8192));
        match url.decode_to_vec() {
            Ok((body, _)) => assert!(ended.is_ok() && all.concat() == body),
            Err(refusal) => assert_eq!(ended, Err(format!("base64 not valid: {}", refusal))),
        }
        for n in 1..=all.len() {
            let (some, ended) = pieces(&url, n);
            assert_eq!(some, all[..n], "the calls up to the refused one");
            assert_eq!(ended, Err(format!("write error: call {}", n)));
        }
    }
}

#[test]
fn closures_with_a_limit() {
    let url = DataUrl::process("data:,Hello%20World!").unwrap();
    for limit in 0..=12 {
        let mut taken = Vec::new();
        let ended = url.decode(|piece| {
            taken.extend_from_slice(piece);
            if taken.len() > limit {
                Err(())
            } else {
                Ok(())
            }
        });
        assert_eq!(ended.is_ok(), limit == 12);
        assert!(b"Hello World!".starts_with(&taken[..]) && taken.len() >= limit.min(12));
    }
}

#[test]
fn a_closure_gets_the_bytes_before_a_fault() {
    let url = DataUrl::process("data:;base64,QUJD!#x").unwrap();
    let mut bytes = Vec::new();
    let ended = url.decode(|piece| -> Result<(), String> {
        bytes.extend_from_slice(piece);
        Ok(())
    });
    assert!(matches!(ended, Err(DecodeError::InvalidBase64(_))));
    assert_eq!(bytes, b"ABC");
    let ended = url.decode(|_| Err("full")).err().unwrap();
    assert_eq!(ended.to_string(), "write error: full");
}

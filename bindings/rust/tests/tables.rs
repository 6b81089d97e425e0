//! Tables of texts and their answers, the texts that begin another one, and inputs of every size. The expected
//! answers follow from the standards.

mod level;

use data_url::forgiving_base64::{self, DecodeError, Decoder};
use data_url::mime::Mime;
use data_url::DataUrl;
use std::convert::Infallible;

/// The record of a header without a valid type.
const DEFAULT: &str = "text/plain;charset=US-ASCII";

const NO_SCHEME: &str = "not a valid data url";
const NO_COMMA: &str = "data url is missing comma delimiting attributes and body";
const NO_TYPE: &str = "invalid mime type";
const PADDING: &str = "base64 not valid: incorrect padding";
const LONE: &str = "base64 not valid: lone alphabet symbol present";
const AFTER_PADDING: &str = "base64 not valid: alphabet symbol present after padding";
const EXCLAMATION: &str = "base64 not valid: symbol with codepoint 33 not expected";

/// Texts, their printed records, the bytes of their bodies before the first fault, and the message of the error, or
/// `#` and the fragment, or nothing.
#[rustfmt::skip]
const URLS: [[&str; 4]; 88] = [
    ["data:,Hello%20World!", DEFAULT, "Hello World!", ""],
    ["\0 DA\tTA:\n,x \u{1f}", DEFAULT, "x", ""],
    ["da ta:,x", "", "", NO_SCHEME],
    ["", "", "", NO_SCHEME],
    ["date:,x", "", "", NO_SCHEME],
    ["data:#,x", "", "", NO_COMMA],
    ["data://test:test/,X", DEFAULT, "X", ""],
    ["data: \t ,a", DEFAULT, "a", ""],
    ["data:,", DEFAULT, "", ""],
    ["DATA:,x", DEFAULT, "x", ""],
    ["data:text/plain;charset=US-ASCII,x", DEFAULT, "x", ""],
    ["data:;,x", "text/plain", "x", ""],
    ["data:a/b,", "a/b", "", ""],
    ["data:,%4\t1", DEFAULT, "A", ""],
    ["data:,%zz%4", DEFAULT, "%zz%4", ""],
    ["data:,%%34\n1", DEFAULT, "%41", ""],
    ["data:,%2541", DEFAULT, "%41", ""],
    ["data:,%25%2541%2525", DEFAULT, "%%41%25", ""],
    ["data:,%\t\t#", DEFAULT, "%", "#"],
    ["data:,%4#1", DEFAULT, "%4", "#1"],
    ["data:a/b;c=?x ,Y", "a/b;c=\"?x%20\"", "Y", ""],
    ["data:?;base64 ,QQ", DEFAULT, "QQ", ""],
    ["data:?;base64,QQ==", DEFAULT, "A", ""],
    ["data:base64,QQ", DEFAULT, "QQ", ""],
    ["data:;charset=x;base64,Y%51%3D=#x y", "text/plain;charset=x", "a", "#x%20y"],
    ["data:;base64,QUJD!", DEFAULT, "ABC", EXCLAMATION],
    ["data:,#a\t`\u{e9}", DEFAULT, "", "#a%60%C3%A9"],
    ["data:,#a%60%C3%A9", DEFAULT, "", "#a%60%C3%A9"],
    ["data:,#", DEFAULT, "", "#"],
    ["data:,#%#\"<>", DEFAULT, "", "#%#%22%3C%3E"],
    ["data:,a%41b", DEFAULT, "aAb", ""],
    ["data:,a%41b#c", DEFAULT, "aAb", "#c"],
    ["data:a/b;c= ?x,Y", "a/b;c=\"%20?x\"", "Y", ""],
    ["data:;base64,", DEFAULT, "", ""],
    ["data:;base64,#", DEFAULT, "", "#"],
    ["data:;base64,=", DEFAULT, "", PADDING],
    ["data:text/html;BASE64 ,QQ", "text/html", "A", ""],
    ["data:text/html; base64,QQ", "text/html", "A", ""],
    ["data:a/b; BASE64 ,QQ", "a/b", "A", ""],
    ["data:a/b?c,d", DEFAULT, "d", ""],
    ["data:text/plain;x=\u{e9},\u{e9}", "text/plain;x=%C3%A9", "\u{e9}", ""],
    ["data:a/b;c=?<\"?>,Y\"", "a/b;c=\"?%3C%22?%3E\"", "Y\"", ""],
    ["data:a/b;c=\"d e\",Y", "a/b;c=\"d e\"", "Y", ""],
    ["data:; charset=x ,y", "text/plain;charset=x", "y", ""],
    ["data:\u{c}a/b,x", "%0ca/b", "x", ""],
    ["data:a/b;c=\u{7f},x", "a/b;c=%7F", "x", ""],
    ["data:text/html,x", "text/html", "x", ""],
    ["data:,x", DEFAULT, "x", ""],
    ["data:,x #f", DEFAULT, "x ", "#f"],
    ["data:,a ?b", DEFAULT, "a ?b", ""],
    ["data: ?,x", DEFAULT, "x", ""],
    ["data:a/b;c=x  ?y,Y", "a/b;c=\"x %20?y\"", "Y", ""],
    ["data:a/b;c= \t?x,Y", "a/b;c=\"%20?x\"", "Y", ""],
    ["data:a/b;c=\" ?\",Y", "a/b;c=\"%20?%22\"", "Y", ""],
    ["data:;base64,Y%0CQ", DEFAULT, "a", ""],
    ["data:;base64,%5", DEFAULT, "", "base64 not valid: symbol with codepoint 37 not expected"],
    ["data:;ba\tse64,QQ", DEFAULT, "A", ""],
    ["data:;base64,QUI=\u{e9}", DEFAULT, "", "base64 not valid: symbol with codepoint 195 not expected"],
    ["data:;base64,QUJDQ#x", DEFAULT, "ABC", LONE],
    ["data:;base64,!#x", DEFAULT, "", EXCLAMATION],
    ["data:;base64,QUJDREVGR0g=", DEFAULT, "ABCDEFGH", ""],
    ["data:A/B;C=D,x\n", "a/b;c=D", "x", ""],
    ["data:text/plain;charset=x;base64,QQ", "text/plain;charset=x", "A", ""],
    ["data:a/b;c=base64,QQ", "a/b;c=base64", "QQ", ""],
    ["data:a/b;c=BASE64,QQ", "a/b;c=BASE64", "QQ", ""],
    ["data:a/b;c=xbase64,QQ", "a/b;c=xbase64", "QQ", ""],
    ["data:a/b;base64=base64,QQ", "a/b;base64=base64", "QQ", ""],
    ["data:a/b;base64;c=d,QQ", "a/b;c=d", "QQ", ""],
    ["data:a/b;c=d;base64;base64,QQ", "a/b;c=d", "A", ""],
    ["data:a/b;c=,QQ", "a/b", "QQ", ""],
    ["data:a/b;c=;base64,QQ", "a/b", "A", ""],
    ["data:a/b;=d,QQ", "a/b", "QQ", ""],
    ["data:a/b;c==d,QQ", "a/b;c=\"=d\"", "QQ", ""],
    ["data:a/b;c=\"d\",QQ", "a/b;c=d", "QQ", ""],
    ["data:a/b;C=d,QQ", "a/b;c=d", "QQ", ""],
    ["data:a/b;c=D;base64,QQ", "a/b;c=D", "A", ""],
    ["data:a/b;c=d ;base64,QQ", "a/b;c=d", "A", ""],
    ["data:a/b;c=d;,QQ", "a/b;c=d", "QQ", ""],
    ["data:a/b;c=d;e=f,QQ", "a/b;c=d;e=f", "QQ", ""],
    ["data:a/b;c=d;c=e;base64,QQ", "a/b;c=d", "A", ""],
    ["data:a/b;c;d=e,QQ", "a/b;d=e", "QQ", ""],
    ["data:a/b;c=d/e,QQ", "a/b;c=\"d/e\"", "QQ", ""],
    ["data:a/b;c/d=e,QQ", "a/b", "QQ", ""],
    ["data:a/b;+-.9=_Z+-.9;base64,QQ", "a/b;+-.9=_Z+-.9", "A", ""],
    ["data:a/;c=d,x", DEFAULT, "x", ""],
    ["data:/b;c=d,x", DEFAULT, "x", ""],
    ["data:a/b;c=d!e;base64,QQ", "a/b;c=d!e", "A", ""],
    ["data:a_b/c;d=e,QQ", "a_b/c;d=e", "QQ", ""],
];

/// Texts, and how their records are printed, or the message for a text that has no record.
#[rustfmt::skip]
const MIME_TYPES: [[&str; 2]; 42] = [
    ["TEXT/HTML;a=\"b;c\";d=;e=\"\"", "text/html;a=\"b;c\";e=\"\""],
    ["x/x;a=1;A=2", "x/x;a=1"],
    ["x/x;AbC=1;aBc=2", "x/x;abc=1"],
    ["x/x;a=\"b\"\u{100}", "x/x;a=b"],
    ["x/x;a=\"b\"c;d=e", "x/x;a=b;d=e"],
    ["x/x;a=\"b;\u{100}\"", "x/x"],
    ["x/x;a=\"\\", "x/x;a=\"\\\\\""],
    [" a/b ; c=d ", "a/b;c=d"],
    ["x/x;a=\"q\\\"r\";b=\"\\a\";c=d\"e;f=\"g", "x/x;a=\"q\\\"r\";b=a;c=\"d\\\"e\";f=g"],
    ["x/x;=q;a=\"1;b=2", "x/x;a=\"1;b=2\""],
    ["x/x;\u{e9}=\"a;b=c\";d=e", "x/x;d=e"],
    ["x/x;a;b=;c==d", "x/x;c=\"=d\""],
    ["x/x; a = b", "x/x"],
    ["x/x;a=\u{100};a=2", "x/x;a=2"],
    ["a/b;c=\"?x%20\"", "a/b;c=\"?x%20\""],
    ["a/b;c=\" ?x\"", "a/b;c=\" ?x\""],
    ["a/b;c=\"?%3C%22?%3E\"", "a/b;c=\"?%3C%22?%3E\""],
    ["a/b;c=\"d e\"", "a/b;c=\"d e\""],
    ["x/x;a=1;b=2", "x/x;a=1;b=2"],
    ["x/x;b=2;a=1", "x/x;b=2;a=1"],
    ["x/x;a=\u{7f};b=c", "x/x;b=c"],
    ["x/x;a=\"\u{7f}\";b=c", "x/x;b=c"],
    ["x/x;a=\u{80}", "x/x;a=\"\u{80}\""],
    ["x/x;a=\u{ff}", "x/x;a=\"\u{ff}\""],
    ["x/x;a=\u{100}", "x/x"],
    ["x/x;a=\"\t \u{1f}\"", "x/x"],
    ["x/x;a=\"\t ~\"", "x/x;a=\"\t ~\""],
    ["x/x;a\u{7f}=b", "x/x"],
    ["x/x;a\u{80}=b", "x/x"],
    ["x/x;a=v\tv", "x/x;a=\"v\tv\""],
    ["x/x;a=v ;b=c", "x/x;a=v;b=c"],
    ["\t\r\nx/x\n", "x/x"],
    ["\u{c}x/x", NO_TYPE],
    ["x/x\u{c}", NO_TYPE],
    ["", NO_TYPE],
    ["a", NO_TYPE],
    ["a/", NO_TYPE],
    ["/b", NO_TYPE],
    ["a/b c", NO_TYPE],
    ["a/b/c", NO_TYPE],
    ["\u{e9}/b", NO_TYPE],
    ["a/\u{7f}", NO_TYPE],
];

/// Texts, the bytes before their first fault, and the message for that fault, which is empty for a valid text. Texts
/// end after each number of pending symbols, with each number of `=`.
#[rustfmt::skip]
const BASE64: [[&str; 3]; 37] = [
    ["", "", ""],
    ["YR", "a", ""],
    ["Y Q = =", "a", ""],
    ["YW J=", "ab", ""],
    ["YWJ=", "ab", ""],
    ["Q\u{c}Q", "A", ""],
    [" \t\n\u{c}\r", "", ""],
    ["QUJD", "ABC", ""],
    ["QUJDQUI", "ABCAB", ""],
    ["QUJDQUJD", "ABCABC", ""],
    ["Q U J D", "ABC", ""],
    ["QUI", "AB", ""],
    ["QUI=", "AB", ""],
    ["QQ", "A", ""],
    ["QQ==", "A", ""],
    ["=", "", PADDING],
    ["==", "", PADDING],
    ["===", "", PADDING],
    ["QQ=", "", PADDING],
    ["QQ===", "", PADDING],
    ["QUI==", "", PADDING],
    ["QUI===", "", PADDING],
    ["QUJD=", "ABC", PADDING],
    ["QUJD==", "ABC", PADDING],
    ["QUJDQUI==", "ABC", PADDING],
    ["ab=", "", PADDING],
    ["a", "", LONE],
    ["Q=", "", LONE],
    ["Q==", "", LONE],
    ["Q===", "", LONE],
    ["ab==c", "", AFTER_PADDING],
    ["=!", "", EXCLAMATION],
    ["!", "", EXCLAMATION],
    ["QUJD!", "ABC", EXCLAMATION],
    ["QUJD!QUJD", "ABC", EXCLAMATION],
    ["QUJDQ!", "ABC", EXCLAMATION],
    ["QUJDQUJDQUJDQUJDQUJD!", "ABCABCABCABCABC", EXCLAMATION],
];

/// Asserts the record, the body and the fragment of a text, or the message of its error.
fn assert_url(row: [&str; 4]) {
    let [text, record, body, answer] = row;
    let about = text.get(..60).unwrap_or(text);
    let url = match DataUrl::process(text) {
        Ok(url) => url,
        Err(error) => {
            return assert_eq!(("", "", error.to_string()), (record, body, answer.into()))
        }
    };
    let mut bytes = Vec::new();
    let ended = url.decode(|piece| -> Result<(), Infallible> {
        bytes.extend_from_slice(piece);
        Ok(())
    });
    let ended = ended.map(|fragment| fragment.map(|it| format!("#{}", it.to_percent_encoded())));
    let ended = ended.map_or_else(|error| error.to_string(), Option::unwrap_or_default);
    assert!(bytes == body.as_bytes(), "{}: its body", about);
    assert!(ended == answer, "{}: {}", about, ended);
    match url.decode_to_vec() {
        Ok((whole, _)) => assert!(whole == bytes, "{}: its whole body", about),
        Err(fault) => assert_eq!(format!("base64 not valid: {}", fault), answer),
    }
    assert!(
        url.mime_type().to_string() == record,
        "{}: its record",
        about
    );
    assert_eq!(record.parse().ok().as_ref(), Some(url.mime_type()));
}

/// Asserts how a text's record is printed, and that the printed text gives the same record, or the message of its
/// error.
fn assert_mime(text: &str, wanted: &str) {
    let about = text.get(..60).unwrap_or(text);
    match text.parse::<Mime>() {
        Ok(mime) => {
            let printed = mime.to_string();
            assert!(printed == wanted, "{}", about);
            assert!(printed.parse::<Mime>().unwrap() == mime, "{}", about);
        }
        Err(error) => assert_eq!(error.to_string(), wanted),
    }
}

/// Asserts the bytes of a text before its first fault, which is fed in these parts, and the message of that fault.
fn assert_fed(parts: &[&[u8]], bytes: &str, message: &str) {
    let mut fed = Vec::new();
    let mut decoder = Decoder::new(|piece: &[u8]| -> Result<(), Infallible> {
        fed.extend_from_slice(piece);
        Ok(())
    });
    let ended = parts.iter().try_for_each(|part| decoder.feed(part));
    let ended = ended.and_then(|()| decoder.finish());
    let ended = ended.map_or_else(
        |error: DecodeError<Infallible>| error.to_string(),
        |()| String::new(),
    );
    assert_eq!(ended, message);
    assert!(fed == bytes.as_bytes());
}

/// Asserts the bytes of a whole text before its first fault, and the message of that fault.
fn assert_base64(text: &str, bytes: &str, message: &str) {
    match forgiving_base64::decode_to_vec(text.as_bytes()) {
        Ok(whole) => assert!(whole == bytes.as_bytes() && message.is_empty()),
        Err(fault) => assert_eq!(format!("base64 not valid: {}", fault), message),
    }
    assert_fed(&[text.as_bytes()], bytes, message);
}

#[test]
fn urls() {
    URLS.iter().for_each(|row| assert_url(*row));
}

/// Headers that name no type, that name the one which stands for these, and that name one which is nearly the same.
/// The body says whether it is base64.
#[test]
fn headers_around_the_default_type() {
    #[rustfmt::skip]
    let headers = [
        ["", DEFAULT],
        [":", DEFAULT],
        [";", "text/plain"],
        ["text/plain;charset=US-ASCII", DEFAULT],
        ["TEXT/PLAIN;CHARSET=US-ASCII", DEFAULT],
        ["text/plain;charset=\"US-ASCII\"", DEFAULT],
        [";charset=US-ASCII", DEFAULT],
        [";charset=x", "text/plain;charset=x"],
        [";CHARSET=US-ASCIJ", "text/plain;charset=US-ASCIJ"],
        ["text/plain;charset=us-ascii", "text/plain;charset=us-ascii"],
        ["text/plain;charset=US-ASCII;a=b", "text/plain;charset=US-ASCII;a=b"],
        ["text/plain;charset=US-ASCI", "text/plain;charset=US-ASCI"],
        ["text/plain;charsex=US-ASCII", "text/plain;charsex=US-ASCII"],
        ["text/plaim;charset=US-ASCII", "text/plaim;charset=US-ASCII"],
        ["next/plain;charset=US-ASCII", "next/plain;charset=US-ASCII"],
        ["text/plain", "text/plain"],
        ["a/b;c=:", "a/b;c=\":\""],
    ];
    for scheme in ["data:", "DATA:", "\tdA\nta:"] {
        for [header, record] in headers {
            assert_url([&format!("{}{},QQ", scheme, header), record, "QQ", ""]);
            let base64 = format!("{}{};base64", scheme, header);
            assert_url([&format!("{},QQ", base64), record, "A", ""]);
            assert_url([&format!("{},#:,", base64), record, "", "#:,"]);
        }
    }
    for text in ["data:,", "DATA:,", "data::,", "data:;base64,"] {
        assert_url([text, DEFAULT, "", ""]);
    }
}

#[test]
fn mime_types() {
    MIME_TYPES
        .iter()
        .for_each(|[text, wanted]| assert_mime(text, wanted));
}

/// Each text as a whole, byte by byte, and in two parts.
#[test]
fn base64() {
    for [text, bytes, message] in BASE64 {
        assert_base64(text, bytes, message);
        assert_fed(
            &text.as_bytes().chunks(1).collect::<Vec<_>>(),
            bytes,
            message,
        );
        for at in 0..=text.len() {
            let (front, back) = text.as_bytes().split_at(at);
            assert_fed(&[front, back], bytes, message);
        }
    }
    let unexpected = "base64 not valid: symbol with codepoint 255 not expected";
    assert_fed(&[&[255]], "", unexpected);
    assert_base64(&"=".repeat(256), "", PADDING);
    assert_base64(&("QQ".to_owned() + &"=".repeat(258)), "", PADDING);
}

/// Each beginning of a text with a parameter, base64 that contains escapes, and a fragment.
#[test]
fn beginnings() {
    let text = "data:;charset=x;base64,Y%51%3D=#x y";
    let record = "text/plain;charset=x";
    let percent = "base64 not valid: symbol with codepoint 37 not expected";
    for len in 0..text.len() {
        let [record, body, answer] = match len {
            0..=4 => ["", "", NO_SCHEME],
            5..=22 => ["", "", NO_COMMA],
            23 => [record, "", ""],
            24 => [record, "", LONE],
            27 | 31 => [record, "a", ""],
            30 => [record, "", PADDING],
            32 => [record, "a", "#"],
            33 | 34 => [record, "a", "#x"],
            _ => [record, "", percent],
        };
        assert_url([&text[..len], record, body, answer]);
    }
}

#[test]
fn each_mark_of_a_token() {
    for mark in "!#$%&'*+-.^_`|~".chars() {
        let text = format!("{0}/{0};{0}={0}", mark);
        assert_mime(&text, &text);
    }
}

#[test]
fn each_mark_of_no_token() {
    for mark in "(),/:<>?@[]{}".chars() {
        let quoted = format!("x/x;a=\"v{}\";c=d", mark);
        assert_mime(&format!("x/x;a=v{0};b{0}=v;c=d", mark), &quoted);
        assert_mime(&format!("x{}/x", mark), NO_TYPE);
    }
}

/// The powers of two up to 1 MiB, and a size over 16 MiB.
fn sizes() -> impl Iterator<Item = usize> {
    (0..21).map(|power| 1 << power).chain([20 << 20])
}

#[test]
fn urls_of_every_size() {
    for size in sizes() {
        let record = "a/b;c=".to_owned() + &"d".repeat(size);
        let body = "e".repeat(size);
        let fragment = "#".to_owned() + &"f".repeat(size);
        let text = format!("data:{},{}{}", record, body, fragment);
        assert_url([&text, &record, &body, &fragment]);
        assert_mime(&record, &record);
    }
}

#[test]
fn types_of_every_size() {
    for size in sizes() {
        let text = "d".repeat(size) + "/b";
        assert_mime(&text, &text);
        assert!(Mime::new(&text[..size], "b").to_string() == text);
    }
}

#[test]
fn base64_of_every_size() {
    for size in sizes() {
        let text = "QUJD".repeat(size / 4 + 1);
        let bytes = "ABC".repeat(size / 4 + 1);
        assert_base64(&text, &bytes, "");
        assert_url([&format!("data:;base64,{}", text), DEFAULT, &bytes, ""]);
    }
    assert_base64(&"Q U J D".repeat(1000), &"ABC".repeat(1000), "");
}

#[test]
fn runs() {
    let percents = "%".repeat(10_000);
    assert_url([&format!("data:,{}", percents), DEFAULT, &percents, ""]);
    let tabs = "\t".repeat(1000);
    assert_url([&format!("d{}ata:,x", tabs.repeat(10)), DEFAULT, "x", ""]);
    let mixed = format!("%{}", tabs).repeat(1000);
    assert_url([
        &format!("data:,x{}y", mixed),
        DEFAULT,
        &format!("x{}y", "%".repeat(1000)),
        "",
    ]);
    let quoted = format!("x/x;a=\"{}", "\\".repeat(10_001));
    assert_mime(&quoted, &format!("{}\\\"", quoted));
    assert_mime(&format!("x/x{}", ";".repeat(10_000)), "x/x");
}

#[test]
fn long_records_are_asked_for_twice() {
    let name = "n".repeat(1000);
    let text = format!("a/b;{}=v", name);
    assert_mime(&text, &text);
    assert_url([
        &format!("data:{},x#{}", text, name),
        &text,
        "x",
        &format!("#{}", name),
    ]);
}

#[test]
fn many_parameters() {
    for count in [1000, 5000] {
        let numbers = (1..=count).map(|number| format!(";p{}=v", number));
        let text = "x/x".to_owned() + &numbers.collect::<String>();
        assert_mime(&text, &text);
        assert_url([&format!("data:{},x", text), &text, "x", ""]);
    }
}

//! Checks every vector of the folder `vectors` over the library.

mod json;
mod level;

use data_url::forgiving_base64::{self, DecodeError, Decoder, InvalidBase64};
use data_url::mime::Mime;
use data_url::{DataUrl, DataUrlError};
use json::Json;
use std::convert::Infallible;
use std::fs;
use std::path::Path;

/// The expected result of a vector, without its input.
type Answer = Vec<(String, Json)>;

fn pair(key: &str, value: Json) -> (String, Json) {
    (key.to_owned(), value)
}

fn text(text: &str) -> Json {
    Json::Text(text.to_owned())
}

fn hex(bytes: &[u8]) -> Json {
    Json::Text(bytes.iter().map(|byte| format!("{byte:02x}")).collect())
}

fn refused(why: &str) -> Answer {
    vec![pair("refusal", text(why))]
}

/// A fault of base64 and the bytes before it.
fn fault(refusal: &InvalidBase64, before: &[u8]) -> Answer {
    let line = refusal.to_string();
    let kind = match line.as_str() {
        "alphabet symbol present after padding" => "symbol after padding",
        "lone alphabet symbol present" => "lone symbol",
        "incorrect padding" => "padding",
        _ => "unexpected symbol",
    };
    let mut answer = vec![pair("fault", text(kind))];
    if kind == "unexpected symbol" {
        let byte = line.split(' ').nth(3).expect("the byte");
        answer.push(pair("byte", Json::Number(byte.parse().expect("a number"))));
    }
    answer.push(pair("before", hex(before)));
    answer
}

fn url(input: &str) -> Answer {
    let url = match DataUrl::process(input) {
        Ok(url) => url,
        Err(DataUrlError::NotADataUrl) => return refused("no scheme"),
        Err(DataUrlError::NoComma) => return refused("no comma"),
    };
    let mut answer = vec![pair("mime", text(&url.mime_type().to_string()))];
    let mut body = Vec::new();
    let ended = url.decode(|piece| -> Result<(), Infallible> {
        body.extend_from_slice(piece);
        Ok(())
    });
    match ended {
        Ok(fragment) => {
            let fragment = fragment.map_or(Json::Null, |it| text(&it.to_percent_encoded()));
            answer.extend([pair("body", hex(&body)), pair("fragment", fragment)]);
        }
        Err(DecodeError::InvalidBase64(refusal)) => answer.extend(fault(&refusal, &body)),
        Err(DecodeError::WriteError(never)) => match never {},
    }
    answer
}

fn mime(input: &str) -> Answer {
    let Ok(mime) = input.parse::<Mime>() else {
        return refused("no MIME type");
    };
    let parameters = mime.parameters.iter();
    let parameters = parameters.map(|(name, value)| Json::List(vec![text(name), text(value)]));
    vec![
        pair("type", text(&mime.type_)),
        pair("subtype", text(&mime.subtype)),
        pair("parameters", Json::List(parameters.collect())),
        pair("printed", text(&mime.to_string())),
    ]
}

/// Feeds a text in these parts. Returns the bytes, and how it ended.
fn fed(parts: &[&[u8]]) -> (Vec<u8>, Result<(), DecodeError<Infallible>>) {
    let mut bytes = Vec::new();
    let mut decoder = Decoder::new(|piece: &[u8]| {
        bytes.extend_from_slice(piece);
        Ok(())
    });
    let ended = parts.iter().try_for_each(|part| decoder.feed(part));
    let ended = ended.and_then(|()| decoder.finish());
    (bytes, ended)
}

/// The result of decoding a text of base64 in parts.
fn base64_in(parts: &[&[u8]]) -> Answer {
    match fed(parts) {
        (bytes, Ok(())) => vec![pair("bytes", hex(&bytes))],
        (bytes, Err(DecodeError::InvalidBase64(refusal))) => fault(&refusal, &bytes),
        (_, Err(DecodeError::WriteError(never))) => match never {},
    }
}

/// The result of decoding a text of base64. It is the same as a whole, byte by byte, and in every two pieces.
fn base64(input: &str) -> Answer {
    let input = input.as_bytes();
    let whole = base64_in(&[input]);
    let bytes: Vec<&[u8]> = input.chunks(1).collect();
    assert_eq!(base64_in(&bytes), whole, "byte by byte");
    for cut in 0..=input.len() {
        let (front, back) = input.split_at(cut);
        assert_eq!(base64_in(&[front, back]), whole, "cut at {}", cut);
    }
    match forgiving_base64::decode_to_vec(input) {
        Ok(bytes) => assert_eq!(vec![pair("bytes", hex(&bytes))], whole),
        Err(refusal) => assert_eq!(fault(&refusal, &[])[0], whole[0]),
    }
    whole
}

/// Checks each file of a folder, and returns how many vectors there were.
fn check(folder: &str, answer: fn(&str) -> Answer) -> usize {
    let folder = Path::new(env!("CARGO_MANIFEST_DIR"))
        .join("../../vectors")
        .join(folder);
    let mut count = 0;
    for file in fs::read_dir(&folder).expect("the folder of the vectors") {
        let path = file.expect("a file").path();
        let vectors = Json::read(&fs::read_to_string(&path).expect("a text"));
        for vector in vectors.list() {
            let input = vector.get("input").expect("an input").text();
            let mut given = answer(input);
            given.insert(0, pair("input", text(input)));
            assert_eq!(&Json::Object(given), vector, "{}", path.display());
            count += 1;
        }
    }
    count
}

#[test]
fn every_vector() {
    let count = check("url", url) + check("mime", mime) + check("base64", base64);
    println!("{count} vectors");
    assert!(count >= 2000, "only {} vectors", count);
}

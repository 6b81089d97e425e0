//! Programs that were written for the crate `data-url`, unchanged.

mod level;

use data_url::forgiving_base64::{DecodeError, Decoder, InvalidBase64};
use data_url::mime::{Mime, MimeParsingError};
use data_url::{DataUrl, DataUrlError, FragmentIdentifier};
use std::error::Error;

/// An image's bytes, by its type's fields.
fn image(text: &str) -> Result<Option<Vec<u8>>, Box<dyn Error>> {
    let url = DataUrl::process(text)?;
    let mime = url.mime_type();
    if mime.type_ == "image" && ["png", "gif"].contains(&mime.subtype.as_str()) {
        return Ok(Some(url.decode_to_vec()?.0));
    }
    Ok(None)
}

#[test]
fn fields_of_a_type() {
    assert_eq!(
        image("data:image/png;base64,QUJD").unwrap(),
        Some(b"ABC".to_vec())
    );
    assert_eq!(image("data:text/png;base64,QUJD").unwrap(), None);
    assert!(image("data:").is_err() && image("data:image/png;base64,Q").is_err());
}

/// A content type without one of its parameters, by iterating over them and by a struct literal.
fn without_charset(mime: &Mime) -> Mime {
    let mut parameters = Vec::new();
    for (name, value) in &mime.parameters {
        if name != "charset" {
            parameters.push((name.clone(), value.clone()));
        }
    }
    Mime {
        type_: mime.type_.clone(),
        subtype: mime.subtype.clone(),
        parameters,
    }
}

#[test]
fn parameters_and_struct_literals() {
    let mime: Mime = "text/html;charset=x;a=\"b c\"".parse().unwrap();
    assert_eq!(without_charset(&mime).to_string(), "text/html;a=\"b c\"");
    assert_eq!(mime, mime.clone());
    assert_eq!(mime.get_parameter("charset"), Some("x"));
    assert_eq!(mime.get_parameter(&String::from("a")), Some("b c"));
    assert!(Mime::new("text", "html").matches("text", "html"));
    let by_hand = Mime {
        type_: "a b".to_owned(),
        subtype: String::new(),
        parameters: vec![(String::new(), "\u{e9}".to_owned())],
    };
    assert_eq!(by_hand.to_string(), "a b/;=\"\u{e9}\"");
}

/// A fragment that outlives the URL, but not the text.
fn fragment_of(text: &str) -> Option<FragmentIdentifier<'_>> {
    let url = DataUrl::process(text).ok()?;
    url.decode(|_| Ok::<(), ()>(())).ok()?
}

#[test]
fn fragments_borrow_the_text() {
    let fragment = fragment_of("data:,#a\t`\u{e9} b \n");
    assert_eq!(fragment.unwrap().to_percent_encoded(), "a%60%C3%A9%20b");
    assert!(fragment_of("data:,x").is_none());
    assert_eq!(fragment_of("data:,x#").unwrap().to_percent_encoded(), "");
}

#[test]
fn fragments_of_any_length() {
    for (part, encoded) in [("a", "a"), ("\u{e9}", "%C3%A9"), ("a b\t`", "a%20b%60")] {
        for count in [
            1, 84, 85, 86, 128, 255, 256, 257, 765, 766, 767, 768, 70_000,
        ] {
            let url = format!("data:,#{}x", part.repeat(count));
            let fragment = fragment_of(&url).unwrap().to_percent_encoded();
            assert_eq!(fragment, format!("{}x", encoded.repeat(count)));
        }
    }
    let letters = format!("data:,#{}", "a".repeat(70_000));
    let encoded = fragment_of(&letters).unwrap().to_percent_encoded();
    assert!(encoded.capacity() < 70_100);
}

#[test]
fn printed_types() {
    let url = DataUrl::process("data:A/B;C=D,x").unwrap();
    assert_eq!(url.mime_type().to_string(), "a/b;c=D");
    assert_eq!(format!("{}", url.mime_type()), "a/b;c=D");
}

/// A decoder that is fed in parts, with `?` over its errors.
fn decoded(parts: &[&str]) -> Result<Vec<u8>, DecodeError<&'static str>> {
    let mut bytes = Vec::new();
    let mut decoder = Decoder::new(|piece: &[u8]| {
        if bytes.len() + piece.len() > 6 {
            return Err("full");
        }
        bytes.extend_from_slice(piece);
        Ok(())
    });
    for part in parts {
        decoder.feed(part.as_bytes())?;
    }
    decoder.finish()?;
    Ok(bytes)
}

#[test]
fn decoders() {
    assert_eq!(decoded(&["Q", "UJ", "DQUI", "="]).unwrap(), b"ABCAB");
    assert!(matches!(
        decoded(&["QUJD", "QUJDQQ"]),
        Err(DecodeError::WriteError("full"))
    ));
    assert!(matches!(
        decoded(&["QUJD", "!"]),
        Err(DecodeError::InvalidBase64(_))
    ));
}

fn is_error<E: Error + Send + Sync + 'static>() {}

fn is_shared<T: Send + Sync>() {}

#[test]
fn traits() {
    is_error::<DataUrlError>();
    is_error::<InvalidBase64>();
    is_error::<MimeParsingError>();
    is_error::<DecodeError<std::io::Error>>();
    is_shared::<DataUrl<'_>>();
    is_shared::<FragmentIdentifier<'_>>();
    let refusal: Result<Mime, MimeParsingError> = "a".parse();
    assert_eq!(format!("{:?}", refusal), "Err(MimeParsingError(()))");
}

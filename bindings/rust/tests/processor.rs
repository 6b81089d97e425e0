//! The first call on this processor: it panics if the processor is older than the library needs, and says so.
//! `processors/check` runs these tests on old processors.
#![cfg(target_arch = "x86_64")]

use data_url::forgiving_base64::{self, Decoder};
use data_url::mime::Mime;
use data_url::DataUrl;
use std::panic::catch_unwind;

const MESSAGE: &str =
    "data-url: this processor has no SSE4.2 or no POPCNT, which the library needs (x86-64-v2)";

/// A call that is the first one of a program, and what it returns.
struct First {
    name: &'static str,
    call: fn() -> String,
    result: &'static str,
}

const CALLS: [First; 4] = [
    First {
        name: "process",
        call: || {
            let url = DataUrl::process("data:a/b;base64,QUJD#x").unwrap();
            let (body, fragment) = url.decode_to_vec().unwrap();
            let fragment = fragment.unwrap().to_percent_encoded();
            format!("{} {:?} {}", url.mime_type(), body, fragment)
        },
        result: "a/b [65, 66, 67] x",
    },
    First {
        name: "from_str",
        call: || "a/b;c=d".parse::<Mime>().unwrap().to_string(),
        result: "a/b;c=d",
    },
    First {
        name: "decode_to_vec",
        call: || format!("{:?}", forgiving_base64::decode_to_vec(b"QUJD").unwrap()),
        result: "[65, 66, 67]",
    },
    First {
        name: "Decoder",
        call: || {
            let mut body = Vec::new();
            let mut decoder = Decoder::new(|bytes: &[u8]| {
                body.extend_from_slice(bytes);
                Ok::<(), ()>(())
            });
            decoder.feed(b"QUJD").unwrap();
            decoder.finish().unwrap();
            format!("{:?}", body)
        },
        result: "[65, 66, 67]",
    },
];

#[test]
fn the_first_call_says_whether_the_processor_is_too_old() {
    let is_new = is_x86_feature_detected!("sse4.2") && is_x86_feature_detected!("popcnt");
    for First { name, call, result } in &CALLS {
        match catch_unwind(call) {
            Ok(given) => assert!(is_new && given == *result, "{}: {}", name, given),
            Err(told) => {
                let told = told.downcast_ref::<&str>().copied();
                assert!(!is_new && told == Some(MESSAGE), "{}: {:?}", name, told);
            }
        }
    }
}

//! A crate that uses `data-url`.

/// The body of a URL.
pub fn body(url: &data_url::DataUrl) -> Option<Vec<u8>> {
    Some(url.decode_to_vec().ok()?.0)
}

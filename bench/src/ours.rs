// The calls of a library of this repository, as `data_url_bench` exports them. It is included where `symbol!` makes
// the name of a symbol from that of an export.

/// A slice as the library takes it: a pointer and a length. `Global`, the first parameter of most exports, takes no
/// bytes.
macro_rules! exports {
    ($($name:ident = $export:ident;)*) => {
        extern "C" {
            $(#[link_name = symbol!($export)]
            fn $export(text: *const u8, len: usize, out: *mut u8, room: usize) -> usize;)*
        }
        $(pub fn $name(text: &[u8], out: &mut [u8]) -> usize {
            unsafe { $export(text.as_ptr(), text.len(), out.as_mut_ptr(), out.len()) }
        })*
    };
}

exports! {
    base64_to_vec = data_url_base64_to_vec;
    base64_feed = data_url_base64_feed;
    process_mime = data_url_process_mime;
    decode = data_url_decode;
    decode_summed = data_url_decode_summed;
    decode_to_vec = data_url_decode_to_vec;
    fragment = data_url_fragment;
    pieces = data_url_pieces;
    mime_printed = data_url_mime_printed;
}

extern "C" {
    #[link_name = symbol!(data_url_base64_feed_summed)]
    fn data_url_base64_feed_summed(
        input: *const u8,
        len: usize,
        size: usize,
        out: *mut u8,
        room: usize,
    ) -> usize;
    #[link_name = symbol!(data_url_process)]
    fn data_url_process(text: *const u8, len: usize) -> usize;
    #[link_name = symbol!(data_url_mime)]
    fn data_url_mime(text: *const u8, len: usize) -> usize;
}

/// Feeds parts of `SIZE` bytes.
pub fn base64_feed_summed<const SIZE: usize>(input: &[u8], out: &mut [u8]) -> usize {
    let (len, room) = (input.len(), out.len());
    unsafe {
        data_url_base64_feed_summed(input.as_ptr(), len, SIZE, out.as_mut_ptr(), room)
    }
}

pub fn process(text: &[u8], _: &mut [u8]) -> usize {
    unsafe { data_url_process(text.as_ptr(), text.len()) }
}

pub fn mime(text: &[u8], _: &mut [u8]) -> usize {
    unsafe { data_url_mime(text.as_ptr(), text.len()) }
}

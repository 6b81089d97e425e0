use data_url::DataUrl;

fn main() {
    let url = DataUrl::process("data:text/plain;base64,SGVsbG8h#part").expect("a data: URL");
    let (body, _) = url.decode_to_vec().expect("valid base64");
    println!("{}: {} bytes", url.mime_type(), body.len());
}

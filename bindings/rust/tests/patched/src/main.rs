use data_url::DataUrl;

fn main() {
    let url = DataUrl::process("data:;base64,SGVsbG8h").expect("a data: URL");
    // The type is the same in both crates.
    let body = below::body(&url).expect("base64 that is valid");
    println!("{}", String::from_utf8_lossy(&body));
}

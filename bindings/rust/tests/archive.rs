//! The library that these tests call was built from the sources that are here.

use std::path::Path;
use std::process::Command;

/// The folder of the library, as the build script found it.
const FOLDER: &str = env!("DATA_URL_FOLDER");

#[test]
fn the_library_was_built_from_these_sources() {
    let bindings = Path::new(env!("CARGO_MANIFEST_DIR")).join("..");
    if !bindings.join("../crates/data_url").exists() {
        return;
    }
    let hash = Command::new(bindings.join("sources"))
        .output()
        .expect("bash")
        .stdout;
    let built = std::fs::read(Path::new(FOLDER).join("sources")).unwrap_or_default();
    assert!(
        !hash.is_empty() && hash == built,
        "{} has a library of other sources than these; bindings/build builds it",
        FOLDER
    );
}

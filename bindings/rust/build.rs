//! Links `libdata_url.a`: that of the folder that `DATA_URL_LIB` names or, without it, that of `prebuilt/TARGET` in
//! this package.
//!
//! In a checkout, the script `../archive` says which library is taken, as for the tests in C: that of
//! `../out/TARGET`, where `../build` puts one, and otherwise that of `prebuilt`. It refuses one that was not built
//! from the sources as they are. If there is none in either folder, it is built, which needs the Rattle kit.

use std::env;
use std::fs::read;
use std::path::{Path, PathBuf};
use std::process::{exit, Command, Stdio};

/// The call by which tests choose a level. Only the library for x86-64 that has both levels has it.
const FORCE_LEVEL: &[u8] = b"dataurl_force_level";

/// What the library is built from, and the scripts that say which one is taken, in `bindings`.
const SOURCES: [&str; 8] = [
    "../crates/data_url/src",
    "../crates/data_url_c/src",
    "align",
    "archive",
    "build",
    "c",
    "rust/include",
    "sources",
];

/// Ends the build with one line.
fn fail(why: &str) -> ! {
    eprintln!("data-url: {}", why);
    exit(1)
}

/// The name of a target's archive.
fn target() -> &'static str {
    let config = |name: &str| env::var(format!("CARGO_CFG_TARGET_{}", name)).unwrap_or_default();
    match (config("ARCH").as_str(), config("OS").as_str()) {
        ("x86_64", "linux") => "x86-64",
        ("aarch64", "linux") => "aarch64",
        (arch, os) => fail(&format!(
            "there is no libdata_url.a for {}-{}, only for x86-64 and aarch64 with Linux",
            arch, os
        )),
    }
}

/// Proves and builds the library for a target.
fn build(bindings: &Path, target: &str) {
    let kit = Command::new("rt")
        .arg("version")
        .stdout(Stdio::null())
        .status();
    if !kit.map_or(false, |it| it.success()) {
        fail(&format!(
            "there is no libdata_url.a for {}; to build it, install the Rattle kit (`rt`) and run bindings/build {}",
            target, target
        ));
    }
    println!(
        "cargo:warning=libdata_url.a was proved and built for {}, which takes some minutes the first time",
        target
    );
    let status = Command::new(bindings.join("build")).arg(target).status();
    if !status.map_or(false, |it| it.success()) {
        fail("bindings/build failed");
    }
}

/// The folder that `bindings/archive` names for a target. Cargo asks again if a source of the library changes. The
/// status 1 refuses a library. With any other the script did not run, as where there is no bash: then nothing was
/// built here, and the kept library is the one.
fn chosen(bindings: &Path, target: &str, kept: PathBuf) -> PathBuf {
    for source in &SOURCES {
        let path = bindings.join(source);
        if path.exists() {
            println!("cargo:rerun-if-changed={}", path.display());
        }
    }
    let archive = Command::new(bindings.join("archive")).arg(target).output();
    match archive {
        Ok(said) if said.status.success() => {
            PathBuf::from(String::from_utf8_lossy(&said.stdout).trim_end())
        }
        Ok(said) if said.status.code() == Some(1) => {
            fail(String::from_utf8_lossy(&said.stderr).trim_end())
        }
        _ => {
            println!("cargo:warning=bindings/archive did not run, so the sources are not compared");
            kept
        }
    }
}

/// The folder with the archive.
fn folder() -> PathBuf {
    if let Some(given) = env::var_os("DATA_URL_LIB") {
        return PathBuf::from(given);
    }
    let package = PathBuf::from(env::var_os("CARGO_MANIFEST_DIR").expect("by cargo"));
    let target = target();
    let kept = package.join("prebuilt").join(target);
    let bindings = package.join("..");
    let has_library = |folder: &Path| folder.join("libdata_url.a").exists();
    if !bindings.join("archive").is_file() {
        if !has_library(&kept) {
            fail(&format!("there is no {}/libdata_url.a", kept.display()));
        }
        return kept;
    }
    if !has_library(&bindings.join("out").join(target)) && !has_library(&kept) {
        build(&bindings, target);
    }
    chosen(&bindings, target, kept)
}

fn main() {
    println!("cargo:rerun-if-env-changed=DATA_URL_LIB");
    let folder = folder();
    let archive = folder.join("libdata_url.a");
    let bytes =
        read(&archive).unwrap_or_else(|_| fail(&format!("there is no {}", archive.display())));
    if bytes.windows(FORCE_LEVEL.len()).any(|it| it == FORCE_LEVEL) {
        println!("cargo:rustc-cfg=data_url_chooses");
    }
    println!("cargo:rustc-check-cfg=cfg(data_url_chooses)");
    println!("cargo:rerun-if-changed={}", archive.display());
    println!("cargo:rustc-link-search=native={}", folder.display());
    println!("cargo:rustc-env=DATA_URL_FOLDER={}", folder.display());
    println!("cargo:rustc-link-lib=static=data_url");
}

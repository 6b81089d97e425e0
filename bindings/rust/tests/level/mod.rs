//! Makes the tests of a file use the level that the variable `DATA_URL_LEVEL` names, 2 or 3, as `bindings/c/level.c`
//! does for those in C. It is there only with the library that chooses.
#![cfg(data_url_chooses)]

extern "C" {
    fn dataurl_force_level(level: i32) -> bool;
}

#[used]
#[link_section = ".init_array"]
static BEFORE_MAIN: extern "C" fn() = force_level;

extern "C" fn force_level() {
    let named = std::env::var("DATA_URL_LEVEL").unwrap_or_default();
    if !named.is_empty() && !unsafe { dataurl_force_level(named.parse().unwrap_or(-1)) } {
        eprintln!(
            "there is no level {}, or the processor does not have it",
            named
        );
        std::process::exit(77);
    }
}

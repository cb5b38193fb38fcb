//! Links the proved library in the folder that `TUORMIK_LIB` names, or in `../target/staticlib`: `libcapi.a`, as README's first
//! command builds it, or else `libtuormik.a`, as `install.sh` installs it. With the feature `stand-in` nothing is linked.

use std::path::PathBuf;

/// The library's name as it is built, and as it is installed.
const NAMES: [&str; 2] = ["capi", "tuormik"];

fn main() {
    println!("cargo:rerun-if-env-changed=TUORMIK_LIB");
    if std::env::var_os("CARGO_FEATURE_STAND_IN").is_some() {
        return;
    }
    let folder = match std::env::var_os("TUORMIK_LIB") {
        Some(folder) => PathBuf::from(folder),
        None => PathBuf::from(env!("CARGO_MANIFEST_DIR")).join("../target/staticlib"),
    };
    let archive = |name: &str| folder.join(format!("lib{name}.a"));
    for name in NAMES {
        println!("cargo:rerun-if-changed={}", archive(name).display());
    }
    let found = NAMES.into_iter().find(|name| archive(name).is_file());
    if found.is_none() {
        println!(
            "cargo:warning={} has no libcapi.a and no libtuormik.a: build the library by README's first command, name its folder in \
             TUORMIK_LIB, or try the stand-in by `--features stand-in`",
            folder.display()
        );
    }
    println!("cargo:rustc-link-search=native={}", folder.display());
    println!("cargo:rustc-link-lib=static={}", found.unwrap_or(NAMES[0]));
}

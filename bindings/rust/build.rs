//! Links the static library: the one that `FANCY_REGEX_LIBRARY` names, or what `bindings/build.py` built.
use std::env;
use std::fs;
use std::path::PathBuf;

fn main() {
    println!("cargo:rerun-if-env-changed=FANCY_REGEX_LIBRARY");
    let library = match env::var_os("FANCY_REGEX_LIBRARY") {
        Some(named) => PathBuf::from(named),
        None => PathBuf::from(env::var_os("CARGO_MANIFEST_DIR").expect("cargo sets it"))
            .join("../out/libfancy_regex_c.a"),
    };
    println!("cargo:rerun-if-changed={}", library.display());
    let out = PathBuf::from(env::var_os("OUT_DIR").expect("cargo sets it"));
    if let Err(error) = fs::copy(&library, out.join("libfancy_regex_c.a")) {
        panic!(
            "the static library {} is not there ({error}): build it with `bindings/build.py`, \
             or name another one in FANCY_REGEX_LIBRARY",
            library.display()
        );
    }
    println!("cargo:rustc-link-search=native={}", out.display());
    println!("cargo:rustc-link-lib=static=fancy_regex_c");
}

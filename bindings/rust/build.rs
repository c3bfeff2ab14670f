//! Links the static library that `rt lib` writes in crates/call_words; EPASS_LIBRARY names another folder that holds it.
use std::env;
use std::path::PathBuf;

fn main() {
    println!("cargo:rerun-if-env-changed=EPASS_LIBRARY");
    let folder = env::var_os("EPASS_LIBRARY").map(PathBuf::from).unwrap_or_else(|| {
        let here = PathBuf::from(env::var_os("CARGO_MANIFEST_DIR").expect("cargo names the package's folder"));
        here.join("../../crates/call_words/out")
    });
    println!("cargo:rustc-link-search=native={}", folder.display());
    println!("cargo:rustc-link-lib=static=call_words");
    println!("cargo:rerun-if-changed={}", folder.join("libcall_words.a").display());
}

//! Says where the shim's archive lies, which `run` compiles. The Rust module says where the library's is.

use std::env;
use std::path::Path;

fn main() {
    let here = env::var("CARGO_MANIFEST_DIR").expect("cargo names the folder");
    let folder = Path::new(&here).join("../target/bench/shim");
    println!("cargo:rustc-link-search=native={}", folder.display());
    println!("cargo:rustc-link-lib=static=shim");
    println!("cargo:rerun-if-changed={}", folder.join("libshim.a").display());
}

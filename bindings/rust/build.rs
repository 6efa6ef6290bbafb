//! Says where the archive is: in the folder that `CHP_ARCHIVE` names, by default in `crates/chp/out`.

use std::env;
use std::path::{Path, PathBuf};

fn main() {
    let here = env::var("CARGO_MANIFEST_DIR").expect("cargo names the folder");
    let beside = Path::new(&here).join("../../crates/chp/out");
    let folder = env::var_os("CHP_ARCHIVE").map_or(beside, PathBuf::from);
    println!("cargo:rustc-link-search=native={}", folder.display());
    println!("cargo:rustc-link-lib=static=chp");
    println!("cargo:rerun-if-env-changed=CHP_ARCHIVE");
    println!("cargo:rerun-if-changed={}", folder.join("libchp.a").display());
}

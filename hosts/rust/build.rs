// Links libhost.a: of the folder that KNELLSTONE_LIB names, or the one that `rt lib` in crates/host writes, or the stored one.
use std::{env, path::PathBuf};

fn main() {
    let here = PathBuf::from(env::var("CARGO_MANIFEST_DIR").unwrap());
    let stored = here.join("../lib");
    let own = here.join("../../crates/host/out");
    let usual = if own.join("libhost.a").is_file() { own } else { stored };
    let folder = env::var_os("KNELLSTONE_LIB").map_or(usual, PathBuf::from);
    println!("cargo:rerun-if-env-changed=KNELLSTONE_LIB");
    println!("cargo:rerun-if-changed={}", folder.join("libhost.a").display());
    assert!(folder.join("libhost.a").is_file(), "there is no libhost.a in {}; run `rt lib` in crates/host", folder.display());
    println!("cargo:rustc-link-search=native={}", folder.display());
    println!("cargo:rustc-link-lib=static=host");
}

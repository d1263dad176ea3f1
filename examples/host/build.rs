//! Links what `tests/build` puts into `target/lib`, or what is in the folder that ZILUNTHAR_LIB names.

use std::env;
use std::path::PathBuf;

fn main() {
    let own = PathBuf::from(env::var("CARGO_MANIFEST_DIR").expect("cargo says where the package is"));
    let folder = env::var("ZILUNTHAR_LIB").map_or(own.join("../../target/lib"), PathBuf::from);
    println!("cargo::rerun-if-env-changed=ZILUNTHAR_LIB");
    println!("cargo::rerun-if-changed={}", folder.join("libcapi.a").display());
    println!("cargo::rustc-link-search=native={}", folder.display());
    println!("cargo::rustc-link-lib=static=capi");
    println!("cargo::rustc-link-lib=static=libc_c");
}

//! Links the archive of the proved operations, and links again when it changes. `TILL_ARCHIVE`, which
//! `bench/run --beside` sets, names the folder of another one.
use std::env;
use std::path::{Path, PathBuf};

fn main() {
    let made = || Path::new(env!("CARGO_MANIFEST_DIR")).join("../../crates/till_c/out");
    let folder = env::var_os("TILL_ARCHIVE").map_or_else(made, PathBuf::from);
    let archive = folder.join("libtill_c.a");
    assert!(
        archive.is_file(),
        "no {}: `rt lib` in crates/till_c makes it",
        archive.display()
    );
    println!("cargo:rustc-link-search=native={}", folder.display());
    println!("cargo:rustc-link-lib=static=till_c");
    println!("cargo:rerun-if-changed={}", archive.display());
    println!("cargo:rerun-if-env-changed=TILL_ARCHIVE");
}

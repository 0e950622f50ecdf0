//! Links the archive that `rust/check` makes of crate grain_c, in the repository around this crate or where GRAIN_ARCHIVE says.
use std::{env, path::PathBuf};

fn main() {
    let folder = env::var_os("GRAIN_ARCHIVE").map_or_else(
        || PathBuf::from(env!("CARGO_MANIFEST_DIR")).join("../target/staticlib"),
        PathBuf::from,
    );
    println!("cargo:rerun-if-env-changed=GRAIN_ARCHIVE");
    println!(
        "cargo:rerun-if-changed={}",
        folder.join("libgrain.a").display()
    );
    println!("cargo:rustc-link-search=native={}", folder.display());
    println!("cargo:rustc-link-lib=static=grain");
}

//! Links the archive that `make -C clients library` builds.

use std::env;
use std::path::PathBuf;

fn main() {
    let folder = env::var_os("BITCOL_ARCHIVE_FOLDER").map_or_else(
        || PathBuf::from(env::var_os("CARGO_MANIFEST_DIR").expect("cargo sets it")).join("../out"),
        PathBuf::from,
    );
    let archive = folder.join("libbitcol.a");
    if !archive.exists() {
        println!("cargo:warning={} isn't there: `make -C clients library` makes it", archive.display());
    }
    println!("cargo:rustc-link-search=native={}", folder.display());
    println!("cargo:rustc-link-lib=static=bitcol");
    println!("cargo:rerun-if-changed={}", archive.display());
    println!("cargo:rerun-if-env-changed=BITCOL_ARCHIVE_FOLDER");
}

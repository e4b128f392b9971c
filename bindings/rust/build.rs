//! Links the archive that `bindings/build` wrote, or the one in the folder that TURGAMYSK_LIBRARY names.

use std::env;
use std::path::{Path, PathBuf};

fn main() {
    println!("cargo:rerun-if-env-changed=TURGAMYSK_LIBRARY");
    let library = match env::var_os("TURGAMYSK_LIBRARY") {
        Some(folder) => PathBuf::from(folder),
        None => Path::new(env!("CARGO_MANIFEST_DIR")).join("../../target/lib"),
    };
    println!("cargo:rustc-link-search=native={}", library.display());
    println!("cargo:rustc-link-lib=static=turgamysk");
    println!(
        "cargo:rerun-if-changed={}",
        library.join("libturgamysk.a").display()
    );
}

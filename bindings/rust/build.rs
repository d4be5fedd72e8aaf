//! Links `liblattice.a` of the folder that `LATTICE_LIBRARY_FOLDER` names, or else of `bindings/out`, where
//! `bindings/build` leaves it, or of the folder above this one, where it stands in what is handed out.

use std::env;
use std::path::{Path, PathBuf};

/// Where the library is, if no other folder is named.
fn beside() -> PathBuf {
    let above = Path::new(env!("CARGO_MANIFEST_DIR")).join("..");
    if above.join("liblattice.a").exists() { above } else { above.join("out") }
}

fn main() {
    println!("cargo::rerun-if-env-changed=LATTICE_LIBRARY_FOLDER");
    let folder = env::var("LATTICE_LIBRARY_FOLDER").map_or_else(|_| beside(), PathBuf::from);
    let library = folder.join("liblattice.a");
    if !library.exists() {
        println!(
            "cargo::error=LATTICE_LIBRARY_FOLDER has to name the folder of liblattice.a, or bindings/build to make it: \
             there is no {}",
            library.display()
        );
    }
    println!("cargo::rerun-if-changed={}", library.display());
    println!("cargo::rustc-link-search=native={}", folder.display());
    println!("cargo::rustc-link-lib=static=lattice");
}

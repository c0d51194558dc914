//! Links the archive that `rt lib` leaves in the folder `out` of the repository's `crates/sighvona`, or
//! one in the folder that `SIGHVONA_LIB_DIR` names.

use std::path::{Path, PathBuf};

fn main() -> Result<(), String> {
    println!("cargo:rerun-if-env-changed=SIGHVONA_LIB_DIR");
    let folder = match std::env::var_os("SIGHVONA_LIB_DIR") {
        Some(folder) => PathBuf::from(folder),
        None => Path::new(env!("CARGO_MANIFEST_DIR")).join("../../crates/sighvona/out"),
    };
    let archive = folder.join("libsighvona.a");
    println!("cargo:rerun-if-changed={}", archive.display());
    if !archive.exists() {
        return Err(format!("{} is missing: run `rt lib` in crates/sighvona", archive.display()));
    }
    println!("cargo:rustc-link-search=native={}", folder.display());
    println!("cargo:rustc-link-lib=static=sighvona");
    Ok(())
}

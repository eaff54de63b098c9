//! Links the archive that FANCHUKI_ARCHIVE names.

use std::path::Path;

fn main() {
    println!("cargo:rerun-if-env-changed=FANCHUKI_ARCHIVE");
    let Ok(named) = std::env::var("FANCHUKI_ARCHIVE") else {
        eprintln!("set FANCHUKI_ARCHIVE to the path of libfanchuki.a");
        std::process::exit(1);
    };
    let Ok(archive) = Path::new(&named).canonicalize() else {
        eprintln!("FANCHUKI_ARCHIVE: no file {named}");
        std::process::exit(1);
    };
    println!("cargo:rerun-if-changed={}", archive.display());
    println!("cargo:rustc-link-arg-bins={}", archive.display());
}

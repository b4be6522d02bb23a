//! Links the proved code: `libcapi.a` and `libcapi_driver.a` in the folder `DA728X_LIB_DIR` (an absolute
//! path), by default where `scripts/archives` leaves them in the repository.

use std::env;
use std::path::PathBuf;

fn main() {
    let folder = match env::var_os("DA728X_LIB_DIR") {
        Some(folder) => PathBuf::from(folder),
        None => PathBuf::from(env::var_os("CARGO_MANIFEST_DIR").expect("set by cargo"))
            .join("../../target/staticlib"),
    };
    println!("cargo::rerun-if-env-changed=DA728X_LIB_DIR");
    println!("cargo::rustc-link-search=native={}", folder.display());
    for library in ["capi", "capi_driver"] {
        let archive = folder.join(format!("lib{library}.a"));
        if !archive.exists() {
            let path = archive.display();
            println!("cargo::warning={path} is missing: scripts/archives makes it");
        }
        println!("cargo::rerun-if-changed={}", archive.display());
        println!("cargo::rustc-link-lib=static={library}");
    }
}

//! Links the static library: `libcapi.a` of the folder that the variable `MISUKTAAN_LIB` names, by default the
//! repository's `target/staticlib`, where `./build-library` writes it.

use std::env;
use std::path::PathBuf;

fn main() {
    let folder = match env::var_os("MISUKTAAN_LIB") {
        Some(folder) => PathBuf::from(folder),
        None => PathBuf::from(env::var_os("CARGO_MANIFEST_DIR").expect("set by cargo"))
            .join("..")
            .join("target")
            .join("staticlib"),
    };
    let library = folder.join("libcapi.a");
    assert!(
        library.is_file(),
        "{} is missing: run `./build-library` in the repository, or set MISUKTAAN_LIB",
        library.display()
    );
    println!("cargo:rerun-if-env-changed=MISUKTAAN_LIB");
    println!("cargo:rerun-if-changed={}", library.display());
    println!("cargo:rustc-link-search=native={}", folder.display());
    println!("cargo:rustc-link-lib=static=capi");
}

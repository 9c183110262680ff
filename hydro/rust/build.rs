//! Links libnoskjerf_hydro.a from ../../target/lib, or from the folder that NOSKJERF_LIB names as an absolute path, where the engine's archive stands too.

use std::env;
use std::path::PathBuf;
use std::process;

/// The folder to look in.
fn folder() -> PathBuf {
    match env::var_os("NOSKJERF_LIB") {
        Some(folder) => PathBuf::from(folder),
        None => PathBuf::from(env!("CARGO_MANIFEST_DIR")).join("../../target/lib"),
    }
}

fn main() {
    let folder = folder();
    let library = folder.join("libnoskjerf_hydro.a");
    println!("cargo:rerun-if-env-changed=NOSKJERF_LIB");
    println!("cargo:rerun-if-changed={}", library.display());
    if !library.is_file() {
        eprintln!(
            "there is no {}: write it with hydro/archive, or name its folder, as an absolute path, in NOSKJERF_LIB",
            library.display()
        );
        process::exit(1);
    }
    println!("cargo:rustc-link-search=native={}", folder.display());
    println!("cargo:rustc-link-lib=static=noskjerf_hydro");
}

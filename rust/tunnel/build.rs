//! Says where the static library is: the directory WHAPIROHI_LIB, or target/staticlib of the repository.

use std::env;
use std::path::PathBuf;

fn main() {
    println!("cargo:rerun-if-env-changed=WHAPIROHI_LIB");
    println!("cargo:rerun-if-changed=build.rs");
    if env::var_os("CARGO_FEATURE_LINK").is_none() {
        return;
    }
    let directory = match env::var_os("WHAPIROHI_LIB") {
        Some(directory) => PathBuf::from(directory),
        None => PathBuf::from(env::var_os("CARGO_MANIFEST_DIR").unwrap()).join("../../target/staticlib"),
    };
    let archive = directory.join("libtunnel_c.a");
    println!("cargo:rerun-if-changed={}", archive.display());
    if !archive.is_file() {
        eprintln!(
            "\nThe static library {} is missing: run `scripts/prove tunnel_c_c` at the root of the repository, \
             or name its directory in WHAPIROHI_LIB.\n",
            archive.display()
        );
        std::process::exit(1);
    }
    println!("cargo:rustc-link-search=native={}", directory.canonicalize().unwrap().display());
    println!("cargo:rustc-link-lib=static=tunnel_c");
}

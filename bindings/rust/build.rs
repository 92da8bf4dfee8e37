//! Says where the proved archive stands: in the folder that WELGADOU_LIB_DIR names, else where `./archive`
//! puts it in this repository. Nothing is built here.
use std::env;
use std::path::{Path, PathBuf};
use std::process::exit;

fn main() {
    println!("cargo:rerun-if-env-changed=WELGADOU_LIB_DIR");
    let folder = match env::var_os("WELGADOU_LIB_DIR") {
        Some(named) => PathBuf::from(named),
        None => Path::new(env!("CARGO_MANIFEST_DIR")).join("../../target/staticlib"),
    };
    let archive = folder.join("libwelgadou.a");
    println!("cargo:rerun-if-changed={}", archive.display());
    if !archive.is_file() {
        eprintln!("{} is missing: run `./archive`, or set WELGADOU_LIB_DIR", archive.display());
        exit(1);
    }
    println!("cargo:rustc-link-search=native={}", folder.display());
    println!("cargo:rustc-link-lib=static=welgadou");
}

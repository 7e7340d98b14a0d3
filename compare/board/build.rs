//! Links the archive of the product, from the folder that NIRANBOK_LIB names.

use std::env;
use std::path::{Path, PathBuf};

const ARCHIVE: &str = "libniranbok.a";

fn main() {
    println!("cargo::rerun-if-env-changed=NIRANBOK_LIB");
    let folder = folder();
    let archive = folder.join(ARCHIVE);
    println!("cargo::rerun-if-changed={}", archive.display());
    if !archive.is_file() {
        let archive = archive.display();
        println!("cargo::error=there is no {archive}: name its folder in NIRANBOK_LIB");
        return;
    }
    println!("cargo::rustc-link-search=native={}", folder.display());
    println!("cargo::rustc-link-lib=static=niranbok");
}

fn folder() -> PathBuf {
    let package = env::var("CARGO_MANIFEST_DIR").expect("cargo names the package");
    let named = env::var_os("NIRANBOK_LIB").map(PathBuf::from);
    Path::new(&package).join(named.unwrap_or_else(|| "../../target/board".into()))
}

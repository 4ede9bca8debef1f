//! Links the proved library. `tools/build bikuvoa_c` builds it in this
//! repository; where it lies elsewhere, BIKUVOA_LIB_DIR names its folder.

use std::env;
use std::path::{Path, PathBuf};

const LIB_DIR: &str = "BIKUVOA_LIB_DIR";

fn main() {
    println!("cargo::rerun-if-env-changed={LIB_DIR}");
    let folder = match env::var_os(LIB_DIR) {
        Some(folder) => PathBuf::from(folder),
        None => Path::new(env!("CARGO_MANIFEST_DIR")).join("../../target/staticlib"),
    };
    let archive = folder.join("libbikuvoa_c.a");
    println!("cargo::rerun-if-changed={}", archive.display());
    if !archive.is_file() {
        println!(
            "cargo::error={} is not there: run `tools/build bikuvoa_c`, or let {LIB_DIR} name its folder",
            archive.display()
        );
        return;
    }
    // rustc may run in another folder than this does.
    let folder = folder.canonicalize().unwrap_or(folder);
    println!("cargo::rustc-link-search=native={}", folder.display());
    println!("cargo::rustc-link-lib=static=bikuvoa_c");
}

//! Links the archive with the check, which `fuzz/run` builds and names.

use std::env;
use std::path::PathBuf;

fn main() {
    println!("cargo:rerun-if-env-changed=LIBPROBE");
    let path = PathBuf::from(env::var("LIBPROBE").expect("set by fuzz/run"));
    println!("cargo:rerun-if-changed={}", path.display());
    let folder = path.parent().expect("a file in a folder");
    println!("cargo:rustc-link-search=native={}", folder.display());
    println!("cargo:rustc-link-lib=static=probe");
}

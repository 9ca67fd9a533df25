//! Tells rustc where libjidwaleb.a is: in the folder that JIDWALEB_LIB_DIR names, or else where `sh tools/build.sh archive` writes it in this tree.

use std::env;
use std::path::PathBuf;
use std::process::exit;

fn main() {
    println!("cargo:rerun-if-env-changed=JIDWALEB_LIB_DIR");
    let manifest = PathBuf::from(env::var_os("CARGO_MANIFEST_DIR").expect("cargo sets CARGO_MANIFEST_DIR"));
    let named = env::var_os("JIDWALEB_LIB_DIR").filter(|folder| !folder.is_empty());
    // a relative folder is taken from the crate's own, which is where cargo runs this
    let folder = manifest.join(named.map_or_else(|| PathBuf::from("../target/staticlib"), PathBuf::from));
    let archive = folder.join("libjidwaleb.a");
    println!("cargo:rerun-if-changed={}", archive.display());
    if !archive.is_file() {
        eprintln!("error: there is no {}", archive.display());
        eprintln!("Build it with `sh tools/build.sh archive` at the root of the Jidwaleb tree, or set JIDWALEB_LIB_DIR to the folder that has libjidwaleb.a.");
        exit(1);
    }
    println!("cargo:rustc-link-search=native={}", folder.display());
}

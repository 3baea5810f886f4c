//! Links the engine's static library, librma.a, from the folder that RMA_LIB_DIR names (from here, where it is relative), else from the
//! repository's target/staticlib. Where it is missing, says how to make it.

use std::env;
use std::path::PathBuf;
use std::process::exit;

fn main() {
    println!("cargo:rerun-if-env-changed=RMA_LIB_DIR");
    let named = env::var_os("RMA_LIB_DIR").unwrap_or_else(|| "../target/staticlib".into());
    let folder = PathBuf::from(env::var_os("CARGO_MANIFEST_DIR").expect("set by cargo")).join(named);
    let library = folder.join("librma.a");
    println!("cargo:rerun-if-changed={}", library.display());
    if !library.is_file() {
        eprintln!("{} is missing: run `tools/staticlib.sh` at the repository's root, or set RMA_LIB_DIR to its folder", library.display());
        exit(1);
    }
    println!("cargo:rustc-link-search=native={}", folder.display());
    println!("cargo:rustc-link-lib=static=rma");
}

//! Links the proved library: librelief_c.a in the folder that RELIEF_LIB_DIR names, else
//! where `bash tools/build.sh relief_c` puts it.

use std::env;
use std::path::PathBuf;

fn main() {
    println!("cargo::rerun-if-env-changed=RELIEF_LIB_DIR");
    let folder = match env::var_os("RELIEF_LIB_DIR") {
        Some(folder) => PathBuf::from(folder),
        None => {
            let package = env::var_os("CARGO_MANIFEST_DIR").expect("cargo sets it");
            PathBuf::from(package).join("../../target/staticlib")
        }
    };
    let archive = folder.join("librelief_c.a");
    println!("cargo::rerun-if-changed={}", archive.display());
    if !archive.is_file() {
        println!(
            "cargo::error=there is no {}: run `bash tools/build.sh relief_c` at the top of the \
             repository, or let RELIEF_LIB_DIR name the folder of another librelief_c.a",
            archive.display()
        );
        return;
    }
    println!("cargo::rustc-link-search=native={}", folder.display());
    println!("cargo::rustc-link-lib=static=relief_c");
}

//! Links libneddwyrol.a of the folder in NEDDWYROL_LIB; or else of `lib` in this crate, of the prefix that it was installed
//! below, or of the repository's `out/library`; or else the neddwyrol that the linker finds.
use std::path::{Path, PathBuf};

fn main() {
    println!("cargo:rerun-if-env-changed=NEDDWYROL_LIB");
    let own = PathBuf::from(std::env::var("CARGO_MANIFEST_DIR").unwrap());
    let is_there = |folder: &Path| folder.join("libneddwyrol.a").is_file();
    let found = match std::env::var("NEDDWYROL_LIB") {
        // cargo runs this in the crate's folder, so that a relative path would count from here
        Ok(folder) => {
            assert!(is_there(Path::new(&folder)), "NEDDWYROL_LIB: there is no libneddwyrol.a in {folder} (give an absolute path)");
            Some(PathBuf::from(folder))
        }
        Err(_) => ["lib", "../../../lib", "../../out/library"].map(|it| own.join(it)).into_iter().find(|it| is_there(it)),
    };
    match found {
        Some(folder) => {
            let folder = folder.canonicalize().unwrap();
            println!("cargo:rustc-link-search=native={}", folder.display());
            println!("cargo:rustc-link-lib=static=neddwyrol");
            println!("cargo:rerun-if-changed={}", folder.join("libneddwyrol.a").display());
        }
        None => println!("cargo:rustc-link-lib=neddwyrol"),
    }
}

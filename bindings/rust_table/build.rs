//! Links libneddwyrol_table.a from where the crate `neddwyrol` takes its library.
use std::path::{Path, PathBuf};

fn main() {
    println!("cargo:rerun-if-env-changed=NEDDWYROL_LIB");
    let own = PathBuf::from(std::env::var("CARGO_MANIFEST_DIR").unwrap());
    let is_there = |folder: &Path| folder.join("libneddwyrol_table.a").is_file();
    let found = match std::env::var("NEDDWYROL_LIB") {
        Ok(folder) => Some(PathBuf::from(folder)),
        Err(_) => ["lib", "../../../lib", "../../out/library"].map(|it| own.join(it)).into_iter().find(|it| is_there(it)),
    };
    if let Some(folder) = found {
        println!("cargo:rustc-link-search=native={}", folder.display());
        println!("cargo:rerun-if-changed={}", folder.join("libneddwyrol_table.a").display());
    }
    println!("cargo:rustc-link-lib=static=neddwyrol_table");
}

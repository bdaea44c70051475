//! Says where the archive is: in the folder that GAMULISYAN_LIB_DIR names; else beside the crate in `lib`, as a release's bundle has it;
//! else where `sh tools/archive` leaves it in the repository.

use std::path::{Path, PathBuf};

const ARCHIVE: &str = "libgamulisyan.a";

fn holds_archive(folder: &Path) -> bool {
    folder.join(ARCHIVE).is_file()
}

fn folders() -> Vec<PathBuf> {
    let crate_folder = PathBuf::from(std::env::var_os("CARGO_MANIFEST_DIR").expect("cargo names the crate's folder"));
    match std::env::var_os("GAMULISYAN_LIB_DIR") {
        Some(folder) => vec![PathBuf::from(folder)],
        None => vec![crate_folder.join("../lib"), crate_folder.join("../target/staticlib")],
    }
}

fn main() {
    println!("cargo:rerun-if-env-changed=GAMULISYAN_LIB_DIR");
    println!("cargo:rerun-if-changed=build.rs");
    let folders = folders();
    let folder = match folders.iter().find(|folder| holds_archive(folder)) {
        Some(folder) => folder,
        None => panic!("{ARCHIVE} is in none of {folders:?}: name its folder in GAMULISYAN_LIB_DIR"),
    };
    println!("cargo:rerun-if-changed={}", folder.join(ARCHIVE).display());
    println!("cargo:rustc-link-search=native={}", folder.display());
    if std::env::var("CARGO_CFG_TARGET_ARCH").map_or(true, |arch| arch != "x86_64") {
        println!("cargo:warning=the archive is for x86-64: this crate links for no other processor");
    }
}

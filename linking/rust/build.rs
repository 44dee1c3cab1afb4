//! Links libdrive_object.a from the folder in DRIVE_OBJECT_FOLDER, else from where `rt lib` in its crate writes it.

use std::path::PathBuf;

const WRITTEN_BY_RT: &str = "../../crates/drive_object/out";

fn main() {
    let folder = match std::env::var_os("DRIVE_OBJECT_FOLDER") {
        Some(folder) => PathBuf::from(folder),
        None => PathBuf::from(env!("CARGO_MANIFEST_DIR")).join(WRITTEN_BY_RT),
    };
    let folder = folder.display();
    println!("cargo:rustc-link-search=native={folder}");
    println!("cargo:rustc-link-lib=static=drive_object");
    println!("cargo:rerun-if-changed={folder}/libdrive_object.a");
    println!("cargo:rerun-if-env-changed=DRIVE_OBJECT_FOLDER");
}

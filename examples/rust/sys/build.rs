//! Links the archive of the folder PGPEER_DIR, which tools/build_c_library.sh made, or else the one that pkg-config knows.

use std::process::Command;

fn folder_of_package() -> String {
    let asked = Command::new("pkg-config").args(["--variable=libdir", "pgpeer"]).output().expect("pkg-config, as PGPEER_DIR isn't set");
    assert!(asked.status.success(), "neither PGPEER_DIR is set, nor has pkg-config a package pgpeer");
    String::from_utf8(asked.stdout).unwrap().trim().to_owned()
}

fn main() {
    println!("cargo:rerun-if-env-changed=PGPEER_DIR");
    println!("cargo:rerun-if-env-changed=PKG_CONFIG_PATH");
    let folder = std::env::var("PGPEER_DIR").unwrap_or_else(|_| folder_of_package());
    println!("cargo:rerun-if-changed={folder}/libpgpeer.a");
    println!("cargo:rustc-link-search=native={folder}");
    println!("cargo:rustc-link-lib=static=pgpeer");
}

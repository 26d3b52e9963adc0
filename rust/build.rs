//! Links the archive `libhost.a`, which tools/library.sh writes: from the folder that JAMFELL_LIB names, or else from
//! target/staticlib of the repository.
use std::env;
use std::path::PathBuf;

fn main() {
    println!("cargo:rerun-if-changed=build.rs");
    println!("cargo:rerun-if-env-changed=JAMFELL_LIB");
    let set = |name: &str| env::var(name).expect("cargo sets it");
    let (system, machine) = (set("CARGO_CFG_TARGET_OS"), set("CARGO_CFG_TARGET_ARCH"));
    if (system.as_str(), machine.as_str()) != ("linux", "x86_64") {
        panic!("the archive is for x86-64 Linux, and this is {machine} {system}");
    }
    let folder = match env::var_os("JAMFELL_LIB") {
        Some(folder) => PathBuf::from(folder),
        None => PathBuf::from(set("CARGO_MANIFEST_DIR")).join("../target/staticlib"),
    };
    let archive = folder.join("libhost.a");
    if !archive.is_file() {
        panic!(
            "there is no {}: run tools/library.sh in the repository, or set JAMFELL_LIB to the archive's folder",
            archive.display()
        );
    }
    println!("cargo:rerun-if-changed={}", archive.display());
    println!("cargo:rustc-link-search=native={}", folder.display());
    println!("cargo:rustc-link-lib=static=host");
}

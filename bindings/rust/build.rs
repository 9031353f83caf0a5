//! Links the archive in `lib`, where the package has one, or that `make bindings` leaves in
//! `bin/bindings` at the top of the repository, or in the folder that `P2P_SIMULATED_LIB` names.
use std::env;
use std::path::PathBuf;

fn main() {
    println!("cargo:rerun-if-env-changed=P2P_SIMULATED_LIB");
    let here = PathBuf::from(env::var_os("CARGO_MANIFEST_DIR").expect("cargo sets it"));
    let folder = match env::var_os("P2P_SIMULATED_LIB") {
        Some(folder) => PathBuf::from(folder),
        None if here.join("lib").exists() => here.join("lib"),
        None => here.join("../../bin/bindings"),
    };
    let archive = folder.join("libp2p_simulated_c.a");
    if !archive.exists() {
        panic!(
            "{} is not there: run `make bindings` first, or set P2P_SIMULATED_LIB",
            archive.display()
        );
    }
    println!("cargo:rerun-if-changed={}", archive.display());
    println!("cargo:rustc-link-search=native={}", folder.display());
    println!("cargo:rustc-link-lib=static=p2p_simulated_c");
    println!("cargo:rustc-link-lib=static=p2p_simulated_heap");
}

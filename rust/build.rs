//! Links the static library: the one in the folder that `MPC106_LIBRARY` names, or else the one that `tools/prove mpc106` builds in the repository.
use std::env;
use std::path::{Path, PathBuf};

const LIBRARY_FOLDER: &str = "MPC106_LIBRARY";

fn main() {
    let own = || Path::new(env!("CARGO_MANIFEST_DIR")).join("../crates/mpc106/out");
    let folder = env::var_os(LIBRARY_FOLDER).map_or_else(own, PathBuf::from);
    let library = folder.join("libmpc106.a");
    println!("cargo:rerun-if-env-changed={LIBRARY_FOLDER}");
    println!("cargo:rerun-if-changed={}", library.display());
    if !library.exists() {
        eprintln!("mpc106: {} is missing.", library.display());
        eprintln!("mpc106: run `tools/prove mpc106` in the root of the repository,");
        eprintln!("mpc106: or name the folder of an installed library in {LIBRARY_FOLDER}.");
        std::process::exit(1);
    }
    println!("cargo:rustc-link-search=native={}", folder.display());
    println!("cargo:rustc-link-lib=static=mpc106");
}

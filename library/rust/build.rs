//! Links crates/nafthurm/out/libnafthurm.a of the repository, or the one in the folder that NAFTHURM_LIB names.
use std::path::PathBuf;

fn main() {
    let repository = PathBuf::from(std::env::var("CARGO_MANIFEST_DIR").unwrap()).join("../..");
    let folder = std::env::var("NAFTHURM_LIB").map(PathBuf::from).unwrap_or(repository.join("crates/nafthurm/out"));
    println!("cargo:rerun-if-env-changed=NAFTHURM_LIB");
    println!("cargo:rerun-if-changed={}", folder.join("libnafthurm.a").display());
    println!("cargo:rustc-link-search=native={}", folder.display());
    println!("cargo:rustc-link-lib=static=nafthurm");
}

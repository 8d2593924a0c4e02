// Links libsdti.a, which ./lib builds in the repository's target/; SDTI_LIB_DIR names another folder that has it.
use std::path::Path;

fn main() {
    println!("cargo:rerun-if-env-changed=SDTI_LIB_DIR");
    let beside = Path::new(env!("CARGO_MANIFEST_DIR")).join("../../target");
    let folder = std::env::var("SDTI_LIB_DIR").unwrap_or_else(|_| beside.display().to_string());
    println!("cargo:rerun-if-changed={folder}/libsdti.a");
    println!("cargo:rustc-link-search=native={folder}");
    println!("cargo:rustc-link-lib=static=sdti");
}

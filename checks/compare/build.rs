//! Tells the linker where the static libraries lie: in the folder that LIBRARIES_FOLDER names.

fn main() {
    println!("cargo::rerun-if-env-changed=LIBRARIES_FOLDER");
    let folder = std::env::var("LIBRARIES_FOLDER").expect("checks/compare/run sets LIBRARIES_FOLDER");
    for library in ["player", "usm"] {
        println!("cargo::rerun-if-changed={folder}/lib{library}.a");
    }
    println!("cargo::rustc-link-search=native={folder}");
    // The crate's ffi.rs includes this; its build script has a symbol of the version there for installed libraries.
    let made = std::env::var("OUT_DIR").expect("cargo sets OUT_DIR");
    std::fs::write(format!("{made}/version.rs"), "").expect("a file in OUT_DIR");
}

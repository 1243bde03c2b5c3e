//! Finds the folder with libplayer.a and libusm.a, names it to the linker, and has the linker see that they are of this
//! crate's version.

use std::path::{Path, PathBuf};
use std::process::Command;
use std::{env, fs};

const ARCHIVES: [&str; 2] = ["libplayer.a", "libusm.a"];

fn main() {
    if !["CARGO_CFG_TARGET_ARCH=x86_64", "CARGO_CFG_TARGET_OS=linux"].into_iter().all(is_set) {
        println!("cargo::error=libplayer.a and libusm.a link into x86-64 Linux programs only");
        return;
    }
    // For its documentation alone the crate needs no libraries.
    if env::var_os("DOCS_RS").is_some() {
        return write_version("");
    }
    println!("cargo::rerun-if-env-changed=USM_LIBRARIES");
    println!("cargo::rerun-if-env-changed=PKG_CONFIG_PATH");
    let Some(folder) = named().or_else(in_the_repository).or_else(installed) else {
        println!(
            "cargo::error=libplayer.a and libusm.a are nowhere: run `./usm` in the repository, or its \
             `./install PREFIX` with PREFIX/lib/pkgconfig in PKG_CONFIG_PATH, or name their folder in USM_LIBRARIES"
        );
        return;
    };
    for archive in ARCHIVES {
        println!("cargo::rerun-if-changed={}", folder.join(archive).display());
    }
    println!("cargo::rustc-link-search=native={}", folder.display());
    let version = if is_of_the_repository(&folder) { String::new() } else { checked(&folder.join("libusm.a")) };
    write_version(&version);
}

/// The code that `ffi.rs` includes.
fn write_version(code: &str) {
    let made = PathBuf::from(env::var_os("OUT_DIR").expect("cargo sets OUT_DIR")).join("version.rs");
    fs::write(made, code).expect("a file in OUT_DIR");
}

fn is_set(setting: &str) -> bool {
    let (name, value) = setting.split_once('=').unwrap_or_default();
    env::var(name).is_ok_and(|set| set == value)
}

/// Code that links only with a library of this version: `./install` puts a symbol into libusm.a that says it.
fn checked(archive: &Path) -> String {
    let version = format!("{}_{}", env!("CARGO_PKG_VERSION_MAJOR"), env!("CARGO_PKG_VERSION_MINOR"));
    let symbol = format!("usm_abi_{version}");
    let name = format!("{symbol}\0").into_bytes();
    if !fs::read(archive).is_ok_and(|bytes| bytes.windows(name.len()).any(|part| part == name)) {
        println!(
            "cargo::error={} does not say that it is of version {}: put the libraries in place by `./install PREFIX` of the \
             repository that this crate is from",
            archive.display(),
            version.replace('_', ".")
        );
    }
    format!(
        "unsafe extern \"C\" {{\n    static {symbol}: u8;\n}}\n\n#[used]\nstatic OF_THIS_VERSION: &u8 = unsafe {{ &{symbol} }};\n"
    )
}

/// Whether these are the libraries of the repository that this crate stands in: they are made of the same sources.
fn is_of_the_repository(folder: &Path) -> bool {
    let ours = in_the_repository().and_then(|ours| ours.canonicalize().ok());
    ours.is_some() && folder.canonicalize().ok() == ours
}

/// The folder that USM_LIBRARIES names.
fn named() -> Option<PathBuf> {
    env::var_os("USM_LIBRARIES").map(PathBuf::from)
}

/// Where the scripts of the repository put them, if this crate stands in it and both are there.
fn in_the_repository() -> Option<PathBuf> {
    let here = PathBuf::from(env::var_os("CARGO_MANIFEST_DIR")?);
    with_archives(here.ancestors().nth(2)?.join("target/staticlib"))
}

/// Where `./install` put them, as pkg-config says.
fn installed() -> Option<PathBuf> {
    let asked = Command::new("pkg-config").args(["--variable=libdir", "usm"]).output().ok()?;
    let answer = String::from_utf8(asked.stdout).ok()?;
    with_archives(PathBuf::from(answer.trim_end()))
}

fn with_archives(folder: PathBuf) -> Option<PathBuf> {
    ARCHIVES.iter().all(|archive| folder.join(archive).is_file()).then_some(folder)
}

//! Finds the proved library and links it. It looks into the folder that MBRUMZHEG_LIB names, or else asks pkg-config for an installed one. Only if
//! there is none, and the feature `prove` or MBRUMZHEG_PROVE=1 asks for it, the repository around this crate proves and makes one.

use std::env;
use std::fs;
use std::path::{Path, PathBuf};
use std::process::{exit, Command};

const ARCHIVE: &str = "libmbrumzheg.a";
/// The version that an installed library must have: this crate's own.
const VERSION: &str = env!("CARGO_PKG_VERSION");
const ADVICE: &str = "\
There are three ways to a library:
- name the folder of a libmbrumzheg.a in MBRUMZHEG_LIB;
- install one (`tools/install PREFIX` in the repository, or a release) and let pkg-config find it: PKG_CONFIG_PATH=PREFIX/lib/pkgconfig;
- in the repository, with Rattle's `rt` on the path, ask for one to be proved now: the feature `prove`, or MBRUMZHEG_PROVE=1.";

fn main() {
    for variable in ["MBRUMZHEG_LIB", "MBRUMZHEG_PROVE", "PKG_CONFIG", "PKG_CONFIG_PATH", "PKG_CONFIG_LIBDIR", "PKG_CONFIG_ALLOW_CROSS"] {
        println!("cargo:rerun-if-env-changed={variable}");
    }
    println!("cargo:rerun-if-changed=build.rs");
    let folder = found().unwrap_or_else(|why| {
        eprintln!("mbrumzheg: {why}");
        exit(1);
    });
    println!("cargo:rerun-if-changed={}", folder.join(ARCHIVE).display());
    println!("cargo:rustc-link-search=native={}", folder.display());
    println!("cargo:rustc-link-lib=static=mbrumzheg");
}

/// The folder of the library, or why there is none.
fn found() -> Result<PathBuf, String> {
    if let Some(folder) = env::var_os("MBRUMZHEG_LIB") {
        return with_library(Path::new(&folder)).map_err(|why| format!("MBRUMZHEG_LIB: {why}"));
    }
    match installed() {
        Err(_) if may_prove() => made(),
        Err(why) => Err(format!("{why}\n{ADVICE}")),
        found => found,
    }
}

/// A folder, if the library stands in it.
fn with_library(folder: &Path) -> Result<PathBuf, String> {
    if folder.join(ARCHIVE).is_file() {
        Ok(folder.to_path_buf())
    } else {
        Err(format!("there is no {ARCHIVE} in '{}'", folder.display()))
    }
}

/// The folder of the installed library, as pkg-config knows it.
fn installed() -> Result<PathBuf, String> {
    if env::var_os("HOST") != env::var_os("TARGET") && env::var_os("PKG_CONFIG_ALLOW_CROSS").is_none() {
        return Err(
            "what pkg-config knows is for this machine, and the target is another; PKG_CONFIG_ALLOW_CROSS=1 says that it fits".to_string()
        );
    }
    let version = pkg_config("--modversion")?;
    println!("cargo:rerun-if-changed={}/mbrumzheg.pc", pkg_config("--variable=pcfiledir")?);
    if version != VERSION {
        return Err(format!("the installed library has version {version}, and this crate is for {VERSION}"));
    }
    with_library(Path::new(&pkg_config("--variable=libdir")?))
}

/// What pkg-config answers to a question on the library.
fn pkg_config(question: &str) -> Result<String, String> {
    let program = env::var_os("PKG_CONFIG").unwrap_or_else(|| "pkg-config".into());
    let output =
        Command::new(&program).args([question, "mbrumzheg"]).output().map_err(|error| format!("pkg-config did not start: {error}"))?;
    if !output.status.success() {
        return Err("pkg-config knows no installed mbrumzheg".to_string());
    }
    Ok(String::from_utf8_lossy(&output.stdout).trim().to_string())
}

/// Whether proving was asked for.
fn may_prove() -> bool {
    env::var_os("CARGO_FEATURE_PROVE").is_some() || env::var("MBRUMZHEG_PROVE").is_ok_and(|word| word == "1")
}

/// Has the repository, one folder above this crate, prove the library and make it in the folder that cargo gives to this script.
fn made() -> Result<PathBuf, String> {
    let root = PathBuf::from(env::var_os("CARGO_MANIFEST_DIR").ok_or("cargo names no crate")?).join("..");
    let folder = PathBuf::from(env::var_os("OUT_DIR").ok_or("cargo names no folder for output")?);
    let tool = root.join("tools/native-archive");
    let crates = fs::read_dir(root.join("crates")).into_iter().flatten().flatten();
    // what the kit makes stands beside these
    let read = crates.flat_map(|entry| ["src", "specs", "proofs"].map(|part| entry.path().join(part))).filter(|part| part.exists());
    for part in read.chain(["crates.txt", "tools/native-archive"].map(|part| root.join(part))) {
        println!("cargo:rerun-if-changed={}", part.display());
    }
    match Command::new(&tool).arg("capi_c").arg(&folder).status() {
        Ok(status) if status.success() => with_library(&folder),
        Ok(status) => Err(format!("{} ended with {status}", tool.display())),
        Err(error) => {
            Err(format!("{} did not start: {error}; this crate can have a library proved in its repository alone", tool.display()))
        }
    }
}

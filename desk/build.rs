//! Asks the kit for its name, which the desk's pages give.

use std::process::Command;

fn main() {
    println!("cargo:rerun-if-changed=build.rs");
    println!("cargo:rerun-if-env-changed=PATH");
    println!("cargo:rerun-if-env-changed=MBRUMZHEG_LIB");
    let asked = Command::new("rt").arg("version").output().ok().filter(|output| output.status.success());
    let name = asked.and_then(|output| String::from_utf8(output.stdout).ok()).and_then(|text| text.lines().next().map(str::to_string));
    let kit = name.unwrap_or_else(|| "a kit that was not at hand when the desk was built".to_string());
    println!("cargo:rustc-env=MBRUMZHEG_KIT={kit}");
}

//! Finds the static library in the folder that PARCHBEETLE_LIB names (.cargo/config.toml sets it). On
//! x86-64 it is linked; elsewhere the bridge to it is built.

use std::env;
use std::path::Path;
use std::process::{exit, Command};

/// The library's name, as `.ci/library` has it.
const LIBRARY: &str = "parchbeetle";

fn main() {
    println!("cargo:rerun-if-env-changed=PARCHBEETLE_LIB");
    println!("cargo:rerun-if-changed=build.rs");
    let file = format!("lib{LIBRARY}.a");
    let Ok(folder) = env::var("PARCHBEETLE_LIB") else {
        stop(&format!(
            "set PARCHBEETLE_LIB to the folder of {file} (an absolute path)"
        ));
    };
    let library = Path::new(&folder).join(&file);
    if !library.is_file() {
        stop(&format!(
            "{folder} has no {file}; `.ci/library` makes it in target/staticlib"
        ));
    }
    println!("cargo:rerun-if-changed={}", library.display());
    if env::var("CARGO_CFG_TARGET_ARCH").as_deref() == Ok("x86_64") {
        println!("cargo:rustc-link-search=native={folder}");
        println!("cargo:rustc-link-lib=static={LIBRARY}");
    } else {
        bridge(&library);
    }
}

/// Builds the bridge for x86-64, and hands on the words that start it.
fn bridge(library: &Path) {
    for file in ["bridge.c", "../include/parchbeetle.h", "../.ci/x86-64"] {
        println!("cargo:rerun-if-changed={file}");
    }
    let bridge = Path::new(&env::var("OUT_DIR").unwrap_or_default()).join("bridge");
    let script = |arguments: &[&Path]| {
        let ran = Command::new("../.ci/x86-64").args(arguments).output();
        match ran {
            Ok(ran) if ran.status.success() => String::from_utf8_lossy(&ran.stdout).into_owned(),
            Ok(ran) => stop(&String::from_utf8_lossy(&ran.stderr)),
            Err(error) => stop(&format!(".ci/x86-64: {error}")),
        }
    };
    script(&["cc".as_ref(), &bridge, "bridge.c".as_ref(), library]);
    let prefix = script(&["prefix".as_ref()]);
    println!(
        "cargo:rustc-env=PARCHBEETLE_BRIDGE={prefix}{}",
        bridge.display()
    );
}

fn stop(why: &str) -> ! {
    eprintln!("{why}");
    exit(1);
}

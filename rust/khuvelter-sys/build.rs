//! Finds libkhuvelter.a, the proved library. It stands in the folder that `KHUVELTER_LIB_DIR` names (a whole path), else where `rust/library`
//! writes it: `target/staticlib` at the top of the repository.

use std::env;
use std::path::PathBuf;
use std::process::exit;

const LIBRARY: &str = "libkhuvelter.a";

fn main() {
    println!("cargo:rerun-if-env-changed=KHUVELTER_LIB_DIR");
    println!("cargo:rerun-if-changed=build.rs");

    let arch = env::var("CARGO_CFG_TARGET_ARCH").unwrap_or_default();
    if arch != "x86_64" {
        stop(&format!("{LIBRARY} is for x86-64; this build is for {arch}."));
    }

    let asked = env::var_os("KHUVELTER_LIB_DIR");
    let folder = match &asked {
        Some(folder) => PathBuf::from(folder),
        None => PathBuf::from(env!("CARGO_MANIFEST_DIR")).join("../../target/staticlib"),
    };
    let library = folder.join(LIBRARY);
    println!("cargo:rerun-if-changed={}", library.display());
    let Ok(library) = library.canonicalize() else {
        let why = if asked.is_some() { "KHUVELTER_LIB_DIR names that folder" } else { "KHUVELTER_LIB_DIR is not set" };
        stop(&format!(
            "There is no {} ({why}).\n\
             Make it at the top of the repository: rust/library    (or ./run, which does that and more)\n\
             Or set KHUVELTER_LIB_DIR to the folder that has {LIBRARY}.",
            library.display()
        ));
    };
    let folder = library.parent().expect("a file stands in a folder");
    println!("cargo:rustc-link-search=native={}", folder.display());
    println!("cargo:rustc-link-lib=static=khuvelter");
}

/// Says why there is nothing to build, without a panic's noise.
fn stop(why: &str) -> ! {
    eprintln!("\n{why}\n");
    exit(1);
}

//! Lays the present files of iec104, unchanged, and the stand-ins for the absent ones into one folder of links, as if they were one crate.
//! The folder with the sources is named by the environment variable IEC104.

use std::{env, fs, os::unix::fs::symlink, path::Path};

/// The files of iec104 0.6.0 that are compiled as they are.
const PRESENT: [&str; 12] = [
    "asdu.rs",
    "cot.rs",
    "error.rs",
    "types.rs",
    "types_id.rs",
    "types/commands.rs",
    "rtu_server/actor.rs",
    "rtu_server/commands.rs",
    "rtu_server/model.rs",
    "rtu_server/output.rs",
    "rtu_server/point_value.rs",
    "rtu_server/system_command_handler.rs",
];

/// What stands in for the rest, and the driver.
const STANDINS: [&str; 13] = [
    "root.rs",
    "apdu.rs",
    "server.rs",
    "types/information_elements.rs",
    "types/information_objects.rs",
    "types/measurements.rs",
    "types/parameters.rs",
    "types/quality_descriptors.rs",
    "types/time.rs",
    "rtu_server/mod.rs",
    "rtu_server/command_handler.rs",
    "rtu_server/driver.rs",
    "rtu_server/error.rs",
];

fn lay(from: &Path, files: &[&str], into: &Path) {
    for file in files {
        let (source, link) = (from.join(file), into.join(file));
        assert!(source.is_file(), "{} is not there: set IEC104 to the folder with the sources of iec104", source.display());
        println!("cargo:rerun-if-changed={}", source.display());
        symlink(source, link).expect("a link in OUT_DIR");
    }
}

fn main() {
    println!("cargo:rerun-if-env-changed=IEC104");
    let sources = env::var("IEC104").expect("the environment variable IEC104 names the folder with the sources of iec104");
    let sources = fs::canonicalize(sources).expect("the folder named by IEC104");
    let standins = Path::new(&env::var("CARGO_MANIFEST_DIR").unwrap()).join("standins");
    let into = Path::new(&env::var("OUT_DIR").unwrap()).join("iec104");
    let _ = fs::remove_dir_all(&into);
    for folder in ["rtu_server", "types"] {
        fs::create_dir_all(into.join(folder)).expect("a folder in OUT_DIR");
    }
    lay(&sources, &PRESENT, &into);
    lay(&standins, &STANDINS, &into);
}

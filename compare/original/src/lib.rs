//! The `rtu_server` of iec104 0.6.0, its present files unchanged, over stand-ins for its absent ones; `Original` drives it, call by call.
//! build.rs lays both side by side; standins/root.rs lists the modules.
#![allow(dead_code, unused_imports, unused_variables, clippy::all)]

include!(concat!(env!("OUT_DIR"), "/iec104/root.rs"));

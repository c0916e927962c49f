//! Stands in for rtu_server/mod.rs: the modules, and the driver in place of sockets and handle.

mod actor;
mod command_handler;
mod commands;
pub mod driver;
mod error;
mod model;
mod output;
mod point_value;
mod system_command_handler;

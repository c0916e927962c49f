// Stands in for lib.rs: the modules, without sockets, TLS and the client.
mod apdu;
mod asdu;
mod cot;
mod error;
mod rtu_server;
mod server;
mod types;
mod types_id;

pub use rtu_server::driver::{Answer, Batch, Original, Point, Proposal, Refusal, reads_back};

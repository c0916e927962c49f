//! The proved point table and command answers of an IEC 60870-5-104 gateway that hosts many stations.
//!
//! A [`Gateway`] owns one table. It takes points in and lets them go under the plan that the stations' owners have paid for, and it
//! answers commands: octets of an ASDU in, octets of the answering ASDUs out. Sockets, connections and the 104 control octets stay
//! with the program that uses it.
//!
//! ```
//! use khuvelter::{types, Gateway, Point, Station};
//!
//! // K = 8; station 7 has paid for 2 points and may hold up to 4.
//! let mut gateway = Gateway::open(8, &[Station::new(7, 2, 4)])?;
//! gateway.register(&Point::new(7, 10, types::M_SP_NA_1, [0x01]).in_group(1))?;
//! gateway.register(&Point::new(7, 3, types::M_SP_NA_1, [0x00]))?;
//!
//! // A general interrogation of station 7: confirmation, data, termination.
//! let answer = gateway.system_command(&[0x64, 0x01, 0x06, 0x00, 0x07, 0x00, 0x00, 0x00, 0x00, 0x14])?;
//! let names: Vec<_> = answer.asdus().map(|asdu| (asdu.type_name(), asdu.cause())).collect();
//! assert_eq!(names, [("C_IC_NA_1", 7), ("M_SP_NA_1", 20), ("C_IC_NA_1", 10)]);
//! # Ok::<(), khuvelter::Refusal>(())
//! ```
//!
//! # What is certain
//!
//! The code behind every call is written in Rattle and proved against its contract (`crates/khuvelter` of this repository): for any
//! octets, any table and any call there is an answer and an end; a refused call has changed nothing; no station ever gets above its
//! ceiling, and a station below its reservation is never refused for room. This crate adds what Rust can give: the table's memory is
//! the gateway's own, the borrow rules keep the memories of a call apart, and a refusal is an [`Error`](std::error::Error) with its
//! number and words. Nothing here is `unsafe`: `khuvelter-sys`, below it, hands slices over and has all of that.
//!
//! # Numbers
//!
//! A call ends in one of three ways: `Ok`, which is number 0; an [`Answer`] that [is silent](Answer::is_silent), number 1, for a command
//! to which nothing is said; or a [`Refusal`], whose [`Fault`] has the number and the words of the gateway's paper.

mod answer;
mod asdu;
mod fault;
mod gateway;
pub mod plan;
mod point;
mod proposal;
mod share;
pub mod types;

pub use answer::{Answer, ProcessAnswer};
pub use asdu::{Asdu, Asdus, Object, Objects};
pub use fault::{Fault, Refusal};
pub use gateway::Gateway;
pub use plan::Station;
pub use point::{Point, Value};
pub use proposal::{Proposal, Update};
pub use share::Share;

/// The most points of a gateway.
pub const MOST_POINTS: u32 = 4096;

/// The most stations of a plan.
pub const MOST_STATIONS: usize = 64;

/// The common address that means every station in a command; no station has it.
pub const EVERY_STATION: u16 = 65_535;

/// The largest address of a point in its station.
pub const LARGEST_IOA: u32 = 16_777_215;

//! Stands in for rtu_server/error.rs: the errors that the actor names.

use super::model::PointAddress;
use crate::{server::error::ServerError, types_id::TypeId};

#[derive(Debug)]
pub enum InterrogationError {
    Skipped,
    SendConfirmation { source: ServerError },
    SendData { source: ServerError },
    SendTermination { source: ServerError },
}

impl std::fmt::Display for InterrogationError {
    fn fmt(&self, f: &mut std::fmt::Formatter<'_>) -> std::fmt::Result {
        write!(f, "{self:?}")
    }
}

#[derive(Debug)]
pub enum SetPointError {
    UnknownPoint { address: PointAddress },
    TypeMismatch { address: PointAddress, expected: TypeId, got: TypeId },
    BroadcastFailed { source: ServerError },
}

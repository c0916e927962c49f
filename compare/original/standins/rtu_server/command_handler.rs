//! Stands in for rtu_server/command_handler.rs: what a handler is asked and what it gives back.

use std::{collections::HashMap, net::SocketAddr};

use super::model::{PointAddress, PointValue};
use crate::{asdu::Asdu, server::ConnectionId, types::InformationObjects, types_id::TypeId};

pub struct CommandContext<'a> {
    pub connection_id: ConnectionId,
    pub peer: SocketAddr,
    pub asdu: &'a Asdu,
    pub model: &'a HashMap<PointAddress, PointValue>,
}

pub struct CommandHandling {
    pub negative: bool,
    pub reply_type_id: TypeId,
    pub reply_information_objects: InformationObjects,
    pub apply_updates: Vec<(PointAddress, PointValue)>,
}

#[async_trait::async_trait]
pub trait RtuCommandHandler: Send + Sync {
    async fn handle_command(&self, ctx: CommandContext<'_>) -> CommandHandling;
}

//! Stands in for server.rs: a server that keeps the octets of what is sent and broadcast.

use std::{
    net::SocketAddr,
    sync::{Arc, Mutex},
};

use crate::asdu::{Asdu, AsduError};

#[derive(Clone, Copy, Debug, PartialEq, Eq, Hash)]
pub struct ConnectionId(pub u64);

pub mod error {
    #[derive(Debug)]
    pub enum ServerError {
        /// The ASDU could not be encoded; the original would fail in the connection's task.
        Encoding(super::AsduError),
    }
}

#[async_trait::async_trait]
pub trait ServerCallback {
    async fn on_new_objects(&self, asdu: Asdu, id: ConnectionId, address: SocketAddr);
    async fn on_connection_started(&self, id: ConnectionId, address: SocketAddr);
}

/// The ASDUs sent to the connection and broadcast, in order, encoded.
#[derive(Debug, Default)]
pub struct Said {
    pub sent: Vec<Vec<u8>>,
    pub broadcast: Vec<Vec<u8>>,
}

#[derive(Debug, Clone, Default)]
pub struct Server {
    said: Arc<Mutex<Said>>,
}

fn octets(asdu: &Asdu) -> Result<Vec<u8>, error::ServerError> {
    let mut octets = Vec::new();
    asdu.to_bytes(&mut octets).map_err(error::ServerError::Encoding)?;
    Ok(octets)
}

impl Server {
    pub async fn send_asdu(&self, _: ConnectionId, asdu: Asdu) -> Result<(), error::ServerError> {
        let octets = octets(&asdu)?;
        self.said.lock().unwrap().sent.push(octets);
        Ok(())
    }

    pub async fn broadcast_asdu(&self, asdu: Asdu) -> Result<(), error::ServerError> {
        let octets = octets(&asdu)?;
        self.said.lock().unwrap().broadcast.push(octets);
        Ok(())
    }

    /// Takes what was said since the last time.
    pub fn take(&self) -> Said {
        std::mem::take(&mut *self.said.lock().unwrap())
    }
}

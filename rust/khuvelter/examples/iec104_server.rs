//! How a gateway that uses the `Server` of the crate iec104 hands its ASDUs over and sends the answers on.
//!
//! iec104 keeps the sockets, TLS, STARTDT and the sequence numbers; Khuvelter decides what is said. Two of the server's callbacks and
//! two of its calls are all that is needed:
//!
//! | iec104                                        | here                                                   |
//! |-----------------------------------------------|--------------------------------------------------------|
//! | `ServerCallback::on_connection_started(id)`   | `gateway.connection_started()`, sent to `id`           |
//! | `ServerCallback::on_new_objects(asdu, id)`    | `asdu.to_bytes(&mut octets)`, then by the type:        |
//! |   a system type                               | `gateway.system_command(&octets)`, sent to `id`        |
//! |   a process type                              | `gateway.process_command(&octets, &proposal)`: the     |
//! |                                               | spontaneous ASDUs to all, then the answer to `id`      |
//! | `Server::send_asdu(id, Asdu::parse(octets)?)` | each ASDU of an answer, in order                       |
//! | `Server::broadcast_asdu(Asdu::parse(..)?)`    | each spontaneous ASDU, in order                        |
//!
//! iec104 is not a dependency of this crate, so the module `iec104` below stands in for it: the same names, without `async`. With the
//! real one, put `.await` behind `send_asdu` and `broadcast_asdu`. An answer is a value of its own, so the lock on the gateway is let go
//! before anything is awaited.
//!
//!     cargo run --example iec104_server

use std::collections::HashMap;
use std::error::Error;
use std::sync::Mutex;

use iec104::{Asdu, ConnectionId, Server, ServerCallback};
use khuvelter::types::{self, Class};
use khuvelter::{Answer, Gateway, Point, ProcessAnswer, Proposal, Station, Update};

/// The plant behind the gateway decides what a process command does; the gateway stores and says it.
trait Plant {
    /// What to say to a process command, and what to store.
    fn propose(&mut self, command: &khuvelter::Asdu<'_>) -> Proposal;
}

/// A plant that switches: a single command to an address that it knows becomes the state of the single point beside it.
struct Switches {
    /// The point that shows the state of each switch, by the address of its command.
    shown_at: HashMap<(u16, u32), u32>,
}

impl Plant for Switches {
    fn propose(&mut self, command: &khuvelter::Asdu<'_>) -> Proposal {
        let mut proposal = Proposal::confirm(command.octets());
        for object in command.objects() {
            match (command.type_id(), self.shown_at.get(&(command.ca(), object.ioa))) {
                (types::C_SC_NA_1, Some(&ioa)) => {
                    let state = object.element[0] & 0x01;
                    proposal = proposal.with_update(Update::new(command.ca(), ioa, types::M_SP_NA_1, [state]));
                }
                _ => return Proposal::reject(command.octets()),
            }
        }
        proposal
    }
}

/// What the server calls: one gateway behind a lock, and its plant.
struct Rtu<P> {
    gateway: Mutex<(Gateway, P)>,
    server: Server,
}

impl<P: Plant> Rtu<P> {
    /// What is said to an ASDU; the lock is held for this only.
    fn answer(&self, octets: &[u8]) -> Result<ProcessAnswer, Box<dyn Error>> {
        let mut locked = self.gateway.lock().map_err(|_| "another thread has failed with the gateway in hand")?;
        let (gateway, plant) = &mut *locked;
        match octets.first().copied().and_then(types::class) {
            Some(Class::Process) => {
                // A command that cannot be read is refused with number 2 whatever is proposed.
                let proposal = khuvelter::Asdu::read(octets).map(|command| plant.propose(&command));
                Ok(gateway.process_command(octets, &proposal.unwrap_or_default())?)
            }
            // Everything else goes to the entry for system commands, which is silent where it has nothing to say.
            _ => Ok(ProcessAnswer { answer: gateway.system_command(octets)?, ..ProcessAnswer::default() }),
        }
    }

    /// Sends an answer to the connection that asked.
    fn send(&self, id: ConnectionId, answer: &Answer) -> Result<(), Box<dyn Error>> {
        answer.asdus().try_for_each(|asdu| self.server.send_asdu(id, Asdu::parse(asdu.octets())?))
    }

    /// Sends what has changed to every connection.
    fn broadcast(&self, told: &Answer) -> Result<(), Box<dyn Error>> {
        told.asdus().try_for_each(|asdu| self.server.broadcast_asdu(Asdu::parse(asdu.octets())?))
    }
}

impl<P: Plant> ServerCallback for Rtu<P> {
    fn on_new_objects(&self, asdu: Asdu, id: ConnectionId) -> Result<(), Box<dyn Error>> {
        let mut octets = Vec::new();
        asdu.to_bytes(&mut octets)?;
        let said = self.answer(&octets)?;
        self.broadcast(&said.spontaneous)?;
        self.send(id, &said.answer)
    }

    fn on_connection_started(&self, id: ConnectionId) -> Result<(), Box<dyn Error>> {
        let said = self.gateway.lock().map_err(|_| "the gateway is lost")?.0.connection_started()?;
        self.send(id, &said)
    }
}

fn main() -> Result<(), Box<dyn Error>> {
    let mut gateway = Gateway::open(8, &[Station::new(7, 2, 4)])?;
    gateway.register_all(&[
        Point::new(7, 10, types::M_SP_NA_1, [0x01]).in_group(1),
        Point::new(7, 3, types::M_SP_NA_1, [0x00]),
    ])?;
    let plant = Switches { shown_at: HashMap::from([((7, 103), 3)]) };
    let rtu = Rtu { gateway: Mutex::new((gateway, plant)), server: Server::default() };

    // What iec104 would call: a control centre connects, asks for everything, and switches IOA 103 on; IOA 3 shows it.
    let centre = ConnectionId(1);
    rtu.on_connection_started(centre)?;
    rtu.on_new_objects(Asdu::parse(&[0x64, 0x01, 0x06, 0x00, 0x07, 0x00, 0x00, 0x00, 0x00, 0x14])?, centre)?;
    rtu.on_new_objects(Asdu::parse(&[0x2D, 0x01, 0x06, 0x00, 0x07, 0x00, 0x67, 0x00, 0x00, 0x01])?, centre)?;

    let expected = [
        "to 1:   46 01 04 00 07 00 00 00 00 00",
        "to 1:   64 01 07 00 07 00 00 00 00 14",
        "to 1:   01 02 14 00 07 00 03 00 00 00 0A 00 00 01",
        "to 1:   64 01 0A 00 07 00 00 00 00 14",
        "to all: 01 01 03 00 07 00 03 00 00 01",
        "to 1:   2D 01 07 00 07 00 67 00 00 01",
    ];
    let sent = rtu.server.sent();
    sent.iter().for_each(|line| println!("{line}"));
    assert_eq!(sent, expected);
    Ok(())
}

/// Stands in for the crate iec104: its names, what is sent written down.
mod iec104 {
    use std::error::Error;
    use std::sync::Mutex;

    /// `iec104::asdu::Asdu`: there a header and typed objects, here the octets alone.
    pub struct Asdu(Vec<u8>);

    impl Asdu {
        pub fn parse(bytes: &[u8]) -> Result<Self, Box<dyn Error>> {
            Ok(Self(bytes.to_vec()))
        }

        pub fn to_bytes(&self, buffer: &mut Vec<u8>) -> Result<(), Box<dyn Error>> {
            buffer.extend_from_slice(&self.0);
            Ok(())
        }
    }

    /// `iec104::server::ConnectionId`.
    #[derive(Clone, Copy)]
    pub struct ConnectionId(pub u64);

    /// `iec104::server::ServerCallback`: the two callbacks that matter here, without the peer's address.
    pub trait ServerCallback {
        fn on_new_objects(&self, asdu: Asdu, id: ConnectionId) -> Result<(), Box<dyn Error>>;
        fn on_connection_started(&self, id: ConnectionId) -> Result<(), Box<dyn Error>>;
    }

    /// `iec104::server::Server`.
    #[derive(Default)]
    pub struct Server(Mutex<Vec<String>>);

    impl Server {
        pub fn send_asdu(&self, id: ConnectionId, asdu: Asdu) -> Result<(), Box<dyn Error>> {
            self.write(&format!("to {}:  ", id.0), &asdu);
            Ok(())
        }

        pub fn broadcast_asdu(&self, asdu: Asdu) -> Result<(), Box<dyn Error>> {
            self.write("to all:", &asdu);
            Ok(())
        }

        /// What was sent, in order.
        pub fn sent(&self) -> Vec<String> {
            self.0.lock().map(|lines| lines.clone()).unwrap_or_default()
        }

        fn write(&self, to: &str, asdu: &Asdu) {
            let octets: Vec<_> = asdu.0.iter().map(|octet| format!("{octet:02X}")).collect();
            if let Ok(mut lines) = self.0.lock() {
                lines.push(format!("{to} {}", octets.join(" ")));
            }
        }
    }
}

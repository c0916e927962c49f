//! Ours, not the original's: makes the calls one by one. Messages go into the actor's own channel, and the actor is polled until it waits
//! again; the server stand-in never waits, so one poll does all that a message asks for, with no runtime and no thread.

use std::{
    collections::HashMap,
    future::Future,
    net::{Ipv4Addr, SocketAddr},
    pin::Pin,
    sync::{Arc, Mutex},
    task::{Context, Waker},
};

use tokio::sync::{mpsc, oneshot};

use super::{
    actor::{ActorMsg, NetworkIngress, RegisterPointError, RegisterPointsError, run_actor},
    command_handler::{CommandContext, CommandHandling, RtuCommandHandler},
    model::{PointAddress, PointValue, RtuInitialPoint},
    system_command_handler::{DefaultRtuClockSyncSystemHandler, RtuClockSyncSystemHandler, RtuSystemHandlers, SystemCommandContext},
};
use crate::{
    asdu::Asdu,
    server::{ConnectionId, Server, ServerCallback, error::ServerError},
    types::{FromBytes, InformationObjects},
    types_id::TypeId,
};

/// A point to register; octets past the element are not read.
#[derive(Debug, Clone, PartialEq, Eq)]
pub struct Point {
    pub ca: u16,
    pub ioa: u32,
    pub type_id: u8,
    pub octets: [u8; 12],
    pub interrogation_group: Option<u8>,
    pub counter_group: Option<u8>,
}

/// Points made into the original's own types beforehand, so that their registration alone can be timed.
#[derive(Clone)]
pub struct Batch(Vec<RtuInitialPoint>);

impl Batch {
    pub fn new(points: &[Point]) -> Self {
        let initial = |p: &Point| RtuInitialPoint {
            address: PointAddress::new(p.ca, p.ioa),
            value: value(p.type_id, &p.octets).expect("a point type"),
            interrogation_group: p.interrogation_group,
            counter_group: p.counter_group,
        };
        Self(points.iter().map(initial).collect())
    }
}

/// Why the original refuses a registration.
#[derive(Debug, Clone, Copy, PartialEq, Eq)]
pub enum Refusal {
    InterrogationGroup,
    CounterGroup,
    NoCounter,
    Duplicate,
    AlreadyRegistered,
}

/// What a command handler gives back: updates are points whose groups are not read.
#[derive(Debug, Clone, Default, PartialEq, Eq)]
pub struct Proposal {
    pub negative: bool,
    pub reply_type: u8,
    pub reply: Vec<u8>,
    pub updates: Vec<Point>,
}

/// What was said: ASDUs sent to the connection that asked, and ASDUs broadcast.
#[derive(Debug, Clone, Default, PartialEq, Eq)]
pub struct Answer {
    pub sent: Vec<Vec<u8>>,
    pub broadcast: Vec<Vec<u8>>,
}

/// The original, running.
pub struct Original {
    messages: mpsc::UnboundedSender<ActorMsg>,
    ingress: NetworkIngress,
    actor: Pin<Box<dyn Future<Output = ()>>>,
    server: Server,
    proposal: Arc<Mutex<Proposal>>,
    clock: Arc<Mutex<Option<[u8; 7]>>>,
}

const CONNECTION: ConnectionId = ConnectionId(0);
const PEER: SocketAddr = SocketAddr::new(std::net::IpAddr::V4(Ipv4Addr::LOCALHOST), 2404);

macro_rules! values {
    ($($type_id:ident $name:ident;)*) => {
        /// The value of a point type with these octets; `None` if it is no point type or there are too few.
        fn value(type_id: u8, octets: &[u8]) -> Option<PointValue> {
            match TypeId::from(type_id) {
                $( TypeId::$type_id => FromBytes::from_bytes(octets.get(..TypeId::$type_id.size())?).ok().map(PointValue::$name), )*
                _ => None,
            }
        }
    };
}

values! {
    M_SP_NA_1 MSpNa1; M_SP_TA_1 MSpTa1; M_DP_NA_1 MDpNa1; M_DP_TA_1 MDpTa1; M_ST_NA_1 MStNa1; M_ST_TA_1 MStTa1; M_BO_NA_1 MBoNa1;
    M_ME_NA_1 MMeNa1; M_ME_TA_1 MMeTa1; M_ME_NB_1 MMeNb1; M_ME_TB_1 MMeTb1; M_ME_NC_1 MMeNc1; M_ME_TC_1 MMeTc1; M_IT_NA_1 MItNa1;
    M_EP_TA_1 MEpTa1; M_EP_TB_1 MEpTb1; M_EP_TC_1 MEpTc1; M_PS_NA_1 MPsNa1; M_ME_ND_1 MMeNd1; M_SP_TB_1 MSpTb1; M_DP_TB_1 MDpTb1;
    M_ST_TB_1 MStTb1; M_BO_TB_1 MBoTb1; M_ME_TD_1 MMeTd1; M_ME_TE_1 MMeTe1; M_ME_TF_1 MMeTf1; M_IT_TB_1 MItTb1; M_EP_TD_1 MEpTd1;
    M_EP_TE_1 MEpTe1; M_EP_TF_1 MEpTf1;
}

/// Gives the proposal that was laid ready.
struct Proposing(Arc<Mutex<Proposal>>);

#[async_trait::async_trait]
impl RtuCommandHandler for Proposing {
    async fn handle_command(&self, _: CommandContext<'_>) -> CommandHandling {
        let proposal = std::mem::take(&mut *self.0.lock().unwrap());
        let reply_type_id = TypeId::from(proposal.reply_type);
        let count = proposal.reply.len() / (3 + reply_type_id.size());
        let updates = proposal.updates.iter();
        CommandHandling {
            negative: proposal.negative,
            reply_type_id,
            reply_information_objects: InformationObjects::from_bytes(reply_type_id, false, count as u8, &proposal.reply)
                .expect("whole objects"),
            apply_updates: updates.filter_map(|p| Some((PointAddress::new(p.ca, p.ioa), value(p.type_id, &p.octets)?))).collect(),
        }
    }
}

/// The original's own handler; what it remembered is then looked at.
struct WatchedClock(Arc<Mutex<Option<[u8; 7]>>>);

#[async_trait::async_trait]
impl RtuClockSyncSystemHandler for WatchedClock {
    async fn handle_clock_sync(&self, ctx: &mut SystemCommandContext<'_>, server: &Server) -> Result<(), ServerError> {
        let result = DefaultRtuClockSyncSystemHandler.handle_clock_sync(ctx, server).await;
        *self.0.lock().unwrap() = ctx.last_master_clock.as_ref().map(|time| time.to_bytes());
        result
    }
}

fn poll<T>(future: Pin<&mut (impl Future<Output = T> + ?Sized)>) -> std::task::Poll<T> {
    future.poll(&mut Context::from_waker(Waker::noop()))
}

/// Polls a future that never waits.
fn at_once<T>(future: impl Future<Output = T>) -> T {
    match poll(std::pin::pin!(future)) {
        std::task::Poll::Ready(done) => done,
        std::task::Poll::Pending => unreachable!("nothing here waits"),
    }
}

impl Default for Original {
    fn default() -> Self {
        let (messages, received) = mpsc::unbounded_channel();
        let server = Server::default();
        let proposal = Arc::new(Mutex::new(Proposal::default()));
        let clock = Arc::new(Mutex::new(None));
        let actor = run_actor(
            received,
            server.clone(),
            HashMap::new(),
            HashMap::new(),
            HashMap::new(),
            Arc::new(Proposing(proposal.clone())),
            RtuSystemHandlers::default().with_clock_sync(Arc::new(WatchedClock(clock.clone()))),
        );
        Self { ingress: NetworkIngress::new(messages.clone()), messages, actor: Box::pin(actor), server, proposal, clock }
    }
}

impl Original {
    /// One message to the actor, and what it replies.
    fn ask<T>(&mut self, message: impl FnOnce(oneshot::Sender<T>) -> ActorMsg) -> T {
        let (reply, mut replied) = oneshot::channel();
        assert!(self.messages.send(message(reply)).is_ok(), "the actor listens");
        self.run();
        replied.try_recv().expect("the actor replied")
    }

    /// Lets the actor do all that waits for it.
    fn run(&mut self) {
        assert!(poll(self.actor.as_mut()).is_pending(), "the actor goes on");
    }

    fn said(&mut self) -> Answer {
        self.run();
        let said = self.server.take();
        Answer { sent: said.sent, broadcast: said.broadcast }
    }

    pub fn register(&mut self, point: &Point) -> Result<(), Refusal> {
        let address = PointAddress::new(point.ca, point.ioa);
        let initial = value(point.type_id, &point.octets).expect("a point type");
        let (interrogation_group, counter_group) = (point.interrogation_group, point.counter_group);
        let result = self.ask(|reply| ActorMsg::Register { address, initial, interrogation_group, counter_group, reply });
        result.map_err(|error| match error {
            RegisterPointError::InvalidInterrogationGroup { .. } => Refusal::InterrogationGroup,
            RegisterPointError::InvalidCounterInterrogationGroup { .. } => Refusal::CounterGroup,
            RegisterPointError::CounterGroupRequiresCounterPoint => Refusal::NoCounter,
            RegisterPointError::AlreadyRegistered(_) => Refusal::AlreadyRegistered,
        })
    }

    pub fn register_all(&mut self, points: &[Point]) -> Result<(), Refusal> {
        self.register_batch(Batch::new(points))
    }

    pub fn register_batch(&mut self, batch: Batch) -> Result<(), Refusal> {
        let points = batch.0;
        let result = self.ask(|reply| ActorMsg::RegisterPoints { points, reply });
        result.map_err(|error| match error {
            RegisterPointsError::InvalidInterrogationGroup { .. } => Refusal::InterrogationGroup,
            RegisterPointsError::InvalidCounterInterrogationGroup { .. } => Refusal::CounterGroup,
            RegisterPointsError::CounterGroupRequiresCounterPoint => Refusal::NoCounter,
            RegisterPointsError::DuplicateInInput => Refusal::Duplicate,
            RegisterPointsError::AlreadyInModel { .. } => Refusal::AlreadyRegistered,
        })
    }

    /// Whether the point was there.
    pub fn unregister(&mut self, ca: u16, ioa: u32) -> bool {
        let address = PointAddress::new(ca, ioa);
        self.ask(|reply| ActorMsg::Unregister { address, reply }).is_ok()
    }

    /// How many points were there.
    pub fn unregister_all(&mut self) -> usize {
        self.ask(|reply| ActorMsg::UnregisterAll { reply })
    }

    pub fn connection_started(&mut self) -> Answer {
        at_once(self.ingress.on_connection_started(CONNECTION, PEER));
        self.said()
    }

    /// A system command; `None` if its octets are no ASDU to the original's decoder.
    pub fn system_command(&mut self, asdu: &[u8]) -> Option<Answer> {
        self.process_command(asdu, Proposal::default())
    }

    /// A process command and what the handler proposes; `None` if its octets are no ASDU to the original's decoder.
    pub fn process_command(&mut self, asdu: &[u8], proposal: Proposal) -> Option<Answer> {
        let asdu = Asdu::parse(asdu).ok()?;
        *self.proposal.lock().unwrap() = proposal;
        at_once(self.ingress.on_new_objects(asdu, CONNECTION, PEER));
        Some(self.said())
    }

    /// The last master clock.
    pub fn clock(&self) -> Option<[u8; 7]> {
        *self.clock.lock().unwrap()
    }
}

/// Whether the original reads these octets as an ASDU and writes the same octets back: document 01's domain.
pub fn reads_back(octets: &[u8]) -> bool {
    let mut again = Vec::new();
    Asdu::parse(octets).is_ok_and(|asdu| asdu.to_bytes(&mut again).is_ok()) && again == octets
}

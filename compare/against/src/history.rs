//! A history: a plan, and calls on the table opened under it.

use original::{Point, Proposal};

/// CA, reservation and ceiling of a station.
#[derive(Debug, Clone, Copy, PartialEq, Eq)]
pub struct Station {
    pub ca: u16,
    pub reservation: u16,
    pub ceiling: u16,
}

/// A call. `short`: it is first made with so many octets of memory too few (as far as there are any), which must be refused and change
/// nothing, and then with just enough; without it the memory is larger than the answer.
#[derive(Debug, Clone, PartialEq, Eq)]
pub enum Call {
    Register(Point),
    RegisterAll(Vec<Point>),
    Unregister { ca: u16, ioa: u32 },
    UnregisterAll,
    Started { short: Option<usize> },
    System { asdu: Vec<u8>, short: Option<usize> },
    Process { asdu: Vec<u8>, proposal: Proposal, short: Option<usize>, spontaneous_short: Option<usize> },
}

#[derive(Debug, Clone, PartialEq, Eq)]
pub struct History {
    pub capacity: u32,
    pub plan: Vec<Station>,
    pub calls: Vec<Call>,
}

impl History {
    /// The plan as the C interface takes it.
    pub fn flat_plan(&self) -> Vec<u16> {
        self.plan.iter().flat_map(|s| [s.ca, s.reservation, s.ceiling]).collect()
    }
}

impl Call {
    /// The name of a call, as a line of reference/script.py has it.
    pub fn name(&self) -> &'static str {
        match self {
            Call::Register(_) => "register",
            Call::RegisterAll(_) => "batch",
            Call::Unregister { .. } => "unregister",
            Call::UnregisterAll => "clear",
            Call::Started { .. } => "started",
            Call::System { .. } => "system",
            Call::Process { .. } => "process",
        }
    }

    /// The kind of a call, for the counts that a run prints.
    pub fn kind(&self) -> String {
        let name = self.name();
        match self {
            Call::System { asdu, .. } | Call::Process { asdu, .. } => match asdu.first() {
                Some(kind @ (45..=51 | 58..=64)) if name == "process" => format!("{name} {kind}"),
                Some(kind @ (100..=105 | 107)) if name == "system" => format!("{name} {kind}"),
                _ => format!("{name}, a type not served"),
            },
            _ => name.into(),
        }
    }
}

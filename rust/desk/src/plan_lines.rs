//! The plan as a script writes it: what is wrong with it, line by line, and what it promises.

use khuvelter::{plan, Station};

use crate::language::Statement;
use crate::stop::Stop;
use crate::words::count;

/// A plan, each station with its line.
#[derive(Default)]
pub struct PlanLines {
    capacity: Option<u32>,
    stations: Vec<Station>,
    lines: Vec<usize>,
    /// An `open` has used it: the next plan starts with a capacity.
    used: bool,
}

impl PlanLines {
    /// Takes a line of the plan.
    pub fn take(&mut self, line: usize, statement: &Statement) -> Result<(), Stop> {
        match *statement {
            Statement::Capacity(_) if self.capacity.is_some() && !self.used => {
                Err(Stop::bad(line, "this plan has a capacity already"))
            }
            Statement::Capacity(capacity) => {
                *self = Self { capacity: Some(capacity), ..Self::default() };
                Ok(())
            }
            Statement::Station(_) if self.capacity.is_none() || self.used => {
                Err(Stop::bad(line, "a plan starts with its capacity; stations follow"))
            }
            Statement::Station(station) => {
                self.stations.push(station);
                self.lines.push(line);
                Ok(())
            }
            _ => Ok(()),
        }
    }

    /// The capacity and the stations; a bad line if there is no plan.
    pub fn written(&self, line: usize) -> Result<(u32, &[Station]), Stop> {
        match self.capacity {
            Some(capacity) => Ok((capacity, &self.stations)),
            None => Err(Stop::bad(line, "there is no plan: it starts with 'capacity'")),
        }
    }

    /// It has been opened, or looked at instead.
    pub fn use_up(&mut self) {
        self.used = true;
    }

    /// Has it been opened?
    pub fn is_used(&self) -> bool {
        self.used
    }

    /// What is wrong with it, a sentence for each fault; nothing if it can be opened.
    pub fn faults(&self) -> Vec<String> {
        let faults = plan::faults(self.capacity.unwrap_or(0), &self.stations);
        let sentence = |fault: &plan::PlanFault| match fault.station() {
            Some(at) => format!("line {}: {fault}", self.lines[at]),
            None => fault.to_string(),
        };
        faults.iter().map(sentence).collect()
    }

    /// What a plan that can be opened promises.
    pub fn promises(&self) -> Vec<String> {
        let (capacity, stations) = (self.capacity.unwrap_or(0), &self.stations);
        let (sold, ceilings) = (plan::reserved(stations), plan::ceilings(stations));
        let octets = plan::table_octets(capacity, stations.len());
        let mut promises = vec![
            format!("{capacity} points, {}, {octets} octets of table", count(stations.len(), "station", "stations")),
            format!(
                "{sold} points are reserved, {} may still be sold (capacity minus all reservations)",
                capacity.saturating_sub(sold)
            ),
        ];
        if ceilings < capacity {
            let never = capacity - ceilings;
            promises.push(format!("the ceilings add up to {ceilings}, so {never} points can never be used"));
        }
        let empty = stations.iter().filter(|station| station.ceiling == 0);
        promises.extend(empty.map(|station| format!("station {} has a ceiling of 0 and can hold nothing", station.ca)));
        promises
    }
}

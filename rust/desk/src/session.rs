//! One script at work: a plan, a gateway, the last call and what was expected of it.

use std::collections::BTreeMap;
use std::io::Write;

use khuvelter::{Asdu, Asdus, Fault, Gateway, Point, Refusal};

use crate::board;
use crate::call::Call;
use crate::language::{statement, Sending, Statement};
use crate::plan_lines::PlanLines;
use crate::progress::Progress;
use crate::stop::Stop;
use crate::style::{Ink, Style};
use crate::words::{self, count};
use crate::HELP;

/// The most points of a batch: far more than any gateway takes.
const MOST_IN_BATCH: usize = 65_536;

/// Points that have gone in since something else was said.
struct Loading {
    points: usize,
    progress: Progress,
}

/// One script at work.
pub struct Session {
    style: Style,
    brief: bool,
    check_only: bool,
    /// A heading was the last thing said: what follows stands close to it.
    headed: bool,
    plan: PlanLines,
    gateway: Option<Gateway>,
    batch: Option<(usize, Vec<(usize, Point)>)>,
    loading: Option<Loading>,
    call: Option<Call>,
    refused: usize,
    different: usize,
}

impl Session {
    /// A session with no plan.
    pub fn new(style: Style, brief: bool, check_only: bool) -> Self {
        Self {
            style,
            brief,
            check_only,
            headed: false,
            plan: PlanLines::default(),
            gateway: None,
            batch: None,
            loading: None,
            call: None,
            refused: 0,
            different: 0,
        }
    }

    /// What went wrong in all, if anything did.
    pub fn troubles(&self) -> Option<String> {
        let counted = [
            (self.refused, "refusal that was not expected", "refusals that were not expected"),
            (self.different, "call was not as expected", "calls were not as expected"),
        ];
        let troubles: Vec<_> =
            counted.iter().filter(|row| row.0 > 0).map(|&(number, one, more)| count(number, one, more)).collect();
        (!troubles.is_empty()).then(|| troubles.join(", "))
    }

    /// Reads and runs one line.
    pub fn line(&mut self, line: usize, text: &str, out: &mut impl Write) -> Result<(), Stop> {
        let statement = statement(text);
        // What has been done is told before a bad line is.
        if !matches!(statement, Ok(Statement::Nothing | Statement::Expect(_))) {
            self.settle(out)?;
        }
        if !matches!(statement, Ok(Statement::Nothing | Statement::Point(_) | Statement::Points(_))) {
            self.loaded(out)?;
        }
        let statement = statement.map_err(|reason| Stop::bad(line, reason).with_text(text))?;
        let run = if self.check_only {
            self.plan_only(line, statement, out)
        } else if self.batch.is_some() {
            self.in_batch(line, statement, out)
        } else {
            self.run(line, statement, out)
        };
        run.map_err(|stop| stop.with_text(text))
    }

    /// The script has ended.
    pub fn end(&mut self, line: usize, out: &mut impl Write) -> Result<(), Stop> {
        self.settle(out)?;
        self.loaded(out)?;
        if let Some((start, _)) = self.batch {
            let reason = format!("the batch of line {start} has no 'end'; its points were not registered");
            return Err(Stop::bad(line, reason));
        }
        if self.check_only && !self.plan.is_used() {
            self.check(line, out)?;
            self.settle(out)?;
        }
        Ok(())
    }

    /// Runs one statement.
    fn run(&mut self, line: usize, statement: Statement, out: &mut impl Write) -> Result<(), Stop> {
        match statement {
            Statement::Nothing => {}
            Statement::Help => write!(out, "{HELP}")?,
            Statement::Say(words) => {
                writeln!(out, "\n{}", self.style.paint(Ink::Title, &words))?;
                self.headed = true;
            }
            Statement::Brief(brief) => self.brief = brief,
            Statement::Capacity(_) | Statement::Station(_) => self.plan.take(line, &statement)?,
            Statement::Check => self.check(line, out)?,
            Statement::Open => self.open(line, out)?,
            Statement::Point(point) => self.register(line, &point, out)?,
            Statement::Points(points) => {
                let points: Vec<_> = points.into_iter().map(|point| (line, point)).collect();
                self.register_all(line, &points, out)?;
            }
            Statement::Batch => self.batch = Some((line, Vec::new())),
            Statement::End => return Err(Stop::bad(line, "there is no batch to end")),
            Statement::Remove(ca, ioa) => {
                let said = self.gateway(line)?.unregister(ca, ioa);
                let done = said.map(|()| format!("removed: CA {ca} IOA {ioa}"));
                self.told(line, done, out)?;
            }
            Statement::RemoveAll => {
                let said = self.gateway(line)?.unregister_all();
                let done = said.map(|points| format!("removed: all {}", count(points, "point", "points")));
                self.told(line, done, out)?;
            }
            Statement::Shares => self.shares(line, out)?,
            Statement::Connect => {
                let said = self.gateway(line)?.connection_started();
                self.space(out)?;
                writeln!(out, "> a connection has started")?;
                self.answered(line, said.map(|answer| (answer.into_octets(), Vec::new())), out)?;
            }
            Statement::Send(sending) => self.send(line, &sending, out)?,
            Statement::Expect(expectation) => match &mut self.call {
                Some(call) => call.expected.push(expectation),
                None => return Err(Stop::bad(line, "there is no call above that anything is expected of")),
            },
        }
        Ok(())
    }

    /// Looks at the plans of a script and nothing else.
    fn plan_only(&mut self, line: usize, statement: Statement, out: &mut impl Write) -> Result<(), Stop> {
        match statement {
            Statement::Capacity(_) | Statement::Station(_) => self.plan.take(line, &statement),
            Statement::Open => {
                self.check(line, out)?;
                self.plan.use_up();
                Ok(())
            }
            _ => Ok(()),
        }
    }

    /// A statement inside a batch.
    fn in_batch(&mut self, line: usize, statement: Statement, out: &mut impl Write) -> Result<(), Stop> {
        let Some((start, points)) = &mut self.batch else {
            return Ok(());
        };
        match statement {
            Statement::Nothing => {}
            Statement::Point(point) => points.push((line, point)),
            Statement::Points(more) => points.extend(more.into_iter().map(|point| (line, point))),
            Statement::End => {
                let points = std::mem::take(points);
                self.batch = None;
                return self.register_all(line, &points, out);
            }
            _ => {
                let reason = format!("only points stand in a batch; the one of line {start} has no 'end' yet");
                return Err(Stop::bad(line, reason));
            }
        }
        if points.len() > MOST_IN_BATCH {
            return Err(Stop::bad(line, format!("the batch of line {start} has more than {MOST_IN_BATCH} points")));
        }
        Ok(())
    }

    /// The gateway, which must be open.
    fn gateway(&mut self, line: usize) -> Result<&mut Gateway, Stop> {
        self.gateway.as_mut().ok_or_else(|| Stop::bad(line, "no gateway is open: a plan and 'open' come first"))
    }

    // ---- the plan

    /// Says whether the plan can be opened: what is wrong with it, or what it promises.
    fn check(&mut self, line: usize, out: &mut impl Write) -> Result<(), Stop> {
        self.plan.written(line)?;
        let faults = self.plan.faults();
        self.called(line, if faults.is_empty() { 0 } else { 10 }, Vec::new(), Vec::new());
        if !faults.is_empty() {
            return self.say_faults(&faults, out);
        }
        writeln!(out, "{}", self.style.paint(Ink::Good, "The plan can be opened."))?;
        for promise in self.plan.promises() {
            writeln!(out, "  {promise}")?;
        }
        Ok(())
    }

    /// Says what is wrong with the plan.
    fn say_faults(&self, faults: &[String], out: &mut impl Write) -> Result<(), Stop> {
        writeln!(out, "{}", self.style.paint(Ink::Bad, "The plan cannot be opened."))?;
        for fault in faults {
            writeln!(out, "  {fault}")?;
        }
        Ok(())
    }

    /// Opens a gateway under the plan; what is wrong is said before.
    fn open(&mut self, line: usize, out: &mut impl Write) -> Result<(), Stop> {
        let (capacity, stations) = self.plan.written(line)?;
        let opened = Gateway::open(capacity, stations);
        let what = format!("open: {capacity} points, {}", count(stations.len(), "station", "stations"));
        let faults = self.plan.faults();
        if !faults.is_empty() {
            self.say_faults(&faults, out)?;
        }
        self.plan.use_up();
        let said = opened.map(|gateway| {
            self.gateway = Some(gateway);
            what
        });
        self.told(line, said, out)
    }

    // ---- points

    /// Registers one point; those that go in are counted, not told one by one.
    fn register(&mut self, line: usize, point: &Point, out: &mut impl Write) -> Result<(), Stop> {
        match self.gateway(line)?.register(point) {
            Ok(()) => {
                self.count_loaded(1);
                self.called(line, 0, Vec::new(), Vec::new());
                Ok(())
            }
            Err(refusal) => {
                let what = format!("point CA {} IOA {}", point.ca, point.ioa);
                self.refuse(line, refusal, &what, Some(point), out)
            }
        }
    }

    /// Registers a batch, each point with its line.
    fn register_all(&mut self, line: usize, points: &[(usize, Point)], out: &mut impl Write) -> Result<(), Stop> {
        let batch: Vec<_> = points.iter().map(|(_, point)| *point).collect();
        match self.gateway(line)?.register_all(&batch) {
            Ok(()) => {
                self.count_loaded(points.len());
                self.called(line, 0, Vec::new(), Vec::new());
                Ok(())
            }
            Err(refusal) => {
                let faulty = refusal.place().and_then(|place| points.get(place));
                let all = count(points.len(), "point", "points");
                let what = match faulty {
                    Some((at, point)) => format!(
                        "none of the {all} went in; the first at fault is point {}, counted from 0 (line {at}, CA {} IOA {})",
                        refusal.place().unwrap_or_default(),
                        point.ca,
                        point.ioa
                    ),
                    None => format!("none of the {all} went in"),
                };
                self.refuse(line, refusal, &what, faulty.map(|(_, point)| point), out)
            }
        }
    }

    /// Counts points that went in, and shows how far it is.
    fn count_loaded(&mut self, points: usize) {
        let loading = self.loading.get_or_insert_with(|| Loading { points: 0, progress: Progress::new() });
        loading.points += points;
        loading.progress.show(loading.points);
    }

    /// Says how many points went in since something else was said.
    fn loaded(&mut self, out: &mut impl Write) -> Result<(), Stop> {
        if let Some(Loading { points, progress }) = self.loading.take() {
            drop(progress);
            writeln!(out, "registered: {}", count(points, "point", "points"))?;
        }
        Ok(())
    }

    /// The board of the stations.
    fn shares(&mut self, line: usize, out: &mut impl Write) -> Result<(), Stop> {
        let style = self.style;
        self.gateway(line)?;
        self.space(out)?;
        let gateway = self.gateway(line)?;
        match gateway.shares() {
            Ok(shares) => {
                for row in board::board(style, gateway.capacity(), gateway.plan(), &shares) {
                    writeln!(out, "{row}")?;
                }
                Ok(())
            }
            Err(refusal) => self.refuse(line, refusal, "shares", None, out),
        }
    }

    // ---- commands

    /// Sends a command to the entry of its type.
    fn send(&mut self, line: usize, sending: &Sending, out: &mut impl Write) -> Result<(), Stop> {
        let gateway = self.gateway(line)?;
        let said = match (&sending.proposal, sending.room) {
            (Some(proposal), None) => gateway
                .process_command(&sending.asdu, proposal)
                .map(|said| (said.answer.into_octets(), said.spontaneous.into_octets())),
            (Some(proposal), Some(room)) => {
                let (mut answer, mut told) = (vec![0; room.min(249)], vec![0; 21 * proposal.updates.len()]);
                gateway.process_command_into(&sending.asdu, proposal, &mut answer, &mut told).map(|(answered, tell)| {
                    answer.truncate(answered);
                    told.truncate(tell);
                    (answer, told)
                })
            }
            (None, None) => gateway.system_command(&sending.asdu).map(|answer| (answer.into_octets(), Vec::new())),
            (None, Some(room)) => {
                let mut answer = vec![0; room.min(Gateway::most_system_answer(gateway.capacity()))];
                gateway.system_command_into(&sending.asdu, &mut answer).map(|answered| {
                    answer.truncate(answered);
                    (answer, Vec::new())
                })
            }
        };
        self.space(out)?;
        self.show(">", &sending.asdu, out)?;
        if let Some(room) = sending.room {
            writeln!(out, "    room for the answer: {}", count(room, "octet", "octets"))?;
        }
        self.answered(line, said, out)
    }

    /// A blank line, but not under a heading.
    fn space(&mut self, out: &mut impl Write) -> Result<(), Stop> {
        if !std::mem::take(&mut self.headed) {
            writeln!(out)?;
        }
        Ok(())
    }

    /// Says what a command was answered.
    fn answered(
        &mut self,
        line: usize,
        said: Result<(Vec<u8>, Vec<u8>), Refusal>,
        out: &mut impl Write,
    ) -> Result<(), Stop> {
        let (answer, told) = match said {
            Ok(said) => said,
            Err(refusal) => return self.refuse(line, refusal, "", None, out),
        };
        if answer.is_empty() {
            writeln!(out, "  silent (number 1): nothing is said, nothing changes")?;
            self.called(line, 1, answer, told);
            return Ok(());
        }
        for (mark, run) in [("*", &told), ("<", &answer)] {
            if !self.brief {
                for asdu in Asdus::of(run) {
                    self.show(mark, asdu.octets(), out)?;
                }
            }
        }
        let asdus = Asdus::of(&answer).count();
        writeln!(
            out,
            "  done: {}, {}{}",
            count(asdus, "ASDU", "ASDUs"),
            count(answer.len(), "octet", "octets"),
            points_in(&answer)
        )?;
        if !told.is_empty() {
            let asdus = Asdus::of(&told).count();
            writeln!(
                out,
                "  told to every connection (*): {}, {}",
                count(asdus, "ASDU", "ASDUs"),
                count(told.len(), "octet", "octets")
            )?;
        }
        self.called(line, 0, answer, told);
        Ok(())
    }

    /// Shows an ASDU: octets, then words.
    fn show(&self, mark: &str, octets: &[u8], out: &mut impl Write) -> Result<(), Stop> {
        for (at, octets) in words::hex_lines(octets).iter().enumerate() {
            writeln!(out, "{} {octets}", if at == 0 { mark } else { " " })?;
        }
        match Asdu::read(octets) {
            Some(asdu) => {
                writeln!(out, "    {}", words::head(&asdu))?;
                if !self.brief {
                    for object in words::objects(&asdu) {
                        writeln!(out, "      {object}")?;
                    }
                }
            }
            None => writeln!(out, "    {}", self.style.paint(Ink::Faint, "not an ASDU that can be read"))?,
        }
        Ok(())
    }

    // ---- what calls gave, and what was expected

    /// Remembers a call for what is expected of it.
    fn called(&mut self, line: usize, number: u32, answer: Vec<u8>, told: Vec<u8>) {
        self.call = Some(Call { line, number, answer, told, expected: Vec::new() });
    }

    /// Says how a call went that gives no octets.
    fn told(&mut self, line: usize, said: Result<String, Refusal>, out: &mut impl Write) -> Result<(), Stop> {
        match said {
            Ok(done) => {
                writeln!(out, "{done}")?;
                self.called(line, 0, Vec::new(), Vec::new());
                Ok(())
            }
            Err(refusal) => self.refuse(line, refusal, "", None, out),
        }
    }

    /// Says that a call was refused, and why.
    fn refuse(
        &mut self,
        line: usize,
        refusal: Refusal,
        what: &str,
        point: Option<&Point>,
        out: &mut impl Write,
    ) -> Result<(), Stop> {
        self.loaded(out)?;
        let fault = refusal.fault();
        let refused = self.style.paint(Ink::Bad, &format!("refused, {fault}"));
        writeln!(out, "  line {line}: {refused}")?;
        if !what.is_empty() {
            writeln!(out, "    {what}")?;
        }
        if let Some(why) = point.and_then(|point| self.room_in_words(fault, point)) {
            writeln!(out, "    {why}")?;
        }
        self.called(line, refusal.number(), Vec::new(), Vec::new());
        Ok(())
    }

    /// Why there is no room for a point, in words.
    fn room_in_words(&self, fault: Fault, point: &Point) -> Option<String> {
        let share = self.gateway.as_ref()?.share(point.ca).ok()?;
        let can = share.can_take_now();
        match fault {
            Fault::CeilingReached => Some(format!(
                "station {} holds {} of a ceiling of {}: it can take {can} more",
                share.ca, share.held, share.ceiling
            )),
            Fault::NotAdmitted => Some(format!(
                "station {} holds {}, reserved {}: it can take {can} more ({} points are free, {} of them kept for reservations)",
                share.ca, share.held, share.reservation, share.free, share.unmet
            )),
            _ => None,
        }
    }

    /// Holds the last call to what was expected of it.
    fn settle(&mut self, out: &mut impl Write) -> Result<(), Stop> {
        let Some(call) = self.call.take() else { return Ok(()) };
        if call.expected.is_empty() {
            self.refused += usize::from(call.number > 1);
            return Ok(());
        }
        self.loaded(out)?;
        let differences = call.differences();
        if differences.is_empty() {
            writeln!(out, "  {}", self.style.paint(Ink::Good, "= as expected"))?;
        } else {
            self.different += 1;
            writeln!(out, "  {}", self.style.paint(Ink::Bad, &format!("NOT AS EXPECTED (line {})", call.line)))?;
            for difference in differences {
                writeln!(out, "    {difference}")?;
            }
        }
        Ok(())
    }
}

/// The points of an answer by type, as `: 2 M_SP_NA_1, 1 M_IT_NA_1`; nothing if it has none.
fn points_in(answer: &[u8]) -> String {
    let mut counts = BTreeMap::new();
    for asdu in Asdus::of(answer).filter(|asdu| asdu.type_id() < 45) {
        *counts.entry((asdu.type_id(), asdu.type_name())).or_insert(0) += asdu.count();
    }
    let counts: Vec<_> = counts.iter().map(|((_, name), count)| format!("{count} {name}")).collect();
    if counts.is_empty() {
        String::new()
    } else {
        format!(": {}", counts.join(", "))
    }
}

//! The master: boots the listed slaves, watches them, and says when the bench may go.

use crate::frame::{Answer, Command, Frame, Malformed, Saying, Sign, ANSWER, ERROR_CONTROL};
use crate::port::Port;
use crate::sheet::{Sheet, Slave};

/// Ticks before a failed slave tries anew, and the longest wait for a boot-up after a reset.
const PATIENCE: u64 = 1000;
/// A deadline that never comes.
const NEVER: u64 = u64::MAX;
const UNLISTED: u8 = u8::MAX;

/// The result of a slave.
#[derive(Clone, Copy, Debug, PartialEq, Eq)]
pub enum Letter {
    /// Not listed.
    A,
    /// The device type was not answered.
    B,
    /// Another device type.
    C,
    /// Another vendor.
    D,
    /// No heartbeat of a slave that might be running, or lost.
    E,
    /// A set was not written.
    J,
    /// No heartbeat at the end of the checks.
    K,
    /// Found running.
    L,
    /// Another product code.
    M,
    /// Another revision.
    N,
    /// Another serial number.
    O,
    Ok,
}

impl Letter {
    pub fn name(self) -> &'static str {
        match self {
            Letter::A => "A",
            Letter::B => "B",
            Letter::C => "C",
            Letter::D => "D",
            Letter::E => "E",
            Letter::J => "J",
            Letter::K => "K",
            Letter::L => "L",
            Letter::M => "M",
            Letter::N => "N",
            Letter::O => "O",
            Letter::Ok => "OK",
        }
    }
}

#[derive(Clone, Copy, Debug, PartialEq, Eq)]
pub enum Heard {
    Used,
    Unused,
}

#[derive(Clone, Copy, Debug, PartialEq, Eq)]
pub enum Work {
    Put,
    NothingDue,
}

/// Why `work` declines.
#[derive(Clone, Copy, Debug, PartialEq, Eq)]
pub enum Refused {
    Halted,
    NoRoom,
}

impl Refused {
    pub fn number(self) -> u8 {
        match self {
            Refused::Halted => 12,
            Refused::NoRoom => 13,
        }
    }
}

/// A node that does not exist was asked for (refusal 10).
#[derive(Clone, Copy, Debug, PartialEq, Eq)]
pub struct NoSuchNode;

/// A request of a try.
#[derive(Clone, Copy, Debug, PartialEq, Eq)]
enum Query {
    DeviceType,
    /// A sub-index of the identity object, 1 to 4.
    Identity(u8),
    /// A set of the sheet, from 0.
    Set(u8),
}

#[derive(Clone, Copy, Debug, PartialEq, Eq)]
enum Stage {
    AwaitBootUp,
    /// The request is due.
    ToAsk(Query),
    /// The request is open.
    Asked(Query),
    /// Is the slave running already?
    ListenState,
    /// Does the slave send heartbeats?
    ListenControl { running: bool },
    Passed { running: bool, started: bool },
    /// A failed slave, until it tries anew.
    Pausing,
    ResetDue(Command),
}

/// The latest thing heard from a slave or done to it.
#[derive(Clone, Copy, Debug, PartialEq, Eq)]
enum LastWord {
    Silence,
    Said(Sign),
    Reset,
    Lost,
}

#[derive(Clone, Copy, Debug)]
struct Entry {
    /// The tick at which the stage's wait runs out.
    deadline: u64,
    stage: Stage,
    last_word: LastWord,
    /// A boot-up was heard since the session began or the last reset.
    booted: bool,
    /// It has passed or failed at least once.
    seen: bool,
    result: Option<Letter>,
}

impl Entry {
    fn passed(&self) -> bool {
        matches!(self.stage, Stage::Passed { .. })
    }

    fn enter(&mut self, stage: Stage, deadline: u64) {
        self.stage = stage;
        self.deadline = deadline;
    }

    /// A reset was put that names or covers the slave.
    fn reset(&mut self, now: u64) {
        self.enter(Stage::AwaitBootUp, now + PATIENCE);
        self.last_word = LastWord::Reset;
        self.booted = false;
        self.result = None;
    }
}

/// A round of resets over the whole cable.
#[derive(Clone, Copy, Debug)]
struct Sweep {
    command: Command,
    /// None until the first reset is put; then the node to go on from, one by one.
    next: Option<u8>,
}

impl Sweep {
    fn new(command: Command) -> Sweep {
        Sweep { command, next: None }
    }
}

#[derive(Clone, Copy, Debug, PartialEq, Eq)]
enum Condition {
    Running,
    StopDue,
    Halted,
}

/// What a work would put.
enum Job {
    Stop,
    SweepAll(Command),
    SweepNode(Command, u8),
    Reset(usize, Command),
    Ask(usize, Query),
    Start(usize),
    StartAll(usize),
}

pub struct Master {
    sheet: Sheet,
    /// One for each slave of the sheet, in the same order.
    entries: Vec<Entry>,
    /// Where a node's entry is.
    places: [u8; 128],
    port: Port,
    /// Ticks since the session began.
    now: u64,
    sweep: Option<Sweep>,
    condition: Condition,
    /// The place where the search for the next duty begins.
    turn: usize,
    /// Some start was put.
    started: bool,
}

impl Master {
    pub fn new(sheet: Sheet) -> Master {
        let mut places = [UNLISTED; 128];
        for (place, slave) in sheet.slaves.iter().enumerate() {
            places[usize::from(slave.node)] = place as u8;
        }
        let entries = sheet.slaves.iter().map(|slave| Entry {
            deadline: NEVER,
            stage: if slave.keep { Stage::ToAsk(Query::DeviceType) } else { Stage::AwaitBootUp },
            last_word: LastWord::Silence,
            booted: false,
            seen: false,
            result: None,
        });
        Master {
            entries: entries.collect(),
            places,
            port: Port::new(sheet.inhibit),
            now: 0,
            sweep: Some(Sweep::new(Command::ResetCommunication)),
            condition: Condition::Running,
            turn: 0,
            started: false,
            sheet,
        }
    }

    pub fn sheet(&self) -> &Sheet {
        &self.sheet
    }

    /// Every slave that is needed has passed, and every other has at least been tried.
    pub fn go(&self) -> bool {
        self.entries.iter().zip(&self.sheet.slaves).all(|(entry, slave)| {
            if slave.mandatory {
                entry.passed()
            } else {
                entry.seen
            }
        })
    }

    pub fn halted(&self) -> bool {
        self.condition == Condition::Halted
    }

    /// The result of a node, or None if there is none yet.
    pub fn result(&self, node: u8) -> Result<Option<Letter>, NoSuchNode> {
        match node {
            1..=127 => Ok(match self.place(node) {
                Some(place) => self.entries[place].result,
                None => Some(Letter::A),
            }),
            _ => Err(NoSuchNode),
        }
    }

    /// The next frame for the bus.
    pub fn take(&mut self) -> Option<Frame> {
        self.port.take()
    }

    /// A frame came in.
    pub fn heard(&mut self, id: u32, data: &[u8]) -> Result<Heard, Malformed> {
        let frame = Frame::new(id, data)?;
        if self.condition != Condition::Running {
            return Ok(Heard::Unused);
        }
        let Some(place) = self.place((frame.id() & 0x7F) as u8) else {
            return Ok(Heard::Unused);
        };
        let used = match frame.id() & !0x7F {
            ERROR_CONTROL => match Sign::read(frame.data()) {
                Some(sign) => {
                    self.sign(place, sign);
                    true
                }
                None => false,
            },
            ANSWER => Answer::read(frame.data()).is_some_and(|answer| self.answer(place, answer)),
            _ => false,
        };
        Ok(if used { Heard::Used } else { Heard::Unused })
    }

    /// A millisecond has gone by.
    pub fn tick(&mut self) {
        if self.condition == Condition::Running {
            self.now += 1;
            for place in 0..self.entries.len() {
                if self.entries[place].deadline == self.now {
                    self.run_out(place);
                    if self.condition != Condition::Running {
                        break;
                    }
                }
            }
        }
        self.port.tick();
    }

    /// Puts the one frame that is due first.
    pub fn work(&mut self) -> Result<Work, Refused> {
        if self.condition == Condition::Halted {
            return Err(Refused::Halted);
        }
        let Some(job) = self.job() else {
            // Had there been a node left to reset, that would be the job.
            self.sweep = None;
            return Ok(Work::NothingDue);
        };
        if self.port.room() == 0 {
            return Err(Refused::NoRoom);
        }
        let frame = self.perform(job);
        self.port.put(frame);
        Ok(Work::Put)
    }

    fn place(&self, node: u8) -> Option<usize> {
        match self.places[usize::from(node)] {
            UNLISTED => None,
            place => Some(usize::from(place)),
        }
    }

    /// May the slave at this place be running, so that it must not be reset?
    fn spared(&self, place: usize) -> bool {
        self.sheet.slaves[place].keep
            && matches!(
                self.entries[place].last_word,
                LastWord::Silence | LastWord::Said(Sign::Operational)
            )
    }

    // What is due.

    fn job(&self) -> Option<Job> {
        if self.condition == Condition::StopDue {
            return Some(Job::Stop);
        }
        self.sweep.and_then(|sweep| self.sweep_job(sweep)).or_else(|| self.duty())
    }

    fn sweep_job(&self, sweep: Sweep) -> Option<Job> {
        let from = match sweep.next {
            Some(next) => next,
            None if !(0..self.entries.len()).any(|place| self.spared(place)) => {
                return Some(Job::SweepAll(sweep.command));
            }
            None => 1,
        };
        (from..=127)
            .find(|&node| {
                node != self.sheet.own && !self.place(node).is_some_and(|place| self.spared(place))
            })
            .map(|node| Job::SweepNode(sweep.command, node))
    }

    /// The duty of the next slave that has one, from the turn on and around.
    fn duty(&self) -> Option<Job> {
        // Go is asked only if a start is owed, and then once.
        let mut go = None;
        let (before, after) = self.entries.split_at(self.turn);
        let around = (self.turn..).zip(after).chain((0..).zip(before));
        for (place, entry) in around {
            match entry.stage {
                Stage::ResetDue(command) => return Some(Job::Reset(place, command)),
                Stage::ToAsk(query) => return Some(Job::Ask(place, query)),
                Stage::Passed { running: false, started: false } => {
                    if *go.get_or_insert_with(|| self.go()) {
                        let all = self.sheet.startall
                            && !self.started
                            && self.entries.iter().all(Entry::passed);
                        return Some(if all { Job::StartAll(place) } else { Job::Start(place) });
                    }
                }
                _ => {}
            }
        }
        None
    }

    // Doing it.

    /// Does everything but the put, and gives the frame.
    fn perform(&mut self, job: Job) -> Frame {
        match job {
            Job::Stop => {
                self.condition = Condition::Halted;
                Frame::command(Command::Stop, 0)
            }
            Job::SweepAll(command) => {
                self.sweep = None;
                for entry in &mut self.entries {
                    entry.reset(self.now);
                }
                Frame::command(command, 0)
            }
            Job::SweepNode(command, node) => {
                self.sweep = Some(Sweep { command, next: Some(node + 1) });
                if let Some(place) = self.place(node) {
                    self.entries[place].reset(self.now);
                }
                Frame::command(command, node)
            }
            Job::Reset(place, command) => {
                self.serve(place);
                self.entries[place].reset(self.now);
                Frame::command(command, self.sheet.slaves[place].node)
            }
            Job::Ask(place, query) => {
                self.serve(place);
                let deadline = self.now + u64::from(self.sheet.wait);
                self.entries[place].enter(Stage::Asked(query), deadline);
                request(&self.sheet.slaves[place], query)
            }
            Job::Start(place) => {
                self.serve(place);
                self.started = true;
                mark_started(&mut self.entries[place]);
                Frame::command(Command::Start, self.sheet.slaves[place].node)
            }
            Job::StartAll(place) => {
                self.serve(place);
                self.started = true;
                self.entries.iter_mut().for_each(mark_started);
                Frame::command(Command::Start, 0)
            }
        }
    }

    /// It is this slave's turn; no sweep is left then.
    fn serve(&mut self, place: usize) {
        self.sweep = None;
        self.turn = (place + 1) % self.entries.len();
    }

    // What comes in.

    fn sign(&mut self, place: usize, sign: Sign) {
        let slave = &self.sheet.slaves[place];
        let entry = &mut self.entries[place];
        entry.last_word = LastWord::Said(sign);
        if sign == Sign::BootUp {
            entry.booted = true;
            entry.result = None;
            entry.enter(Stage::ToAsk(Query::DeviceType), NEVER);
            return;
        }
        let operational = sign == Sign::Operational;
        let reset = Stage::ResetDue(Command::ResetCommunication);
        match entry.stage {
            Stage::ListenState if operational => self.listen(place, true),
            Stage::ListenState => entry.enter(reset, NEVER),
            Stage::ListenControl { running: true } if !operational => entry.enter(reset, NEVER),
            Stage::ListenControl { running } => self.pass(place, running),
            Stage::Passed { .. } if slave.hb > 0 => entry.deadline = self.now + u64::from(slave.hb),
            Stage::ResetDue(_) if operational && slave.keep => {
                entry.enter(Stage::ToAsk(Query::DeviceType), NEVER);
            }
            _ => {}
        }
    }

    /// Says whether the answer fits the open request, if there is one.
    fn answer(&mut self, place: usize, answer: Answer) -> bool {
        let Stage::Asked(query) = self.entries[place].stage else {
            return false;
        };
        let slave = &self.sheet.slaves[place];
        if (answer.index, answer.sub) != object(slave, query) {
            return false;
        }
        let met = match (query, answer.saying) {
            (_, Saying::Abort) => false,
            (Query::Set(_), Saying::Written) => true,
            (Query::Set(_), Saying::Value(_)) => return false,
            (_, Saying::Written) => return false,
            (Query::DeviceType, Saying::Value(value)) => {
                if slave.device_type != 0 && value != slave.device_type {
                    self.fail(place, Letter::C);
                    return true;
                }
                true
            }
            (Query::Identity(sub), Saying::Value(value)) => value == identity(slave, sub),
        };
        if met {
            self.answered(place, query);
        } else {
            self.fail(place, unanswered(query));
        }
        true
    }

    /// The wait of the slave at this place has run out.
    fn run_out(&mut self, place: usize) {
        match self.entries[place].stage {
            Stage::AwaitBootUp | Stage::Pausing => {
                self.entries[place].enter(Stage::ToAsk(Query::DeviceType), NEVER);
            }
            Stage::Asked(query) => self.fail(place, unanswered(query)),
            Stage::ListenState => self.fail(place, Letter::E),
            Stage::ListenControl { .. } => self.fail(place, Letter::K),
            Stage::Passed { .. } => self.lose(place),
            Stage::ToAsk(_) | Stage::ResetDue(_) => {}
        }
    }

    // How a try goes on.

    /// The query is met; what comes next?
    fn answered(&mut self, place: usize, query: Query) {
        let slave = &self.sheet.slaves[place];
        let asked = match query {
            Query::DeviceType => 0,
            Query::Identity(sub) => sub,
            Query::Set(k) => return self.write_from(place, k + 1),
        };
        let entry = &mut self.entries[place];
        if let Some(sub) = (asked + 1..=4).find(|&sub| identity(slave, sub) != 0) {
            entry.enter(Stage::ToAsk(Query::Identity(sub)), NEVER);
        } else if slave.keep && !entry.booted {
            entry.enter(Stage::ListenState, self.now + u64::from(slave.hb));
        } else {
            self.write_from(place, 0);
        }
    }

    /// Writes the sets from this one on, if there are any left.
    fn write_from(&mut self, place: usize, k: u8) {
        if usize::from(k) < self.sheet.slaves[place].sets.len() {
            self.entries[place].enter(Stage::ToAsk(Query::Set(k)), NEVER);
        } else {
            self.listen(place, false);
        }
    }

    /// The last check: heartbeats, where the slave sends them.
    fn listen(&mut self, place: usize, running: bool) {
        match self.sheet.slaves[place].hb {
            0 => self.pass(place, running),
            hb => {
                let deadline = self.now + u64::from(hb);
                self.entries[place].enter(Stage::ListenControl { running }, deadline);
            }
        }
    }

    fn pass(&mut self, place: usize, running: bool) {
        let deadline = match self.sheet.slaves[place].hb {
            0 => NEVER,
            hb => self.now + u64::from(hb),
        };
        let entry = &mut self.entries[place];
        entry.enter(Stage::Passed { running, started: false }, deadline);
        entry.seen = true;
        entry.result = Some(if running { Letter::L } else { Letter::Ok });
    }

    fn fail(&mut self, place: usize, letter: Letter) {
        let entry = &mut self.entries[place];
        entry.enter(Stage::Pausing, self.now + PATIENCE);
        entry.seen = true;
        entry.result = Some(letter);
        let patient = letter == Letter::B && self.in_boottime();
        if self.sheet.slaves[place].mandatory && !patient {
            self.condition = Condition::Halted;
        }
    }

    /// The ticks are counted up to the greatest number that a sheet can have.
    fn in_boottime(&self) -> bool {
        let ticks = self.now.min(u64::from(u32::MAX));
        self.sheet.boottime == 0 || ticks <= u64::from(self.sheet.boottime)
    }

    fn lose(&mut self, place: usize) {
        let entry = &mut self.entries[place];
        entry.enter(Stage::ResetDue(Command::ResetNode), NEVER);
        entry.last_word = LastWord::Lost;
        entry.result = Some(Letter::E);
        if self.sheet.slaves[place].mandatory {
            if self.sheet.stopall {
                self.condition = Condition::StopDue;
            } else if self.sheet.resetall {
                self.sweep = Some(Sweep::new(Command::ResetNode));
            }
        }
    }
}

fn mark_started(entry: &mut Entry) {
    if let Stage::Passed { started, .. } = &mut entry.stage {
        *started = true;
    }
}

fn identity(slave: &Slave, sub: u8) -> u32 {
    slave.identity[usize::from(sub) - 1]
}

/// Index and sub-index that a query is about.
fn object(slave: &Slave, query: Query) -> (u16, u8) {
    match query {
        Query::DeviceType => (0x1000, 0),
        Query::Identity(sub) => (0x1018, sub),
        Query::Set(k) => {
            let set = slave.sets[usize::from(k)];
            (set.index, set.sub)
        }
    }
}

fn request(slave: &Slave, query: Query) -> Frame {
    let (index, sub) = object(slave, query);
    match query {
        Query::Set(k) => {
            let set = slave.sets[usize::from(k)];
            Frame::write(slave.node, index, sub, set.size, set.value)
        }
        _ => Frame::read(slave.node, index, sub),
    }
}

/// The letter of a query that is aborted, not answered, or (past the device type) answered otherwise.
fn unanswered(query: Query) -> Letter {
    match query {
        Query::DeviceType => Letter::B,
        Query::Identity(1) => Letter::D,
        Query::Identity(2) => Letter::M,
        Query::Identity(3) => Letter::N,
        Query::Identity(_) => Letter::O,
        Query::Set(_) => Letter::J,
    }
}

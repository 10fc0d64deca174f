//! The interpreter of scripts: it runs the nested records block by block, under a budget and with a
//! log of limited room. It has no image, no words and no sequencer. With the compiler and the
//! sequencer it shares only names and limits, and how a caller observes accesses.

use crate::blocks::{nest, Node};
use crate::compiler;
use crate::device::{Access, Action, Answer, Device, Event, Width};
use crate::sequencer::{Ended, Ending, Observer, EVENT_LIMIT};

/// What the interpreter gets from its caller besides the device.
pub struct Lent<'a> {
    pub script: &'a [u8],
    pub events: &'a [u32],
    pub budget: u32,
    /// Room for one entry per read.
    pub log: &'a mut [u64],
}

/// Why a script is not interpreted. The variants are in the order in which they are looked for.
#[derive(Clone, Copy, Debug, PartialEq, Eq)]
pub enum Refusal {
    /// 1 to 8, as the compiler gives them.
    Script(compiler::Refusal),
    /// 11: device state out of range.
    StateOutOfRange,
    /// 12: not an event, with the place of the first one; always 4,096 if there are more than 4,096
    /// events.
    BadEvent(usize),
}

impl Refusal {
    pub fn number(self) -> u32 {
        match self {
            Refusal::Script(refusal) => refusal.fault.number(),
            Refusal::StateOutOfRange => 11,
            Refusal::BadEvent(_) => 12,
        }
    }

    pub fn place(self) -> usize {
        match self {
            Refusal::Script(refusal) => refusal.place,
            Refusal::StateOutOfRange => 0,
            Refusal::BadEvent(place) => place,
        }
    }
}

/// Interprets a script on the device. It ends with 0, 19 or 24. A refusal changes nothing. The log
/// is filled from its start; the rest of it is not changed.
pub fn interpret<O: Observer>(
    lent: Lent<'_>,
    device: &mut Device,
    observer: &mut O,
) -> Result<Ended, Refusal> {
    let script = nest(lent.script).map_err(Refusal::Script)?;
    judge(device, lent.events)?;
    let mut walk = Walk {
        device,
        events_left: lent.events,
        entries: Vec::new(),
        room: lent.log.len(),
        steps: 0,
        budget: u64::from(lent.budget),
        observer,
    };
    let ending = walk.script(&script);
    lent.log[..walk.entries.len()].copy_from_slice(&walk.entries);
    Ok(Ended {
        ending,
        steps: walk.steps,
        events_taken: lent.events.len() - walk.events_left.len(),
        values_logged: walk.entries.len(),
    })
}

/// Refusals 11 and 12.
fn judge(device: &Device, events: &[u32]) -> Result<(), Refusal> {
    if !device.in_range() {
        return Err(Refusal::StateOutOfRange);
    }
    if events.len() > EVENT_LIMIT {
        return Err(Refusal::BadEvent(EVENT_LIMIT));
    }
    let is_bad = |number: &u32| Event::decode(*number).is_none();
    match events.iter().position(is_bad) {
        Some(place) => Err(Refusal::BadEvent(place)),
        None => Ok(()),
    }
}

/// What the script's own run holds at its end. It has no budget and no log size.
#[derive(Clone, Debug, PartialEq, Eq)]
pub struct OwnRun<'a> {
    pub device: Device,
    pub events_left: &'a [u32],
    /// The log: an entry for each read.
    pub entries: Vec<u64>,
    pub accesses: Vec<Access>,
    pub steps: u64,
}

/// The own run of a script that is accepted, on a device in range, with valid events. Eight nested
/// repeats of 65,535 turns would never end, so it returns nothing if the run would take more steps
/// than the limit.
pub fn own_run<'a>(
    script: &[u8],
    device: &Device,
    events: &'a [u32],
    step_limit: u64,
) -> Option<OwnRun<'a>> {
    let script = nest(script).expect("the script is accepted");
    let mut device = device.clone();
    let mut accesses = Vec::new();
    let mut walk = Walk {
        device: &mut device,
        events_left: events,
        entries: Vec::new(),
        room: usize::MAX,
        steps: 0,
        budget: step_limit,
        observer: &mut accesses,
    };
    let halted = walk.script(&script) == Ending::Halted;
    let Walk {
        events_left,
        entries,
        steps,
        ..
    } = walk;
    halted.then_some(OwnRun {
        device,
        events_left,
        entries,
        accesses,
        steps,
    })
}

struct Walk<'a, 'b, O> {
    device: &'b mut Device,
    events_left: &'a [u32],
    entries: Vec<u64>,
    /// The greatest number of entries.
    room: usize,
    steps: u64,
    budget: u64,
    observer: &'b mut O,
}

/// Each part returns an error if the run ends there, before the script does.
impl<O: Observer> Walk<'_, '_, O> {
    fn script(&mut self, script: &[Node]) -> Ending {
        // The step at the end of the script is that of the halt.
        match self.body(script).and_then(|()| self.step()) {
            Ok(()) => Ending::Halted,
            Err(ending) => ending,
        }
    }

    /// The budget is looked at before anything that counts a step.
    fn look_at_budget(&self) -> Result<(), Ending> {
        match self.steps == self.budget {
            true => Err(Ending::BudgetSpent),
            false => Ok(()),
        }
    }

    /// Only a read needs room. One that finds none takes no event and counts no step.
    fn look_at_log(&self, node: &Node) -> Result<(), Ending> {
        match node {
            Node::Read { .. } if self.entries.len() == self.room => Err(Ending::LogFull),
            _ => Ok(()),
        }
    }

    fn step(&mut self) -> Result<(), Ending> {
        self.look_at_budget()?;
        self.steps += 1;
        Ok(())
    }

    fn body(&mut self, nodes: &[Node]) -> Result<(), Ending> {
        nodes.iter().try_for_each(|node| self.node(node))
    }

    fn node(&mut self, node: &Node) -> Result<(), Ending> {
        self.look_at_budget()?;
        self.look_at_log(node)?;
        self.steps += 1;
        match node {
            Node::Write { width, port, value } => {
                self.next_event();
                let answer = self.device.answer_write(*width, *port, *value);
                self.list(Action::Write(*value), *width, *port, answer);
            }
            Node::Read { width, port } => {
                let answer = self.read(Action::Read, *width, *port);
                self.entries.push(answer.log_entry());
            }
            Node::Delay(ticks) => self.device.happen(Event::Ticks(*ticks)),
            Node::Repeat { times, body } => {
                for _ in 0..*times {
                    self.body(body)?;
                    // The end of each turn.
                    self.step()?;
                }
            }
            Node::If {
                width,
                port,
                mask,
                then_part,
                else_part,
            } => {
                let answer = self.read(Action::Test, *width, *port);
                let shared = answer.value & mask != 0;
                match (shared, else_part) {
                    (true, None) => self.body(then_part)?,
                    (true, Some(_)) => {
                        self.body(then_part)?;
                        // From the else to its end. The end itself counts no step.
                        self.step()?;
                    }
                    (false, Some(else_part)) => self.body(else_part)?,
                    (false, None) => {}
                }
            }
        }
        Ok(())
    }

    /// A read or a test. Its value and its owner are used at any status.
    fn read(&mut self, action: Action, width: Width, port: u16) -> Answer {
        self.next_event();
        let answer = self.device.answer_read(width, port);
        self.list(action, width, port, answer);
        answer
    }

    fn next_event(&mut self) {
        if let Some((number, left)) = self.events_left.split_first() {
            let event = Event::decode(*number).expect("the events are valid");
            self.device.happen(event);
            self.events_left = left;
        }
    }

    fn list(&mut self, action: Action, width: Width, port: u16, answer: Answer) {
        let device = &*self.device;
        self.observer.access(|| Access {
            action,
            width,
            port,
            answer,
            outputs: device.outputs(),
        });
    }
}

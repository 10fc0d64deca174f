//! The sequencer: the words of an image, and how it runs them.

use crate::compiler::{
    Record, DELAY, ENTER, HALT, JUMP, LOOP_END, READ, RECORD_BYTES, TEST, WORD_LIMIT, WORD_MARK,
    WRITE,
};
use crate::device::{Access, Action, Answer, Device, Event, Width};

pub const COUNTER_LIMIT: usize = 8;
pub const EVENT_LIMIT: usize = 4096;

/// The largest value of a counter.
pub const COUNT_LIMIT: u32 = 65_535;

/// A word without a fault of its own. Its target may still be beyond the last word of the image.
#[derive(Clone, Copy, Debug, PartialEq, Eq)]
enum Word {
    Write {
        width: Width,
        port: u16,
        value: u32,
    },
    Read {
        width: Width,
        port: u16,
    },
    Delay {
        ticks: u16,
    },
    Enter {
        times: u32,
        target: u16,
    },
    LoopEnd {
        target: u16,
    },
    Test {
        width: Width,
        port: u16,
        mask: u32,
        target: u16,
    },
    Jump {
        target: u16,
    },
    Halt,
}

impl Word {
    /// Returns nothing for a bad word: a wrong mark, a kind not 1 to 8, or a wrong width, value or
    /// unused field.
    #[inline(always)]
    fn decode(bytes: &[u8; RECORD_BYTES]) -> Option<Word> {
        let Record {
            mark,
            kind,
            width,
            port,
            target,
            value,
        } = Record::decode(bytes);
        if mark != WORD_MARK {
            return None;
        }
        let no_access = width == 0 && port == 0;
        let word = match kind {
            WRITE => Word::Write {
                width: width_for(width, value)?,
                port,
                value,
            },
            READ => Word::Read {
                width: width_for(width, value)?,
                port,
            },
            DELAY => Word::Delay {
                ticks: u16::try_from(value).ok()?,
            },
            ENTER => Word::Enter {
                times: u32::from(u16::try_from(value).ok()?),
                target,
            },
            LOOP_END => Word::LoopEnd { target },
            TEST => Word::Test {
                width: width_for(width, value)?,
                port,
                mask: value,
                target,
            },
            JUMP => Word::Jump { target },
            HALT => Word::Halt,
            _ => return None,
        };
        let unused_are_zero = match kind {
            WRITE => target == 0,
            READ => target == 0 && value == 0,
            DELAY => no_access && target == 0,
            ENTER => no_access,
            LOOP_END | JUMP => no_access && value == 0,
            TEST => true,
            _ => no_access && target == 0 && value == 0,
        };
        unused_are_zero.then_some(word)
    }

    /// Kinds 4 to 7 use their target.
    #[inline]
    fn target(&self) -> Option<u16> {
        match *self {
            Word::Enter { target, .. }
            | Word::LoopEnd { target }
            | Word::Test { target, .. }
            | Word::Jump { target } => Some(target),
            Word::Write { .. } | Word::Read { .. } | Word::Delay { .. } | Word::Halt => None,
        }
    }
}

/// The width, if it is 1, 2 or 4 bytes and the value fits it.
#[inline]
fn width_for(width: u8, value: u32) -> Option<Width> {
    Width::of(u32::from(width)).filter(|width| value <= width.all_ones())
}

/// The state of the sequencer, in range or not.
#[derive(Clone, Copy, Debug, Default, PartialEq, Eq)]
pub struct Sequencer {
    pub place: u32,
    /// How many of the counters are in use.
    pub used: u32,
    /// The counter of the outermost loop first.
    pub counters: [u32; COUNTER_LIMIT],
}

impl Sequencer {
    pub fn fresh() -> Self {
        Sequencer::default()
    }

    /// At most 8 counters, those in use 1 to 65,535, the rest 0. Any place is in range.
    pub fn in_range(&self) -> bool {
        let Some((used, rest)) = self.counters.split_at_checked(self.used as usize) else {
            return false;
        };
        used.iter()
            .all(|counter| (1..=COUNT_LIMIT).contains(counter))
            && rest.iter().all(|counter| *counter == 0)
    }
}

#[derive(Clone, Copy, Debug, PartialEq, Eq)]
pub enum Refusal {
    /// 10: the image is empty, not a multiple of 12 bytes, or has more than 1,024 words.
    Image,
    /// 11: device or sequencer state out of range.
    StateOutOfRange,
    /// 12: not an event, with the place of the first one; always 4,096 if there are more than 4,096
    /// events.
    BadEvent(usize),
}

impl Refusal {
    pub fn number(self) -> u32 {
        match self {
            Refusal::Image => 10,
            Refusal::StateOutOfRange => 11,
            Refusal::BadEvent(_) => 12,
        }
    }

    pub fn place(self) -> usize {
        match self {
            Refusal::Image | Refusal::StateOutOfRange => 0,
            Refusal::BadEvent(place) => place,
        }
    }
}

/// How a run that is not refused ends.
#[derive(Clone, Copy, Debug, PartialEq, Eq)]
pub enum Ending {
    Halted,
    BudgetSpent,
    BadWord,
    /// Target or place beyond the last word.
    Beyond,
    NinthCounter,
    /// A loop end without a counter.
    NoCounter,
    LogFull,
}

impl Ending {
    pub fn number(self) -> u32 {
        match self {
            Ending::Halted => 0,
            Ending::BudgetSpent => 19,
            Ending::BadWord => 20,
            Ending::Beyond => 21,
            Ending::NinthCounter => 22,
            Ending::NoCounter => 23,
            Ending::LogFull => 24,
        }
    }
}

#[derive(Clone, Copy, Debug, PartialEq, Eq)]
pub struct Ended {
    pub ending: Ending,
    /// One per word executed, halt included.
    pub steps: u64,
    pub events_taken: usize,
    /// One per entry that the run has put into the log.
    pub values_logged: usize,
}

/// What a run gets from its caller besides the device and the sequencer.
pub struct Lent<'a> {
    pub image: &'a [u8],
    pub events: &'a [u32],
    pub budget: u32,
    /// Room for one entry per read.
    pub log: &'a mut [u64],
}

/// Observes each write, read and test of a run.
pub trait Observer {
    fn access(&mut self, access: impl FnOnce() -> Access);
}

/// A run without an observer: no access has to be recorded.
impl Observer for () {
    #[inline]
    fn access(&mut self, _: impl FnOnce() -> Access) {}
}

impl Observer for Vec<Access> {
    fn access(&mut self, access: impl FnOnce() -> Access) {
        self.push(access());
    }
}

/// Refusals 11, then 12, of a run.
pub fn judge(device: &Device, sequencer: &Sequencer, events: &[u32]) -> Result<(), Refusal> {
    if !device.in_range() || !sequencer.in_range() {
        return Err(Refusal::StateOutOfRange);
    }
    if events.len() > EVENT_LIMIT {
        return Err(Refusal::BadEvent(EVENT_LIMIT));
    }
    match events
        .iter()
        .position(|number| Event::decode(*number).is_none())
    {
        Some(place) => Err(Refusal::BadEvent(place)),
        None => Ok(()),
    }
}

/// Runs the image on the device, from the place of the sequencer. A refusal changes nothing. The
/// log is filled from its start; the rest of it is not changed.
pub fn run<O: Observer>(
    lent: Lent<'_>,
    device: &mut Device,
    sequencer: &mut Sequencer,
    observer: &mut O,
) -> Result<Ended, Refusal> {
    let (words, rest) = lent.image.as_chunks::<RECORD_BYTES>();
    if words.is_empty() || !rest.is_empty() || words.len() > WORD_LIMIT {
        return Err(Refusal::Image);
    }
    judge(device, sequencer, lent.events)?;
    let mut run = Run {
        words,
        events: lent.events,
        taken: 0,
        log: lent.log,
        logged: 0,
        device,
        sequencer: *sequencer,
        observer,
    };
    let budget = u64::from(lent.budget);
    let mut steps = 0;
    let ending = loop {
        if steps == budget {
            break Ending::BudgetSpent;
        }
        match run.step() {
            Ok(halted) => {
                steps += 1;
                if halted {
                    break Ending::Halted;
                }
            }
            Err(fault) => break fault,
        }
    };
    *sequencer = run.sequencer;
    Ok(Ended {
        ending,
        steps,
        events_taken: run.taken,
        values_logged: run.logged,
    })
}

struct Run<'a, O> {
    words: &'a [[u8; RECORD_BYTES]],
    events: &'a [u32],
    taken: usize,
    log: &'a mut [u64],
    logged: usize,
    device: &'a mut Device,
    sequencer: Sequencer,
    observer: &'a mut O,
}

impl<O: Observer> Run<'_, O> {
    /// Executes the word at the place and returns whether it was a halt. A word at fault does
    /// nothing and takes no event.
    #[inline(always)]
    fn step(&mut self) -> Result<bool, Ending> {
        let word = self
            .words
            .get(self.sequencer.place as usize)
            .ok_or(Ending::Beyond)?;
        let word = Word::decode(word).ok_or(Ending::BadWord)?;
        if word
            .target()
            .is_some_and(|target| usize::from(target) >= self.words.len())
        {
            return Err(Ending::Beyond);
        }
        let next = self.sequencer.place + 1;
        self.sequencer.place = match word {
            Word::Write { width, port, value } => {
                self.take_event();
                let answer = self.device.answer_write(width, port, value);
                self.note(Action::Write(value), width, port, answer);
                next
            }
            Word::Read { width, port } => {
                if self.logged == self.log.len() {
                    return Err(Ending::LogFull);
                }
                self.log[self.logged] = self.read(Action::Read, width, port).log_entry();
                self.logged += 1;
                next
            }
            // A tick event of its own; no event is taken from the list.
            Word::Delay { ticks } => {
                self.device.happen(Event::Ticks(ticks));
                next
            }
            Word::Enter { times: 0, target } => u32::from(target),
            Word::Enter { times, .. } => {
                let used = self.sequencer.used as usize;
                let counter = self.sequencer.counters.get_mut(used);
                *counter.ok_or(Ending::NinthCounter)? = times;
                self.sequencer.used += 1;
                next
            }
            Word::LoopEnd { target } => {
                let top = self
                    .sequencer
                    .used
                    .checked_sub(1)
                    .ok_or(Ending::NoCounter)?;
                let counter = &mut self.sequencer.counters[top as usize];
                *counter -= 1;
                if *counter != 0 {
                    u32::from(target)
                } else {
                    self.sequencer.used = top;
                    next
                }
            }
            Word::Test {
                width,
                port,
                mask,
                target,
            } => {
                if self.read(Action::Test, width, port).value & mask != 0 {
                    next
                } else {
                    u32::from(target)
                }
            }
            Word::Jump { target } => u32::from(target),
            // The place stays at the halt.
            Word::Halt => return Ok(true),
        };
        Ok(false)
    }

    /// A read or a test. Its value and its owner are used at any status.
    #[inline]
    fn read(&mut self, action: Action, width: Width, port: u16) -> Answer {
        self.take_event();
        let answer = self.device.answer_read(width, port);
        self.note(action, width, port, answer);
        answer
    }

    /// Applies the next event, if any.
    #[inline]
    fn take_event(&mut self) {
        if let Some(number) = self.events.get(self.taken) {
            self.taken += 1;
            self.device
                .happen(Event::decode(*number).expect("the events were checked before the run"));
        }
    }

    #[inline]
    fn note(&mut self, action: Action, width: Width, port: u16, answer: Answer) {
        let device = &*self.device;
        self.observer.access(|| Access {
            action,
            width,
            port,
            answer,
            outputs: device.outputs(),
        });
    }
}

//! Random commands that interpret scripts, and random single scripts for programs that read one on
//! standard input.

use crate::compiler::{Record, END, HALT, READ};
use crate::device::Device;
use crate::generate::{Generator, Source};
use crate::own_run::{self, Lent};
use crate::programs::{read, repeat, Programs};
use crate::random::Random;
use crate::runs::SHORT_SCRIPT;
use crate::scripts;
use crate::sequencer::{Ended, Ending, COUNT_LIMIT};
use crate::stream::LOG_LIMIT;

/// Mostly `N`, on devices of all kinds.
pub const NESTED: Source = Source {
    scenarios: &[
        (100, Generator::interpret_script),
        (4, Generator::make_fresh),
        (6, Generator::load_good),
        (16, Generator::load_timer_and_place),
        (5, Generator::interpret_on_broken_device),
        (3, Generator::set_sequencer),
        (3, Generator::show_sequencer),
        (3, Generator::run_script),
        (1, Generator::damaged_run),
        (1, Generator::run_beyond_limits),
    ],
    looks: false,
};

impl Generator {
    pub fn interpret_script(&mut self) {
        let script = self.script_to_interpret();
        let most_events = self.random.pick(&[4, 12, 40, 120]);
        let events = self.event_list(most_events, script.len() < SHORT_SCRIPT);
        let line = self.interpret_line(&events, &script);
        self.line(&line);
    }

    fn script_to_interpret(&mut self) -> Vec<u8> {
        let script = match self.random.below(40) {
            0 => Vec::new(),
            1..=12 => self.programs().shape(),
            13..=17 => self.programs().lone_block(),
            18..=25 => self.programs().deep_shape(),
            26 => self.programs().long_shape(),
            // A valid script with one bit changed. Often it is not valid any more.
            27..=30 => {
                let script = scripts::encode(&self.programs().shape());
                return flip_bit(&mut self.random, script);
            }
            31..=35 => return self.script_to_run(),
            _ => return scripts::any_script(&mut self.random),
        };
        scripts::encode(&script)
    }

    /// The budget is often any number up to one more than the steps of the whole run, and the log
    /// often has room for any number of entries up to one more than those of the whole run.
    fn interpret_line(&mut self, events: &[u32], script: &[u8]) -> Vec<u8> {
        let Some(own) = self.whole_run(events, script) else {
            return self.short_budget_line('N', events, script);
        };
        let steps = u32::try_from(own.steps).expect("the run is within the step limit");
        let budget = match self.random.below(10) {
            0..=5 => self.random.below(steps + 2),
            6 => self.random.pick(&[steps - 1, steps, steps + 1, u32::MAX]),
            _ => steps + self.random.below(1_000),
        };
        let entries = own.entries.len() as u32;
        let size = match self.random.below(10) {
            0..=4 => self.random.below(entries + 2),
            _ => entries + self.random.below(4),
        };
        self.run_line('N', budget, LOG_LIMIT.min(size as usize), events, script)
    }

    pub fn interpret_on_broken_device(&mut self) {
        self.on_broken_device(&[Generator::interpret_script]);
    }

    /// A `P`, or a run with budget 0. Its answer shows the sequencer, which an `N` does not change.
    pub fn show_sequencer(&mut self) {
        if self.random.one_in(2) {
            return self.line(b"P");
        }
        let image = Record::of_image(HALT).encode();
        let line = self.run_line('X', 0, 0, &[], &image);
        self.line(&line);
    }
}

fn flip_bit(random: &mut Random, mut script: Vec<u8>) -> Vec<u8> {
    if !script.is_empty() {
        let place = random.below(script.len() as u32) as usize;
        script[place] ^= 1 << random.below(8);
    }
    script
}

// Single scripts.

/// The budget and the log of the tracing program. It has the fresh device and no events.
pub const TRACE_BUDGET: u32 = 100_000;
pub const TRACE_LOG: usize = 1_024;

/// A quick script halts within this many steps.
pub const QUICK_STEPS: u64 = 5_000;

/// What a single script is made for.
#[derive(Clone, Copy)]
enum Aim {
    Quick,
    Refused,
    BudgetSpent,
    LogFull,
    /// As many steps or values as are possible, or one more or less.
    AtLimit,
}

impl Aim {
    fn is_met(self, outcome: Result<Ended, own_run::Refusal>) -> bool {
        match (self, outcome) {
            (Aim::Quick, Ok(ended)) => ended.ending == Ending::Halted && ended.steps <= QUICK_STEPS,
            (Aim::BudgetSpent, Ok(ended)) => ended.ending == Ending::BudgetSpent,
            (Aim::LogFull, Ok(ended)) => ended.ending == Ending::LogFull,
            (Aim::AtLimit, outcome) => outcome.is_ok(),
            (Aim::Refused, outcome) => outcome.is_err(),
            (_, Err(_)) => false,
        }
    }
}

/// One random script as bytes, mostly a quick one.
pub fn single_script(seed: u64) -> Vec<u8> {
    let mut random = Random::new(seed);
    let aim = match random.below(20) {
        0..=12 => Aim::Quick,
        13..=15 => Aim::Refused,
        16 | 17 => Aim::BudgetSpent,
        18 => Aim::LogFull,
        _ => Aim::AtLimit,
    };
    loop {
        let script = script_for(&mut random, aim);
        if aim.is_met(trace(&script)) {
            return script;
        }
    }
}

/// How the tracing program ends.
pub fn trace(script: &[u8]) -> Result<Ended, own_run::Refusal> {
    let lent = Lent {
        script,
        events: &[],
        budget: TRACE_BUDGET,
        log: &mut [0; TRACE_LOG],
    };
    own_run::interpret(lent, &mut Device::fresh(), &mut ())
}

/// A script that often meets the aim.
fn script_for(random: &mut Random, aim: Aim) -> Vec<u8> {
    match aim {
        Aim::Quick => scripts::encode(&any_shape(random)),
        Aim::Refused => match random.below(3) {
            0 => {
                let script = scripts::encode(&any_shape(random));
                flip_bit(random, script)
            }
            _ => scripts::any_script(random),
        },
        Aim::BudgetSpent => scripts::encode(&many_steps(random)),
        Aim::LogFull => scripts::encode(&many_reads(random)),
        Aim::AtLimit => scripts::encode(&at_limit(random)),
    }
}

fn any_shape(random: &mut Random) -> Vec<Record> {
    let kind = random.below(12);
    let statements = random.below(40);
    let mut programs = Programs::new(random, &Device::fresh());
    match kind {
        0 => Vec::new(),
        1..=4 => programs.shape(),
        5 => programs.lone_block(),
        6..=8 => programs.deep_shape(),
        9 => programs.long_shape(),
        _ => programs.script(statements),
    }
}

/// Long loops without reads, so that the log does not fill first.
fn many_steps(random: &mut Random) -> Vec<Record> {
    let mut body = Programs::new(random, &Device::fresh()).shape();
    body.retain(|record| record.kind != READ);
    let mut script = any_shape(random);
    for _ in 0..=random.below(2) {
        let turns = COUNT_LIMIT - random.below(COUNT_LIMIT / 2);
        body = in_repeat(turns, body);
    }
    script.extend(body);
    script
}

fn many_reads(random: &mut Random) -> Vec<Record> {
    let mut body = Programs::new(random, &Device::fresh()).shape();
    let place = random.below(2) as usize * body.len();
    body.insert(place, read(1, 0x2E));
    let turns = 200 + random.below(4_000);
    in_repeat(turns, body)
}

fn at_limit(random: &mut Random) -> Vec<Record> {
    let more = random.below(3);
    if random.one_in(2) {
        let values = TRACE_LOG as u32 - 1 + more;
        return in_repeat(values, vec![read(4, 0xAC18)]);
    }
    // Two empty repeats take a step each, and one for each turn; the halt is the last step.
    let turns = TRACE_BUDGET - 1 + more - 3;
    let first = COUNT_LIMIT - random.below(30_000);
    let mut script = in_repeat(first, Vec::new());
    script.extend(in_repeat(turns - first, Vec::new()));
    script
}

fn in_repeat(turns: u32, body: Vec<Record>) -> Vec<Record> {
    let mut script = vec![repeat(turns)];
    script.extend(body);
    script.push(Record::of_script(END));
    script
}

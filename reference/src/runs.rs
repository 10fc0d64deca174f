//! Random commands that run scripts, mostly valid ones, and functions that all random runs use.

use std::array;

use crate::compiler::{self, RECORD_BYTES, WORD_LIMIT};
use crate::generate::{Generator, Scenario, Source};
use crate::own_run::{own_run, OwnRun};
use crate::programs::Programs;
use crate::scripts;
use crate::sequencer::{self, Sequencer, COUNTER_LIMIT, COUNT_LIMIT, EVENT_LIMIT};
use crate::state;
use crate::stream::{COMPILE_LIMIT, EVENTS_READ, LOG_LIMIT, OWN_RUN_STEPS};

/// Mostly `T`, on devices of all kinds, and mostly with a fresh sequencer set before it.
pub const RUNS: Source = Source {
    scenarios: &[
        (100, Generator::run_script),
        (4, Generator::make_fresh),
        (6, Generator::load_good),
        (16, Generator::load_timer_and_place),
        (4, Generator::run_on_broken_device),
        (3, Generator::set_sequencer),
        (1, Generator::damaged_run),
        (1, Generator::run_beyond_limits),
    ],
    looks: false,
};

/// The budget of scripts whose number of steps is not known.
const LONGEST_BUDGET: u32 = 100_000;

/// A command has more events than a run may have only if its script is shorter than this, so that
/// the line is not too long.
pub const SHORT_SCRIPT: usize = 14_000;

impl Generator {
    pub fn programs(&mut self) -> Programs<'_> {
        Programs::new(&mut self.random, self.session.device())
    }

    pub fn make_fresh(&mut self) {
        self.line(b"F");
    }

    // Scripts.

    pub fn run_script(&mut self) {
        let script = self.script_to_run();
        let events = self.event_list(40, script.len() < SHORT_SCRIPT);
        self.choose_start(&script);
        let line = self.script_line('T', &events, &script);
        self.line(&line);
    }

    /// A `T` starts from the present sequencer. Mostly that is a fresh one, set before it. Sometimes
    /// it is the one that the last run left, or one in the middle of the script.
    fn choose_start(&mut self, script: &[u8]) {
        match self.random.below(16) {
            0 => {}
            1 => self.aim_sequencer(&image_of(script)),
            _ => self.put_sequencer(Sequencer::fresh()),
        }
    }

    pub fn script_to_run(&mut self) -> Vec<u8> {
        match self.random.below(40) {
            0..=19 => self.small_script(),
            20..=23 => {
                let statements = self.random.below(60);
                scripts::encode(&self.programs().script(statements))
            }
            24..=31 => scripts::encode(&self.programs().deep_script()),
            32 => {
                let words = match self.random.below(4) {
                    0 => self.random.below(WORD_LIMIT as u32) as usize,
                    // Sometimes one word too many.
                    1 => WORD_LIMIT + 1,
                    _ => WORD_LIMIT,
                };
                scripts::encode(&self.programs().long_script(words))
            }
            33..=35 => {
                // A valid script with one byte changed. Often it is not valid any more.
                let mut script = self.small_script();
                if !script.is_empty() {
                    let place = self.random.below(script.len() as u32) as usize;
                    script[place] ^= 1 << self.random.below(8);
                }
                script
            }
            _ => scripts::any_script(&mut self.random),
        }
    }

    pub fn small_script(&mut self) -> Vec<u8> {
        let statements = self.random.below(12);
        scripts::encode(&self.programs().script(statements))
    }

    /// The own run of a script on the present device, if it is accepted and ends soon enough.
    pub fn whole_run<'e>(&self, events: &'e [u32], script: &[u8]) -> Option<OwnRun<'e>> {
        let device = self.device();
        let accepted = compiler::compile(script, &mut [0; COMPILE_LIMIT]).is_ok()
            && sequencer::judge(device, &Sequencer::fresh(), events).is_ok();
        match accepted {
            true => own_run(script, device, events, OWN_RUN_STEPS),
            false => None,
        }
    }

    /// For a script that is refused, whose run is very long or never ends, or that does not start
    /// from a fresh sequencer. The budget keeps the run short.
    pub fn short_budget_line(&mut self, command: char, events: &[u32], script: &[u8]) -> Vec<u8> {
        let budget = match self.random.below(3) {
            0 => self.random.pick(&[0, 1, 2, 100, LONGEST_BUDGET]),
            _ => self.random.below(3_000),
        };
        let size = self.random.below(64) as usize;
        self.run_line(command, budget, size, events, script)
    }

    /// Budget and log are mostly large enough. Sometimes they are exactly large enough, or too
    /// small.
    fn script_line(&mut self, command: char, events: &[u32], script: &[u8]) -> Vec<u8> {
        let from_start = command == 'N' || *self.session.sequencer() == Sequencer::fresh();
        let own = match from_start {
            true => self.whole_run(events, script),
            false => None,
        };
        let Some(own) = own else {
            return self.short_budget_line(command, events, script);
        };
        let steps = u32::try_from(own.steps).expect("the run is within the step limit");
        let budget = match self.random.below(24) {
            0 | 1 => steps,
            2 | 3 => steps - 1,
            4 => 0,
            5 => 1,
            6 | 7 => self.random.below(steps),
            // The run ends, so any budget is possible.
            8 => u32::MAX,
            _ => steps + self.random.below(1_000),
        };
        let entries = own.entries.len();
        let size = match self.random.below(24) {
            0..=2 => entries,
            3 | 4 => entries.saturating_sub(1),
            5 => 0,
            6 => self.random.below(entries as u32 + 1) as usize,
            7 if self.random.one_in(8) => LOG_LIMIT,
            _ => entries + self.random.below(6) as usize,
        };
        self.run_line(command, budget, size.min(LOG_LIMIT), events, script)
    }

    // Events.

    /// Mostly a list of valid events. Sometimes one event is not valid, or, if allowed, there are
    /// about as many as a run may have, or more.
    pub fn event_list(&mut self, most: u32, many_allowed: bool) -> Vec<u32> {
        let many = many_allowed && self.random.one_in(40);
        let count = match self.random.below(8) {
            0 if many => EVENT_LIMIT - 1,
            1 | 2 if many => EVENT_LIMIT,
            3 if many => EVENTS_READ,
            4 | 5 if many => EVENT_LIMIT + 1,
            _ if many => EVENT_LIMIT + 1 + self.random.below(255) as usize,
            0 | 1 => 0,
            _ => self.random.below(most + 1) as usize,
        };
        let mut programs = self.programs();
        let mut events = programs.events(count);
        if self.random.one_in(if many { 3 } else { 20 }) {
            for _ in 0..self.random.pick(&[1, 1, 2]) {
                let place = match self.random.below(3) {
                    0 => count.saturating_sub(1),
                    _ => self.random.below(count as u32) as usize,
                };
                let bad = self.programs().bad_event();
                match events.get_mut(place) {
                    Some(event) => *event = bad,
                    None => events.push(bad),
                }
            }
        }
        events
    }

    // Sequencers.

    pub fn set_sequencer(&mut self) {
        let place = match self.random.below(4) {
            0 => self.random.bits(32),
            _ => self.random.below(12),
        };
        let sequencer = match self.random.below(9) {
            0 => Sequencer::fresh(),
            1..=3 => self.illegal_sequencer(place),
            4 => self.any_sequencer(),
            _ => self.legal_sequencer(place),
        };
        self.put_sequencer(sequencer);
        if self.random.one_in(2) {
            self.line(b"P");
        }
    }

    /// Sets the sequencer with `Q`, or loads its saved bytes with `G`.
    pub fn put_sequencer(&mut self, sequencer: Sequencer) {
        let line = self.sequencer_line(sequencer);
        self.line(&line);
    }

    fn sequencer_line(&mut self, sequencer: Sequencer) -> Vec<u8> {
        if sequencer == Sequencer::fresh() && !self.random.one_in(4) {
            return b"Q".to_vec();
        }
        if self.random.one_in(2) {
            return self.load_sequencer_line(&sequencer);
        }
        let mut line = String::from("Q");
        for number in [sequencer.place, sequencer.used]
            .iter()
            .chain(&sequencer.counters)
        {
            line.push(' ');
            line.push_str(&self.random.writing(*number));
        }
        line.into_bytes()
    }

    pub fn load_sequencer_line(&mut self, sequencer: &Sequencer) -> Vec<u8> {
        let bytes = state::encode_sequencer(sequencer);
        format!("G {}", self.random.digits(&bytes)).into_bytes()
    }

    /// Ten numbers of any size. Almost always they are out of range.
    fn any_sequencer(&mut self) -> Sequencer {
        Sequencer {
            place: self.random.bits(32),
            used: self.random.bits(32),
            counters: array::from_fn(|_| self.random.bits(32)),
        }
    }

    pub fn legal_sequencer(&mut self, place: u32) -> Sequencer {
        let used = match self.random.below(4) {
            0 => 0,
            1 => COUNTER_LIMIT as u32,
            _ => self.random.below(COUNTER_LIMIT as u32 + 1),
        };
        self.sequencer_with(place, used)
    }

    /// A sequencer with this many counters in use.
    pub fn sequencer_with(&mut self, place: u32, used: u32) -> Sequencer {
        let mut sequencer = Sequencer {
            place,
            used,
            ..Sequencer::fresh()
        };
        for counter in &mut sequencer.counters[..used as usize] {
            *counter = match self.random.below(6) {
                0 => COUNT_LIMIT,
                1 => 1 + self.random.below(COUNT_LIMIT),
                _ => 1 + self.random.below(4),
            };
        }
        sequencer
    }

    /// A sequencer that is out of range in one way, mostly by one.
    pub fn illegal_sequencer(&mut self, place: u32) -> Sequencer {
        let mut sequencer = self.legal_sequencer(place);
        let used = sequencer.used as usize;
        match self.random.below(5) {
            // One more counter in use than there are; all counters are valid.
            0 => {
                sequencer = self.sequencer_with(place, COUNTER_LIMIT as u32);
                sequencer.used += 1;
            }
            1 => sequencer.used = self.random.pick(&[9, 10, 255, 256, 264, 65_544, u32::MAX]),
            // A counter in use that is too large.
            2 if used > 0 => {
                let wrong = self.random.below(used as u32) as usize;
                sequencer.counters[wrong] = match self.random.below(3) {
                    0 => self.random.bits(32) | 1 << (16 + self.random.below(16)),
                    _ => COUNT_LIMIT + 1,
                };
            }
            // A counter in use that is 0.
            3 if used > 0 => {
                let wrong = self.random.below(used as u32) as usize;
                sequencer.counters[wrong] = 0;
            }
            // A counter not in use that is not 0.
            _ if used < COUNTER_LIMIT => {
                let rest = (COUNTER_LIMIT - used) as u32;
                let wrong = used + self.random.below(rest) as usize;
                sequencer.counters[wrong] = self.random.pick(&[1, 1, 2, 65_535, 65_536]);
            }
            _ => sequencer.counters[COUNTER_LIMIT - 1] = 0,
        }
        sequencer
    }

    // Lines.

    pub fn run_line(
        &mut self,
        command: char,
        budget: u32,
        size: usize,
        events: &[u32],
        bytes: &[u8],
    ) -> Vec<u8> {
        let budget = self.random.writing(budget);
        let size = self.random.writing(size as u32);
        let events: Vec<u8> = events
            .iter()
            .flat_map(|event| event.to_le_bytes())
            .collect();
        let events = self.digits_or_nothing(&events);
        let bytes = self.digits_or_nothing(bytes);
        format!("{command} {budget} {size} {events} {bytes}").into_bytes()
    }

    fn digits_or_nothing(&mut self, bytes: &[u8]) -> String {
        match bytes {
            [] => String::from("-"),
            _ => self.random.digits(bytes),
        }
    }

    // Devices out of range.

    pub fn run_on_broken_device(&mut self) {
        self.on_broken_device(&[
            Generator::run_image,
            Generator::run_script,
            Generator::run_script,
        ]);
    }

    /// Runs that are refused, then a state in range again.
    pub fn on_broken_device(&mut self, scenarios: &[Scenario]) {
        let before = self.good_state();
        let bytes = self.boundary_state(&before);
        self.load(&bytes);
        for _ in 0..=self.random.below(2) {
            let scenario = self.random.pick(scenarios);
            scenario(self);
        }
        if !self.device().in_range() {
            match self.random.below(3) {
                0 => self.line(b"F"),
                _ => self.load(&before),
            }
        }
    }

    // Damaged commands.

    /// A valid command, to be damaged. It still ends soon with one digit more or less, because
    /// scripts have few turns and the image has none.
    pub fn sound_run_line(&mut self) -> Vec<u8> {
        let events = self.event_list(3, false);
        match self.random.below(3) {
            0 => {
                let sequencer = self.legal_sequencer(1);
                self.sequencer_line(sequencer)
            }
            1 => {
                let script = self.small_script();
                let command = self.random.pick(&['T', 'N']);
                self.script_line(command, &events, &script)
            }
            _ => {
                let script: Vec<_> = (0..self.random.below(4))
                    .map(|_| self.programs().access())
                    .collect();
                let image = image_of(&scripts::encode(&script));
                let size = self.random.below(6) as usize;
                self.run_line('X', 20, size, &events, &image)
            }
        }
    }

    pub fn damaged_run(&mut self) {
        let line = self.sound_run_line();
        self.damage_line(line);
    }

    /// A log, events or bytes at or beyond the limits of a command.
    pub fn run_beyond_limits(&mut self) {
        let script = self.small_script();
        let image = image_of(&script);
        let (command, bytes) = match self.random.below(4) {
            0 => ('T', script),
            1 => ('N', script),
            _ => ('X', image),
        };
        let events = self.event_list(4, false);
        let line = match self.random.below(6) {
            0 => {
                let size = LOG_LIMIT + self.random.pick(&[0, 0, 1, 2, 0x1_0000]);
                self.run_line(command, 50, size, &events, &bytes)
            }
            1 => {
                let count = EVENTS_READ + self.random.pick(&[0, 1, 2, 100]);
                let events = self.programs().events(count);
                let short = &bytes[..bytes.len().min(SHORT_SCRIPT)];
                self.run_line(command, 50, 4, &events, short)
            }
            2 | 3 => {
                let length = COMPILE_LIMIT + self.random.pick(&[0, 0, 1, 4]);
                let records = length / RECORD_BYTES + 1;
                let mut long = scripts::encode(&self.programs().long_script(records + 1));
                long.truncate(length);
                self.run_line(command, 50, 4, &events, &long)
            }
            // An event list whose length is not a multiple of four bytes.
            _ => {
                let events = self
                    .random
                    .pick(&["000000", "00", "0000000100", "00000001000000"]);
                let bytes = self.digits_or_nothing(&bytes);
                format!("{command} 50 4 {events} {bytes}").into_bytes()
            }
        };
        self.line(&line);
    }
}

/// The image of a script, or nothing if the compiler refuses it.
pub fn image_of(script: &[u8]) -> Vec<u8> {
    let mut image = vec![0; WORD_LIMIT * RECORD_BYTES];
    let words = compiler::compile(script, &mut image).unwrap_or(0);
    image.truncate(words * RECORD_BYTES);
    image
}

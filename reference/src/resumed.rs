//! Random runs in parts: a run as a whole, and then the same run again, resumed after each part that
//! has spent its budget. The generator checks that the parts add up to the whole.

use crate::compiler::{Record, HALT};
use crate::device::Device;
use crate::generate::{Generator, Source};
use crate::runs::image_of;
use crate::scripts;
use crate::sequencer::{self, Ended, Ending, Lent, Refusal, Sequencer};
use crate::state;
use crate::stream::{Ran, Reply, LOG_LIMIT};

/// Mostly `T` and `X` that resume a run, and what saves and loads the device and the sequencer
/// between them.
pub const RESUMED: Source = Source {
    scenarios: &[
        (100, Generator::run_in_parts),
        (5, Generator::make_fresh),
        (10, Generator::load_good),
        (20, Generator::load_timer_and_place),
        (3, Generator::set_sequencer),
        (2, Generator::run_script),
        (2, Generator::run_image),
        (2, Generator::interpret_script),
        (1, Generator::damaged_run),
    ],
    looks: false,
};

/// A run that does not end within this many steps gets a budget that is not larger.
const MOST_STEPS: u32 = 3_000;

/// A run with at most this many steps is sometimes made in single steps only.
const FEW_STEPS: u32 = 16;

/// A run to be made as a whole and in parts.
struct Run {
    /// Nothing if the image is not that of a script.
    script: Option<Vec<u8>>,
    image: Vec<u8>,
    /// The device and the sequencer to start from.
    device: Device,
    sequencer: Sequencer,
    events: Vec<u32>,
    budget: u32,
    /// The length of the log.
    size: usize,
}

impl Run {
    /// How the whole run ends.
    fn ending(&self) -> Result<Ended, Refusal> {
        let lent = Lent {
            image: &self.image,
            events: &self.events,
            budget: self.budget,
            log: &mut vec![0; self.size],
        };
        let (mut device, mut sequencer) = (self.device.clone(), self.sequencer);
        sequencer::run(lent, &mut device, &mut sequencer, &mut ())
    }
}

/// What the parts made so far have done together.
#[derive(Default)]
struct Sum {
    steps: u64,
    events_taken: usize,
    entries: Vec<u64>,
}

impl Sum {
    fn add(&mut self, part: &Ran) {
        let ended = ended(part);
        self.steps += ended.steps;
        self.events_taken += ended.events_taken;
        self.entries
            .extend_from_slice(&part.log[..ended.values_logged]);
    }

    /// Panics unless the parts, the last of which is given, add up to the whole run.
    fn check(&self, last: &Ran, whole: &Ran) {
        let ended = ended(whole);
        assert_eq!(self.steps, ended.steps, "the steps add up");
        assert_eq!(self.events_taken, ended.events_taken, "the events add up");
        assert_eq!(
            self.entries,
            whole.log[..ended.values_logged],
            "the entries of the logs are those of the one log, in order"
        );
        assert_eq!(
            self::ended(last).ending,
            ended.ending,
            "the last part ends as the whole does"
        );
        assert_eq!(last.sequencer, whole.sequencer, "the sequencer is the same");
        assert_eq!(last.state, whole.state, "the device is the same");
    }
}

fn ended(ran: &Ran) -> Ended {
    ran.outcome.expect("the run is not refused")
}

impl Generator {
    /// A whole run, and from the same device and sequencer the same run in parts.
    pub fn run_in_parts(&mut self) {
        if !self.device().in_range() {
            self.line(b"F");
        }
        let run = self.run_to_split();
        if *self.session.sequencer() != run.sequencer || self.random.one_in(2) {
            self.put_sequencer(run.sequencer);
        }
        let whole = self.part(&run, run.budget, &Sum::default());
        self.restore(&run);

        let budgets = self.budgets(run.budget, &ended(&whole));
        let (last, others) = budgets.split_last().expect("there are parts");
        let mut sum = Sum::default();
        for budget in others {
            let part = self.part(&run, *budget, &sum);
            let ended = ended(&part);
            assert_eq!(
                (ended.ending, ended.steps),
                (Ending::BudgetSpent, u64::from(*budget)),
                "each part but the last spends its budget"
            );
            sum.add(&part);
            self.between_parts();
        }
        let part = self.part(&run, *last, &sum);
        sum.add(&part);
        sum.check(&part, &whole);
        if self.random.one_in(3) {
            self.after_the_end(&run, &sum, &part);
        }
    }

    // Choosing a run.

    /// A run on the present device that is not refused. Mostly it has a few steps at least.
    fn run_to_split(&mut self) -> Run {
        loop {
            let script = match self.random.below(5) {
                0 | 1 => None,
                _ => Some(self.script_to_split()),
            };
            let image = match &script {
                Some(script) => image_of(script),
                None => self.faulty_image(),
            };
            let sequencer = match self.random.below(5) {
                0 | 1 => self.aimed_sequencer(&image),
                _ => Some(Sequencer::fresh()),
            };
            let most_events = self.random.pick(&[0, 4, 12, 40, 120]);
            let count = self.random.below(most_events + 1);
            let mut run = Run {
                script,
                image,
                device: self.device().clone(),
                sequencer: sequencer.unwrap_or(*self.session.sequencer()),
                events: self.programs().events(count as usize),
                budget: MOST_STEPS,
                size: LOG_LIMIT,
            };
            let Ok(longest) = run.ending() else {
                continue;
            };
            run.size = self.room_for(longest.values_logged);
            let longest = run.ending().expect("only the log has changed");
            if longest.steps >= 3 || self.random.one_in(8) {
                run.budget = self.budget_for(&longest);
                return run;
            }
        }
    }

    fn script_to_split(&mut self) -> Vec<u8> {
        let statements = self.random.below(30);
        let script = match self.random.below(32) {
            0..=9 => self.programs().shape(),
            10..=13 => self.programs().lone_block(),
            14..=23 => self.programs().deep_shape(),
            24..=26 => self.programs().deep_script(),
            27 => self.programs().long_shape(),
            _ => self.programs().script(statements),
        };
        scripts::encode(&script)
    }

    /// The length of a log for a run with this many entries, mostly large enough.
    fn room_for(&mut self, entries: usize) -> usize {
        let size = match self.random.below(12) {
            0 | 1 => entries,
            2 => self.random.below(entries as u32 + 1) as usize,
            3 => entries.saturating_sub(1),
            _ => entries + self.random.below(6) as usize,
        };
        size.min(LOG_LIMIT)
    }

    /// The budget of the whole run, mostly large enough.
    fn budget_for(&mut self, longest: &Ended) -> u32 {
        let steps = u32::try_from(longest.steps).expect("the steps are within the budget");
        if longest.ending == Ending::BudgetSpent {
            let most = self.random.pick(&[40, 300, MOST_STEPS]);
            return self.random.below(most + 1);
        }
        match self.random.below(10) {
            0 => steps,
            1 => steps + 1,
            2 | 3 => self.random.below(steps + 1),
            // The run ends, so any budget is possible.
            4 => u32::MAX,
            _ => steps + 1 + self.random.below(1_000),
        }
    }

    /// Divides the budget of a run that ends in this way. All parts but the last spend theirs: they
    /// end before a halt, and before or at a word with a fault.
    fn budgets(&mut self, budget: u32, whole: &Ended) -> Vec<u32> {
        let steps = u32::try_from(whole.steps).expect("the steps are within the budget");
        let most = match whole.ending {
            Ending::Halted => steps - 1,
            _ => steps,
        };
        let mut budgets = Vec::new();
        let mut spent = 0;
        for stop in self.stops(most) {
            budgets.push(stop - spent);
            spent = stop;
        }
        budgets.push(budget - spent);
        budgets
    }

    /// After how many steps the parts but the last end. Mostly there are one to four, and often some
    /// of them are next to each other, or the same.
    fn stops(&mut self, most: u32) -> Vec<u32> {
        if (1..=FEW_STEPS).contains(&most) && self.random.one_in(6) {
            return (1..=most).collect();
        }
        let first = self.random.below(most + 1);
        let mut stops: Vec<u32> = (0..=self.random.below(4))
            .map(|more| match self.random.below(10) {
                0 => 0,
                1 => most,
                2..=5 => most.min(first + more),
                _ => self.random.below(most + 1),
            })
            .collect();
        stops.sort_unstable();
        stops
    }

    // Commands.

    /// Runs with this budget, with the events and the room that the parts before have left. A script
    /// is run as such or as its image.
    fn part(&mut self, run: &Run, budget: u32, before: &Sum) -> Ran {
        let (command, bytes) = match &run.script {
            Some(script) if !self.random.one_in(6) => ('T', script),
            _ => ('X', &run.image),
        };
        let events = &run.events[before.events_taken..];
        let room = run.size - before.entries.len();
        let line = self.run_line(command, budget, room, events, bytes);
        match self.answered_line(&line) {
            Reply::Ran(ran) => *ran,
            other => panic!("a run is answered with {other}"),
        }
    }

    /// Loads the device and the sequencer that the run starts from.
    fn restore(&mut self, run: &Run) {
        let sequencer_first = self.random.one_in(2);
        if sequencer_first {
            self.put_sequencer(run.sequencer);
        }
        if run.device == Device::fresh() && !self.random.one_in(4) {
            self.line(b"F");
        } else {
            self.load(&state::encode(&run.device));
        }
        if !sequencer_first {
            self.put_sequencer(run.sequencer);
        }
    }

    /// Mostly nothing. Otherwise commands after which device and sequencer are as before.
    fn between_parts(&mut self) {
        match self.random.below(10) {
            0 => self.save_and_load(true, false),
            1 => self.save_and_load(false, true),
            2 => self.save_and_load(true, true),
            3 => self.change_nothing(),
            _ => {}
        }
    }

    /// Saves the device, the sequencer or both, uses them for something else, and loads them back.
    fn save_and_load(&mut self, device: bool, sequencer: bool) {
        let saved_device = device.then(|| match self.answered_line(b"S") {
            Reply::State(bytes) => bytes,
            other => panic!("the state is printed as {other}"),
        });
        let saved_sequencer = sequencer.then(|| match self.answered_line(b"P") {
            Reply::Sequencer(bytes) => state::decode_sequencer(&bytes),
            other => panic!("the sequencer is printed as {other}"),
        });
        match (device, sequencer) {
            (true, true) => self.run_something_else(),
            (true, false) => self.change_device(),
            _ => self.change_sequencer(),
        }
        if let Some(bytes) = saved_device {
            self.load(&bytes);
        }
        if let Some(sequencer) = saved_sequencer {
            let line = self.load_sequencer_line(&sequencer);
            self.line(&line);
        }
    }

    fn run_something_else(&mut self) {
        match self.random.below(4) {
            0 => {}
            1 => self.run_image(),
            _ => self.run_script(),
        }
    }

    /// Changes the device, but not the sequencer.
    fn change_device(&mut self) {
        match self.random.below(4) {
            0 => {}
            1 => self.line(b"F"),
            2 => self.load_good(),
            _ => self.interpret_script(),
        }
    }

    /// Changes the sequencer, but not the device.
    fn change_sequencer(&mut self) {
        match self.random.below(4) {
            0 => {}
            1 => self.put_sequencer(Sequencer::fresh()),
            2 => self.set_sequencer(),
            _ => {
                self.put_sequencer(Sequencer::fresh());
                let image = Record::of_image(HALT).encode();
                let line = self.run_line('X', 1, 0, &[], &image);
                self.line(&line);
            }
        }
    }

    /// A command that changes neither the device nor the sequencer.
    fn change_nothing(&mut self) {
        let line = self.random.pick(&[
            "O",
            "S",
            "P",
            "C 18",
            "Q 0",
            "G 00",
            "L 00",
            // Refused with 12 and with 1.
            "T 9 1 00000000 -",
            "T 9 1 - 00",
            "X 9 1 - -",
        ]);
        self.line(line.as_bytes());
    }

    /// One more run with what is left. A halted run halts again, and a fault occurs again. After a
    /// full log the run is sometimes resumed with another log, and after a spent budget it is resumed.
    fn after_the_end(&mut self, run: &Run, sum: &Sum, last: &Ran) {
        let ending = ended(last).ending;
        match ending {
            Ending::BudgetSpent => {
                let budget = self.random.below(40);
                self.part(run, budget, sum);
            }
            Ending::LogFull if self.random.one_in(2) => {
                let events = &run.events[sum.events_taken..];
                let (budget, room) = (self.random.below(40), self.random.below(6));
                let line = self.run_line('X', budget, room as usize, events, &run.image);
                self.line(&line);
            }
            _ => {
                let budget = self.random.pick(&[1, 2, 100, u32::MAX]);
                let again = self.part(run, budget, sum);
                let expected = Ended {
                    ending,
                    steps: u64::from(ending == Ending::Halted),
                    events_taken: 0,
                    values_logged: 0,
                };
                assert_eq!(ended(&again), expected, "the end is repeated");
                assert_eq!(
                    (again.sequencer, again.state),
                    (last.sequencer, last.state),
                    "device and sequencer are as at the end"
                );
            }
        }
    }
}

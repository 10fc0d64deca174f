//! Tests of runs that are made in parts, of the commands of docs/CASES.md that save and load the
//! sequencer, and of the random commands that resume runs.

use std::collections::BTreeMap;

use crate::compiler::{Record, READ, RECORD_BYTES, TEST, WRITE};
use crate::device::Device;
use crate::generate::{Source, ANYTHING};
use crate::images::IMAGES;
use crate::nested::NESTED;
use crate::nested_tests::{mixed_script, MIXED_EVENTS};
use crate::owner_tests::{byte_string, number};
use crate::resumed::RESUMED;
use crate::run_tests::{
    answers, bytes, commands, compiled, delay, end, ended, enter, fresh_state, halt, hex, if_timer,
    jump, lines, loop_end, or_else, read, read_timer, repeat, run_from, sequencer, timer_word,
    word, write, Left, LENT, NO_TICK, TICK,
};
use crate::runs::{image_of, RUNS};
use crate::sequencer::{Ended, Ending, Sequencer};
use crate::state::{self, decode_sequencer, encode_sequencer, SEQUENCER_BYTES};
use crate::stream::{Reply, Session};

// Saved sequencers.

#[test]
fn saved_sequencer_bytes() {
    assert_eq!(SEQUENCER_BYTES, 40);
    assert_eq!(encode_sequencer(&Sequencer::fresh()), [0; 40]);
    let stopped = sequencer(0x0102_0304, &[1, 0xFFFF, 0x0102]);
    let mut expected = [0; 40];
    expected[..4].copy_from_slice(&[4, 3, 2, 1]);
    expected[4] = 3;
    expected[8] = 1;
    expected[12..14].copy_from_slice(&[0xFF, 0xFF]);
    expected[16..18].copy_from_slice(&[2, 1]);
    assert_eq!(encode_sequencer(&stopped), expected);
    assert_eq!(decode_sequencer(&expected), stopped);
    // The last counter, and numbers of 32 bits that are out of range.
    let far = Sequencer {
        place: u32::MAX,
        used: 0x8000_0009,
        counters: [0, 0, 0, 0, 0, 0, 0, 0x7654_3210],
    };
    let mut expected = [0; 40];
    expected[..8].copy_from_slice(&[0xFF, 0xFF, 0xFF, 0xFF, 9, 0, 0, 0x80]);
    expected[36..].copy_from_slice(&[0x10, 0x32, 0x54, 0x76]);
    assert_eq!(encode_sequencer(&far), expected);
    assert_eq!(decode_sequencer(&expected), far);
}

/// Each of the 40 bytes is in one of the ten numbers, and any bytes come back.
#[test]
fn any_bytes_are_a_sequencer() {
    for place in 0..SEQUENCER_BYTES {
        let mut bytes = [0; SEQUENCER_BYTES];
        bytes[place] = 0xA5;
        let loaded = decode_sequencer(&bytes);
        assert_eq!(encode_sequencer(&loaded), bytes);
        let numbers = [&[loaded.place, loaded.used], &loaded.counters[..]].concat();
        for (field, number) in numbers.into_iter().enumerate() {
            let expected = match field == place / 4 {
                true => 0xA5 << (8 * (place % 4)),
                false => 0,
            };
            assert_eq!(number, expected, "byte {place}, number {field}");
        }
    }
}

#[test]
fn sequencer_commands() {
    let zeros = "00".repeat(40);
    assert_eq!(answers("P"), format!("SEQUENCER {zeros}\n"));
    let held = "0a0000000200000001000000ffff0000000000000000000000000000000000000000000000000000";
    let printed = held.to_uppercase();
    let saved = format!("SEQUENCER {printed}\n");
    assert_eq!(
        answers("Q a 2 1 FFFF 0 0 0 0 0 0\nP"),
        format!("SET\n{saved}")
    );
    assert_eq!(answers(&format!("G {held}\nP")), format!("LOADED\n{saved}"));
    // A loaded sequencer is used like one that is set. The device is not changed.
    let image = hex(&[0; RECORD_BYTES]);
    let fresh = fresh_state();
    assert_eq!(
        answers(&format!(
            "G {held}\nX 0 0 - {image}\nX 1 0 - {image}\nQ\nP\nS"
        )),
        format!(
            "LOADED\nENDED 19 0 0 0 10 2 1 65535 0 0 0 0 0 0 {fresh}\n\
             ENDED 21 0 0 0 10 2 1 65535 0 0 0 0 0 0 {fresh}\n\
             SET\nSEQUENCER {zeros}\nSTATE {fresh}\n"
        )
    );
    // `F` and `L` leave it, and `G` leaves the device.
    let mut device = Device::fresh();
    device.acpi.timer = 0x0012_3456;
    let other = hex(&state::encode(&device));
    assert_eq!(
        answers(&format!("G {held}\nF\nL {other}\nP\nG {zeros}\nS")),
        format!("LOADED\nFRESH\nLOADED\n{saved}LOADED\nSTATE {other}\n")
    );
}

/// A `G` that is not read changes nothing, and no `G` is refused.
#[test]
fn sequencers_that_are_unread_or_out_of_range() {
    let held = "0A".repeat(40);
    for line in [
        String::from("G"),
        String::from("G "),
        String::from("G -"),
        String::from("g"),
        format!("G {}", "0A".repeat(39)),
        format!("G {}", "0A".repeat(41)),
        format!("G {}", "0A".repeat(106)),
        format!("G {}0", "0B".repeat(39)),
        format!("G {}0", "0B".repeat(40)),
        format!("G {}0G", "0B".repeat(39)),
        format!("G {} ", "0B".repeat(40)),
        format!("G  {}", "0B".repeat(40)),
        format!("G {} 00", "0B".repeat(40)),
        format!("G{}", "0B".repeat(40)),
        format!("g {}", "0B".repeat(40)),
        format!("P {}", "0B".repeat(40)),
        format!("L {}", "0B".repeat(40)),
        String::from("P 0"),
        String::from("P "),
        String::from(" P"),
        String::from("p"),
    ] {
        assert_eq!(
            answers(&format!("G {held}\n{line}\nP")),
            format!("LOADED\nUNREAD\nSEQUENCER {held}\n"),
            "{line:?}"
        );
    }
    let halt = hex(&bytes(&[halt()]));
    let with = |start: Sequencer| {
        let saved = hex(&encode_sequencer(&start));
        let output = answers(&format!("G {saved}\nX 0 0 - {halt}\nT 0 0 - -\nP"));
        let printed: Vec<String> = output.lines().map(String::from).collect();
        assert_eq!(printed[0], "LOADED");
        assert_eq!(printed[3], format!("SEQUENCER {saved}"));
        assert_eq!(printed[1], printed[2]);
        printed[1].clone()
    };
    let illegal = [
        Sequencer {
            used: 9,
            ..sequencer(0, &[1; 8])
        },
        Sequencer {
            used: u32::MAX,
            ..Sequencer::fresh()
        },
        sequencer(0, &[0]),
        sequencer(0, &[1, 0, 1]),
        sequencer(0, &[65_536]),
        sequencer(0, &[1, 1, 1, 1, 1, 1, 1, u32::MAX]),
        Sequencer {
            used: 1,
            ..sequencer(0, &[1, 1])
        },
        Sequencer {
            used: 0,
            ..sequencer(0, &[1])
        },
    ];
    for start in illegal {
        assert!(with(start).starts_with("REFUSED 11 0 "), "{start:?}");
    }
    // Any place is in range.
    for place in [0, 1, 65_536, u32::MAX] {
        assert!(with(sequencer(place, &[65_535; 8])).starts_with("ENDED 19 0 0 0 "));
    }
}

// Scripts that are resumed.

/// The example of docs/CASES.md. Its answers are on the page, with the states shortened to their
/// first three bytes.
#[test]
fn a_run_in_two_parts() {
    let script = hex(include_bytes!("../../examples/unlock.script"));
    let none = "0 0 0 0 0 0 0 0 0";
    let state = |unlocked| {
        let mut device = Device::fresh();
        device.configuration.unlocked = unlocked;
        device.configuration.index = 0xF2;
        device.configuration.device_number = 0x0A;
        hex(&state::encode(&device))
    };
    let first = format!(
        "ENDED 19 5 0 1 5 {none} {} 0000000100000004A000000000000001",
        state(true)
    );
    let second = format!("ENDED 0 3 0 1 7 {none} {} 00000001000000FF", state(false));
    assert_eq!(
        answers(&format!("T 5 2 - {script}\nT 64 1 - {script}")),
        format!("{first}\n{second}\n")
    );
    let page = include_str!("../../docs/CASES.md");
    for answer in [first, second] {
        let words: Vec<&str> = answer.split(' ').collect();
        let shortened = format!("{}..", &words[15][..6]);
        let printed = answer.replace(words[15], &shortened);
        let line = format!("\n    {printed}\n");
        assert!(page.contains(&line), "not in docs/CASES.md: {printed}");
    }
    // As a whole.
    assert_eq!(
        answers(&format!("T 64 2 - {script}")),
        format!(
            "ENDED 0 8 0 2 7 {none} {} 000000010000000400000001000000FF\n",
            state(false)
        )
    );
}

/// Only `Q` and `G` start a script again.
#[test]
fn a_script_starts_again_only_if_told_to() {
    let script = hex(&bytes(&[repeat(2), read_timer(), end()]));
    let run = format!("T 3 1 01000001 {script}");
    let zeros = "00".repeat(40);
    let output = answers(&format!("{run}\n{run}\n{run}\nQ\n{run}\nG {zeros}\n{run}"));
    let beginnings = [
        // Enter, read, loop end; the counter is now 1.
        "ENDED 19 3 1 1 1 1 1 ",
        // Read, loop end, halt.
        "ENDED 0 3 1 1 3 0 0 ",
        // The halt again.
        "ENDED 0 1 0 0 3 0 0 ",
        "SET",
        "ENDED 19 3 1 1 1 1 1 ",
        "LOADED",
        "ENDED 19 3 1 1 1 1 1 ",
    ];
    assert_eq!(output.lines().count(), beginnings.len());
    for (answer, beginning) in output.lines().zip(beginnings) {
        assert!(answer.starts_with(beginning), "{answer}");
    }
}

/// A `T` is an `X` with the image of its script, from any sequencer.
#[test]
fn a_script_runs_as_its_image_from_anywhere() {
    let script = bytes(&crossed_script());
    let image = compiled(&crossed_script());
    let words = (image.len() / RECORD_BYTES) as u32;
    let (script, image) = (hex(&script), hex(&image));
    let mut endings = BTreeMap::new();
    for place in (0..=words).chain([u32::MAX]) {
        for counters in [&[][..], &[1], &[2, 3], &[3; 8]] {
            let saved = hex(&encode_sequencer(&sequencer(place, counters)));
            for (budget, size) in [(0, 0), (1, 1), (7, 3), (200, 1), (200, 40)] {
                let run = |command: &str, bytes: &str| {
                    let run = format!("{command} {budget:X} {size:X} 0100000100000001 {bytes}");
                    answers(&format!("G {saved}\n{run}\nP\nS"))
                };
                let as_image = run("X", &image);
                assert_eq!(run("T", &script), as_image);
                let ending = as_image.split(' ').nth(1).map(String::from);
                *endings.entry(ending).or_insert(0) += 1;
            }
        }
    }
    // 0, 19, 21, 22, 23 and 24.
    assert_eq!(endings.len(), 6, "{endings:?}");
}

// Parts.

/// Repeats in the parts of an if, and ifs in a repeat.
fn crossed_script() -> [Record; 15] {
    [
        repeat(3),
        if_timer(1),
        repeat(2),
        read_timer(),
        end(),
        or_else(),
        repeat(2),
        if_timer(2),
        or_else(),
        read_timer(),
        end(),
        end(),
        end(),
        delay(1),
        end(),
    ]
}

/// A run in two parts.
struct Parts {
    first: Left,
    second: Left,
}

impl Parts {
    /// The second part gets the events and the room that the first has left.
    fn new(
        (device, start): (&Device, Sequencer),
        image: &[u8],
        events: &[u32],
        size: usize,
        budgets: [u32; 2],
    ) -> Self {
        let first = run_from(start, image, events, budgets[0], size, device);
        let ended = first.outcome.expect("the run is not refused");
        let second = run_from(
            first.sequencer,
            image,
            &events[ended.events_taken..],
            budgets[1],
            size - ended.values_logged,
            &first.device,
        );
        Parts { first, second }
    }

    /// Checks that the parts add up to the whole if the first has spent its budget. Otherwise the
    /// first is the whole, and the second only ends again as the first did.
    fn check(&self, whole: &Left) {
        let Ok(one) = self.first.outcome else {
            panic!("the first part is refused");
        };
        let Ok(other) = self.second.outcome else {
            panic!("the second part is refused");
        };
        if one.ending != Ending::BudgetSpent {
            assert_eq!(self.first, *whole);
            let steps = u64::from(one.ending == Ending::Halted);
            if other.ending != Ending::BudgetSpent {
                assert_eq!(other, ended(one.ending, steps, 0, 0));
            }
            assert_eq!(self.second.device, whole.device);
            assert_eq!(self.second.sequencer, whole.sequencer);
            return;
        }
        let sum = ended(
            other.ending,
            one.steps + other.steps,
            one.events_taken + other.events_taken,
            one.values_logged + other.values_logged,
        );
        assert_eq!(whole.outcome, Ok(sum));
        assert_eq!(self.second.device, whole.device);
        assert_eq!(self.second.sequencer, whole.sequencer);
        // The log of the second part is the rest of the log of the whole, as lent after it.
        let front = &self.first.log[..one.values_logged];
        assert_eq!([front, &self.second.log].concat(), whole.log);
        let accesses = [&self.first.accesses[..], &self.second.accesses].concat();
        assert_eq!(accesses, whole.accesses);
    }
}

/// Makes a run with every budget up to two more than it needs, or 40, and with every log up to one
/// entry more than it needs, and divides each budget at every place. Returns how the longest run
/// ends.
fn check_every_split(start: Sequencer, image: &[u8], events: &[u32]) -> Ended {
    let device = Device::fresh();
    let longest = run_from(start, image, events, 40, 40, &device);
    let longest = longest.outcome.expect("the run is not refused");
    for size in 0..=longest.values_logged + 1 {
        for budget in 0..=longest.steps as u32 + 2 {
            let whole = run_from(start, image, events, budget, size, &device);
            for spent in 0..=budget {
                let budgets = [spent, budget - spent];
                Parts::new((&device, start), image, events, size, budgets).check(&whole);
            }
        }
    }
    longest
}

#[test]
fn parts_of_scripts_add_up() {
    let fresh = Sequencer::fresh();
    let check = |script: &[Record], events: &[u32]| {
        let longest = check_every_split(fresh, &compiled(script), events);
        (longest.ending.number(), longest.steps)
    };
    assert_eq!(check(&[], &[TICK]), (0, 1));
    assert_eq!(check(&mixed_script(), &MIXED_EVENTS), (0, 14));
    assert_eq!(check(&mixed_script(), &[]), (0, 14));
    for count in [0, 1, 3, 6, 20] {
        let (ending, _) = check(&crossed_script(), &[TICK, NO_TICK].repeat(count));
        assert!([0, 19].contains(&ending));
    }
    // Eight nested repeats. With three turns of the outermost the run has more than 40 steps.
    let deep = |outer| {
        let repeats = [vec![repeat(outer)], vec![repeat(1); 7]].concat();
        [repeats, vec![read_timer()], vec![end(); 8]].concat()
    };
    assert_eq!(check(&deep(1), &[TICK]), (0, 18));
    assert_eq!(check(&deep(2), &[TICK; 3]), (0, 34));
    assert_eq!(check(&deep(3), &[TICK; 3]), (19, 40));
    let mut ladder = vec![if_timer(1); 16];
    ladder.extend([or_else(), read_timer(), end()].repeat(16));
    assert_eq!(check(&ladder, &[TICK]), (0, 33));
    let plain = [write(0x2E, 0x55), read(0x2E), delay(3), read_timer()];
    assert_eq!(check(&plain, &[NO_TICK, TICK]), (0, 5));
}

/// Images with each fault, and one that never ends.
#[test]
fn parts_of_images_add_up() {
    let read = word(READ, 1, 0x2E, 0, 0);
    let write = word(WRITE, 1, 0x2E, 0, 0x55);
    let test = word(TEST, 4, 0xAC18, 3, 2);
    // A test without a mask always goes to its target.
    let skip = word(TEST, 4, 0xAC18, 3, 0);
    let fresh = Sequencer::fresh();
    let cases = [
        (20, fresh, vec![timer_word(), write, Record::default()]),
        (21, fresh, vec![enter(2, 2), timer_word(), loop_end(1)]),
        (21, fresh, vec![timer_word(), skip, halt(), jump(4)]),
        (21, sequencer(9, &[1]), vec![halt()]),
        (22, fresh, vec![enter(2, 1), timer_word(), jump(0)]),
        (22, sequencer(0, &[5; 6]), vec![enter(2, 1), write, jump(0)]),
        (23, fresh, vec![enter(2, 3), read, loop_end(1), loop_end(0)]),
        (
            23,
            sequencer(1, &[2, 1]),
            vec![halt(), read, loop_end(1), jump(2)],
        ),
        (
            0,
            sequencer(1, &[7, 3]),
            vec![halt(), read, loop_end(1), jump(0)],
        ),
        (19, fresh, vec![timer_word(), test, jump(0), jump(0)]),
    ];
    for (number, start, words) in cases {
        for events in [&[][..], &[TICK], &[TICK, NO_TICK, TICK, TICK]] {
            let longest = check_every_split(start, &bytes(&words), events);
            assert_eq!(longest.ending.number(), number, "{words:?}");
        }
    }
}

/// The law holds up to the greatest budget. Beyond it there is no whole run.
#[test]
fn parts_with_the_greatest_budgets_add_up() {
    let image = compiled(&mixed_script());
    let device = Device::fresh();
    let start = (&device, Sequencer::fresh());
    let whole = run_from(start.1, &image, &MIXED_EVENTS, u32::MAX, 4, &device);
    assert_eq!(whole.outcome, Ok(ended(Ending::Halted, 14, 3, 2)));
    for spent in 0..14 {
        for more in [u32::MAX - spent, u32::MAX] {
            Parts::new(start, &image, &MIXED_EVENTS, 4, [spent, more]).check(&whole);
        }
    }
}

// Random commands.

/// A run in the random commands, and the runs that resume it.
struct Chain {
    image: Vec<u8>,
    start: (Device, Sequencer),
    events: Vec<u32>,
    room: usize,
    /// The parts, with their commands and budgets. All but the last ended with 19.
    parts: Vec<(u8, u32, Ended)>,
    entries: Vec<u64>,
    /// The device and the sequencer after the last part.
    left: (Device, Sequencer),
    /// How many commands there were up to the last part.
    commands: usize,
}

impl Chain {
    fn events_taken(&self) -> usize {
        self.parts
            .iter()
            .map(|(_, _, ended)| ended.events_taken)
            .sum()
    }

    fn ending(&self) -> Ending {
        let (_, _, ended) = self.parts.last().expect("there is a part");
        ended.ending
    }

    /// Whether this run starts where the chain has stopped, with what is left.
    fn leads_to(&self, next: &Chain) -> bool {
        self.left == next.start
            && self.image == next.image
            && self.events[self.events_taken()..] == next.events
            && self.room - self.entries.len() == next.room
    }

    /// Compares with a single run with the sum of the budgets. A sum that is too large belongs to a
    /// run that ends before its budget is spent, so that the largest budget does as well.
    fn check(&self) {
        let budgets = self.parts.iter().map(|(_, budget, _)| budget);
        let Some(budget) = budgets
            .copied()
            .reduce(|sum, budget| sum.saturating_add(budget))
        else {
            return;
        };
        let (device, start) = &self.start;
        let whole = run_from(*start, &self.image, &self.events, budget, self.room, device);
        let steps = self.parts.iter().map(|(_, _, ended)| ended.steps).sum();
        let logged = self.entries.len();
        assert_eq!(
            whole.outcome,
            Ok(ended(self.ending(), steps, self.events_taken(), logged))
        );
        assert_eq!(whole.log[..logged], self.entries);
        assert!(whole.log[logged..].iter().all(|entry| *entry == LENT));
        assert_eq!(
            (&whole.device, whole.sequencer),
            (&self.left.0, self.left.1)
        );
    }
}

/// What the random commands reach in runs of two or more parts.
#[derive(Debug, Default)]
struct Reached {
    /// By the number of parts, six standing for more.
    runs: [u32; 7],
    /// How the last part ends.
    last: BTreeMap<u32, u32>,
    /// How a part ends that follows one that has not ended with 19.
    repeated: BTreeMap<u32, u32>,
    /// Stops with at least two counters in use, in runs that start with none.
    stopped_in_nested_loops: u32,
    budgets_of_0: u32,
    budgets_of_1: u32,
    /// Runs of which two parts take events, or log entries.
    events_in_two_parts: u32,
    entries_in_two_parts: u32,
    /// Runs with a `T` and an `X`.
    both_commands: u32,
    not_from_fresh: u32,
    /// Parts before which a sequencer, a device or both were loaded.
    sequencers_loaded: u32,
    devices_loaded: u32,
    both_loaded: u32,
}

impl Reached {
    fn of(source: &'static Source, count: u64) -> Self {
        let mut reached = Reached::default();
        let mut session = Session::new();
        let mut chains: Vec<Chain> = Vec::new();
        // The last commands that loaded a sequencer and a device.
        let (mut sequencer_load, mut device_load) = (0, 0);
        for (place, line) in lines(&commands(source, 1, count)).enumerate() {
            let before = session.clone();
            let reply = session.answer(line);
            match (line.first(), &reply) {
                (Some(b'G'), Reply::Loaded) => sequencer_load = place,
                (Some(b'L'), Reply::Loaded) => device_load = place,
                _ => {}
            }
            let Some(next) = chain_of(line, &before, &reply, place) else {
                continue;
            };
            let Some(found) = predecessor(&chains, &next) else {
                // Some runs are made between the parts of others.
                if chains.len() == 8 {
                    reached.add(&chains.remove(0));
                }
                chains.push(next);
                continue;
            };
            let chain = &mut chains[found];
            if chain.ending() != Ending::BudgetSpent {
                reached.add_repeated(chain.ending(), &next);
                continue;
            }
            let loaded = [sequencer_load, device_load].map(|load| load > chain.commands);
            reached.sequencers_loaded += u32::from(loaded[0]);
            reached.devices_loaded += u32::from(loaded[1]);
            reached.both_loaded += u32::from(loaded == [true, true]);
            let in_nested_loops = chain.start.1.used == 0 && next.start.1.used >= 2;
            reached.stopped_in_nested_loops += u32::from(in_nested_loops);
            chain.parts.extend(next.parts);
            chain.entries.extend(next.entries);
            chain.left = next.left;
            chain.commands = next.commands;
        }
        for chain in &chains {
            reached.add(chain);
        }
        reached
    }

    fn add(&mut self, chain: &Chain) {
        chain.check();
        let parts = &chain.parts;
        if parts.len() < 2 {
            return;
        }
        let several = |some: fn(&Ended) -> usize| {
            let count = parts.iter().filter(|(_, _, ended)| some(ended) > 0).count();
            u32::from(count >= 2)
        };
        let with = |wanted: u32| {
            let count = parts
                .iter()
                .filter(|(_, budget, _)| *budget == wanted)
                .count();
            count as u32
        };
        let has = |wanted: u8| parts.iter().any(|(command, _, _)| *command == wanted);
        self.runs[parts.len().min(6)] += 1;
        *self.last.entry(chain.ending().number()).or_default() += 1;
        self.budgets_of_0 += with(0);
        self.budgets_of_1 += with(1);
        self.events_in_two_parts += several(|ended| ended.events_taken);
        self.entries_in_two_parts += several(|ended| ended.values_logged);
        self.both_commands += u32::from(has(b'T') && has(b'X'));
        self.not_from_fresh += u32::from(chain.start.1 != Sequencer::fresh());
    }

    /// A part after a halt or a fault ends in the same way.
    fn add_repeated(&mut self, ending: Ending, next: &Chain) {
        let (_, budget, again) = next.parts[0];
        if budget > 0 {
            let steps = u64::from(ending == Ending::Halted);
            assert_eq!(again, ended(ending, steps, 0, 0));
            assert_eq!(next.left, next.start);
            *self.repeated.entry(ending.number()).or_default() += 1;
        }
    }
}

/// The chain that leads to this run. Before and after a halt or a fault device and sequencer are the
/// same, so that there can be several. One that has not ended comes first.
fn predecessor(chains: &[Chain], next: &Chain) -> Option<usize> {
    let leads = |place: &usize| chains[*place].leads_to(next);
    let stopped = |place: &usize| chains[*place].ending() == Ending::BudgetSpent;
    let found: Vec<usize> = (0..chains.len()).filter(leads).collect();
    found
        .iter()
        .copied()
        .rfind(stopped)
        .or(found.last().copied())
}

/// The chain that starts with this command, if it runs an image or a script and is not refused.
fn chain_of(line: &[u8], before: &Session, reply: &Reply, place: usize) -> Option<Chain> {
    let Reply::Ran(ran) = reply else {
        return None;
    };
    let ended = ran.outcome.ok()?;
    let words: Vec<&[u8]> = line.split(|byte| *byte == b' ').collect();
    let bytes = byte_string(words[4]);
    let event_bytes = byte_string(words[3]);
    let (events, _) = event_bytes.as_chunks();
    Some(Chain {
        image: match words[0] {
            b"T" => image_of(&bytes),
            _ => bytes,
        },
        start: (before.device().clone(), *before.sequencer()),
        events: events
            .iter()
            .map(|event| u32::from_le_bytes(*event))
            .collect(),
        room: number(words[2]) as usize,
        parts: vec![(line[0], number(words[1]), ended)],
        entries: ran.log[..ended.values_logged].to_vec(),
        left: (state::decode(&ran.state).expect("a device"), ran.sequencer),
        commands: place,
    })
}

/// The random runs in parts stop and end everywhere, and their parts add up.
#[test]
fn random_runs_in_parts() {
    let reached = Reached::of(&RESUMED, 12_000);
    for (number, least) in [
        (0, 300),
        (19, 100),
        (20, 15),
        (21, 15),
        (22, 15),
        (23, 15),
        (24, 30),
    ] {
        let last = reached.last.get(&number).copied().unwrap_or_default();
        assert!(last >= least, "{number}: {reached:?}");
        let repeated = reached.repeated.get(&number).copied().unwrap_or_default();
        assert!(number == 19 || repeated >= 3, "{number}: {reached:?}");
    }
    assert!(
        reached.runs[2..].iter().all(|count| *count >= 30),
        "{reached:?}"
    );
    let counts = [
        reached.stopped_in_nested_loops,
        reached.budgets_of_0,
        reached.budgets_of_1,
        reached.events_in_two_parts,
        reached.entries_in_two_parts,
        reached.both_commands,
        reached.sequencers_loaded,
        reached.devices_loaded,
        reached.both_loaded,
    ];
    assert!(counts.iter().all(|count| *count >= 100), "{reached:?}");
    assert!(reached.not_from_fresh >= 50, "{reached:?}");
}

/// How often a `G` loads sequencers of each kind.
#[derive(Debug, Default)]
struct Loaded {
    fresh: u32,
    /// In range, but not fresh.
    legal: u32,
    too_many_counters: u32,
    counters_of_0: u32,
    counters_too_large: u32,
    /// Those not in use.
    counters_not_0: u32,
    /// Places of more than 16 bits.
    far_places: u32,
}

impl Loaded {
    fn add(&mut self, sequencer: &Sequencer) {
        let used = sequencer.used as usize;
        let fresh = *sequencer == Sequencer::fresh();
        self.fresh += u32::from(fresh);
        self.legal += u32::from(!fresh && sequencer.in_range());
        self.far_places += u32::from(sequencer.place > 0xFFFF);
        let Some((in_use, others)) = sequencer.counters.split_at_checked(used) else {
            self.too_many_counters += 1;
            return;
        };
        self.counters_of_0 += u32::from(in_use.contains(&0));
        self.counters_too_large += u32::from(in_use.iter().any(|count| *count > 65_535));
        self.counters_not_0 += u32::from(others.iter().any(|count| *count != 0));
    }

    fn least(&self) -> u32 {
        let counts = [
            self.fresh,
            self.legal,
            self.too_many_counters,
            self.counters_of_0,
            self.counters_too_large,
            self.counters_not_0,
            self.far_places,
        ];
        counts.into_iter().min().unwrap_or_default()
    }
}

/// The other random commands save sequencers and load those of every kind, too. Most of their scripts
/// start from a fresh one.
#[test]
fn random_commands_save_and_load_sequencers() {
    for (source, count) in [
        (&ANYTHING, 20_000),
        (&RUNS, 5_000),
        (&IMAGES, 5_000),
        (&NESTED, 5_000),
    ] {
        let mut loaded = Loaded::default();
        let (mut saved, mut unread) = (0, 0);
        let mut starts = [0; 2];
        let mut session = Session::new();
        for line in lines(&commands(source, 1, count)) {
            let fresh = *session.sequencer() == Sequencer::fresh();
            match (line.first(), session.answer(line)) {
                (Some(b'G'), Reply::Loaded) => loaded.add(session.sequencer()),
                (Some(b'G' | b'P'), Reply::Unread) => unread += 1,
                (_, Reply::Sequencer(_)) => saved += 1,
                (Some(b'T'), Reply::Ran(_)) => starts[usize::from(fresh)] += 1,
                _ => {}
            }
        }
        assert!(loaded.least() >= 2, "{loaded:?}");
        assert!(saved >= 10, "{saved}");
        assert!(unread >= 2, "{unread}");
        let [others, fresh] = starts;
        assert!(others > 0 && fresh >= 5 * others, "{starts:?}");
    }
}

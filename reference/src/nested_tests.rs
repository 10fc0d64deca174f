//! Tests of the interpreter, of the command `N` of docs/CASES.md, and of the random commands and
//! scripts for it.

use std::collections::BTreeMap;

use crate::blocks::{nest, word_count, Node};
use crate::compiler::{
    compile, Record, DELAY, ENTER, HALT, JUMP, LOOP_END, READ, RECORD_BYTES, TEST, WRITE,
};
use crate::device::{Access, Device};
use crate::nested::{single_script, trace, NESTED, QUICK_STEPS, TRACE_BUDGET, TRACE_LOG};
use crate::own_run::{interpret, own_run, Lent, Refusal};
use crate::owner_tests::byte_string;
use crate::random::Random;
use crate::run_tests::{
    acpi_entries, all_outcomes, answers, bytes, commands, compiled, delay, end, ended, fresh_state,
    hex, if_timer, lines, or_else, read, read_timer, record, repeat, run_from, write, LENT,
    NO_TICK, TICK,
};
use crate::runs::image_of;
use crate::scripts;
use crate::sequencer::{Ended, Ending, Sequencer};
use crate::state;
use crate::stream::{Reply, Session, OWN_RUN_STEPS};

/// Everything that the interpreter changes.
#[derive(Debug, PartialEq, Eq)]
struct Left {
    outcome: Result<Ended, Refusal>,
    device: Device,
    log: Vec<u64>,
    accesses: Vec<Access>,
}

fn interpret_on(device: &Device, script: &[u8], events: &[u32], budget: u32, size: usize) -> Left {
    let mut left = Left {
        outcome: Err(Refusal::StateOutOfRange),
        device: device.clone(),
        log: vec![LENT; size],
        accesses: Vec::new(),
    };
    let lent = Lent {
        script,
        events,
        budget,
        log: &mut left.log,
    };
    left.outcome = interpret(lent, &mut left.device, &mut left.accesses);
    left
}

/// Interprets a script on the fresh device.
fn interpret_fresh(script: &[Record], events: &[u32], budget: u32, size: usize) -> Left {
    interpret_on(&Device::fresh(), &bytes(script), events, budget, size)
}

/// Ending, steps, events taken and values logged.
fn numbers(left: &Left) -> (u32, u64, usize, usize) {
    let ended = left.outcome.expect("the script is not refused");
    (
        ended.ending.number(),
        ended.steps,
        ended.events_taken,
        ended.values_logged,
    )
}

// Endings.

/// P10: enter, write, loop end, write, loop end, halt.
#[test]
fn every_budget_of_p10() {
    let script = [repeat(2), write(0x2E, 0xAA), end()];
    for budget in 0..=5 {
        let left = interpret_fresh(&script, &[], budget, 0);
        assert_eq!(numbers(&left), (19, u64::from(budget), 0, 0));
        let writes = [0, 0, 1, 1, 2, 2][budget as usize];
        assert_eq!(left.accesses.len(), writes, "budget {budget}");
    }
    for budget in [6, 7, u32::MAX] {
        let left = interpret_fresh(&script, &[], budget, 0);
        assert_eq!(numbers(&left), (0, 6, 0, 0));
    }
}

/// P11: test, read, jump, halt, or test, read, halt.
#[test]
fn every_budget_of_p11() {
    let script = [if_timer(1), read(0x2E), or_else(), read(0x2F), end()];
    let then_part = [
        (19, 0, 0, 0),
        (19, 1, 1, 0),
        (19, 2, 1, 1),
        // Before the jump at the else.
        (19, 3, 1, 1),
        (0, 4, 1, 1),
        (0, 4, 1, 1),
    ];
    for (budget, expected) in (0..).zip(then_part) {
        let left = interpret_fresh(&script, &[TICK], budget, 1);
        assert_eq!(numbers(&left), expected, "budget {budget}");
    }
    let else_part = [(19, 0, 0, 0), (19, 1, 0, 0), (19, 2, 0, 1), (0, 3, 0, 1)];
    for (budget, expected) in (0..).zip(else_part) {
        let left = interpret_fresh(&script, &[], budget, 1);
        assert_eq!(numbers(&left), expected, "budget {budget}");
    }
    // Without room: the budget comes first. The read takes no event and counts no step.
    let no_room = [(19, 0, 0, 0), (19, 1, 1, 0), (24, 1, 1, 0), (24, 1, 1, 0)];
    for (budget, expected) in (0..).zip(no_room) {
        let left = interpret_fresh(&script, &[TICK, TICK], budget, 0);
        assert_eq!(numbers(&left), expected, "budget {budget}");
        assert_eq!(left.device.acpi.timer, u32::from(budget > 0));
    }
}

/// The end of an if counts no step, after its body and without it.
#[test]
fn the_end_of_an_if_costs_nothing() {
    let script = [if_timer(1), delay(1), end(), delay(1)];
    let taken = [(19, 0), (19, 1), (19, 2), (19, 3), (0, 4)];
    let skipped = [(19, 0), (19, 1), (19, 2), (0, 3)];
    for (events, expected) in [(&[TICK][..], &taken[..]), (&[], &skipped)] {
        for (budget, (ending, steps)) in (0..).zip(expected) {
            let left = interpret_fresh(&script, events, budget, 0);
            let taken = events.len().min(budget as usize);
            assert_eq!(numbers(&left), (*ending, *steps, taken, 0));
        }
    }
    // An else after an empty then-part is still a jump; an empty else-part counts nothing.
    let empty = [if_timer(1), or_else(), end()];
    assert_eq!(
        numbers(&interpret_fresh(&empty, &[TICK], 9, 0)),
        (0, 3, 1, 0)
    );
    assert_eq!(numbers(&interpret_fresh(&empty, &[], 9, 0)), (0, 2, 0, 0));
}

/// A script with every kind of record and block, and what it does on the fresh device with the
/// events of `MIXED_EVENTS`.
pub(crate) fn mixed_script() -> [Record; 15] {
    [
        repeat(2),
        if_timer(1),
        read_timer(),
        or_else(),
        delay(1),
        end(),
        write(0x2E, 0),
        end(),
        repeat(0),
        read_timer(),
        end(),
        if_timer(4),
        read_timer(),
        end(),
        read_timer(),
    ]
}

pub(crate) const MIXED_EVENTS: [u32; 3] = [TICK, TICK, NO_TICK];

/// The things that count a step, in order: E enter, L loop end, T test, J jump, R read, W write,
/// D delay, H halt.
const MIXED_STEPS: &str = "ETRJWLTDWLETRH";

/// The timer before each of these steps and at the end. The first two accesses take a tick each.
const MIXED_TIMERS: [u32; 15] = [0, 0, 1, 2, 2, 2, 2, 2, 3, 3, 3, 3, 3, 3, 3];

/// The values of the two reads.
const MIXED_VALUES: [u32; 2] = [2, 3];

/// Where a run of the mixed script ends: the budget is looked at first, then the log for a read.
fn mixed_end(budget: usize, size: usize) -> Ended {
    let (mut accesses, mut logged) = (0, 0);
    let mut ending = Ending::Halted;
    let mut steps = 0;
    for step in MIXED_STEPS.chars() {
        if steps == budget {
            ending = Ending::BudgetSpent;
            break;
        }
        if step == 'R' && logged == size {
            ending = Ending::LogFull;
            break;
        }
        steps += 1;
        accesses += usize::from("RWT".contains(step));
        logged += usize::from(step == 'R');
    }
    let taken = MIXED_EVENTS.len().min(accesses);
    self::ended(ending, steps as u64, taken, logged)
}

#[test]
fn every_budget_and_log_of_the_mixed_script() {
    assert_eq!(MIXED_TIMERS.len(), MIXED_STEPS.len() + 1);
    assert_eq!(mixed_end(13, 9), ended(Ending::BudgetSpent, 13, 3, 2));
    assert_eq!(mixed_end(14, 2), ended(Ending::Halted, 14, 3, 2));
    assert_eq!(mixed_end(14, 1), ended(Ending::LogFull, 12, 3, 1));
    assert_eq!(mixed_end(3, 0), ended(Ending::LogFull, 2, 1, 0));
    assert_eq!(mixed_end(2, 0), ended(Ending::BudgetSpent, 2, 1, 0));
    for budget in 0..=MIXED_STEPS.len() + 1 {
        for size in 0..=4 {
            let expected = mixed_end(budget, size);
            let left = interpret_fresh(&mixed_script(), &MIXED_EVENTS, budget as u32, size);
            assert_eq!(left.outcome, Ok(expected), "budget {budget}, log {size}");
            // The writes at 002Eh do nothing, because the configuration is locked.
            let mut device = Device::fresh();
            device.acpi.timer = MIXED_TIMERS[expected.steps as usize];
            assert_eq!(left.device, device, "budget {budget}, log {size}");
            let (front, rest) = left.log.split_at(expected.values_logged);
            assert_eq!(front, acpi_entries(&MIXED_VALUES[..front.len()]));
            assert!(rest.iter().all(|entry| *entry == LENT));
        }
    }
}

/// Interprets a script at every budget and every log length, up to one more than it needs, and
/// compares with the run of the compiled script. Returns the steps of the whole run.
fn check_everywhere(device: &Device, script: &[Record], events: &[u32]) -> u64 {
    let whole = own_run(&bytes(script), device, events, OWN_RUN_STEPS).expect("a short run");
    let image = compiled(script);
    let script = bytes(script);
    for budget in 0..=whole.steps as u32 + 1 {
        for size in 0..=whole.entries.len() + 1 {
            let left = interpret_on(device, &script, events, budget, size);
            let run = run_from(Sequencer::fresh(), &image, events, budget, size, device);
            assert_eq!(left.outcome.ok(), run.outcome.ok());
            assert_eq!(left.device, run.device);
            assert_eq!(left.log, run.log);
            assert_eq!(left.accesses, run.accesses);
        }
    }
    whole.steps
}

#[test]
fn every_budget_and_log_as_compiled() {
    let fresh = Device::fresh();
    assert_eq!(check_everywhere(&fresh, &[], &[TICK]), 1);
    assert_eq!(check_everywhere(&fresh, &mixed_script(), &MIXED_EVENTS), 14);
    for turns in 0..3 {
        let empty = [repeat(turns), end(), repeat(turns), repeat(2), end(), end()];
        check_everywhere(&fresh, &empty, &[]);
    }
    // Repeats in the parts of an if, ifs in a repeat, and ifs that end together with it.
    let crossed = [
        repeat(3),
        if_timer(1),
        repeat(2),
        read_timer(),
        end(),
        or_else(),
        repeat(2),
        if_timer(2),
        or_else(),
        read_timer(),
        end(),
        end(),
        end(),
        delay(1),
        end(),
        if_timer(0),
        or_else(),
        end(),
    ];
    for count in 0..6 {
        check_everywhere(&fresh, &crossed, &[TICK, NO_TICK].repeat(count));
    }
    // Eight repeats, then sixteen ifs with an else each.
    let deep = [
        vec![repeat(1); 7],
        vec![repeat(2), read_timer()],
        vec![end(); 8],
    ];
    assert_eq!(check_everywhere(&fresh, &deep.concat(), &[TICK]), 20);
    let mut ladder = vec![if_timer(1); 16];
    ladder.extend([or_else(), read_timer(), end()].repeat(16));
    assert_eq!(check_everywhere(&fresh, &ladder, &[TICK]), 33);
    assert_eq!(check_everywhere(&fresh, &ladder, &[]), 3);
}

/// A run that would never end, stopped by its budget, also after more accesses than are kept for the
/// comparison.
#[test]
fn very_long_runs_spend_their_budget() {
    let script = [
        vec![repeat(65_535); 8],
        vec![write(0x2E, 0), record(WRITE, 2, 0xAC08, 1), delay(1)],
        vec![end(); 8],
    ];
    let script = hex(&bytes(&script.concat()));
    let budget = 3 * OWN_RUN_STEPS;
    let answer = answers(&format!("N {budget:X} 0 - {script}"));
    assert!(answer.starts_with(&format!("ENDED 19 {budget} 0 0 ")));
}

// Refusals.

/// The interpreter refuses the scripts that the compiler refuses, with the same number and place,
/// and counts as many words.
#[test]
fn refusals_of_scripts_are_those_of_the_compiler() {
    let mut random = Random::new(1);
    let mut refusals = [0; 9];
    for _ in 0..8_000 {
        let script = scripts::any_script(&mut random);
        let compiled = compile(&script, &mut [0; 1_024 * RECORD_BYTES]);
        let nested = nest(&script).map(|script| word_count(&script));
        assert_eq!(nested, compiled);
        if let Err(refusal) = nested {
            refusals[refusal.fault.number() as usize] += 1;
        }
    }
    assert!(
        refusals[1..].iter().all(|count| *count > 30),
        "{refusals:?}"
    );
}

#[test]
fn a_refusal_changes_nothing() {
    let check = |device: &Device, script: &[Record], events: &[u32], expected: (u32, usize)| {
        for budget in [0, 9] {
            let left = interpret_on(device, &bytes(script), events, budget, 2);
            let refusal = left.outcome.expect_err("it is refused");
            assert_eq!((refusal.number(), refusal.place()), expected);
            assert_eq!((&left.device, left.log), (device, vec![LENT; 2]));
            assert!(left.accesses.is_empty());
        }
    };
    let script = [read_timer(), write(0x2E, 0x55)];
    let open = [read_timer(), repeat(1)];
    let fresh = Device::fresh();
    let mut broken = Device::fresh();
    broken.acpi.timer = 1 << 24;
    check(&broken, &open, &[TICK, 0], (7, 2));
    check(&broken, &script, &[TICK, 0], (11, 0));
    check(&fresh, &script, &[TICK, 0, 0], (12, 1));
    check(&fresh, &script, &[TICK; 4_097], (12, 4_096));
    check(&fresh, &[end()], &[], (5, 0));
}

// Commands.

#[test]
fn interpret_commands() {
    let fresh = fresh_state();
    assert_eq!(answers("N 1 0 - -"), format!("ENDED 0 1 0 0 {fresh}\n"));
    assert_eq!(
        answers("N 0 2 00000001 -"),
        format!("ENDED 19 0 0 0 {fresh} A000000000000000A000000000000001\n")
    );
    let script = hex(&bytes(&mixed_script()));
    let events = "010000010100000100000001";
    let state = |timer| {
        let mut device = Device::fresh();
        device.acpi.timer = timer;
        hex(&state::encode(&device))
    };
    assert_eq!(
        answers(&format!("N e 3 {events} {script}\nS")),
        format!(
            "ENDED 0 14 3 2 {0} 00000002000000020000000200000003A000000000000002\nSTATE {0}\n",
            state(3)
        )
    );
    assert_eq!(
        answers(&format!("N D 2 {events} {script}")),
        format!(
            "ENDED 19 13 3 2 {} 00000002000000020000000200000003\n",
            state(3)
        )
    );
    assert_eq!(
        answers(&format!("N FFFFFFFF 1 {events} {script}")),
        format!("ENDED 24 12 3 1 {} 0000000200000002\n", state(3))
    );
    assert_eq!(
        answers(&format!("N 3 0 {events} {script}")),
        format!("ENDED 24 2 1 0 {}\n", state(1))
    );
}

#[test]
fn interpret_commands_that_are_refused_or_unread() {
    let fresh = fresh_state();
    let log = "A000000000000000A000000000000001";
    let open = hex(&bytes(&[write(0x2E, 0), repeat(1)]));
    let long = hex(&bytes(&vec![write(0x2E, 0); 1_024]));
    let many = "00000001".repeat(4_097);
    for (command, expected) in [
        ("N 9 2 00000000 00", format!("1 0 {fresh} {log}")),
        (&format!("N 9 0 00000000 {open}"), format!("7 2 {fresh}")),
        (&format!("N 0 0 - {long}"), format!("8 1024 {fresh}")),
        ("N 0 0 0000000100000000 -", format!("12 1 {fresh}")),
        (&format!("N 9 0 {many} -"), format!("12 4096 {fresh}")),
    ] {
        assert_eq!(answers(command), format!("REFUSED {expected}\n"));
    }
    let mut device = Device::fresh();
    device.acpi.timer = 1 << 24;
    let broken = hex(&state::encode(&device));
    assert_eq!(
        answers(&format!("L {broken}\nN 9 0 00000000 -\nN 9 0 - {open}")),
        format!("LOADED\nREFUSED 11 0 {broken}\nREFUSED 7 2 {broken}\n")
    );
    for line in [
        "N",
        "N 0 0 -",
        "N 0 0 - ",
        "N 0 0  -",
        "N 0 0 - - -",
        "N 0 0 - --",
        "N - 0 - -",
        "N 0 801 - -",
        "N 0 0 - 5",
        "N 0 0 000000 -",
        "N 000000000 0 - -",
        "n 0 0 - -",
        &format!("N 0 0 {} -", "00000001".repeat(4_353)),
        &format!("N 0 0 - {}", "00".repeat(16_385)),
    ] {
        assert_eq!(answers(line), "UNREAD\n", "{line:?}");
    }
    let longest = format!("N 0 0 - {}", "00".repeat(16_384));
    assert_eq!(answers(&longest), format!("REFUSED 1 0 {fresh}\n"));
}

/// An `N` neither uses nor changes the sequencer, in range or not.
#[test]
fn interpret_commands_leave_the_sequencer() {
    let fresh = fresh_state();
    let halt = hex(&Record::of_image(HALT).encode());
    let script = hex(&bytes(&[repeat(2), delay(0), end()]));
    for (held, shown) in [
        ("Q a 2 1 FFFF 0 0 0 0 0 0", "10 2 1 65535 0 0 0 0 0 0"),
        ("Q 0 9 1 1 1 1 1 1 1 1", "0 9 1 1 1 1 1 1 1 1"),
    ] {
        let show = match held.contains(" 9 ") {
            true => "REFUSED 11 0",
            false => "ENDED 19 0 0 0",
        };
        for (interpret, answer) in [
            (format!("N 9 0 - {script}"), "ENDED 0 6 0 0"),
            (format!("N 3 0 - {script}"), "ENDED 19 3 0 0"),
            ("N 9 0 00000000 -".to_string(), "REFUSED 12 0"),
        ] {
            assert_eq!(
                answers(&format!("{held}\n{interpret}\nX 0 0 - {halt}")),
                format!("SET\n{answer} {fresh}\n{show} {shown} {fresh}\n")
            );
            let with_p = answers(&format!("{held}\nP\n{interpret}\nP"));
            let printed: Vec<&str> = with_p.lines().collect();
            assert_eq!(printed[1], printed[3]);
        }
    }
}

// Random commands and scripts.

const RANDOM_COMMANDS: u64 = 6_000;

#[test]
fn random_interpreted_scripts_end_in_every_way() {
    let (endings, refusals) = all_outcomes(&NESTED, b"N ");
    for number in [0, 19, 24] {
        assert!(endings[number] >= 400, "{number}: {endings:?}");
    }
    let named: u32 = [0, 19, 24].iter().map(|number| endings[*number]).sum();
    assert_eq!(named, endings.iter().sum(), "{endings:?}");
    for number in (1..=8).chain([11, 12]) {
        assert!(refusals[number] >= 10, "{number}: {refusals:?}");
    }
    assert_eq!((refusals[9], refusals[10]), (0, 0));
}

/// Shapes of blocks in the scripts of the random `N` commands that are not refused.
#[derive(Debug, Default)]
struct Shapes {
    empty_scripts: u32,
    empty_bodies: u32,
    empty_then_parts: u32,
    empty_else_parts: u32,
    with_else: u32,
    without_else: u32,
    no_turns: u32,
    repeats_in_then: u32,
    repeats_in_else: u32,
    /// Bodies and parts of more than ten records and blocks.
    long: u32,
    blocks_16_deep: u32,
    repeats_8_deep: u32,
}

impl Shapes {
    fn add_script(&mut self, script: &[u8]) {
        let script = nest(script).expect("the script is accepted");
        self.empty_scripts += u32::from(script.is_empty());
        self.add(&script, 0, 0);
    }

    /// Adds the records of a body that is inside this many blocks and repeats.
    fn add(&mut self, body: &[Node], blocks: usize, repeats: usize) {
        self.blocks_16_deep += u32::from(blocks == 16);
        self.repeats_8_deep += u32::from(repeats == 8);
        self.long += u32::from(blocks > 0 && body.len() > 10);
        for node in body {
            match node {
                Node::Repeat { times, body } => {
                    self.no_turns += u32::from(*times == 0);
                    self.empty_bodies += u32::from(body.is_empty());
                    self.add(body, blocks + 1, repeats + 1);
                }
                Node::If {
                    then_part,
                    else_part,
                    ..
                } => {
                    let is_repeat = |node: &Node| matches!(node, Node::Repeat { .. });
                    self.empty_then_parts += u32::from(then_part.is_empty());
                    self.repeats_in_then += u32::from(then_part.iter().any(is_repeat));
                    self.add(then_part, blocks + 1, repeats);
                    let Some(else_part) = else_part else {
                        self.without_else += 1;
                        continue;
                    };
                    self.with_else += 1;
                    self.empty_else_parts += u32::from(else_part.is_empty());
                    self.repeats_in_else += u32::from(else_part.iter().any(is_repeat));
                    self.add(else_part, blocks + 1, repeats);
                }
                Node::Write { .. } | Node::Read { .. } | Node::Delay(_) => {}
            }
        }
    }

    fn least(&self) -> u32 {
        let counts = [
            self.empty_scripts,
            self.empty_bodies,
            self.empty_then_parts,
            self.empty_else_parts,
            self.with_else,
            self.without_else,
            self.no_turns,
            self.repeats_in_then,
            self.repeats_in_else,
            self.long,
            self.blocks_16_deep,
            self.repeats_8_deep,
        ];
        counts.into_iter().min().unwrap_or_default()
    }
}

/// What the random `N` commands reach.
#[derive(Default)]
struct Reached {
    /// How often 19 comes before each kind of counted thing, by the kind of its word.
    spent_at: BTreeMap<u8, u32>,
    /// How often 19 comes at the end of an if.
    spent_at_if_end: u32,
    /// How often 24 comes in a loop, a then-part and an else-part.
    full_in: [u32; 3],
    /// How often events are left, and how often all of some are taken, at each ending.
    events_left: BTreeMap<u32, u32>,
    events_taken: BTreeMap<u32, u32>,
    shapes: Shapes,
}

impl Reached {
    fn all() -> Self {
        let mut reached = Reached::default();
        let mut session = Session::new();
        for line in lines(&commands(&NESTED, 1, RANDOM_COMMANDS)) {
            let before = session.clone();
            if let Reply::Interpreted(interpreted) = session.answer(line) {
                let Ok(ended) = interpreted.outcome else {
                    continue;
                };
                assert!(ended.steps <= OWN_RUN_STEPS, "the runs are short");
                let sequencer = compiled_answer(before, line, &Reply::Interpreted(interpreted));
                reached.add(line, &ended, &sequencer);
            }
        }
        reached
    }

    fn add(&mut self, line: &[u8], ended: &Ended, sequencer: &Sequencer) {
        let words: Vec<&[u8]> = line.split(|byte| *byte == b' ').collect();
        let script = byte_string(words[4]);
        self.shapes.add_script(&script);
        let image = image_of(&script);
        let (image, _) = image.as_chunks::<RECORD_BYTES>();
        let image: Vec<Record> = image.iter().map(Record::decode).collect();
        let place = sequencer.place as usize;
        match ended.ending {
            Ending::BudgetSpent => {
                *self.spent_at.entry(image[place].kind).or_default() += 1;
                self.spent_at_if_end += u32::from(is_behind_if(&image, place));
            }
            Ending::LogFull => {
                assert_eq!(image[place].kind, READ);
                let over = |kind| {
                    let spans = |(from, word): (usize, &Record)| {
                        word.kind == kind && from < place && place < usize::from(word.target)
                    };
                    image.iter().enumerate().any(spans)
                };
                let within = [sequencer.used > 0, over(TEST), over(JUMP)];
                for (count, within) in self.full_in.iter_mut().zip(within) {
                    *count += u32::from(within);
                }
            }
            _ => {}
        }
        let events = byte_string(words[3]).len() / 4;
        let number = ended.ending.number();
        let left = u32::from(ended.events_taken < events);
        let taken = u32::from(events > 0 && ended.events_taken == events);
        *self.events_left.entry(number).or_default() += left;
        *self.events_taken.entry(number).or_default() += taken;
    }
}

/// Whether an if ends at this word: the jump of its else, or the test of an if without one, aims
/// there.
fn is_behind_if(image: &[Record], place: usize) -> bool {
    let aims_here = |kind: u8| {
        image
            .iter()
            .any(|word| word.kind == kind && usize::from(word.target) == place)
    };
    let starts_else = place > 0 && image[place - 1].kind == JUMP;
    aims_here(JUMP) || (aims_here(TEST) && !starts_else)
}

/// Answers the line as a `T` from a fresh sequencer. The answer is that of the `N`, with the
/// sequencer, which is returned.
fn compiled_answer(mut session: Session, line: &[u8], interpreted: &Reply) -> Sequencer {
    session.answer(b"Q");
    let mut line = line.to_vec();
    line[0] = b'T';
    let answer = session.answer(&line).to_string();
    let mut words: Vec<&str> = answer.split(' ').collect();
    words.drain(5..15);
    assert_eq!(words.join(" "), interpreted.to_string());
    *session.sequencer()
}

/// The random `N` commands end before everything that counts a step, and in scripts of every shape.
#[test]
fn random_budgets_and_logs_end_everywhere() {
    let reached = Reached::all();
    for kind in [WRITE, READ, DELAY, TEST, ENTER, LOOP_END, JUMP, HALT] {
        let count = reached.spent_at.get(&kind).copied().unwrap_or_default();
        assert!(count >= 20, "19 before {kind}: {:?}", reached.spent_at);
    }
    assert!(reached.spent_at_if_end >= 20, "{}", reached.spent_at_if_end);
    let full_in = reached.full_in;
    assert!(full_in.iter().all(|count| *count >= 20), "{full_in:?}");
    for number in [0, 19, 24] {
        assert!(
            reached.events_left[&number] >= 50,
            "{:?}",
            reached.events_left
        );
        assert!(
            reached.events_taken[&number] >= 50,
            "{:?}",
            reached.events_taken
        );
    }
    let shapes = reached.shapes;
    assert!(shapes.least() >= 30, "{shapes:?}");
}

/// Most single scripts halt soon. Some are refused, spend the budget of the tracing program or fill
/// its log, and some need exactly that budget or that log.
#[test]
fn single_scripts_end_in_every_way() {
    let (mut quick, mut refused, mut spent, mut full) = (0, 0, 0, 0);
    let (mut exact_budget, mut exact_log) = (0, 0);
    for seed in 0..600 {
        let script = single_script(seed);
        assert_eq!(script, single_script(seed), "a seed gives one script");
        let Ok(ended) = trace(&script) else {
            refused += 1;
            continue;
        };
        match ended.ending {
            Ending::Halted => quick += u32::from(ended.steps <= QUICK_STEPS),
            Ending::BudgetSpent => spent += 1,
            _ => full += 1,
        }
        if ended.ending == Ending::Halted {
            exact_budget += u32::from(ended.steps == u64::from(TRACE_BUDGET));
            exact_log += u32::from(ended.values_logged == TRACE_LOG);
        }
    }
    assert!(quick > 300, "{quick}");
    let others = [refused, spent, full];
    assert!(others.iter().all(|count| *count >= 15), "{others:?}");
    assert!(exact_budget > 0 && exact_log > 0);
}

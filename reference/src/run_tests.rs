//! Tests of runs, and of the commands of docs/CASES.md that run something.

use crate::compiler::{
    compile, Record, DELAY, ELSE, END, ENTER, HALT, IF, JUMP, LOOP_END, READ, RECORD_BYTES, REPEAT,
    SCRIPT_MARK, TEST, WRITE,
};
use crate::device::{Access, Action, Answer, Device, Outputs, Owner, Width};
use crate::generate::{self, Source};
use crate::images::IMAGES;
use crate::nested::NESTED;
use crate::own_run::own_run;
use crate::resumed::RESUMED;
use crate::runs::RUNS;
use crate::sequencer::{run, Ended, Ending, Lent, Refusal, Sequencer};
use crate::state;
use crate::stream::{self, Session, LINE_LIMIT};

pub(crate) const NO_TICK: u32 = 0x0100_0000;
pub(crate) const TICK: u32 = 0x0100_0001;
const RTC_ALARM: u32 = 0x0300_0000;
pub(crate) const LENT: u64 = 0xEEEE_EEEE_EEEE_EEEE;

pub(crate) fn record(kind: u8, width: u8, port: u16, value: u32) -> Record {
    Record {
        width,
        port,
        value,
        ..Record::of_script(kind)
    }
}

pub(crate) fn word(kind: u8, width: u8, port: u16, target: u16, value: u32) -> Record {
    Record {
        width,
        port,
        target,
        value,
        ..Record::of_image(kind)
    }
}

pub(crate) fn repeat(times: u32) -> Record {
    record(REPEAT, 0, 0, times)
}

pub(crate) fn write(port: u16, value: u32) -> Record {
    record(WRITE, 1, port, value)
}

pub(crate) fn read(port: u16) -> Record {
    record(READ, 1, port, 0)
}

pub(crate) fn or_else() -> Record {
    record(ELSE, 0, 0, 0)
}

pub(crate) fn end() -> Record {
    record(END, 0, 0, 0)
}

/// A read of the timer, which each tick increases by one.
pub(crate) fn read_timer() -> Record {
    record(READ, 4, 0xAC18, 0)
}

fn read_status() -> Record {
    record(READ, 2, 0xAC08, 0)
}

pub(crate) fn delay(ticks: u32) -> Record {
    record(DELAY, 0, 0, ticks)
}

pub(crate) fn if_timer(mask: u32) -> Record {
    record(IF, 4, 0xAC18, mask)
}

pub(crate) fn enter(times: u32, target: u16) -> Record {
    word(ENTER, 0, 0, target, times)
}

pub(crate) fn loop_end(target: u16) -> Record {
    word(LOOP_END, 0, 0, target, 0)
}

pub(crate) fn jump(target: u16) -> Record {
    word(JUMP, 0, 0, target, 0)
}

pub(crate) fn halt() -> Record {
    word(HALT, 0, 0, 0, 0)
}

pub(crate) fn timer_word() -> Record {
    word(READ, 4, 0xAC18, 0, 0)
}

pub(crate) fn bytes(records: &[Record]) -> Vec<u8> {
    records.iter().flat_map(Record::encode).collect()
}

pub(crate) fn compiled(script: &[Record]) -> Vec<u8> {
    let mut image = vec![0; 12_288];
    let words = compile(&bytes(script), &mut image).expect("the script is valid");
    image.truncate(words * RECORD_BYTES);
    image
}

pub(crate) fn sequencer(place: u32, counters: &[u32]) -> Sequencer {
    let mut sequencer = Sequencer {
        place,
        used: counters.len() as u32,
        ..Sequencer::fresh()
    };
    sequencer.counters[..counters.len()].copy_from_slice(counters);
    sequencer
}

/// Everything that a run changes.
#[derive(Clone, Debug, PartialEq, Eq)]
pub(crate) struct Left {
    pub outcome: Result<Ended, Refusal>,
    pub device: Device,
    pub sequencer: Sequencer,
    pub log: Vec<u64>,
    pub accesses: Vec<Access>,
}

pub(crate) fn run_from(
    start: Sequencer,
    image: &[u8],
    events: &[u32],
    budget: u32,
    size: usize,
    device: &Device,
) -> Left {
    let mut left = Left {
        outcome: Err(Refusal::Image),
        device: device.clone(),
        sequencer: start,
        log: vec![LENT; size],
        accesses: Vec::new(),
    };
    let lent = Lent {
        image,
        events,
        budget,
        log: &mut left.log,
    };
    left.outcome = run(
        lent,
        &mut left.device,
        &mut left.sequencer,
        &mut left.accesses,
    );
    left
}

/// Runs words on the fresh device.
fn run_words(start: Sequencer, words: &[Record], budget: u32, size: usize) -> Left {
    run_from(start, &bytes(words), &[], budget, size, &Device::fresh())
}

pub(crate) fn ended(
    ending: Ending,
    steps: u64,
    events_taken: usize,
    values_logged: usize,
) -> Ended {
    Ended {
        ending,
        steps,
        events_taken,
        values_logged,
    }
}

pub(crate) fn entry(owner: Owner, value: u32) -> u64 {
    u64::from(owner.number()) << 32 | u64::from(value)
}

/// The log of reads at ports of the ACPI block.
pub(crate) fn acpi_entries(values: &[u32]) -> Vec<u64> {
    values
        .iter()
        .map(|value| entry(Owner::Acpi, *value))
        .collect()
}

/// Runs the script on the fresh device.
fn run_script(script: &[Record], events: &[u32]) -> (u64, Vec<u64>) {
    run_script_on(&Device::fresh(), script, events)
}

/// Runs the script, interpreted and compiled, and returns its steps and the entries of its log.
pub(crate) fn run_script_on(device: &Device, script: &[Record], events: &[u32]) -> (u64, Vec<u64>) {
    let own = own_run(&bytes(script), device, events, u64::MAX).expect("the steps are not limited");
    let image = compiled(script);
    let size = own.entries.len() + 2;
    let budget = u32::try_from(own.steps).expect("the script takes few steps");
    let left = run_from(Sequencer::fresh(), &image, events, budget, size, device);
    let taken = events.len() - own.events_left.len();
    assert_eq!(
        left.outcome,
        Ok(ended(Ending::Halted, own.steps, taken, own.entries.len()))
    );
    assert_eq!(left.device, own.device);
    assert_eq!(left.accesses, own.accesses);
    let halt = image.len() / RECORD_BYTES - 1;
    assert_eq!(left.sequencer, sequencer(halt as u32, &[]));
    assert_eq!(left.log[..own.entries.len()], own.entries);
    assert_eq!(left.log[own.entries.len()..], [LENT; 2]);
    // The interpreter gives up exactly if the run would take more steps than the limit.
    for limit in [0, own.steps / 2, own.steps - 1] {
        assert_eq!(own_run(&bytes(script), device, events, limit), None);
    }
    assert_eq!(
        own_run(&bytes(script), device, events, own.steps).as_ref(),
        Some(&own)
    );
    (own.steps, own.entries)
}

#[test]
fn p10_takes_six_steps() {
    let (steps, _) = run_script(&[repeat(2), write(0x2E, 0x55), end()], &[]);
    assert_eq!(steps, 6);
}

#[test]
fn p11_takes_four_steps_or_three() {
    let script = [
        if_timer(1),
        read(0x2E),
        or_else(),
        record(READ, 2, 0x2E, 0),
        end(),
    ];
    let [byte, word] = [0xFF, 0xFFFF].map(|value| entry(Owner::Configuration, value));
    assert_eq!(run_script(&script, &[TICK]), (4, vec![byte]));
    assert_eq!(run_script(&script, &[]), (3, vec![word]));
    // Without an else there is no jump after the body of the if.
    let script = [if_timer(1), read(0x2E), end()];
    assert_eq!(run_script(&script, &[TICK]), (3, vec![byte]));
    assert_eq!(run_script(&script, &[]), (2, vec![]));
}

fn tracing_script() -> [Record; 7] {
    [
        write(0x2E, 0x55),
        write(0x2E, 0x07),
        write(0x2F, 0x0A),
        write(0x2E, 0xF2),
        read(0x2F),
        write(0x2E, 0xAA),
        read(0x2F),
    ]
}

#[test]
fn tracing_script_logs_the_key_control() {
    let expected = [0x04, 0xFF].map(|value| entry(Owner::Configuration, value));
    assert_eq!(run_script(&tracing_script(), &[]), (8, expected.to_vec()));
    let printed = expected.map(|entry| format!("{entry:016X}"));
    assert_eq!(printed, ["0000000100000004", "00000001000000FF"]);
}

#[test]
fn empty_and_nested_scripts() {
    assert_eq!(run_script(&[], &[TICK]), (1, vec![]));
    // Empty repeats, with and without turns.
    assert_eq!(run_script(&[repeat(0), end()], &[]), (2, vec![]));
    assert_eq!(run_script(&[repeat(3), end()], &[]), (5, vec![]));
    assert_eq!(run_script(&[repeat(65_535), end()], &[]), (65_537, vec![]));
    // Eight nested repeats of two turns each: 2 + 4 + .. + 256 turns, 1 + 2 + .. + 128 enters.
    let deep = [vec![repeat(2); 8], vec![read(0x2E)], vec![end(); 8]].concat();
    let (steps, entries) = run_script(&deep, &[]);
    assert_eq!((steps, entries.len()), (510 + 255 + 256 + 1, 256));
    // Sixteen nested ifs, each with an else.
    let mut ladder = vec![if_timer(1); 16];
    ladder.extend([or_else(), read_timer(), end()].repeat(16));
    assert_eq!(run_script(&ladder, &[TICK]), (33, vec![]));
    assert_eq!(run_script(&ladder, &[]), (3, acpi_entries(&[0])));
    assert_eq!(
        run_script(&ladder, &[0x0100_0002, TICK]),
        (3, acpi_entries(&[3]))
    );
}

#[test]
fn events_come_before_accesses() {
    let script = [
        delay(0x10),
        read_timer(),
        record(WRITE, 4, 0xAC18, 0),
        repeat(2),
        if_timer(0),
        end(),
        end(),
        read_timer(),
        read_timer(),
    ];
    // A delay takes no event from the list; a write and a test do.
    let events = [TICK; 5];
    let expected = acpi_entries(&[0x11, 0x15, 0x15]);
    assert_eq!(run_script(&script, &events), (11, expected));
    let more = [TICK; 9];
    let (_, entries) = run_script(&script, &more);
    assert_eq!(entries, acpi_entries(&[0x11, 0x15, 0x16]));
}

/// From the fresh device, TMR_STS is set at 800000h and again when the timer wraps to 0.
#[test]
fn delays_and_events_set_the_timer_status() {
    let two_before = [repeat(255), delay(0x8000), end(), delay(0x7FFE)];
    let clear = record(WRITE, 2, 0xAC08, 0x0001);
    let expected = acpi_entries(&[0, 1, 0, 0x80_0000, 0, 1, 0, 0]);

    let by_delays = [
        delay(1),
        read_status(),
        delay(1),
        read_status(),
        clear,
        read_status(),
        read_timer(),
    ];
    let script = [two_before.as_slice(), &by_delays].concat().repeat(2);
    assert_eq!(run_script(&script, &[]).1, expected);

    let by_events = [
        read_status(),
        read_status(),
        clear,
        read_status(),
        read_timer(),
    ];
    let script = [two_before.as_slice(), &by_events].concat().repeat(2);
    let events = [TICK, TICK, NO_TICK, NO_TICK, NO_TICK].repeat(2);
    assert_eq!(run_script(&script, &events).1, expected);
}

#[test]
fn accesses_are_listed_with_their_whole_answers() {
    let script = [
        record(WRITE, 2, 0xAC0A, 0x0400),
        record(IF, 2, 0xAC08, 0x0400),
        write(0xAC06, 3),
        end(),
        read(0xAC04),
        record(READ, 2, 0x2E, 0),
    ];
    let events = [TICK, RTC_ALARM];
    let left = run_from(
        Sequencer::fresh(),
        &compiled(&script),
        &events,
        100,
        2,
        &Device::fresh(),
    );
    assert_eq!(left.outcome, Ok(ended(Ending::Halted, 6, 2, 2)));
    assert_eq!(left.device.acpi.cpu_state, 0);
    let access = |action, width, port, (status, value, owner), smi| Access {
        action,
        width,
        port,
        answer: Answer {
            status,
            value,
            owner,
        },
        outputs: Outputs {
            sci: false,
            smi,
            monitor: false,
        },
    };
    let (acpi, configuration) = (Owner::Acpi, Owner::Configuration);
    let expected = [
        access(
            Action::Write(0x0400),
            Width::Two,
            0xAC0A,
            (0, 0, acpi),
            false,
        ),
        access(Action::Test, Width::Two, 0xAC08, (0, 0x0400, acpi), true),
        access(Action::Write(3), Width::One, 0xAC06, (5, 0, acpi), true),
        access(Action::Read, Width::One, 0xAC04, (0, 0, acpi), true),
        access(
            Action::Read,
            Width::Two,
            0x2E,
            (1, 0xFFFF, configuration),
            true,
        ),
    ];
    assert_eq!(left.accesses, expected);
    run_script(&script, &events);
}

#[test]
fn budget_is_looked_at_first() {
    let script = [repeat(2), read_timer(), end()];
    let image = compiled(&script);
    let stopped = |budget, size| {
        run_from(
            Sequencer::fresh(),
            &image,
            &[TICK; 3],
            budget,
            size,
            &Device::fresh(),
        )
    };
    let none = stopped(0, 2);
    assert_eq!(none.outcome, Ok(ended(Ending::BudgetSpent, 0, 0, 0)));
    assert_eq!(none.sequencer, Sequencer::fresh());
    assert_eq!(none.device, Device::fresh());
    assert_eq!(none.log, [LENT; 2]);
    let one_less = stopped(5, 2);
    assert_eq!(one_less.outcome, Ok(ended(Ending::BudgetSpent, 5, 2, 2)));
    assert_eq!(one_less.sequencer, sequencer(3, &[]));
    let exact = stopped(6, 2);
    assert_eq!(exact.outcome, Ok(ended(Ending::Halted, 6, 2, 2)));
    // If the log is full and the budget is spent, the run ends with 19. With one more step in the
    // budget it ends with 24, and takes no event.
    let spent = stopped(3, 1);
    assert_eq!(spent.outcome, Ok(ended(Ending::BudgetSpent, 3, 1, 1)));
    let full = stopped(4, 1);
    assert_eq!(full.outcome, Ok(ended(Ending::LogFull, 3, 1, 1)));
    assert_eq!(full.sequencer, sequencer(1, &[1]));
    assert_eq!(full.device.acpi.timer, 1);
    assert_eq!(full.log, acpi_entries(&[1]));
    // A spent budget also comes before a wrong place and a bad word.
    let bad = [Record::default()];
    for place in [0, 1, u32::MAX] {
        let left = run_words(sequencer(place, &[]), &bad, 0, 0);
        assert_eq!(left.outcome, Ok(ended(Ending::BudgetSpent, 0, 0, 0)));
    }
}

#[test]
fn a_stopped_run_goes_on() {
    let script = [
        repeat(3),
        if_timer(2),
        read_timer(),
        or_else(),
        delay(1),
        end(),
        repeat(2),
        read(0x2E),
        end(),
        end(),
    ];
    let image = compiled(&script);
    let fresh = Device::fresh();
    let events = [TICK; 4];
    let whole = run_from(Sequencer::fresh(), &image, &events, 1_000, 20, &fresh);
    let Ok(whole_ended) = whole.outcome else {
        panic!("the run was refused");
    };
    assert_eq!(whole_ended.ending, Ending::Halted);
    // Step by step, with a new log for each step.
    let mut start = Sequencer::fresh();
    let mut device = fresh;
    let mut taken = 0;
    let mut log = Vec::new();
    let mut accesses = Vec::new();
    for step in 1..=whole_ended.steps {
        let left = run_from(start, &image, &events[taken..], 1, 1, &device);
        let last = step == whole_ended.steps;
        let outcome = left.outcome.expect("the run is not refused");
        assert_eq!(outcome.steps, 1);
        assert_eq!(outcome.ending == Ending::Halted, last, "step {step}");
        taken += outcome.events_taken;
        log.extend_from_slice(&left.log[..outcome.values_logged]);
        accesses.extend(left.accesses);
        start = left.sequencer;
        device = left.device;
    }
    assert_eq!(taken, whole_ended.events_taken);
    assert_eq!(log, whole.log[..whole_ended.values_logged]);
    assert_eq!(accesses, whole.accesses);
    assert_eq!((start, &device), (whole.sequencer, &whole.device));
    // A halted sequencer halts again, one step each time.
    let again = run_from(start, &image, &events, 9, 1, &device);
    assert_eq!(again.outcome, Ok(ended(Ending::Halted, 1, 0, 0)));
    assert_eq!((again.sequencer, again.device), (start, device));
    assert_eq!(again.log, [LENT]);
}

#[test]
fn counters() {
    let eight = sequencer(0, &[5; 8]);
    // A ninth counter.
    let nine = run_words(eight, &[enter(1, 1), halt()], 9, 0);
    assert_eq!(nine.outcome, Ok(ended(Ending::NinthCounter, 0, 0, 0)));
    assert_eq!(nine.sequencer, eight);
    // A repeat of 0 turns pushes no counter, so it needs no ninth.
    let none = run_words(eight, &[enter(0, 2), jump(9), halt()], 9, 0);
    assert_eq!(none.outcome, Ok(ended(Ending::Halted, 2, 0, 0)));
    assert_eq!(none.sequencer, sequencer(2, &[5; 8]));
    // Counters pushed one after another.
    let pushed = run_words(Sequencer::fresh(), &[enter(7, 0), jump(0)], 100, 0);
    assert_eq!(pushed.outcome, Ok(ended(Ending::NinthCounter, 16, 0, 0)));
    assert_eq!(pushed.sequencer, sequencer(0, &[7; 8]));
    // A loop end without a counter.
    let without = run_words(Sequencer::fresh(), &[loop_end(0), halt()], 9, 0);
    assert_eq!(without.outcome, Ok(ended(Ending::NoCounter, 0, 0, 0)));
    assert_eq!(without.sequencer, Sequencer::fresh());
    // Each loop end takes one from the top counter; the last one removes it.
    let turn = run_words(sequencer(1, &[9, 2]), &[halt(), loop_end(0)], 9, 0);
    assert_eq!(turn.outcome, Ok(ended(Ending::Halted, 2, 0, 0)));
    assert_eq!(turn.sequencer, sequencer(0, &[9, 1]));
    let last = run_words(
        sequencer(0, &[9, 1]),
        &[loop_end(0), timer_word(), halt()],
        9,
        1,
    );
    assert_eq!(last.outcome, Ok(ended(Ending::Halted, 3, 0, 1)));
    assert_eq!(last.sequencer, sequencer(2, &[9]));
    let pushed = run_words(sequencer(0, &[9]), &[enter(65_535, 0), halt()], 9, 0);
    assert_eq!(pushed.sequencer, sequencer(1, &[9, 65_535]));
}

#[test]
fn places_and_targets_beyond_the_last_word() {
    let beyond = Ok(ended(Ending::Beyond, 0, 0, 0));
    for place in [1, 2, 65_536, u32::MAX] {
        let left = run_words(sequencer(place, &[]), &[halt()], 1, 0);
        assert_eq!(left.outcome, beyond);
        assert_eq!(left.sequencer, sequencer(place, &[]));
    }
    // The place after the last word is a fault, but the last word is executed.
    let left = run_words(Sequencer::fresh(), &[timer_word()], 9, 1);
    assert_eq!(left.outcome, Ok(ended(Ending::Beyond, 1, 0, 1)));
    assert_eq!(left.sequencer, sequencer(1, &[]));
    // A target equal to the word count, taken or not.
    for target in [2, 3, 65_535] {
        let words = [
            jump(target),
            enter(0, target),
            enter(1, target),
            loop_end(target),
            word(TEST, 4, 0xAC18, target, 0),
            word(TEST, 1, 0x2E, target, 1),
        ];
        for bad in words {
            // It comes before 22 and 23, and no event is taken.
            for start in [sequencer(0, &[]), sequencer(0, &[1; 8])] {
                let image = bytes(&[bad, halt()]);
                let left = run_from(start, &image, &[TICK], 9, 0, &Device::fresh());
                assert_eq!(left.outcome, beyond, "{bad:?}");
                assert_eq!(left.device, Device::fresh());
                assert_eq!(left.sequencer, start);
            }
        }
    }
}

#[test]
fn bad_words() {
    let test = word(TEST, 1, 0x2E, 0, 1);
    let write = word(WRITE, 1, 0x2E, 0, 0x55);
    let bad = [
        Record {
            mark: SCRIPT_MARK,
            ..halt()
        },
        Record {
            mark: [0x3C, 0xC3],
            ..halt()
        },
        word(0, 0, 0, 0, 0),
        word(9, 0, 0, 0, 0),
        word(255, 0, 0, 0, 0),
        word(WRITE, 0, 0x2E, 0, 0),
        word(WRITE, 3, 0x2E, 0, 0),
        word(WRITE, 1, 0x2E, 0, 0x100),
        word(WRITE, 2, 0x2E, 0, 0x1_0000),
        word(WRITE, 1, 0x2E, 1, 0),
        word(READ, 8, 0x2E, 0, 0),
        word(READ, 1, 0x2E, 0, 1),
        word(READ, 1, 0x2E, 1, 0),
        word(DELAY, 0, 0, 0, 65_536),
        word(DELAY, 1, 0, 0, 1),
        word(DELAY, 0, 1, 0, 1),
        word(DELAY, 0, 0, 1, 1),
        word(ENTER, 0, 0, 0, 65_536),
        word(ENTER, 1, 0, 0, 1),
        word(ENTER, 0, 1, 0, 1),
        word(LOOP_END, 0, 0, 0, 1),
        word(LOOP_END, 1, 0, 0, 0),
        word(LOOP_END, 0, 1, 0, 0),
        word(TEST, 0, 0x2E, 0, 0),
        word(TEST, 1, 0x2E, 0, 0x100),
        word(TEST, 5, 0x2E, 0, 0),
        word(JUMP, 0, 0, 0, 1),
        word(JUMP, 1, 0, 0, 0),
        word(JUMP, 0, 1, 0, 0),
        word(HALT, 0, 0, 0, 1),
        word(HALT, 0, 0, 1, 0),
        word(HALT, 0, 1, 0, 0),
        word(HALT, 1, 0, 0, 0),
        // A target beyond the last word is checked after it.
        word(JUMP, 1, 0, 9, 0),
        word(ENTER, 0, 0, 9, 65_536),
    ];
    for bad in bad {
        for start in [sequencer(1, &[]), sequencer(1, &[1; 8])] {
            let image = bytes(&[halt(), bad, halt()]);
            let left = run_from(start, &image, &[RTC_ALARM], 9, 0, &Device::fresh());
            let expected = Ok(ended(Ending::BadWord, 0, 0, 0));
            assert_eq!(left.outcome, expected, "{bad:?}");
            assert_eq!((left.sequencer, left.device), (start, Device::fresh()));
        }
    }
    for good in [test, write, word(TEST, 4, 0xFFFF, 1, u32::MAX)] {
        let left = run_words(Sequencer::fresh(), &[good, halt()], 1, 0);
        assert_eq!(left.outcome, Ok(ended(Ending::BudgetSpent, 1, 0, 0)));
    }
}

#[test]
fn refusals_of_runs_come_in_order() {
    let fresh = Device::fresh();
    let mut broken = Device::fresh();
    broken.acpi.timer = 1 << 24;
    let image = bytes(&[halt()]);
    let bad_events = [TICK, 0, 0];
    let refused = |start, image: &[u8], events: &[u32], device: &Device| {
        let left = run_from(start, image, events, 9, 3, device);
        assert_eq!((&left.sequencer, &left.device), (&start, device));
        assert_eq!(left.log, [LENT; 3]);
        left.outcome.expect_err("a refusal")
    };
    let good = Sequencer::fresh();
    let illegal = sequencer(0, &[0]);
    for length in [0, 1, 11, 13, 12_287, 12_300] {
        let image = vec![0; length];
        assert_eq!(refused(good, &image, &[], &fresh), Refusal::Image);
        let refusal = refused(illegal, &image, &bad_events, &broken);
        assert_eq!((refusal.number(), refusal.place()), (10, 0));
    }
    let longest = run_from(good, &vec![0; 12_288], &[], 1, 0, &fresh);
    assert_eq!(longest.outcome, Ok(ended(Ending::BadWord, 0, 0, 0)));
    let mut more = sequencer(0, &[1; 8]);
    more.used = 9;
    let mut unused = sequencer(0, &[1, 1]);
    unused.counters[7] = 1;
    let mut fewer = sequencer(0, &[1, 1]);
    fewer.used = 1;
    let mut far = Sequencer::fresh();
    far.used = u32::MAX;
    for start in [
        illegal,
        more,
        unused,
        fewer,
        far,
        sequencer(0, &[65_536]),
        sequencer(0, &[1, 1, 0]),
    ] {
        let refusal = refused(start, &image, &bad_events, &fresh);
        assert_eq!((refusal.number(), refusal.place()), (11, 0));
    }
    let refusal = refused(good, &image, &bad_events, &broken);
    assert_eq!(refusal, Refusal::StateOutOfRange);
    let refusal = refused(good, &image, &bad_events, &fresh);
    assert_eq!((refusal.number(), refusal.place()), (12, 1));
    // With more than 4,096 events the place is always 4,096.
    let mut events = vec![TICK; 4_097];
    assert_eq!(
        refused(good, &image, &events, &fresh),
        Refusal::BadEvent(4_096)
    );
    events[3] = 0;
    assert_eq!(
        refused(good, &image, &events, &fresh),
        Refusal::BadEvent(4_096)
    );
    events.pop();
    assert_eq!(refused(good, &image, &events, &fresh), Refusal::BadEvent(3));
    events[3] = TICK;
    let left = run_from(good, &image, &events, 9, 0, &fresh);
    assert_eq!(left.outcome, Ok(ended(Ending::Halted, 1, 0, 0)));
    let left = run_from(sequencer(0, &[1, 65_535]), &image, &[], 9, 0, &fresh);
    assert_eq!(left.outcome, Ok(ended(Ending::Halted, 1, 0, 0)));
}

// Commands.

pub(crate) fn answers_to(mut input: &[u8]) -> String {
    let mut output = Vec::new();
    stream::answer_all(&mut input, &mut output).expect("writing to memory does not fail");
    String::from_utf8(output).expect("answers are text")
}

pub(crate) fn answers(input: &str) -> String {
    answers_to(input.as_bytes())
}

pub(crate) fn hex(bytes: &[u8]) -> String {
    bytes.iter().map(|byte| format!("{byte:02X}")).collect()
}

pub(crate) fn fresh_state() -> String {
    hex(&state::encode(&Device::fresh()))
}

#[test]
fn run_commands() {
    let fresh = fresh_state();
    let script = hex(&bytes(&tracing_script()));
    let mut device = Device::fresh();
    device.configuration.index = 0xF2;
    device.configuration.device_number = 0x0A;
    let after = hex(&state::encode(&device));
    let none = "0 0 0 0 0 0 0 0 0";
    let log = "000000010000000400000001000000FFA000000000000002";
    assert_eq!(
        answers(&format!("T 186A0 3 - {script}\nS")),
        format!("ENDED 0 8 0 2 7 {none} {after} {log}\nSTATE {after}\n")
    );
    assert_eq!(
        answers("T 1 0 - -"),
        format!("ENDED 0 1 0 0 0 {none} {fresh}\n")
    );
    assert_eq!(
        answers("T 0 2 00000001 -"),
        format!("ENDED 19 0 0 0 0 {none} {fresh} A000000000000000A000000000000001\n")
    );
    // The example of docs/CASES.md: reset 1 before the first read.
    let reset = "0000000100000001000000010000000101000006";
    let log = "00000001000000FF00000001000000FFA000000000000002A000000000000003";
    assert_eq!(
        answers(&format!("T 64 4 {reset} {script}")),
        format!("ENDED 0 8 5 2 7 {none} {fresh} {log}\n")
    );
    // One read of the timer, one event before it.
    let read = hex(&bytes(&[read_timer()]));
    let mut ticked = Device::fresh();
    ticked.acpi.timer = 0x1234;
    let after = hex(&state::encode(&ticked));
    assert_eq!(
        answers(&format!("T ff 1 3412000100000003 {read}")),
        format!("ENDED 0 2 1 1 1 {none} {after} 0000000200001234\n")
    );
    // The log is too short; then the image resumes with another log.
    let image = hex(&compiled(&[read_timer()]));
    assert_eq!(
        answers(&format!(
            "T 9 0 00000001 {read}\nX 9 1 34120001 {image}\nX 9 1 - {image}\nQ\nX 1 1 - {image}"
        )),
        format!(
            "ENDED 24 0 0 0 0 {none} {fresh}\n\
             ENDED 0 2 1 1 1 {none} {after} 0000000200001234\n\
             ENDED 0 1 0 0 1 {none} {after} A000000000000000\n\
             SET\n\
             ENDED 19 1 0 1 1 {none} {after} 0000000200001234\n"
        )
    );
}

#[test]
fn run_commands_that_are_refused() {
    let fresh = fresh_state();
    let held = "Q a 2 1 FFFF 0 0 0 0 0 0";
    let shown = "10 2 1 65535 0 0 0 0 0 0";
    let refused = |command: &str| {
        let output = answers(&format!("{held}\n{command}\nX 0 0 - {}", "00".repeat(12)));
        let (first, rest) = output.split_once('\n').expect("three lines");
        assert_eq!(first, "SET");
        let (answer, last) = rest.split_once('\n').expect("three lines");
        // The sequencer has not changed.
        assert_eq!(last, format!("ENDED 19 0 0 0 {shown} {fresh}\n"));
        answer.to_string()
    };
    let with = |number: &str, log: &str| format!("REFUSED {number} {shown} {fresh}{log}");
    assert_eq!(refused("X 9 1 - -"), with("10 0", " A000000000000000"));
    assert_eq!(refused("X 9 0 00000000 00"), with("10 0", ""));
    let halt = hex(&bytes(&[halt()]));
    assert_eq!(
        refused(&format!("X 9 0 0000000100000008 {halt}")),
        with("12 1", "")
    );
    let many = "00000001".repeat(4_352);
    assert_eq!(
        refused(&format!("X 9 0 {many} {halt}")),
        with("12 4096", "")
    );
    assert_eq!(refused(&format!("T 9 0 {many} -")), with("12 4096", ""));
    assert_eq!(refused("T 0 0 00000000 -"), with("12 0", ""));
    // The refusals of the compiler come first.
    assert_eq!(
        refused("T 9 2 00000000 00"),
        with("1 0", " A000000000000000A000000000000001")
    );
    let open = hex(&bytes(&[write(0x2E, 0), repeat(1)]));
    assert_eq!(refused(&format!("T 9 0 00000000 {open}")), with("7 2", ""));
    let long = hex(&bytes(&vec![write(0x2E, 0); 1_024]));
    assert_eq!(refused(&format!("T 9 0 - {long}")), with("8 1024", ""));
    // A device out of range.
    let mut device = Device::fresh();
    device.acpi.timer = 1 << 24;
    let broken = hex(&state::encode(&device));
    assert_eq!(
        answers(&format!("L {broken}\nT 9 0 00000000 -\nX 9 0 - -")),
        format!(
            "LOADED\nREFUSED 11 0 0 0 0 0 0 0 0 0 0 0 {broken}\n\
             REFUSED 10 0 0 0 0 0 0 0 0 0 0 0 {broken}\n"
        )
    );
    // A sequencer out of range, until another one is set.
    let illegal = "5 9 1 1 1 1 1 1 1 1";
    let refused = format!("REFUSED 11 0 {illegal} {fresh}");
    assert_eq!(
        answers(&format!(
            "Q {illegal}\nX 9 0 - {halt}\nT 9 0 00000000 -\nT 9 0 - {open}\nQ\nT 9 0 - -"
        )),
        format!(
            "SET\n{refused}\n{refused}\nREFUSED 7 2 {illegal} {fresh}\nSET\n\
             ENDED 0 1 0 0 0 0 0 0 0 0 0 0 0 0 {fresh}\n"
        )
    );
}

#[test]
fn run_commands_that_are_unread() {
    let halt = hex(&bytes(&[halt()]));
    let lines = [
        "Q ".into(),
        "Q 0".into(),
        "Q 0 0".into(),
        "Q 0 0 0 0 0 0 0 0 0".into(),
        "Q 0 0 0 0 0 0 0 0 0 0 0".into(),
        "Q 0 0 0 0 0 0 0 0 0 0 ".into(),
        "Q 0 0 0 0 0 0 0 0  0 0".into(),
        "Q 0 0 0 0 0 0 0 0 0 G".into(),
        "Q 0 0 0 0 0 0 0 0 0 000000000".into(),
        "Q -".into(),
        "q".into(),
        "X".into(),
        "X 0 0 -".into(),
        "X 0 0 - ".into(),
        "X 0 0  -".into(),
        "X 0 0 -- -".into(),
        "X 0 0 - --".into(),
        "X - 0 - -".into(),
        "X 0 - - -".into(),
        "X 0 0 - - -".into(),
        "X 0 0 - - ".into(),
        "X 0 801 - -".into(),
        "X 0 0 - 0".into(),
        "X 000000000 0 - -".into(),
        "x 0 0 - -".into(),
        "T 0 0 -".into(),
        "T 0 0 000000 -".into(),
        "T 0 0 0000000 -".into(),
        "T 0 0 0000000000 -".into(),
        "T 0 0 - 5".into(),
        "T 0 0 0000000G -".into(),
        format!("X 0 0 {} {halt}", "00000001".repeat(4_353)),
        format!("X 0 0 - {}", "00".repeat(16_385)),
        format!("T 0 0 - {}", "00".repeat(16_385)),
    ];
    for line in lines {
        assert_eq!(answers(&line), "UNREAD\n", "{line:?}");
    }
    // At the limits.
    let shown = format!("0 0 0 0 0 0 0 0 0 0 {}", fresh_state());
    let longest = format!("X 0 0 - {}", "00".repeat(16_384));
    assert_eq!(answers(&longest), format!("REFUSED 10 0 {shown}\n"));
    let longest = format!("T 0 0 - {}", "00".repeat(16_384));
    assert_eq!(answers(&longest), format!("REFUSED 1 0 {shown}\n"));
    let log = answers("T FFFFFFFF 800 - -");
    assert!(log.starts_with(&format!(
        "ENDED 0 1 0 0 {shown} A000000000000000A000000000000001"
    )));
    assert!(log.ends_with("A0000000000007FEA0000000000007FF\n"));
}

// Random commands.

pub(crate) fn commands(source: &'static Source, seed: u64, count: u64) -> Vec<u8> {
    let mut commands = Vec::new();
    generate::write_commands(source, seed, count, &mut commands)
        .expect("writing to memory does not fail");
    commands
}

pub(crate) fn lines(commands: &[u8]) -> impl Iterator<Item = &[u8]> {
    commands.split(|byte| *byte == b'\n')
}

/// How often each ending and each refusal answers some commands, by their numbers.
pub(crate) type Outcomes = ([u32; 25], [u32; 25]);

/// Counts the outcomes of these commands: first of those that start from a fresh sequencer, then of
/// the others.
pub(crate) fn outcomes(source: &'static Source, counted: &[u8], count: u64) -> [Outcomes; 2] {
    let mut outcomes = [([0; 25], [0; 25]); 2];
    let mut session = Session::new();
    for command in lines(&commands(source, 1, count)) {
        let fresh = *session.sequencer() == Sequencer::fresh();
        let answer = session.answer(command).to_string();
        if !command.starts_with(counted) {
            continue;
        }
        let (endings, refusals) = &mut outcomes[usize::from(!fresh)];
        let mut words = answer.split(' ');
        let counts = match words.next() {
            Some("ENDED") => endings,
            Some("REFUSED") => refusals,
            _ => continue,
        };
        let number: usize = words
            .next()
            .and_then(|word| word.parse().ok())
            .expect("a number");
        counts[number] += 1;
    }
    outcomes
}

/// The outcomes of commands from any sequencer.
pub(crate) fn all_outcomes(source: &'static Source, counted: &[u8]) -> Outcomes {
    let [(mut endings, mut refusals), (other_endings, other_refusals)] =
        outcomes(source, counted, 6_000);
    for number in 0..25 {
        endings[number] += other_endings[number];
        refusals[number] += other_refusals[number];
    }
    (endings, refusals)
}

#[test]
fn random_scripts_end_in_every_way() {
    let [(endings, refusals), (resumed, refused)] = outcomes(&RUNS, b"T ", 12_000);
    assert!(endings[0] >= 2_000, "{endings:?}");
    for number in [19, 24] {
        assert!(endings[number] >= 300, "{number}: {endings:?}");
    }
    for number in [11, 12] {
        assert!(refusals[number] >= 100, "{number}: {refusals:?}");
    }
    assert!(
        refusals[1..=8].iter().all(|count| *count >= 5),
        "{refusals:?}"
    );
    // A compiled image that starts from a fresh sequencer has no other endings.
    let named: u32 = [0, 19, 24].iter().map(|number| endings[*number]).sum();
    assert_eq!(named, endings.iter().sum(), "{endings:?}");
    // From another sequencer its place can be beyond the last word, an enter can find no free counter,
    // and a loop end can find none in use. No word is bad.
    for (number, least) in [(0, 30), (19, 20), (21, 50), (22, 3), (23, 30), (24, 5)] {
        assert!(resumed[number] >= least, "{number}: {resumed:?}");
    }
    assert_eq!(resumed[20], 0);
    assert!(refused[11] >= 20, "{refused:?}");
    for refusals in [refusals, refused] {
        assert_eq!((refusals[9], refusals[10]), (0, 0));
    }
}

#[test]
fn random_images_end_in_every_way() {
    let (endings, refusals) = all_outcomes(&IMAGES, b"X ");
    for number in [0, 19, 20, 21, 22, 23, 24] {
        assert!(endings[number] >= 100, "{number}: {endings:?}");
    }
    for number in [10, 11, 12] {
        assert!(refusals[number] >= 100, "{number}: {refusals:?}");
    }
}

#[test]
fn random_runs_are_as_many_as_asked_for() {
    for source in [&RUNS, &IMAGES, &NESTED, &RESUMED] {
        for seed in 0..6 {
            for count in [0, 1, 2, 150] {
                let commands = commands(source, seed, count);
                assert!(lines(&commands).all(|line| line.len() <= LINE_LIMIT));
                assert_eq!(answers_to(&commands).lines().count() as u64, count);
            }
        }
    }
}

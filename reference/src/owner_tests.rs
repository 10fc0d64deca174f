//! Tests of the owner that an access names: in single accesses, in runs and their logs, and in the
//! random commands.

use std::collections::BTreeMap;
use std::ops::Range;

use crate::compiler::{IF, READ};
use crate::device::{Access, Action, Answer, Device, Owner};
use crate::generate::{Source, ANYTHING};
use crate::images::IMAGES;
use crate::nested::NESTED;
use crate::resumed::RESUMED;
use crate::run_tests::{
    answers_to, commands, compiled, end, entry, lines, read, read_timer, record, run_from,
    run_script_on, write, LENT, NO_TICK,
};
use crate::runs::{image_of, RUNS};
use crate::sequencer::{self, Ending, Lent, Sequencer};
use crate::stream::{Reply, Session};
use crate::tests::{configure, event, placed};

const PCI_RESET: u32 = 0x0600_0000;

/// The pairs of owner and status that a read of a device in range can have.
const READ_PAIRS: [(Owner, u32); 12] = [
    (Owner::Nobody, 1),
    (Owner::Configuration, 0),
    (Owner::Configuration, 1),
    (Owner::Configuration, 4),
    (Owner::Acpi, 0),
    (Owner::Acpi, 1),
    (Owner::Monitor, 0),
    (Owner::Monitor, 1),
    (Owner::Monitor, 4),
    (Owner::Key, 0),
    (Owner::Key, 1),
    (Owner::Key, 2),
];

/// Those of a write. Only the ACPI block ignores values, and only the configuration and the monitor
/// have an index that can name no register.
const WRITE_PAIRS: [(Owner, u32); 16] = [
    (Owner::Nobody, 1),
    (Owner::Configuration, 0),
    (Owner::Configuration, 1),
    (Owner::Configuration, 2),
    (Owner::Configuration, 4),
    (Owner::Acpi, 0),
    (Owner::Acpi, 1),
    (Owner::Acpi, 2),
    (Owner::Acpi, 5),
    (Owner::Monitor, 0),
    (Owner::Monitor, 1),
    (Owner::Monitor, 2),
    (Owner::Monitor, 4),
    (Owner::Key, 0),
    (Owner::Key, 1),
    (Owner::Key, 2),
];

/// The pairs of blocks whose ranges can share a port, the owner first. The monitor has the ports
/// 70h and 71h above a multiple of 80h, so it shares none with the configuration or the ACPI block.
const SHARED: [(Owner, Owner); 3] = [
    (Owner::Configuration, Owner::Key),
    (Owner::Acpi, Owner::Key),
    (Owner::Monitor, Owner::Key),
];

/// The ranges of document 01 in the order in which they claim, for the blocks that exist. It is
/// written apart from the model's own search, which it is compared with.
fn ranges(device: &Device) -> Vec<(Owner, Range<u32>)> {
    let configuration = &device.configuration;
    let masked = |[high, low]: [u8; 2], size: u32| {
        let stored = 256 * u32::from(high) + u32::from(low);
        stored - stored % size
    };
    let runtime = masked(configuration.runtime_base, 0x80);
    let key = masked(configuration.key_base, 0x20);
    let mut ranges = vec![
        (Owner::Configuration, 0x2E..0x30),
        (Owner::Acpi, 0xAC00..0xAC20),
    ];
    if configuration.activate == 1 && runtime != 0 {
        ranges.push((Owner::Monitor, runtime + 0x70..runtime + 0x72));
    }
    if configuration.activate == 1 && key != 0 {
        ranges.push((Owner::Key, key..key + 32));
    }
    ranges
}

/// The blocks whose ranges have the port. The first one owns it.
fn claimants(device: &Device, port: u32) -> Vec<Owner> {
    let mut ranges = ranges(device);
    ranges.retain(|(_, ports)| ports.contains(&port));
    ranges.iter().map(|(owner, _)| *owner).collect()
}

fn owner_by_ranges(device: &Device, port: u32) -> Owner {
    let claimants = claimants(device, port);
    claimants.first().copied().unwrap_or(Owner::Nobody)
}

/// Status and owner of a read.
fn asked(device: &mut Device, width: u32, port: u32) -> (u32, Owner) {
    let answer = device
        .single_read(width, port)
        .expect("the read is not refused");
    (answer.status, answer.owner)
}

/// Status and owner of a write.
fn told(device: &mut Device, width: u32, port: u32, value: u32) -> (u32, Owner) {
    let answer = device
        .single_write(width, port, value)
        .expect("the write is not refused");
    (answer.status, answer.owner)
}

/// Unlocked, monitor at 0A70h and 0A71h, key bytes at 0100h to 011Fh, neither locked for reads nor
/// for writes.
fn with_all_blocks() -> Device {
    let mut device = placed(0x0A00, 0x0100);
    assert_eq!(configure(&mut device, 0xF2, 0x00), 0);
    device
}

// Single accesses.

#[test]
fn owners_have_their_numbers() {
    let owners = [
        Owner::Nobody,
        Owner::Configuration,
        Owner::Acpi,
        Owner::Monitor,
        Owner::Key,
    ];
    assert_eq!(owners.map(Owner::number), [0, 1, 2, 3, 4]);
}

#[test]
fn owner_of_an_access_that_is_done() {
    let mut device = with_all_blocks();
    for (width, port, value, owner) in [
        (1, 0x2E, 0x30, Owner::Configuration),
        (1, 0x2F, 0x01, Owner::Configuration),
        (4, 0xAC00, 0x17, Owner::Acpi),
        (2, 0xAC12, 0x8000, Owner::Acpi),
        (1, 0x0A70, 0x7C, Owner::Monitor),
        (1, 0x0A71, 0x04, Owner::Monitor),
        (1, 0x0100, 0x5A, Owner::Key),
        (1, 0x011F, 0xA5, Owner::Key),
    ] {
        assert_eq!(
            told(&mut device, width, port, value),
            (0, owner),
            "{port:X}"
        );
        assert_eq!(asked(&mut device, width, port), (0, owner), "{port:X}");
    }
}

#[test]
fn owner_of_a_wrong_width() {
    let mut device = with_all_blocks();
    let before = device.clone();
    for (port, owner) in [
        (0x2E, Owner::Configuration),
        (0x2F, Owner::Configuration),
        (0xAC01, Owner::Acpi),
        (0xAC1F, Owner::Acpi),
        (0x0A70, Owner::Monitor),
        (0x0A71, Owner::Monitor),
        (0x0100, Owner::Key),
        (0x011F, Owner::Key),
    ] {
        for width in [2, 4] {
            assert_eq!(asked(&mut device, width, port), (1, owner), "{port:X}");
            assert_eq!(told(&mut device, width, port, 0x55), (1, owner), "{port:X}");
        }
    }
    // In the ACPI block every offset has the same owner, whether or not it takes the width.
    for port in 0xAC00..0xAC20 {
        for width in [1, 2, 4] {
            assert_eq!(asked(&mut device.clone(), width, port).1, Owner::Acpi);
        }
    }
    assert_eq!(asked(&mut device, 1, 0xAC00), (1, Owner::Acpi));
    assert_eq!(asked(&mut device, 2, 0xAC18), (1, Owner::Acpi));
    assert_eq!(device, before);
}

#[test]
fn owner_of_the_locked_configuration() {
    // With the key on the same ports, and on the fresh device.
    let mut over_key = placed(0, 0x0020);
    assert_eq!(
        told(&mut over_key, 1, 0x2E, 0xAA),
        (0, Owner::Configuration)
    );
    for mut device in [Device::fresh(), over_key] {
        for port in [0x2E, 0x2F] {
            for width in [1, 2, 4] {
                let owner = Owner::Configuration;
                assert_eq!(asked(&mut device, width, port), (1, owner));
                assert_eq!(told(&mut device, width, port, 0x54), (1, owner));
            }
        }
    }
}

#[test]
fn owner_of_an_access_that_is_denied() {
    let mut device = with_all_blocks();
    // No such register.
    assert_eq!(told(&mut device, 1, 0x2E, 0x31), (0, Owner::Configuration));
    assert_eq!(asked(&mut device, 1, 0x2F), (4, Owner::Configuration));
    assert_eq!(told(&mut device, 1, 0x2F, 0), (4, Owner::Configuration));
    assert_eq!(told(&mut device, 1, 0x0A70, 0x41), (0, Owner::Monitor));
    assert_eq!(asked(&mut device, 1, 0x0A71), (4, Owner::Monitor));
    assert_eq!(told(&mut device, 1, 0x0A71, 0), (4, Owner::Monitor));
    // Blocked, or read-only: the four blocks that can send status 2.
    assert_eq!(configure(&mut device, 0xF2, 0x07), 0);
    assert_eq!(told(&mut device, 1, 0x2F, 0), (2, Owner::Configuration));
    assert_eq!(asked(&mut device, 1, 0x0100), (2, Owner::Key));
    assert_eq!(told(&mut device, 1, 0x0100, 0), (2, Owner::Key));
    assert_eq!(told(&mut device, 1, 0xAC04, 0), (2, Owner::Acpi));
    assert_eq!(told(&mut device, 4, 0xAC18, 0), (2, Owner::Acpi));
    assert_eq!(told(&mut device, 1, 0x0A70, 0x6E), (0, Owner::Monitor));
    assert_eq!(told(&mut device, 1, 0x0A71, 0), (2, Owner::Monitor));
    device.monitor.index = 0x40;
    assert_eq!(told(&mut device, 1, 0x0A71, 0x02), (0, Owner::Monitor));
    assert_eq!(told(&mut device, 1, 0x0A71, 0x02), (2, Owner::Monitor));
    // Ignored.
    assert_eq!(told(&mut device, 1, 0xAC06, 3), (5, Owner::Acpi));
    assert_eq!(told(&mut device, 2, 0xAC0E, 0x42), (5, Owner::Acpi));
}

#[test]
fn nobody_owns_other_ports() {
    // Neither activated nor placed; placed but not activated; activated with masked bases of 0.
    let mut not_activated = with_all_blocks();
    assert_eq!(configure(&mut not_activated, 0x30, 0x00), 0);
    let without_bases = placed(0x007F, 0x001F);
    for mut device in [Device::fresh(), not_activated, without_bases] {
        for port in [0, 0x1F, 0x70, 0x71, 0x0100, 0x011F, 0x0A70, 0x0A71] {
            for width in [1, 2, 4] {
                assert_eq!(asked(&mut device, width, port), (1, Owner::Nobody));
                assert_eq!(told(&mut device, width, port, 0), (1, Owner::Nobody));
            }
        }
    }
    // Next to the ranges. Only the starting port counts, even if a wide access reaches into one.
    let mut device = with_all_blocks();
    for port in [
        0x2D, 0x30, 0xABFF, 0xAC20, 0x0A6F, 0x0A72, 0x00FF, 0x0120, 0xFFFF,
    ] {
        for width in [1, 2, 4] {
            assert_eq!(asked(&mut device, width, port), (1, Owner::Nobody));
        }
    }
}

#[test]
fn the_first_block_owns_a_shared_port() {
    let mut device = placed(0, 0x0020);
    for (port, owner) in [
        (0x20, Owner::Key),
        (0x2D, Owner::Key),
        (0x2E, Owner::Configuration),
        (0x2F, Owner::Configuration),
        (0x30, Owner::Key),
        (0x3F, Owner::Key),
    ] {
        assert_eq!(asked(&mut device, 1, port), (0, owner), "{port:X}");
        assert_eq!(asked(&mut device, 2, port), (1, owner), "{port:X}");
    }
    let mut device = placed(0x0080, 0x00E0);
    assert_eq!(told(&mut device, 1, 0xF0, 0x6E), (0, Owner::Monitor));
    for (port, owner) in [
        (0xE0, Owner::Key),
        (0xEF, Owner::Key),
        (0xF0, Owner::Monitor),
        (0xF1, Owner::Monitor),
        (0xF2, Owner::Key),
        (0xFF, Owner::Key),
    ] {
        assert_eq!(asked(&mut device, 1, port), (0, owner), "{port:X}");
        // A wrong width is not passed on to the key either.
        assert_eq!(asked(&mut device, 4, port), (1, owner), "{port:X}");
    }
    let mut device = placed(0, 0xAC00);
    for port in 0xAC00..0xAC20 {
        assert_eq!(asked(&mut device, 1, port).1, Owner::Acpi);
    }
}

/// Only writes to 002Fh move or remove blocks, and the configuration owns that port before and
/// after them. The next access shows the change.
#[test]
fn next_access_shows_the_change() {
    let done = (0, Owner::Configuration);
    let mut device = placed(0x0A00, 0x0020);
    assert_eq!(asked(&mut device, 1, 0x3F), (0, Owner::Key));
    assert_eq!(asked(&mut device, 1, 0x0A70), (0, Owner::Monitor));
    assert_eq!(told(&mut device, 1, 0x2E, 0x30), done);
    assert_eq!(told(&mut device, 1, 0x2F, 0x00), done);
    assert_eq!(asked(&mut device, 1, 0x3F), (1, Owner::Nobody));
    assert_eq!(asked(&mut device, 1, 0x0A70), (1, Owner::Nobody));
    assert_eq!(told(&mut device, 1, 0x2F, 0x01), done);
    assert_eq!(asked(&mut device, 1, 0x3F), (0, Owner::Key));
    // The low byte of the key base, then the high byte of the runtime base.
    assert_eq!(told(&mut device, 1, 0x2E, 0x63), done);
    assert_eq!(told(&mut device, 1, 0x2F, 0x40), done);
    assert_eq!(asked(&mut device, 1, 0x3F), (1, Owner::Nobody));
    assert_eq!(asked(&mut device, 1, 0x40), (0, Owner::Key));
    assert_eq!(told(&mut device, 1, 0x2E, 0x60), done);
    assert_eq!(told(&mut device, 1, 0x2F, 0x0B), done);
    assert_eq!(asked(&mut device, 1, 0x0A70), (1, Owner::Nobody));
    assert_eq!(asked(&mut device, 1, 0x0B70), (0, Owner::Monitor));
    // The write that locks is done, and so is the one that unlocks.
    assert_eq!(told(&mut device, 1, 0x2E, 0xAA), done);
    assert_eq!(told(&mut device, 1, 0x2E, 0x55), done);
}

#[test]
fn owner_after_an_event() {
    let mut device = with_all_blocks();
    assert_eq!(asked(&mut device, 1, 0x0100), (0, Owner::Key));
    event(&mut device, PCI_RESET);
    assert_eq!(asked(&mut device, 1, 0x0100), (1, Owner::Nobody));
    assert_eq!(asked(&mut device, 1, 0x0A70), (1, Owner::Nobody));
    assert_eq!(asked(&mut device, 1, 0x2E), (1, Owner::Configuration));
}

/// At every port the owner is the first claimant, at status 0, 1 and 2.
#[test]
fn owners_of_all_ports() {
    let mut locked_key = placed(0x0A00, 0x0A60);
    assert_eq!(configure(&mut locked_key, 0xF2, 0x07), 0);
    for device in [
        Device::fresh(),
        placed(0x0080, 0x0020),
        placed(0xFF80, 0xFFE0),
        placed(0xAB80, 0xABE0),
        placed(0xAC00, 0xAC00),
        locked_key,
    ] {
        for port in 0..=0xFFFF {
            let (_, owner) = asked(&mut device.clone(), 1, port);
            assert_eq!(owner, owner_by_ranges(&device, port), "{port:X}");
        }
    }
}

// Runs.

/// Each access here has an owner other than that of the access before it.
#[test]
fn an_entry_has_the_owner_of_its_own_read() {
    let script = [
        write(0x2E, 0x07),
        read_timer(),
        write(0x0100, 0x5A),
        read(0x2E),
        record(IF, 1, 0x0100, 0xFF),
        read(0x0A70),
        end(),
        read(0x1234),
        write(0x0A70, 0x6E),
        record(IF, 1, 0xAC00, 0xFF),
        read(0x0100),
        record(IF, 2, 0x0100, 0xFF),
        record(READ, 4, 0x0A71, 0),
        end(),
        end(),
        read(0x0A71),
    ];
    let (_, entries) = run_script_on(&with_all_blocks(), &script, &[]);
    let expected = [
        entry(Owner::Acpi, 0),
        entry(Owner::Configuration, 0x07),
        entry(Owner::Monitor, 0x00),
        entry(Owner::Nobody, 0xFF),
        entry(Owner::Key, 0x5A),
        entry(Owner::Monitor, 0xFFFF_FFFF),
        entry(Owner::Monitor, 0x44),
    ];
    assert_eq!(entries, expected);
}

/// A reset before an access removes the block that would own its port.
#[test]
fn owner_in_a_run_is_that_after_the_event() {
    let script = [
        read(0x0100),
        read(0x0100),
        write(0x0100, 0x5A),
        record(IF, 1, 0x0A70, 0x01),
        read(0x2F),
        end(),
    ];
    let device = with_all_blocks();
    let key = entry(Owner::Key, 0);
    let nobody = entry(Owner::Nobody, 0xFF);
    let locked = entry(Owner::Configuration, 0xFF);
    // The reset comes before the first access, or before the second one, and so on. The monitor
    // index is 0, so the body of the if runs only if nobody owns the port: all ones are read then.
    for (place, entries, owners) in [
        (0, vec![nobody, nobody, locked], [0, 0, 0, 0, 1]),
        (1, vec![key, nobody, locked], [4, 0, 0, 0, 1]),
        (2, vec![key, key, locked], [4, 4, 0, 0, 1]),
        (3, vec![key, key, locked], [4, 4, 4, 0, 1]),
    ] {
        let mut events = [NO_TICK; 4];
        events[place] = PCI_RESET;
        assert_eq!(run_script_on(&device, &script, &events).1, entries);
        let image = compiled(&script);
        let left = run_from(Sequencer::fresh(), &image, &events, 99, 3, &device);
        let named: Vec<u32> = left
            .accesses
            .iter()
            .map(|access| access.answer.owner.number())
            .collect();
        assert_eq!(named, owners);
    }
    assert_eq!(run_script_on(&device, &script, &[]).1, [key, key]);
}

#[test]
fn room_of_the_log_counts_entries() {
    let image = compiled(&[read(0x2E), read_timer(), read(0x1234)]);
    let whole = [
        entry(Owner::Configuration, 0xFF),
        entry(Owner::Acpi, 0),
        entry(Owner::Nobody, 0xFF),
    ];
    for size in 0..=4 {
        let left = run_from(Sequencer::fresh(), &image, &[], 99, size, &Device::fresh());
        let (filled, rest) = left.log.split_at(size.min(3));
        assert_eq!(filled, &whole[..size.min(3)]);
        assert!(rest.iter().all(|entry| *entry == LENT));
        let ended = left.outcome.expect("the run is not refused");
        let full = size < whole.len();
        assert_eq!(ended.ending == Ending::LogFull, full);
        assert_eq!(ended.values_logged, filled.len());
    }
}

// Random commands.

/// How often accesses had each pair of owner and status, and how often their port was in the ranges
/// of two blocks.
#[derive(Debug, Default)]
struct Tally {
    pairs: BTreeMap<(Owner, u32), u32>,
    shared: BTreeMap<(Owner, Owner), u32>,
}

impl Tally {
    /// Counts the answer of this device, and checks what holds of every answer.
    fn add(&mut self, device: &Device, port: u32, answer: Answer) {
        let Answer { status, owner, .. } = answer;
        assert_eq!(owner, owner_by_ranges(device, port));
        if owner == Owner::Nobody {
            assert_eq!(status, 1, "only a block gives another status");
        }
        *self.pairs.entry((owner, status)).or_default() += 1;
        if let [first, second] = claimants(device, port)[..] {
            *self.shared.entry((first, second)).or_default() += 1;
        }
    }

    /// Was each possible pair reached at least so often, and no other pair? And each shared port?
    fn check(&self, possible: &[(Owner, u32)], least: u32) {
        assert!(self.pairs.keys().eq(possible), "{self:?}");
        assert!(self.shared.keys().eq(&SHARED), "{self:?}");
        let counts = self.pairs.values().chain(self.shared.values());
        assert!(counts.min() >= Some(&least), "{self:?}");
    }
}

#[derive(Default)]
struct Tallies {
    reads: Tally,
    writes: Tally,
    /// Reads of runs, which are logged.
    run_reads: Tally,
    run_writes: Tally,
    run_tests: Tally,
    /// How often the event before a logged read changed the owner of its port.
    owner_changes: u32,
}

impl Tallies {
    /// The accesses of these random commands.
    fn of(source: &'static Source, count: u64) -> Self {
        let mut tallies = Tallies::default();
        let mut session = Session::new();
        for line in lines(&commands(source, 1, count)) {
            let before = session.device().clone();
            let sequencer = *session.sequencer();
            let words: Vec<&[u8]> = line.split(|byte| *byte == b' ').collect();
            match session.answer(line) {
                Reply::Access(answer, _) => {
                    let tally = match words[0] {
                        b"R" => &mut tallies.reads,
                        _ => &mut tallies.writes,
                    };
                    tally.add(&before, number(words[2]), answer);
                }
                Reply::Ran(ran) if ran.outcome.is_ok() => {
                    tallies.add_run(Walk::new(&words, before, sequencer));
                }
                Reply::Interpreted(interpreted) if interpreted.outcome.is_ok() => {
                    tallies.add_run(Walk::new(&words, before, sequencer));
                }
                _ => {}
            }
        }
        tallies
    }

    fn add_run(&mut self, walk: Walk) {
        walk.each_access(|before_event, device, access| {
            let port = u32::from(access.port);
            let tally = match access.action {
                Action::Read => &mut self.run_reads,
                Action::Write(_) => &mut self.run_writes,
                Action::Test => &mut self.run_tests,
            };
            tally.add(device, port, access.answer);
            let changed = access.answer.owner != owner_by_ranges(before_event, port);
            if changed && access.action == Action::Read {
                self.owner_changes += 1;
            }
        });
    }
}

/// A run that goes on step by step, so that the device before each access is known.
struct Walk {
    device: Device,
    sequencer: Sequencer,
    image: Vec<u8>,
    events: Vec<u32>,
    steps: u32,
    room: usize,
}

/// A longer run is left after this many steps, which mostly repeat.
const STEPS_WALKED: u32 = 300;

impl Walk {
    /// From the words of an `X`, a `T` or an `N`.
    fn new(words: &[&[u8]], device: Device, sequencer: Sequencer) -> Self {
        let bytes = byte_string(words[4]);
        let (image, sequencer) = match words[0] {
            b"X" => (bytes, sequencer),
            b"T" => (image_of(&bytes), sequencer),
            _ => (image_of(&bytes), Sequencer::fresh()),
        };
        let event_bytes = byte_string(words[3]);
        let (events, _) = event_bytes.as_chunks();
        Walk {
            device,
            sequencer,
            image,
            events: events
                .iter()
                .map(|event| u32::from_le_bytes(*event))
                .collect(),
            steps: number(words[1]).min(STEPS_WALKED),
            room: number(words[2]) as usize,
        }
    }

    /// Gives each access, with the device before the event and with the one that answers: after
    /// the event and before the access. Checks that exactly the reads are logged, each with its own
    /// value and owner.
    fn each_access(mut self, mut visit: impl FnMut(&Device, &Device, &Access)) {
        let mut events = self.events.as_slice();
        for _ in 0..self.steps {
            let before_event = self.device.clone();
            let mut log = vec![LENT; self.room.min(1)];
            let mut accesses = Vec::new();
            let lent = Lent {
                image: &self.image,
                events,
                budget: 1,
                log: &mut log,
            };
            let ended = sequencer::run(lent, &mut self.device, &mut self.sequencer, &mut accesses)
                .expect("the whole run is not refused");
            log.truncate(ended.values_logged);
            let (taken, left) = events.split_at(ended.events_taken);
            let mut answering = before_event.clone();
            for number in taken {
                event(&mut answering, *number);
            }
            for access in &accesses {
                let answer = access.answer;
                match access.action {
                    Action::Read => assert_eq!(log, [entry(answer.owner, answer.value)]),
                    Action::Write(_) | Action::Test => assert!(log.is_empty()),
                }
                visit(&before_event, &answering, access);
            }
            events = left;
            self.room -= log.len();
            if ended.ending != Ending::BudgetSpent {
                return;
            }
        }
    }
}

pub(crate) fn number(word: &[u8]) -> u32 {
    let digits = str::from_utf8(word).expect("digits");
    u32::from_str_radix(digits, 16).expect("a number")
}

pub(crate) fn byte_string(word: &[u8]) -> Vec<u8> {
    match word {
        b"-" => Vec::new(),
        digits => digits.chunks(2).map(|pair| number(pair) as u8).collect(),
    }
}

/// The random commands reach every possible pair of owner and status and no other, ports that are in
/// the ranges of two blocks, and reads whose owner the event before them has changed.
#[test]
fn random_commands_reach_every_owner_and_status() {
    let tallies = Tallies::of(&ANYTHING, 20_000);
    tallies.reads.check(&READ_PAIRS, 10);
    tallies.writes.check(&WRITE_PAIRS, 10);
    for (source, count) in [(&RUNS, 2_000), (&IMAGES, 6_000), (&NESTED, 4_000)] {
        let tallies = Tallies::of(source, count);
        tallies.run_reads.check(&READ_PAIRS, 10);
        tallies.run_writes.check(&WRITE_PAIRS, 10);
        // No answer prints the owner of a test, so a few are enough.
        tallies.run_tests.check(&READ_PAIRS, 1);
        assert!(tallies.owner_changes > 0);
    }
}

/// In the printed answers an owner is 0 to 4, and every entry that the run did not fill is as lent.
#[test]
fn printed_owners() {
    for (source, count) in [
        (&ANYTHING, 10_000),
        (&RUNS, 500),
        (&IMAGES, 500),
        (&NESTED, 500),
        (&RESUMED, 500),
    ] {
        let commands = commands(source, 2, count);
        let answers = answers_to(&commands);
        for (command, answer) in lines(&commands).zip(answers.lines()) {
            let words: Vec<&str> = answer.split(' ').collect();
            // An interpreted script has no sequencer, which is ten numbers.
            let without_log = match command.first() {
                Some(b'N') => 6,
                _ => 16,
            };
            match words[..] {
                ["DONE", status, value, outputs, owner] => {
                    assert_eq!((value.len(), outputs.len()), (8, 3));
                    assert!(["0", "1", "2", "3", "4"].contains(&owner), "{answer}");
                    assert!(owner != "0" || status == "1", "{answer}");
                }
                ["ENDED", _, _, _, logged, .., log] if words.len() == without_log + 1 => {
                    let logged = logged.parse().expect("a number");
                    check_printed_log(log, logged);
                }
                // A log of length 0 is left out.
                ["ENDED", ..] => assert_eq!(words.len(), without_log, "{answer}"),
                _ => {}
            }
        }
    }
}

fn check_printed_log(log: &str, logged: usize) {
    for (place, entry) in log.as_bytes().chunks(16).enumerate() {
        let (upper, lower) = entry.split_at(8);
        if place < logged {
            assert!(number(upper) <= 4, "{log}");
        } else {
            assert_eq!(number(upper), 0xA000_0000);
            assert_eq!(number(lower), place as u32);
        }
    }
}

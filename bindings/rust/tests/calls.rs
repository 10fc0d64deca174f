//! Tests of every call of the wrapper: each refusal with its place and the order of refusals, that a refusal changes nothing, each ending of a
//! run, events and outputs, runs in parts, valid and not valid bytes, text scripts and listings, empty slices. bindings/c/calls.c makes the same
//! tests of the C header.
use runnelopal::{
    assemble, compile, ending, event, interpret, list, owner, record, refusal, run, script_kind, status, word_kind, Device, LogEntry, Outputs,
    Refusal, Run, Sequencer, SequencerView, TextRefusal, COUNTERS, DEVICE_BYTES, IMAGE_BYTES, LINE_BYTES, RECORD_BYTES, SCRIPT_BYTES,
    SEQUENCER_BYTES, TEXT_BYTES,
};

const MOST: usize = 1024;
const UNFILLED: u64 = 0xEEEE_EEEE_EEEE_EEEE;
const ALARM: u32 = event::number(event::RTC_ALARM, 0);
/// Only settles the device; for padding.
const NO_TICKS: u32 = event::number(event::TICKS, 0);

const CONFIGURATION: u16 = 0x002E;
const MONITOR: u16 = 0x0A70;
const SMI_CMD: u16 = 0xAC06;
const PM1A_STS: u16 = 0xAC08;
const PM1A_EN: u16 = 0xAC0A;
const SETUP_IDX: u16 = 0xAC0E;
const GPE0_STS: u16 = 0xAC10;
const GPE0_EN: u16 = 0xAC12;
const SETUP_DATA: u16 = 0xAC14;
const TIMER: u16 = 0xAC18;
const RTC_STS: u32 = 0x0400;

const OFF: Outputs = Outputs { sci: false, smi: false, monitor: false };
const SCI: Outputs = Outputs { sci: true, ..OFF };
const SMI: Outputs = Outputs { smi: true, ..OFF };
const MONITOR_INTERRUPT: Outputs = Outputs { monitor: true, ..OFF };

// ---- scripts and images

fn bytes(mark: u16, kind: u8, width: u8, port: u16, target: u16, value: u32) -> Vec<u8> {
    [&mark.to_le_bytes()[..], &[kind, width], &port.to_le_bytes(), &target.to_le_bytes(), &value.to_le_bytes()].concat()
}

fn record(kind: u8, width: u8, port: u16, value: u32) -> Vec<u8> {
    bytes(record::SCRIPT_MARK, kind, width, port, 0, value)
}

fn word(kind: u8, width: u8, port: u16, target: u16, value: u32) -> Vec<u8> {
    bytes(record::WORD_MARK, kind, width, port, target, value)
}

fn write(width: u8, port: u16, value: u32) -> Vec<u8> {
    record(script_kind::WRITE, width, port, value)
}

fn read(width: u8, port: u16) -> Vec<u8> {
    record(script_kind::READ, width, port, 0)
}

fn repeat(times: u32) -> Vec<u8> {
    record(script_kind::REPEAT, 0, 0, times)
}

fn plain(kind: u8) -> Vec<u8> {
    record(kind, 0, 0, 0)
}

/// Register `index` of the configuration or the monitor, through a pair of ports.
fn indexed(port: u16, index: u32, value: u32) -> Vec<u8> {
    [write(1, port, index), write(1, port + 1, value)].concat()
}

/// Puts the monitor at 0A70h and enables its interrupt for both voltages.
fn enable_monitor() -> Vec<u8> {
    [
        write(1, CONFIGURATION, 0x55),
        indexed(CONFIGURATION, 0x07, 0x0A),
        indexed(CONFIGURATION, 0x60, 0x0A),
        indexed(CONFIGURATION, 0x30, 0x01),
        indexed(MONITOR, 0x7C, 0x44),
        indexed(MONITOR, 0x7E, 0xFF),
    ]
    .concat()
}

fn image_of(script: &[u8]) -> Vec<u8> {
    let mut image = vec![0xC6; IMAGE_BYTES];
    let words = compile(script, &mut image).expect("the script is legal");
    image.truncate(RECORD_BYTES * words);
    image
}

// ---- calls on one set of buffers

#[derive(Clone, Debug, PartialEq)]
struct Lent {
    script: Vec<u8>,
    image: Vec<u8>,
    device: Device,
    sequencer: Sequencer,
    events: Vec<u32>,
    budget: u32,
    log: Vec<u64>,
}

impl Lent {
    /// The script and its image, a fresh device and sequencer, no events, a log of eight entries.
    fn fresh(script: Vec<u8>) -> Self {
        Lent {
            image: image_of(&script),
            script,
            device: Device::fresh(),
            sequencer: Sequencer::fresh(),
            events: Vec::new(),
            budget: 1000,
            log: vec![UNFILLED; 8],
        }
    }

    /// A device whose SCI and monitor interrupt are on, a script and its image that would change all buffers, and an event. A refusal that does
    /// not keep the buffers is then found.
    fn busy() -> Self {
        let mut lent = Lent::fresh([enable_monitor(), write(1, SMI_CMD, 1), write(2, PM1A_EN, RTC_STS)].concat());
        lent.events = vec![ALARM, event::number(event::SENSOR, event::SENSOR_VTR)];
        let made = lent.run().expect("the set-up is valid");
        assert_eq!((made.ending, made.taken, made.outputs), (ending::HALTED, 2, Outputs { sci: true, smi: false, monitor: true }));
        let script = [repeat(3), read(4, TIMER), plain(script_kind::END)].concat();
        Lent { device: lent.device, events: vec![event::number(event::TICKS, 7)], budget: 4, ..Lent::fresh(script) }
    }

    fn run(&mut self) -> Result<Run, Refusal> {
        run(&self.image, &mut self.device, &mut self.sequencer, &self.events, self.budget, &mut self.log)
    }

    fn interpret(&mut self) -> Result<Run, Refusal> {
        interpret(&self.script, &mut self.device, &self.events, self.budget, &mut self.log)
    }

    #[track_caller]
    fn run_is_refused(&mut self, number: u32, place: u32) {
        let before = self.clone();
        assert_eq!(self.run(), Err(Refusal { number, place }));
        assert_eq!(*self, before);
    }

    #[track_caller]
    fn interpretation_is_refused(&mut self, number: u32, place: u32) {
        let before = self.clone();
        assert_eq!(self.interpret(), Err(Refusal { number, place }));
        assert_eq!(*self, before);
    }

    /// Interprets the script and runs its image, with the same result. The next script starts from the device that they leave.
    #[track_caller]
    fn both(&mut self, script: Vec<u8>, events: &[u32]) -> Run {
        *self = Lent { device: self.device.clone(), events: events.to_vec(), ..Lent::fresh(script) };
        let mut interpreted = self.clone();
        let answer = self.run().expect("the run is valid");
        assert_eq!(interpreted.interpret(), Ok(answer));
        assert_eq!((&interpreted.device, &interpreted.log), (&self.device, &self.log));
        assert_eq!(self.device.outputs(), Ok(answer.outputs));
        answer
    }

    /// Runs the image, and checks how that ends, its steps, events taken and values logged, and the place of the sequencer.
    #[track_caller]
    fn ends(&mut self, ending: u32, steps: u32, taken: usize, logged: usize, place: u32) {
        let before = self.clone();
        let run = self.run().expect("the run is not refused");
        assert_eq!((run.ending, run.steps, run.taken, run.logged), (ending, steps, taken, logged));
        assert_eq!(self.sequencer.view().expect("the sequencer is valid").place, place);
        assert_eq!(self.log[logged..], before.log[logged..]);
        assert_eq!(self.device.outputs(), Ok(run.outputs));
        if steps == 0 {
            assert_eq!(*self, before);
        }
    }
}

fn sequencer(place: u32, used: u32, counters: [u32; COUNTERS]) -> Sequencer {
    let numbers: Vec<u8> = [place, used].into_iter().chain(counters).flat_map(u32::to_le_bytes).collect();
    Sequencer { bytes: numbers.try_into().expect("ten numbers") }
}

const BAD_STATE: Refusal = Refusal { number: refusal::BAD_STATE, place: 0 };

// ---- the tests

#[test]
fn numbers() {
    assert_eq!(LogEntry::from(0x0000_0004_89AB_CDEF), LogEntry { value: 0x89AB_CDEF, owner: owner::KEY });
    assert_eq!(LogEntry::from(u64::MAX), LogEntry { value: u32::MAX, owner: u32::MAX });
    assert_eq!(event::number(event::TICKS, 1000), 0x0100_03E8);
    assert_eq!(event::number(event::PIN, 2 | event::PIN_HIGH), 0x0200_000A);
    assert_eq!(event::number(event::PIN, 2 & event::PIN_NUMBER), 0x0200_0002);
    assert_eq!(event::number(event::RESET, event::RESET_VTR), 0x0600_0002);
    assert_eq!([event::number(256, 0), event::number(1, 0x100_0000), event::number(u32::MAX, 0)], [u32::MAX; 3]);
    assert_eq!(BAD_STATE.to_string(), "refused with 11 at place 0");
    assert_eq!(TextRefusal { number: 31, place: 1 << 33 }.to_string(), "refused with 31 at place 8589934592");
    assert_eq!(SCRIPT_BYTES, RECORD_BYTES * MOST);
}

/// The script is refused by the compiler and by the interpreter, before the device, the events and the length of the buffer are checked.
#[track_caller]
fn script_is_refused(script: &[u8], number: u32, place: u32) {
    for length in [IMAGE_BYTES, 0] {
        let mut image = vec![0xC6; length];
        assert_eq!(compile(script, &mut image), Err(Refusal { number, place }));
        assert!(image.iter().all(|byte| *byte == 0xC6));
    }
    let mut lent = Lent { script: script.to_vec(), ..Lent::busy() };
    lent.interpretation_is_refused(number, place);
    lent.device.bytes[0] = 2;
    lent.interpretation_is_refused(number, place);
    lent.events[0] = 0;
    lent.interpretation_is_refused(number, place);
}

#[test]
fn script_lengths() {
    let longest = RECORD_BYTES * MOST;
    for length in [1, 11, 13, longest - 1, longest + 1, longest + RECORD_BYTES] {
        script_is_refused(&vec![0; length], refusal::BAD_LENGTH, 0);
        listing_is_refused(&vec![0; length], refusal::BAD_LENGTH, 0);
    }
}

#[test]
fn record_faults() {
    use script_kind::{DELAY, ELSE, END, IF, READ, REPEAT, WRITE};
    let mark = record::SCRIPT_MARK;
    let faults = [
        (bytes(record::WORD_MARK, READ, 1, 0, 0, 0), refusal::WRONG_MARK),
        (bytes(mark ^ 0x0001, READ, 1, 0, 0, 0), refusal::WRONG_MARK),
        (bytes(mark ^ 0x8000, 9, 3, 0, 1, 1), refusal::WRONG_MARK),
        (bytes(mark, 0, 1, 0, 0, 0), refusal::BAD_KIND),
        (bytes(mark, 8, 3, 0, 1, 0), refusal::BAD_KIND),
        (bytes(mark, 255, 1, 0, 0, 0), refusal::BAD_KIND),
        (bytes(mark, READ, 0, 0, 0, 0), refusal::BAD_FIELD),
        (bytes(mark, READ, 3, 0, 0, 0), refusal::BAD_FIELD),
        (bytes(mark, READ, 1, 0, 0, 1), refusal::BAD_FIELD),
        (bytes(mark, READ, 1, 0, 1, 0), refusal::BAD_FIELD),
        (bytes(mark, WRITE, 1, 0, 0, 0x100), refusal::BAD_FIELD),
        (bytes(mark, WRITE, 2, 0, 0, 0x1_0000), refusal::BAD_FIELD),
        (bytes(mark, DELAY, 0, 0, 0, 0x1_0000), refusal::BAD_FIELD),
        (bytes(mark, REPEAT, 0, 1, 0, 1), refusal::BAD_FIELD),
        (bytes(mark, IF, 1, 0, 0, 0x100), refusal::BAD_FIELD),
        (bytes(mark, ELSE, 0, 0, 0, 1), refusal::BAD_FIELD),
        (bytes(mark, ELSE, 0, 0, 0, 0), refusal::MISPLACED),
        (bytes(mark, END, 0, 0, 0, 0), refusal::MISPLACED),
    ];
    // The fault is in record 2. Record 3 has several.
    for (fault, number) in faults {
        let script = [read(1, 0x2E), read(1, 0x2E), fault, bytes(0, 0, 3, 0, 1, 1)].concat();
        script_is_refused(&script, number, 2);
        // The lister does not check blocks, so it goes on to record 3.
        let (number, place) = if number == refusal::MISPLACED { (refusal::WRONG_MARK, 3) } else { (number, 2) };
        listing_is_refused(&script, number, place);
    }
}

/// A script that the compiler refuses with 5 to 8 has a listing.
#[track_caller]
fn blocks_are_refused(script: &[u8], number: u32, place: u32) {
    script_is_refused(script, number, place);
    round_trip(script);
}

#[test]
fn blocks() {
    let branch = record(script_kind::IF, 1, 0, 1);
    let otherwise = plain(script_kind::ELSE);
    blocks_are_refused(&[repeat(1), otherwise.clone()].concat(), refusal::MISPLACED, 1);
    blocks_are_refused(&[branch.clone(), otherwise.clone(), otherwise].concat(), refusal::MISPLACED, 2);
    blocks_are_refused(&branch.repeat(17), refusal::TOO_DEEP, 16);
    blocks_are_refused(&repeat(1).repeat(9), refusal::TOO_DEEP, 8);
    blocks_are_refused(&[read(1, 0), branch, read(1, 0)].concat(), refusal::STILL_OPEN, 3);
    blocks_are_refused(&write(1, 0x2E, 0x55).repeat(MOST), refusal::TOO_MANY_WORDS, MOST as u32);
}

#[test]
fn images() {
    let script = read(1, 0x2E);
    let words = [word(word_kind::READ, 1, 0x2E, 0, 0), word(word_kind::HALT, 0, 0, 0, 0)].concat();
    for length in 0..words.len() {
        let mut image = vec![0xC6; length];
        assert_eq!(compile(&script, &mut image), Err(Refusal { number: refusal::BUFFER_TOO_SHORT, place: 1 }));
        assert!(image.iter().all(|byte| *byte == 0xC6));
    }
    for length in words.len()..=words.len() + RECORD_BYTES {
        let mut image = vec![0xC6; length];
        assert_eq!(compile(&script, &mut image), Ok(2));
        assert_eq!(image[..words.len()], words);
        assert!(image[words.len()..].iter().all(|byte| *byte == 0xC6));
    }
    let script = [
        repeat(2),
        record(script_kind::IF, 2, PM1A_STS, 1),
        write(2, PM1A_STS, 1),
        plain(script_kind::ELSE),
        record(script_kind::DELAY, 0, 0, 10),
        plain(script_kind::END),
        plain(script_kind::END),
        read(4, TIMER),
    ];
    let words = [
        word(word_kind::ENTER, 0, 0, 6, 2),
        word(word_kind::TEST, 2, PM1A_STS, 4, 1),
        word(word_kind::WRITE, 2, PM1A_STS, 0, 1),
        word(word_kind::JUMP, 0, 0, 5, 0),
        word(word_kind::DELAY, 0, 0, 0, 10),
        word(word_kind::LOOP_END, 0, 0, 1, 0),
        word(word_kind::READ, 4, TIMER, 0, 0),
        word(word_kind::HALT, 0, 0, 0, 0),
    ];
    assert_eq!(image_of(&script.concat()), words.concat());
}

#[test]
fn bad_images() {
    let longest = RECORD_BYTES * MOST;
    for length in [0, 11, 13, longest - 1, longest + 1, longest + RECORD_BYTES] {
        let mut lent = Lent { image: vec![0; length], ..Lent::busy() };
        lent.run_is_refused(refusal::BAD_IMAGE, 0);
        // 10 comes before 11 and 12.
        lent.device.bytes[0] = 2;
        lent.run_is_refused(refusal::BAD_IMAGE, 0);
        lent.sequencer.bytes[4] = 9;
        lent.events[0] = 0;
        lent.run_is_refused(refusal::BAD_IMAGE, 0);
    }
}

/// Every call refuses the device with 11, before 4 and 12.
fn device_is_refused(lent: &mut Lent) {
    for events in [vec![NO_TICKS], vec![0]] {
        lent.events = events;
        lent.run_is_refused(refusal::BAD_STATE, 0);
        lent.interpretation_is_refused(refusal::BAD_STATE, 0);
    }
    let device = &mut lent.device;
    let before = device.clone();
    for width in 1..=3 {
        assert_eq!(device.read(width, 0x1234), Err(BAD_STATE));
        assert_eq!(device.write(width, 0x1234, 1), Err(BAD_STATE));
    }
    assert_eq!([device.event(NO_TICKS), device.event(0), device.outputs()], [Err(BAD_STATE); 3]);
    assert!(!device.is_valid());
    assert_eq!(Device::try_from(device.as_ref()), Err(BAD_STATE));
    assert_eq!(*device, before);
}

#[test]
fn bad_devices() {
    let whole = [Device::fresh().as_ref(), &[0]].concat();
    for length in [0, 1, DEVICE_BYTES - 1, DEVICE_BYTES + 1] {
        assert_eq!(Device::try_from(&whole[..length]), Err(BAD_STATE));
    }
    // A byte of the device (docs/STATE.md), and a value that it cannot have.
    let flags = [(0, 2), (63, 2), (63, 255), (70, 2), (98, 2), (105, 2)];
    let configuration = [(3, 2), (8, 8)];
    let monitor = [(42, 1), (43, 0x45), (44, 0x41), (45, 1), (47, 0x10), (50, 4), (51, 1), (55, 1), (56, 0x20), (58, 4), (59, 1), (60, 0x10)];
    let acpi = [(61, 8), (62, 1), (65, 0x40), (66, 2), (68, 1), (71, 0x42), (72, 1), (77, 0x20), (78, 2), (92, 0x20), (93, 16), (97, 1)];
    for (at, byte) in flags.into_iter().chain(configuration).chain(monitor).chain(acpi) {
        let mut lent = Lent::busy();
        lent.device.bytes[at] = byte;
        device_is_refused(&mut lent);
    }
}

#[test]
fn bad_sequencers() {
    for length in [0, 1, SEQUENCER_BYTES - 1, SEQUENCER_BYTES + 1] {
        assert_eq!(Sequencer::try_from(&[0; SEQUENCER_BYTES + 1][..length]), Err(BAD_STATE));
    }
    let bad = [
        sequencer(0, 9, [1; 8]),
        sequencer(0, 0x100, [0; 8]),
        sequencer(0, 1, [0; 8]),
        sequencer(0, 8, [1, 1, 1, 1, 1, 1, 1, 0]),
        sequencer(0, 1, [65_536, 0, 0, 0, 0, 0, 0, 0]),
        sequencer(0, 2, [1, 0x8000_0001, 0, 0, 0, 0, 0, 0]),
        sequencer(0, 0, [1, 0, 0, 0, 0, 0, 0, 0]),
        sequencer(0, 7, [1; 8]),
        sequencer(0, 2, [1, 1, 0, 0, 0, 0, 0, 0x100_0000]),
    ];
    for sequencer in bad {
        assert!(!sequencer.is_valid());
        assert_eq!(sequencer.view(), Err(BAD_STATE));
        assert_eq!(Sequencer::try_from(sequencer.as_ref()), Err(BAD_STATE));
        let mut lent = Lent { sequencer, ..Lent::busy() };
        lent.run_is_refused(refusal::BAD_STATE, 0);
        lent.events[0] = 0;
        lent.run_is_refused(refusal::BAD_STATE, 0);
    }
}

#[test]
fn bad_events() {
    let bad = [
        0, 0x0000_0001, 0x0101_0000, 0x0200_0010, 0x0300_0001, 0x0400_0001, 0x0500_0004, 0x0600_0004, 0x0700_0001, 0x0800_0000, 0xFF00_0000,
        u32::MAX, event::number(256, 0), event::number(1, 0x500_0001),
    ];
    for number in bad {
        for place in 0..3 {
            // The first one counts, also if the run would never take it.
            let mut lent = Lent { events: vec![NO_TICKS; 4], ..Lent::busy() };
            lent.events[place] = number;
            lent.events[3] = number;
            lent.budget = if place == 1 { 0 } else { 4 };
            lent.run_is_refused(refusal::BAD_EVENT, place as u32);
            lent.interpretation_is_refused(refusal::BAD_EVENT, place as u32);
            let before = lent.device.clone();
            assert_eq!(lent.device.event(number), Err(Refusal { number: refusal::BAD_EVENT, place: 0 }));
            assert_eq!(lent.device, before);
        }
    }
    let mut lent = Lent { events: vec![NO_TICKS; 4097], ..Lent::busy() };
    lent.run_is_refused(refusal::BAD_EVENT, 4096);
    // Too many events come before a bad one.
    lent.events[5] = 0;
    lent.run_is_refused(refusal::BAD_EVENT, 4096);
    lent.interpretation_is_refused(refusal::BAD_EVENT, 4096);
    lent.events = vec![NO_TICKS; 4096];
    assert_eq!(lent.run().map(|run| run.taken), Ok(2));
}

#[test]
fn bad_accesses() {
    let mut device = Lent::busy().device;
    let before = device.clone();
    let refused = Err(Refusal { number: refusal::BAD_FIELD, place: 0 });
    for (width, port) in [(0, 0x2E), (3, 0x2E), (5, 0x2E), (u32::MAX, 0x2E), (1, 0x1_0000), (1, u32::MAX)] {
        assert_eq!(device.read(width, port), refused);
        assert_eq!(device.write(width, port, 0), refused);
    }
    assert_eq!([device.write(1, 0x2E, 0x100), device.write(2, 0xAC0A, 0x1_0000)], [refused; 2]);
    assert_eq!(device, before);
}

#[test]
fn valid_bytes() {
    let mut device = Lent::busy().device;
    assert!(device.is_valid() && Device::fresh().is_valid() && Sequencer::fresh().is_valid());
    assert_eq!(Device::try_from(device.as_ref()), Ok(device.clone()));
    assert_ne!(device, Device::fresh());
    assert_eq!(device.event(event::number(event::RESET, event::RESET_VBAT)), Ok(OFF));
    assert_eq!(device, Device::fresh());

    assert_eq!(Sequencer::fresh().bytes, [0; SEQUENCER_BYTES]);
    let counters = [1, 65_535, 3, 4, 5, 6, 7, 256];
    let open = sequencer(u32::MAX, 8, counters);
    assert!(open.is_valid());
    assert_eq!(Sequencer::try_from(open.as_ref()), Ok(open.clone()));
    assert_eq!(open.view(), Ok(SequencerView { place: u32::MAX, used: 8, counters }));
    assert_eq!(open.view().expect("it is valid").in_use(), counters);
    assert_eq!(sequencer(0x0102_0304, 0, [0; 8]).view(), Ok(SequencerView { place: 0x0102_0304, used: 0, counters: [0; 8] }));
}

#[test]
fn endings() {
    let mark = record::WORD_MARK;
    let words = [
        (bytes(record::SCRIPT_MARK, word_kind::READ, 1, 0, 0, 0), ending::BAD_WORD),
        (bytes(mark, 0, 0, 0, 0, 0), ending::BAD_WORD),
        (bytes(mark, 9, 0, 0, 0, 0), ending::BAD_WORD),
        (bytes(mark, word_kind::READ, 3, 0, 0, 0), ending::BAD_WORD),
        (bytes(mark, word_kind::WRITE, 1, 0, 0, 0x100), ending::BAD_WORD),
        (bytes(mark, word_kind::HALT, 0, 0, 1, 0), ending::BAD_WORD),
        (bytes(mark, word_kind::JUMP, 0, 0, 2, 0), ending::BEYOND_LAST_WORD),
        (bytes(mark, word_kind::TEST, 1, 0x2E, 2, 0xFF), ending::BEYOND_LAST_WORD),
        (bytes(mark, word_kind::LOOP_END, 0, 0, 0, 0), ending::NO_COUNTER),
    ];
    for (last, ending) in words {
        let image = [word(word_kind::READ, 1, 0x2E, 0, 0), last].concat();
        let mut lent = Lent { image, events: vec![ALARM; 2], ..Lent::fresh(Vec::new()) };
        lent.ends(ending, 1, 1, 1, 1);
        // A resumed run is at the same word, and does nothing.
        lent.ends(ending, 0, 0, 0, 1);
    }

    // The place goes beyond the last word. The budget is checked first.
    let mut lent = Lent { image: word(word_kind::READ, 1, 0x2E, 0, 0), budget: 1, ..Lent::fresh(Vec::new()) };
    lent.ends(ending::BUDGET_SPENT, 1, 0, 1, 1);
    lent.ends(ending::BEYOND_LAST_WORD, 0, 0, 0, 1);
    lent.sequencer = sequencer(u32::MAX, 2, [1, 2, 0, 0, 0, 0, 0, 0]);
    lent.ends(ending::BEYOND_LAST_WORD, 0, 0, 0, u32::MAX);

    let image: Vec<u8> = (1..=9).flat_map(|times| word(word_kind::ENTER, 0, 0, 0, times)).collect();
    let mut lent = Lent { image, ..Lent::fresh(Vec::new()) };
    lent.ends(ending::NINTH_COUNTER, 8, 0, 0, 8);
    assert_eq!(lent.sequencer.view(), Ok(SequencerView { place: 8, used: 8, counters: [1, 2, 3, 4, 5, 6, 7, 8] }));

    // The third read finds the log full.
    let mut lent = Lent::fresh([read(1, 0x2E), read(4, TIMER), read(1, 0x1234)].concat());
    lent.events = vec![NO_TICKS; 4];
    lent.log = vec![UNFILLED; 2];
    lent.ends(ending::LOG_FULL, 2, 2, 2, 2);
    assert_eq!(lent.log, [0x1_0000_00FF, 0x2_0000_0000]);
    lent.log = Vec::new();
    lent.ends(ending::LOG_FULL, 0, 0, 0, 2);
    lent.log = vec![UNFILLED; 2];
    lent.ends(ending::HALTED, 2, 1, 1, 3);
    assert_eq!(lent.log, [0x0_0000_00FF, UNFILLED]);
    lent.ends(ending::HALTED, 1, 0, 0, 3);

    let mut lent = Lent { budget: 0, ..Lent::fresh(Vec::new()) };
    lent.ends(ending::BUDGET_SPENT, 0, 0, 0, 0);
    lent.budget = u32::MAX;
    lent.ends(ending::HALTED, 1, 0, 0, 0);
}

#[test]
fn power_events() {
    let mut lent = Lent::fresh(Vec::new());
    // A delay takes no event of the list, and the second alarm is left over.
    let script = [write(2, PM1A_EN, RTC_STS), record(script_kind::DELAY, 0, 0, 3), read(2, PM1A_STS)].concat();
    let run = lent.both(script, &[event::number(event::TICKS, 5), ALARM, ALARM]);
    assert_eq!(run, Run { ending: ending::HALTED, steps: 4, taken: 2, logged: 1, outputs: SMI });
    assert_eq!(LogEntry::from(lent.log[0]), LogEntry { value: RTC_STS, owner: owner::ACPI });
    assert_eq!(lent.log[1..], [UNFILLED; 7]);

    assert_eq!(lent.both([write(1, SMI_CMD, 1), read(4, TIMER)].concat(), &[]).outputs, SCI);
    assert_eq!(lent.log[0], 0x2_0000_0008);
    assert_eq!(lent.both(write(2, PM1A_STS, RTC_STS), &[]).outputs, OFF);
    assert_eq!(lent.both(write(1, SMI_CMD, 2), &[ALARM]).outputs, SMI);
}

#[test]
fn monitor_events() {
    let mut lent = Lent::fresh(Vec::new());
    assert_eq!(lent.both(enable_monitor(), &[]).outputs, OFF);
    let sensor = event::number(event::SENSOR, event::SENSOR_VBAT);
    let run = lent.both([write(1, MONITOR, 0x83), read(1, MONITOR + 1)].concat(), &[NO_TICKS, sensor]);
    assert_eq!((run.outputs, run.taken), (MONITOR_INTERRUPT, 2));
    assert_eq!(LogEntry::from(lent.log[0]), LogEntry { value: event::SENSOR_VBAT, owner: owner::MONITOR });
    assert_eq!(lent.both(write(1, MONITOR + 1, event::SENSOR_VBAT), &[]).outputs, OFF);
}

#[test]
fn pin_events() {
    let mut lent = Lent::fresh(Vec::new());
    // Pin 2 sets GPE0_STS bit 2 when it rises.
    lent.both([write(2, SETUP_IDX, 0x12), write(4, SETUP_DATA, 0x12), write(2, GPE0_EN, 0x04)].concat(), &[]);
    let pins = [2, 3 | event::PIN_HIGH, 2 | event::PIN_HIGH].map(|operand| event::number(event::PIN, operand));
    assert_eq!(lent.both(read(2, GPE0_STS).repeat(3), &pins).outputs, SMI);
    assert_eq!(lent.log[..3], [0x2_0000_0000, 0x2_0000_0000, 0x2_0000_0004]);
}

/// docs/CASES.md: a reset in the middle of a script.
#[test]
fn reset_in_the_middle() {
    let script = [
        write(1, CONFIGURATION, 0x55),
        indexed(CONFIGURATION, 0x07, 0x0A),
        write(1, CONFIGURATION, 0xF2),
        read(1, CONFIGURATION + 1),
        write(1, CONFIGURATION, 0xAA),
        read(1, CONFIGURATION + 1),
    ]
    .concat();
    let reset = event::number(event::RESET, event::RESET_VCC);
    for (events, first) in [(vec![], 0x04), (vec![NO_TICKS, NO_TICKS, NO_TICKS, NO_TICKS, reset], 0xFF)] {
        let mut lent = Lent::fresh(Vec::new());
        let run = lent.both(script.clone(), &events);
        assert_eq!(run, Run { ending: ending::HALTED, steps: 8, taken: events.len(), logged: 2, outputs: OFF });
        assert_eq!(lent.log[..3], [0x1_0000_0000 + first, 0x1_0000_00FF, UNFILLED]);
    }
}

#[test]
fn single_calls() {
    let mut device = Device::fresh();
    let answers = [
        (device.read(1, 0x2F), status::UNCLAIMED, 0xFF, owner::CONFIGURATION),
        (device.read(4, 0x1234), status::UNCLAIMED, u32::MAX, owner::NOBODY),
        (device.write(4, 0xAC18, 0), status::BLOCKED, 0, owner::ACPI),
        (device.write(2, 0xAC0E, 0x42), status::IGNORED, 0, owner::ACPI),
        (device.write(1, 0x2E, 0x55), status::DONE, 0, owner::CONFIGURATION),
        (device.read(1, 0x2F), status::ABSENT, 0, owner::CONFIGURATION),
        (device.write(1, 0x2E, 0x55), status::DONE, 0, owner::CONFIGURATION),
        (device.read(1, 0x2E), status::DONE, 0x55, owner::CONFIGURATION),
    ];
    for (answer, status, value, owner) in answers {
        assert_eq!(answer.map(|answer| (answer.status, answer.value, answer.owner, answer.outputs)), Ok((status, value, owner, OFF)));
    }
    assert_eq!(device.event(ALARM), Ok(OFF));
    assert_eq!(device.write(2, 0xAC0A, RTC_STS).map(|answer| answer.outputs), Ok(SMI));
    assert_eq!(device.write(1, 0xAC06, 1).map(|answer| answer.outputs), Ok(SCI));
    assert_eq!(device.outputs(), Ok(SCI));
    assert_eq!(device.event(event::number(event::BUTTON, 0)), Ok(SCI));
    assert_eq!(device.event(event::number(event::BUS_MASTER, 0)), Ok(SCI));
    assert_eq!(device.read(2, 0xAC08).map(|answer| answer.value), Ok(0x0C10));
    assert_eq!(device.event(event::number(event::RESET, event::RESET_VTR)), Ok(OFF));
    assert_eq!(device.outputs(), Ok(OFF));
}

/// A script with every kind of record, and an event for some of its accesses.
fn mixed() -> Lent {
    let script = [
        write(2, PM1A_EN, RTC_STS),
        repeat(2),
        repeat(2),
        record(script_kind::DELAY, 0, 0, 9),
        record(script_kind::IF, 2, PM1A_STS, RTC_STS),
        write(2, PM1A_STS, RTC_STS),
        plain(script_kind::ELSE),
        read(4, TIMER),
        plain(script_kind::END),
        plain(script_kind::END),
        plain(script_kind::END),
        read(2, PM1A_STS),
    ];
    Lent { events: vec![NO_TICKS, ALARM, event::number(event::TICKS, 100), NO_TICKS, ALARM], ..Lent::fresh(script.concat()) }
}

/// A budget of a and then of b gives the same as one of a + b, if the first run ended with 19.
#[test]
fn parts() {
    let fresh = mixed();
    let steps = fresh.clone().run().expect("the run is valid").steps;
    assert!(steps > 20);
    for (room, a, b) in (0..=4).flat_map(|room| (0..=steps).flat_map(move |a| (0..=steps + 1 - a).map(move |b| (room, a, b)))) {
        let mut whole = Lent { budget: a + b, log: vec![UNFILLED; room], ..fresh.clone() };
        let once = whole.run().expect("the run is valid");
        let mut parts = Lent { budget: a, log: vec![UNFILLED; room], ..fresh.clone() };
        let first = parts.run().expect("the run is valid");
        if first.ending != ending::BUDGET_SPENT {
            continue;
        }
        assert!(parts.device.is_valid() && parts.sequencer.is_valid());
        let (events, log) = (&parts.events[first.taken..], &mut parts.log[first.logged..]);
        let second = run(&parts.image, &mut parts.device, &mut parts.sequencer, events, b, log).expect("the run is valid");
        let sum = Run {
            steps: first.steps + second.steps,
            taken: first.taken + second.taken,
            logged: first.logged + second.logged,
            ..second
        };
        assert_eq!(sum, once);
        assert_eq!(Lent { budget: a + b, ..parts }, whole);
    }
}

/// The first time that two loops are open, after three words.
#[test]
fn counters() {
    let mut lent = Lent { budget: 3, ..mixed() };
    assert_eq!(lent.run().map(|run| run.ending), Ok(ending::BUDGET_SPENT));
    let view = lent.sequencer.view().expect("the sequencer is valid");
    assert_eq!((view.place, view.in_use()), (3, &[2, 2][..]));
}

// ---- text scripts and listings

const UNWRITTEN: u8 = 0xB7;

/// Calls with a buffer of this length, and returns the result and the buffer.
fn with_buffer<T>(length: usize, call: impl FnOnce(&mut [u8]) -> T) -> (T, Vec<u8>) {
    let mut buffer = vec![UNWRITTEN; length];
    let result = call(&mut buffer);
    (result, buffer)
}

/// A buffer that starts with these bytes, and is not written after them.
fn front(bytes: &[u8], length: usize) -> Vec<u8> {
    let mut buffer = bytes.to_vec();
    buffer.resize(length, UNWRITTEN);
    buffer
}

/// The text is refused, whatever the length of the record buffer.
#[track_caller]
fn text_is_refused(text: &[u8], number: u32, place: usize) {
    for length in [text.len() * RECORD_BYTES, RECORD_BYTES, 0] {
        let refused = (Err(TextRefusal { number, place }), front(&[], length));
        assert_eq!(with_buffer(length, |records| assemble(text, records)), refused, "{:?}", String::from_utf8_lossy(text));
    }
}

/// The text is read into these records, if the buffer has room for them.
#[track_caller]
fn is_assembled(text: &[u8], expected: &[u8]) {
    let room = expected.len();
    for length in [room, room + 1, room + RECORD_BYTES, room + 1000] {
        let read = (Ok(room / RECORD_BYTES), front(expected, length));
        assert_eq!(with_buffer(length, |records| assemble(text, records)), read, "{:?}", String::from_utf8_lossy(text));
    }
    for length in room.saturating_sub(RECORD_BYTES + 1)..room {
        let refused = (Err(TextRefusal { number: refusal::RECORDS_TOO_SHORT, place: 0 }), front(&[], length));
        assert_eq!(with_buffer(length, |records| assemble(text, records)), refused);
    }
}

/// The lister refuses the script, whatever the length of the text buffer.
#[track_caller]
fn listing_is_refused(script: &[u8], number: u32, place: u32) {
    for length in [TEXT_BYTES, 1, 0] {
        let refused = (Err(Refusal { number, place }), front(&[], length));
        assert_eq!(with_buffer(length, |text| list(script, text)), refused);
    }
}

/// The text is the listing of the script, if the buffer has room for it. Reading it gives the script.
#[track_caller]
fn is_listed(script: &[u8], text: &[u8]) {
    let room = text.len();
    for length in [room, room + 1, room + 1000] {
        assert_eq!(with_buffer(length, |text| list(script, text)), (Ok(room), front(text, length)));
    }
    for length in room.saturating_sub(40)..room {
        let refused = (Err(Refusal { number: refusal::TEXT_TOO_SHORT, place: 0 }), front(&[], length));
        assert_eq!(with_buffer(length, |text| list(script, text)), refused);
    }
    is_assembled(text, script);
}

/// Lists a script and reads the listing. The lister refuses what the compiler refuses with 1 to 4.
#[track_caller]
fn round_trip(script: &[u8]) {
    match compile(script, &mut vec![0; IMAGE_BYTES]) {
        Err(Refusal { number: number @ refusal::BAD_LENGTH..=refusal::BAD_FIELD, place }) => listing_is_refused(script, number, place),
        _ => {
            let (length, text) = with_buffer(TEXT_BYTES, |text| list(script, text));
            is_listed(script, &text[..length.expect("every record is legal")]);
        }
    }
}

/// A text of one line, as it is, with LF, with CR and with both.
#[track_caller]
fn line_is_assembled(line: &[u8], expected: &[u8]) {
    for end in ["", "\n", "\r", "\r\n", "\n\n", "\n \t\r\n;"] {
        is_assembled(&[line, end.as_bytes()].concat(), expected);
    }
}

#[track_caller]
fn statement_is_assembled(line: &str, expected: &[u8]) {
    for (before, after) in [("", ""), (" ", "\t"), ("\t  \t", ";"), ("", "   ; \u{FC} \r ; write")] {
        line_is_assembled(format!("{before}{line}{after}").as_bytes(), expected);
    }
}

#[test]
fn statements() {
    use script_kind::{DELAY, ELSE, END, IF, REPEAT};
    let lines = [
        ("write 1 2Eh 55h", write(1, 0x2E, 0x55)),
        ("write 01h 46 085", write(1, 0x2E, 0x55)),
        ("write \t 2   AC08h\t\tFFFFh", write(2, 0xAC08, 0xFFFF)),
        ("write 4 65535 4294967295", write(4, 0xFFFF, u32::MAX)),
        ("write 4 0ffffH 0aBcDeF1h", write(4, 0xFFFF, 0x0ABC_DEF1)),
        ("read 1 2fh", read(1, 0x2F)),
        ("read 2 0", read(2, 0)),
        ("read 4 AC18H", read(4, 0xAC18)),
        ("delay 0", record(DELAY, 0, 0, 0)),
        ("delay 65535", record(DELAY, 0, 0, 65_535)),
        ("delay 10h", record(DELAY, 0, 0, 16)),
        ("repeat 000000000000000000003", record(REPEAT, 0, 0, 3)),
        ("repeat ffffh", record(REPEAT, 0, 0, 65_535)),
        ("if 1 AC08h 255", record(IF, 1, 0xAC08, 255)),
        ("if 2 44040 1", record(IF, 2, 0xAC08, 1)),
        ("if 4 0h 80000000h", record(IF, 4, 0, 0x8000_0000)),
        ("else", plain(ELSE)),
        ("end", plain(END)),
    ];
    for (line, expected) in &lines {
        statement_is_assembled(line, expected);
    }

    // The text of docs/TEXT.md. Blocks are not checked: a lone end is read too.
    let text = "\
; Unlocks the configuration, and reads key control.
write 1 2Eh 55h         ; the key that unlocks
write 1 2Eh F2h         ; the index of key control
read  1 2Fh
repeat 3
    delay 1000
    if 2 AC08h 0001h    ; has the timer's bit 23 changed?
        write 2 AC08h 0001h
    else
        read 4 AC18h
    end
end
end";
    let script = [
        write(1, CONFIGURATION, 0x55),
        write(1, CONFIGURATION, 0xF2),
        read(1, CONFIGURATION + 1),
        repeat(3),
        record(DELAY, 0, 0, 1000),
        record(IF, 2, PM1A_STS, 1),
        write(2, PM1A_STS, 1),
        plain(ELSE),
        read(4, TIMER),
        plain(END).repeat(3),
    ];
    is_assembled(text.as_bytes(), &script.concat());
}

#[test]
fn lines() {
    // Any byte may be in a comment.
    let empty: [&[u8]; 10] =
        [b"", b" ", b"\t \t", b";", b"; write 1", b"  ;;\r", b"\n\n\n", b"\r\n\r\n", b" \r\n;\xFF\xFE", b";\0 "];
    for line in empty {
        line_is_assembled(line, &[]);
    }
    let two = [plain(script_kind::END), read(1, 0x2E)].concat();
    for text in ["end\nread 1 2Eh", "end\r\nread 1 2Eh", ";\r\n\n  end \r\n;\n\tread\t1\t2Eh;"] {
        line_is_assembled(text.as_bytes(), &two);
    }
}

/// A line that is refused, on each of five lines of a text, with and without a line feed at its end. The lines after it are bad too, in every
/// way.
#[track_caller]
fn line_is_refused(line: &[u8], number: u32) {
    let long = [b"\n".to_vec(), vec![b' '; LINE_BYTES + 1]].concat();
    for place in 0..5 {
        let before = [b"read 1 2Eh\n".repeat(place.min(2)), b"; a comment\r\n".repeat(place.saturating_sub(2))].concat();
        for after in [&b""[..], b"\n", b"\nread 1 2Eh\nread 3 2Eh\nwrong\n", &long] {
            text_is_refused(&[&before, line, after].concat(), number, place);
        }
    }
}

#[test]
fn not_in_grammar() {
    let keywords = ["Write 1 2Eh 55h", "WRITE 1 2Eh 55h", "writ 1 2Eh 55h", "writes 1 2Eh 55h", "x", "1", "55h", ",", "=", "ends", "en", "e nd"];
    // A byte order mark, and a space of another kind.
    let unicode = ["\u{FEFF}end", "\u{A0}end"];
    let write = ["write", "write 1", "write 1 2Eh", "write 1 2Eh 55h 0", "write1 2Eh 55h", "write 1 2Eh55h 1 1", "write 1, 2Eh, 55h"];
    let read = [
        "read", "read 1", "read 1 2Eh 0", "read 1 2E", "read 1 $2E", "read 1 0x2E", "read 1 2Ehh", "read 1 h", "read 1 H", "read 1 2Eh2",
        "read 1 2Gh",
    ];
    let delay = ["delay", "delay 1 2", "delay -1", "delay +1", "delay 1,000", "delay 1.0", "delay A", "delay 1 000", "delay end"];
    let blocks = [
        "repeat", "repeat x", "repeat 3 4", "3 repeat", "if", "if 1", "if 1 2Eh", "if 1 2Eh 1 1", "16 x if 1 2Eh 1", "else 1", "elseif", "end 1",
        "end end", "else end",
    ];
    let bytes = ["\rend", "end\r ", "end\r\r", "end\rend", "en\rd", "end\x0B", "end\x0C", "end\x7F", "end\x1F", "end :", "end #", "end\0", "\0"];
    // 31 comes before 32.
    let numbers = ["write 9 99999h", "write 3 2Eh 100h 0", "delay 65536 x", "read 3 65536 0", "99999999999999999999"];
    for line in [&keywords[..], &unicode, &write, &read, &delay, &blocks, &bytes, &numbers].concat() {
        line_is_refused(line.as_bytes(), refusal::NOT_IN_GRAMMAR);
    }
    line_is_refused(b"end\x80", refusal::NOT_IN_GRAMMAR);
}

#[test]
fn numbers_too_big() {
    let write = [
        "write 1 2Eh 100h", "write 1 2Eh 256", "write 2 2Eh 10000h", "write 2 2Eh 65536", "write 4 2Eh 100000000h", "write 4 2Eh 4294967296",
        "write 0 2Eh 0", "write 3 2Eh 0", "write 5 2Eh 0", "write 8 2Eh 0", "write 257 2Eh 0", "write 100000001h 2Eh 0", "write 1 10000h 0",
        "write 1 10000002Eh 0", "write 1 2Eh 18446744073709551616", "write 1 2Eh 10000000000000055h", "write 10000000000000001h 2Eh 0",
    ];
    let read = [
        "read 0 2Eh", "read 3 2Eh", "read 16 2Eh", "read 1 65536", "read 1 FFFFFh", "read 1 1000000000000002Eh", "read 99999999999999999999 2Eh",
    ];
    let counts = [
        "delay 65536", "delay 10000h", "delay 4294967296", "delay 18446744073709551616", "delay 18446744073709551617; 1 too", "repeat 65536",
        "repeat 0010000h", "repeat 100000003h",
    ];
    let ifs = ["if 1 2Eh 100h", "if 2 2Eh 10000h", "if 4 2Eh 100000000h", "if 3 2Eh 0", "if 1 65536 0"];
    for line in [&write[..], &read, &counts, &ifs].concat() {
        line_is_refused(line.as_bytes(), refusal::NUMBER_TOO_BIG);
    }

    // A number of a hundred digits: too big, or with leading zeros.
    for hex in ["", "h"] {
        let small = format!("{}7{hex}", "0".repeat(99));
        line_is_assembled(format!("delay {small}").as_bytes(), &record(script_kind::DELAY, 0, 0, 7));
        line_is_assembled(format!("write 1 {small} 9").as_bytes(), &record(script_kind::WRITE, 1, 7, 9));
        for first in 1..=9 {
            let big = format!("{first}{}{hex}", "7".repeat(99));
            line_is_refused(format!("delay {big}").as_bytes(), refusal::NUMBER_TOO_BIG);
            line_is_refused(format!("write 1 {big} 9").as_bytes(), refusal::NUMBER_TOO_BIG);
        }
    }
}

/// 120 bytes before the line feed are allowed. 30 comes before 31 and before 32.
#[test]
fn long_lines() {
    // The start, the filling and the end of a line, and its refusal at 120 bytes.
    let parts = [
        ("end", " ", "", 0),
        ("", " ", "end", 0),
        ("", "\t", "end\r", 0),
        ("end;", "x", "", 0),
        ("end;", "x", "\r", 0),
        ("end ", " ", "\r", 0),
        ("wrong;", "x", "", refusal::NOT_IN_GRAMMAR),
        ("end ", " ", "x\r", refusal::NOT_IN_GRAMMAR),
        ("", "e", "", refusal::NOT_IN_GRAMMAR),
        ("delay ", "9", "", refusal::NUMBER_TOO_BIG),
        ("read 3 2Eh ;", ";", "", refusal::NUMBER_TOO_BIG),
    ];
    for (start, filling, end, number) in parts {
        let line = |length: usize| format!("{start}{}{end}", filling.repeat(length - start.len() - end.len()));
        let longest = line(LINE_BYTES);
        if number == 0 {
            is_assembled(longest.as_bytes(), &plain(script_kind::END));
            is_assembled(format!("{longest}\n").as_bytes(), &plain(script_kind::END));
        } else {
            line_is_refused(longest.as_bytes(), number);
        }
        line_is_refused(line(LINE_BYTES + 1).as_bytes(), refusal::LINE_TOO_LONG);
        line_is_refused(line(LINE_BYTES + 2).as_bytes(), refusal::LINE_TOO_LONG);
    }
    text_is_refused(&[b' '; 1 << 17], refusal::LINE_TOO_LONG, 0);
}

/// More statements than a script may have are read too. Each one is another write.
#[test]
fn many_statements() {
    for count in [MOST - 1, MOST, MOST + 1, 2 * MOST, 2 * MOST + 1, 5000] {
        let mut text: String = (0..count).map(|k| format!("write 2 {} {k:X}h\n", 7 * k)).collect();
        let script: Vec<u8> = (0..count).flat_map(|k| write(2, 7 * k as u16, k as u32)).collect();
        is_assembled(text.as_bytes(), &script);
        let bad_length = Err(Refusal { number: refusal::BAD_LENGTH, place: 0 });
        assert_eq!(compile(&script, &mut vec![0; IMAGE_BYTES]) == bad_length, count > MOST);
        text += "read 3 2Eh";
        text_is_refused(text.as_bytes(), refusal::NUMBER_TOO_BIG, count);
    }
    // More lines than 16 bits can count.
    text_is_refused(&[vec![b'\n'; 1 << 17], b"x".to_vec()].concat(), refusal::NOT_IN_GRAMMAR, 1 << 17);
}

#[test]
fn listings() {
    use script_kind::{DELAY, ELSE, END, IF};
    is_listed(&[], b"");
    let listing = "\
write 1 002Eh 55h
write 2 AC08h 0001h
write 4 AC14h 0000111Fh
read 1 002Fh
delay 0
delay 1000
repeat 3
    delay 65535
    if 2 AC08h 0001h
        write 1 0000h 0Ah
    else
        read 4 FFFFh
        if 4 0B00h FFFFFFFFh
        end
    end
end
end
else
read 2 AC08h
repeat 10
else
    if 1 002Eh 00h
";
    // No block is open at the fourth end.
    let script = [
        write(1, 0x2E, 0x55),
        write(2, PM1A_STS, 1),
        write(4, SETUP_DATA, 0x111F),
        read(1, 0x2F),
        record(DELAY, 0, 0, 0),
        record(DELAY, 0, 0, 1000),
        repeat(3),
        record(DELAY, 0, 0, 65_535),
        record(IF, 2, PM1A_STS, 1),
        write(1, 0, 0x0A),
        plain(ELSE),
        read(4, 0xFFFF),
        record(IF, 4, 0x0B00, u32::MAX),
        plain(END).repeat(4),
        plain(ELSE),
        read(2, PM1A_STS),
        repeat(10),
        plain(ELSE),
        record(IF, 1, 0x2E, 0),
    ];
    is_listed(&script.concat(), listing.as_bytes());

    // Twenty blocks, and all writes inside them: the lines are indented for 16. This is almost the longest listing.
    let indented = |open: usize, line: &str| format!("{:1$}{line}\n", "", 4 * open.min(16));
    let ifs = (0..20).map(|open| indented(open, "if 4 AC18h 80000000h"));
    let writes = (20..MOST).map(|_| indented(20, "write 4 AC14h 0000111Fh"));
    let text: String = ifs.chain(writes).collect();
    assert!(text.len() <= TEXT_BYTES);
    let script = [record(IF, 4, TIMER, 0x8000_0000).repeat(20), write(4, SETUP_DATA, 0x111F).repeat(MOST - 20)];
    is_listed(&script.concat(), text.as_bytes());

    // The ends close the blocks that are not indented too.
    let repeats = (0..25).map(|open| indented(open, "repeat 2"));
    let ends = (0..25).rev().map(|open| indented(open, "end"));
    let text: String = repeats.chain(ends).collect();
    is_listed(&[repeat(2).repeat(25), plain(END).repeat(25)].concat(), text.as_bytes());
}

/// Each script of examples/.
#[test]
fn round_trips() {
    let folder = concat!(env!("CARGO_MANIFEST_DIR"), "/../../examples");
    let mut scripts = 0;
    for entry in std::fs::read_dir(folder).expect("the examples can be read") {
        let path = entry.expect("the examples can be read").path();
        if path.extension().is_some_and(|extension| extension == "script") {
            round_trip(&std::fs::read(path).expect("the script can be read"));
            scripts += 1;
        }
    }
    assert!(scripts > 0);
}

#[test]
fn empty_slices() {
    assert_eq!(assemble(&[], &mut []), Ok(0));
    assert_eq!(assemble(b"end", &mut []), Err(TextRefusal { number: refusal::RECORDS_TOO_SHORT, place: 0 }));
    assert_eq!(list(&[], &mut []), Ok(0));
    assert_eq!(list(&plain(script_kind::END), &mut []), Err(Refusal { number: refusal::TEXT_TOO_SHORT, place: 0 }));
    let mut image = vec![0; IMAGE_BYTES];
    assert_eq!(compile(&[], &mut image), Ok(1));
    assert_eq!(compile(&[], &mut []), Err(Refusal { number: refusal::BUFFER_TOO_SHORT, place: 0 }));
    let (mut device, mut sequencer) = (Device::fresh(), Sequencer::fresh());
    let halted = run(&image[..RECORD_BYTES], &mut device, &mut sequencer, &[], 9, &mut []);
    assert_eq!(halted, Ok(Run { ending: ending::HALTED, steps: 1, taken: 0, logged: 0, outputs: OFF }));
    assert_eq!(interpret(&[], &mut device, &[], 9, &mut []), halted);
    assert_eq!(run(&[], &mut device, &mut sequencer, &[], 9, &mut []), Err(Refusal { number: refusal::BAD_IMAGE, place: 0 }));
}

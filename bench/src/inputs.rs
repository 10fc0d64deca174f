//! The scripts, accesses and events that both programs get as input.

use reference::compiler::{self, Record, DELAY, ELSE, END, IF, READ, REPEAT, WRITE};
use reference::sequencer::{self, Lent, Sequencer};
use reference::state::{self, StateBytes};
use reference::text;

use crate::work::Access;

/// With this many records a script compiles to 1,024 words, the halt included.
pub const MOST_RECORDS: usize = 1_023;

/// The most records that a script can have.
pub const MOST_LISTED: usize = 1_024;

const INDEX: u16 = 0x002E;
const DATA: u16 = 0x002F;
const KEY: u16 = 0x0B00;
const MONITOR_INDEX: u16 = 0x0A70;
const MONITOR_DATA: u16 = 0x0A71;
const P_CNT: u16 = 0xAC00;
const PM1_STATUS: u16 = 0xAC08;
const PM1_ENABLE: u16 = 0xAC0A;
const PM1_CONTROL: u16 = 0xAC0C;
const SETUP_INDEX: u16 = 0xAC0E;
const GPE0_STATUS: u16 = 0xAC10;
const GPE0_ENABLE: u16 = 0xAC12;
const SETUP_DATA: u16 = 0xAC14;
const TIMER: u16 = 0xAC18;
const NOBODY: u16 = 0x1234;

#[derive(Default)]
pub struct Script {
    bytes: Vec<u8>,
}

impl Script {
    fn put(&mut self, kind: u8, width: u8, port: u16, value: u32) {
        let record = Record { width, port, value, ..Record::of_script(kind) };
        self.bytes.extend(record.encode());
    }

    fn records(&self) -> usize {
        self.bytes.len() / compiler::RECORD_BYTES
    }

    fn write(&mut self, (width, port, value): (u8, u16, u32)) {
        self.put(WRITE, width, port, value);
    }

    fn read(&mut self, (width, port): (u8, u16)) {
        self.put(READ, width, port, 0);
    }

    fn delay(&mut self, ticks: u32) {
        self.put(DELAY, 0, 0, ticks);
    }

    fn repeat(&mut self, times: u32) {
        self.put(REPEAT, 0, 0, times);
    }

    fn branch(&mut self, width: u8, port: u16, mask: u32) {
        self.put(IF, width, port, mask);
    }

    fn otherwise(&mut self) {
        self.put(ELSE, 0, 0, 0);
    }

    fn end(&mut self) {
        self.put(END, 0, 0, 0);
    }

    /// Adds writes until the script has this many records.
    fn filled(mut self, records: usize) -> Vec<u8> {
        for k in self.records()..records {
            self.write((1, KEY + (k % 32) as u16, (k % 256) as u32));
        }
        self.bytes
    }

    pub fn bytes(&self) -> &[u8] {
        &self.bytes
    }

    pub fn image(&self) -> Vec<u8> {
        let mut image = vec![0; runnelopal::IMAGE_BYTES];
        let words = compiler::compile(&self.bytes, &mut image).expect("the script is valid");
        image.truncate(words * compiler::RECORD_BYTES);
        image
    }
}

// ---- scripts to compile

pub fn flat(records: usize) -> Vec<u8> {
    Script::default().filled(records)
}

/// Eight repeats and eight ifs, nested, around all other records, which are writes.
pub fn one_nest(records: usize) -> Vec<u8> {
    let mut script = Script::default();
    open(&mut script);
    let body = records - 16;
    let mut script = Script { bytes: script.filled(body) };
    (0..16).for_each(|_| script.end());
    script.bytes
}

/// Opens sixteen nested blocks, half of them repeats.
fn open(script: &mut Script) {
    for k in 0..8 {
        script.repeat(k);
        script.branch(2, PM1_STATUS, 1 << k);
    }
}

/// A sequence of nests of 16 blocks; each if has an else.
pub fn nests(records: usize) -> Vec<u8> {
    let mut script = Script::default();
    let size = 16 + 1 + 8 * 2 + 16;
    while script.records() + size <= records {
        open(&mut script);
        script.write((1, KEY, 0));
        for _ in 0..8 {
            script.otherwise();
            script.delay(1);
            script.end();
            script.end();
        }
    }
    script.filled(records)
}

/// A sequence of ifs with elses, not nested.
pub fn many_ifs(records: usize) -> Vec<u8> {
    let mut script = Script::default();
    while script.records() + 5 <= records {
        script.branch(1, MONITOR_DATA, 1);
        script.write((1, KEY, 1));
        script.otherwise();
        script.write((1, KEY, 2));
        script.end();
    }
    script.filled(records)
}

// ---- scripts to list, and texts to read

/// Records of every kind, in blocks up to two deep, all of them closed.
pub fn mixture(records: usize) -> Vec<u8> {
    let mut script = Script::default();
    let mut writes = set_up_list().into_iter().cycle();
    let mut reads = read_list().into_iter().cycle();
    let mut write = |script: &mut Script| script.write(writes.next().expect("the list is not empty"));
    let mut read = |script: &mut Script| script.read(reads.next().expect("the list is not empty"));
    let size = 16;
    for turn in 0..(records / size) as u32 {
        (0..4).for_each(|_| write(&mut script));
        read(&mut script);
        script.delay(turn * 1_009);
        script.repeat(turn);
        script.branch(2, PM1_STATUS, 1 << (turn % 16));
        write(&mut script);
        script.otherwise();
        read(&mut script);
        script.end();
        script.branch(4, TIMER, turn << 20);
        script.delay(turn % 10);
        script.end();
        script.end();
    }
    script.filled(records)
}

/// The text as the lister writes it.
pub fn listing(script: &[u8]) -> Vec<u8> {
    text::listing(script).expect("the script is valid")
}

/// The same text with a comment after every statement, and with carriage returns.
pub fn commented(script: &[u8]) -> Vec<u8> {
    let lines = String::from_utf8(listing(script)).expect("a listing is ASCII");
    lines.lines().flat_map(|line| format!("{line:32} ; what this statement does, and why\r\n").into_bytes()).collect()
}

// ---- scripts to run

/// Nested repeats, outermost first, around a body.
pub fn looped(times: &[u32], body: impl FnOnce(&mut Script)) -> Script {
    let mut script = Script::default();
    times.iter().for_each(|times| script.repeat(*times));
    body(&mut script);
    times.iter().for_each(|_| script.end());
    script
}

pub fn one_delay(script: &mut Script) {
    script.delay(1);
}

pub fn one_write(script: &mut Script) {
    script.write((4, P_CNT, 0x17));
}

pub fn one_unclaimed(script: &mut Script) {
    script.write((1, NOBODY, 0x17));
}

fn set_up_list() -> Vec<(u8, u16, u32)> {
    let mut list = vec![(1, INDEX, 0x55)];
    let registers =
        [(0x07, 0x0A), (0x60, 0x0A), (0x61, 0x00), (0x62, 0x0B), (0x63, 0x00), (0x30, 0x01), (0xF2, 0x00)];
    for (index, value) in registers {
        list.extend([(1, INDEX, index), (1, DATA, value)]);
    }
    for k in 0..16 {
        list.push((1, KEY + k, 0xA0 + u32::from(k)));
    }
    for (index, value) in [(0x7C, 0xE6), (0x7E, 0xFF), (0x80, 0x0F), (0x83, 0x03), (0x90, 0x1F), (0xB5, 0x33)] {
        list.extend([(1, MONITOR_INDEX, index), (1, MONITOR_DATA, value)]);
    }
    list.extend([(4, P_CNT, 0x17), (2, PM1_STATUS, 0xFFFF), (2, PM1_ENABLE, 0x0721), (2, PM1_CONTROL, 0x1C02)]);
    for (index, value) in [(0x10, 0x0018), (0x13, 0x1109), (0x17, 0x011F), (0x40, 1), (0x41, 10)] {
        list.extend([(2, SETUP_INDEX, index), (4, SETUP_DATA, value)]);
    }
    list.extend([(2, GPE0_STATUS, 0xFFFF), (2, GPE0_ENABLE, 0x8100), (1, P_CNT + 6, 1)]);
    list
}

/// A whole register set-up, from unlock to lock.
pub fn set_up(script: &mut Script) {
    set_up_list().into_iter().for_each(|write| script.write(write));
    script.write((1, INDEX, 0xAA));
}

fn read_list() -> Vec<(u8, u16)> {
    vec![
        (1, INDEX),
        (1, DATA),
        (1, KEY),
        (1, KEY + 31),
        (1, MONITOR_INDEX),
        (1, MONITOR_DATA),
        (4, P_CNT),
        (1, P_CNT + 4),
        (1, P_CNT + 5),
        (1, P_CNT + 6),
        (2, PM1_STATUS),
        (2, PM1_ENABLE),
        (2, PM1_CONTROL),
        (2, SETUP_INDEX),
        (2, GPE0_STATUS),
        (2, GPE0_ENABLE),
        (4, SETUP_DATA),
        (4, TIMER),
        (1, NOBODY),
        (4, KEY),
    ]
}

/// A set-up, and then reads of every block in a loop.
pub fn reads() -> Script {
    let mut script = Script::default();
    set_up_list().into_iter().for_each(|write| script.write(write));
    script.repeat(65_535);
    script.repeat(65_535);
    read_list().into_iter().for_each(|read| script.read(read));
    script.end();
    script.end();
    script
}

/// Ifs with elses and short bodies. Some of the ifs are taken.
pub fn tests(script: &mut Script) {
    for (width, port, mask) in [(2, PM1_CONTROL, 1), (4, TIMER, 3), (1, MONITOR_DATA, 0x80), (1, NOBODY, 1)] {
        script.branch(width, port, mask);
        script.branch(2, PM1_ENABLE, 0x20);
        script.otherwise();
        script.delay(1);
        script.end();
        script.otherwise();
        script.write((1, P_CNT + 6, 1));
        script.end();
    }
}

/// An if that is never taken, around this many writes.
pub fn failed_test(script: &mut Script, records: usize) {
    script.branch(1, P_CNT + 6, 1);
    for _ in 0..records {
        script.write((4, P_CNT, 0x17));
    }
    script.end();
}

/// As many events as a run may have, of every kind except resets.
pub fn many_events() -> Vec<u32> {
    let list: Vec<u32> = ticks().into_iter().chain(pins()).chain(alarms()).collect();
    list.into_iter().cycle().take(sequencer::EVENT_LIMIT).collect()
}

// ---- single calls

/// The state after a set-up without the final lock.
pub fn start() -> StateBytes {
    let mut script = Script::default();
    set_up_list().into_iter().for_each(|write| script.write(write));
    let image = script.image();
    let mut device = reference::device::Device::fresh();
    let lent = Lent { image: &image, events: &[], budget: u32::MAX, log: &mut [] };
    sequencer::run(lent, &mut device, &mut Sequencer::fresh(), &mut ()).expect("the image is valid");
    state::encode(&device)
}

pub fn single_reads() -> Vec<Access> {
    let access = |(width, port)| Access { width: u32::from(width), port: u32::from(port), written: None };
    read_list().into_iter().map(access).collect()
}

pub fn single_writes() -> Vec<Access> {
    let access =
        |(width, port, value)| Access { width: u32::from(width), port: u32::from(port), written: Some(value) };
    set_up_list().into_iter().chain([(4, TIMER, 0), (1, NOBODY, 0)]).map(access).collect()
}

pub fn ticks() -> Vec<u32> {
    vec![0x0100_0001, 0x0100_FFFF, 0x0100_1000, 0x0100_0000]
}

pub fn pins() -> Vec<u32> {
    (0..16).map(|operand| 0x0200_0000 + (operand * 7) % 16).collect()
}

/// RTC alarm, bus master, sensor and button events.
pub fn alarms() -> Vec<u32> {
    vec![0x0300_0000, 0x0400_0000, 0x0500_0000, 0x0500_0001, 0x0500_0002, 0x0500_0003, 0x0700_0000]
}

pub fn resets() -> Vec<u32> {
    (0..4).map(|operand| 0x0600_0000 + operand).collect()
}

pub fn every_event() -> Vec<u32> {
    ticks().into_iter().chain(pins()).chain(alarms()).chain(resets()).collect()
}

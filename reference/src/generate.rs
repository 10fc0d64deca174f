//! Random commands for the comparison. The generator carries out its commands on a device of its
//! own, so that it can reach states in which several rules apply. It may write any line: the two
//! programs under comparison decide what a line means.

use std::collections::VecDeque;
use std::io::{self, Write};

use crate::acpi::PIN_COUNT;
use crate::device::Device;
use crate::random::Random;
use crate::scripts;
use crate::state::{self, StateBytes};
use crate::stream::{Reply, Session, LINE_LIMIT};

const INDEX_PORT: u32 = 0x2E;
const DATA_PORT: u32 = 0x2F;
const ACPI_PORT: u32 = 0xAC00;

const SMI_CMD: u32 = 6;
const PM1_STATUS: u32 = 8;
const PM1_ENABLE: u32 = 10;
const PM1_CONTROL: u32 = 12;
const SETUP_INDEX: u32 = 14;
const GPE0_STATUS: u32 = 16;
const GPE0_ENABLE: u32 = 18;
const SETUP_DATA: u32 = 20;
const TIMER: u32 = 24;

/// ACPI offsets, each with the width that it takes.
const ACPI_REGISTERS: [(u32, u32); 12] = [
    (0, 4),
    (4, 1),
    (5, 1),
    (SMI_CMD, 1),
    (PM1_STATUS, 2),
    (PM1_ENABLE, 2),
    (PM1_CONTROL, 2),
    (SETUP_INDEX, 2),
    (GPE0_STATUS, 2),
    (GPE0_ENABLE, 2),
    (SETUP_DATA, 4),
    (TIMER, 4),
];

const TMR_STS: u32 = 1 << 0;
const SLEEP: u32 = 1 << 13;

const CONFIGURATION_REGISTERS: [u32; 7] = [0x07, 0x30, 0x60, 0x61, 0x62, 0x63, 0xF2];

const MONITOR_REGISTERS: [u32; 19] = [
    0x40, 0x6E, 0x6F, 0x7C, 0x7E, 0x80, 0x81, 0x82, 0x83, 0x84, 0x85, 0x86, 0x87, 0x88, 0x90, 0x91,
    0xB5, 0xB6, 0xB7,
];

/// Indices that name no register, next to those that do.
const MONITOR_UNLISTED: [u32; 16] = [
    0x00, 0x3F, 0x41, 0x6D, 0x70, 0x7B, 0x7D, 0x7F, 0x89, 0x8F, 0x92, 0xB4, 0xB8, 0xC0, 0xE6, 0xFF,
];

/// Ordinary bases, bases that are 0 after masking, and bases that place a block next to or over
/// another one. Some would reach 002Eh or AC00h only if they were used without the mask.
const RUNTIME_BASES: [u32; 20] = [
    0x0A00, 0x0A00, 0x0A7F, 0x0400, 0x0080, 0x00FF, 0x0000, 0x0001, 0x007F, 0xAB80, 0xABFF, 0xAB90,
    0xABAF, 0xAC00, 0xAC1F, 0xFF80, 0xFFBE, 0xFFBF, 0xFFFF, 0x0100,
];
const KEY_BASES: [u32; 24] = [
    0x0020, 0x0020, 0x0030, 0x003F, 0x002E, 0x0000, 0x0001, 0x001F, 0x0040, 0xABE0, 0xABFF, 0xAC00,
    0xAC00, 0xAC1F, 0xAC20, 0xFFE0, 0xFFFF, 0x0100, 0x0A60, 0x0A7F, 0x0460, 0x00E0, 0xFFE1, 0xABF0,
];

const LEGAL_SETUP_INDICES: [u32; 11] = [
    0x00, 0x10, 0x11, 0x12, 0x13, 0x14, 0x15, 0x16, 0x17, 0x40, 0x41,
];
const ILLEGAL_SETUP_INDICES: [u32; 13] = [
    0x01, 0x08, 0x0F, 0x18, 0x1F, 0x3F, 0x42, 0x0100, 0x0110, 0x1000, 0x4100, 0x8010, 0xFFFF,
];

const LEGAL_MAP_TARGETS: [u32; 24] = [
    0x00, 0x08, 0x08, 0x08, 0x09, 0x09, 0x09, 0x10, 0x11, 0x12, 0x13, 0x14, 0x15, 0x16, 0x17, 0x18,
    0x19, 0x1A, 0x1B, 0x1C, 0x1D, 0x1E, 0x1F, 0x00,
];
const ILLEGAL_MAP_TARGETS: [u32; 9] = [0x01, 0x07, 0x0A, 0x0F, 0x20, 0x40, 0x80, 0x90, 0xFF];

const IRQS: [u32; 16] = [
    0x00,
    0x01,
    0x09,
    0x0A,
    0x0E,
    0x0F,
    0x0F,
    0x10,
    0x10,
    0x11,
    0x1F,
    0x80,
    0xFF,
    0x100,
    0x109,
    0x8000_000F,
];

/// Single bits of the mask of PM1a_EN, and sometimes none.
const PM1_ENABLES: [u32; 7] = [0, 0x001, 0x020, 0x100, 0x200, 0x400, 0x721];

/// Timers before and after each of the two changes of bit 23, and before the two places where only
/// bit 22 and those below it change.
const TIMERS: [u32; 24] = [
    0x7E_FFFF, 0x7F_0000, 0x7F_0001, 0x7F_C000, 0x7F_FF00, 0x7F_FFFE, 0x7F_FFFE, 0x7F_FFFF,
    0x7F_FFFF, 0x80_0000, 0x80_0001, 0xFE_FFFF, 0xFF_0000, 0xFF_0001, 0xFF_C000, 0xFF_FF00,
    0xFF_FFFE, 0xFF_FFFE, 0xFF_FFFF, 0xFF_FFFF, 0, 1, 0x3F_FFFF, 0xBF_FFFF,
];

/// The number of ticks to the next change of bit 23 of the timer: 1 to 800000h.
pub fn ticks_to_change(timer: u32) -> u32 {
    let half = 1 << 23;
    half - timer % half
}

/// Writes exactly this many commands. Sometimes the last line has no line feed.
pub fn write_commands(
    source: &'static Source,
    seed: u64,
    count: u64,
    output: &mut impl Write,
) -> io::Result<()> {
    let mut generator = Generator::new(source, seed);
    let mut last_is_empty = false;
    for written in 0..count {
        if written > 0 {
            output.write_all(b"\n")?;
        }
        let line = generator.next_line();
        last_is_empty = line.is_empty();
        output.write_all(&line)?;
    }
    // An empty last line is a command only if it has a line feed.
    if count > 0 && (last_is_empty || !generator.random.one_in(4)) {
        output.write_all(b"\n")?;
    }
    Ok(())
}

pub struct Generator {
    source: &'static Source,
    pub random: Random,
    /// The device and the sequencer after the commands planned so far.
    pub session: Session,
    planned: VecDeque<Vec<u8>>,
    ranged_fields: Vec<(usize, usize)>,
}

pub type Scenario = fn(&mut Generator);

/// Where commands come from.
pub struct Source {
    /// The kinds of commands that may come next, with their weights.
    pub scenarios: &'static [(u32, Scenario)],
    /// Whether commands that print the state, the outputs or the sequencer are added in between.
    pub looks: bool,
}

/// Commands of all kinds.
pub const ANYTHING: Source = Source {
    scenarios: &SCENARIOS,
    looks: true,
};

const SCENARIOS: [(u32, Scenario); 28] = [
    (6, Generator::place_blocks),
    (10, Generator::poke_configuration),
    (5, Generator::drive_key_control),
    (10, Generator::poke_key),
    (16, Generator::poke_monitor),
    (8, Generator::drive_monitor_interrupt),
    (16, Generator::poke_acpi),
    (18, Generator::poke_acpi_anywhere),
    (9, Generator::drive_setup),
    (8, Generator::drive_sleep),
    (18, Generator::drive_timer),
    (8, Generator::drive_pins),
    (8, Generator::drive_cpu_state),
    (14, Generator::outside_event),
    (4, Generator::reset),
    (12, Generator::poke_edges),
    (12, Generator::unsettled_state),
    (5, Generator::load_good),
    (44, Generator::load_boundary),
    (6, Generator::shared_bit_outside_masks),
    (26, Generator::damaged_access),
    (22, Generator::damaged_event),
    (48, Generator::malformed),
    (24, Generator::compile_script),
    (4, Generator::run_script),
    (4, Generator::interpret_script),
    (4, Generator::run_image),
    (16, Generator::set_sequencer),
];

impl Generator {
    fn new(source: &'static Source, seed: u64) -> Self {
        Generator {
            source,
            random: Random::new(seed),
            session: Session::new(),
            planned: VecDeque::new(),
            ranged_fields: ranged_fields(),
        }
    }

    fn next_line(&mut self) -> Vec<u8> {
        loop {
            if let Some(line) = self.planned.pop_front() {
                return line;
            }
            self.plan();
        }
    }

    fn plan(&mut self) {
        let scenarios = self.source.scenarios;
        let total = scenarios.iter().map(|(weight, _)| weight).sum();
        let mut draw = self.random.below(total);
        for (weight, scenario) in scenarios {
            if draw < *weight {
                scenario(self);
                break;
            }
            draw -= weight;
        }
        if !self.source.looks {
            return;
        }
        match self.random.below(12) {
            0..=5 => self.line(b"S"),
            6 => self.line(b"O"),
            7 if self.random.one_in(3) => self.line(b"P"),
            _ => {}
        }
        if self.random.one_in(150) {
            self.line(b"F");
        }
    }

    pub fn device(&self) -> &Device {
        self.session.device()
    }

    // Lines.

    pub fn line(&mut self, line: &[u8]) {
        self.answered_line(line);
    }

    /// Plans a line and returns the answer to it.
    pub fn answered_line(&mut self, line: &[u8]) -> Reply {
        self.planned.push_back(line.to_vec());
        self.session.answer(line)
    }

    fn read(&mut self, width: u32, port: u32) {
        let line = self.read_line(width, port);
        self.line(&line);
    }

    fn write(&mut self, width: u32, port: u32, value: u32) {
        let line = self.write_line(width, port, value);
        self.line(&line);
    }

    /// A read, or a write of a value that fits the width.
    fn poke(&mut self, width: u32, port: u32) {
        if self.random.one_in(2) {
            self.read(width, port);
        } else {
            let value = self.random.bits(8 * width);
            self.write(width, port, value);
        }
    }

    /// For a port of a block that takes width 1 only: the block owns the port, but does not take
    /// the access.
    fn poke_too_wide(&mut self, port: u32) {
        let width = self.random.pick(&[2, 4]);
        self.poke(width, port);
    }

    fn event(&mut self, kind: u32, operand: u32) {
        let line = self.event_line(kind << 24 | operand);
        self.line(&line);
    }

    pub fn load(&mut self, bytes: &StateBytes) {
        let line = self.load_line(bytes);
        self.line(&line);
    }

    fn look(&mut self) {
        let line = self.random.pick(&[b"S", b"S", b"O"]);
        self.line(line);
    }

    fn read_line(&mut self, width: u32, port: u32) -> Vec<u8> {
        let words = [self.number(width), self.number(port)];
        format!("R {}", words.join(" ")).into_bytes()
    }

    fn write_line(&mut self, width: u32, port: u32, value: u32) -> Vec<u8> {
        let words = [self.number(width), self.number(port), self.number(value)];
        format!("W {}", words.join(" ")).into_bytes()
    }

    fn event_line(&mut self, number: u32) -> Vec<u8> {
        format!("E {}", self.number(number)).into_bytes()
    }

    fn load_line(&mut self, bytes: &StateBytes) -> Vec<u8> {
        let mut line = String::from("L ");
        let lower = self.random.one_in(4);
        for byte in bytes {
            line.push_str(&if lower {
                format!("{byte:02x}")
            } else {
                format!("{byte:02X}")
            });
        }
        line.into_bytes()
    }

    /// A command that loads a device or a sequencer, both in range.
    fn saved_line(&mut self) -> Vec<u8> {
        match self.random.below(2) {
            0 => {
                let bytes = self.good_state();
                self.load_line(&bytes)
            }
            _ => {
                let sequencer = self.legal_sequencer(1);
                self.load_sequencer_line(&sequencer)
            }
        }
    }

    /// A number in one to eight hex digits, in upper or lower case, with or without leading zeros.
    fn number(&mut self, number: u32) -> String {
        self.random.writing(number)
    }

    // Configuration, key and monitor.

    fn unlock(&mut self) {
        if !self.device().configuration.unlocked {
            if self.random.one_in(6) {
                let wrong = self.random.pick(&[0xAA, 0x00, 0x54, 0x5A, 0xFF]);
                self.write(1, INDEX_PORT, wrong);
            }
            self.write(1, INDEX_PORT, 0x55);
        }
    }

    fn select_runtime_device(&mut self) {
        self.unlock();
        if self.device().configuration.device_number != 0x0A {
            self.write(1, INDEX_PORT, 0x07);
            self.write(1, DATA_PORT, 0x0A);
        }
    }

    fn configure(&mut self, index: u32, value: u32) {
        self.write(1, INDEX_PORT, index);
        self.write(1, DATA_PORT, value);
        if self.random.one_in(4) {
            self.read(1, DATA_PORT);
        }
    }

    fn runtime_base(&mut self) -> u32 {
        match self.random.below(8) {
            0 => self.random.bits(16),
            _ => self.random.pick(&RUNTIME_BASES),
        }
    }

    /// A key base for a device with this runtime base.
    fn key_base(&mut self, runtime_base: [u8; 2]) -> u32 {
        match self.random.below(8) {
            0 => self.random.bits(16),
            // On the two ports of the monitor.
            1 => {
                let runtime = u16::from_be_bytes(runtime_base);
                u32::from(runtime & 0xFF80) | 0x60 | self.random.below(32)
            }
            _ => self.random.pick(&KEY_BASES),
        }
    }

    /// Activate, with bases from the lists.
    fn place_blocks(&mut self) {
        self.select_runtime_device();
        let which = self.random.below(4);
        if which != 0 {
            let base = self.runtime_base();
            self.configure(0x60, base >> 8);
            self.configure(0x61, base & 0xFF);
        }
        if which != 1 {
            let base = self.key_base(self.device().configuration.runtime_base);
            self.configure(0x62, base >> 8);
            self.configure(0x63, base & 0xFF);
        }
        let activate = self.random.pick(&[1, 1, 1, 1, 1, 0xFF, 0x03, 0, 0xFE]);
        self.configure(0x30, activate);
        if self.random.one_in(3) {
            self.write(1, INDEX_PORT, 0xAA);
        }
    }

    fn poke_configuration(&mut self) {
        if self.random.one_in(2) {
            self.unlock();
        }
        for _ in 0..=self.random.below(4) {
            let index = match self.random.below(8) {
                0 => self
                    .random
                    .pick(&[0x55, 0xAA, 0x06, 0x08, 0x31, 0x5F, 0x64, 0xF1, 0xF3]),
                1 => self.random.bits(8),
                _ => self.random.pick(&CONFIGURATION_REGISTERS),
            };
            let value = match index {
                0x07 => self
                    .random
                    .pick(&[0x0A, 0x0A, 0x0A, 0x0A, 0x0B, 0x00, 0x1A, 0xFF]),
                _ => self.random.bits(8),
            };
            match self.random.below(8) {
                0 => self.read(1, INDEX_PORT),
                1 => self.read(1, DATA_PORT),
                2 => self.write(1, DATA_PORT, value),
                3 => self.write(1, INDEX_PORT, index),
                _ => self.configure(index, value),
            }
        }
    }

    /// All lock combinations, then a second write, and sometimes a PCI reset after it.
    fn drive_key_control(&mut self) {
        self.select_runtime_device();
        let control = self.random.below(8) | self.random.pick(&[0, 0, 0x08, 0xF8]);
        self.configure(0xF2, control);
        self.poke_key();
        let second = self.random.bits(8);
        self.configure(0xF2, second);
        if self.device().configuration.key_control & 1 != 0 && self.random.one_in(2) {
            self.event(6, 0);
        }
    }

    fn poke_key(&mut self) {
        let Some(base) = self.device().configuration.key_port() else {
            return self.place_blocks();
        };
        if self.device().configuration.key_write_locked() && self.random.one_in(3) {
            self.select_runtime_device();
            self.configure(0xF2, 0x00);
        }
        for _ in 0..=self.random.below(4) {
            let offset = self
                .random
                .pick(&[0, 0, 1, 13, 14, 15, 16, 17, 30, 31, 31, 32]);
            let port = u32::from(base) + offset;
            match self.random.below(12) {
                0 | 1 => self.poke_too_wide(port),
                2..=5 => self.read(1, port),
                _ => {
                    let value = self.random.bits(8);
                    self.write(1, port, value);
                }
            }
        }
    }

    fn monitor_port(&mut self) -> Option<u32> {
        if self.device().configuration.monitor_port().is_none() {
            self.place_blocks();
        }
        self.device().configuration.monitor_port().map(u32::from)
    }

    fn monitor_index(&mut self) -> u32 {
        match self.random.below(8) {
            0 => self.random.pick(&MONITOR_UNLISTED),
            1 => self.random.bits(8),
            _ => self.random.pick(&MONITOR_REGISTERS),
        }
    }

    fn poke_monitor(&mut self) {
        let Some(port) = self.monitor_port() else {
            return;
        };
        for _ in 0..=self.random.below(7) {
            let index = self.monitor_index();
            let value = match index {
                // Lock ends only with a reset, so it is set less often.
                0x40 => self.random.pick(&[0x00, 0x01, 0xFD, 0x02, 0xFF]),
                _ => self.random.bits(8),
            };
            match self.random.below(11) {
                0 => self.read(1, port),
                1 => self.write(1, port, index),
                2 => {
                    let either = port + self.random.below(2);
                    self.poke_too_wide(either);
                }
                3..=5 => {
                    self.write(1, port, index);
                    self.read(1, port + 1);
                }
                _ => {
                    self.write(1, port, index);
                    self.write(1, port + 1, value);
                    if self.random.one_in(3) {
                        self.read(1, port + 1);
                    }
                }
            }
        }
        // If Lock is set, most writes give the same answer; so clear it sometimes.
        if self.device().monitor.registers[0] != 0 && self.random.one_in(4) {
            self.event(6, 1);
        }
    }

    /// Writes 7Ch, 7Eh and 83h so that the condition of the interrupt changes.
    fn drive_monitor_interrupt(&mut self) {
        let Some(port) = self.monitor_port() else {
            return;
        };
        let control = self
            .random
            .pick(&[0x04, 0x04, 0x04, 0x44, 0xFF, 0xFB, 0x00]);
        let enable = self
            .random
            .pick(&[0x11, 0x03, 0x13, 0x13, 0x12, 0x10, 0x01, 0xFF, 0xEC]);
        self.write(1, port, 0x7C);
        self.write(1, port + 1, control);
        self.write(1, port, 0x7E);
        self.write(1, port + 1, enable);
        for _ in 0..=self.random.below(3) {
            let bits = self.random.below(4);
            if self.random.one_in(3) {
                self.write(1, port, 0x83);
                self.write(1, port + 1, bits);
            } else {
                self.event(5, bits);
            }
        }
    }

    // ACPI.

    fn acpi_write(&mut self, offset: u32, value: u32) {
        let width = ACPI_REGISTERS
            .iter()
            .find(|(listed, _)| *listed == offset)
            .map_or(1, |(_, width)| *width);
        self.write(width, ACPI_PORT + offset, value);
    }

    fn acpi_value(&mut self, offset: u32, width: u32) -> u32 {
        match offset {
            SMI_CMD => self.random.pick(&[1, 1, 1, 2, 2, 2, 0, 3, 5, 0x81, 0xFF]),
            PM1_STATUS => match self.random.below(3) {
                0 => u32::from(self.device().acpi.pm1_status),
                _ => self.random.bits(16),
            },
            GPE0_STATUS => match self.random.below(3) {
                0 => u32::from(self.device().acpi.gpe0_status),
                _ => self.random.bits(16),
            },
            PM1_ENABLE => match self.random.below(3) {
                0 => self.random.bits(16),
                _ => self.random.pick(&PM1_ENABLES),
            },
            PM1_CONTROL => match self.random.below(3) {
                0 => SLEEP | self.random.bits(16),
                _ => self.random.bits(16),
            },
            SETUP_INDEX => self.setup_index(),
            SETUP_DATA => self.setup_data(),
            _ => self.random.bits(8 * width),
        }
    }

    fn poke_acpi(&mut self) {
        for _ in 0..=self.random.below(5) {
            let (offset, width) = self.random.pick(&ACPI_REGISTERS);
            if self.random.one_in(3) {
                self.read(width, ACPI_PORT + offset);
            } else {
                let value = self.acpi_value(offset, width);
                self.write(width, ACPI_PORT + offset, value);
            }
        }
        if self.random.one_in(4) {
            self.calm();
        }
    }

    /// Reads and writes of all offsets at all widths.
    fn poke_acpi_anywhere(&mut self) {
        for _ in 0..=self.random.below(4) {
            let offset = self.random.below(32);
            let width = self.random.pick(&[1, 2, 4]);
            self.poke(width, ACPI_PORT + offset);
        }
    }

    fn setup_index(&mut self) -> u32 {
        match self.random.below(6) {
            0 => self.random.pick(&ILLEGAL_SETUP_INDICES),
            _ => self.random.pick(&LEGAL_SETUP_INDICES),
        }
    }

    fn setup_data(&mut self) -> u32 {
        match self.device().acpi.setup_index {
            0x10..=0x17 => self.map_value(),
            0x41 => self.random.pick(&IRQS),
            _ => self.random.bits(32),
        }
    }

    fn legal_map(&mut self) -> u32 {
        let target = self.random.pick(&LEGAL_MAP_TARGETS);
        target | self.random.pick(&[0, 0x100]) | self.random.pick(&[0, 0, 0x1000])
    }

    fn map_value(&mut self) -> u32 {
        let legal = self.legal_map();
        match self.random.below(12) {
            // One of the 32 bits inverted, each in turn.
            0..=1 => legal ^ 1 << self.random.below(32),
            2 => legal & !0xFF | self.random.pick(&ILLEGAL_MAP_TARGETS),
            _ => legal,
        }
    }

    fn drive_setup(&mut self) {
        for _ in 0..=self.random.below(3) {
            let index = self.setup_index();
            self.acpi_write(SETUP_INDEX, index);
            let data = self.setup_data();
            self.acpi_write(SETUP_DATA, data);
            match self.random.below(4) {
                0 => self.read(4, ACPI_PORT + SETUP_DATA),
                1 => self.read(2, ACPI_PORT + SETUP_INDEX),
                _ => {}
            }
        }
    }

    /// Clears most or all of what is pending.
    fn calm(&mut self) {
        match self.random.below(3) {
            0 => {
                self.acpi_write(PM1_ENABLE, 0);
                self.acpi_write(GPE0_ENABLE, 0);
            }
            1 => {
                self.acpi_write(PM1_STATUS, 0xFFFF);
                self.acpi_write(GPE0_STATUS, 0xFFFF);
            }
            _ => {
                self.acpi_write(PM1_STATUS, 0x8F31);
                self.acpi_write(GPE0_ENABLE, 0);
            }
        }
    }

    fn maybe_sci_enable(&mut self) {
        match self.random.below(3) {
            0 => self.acpi_write(SMI_CMD, 1),
            1 => self.acpi_write(SMI_CMD, 2),
            _ => {}
        }
    }

    /// Does something that sets the PM1a_STS bit, as far as the maps allow.
    fn raise_pm1(&mut self, bit: u32) {
        match bit {
            0x001 => {
                if self.random.one_in(2) {
                    self.load_timer();
                }
                let ticks = self.ticks();
                self.event(1, ticks);
            }
            0x020 => {
                self.acpi_write(SETUP_INDEX, 0x40);
                let value = self.random.bits(32);
                self.acpi_write(SETUP_DATA, value);
            }
            0x100 => self.raise_by_pin(0x08),
            0x200 => self.raise_by_pin(0x09),
            0x400 => self.event(3, 0),
            _ => {
                let kind = self.random.pick(&[3, 4, 7]);
                self.event(kind, 0);
            }
        }
    }

    /// Maps a pin to the target and moves it in the mapped direction.
    fn raise_by_pin(&mut self, target: u32) {
        let pin = self.random.below(8);
        let level = self.device().pin_levels[pin as usize];
        let fall = if level { 0x100 } else { 0 };
        let kept = self.random.pick(&[0, 0, 0x1000]);
        self.acpi_write(SETUP_INDEX, 0x10 + pin);
        self.acpi_write(SETUP_DATA, target | fall | kept);
        self.event(2, pin | if level { 0 } else { 8 });
    }

    fn drive_sleep(&mut self) {
        self.maybe_sci_enable();
        self.calm();
        let gpe = self.random.one_in(3);
        let bit = if gpe {
            let number = self.random.below(16);
            self.acpi_write(GPE0_ENABLE, 1 << number);
            0x10 + number
        } else {
            let bit = self.random.pick(&PM1_ENABLES);
            self.acpi_write(PM1_ENABLE, bit);
            bit
        };
        let sleep_first = !self.random.one_in(4);
        let control = SLEEP | self.random.bits(16);
        if sleep_first {
            self.acpi_write(PM1_CONTROL, control);
            self.look();
            // Bit 13 written 0 does not wake.
            if self.random.one_in(3) {
                let other = self.random.bits(16) & !SLEEP;
                self.acpi_write(PM1_CONTROL, other);
                self.line(b"S");
            }
        }
        if self.random.one_in(2) {
            let port = ACPI_PORT + self.random.pick(&[4, 5]);
            self.read(1, port);
        }
        match (self.random.below(5), gpe) {
            // Something else, which may or may not wake the chip.
            (0, _) => self.outside_event(),
            (_, true) => self.raise_by_pin(bit),
            (_, false) => self.raise_pm1(bit),
        }
        if !sleep_first {
            self.acpi_write(PM1_CONTROL, control);
        }
        if self.random.one_in(2) {
            self.read(2, ACPI_PORT + PM1_STATUS);
        }
    }

    fn drive_cpu_state(&mut self) {
        if !self.random.one_in(3) {
            self.calm();
        }
        for _ in 0..=self.random.below(2) {
            let port = ACPI_PORT + self.random.pick(&[4, 5]);
            self.read(1, port);
        }
        self.look();
        match self.random.below(4) {
            0 => self.outside_event(),
            1 => {
                let bit = self.random.pick(&PM1_ENABLES);
                self.acpi_write(PM1_ENABLE, bit);
                self.raise_pm1(bit);
            }
            2 => {
                let value = self.random.bits(8);
                self.write(1, ACPI_PORT + 4, value);
            }
            _ => {}
        }
    }

    /// Loads the present state with another timer.
    fn load_timer(&mut self) {
        let device = self.with_timer();
        self.load(&state::encode(&device));
    }

    /// Loads the present state with another timer, and mostly with the monitor and the key active
    /// at other ports, so that the runs after it find all blocks.
    pub fn load_timer_and_place(&mut self) {
        let mut device = self.with_timer();
        if !self.random.one_in(3) {
            self.place(&mut device);
            device.configuration.activate = 1;
            device.monitor.index = self.monitor_index() as u8;
        }
        self.load(&state::encode(&device));
    }

    /// The present device with another timer, mostly near a change of bit 23, and mostly with
    /// TMR_STS clear.
    fn with_timer(&mut self) -> Device {
        let mut device = self.device().clone();
        device.acpi.timer = self.random.pick(&TIMERS);
        if !self.random.one_in(4) {
            device.acpi.pm1_status &= !(TMR_STS as u16);
        }
        device
    }

    /// Loads a timer, then applies ticks. TMR_STS is often shown and cleared between two events, so
    /// that the answers tell which event set it.
    fn drive_timer(&mut self) {
        self.load_timer();
        if !self.random.one_in(3) {
            let enable = self.random.pick(&[0x001, 0x001, 0x721, 0x000]);
            self.acpi_write(PM1_ENABLE, enable);
        }
        if self.random.one_in(3) {
            self.acpi_write(PM1_CONTROL, SLEEP);
        }
        if self.random.one_in(5) {
            let value = self.random.bits(32);
            self.acpi_write(TIMER, value);
        }
        for left in (0..=self.random.below(3)).rev() {
            let ticks = self.ticks();
            self.event(1, ticks);
            if left > 0 && self.random.one_in(2) {
                self.read(2, ACPI_PORT + PM1_STATUS);
                self.acpi_write(PM1_STATUS, TMR_STS);
            }
        }
        self.read(4, ACPI_PORT + TIMER);
        if self.random.one_in(2) {
            self.read(2, ACPI_PORT + PM1_STATUS);
        }
    }

    /// Ticks that often end at, just after or just before the next change of bit 23.
    fn ticks(&mut self) -> u32 {
        let to_change = ticks_to_change(self.device().acpi.timer);
        match (self.random.below(6), to_change) {
            (0..=2, 1..=0xFFFE) => to_change - 1 + self.random.below(3),
            (3, _) => self.random.below(0x1_0000),
            _ => self
                .random
                .pick(&[0, 1, 1, 2, 255, 256, 65_534, 65_535, 65_535]),
        }
    }

    fn drive_pins(&mut self) {
        let pin = self.random.below(8);
        if !self.random.one_in(4) {
            self.acpi_write(SETUP_INDEX, 0x10 + pin);
            let map = self.map_value();
            self.acpi_write(SETUP_DATA, map);
        }
        if self.random.one_in(2) {
            self.acpi_write(PM1_STATUS, 0x0300);
            self.acpi_write(GPE0_STATUS, 0xFFFF);
        }
        for _ in 0..=self.random.below(4) {
            let level = self.random.pick(&[0, 8]);
            self.event(2, pin | level);
            if self.random.one_in(3) {
                self.look();
            }
        }
        match self.random.below(3) {
            0 => self.read(2, ACPI_PORT + GPE0_STATUS),
            1 => self.read(2, ACPI_PORT + PM1_STATUS),
            _ => {}
        }
    }

    // Events.

    fn outside_event(&mut self) {
        for _ in 0..=self.random.below(3) {
            match self.random.below(8) {
                0 | 1 => {
                    let ticks = self.ticks();
                    self.event(1, ticks);
                }
                2 | 3 => {
                    let operand = self.random.below(16);
                    self.event(2, operand);
                }
                4 => {
                    let operand = self.random.below(4);
                    self.event(5, operand);
                }
                other => {
                    let kind = [3, 4, 7][other as usize - 5];
                    self.event(kind, 0);
                }
            }
        }
    }

    fn reset(&mut self) {
        let reset = self.random.below(4);
        self.event(6, reset);
        self.line(b"S");
    }

    // Ports next to and between the blocks.

    fn edge_port(&mut self) -> u32 {
        let configuration = &self.device().configuration;
        let stored_runtime = u32::from(u16::from_be_bytes(configuration.runtime_base));
        let stored_key = u32::from(u16::from_be_bytes(configuration.key_base));
        let monitor = configuration
            .monitor_port()
            .map_or(stored_runtime + 0x70, u32::from);
        let key = configuration.key_port().map_or(stored_key, u32::from);
        let near = self.random.pick(&[0, 0, 0, 1, 1, 31, 32, 2]);
        let port = match self.random.below(12) {
            0 | 1 => 0x2C + self.random.below(6),
            2 => 0x20 + self.random.below(32),
            3 => 0xABFE + self.random.below(4),
            4 => 0xAC1C + self.random.below(6),
            5 | 6 => (monitor + self.random.below(4)).saturating_sub(1),
            7 => stored_runtime + 0x70 + self.random.below(2),
            8 | 9 => (key + near).saturating_sub(self.random.below(2)),
            10 => stored_key + self.random.below(32),
            _ => self
                .random
                .pick(&[0, 0x70, 0x71, 0xFFFF, 0xFFF0, 0xFFF1, 0x8000, 0x2E2E]),
        };
        port & 0xFFFF
    }

    fn poke_edges(&mut self) {
        for _ in 0..=self.random.below(3) {
            let port = self.edge_port();
            let width = self.random.pick(&[1, 1, 1, 1, 2, 4]);
            self.poke(width, port);
        }
    }

    // States.

    fn sparse_word(&mut self, mask: u16) -> u16 {
        match self.random.below(4) {
            0 => 0,
            1 => 1 << self.random.below(16) & mask,
            2 => (self.random.next() & self.random.next()) as u16 & mask,
            _ => self.random.next() as u16 & mask,
        }
    }

    /// Gives the device bases from the lists, and any key control.
    fn place(&mut self, device: &mut Device) {
        let configuration = &mut device.configuration;
        configuration.runtime_base = (self.runtime_base() as u16).to_be_bytes();
        configuration.key_base = (self.key_base(configuration.runtime_base) as u16).to_be_bytes();
        configuration.key_control = self.random.below(8) as u8;
    }

    /// A state in range, settled or not.
    pub fn good_state(&mut self) -> StateBytes {
        let mut device = self.device().clone();
        if !device.in_range() {
            device = Device::fresh();
        }
        let whole = self.random.one_in(3);
        if whole || self.random.one_in(2) {
            let configuration = &mut device.configuration;
            configuration.unlocked = self.random.one_in(2);
            configuration.index = self.random.bits(8) as u8;
            if !self.random.one_in(3) {
                configuration.index = self.random.pick(&CONFIGURATION_REGISTERS) as u8;
            }
            configuration.device_number = self.random.pick(&[0x0A, 0x0A, 0x0A, 0x00, 0xAA, 0x55]);
            configuration.activate = self.random.pick(&[1, 1, 1, 0]);
            self.place(&mut device);
        }
        if whole || self.random.one_in(3) {
            for byte in &mut device.key {
                *byte = self.random.byte();
            }
        }
        if whole || self.random.one_in(2) {
            device.monitor.index = self.monitor_index() as u8;
            let masks = [
                (0, 0x02),
                (3, 0xE6),
                (4, 0xFF),
                (5, 0x0F),
                (6, 0x3F),
                (7, 0x0F),
                (8, 0x03),
                (14, 0x1F),
                (15, 0x1F),
                (16, 0x33),
                (17, 0xF0),
                (18, 0x0F),
            ];
            for (place, mask) in masks {
                device.monitor.registers[place] = self.random.byte() & mask;
            }
        }
        if whole || self.random.one_in(2) {
            let acpi = &mut device.acpi;
            acpi.p_cnt = self.random.byte() & 0x17;
            acpi.cpu_state = self.random.pick(&[0, 2, 3]);
            acpi.sci_enabled = self.random.one_in(2);
            acpi.sleeping = self.random.one_in(2);
            acpi.setup_index = self.random.pick(&LEGAL_SETUP_INDICES) as u16;
            acpi.irq = self.random.below(16) as u8;
            acpi.timer = self.random.pick(&TIMERS);
            if self.random.one_in(2) {
                acpi.timer = self.random.below(1 << 24);
            }
            acpi.pm1_control = self.sparse_word(0x1C02);
            device.acpi.pm1_status = self.sparse_word(0x8F31);
            device.acpi.pm1_enable = self.sparse_word(0x0721);
            device.acpi.gpe0_status = self.sparse_word(0xFFFF);
            device.acpi.gpe0_enable = self.sparse_word(0xFFFF);
        }
        if whole || self.random.one_in(2) {
            for pin in 0..PIN_COUNT {
                device.acpi.pin_maps[pin] = self.legal_map() as u16;
                device.pin_levels[pin] = self.random.one_in(2);
            }
        }
        state::encode(&device)
    }

    pub fn load_good(&mut self) {
        let bytes = self.good_state();
        self.load(&bytes);
        if self.random.one_in(2) {
            self.look();
        }
    }

    /// A state with something pending, asleep or with a CPU state. Then a command that settles it,
    /// or one that is refused and does not.
    fn unsettled_state(&mut self) {
        let mut bytes = self.good_state();
        let bit = self.random.pick(&[0x0001, 0x0020, 0x0100, 0x0200, 0x0400]);
        let wake = self.random.pick(&[0, 0x8000]);
        put(&mut bytes, state::PM1_STATUS, 2, bit | wake);
        put(&mut bytes, state::PM1_ENABLE, 2, bit);
        if self.random.one_in(3) {
            let gpe_bit = 1 << self.random.below(16);
            put(&mut bytes, state::PM1_ENABLE, 2, 0);
            put(&mut bytes, state::GPE0_STATUS, 2, gpe_bit);
            put(&mut bytes, state::GPE0_ENABLE, 2, gpe_bit);
        }
        bytes[state::CPU_STATE] = self.random.pick(&[0, 2, 3]);
        bytes[state::SLEEPING] = self.random.pick(&[0, 1, 1]);
        self.load(&bytes);
        self.look();
        match self.random.below(10) {
            0 => self.event(1, 0),
            1 => self.read(1, 0x1234),
            2 => self.acpi_write(PM1_STATUS, bit),
            3 => self.acpi_write(PM1_ENABLE, 0),
            4 => self.damaged_access(),
            5 => self.damaged_event(),
            6 => {
                let reset = self.random.below(4);
                self.event(6, reset);
            }
            7 => self.poke_edges(),
            8 => {
                let operand = self.random.below(4);
                self.event(5, operand);
            }
            _ => self.outside_event(),
        }
        self.line(b"S");
    }

    /// A state with one field at or beyond a limit; then a few commands, and a state in range
    /// again.
    fn load_boundary(&mut self) {
        let before = self.good_state();
        let bytes = self.boundary_state(&before);
        self.load(&bytes);
        // An access to SETUP_DATA under an undefined SETUP_IDX is refused with 11, as any other is.
        let setup_index = u32::from(self.device().acpi.setup_index);
        if !LEGAL_SETUP_INDICES.contains(&setup_index) {
            self.drive_setup();
        }
        for _ in 0..=self.random.below(2) {
            match self.random.below(8) {
                0 => self.line(b"S"),
                1 | 2 => self.line(b"O"),
                3 => self.outside_event(),
                4 => self.damaged_access(),
                5 => self.damaged_event(),
                6 => self.read(4, ACPI_PORT + TIMER),
                _ => {
                    let port = self.edge_port();
                    self.read(1, port);
                }
            }
        }
        if !self.device().in_range() {
            if self.random.one_in(4) {
                self.line(b"F");
            } else {
                self.load(&before);
            }
        }
    }

    /// PM1a_STS and PM1a_EN share a bit outside the mask of PM1a_EN, or outside both masks. The
    /// outputs are computed from the present state.
    fn shared_bit_outside_masks(&mut self) {
        let before = self.good_state();
        let mut bytes = before;
        let bit = self
            .random
            .pick(&[0x8000, 0x0800, 0x0010, 0x4000, 0x0002, 0x1000]);
        put(&mut bytes, state::PM1_STATUS, 2, bit);
        put(&mut bytes, state::PM1_ENABLE, 2, bit);
        if !self.random.one_in(4) {
            put(&mut bytes, state::GPE0_ENABLE, 2, 0);
        }
        self.load(&bytes);
        self.line(b"O");
        if self.random.one_in(2) {
            self.outside_event();
        }
        self.look();
        self.load(&before);
    }

    pub fn boundary_state(&mut self, before: &StateBytes) -> StateBytes {
        let mut bytes = *before;
        for _ in 0..8 {
            bytes = *before;
            let (offset, size) = self.random.pick(&self.ranged_fields);
            let value = self.boundary_value(offset, size);
            put(&mut bytes, offset, size, value);
            let legal = state::decode(&bytes).is_some_and(|device| device.in_range());
            // Mostly beyond the limit, sometimes just inside.
            if !legal || self.random.one_in(6) {
                break;
            }
        }
        bytes
    }

    fn boundary_value(&mut self, offset: usize, size: usize) -> u32 {
        if self.random.one_in(2) {
            let aimed: &[u32] = match offset {
                state::CPU_STATE => &[0, 1, 2, 3, 4, 0xFF],
                state::SETUP_INDEX => &ILLEGAL_SETUP_INDICES,
                state::IRQ => &[15, 16, 17, 0x19, 0xFF],
                state::TIMER => &[0xFF_FFFF, 0x100_0000, 0x100_0001, 0x1FF_FFFF, 0xFFFF_FFFF],
                state::ACTIVATE => &[0, 1, 2, 3],
                state::KEY_CONTROL => &[7, 8, 0x0C, 0x10],
                state::PM1_ENABLE => &[0x8000, 0x0800, 0x0010, 0x0721, 0x0722],
                state::UNLOCKED | state::SCI_EN | state::SLEEPING => &[2, 3, 0xFF],
                state::PIN_LEVELS.. => &[1, 2, 0xFF],
                state::PIN_MAPS.. => {
                    return self.map_value() & 0xFFFF;
                }
                _ => &[],
            };
            if !aimed.is_empty() {
                return self.random.pick(aimed);
            }
        }
        self.random.bits(8 * size as u32)
    }

    // Damaged commands.

    fn damaged_access(&mut self) {
        let (offset, width) = self.random.pick(&ACPI_REGISTERS);
        let port = match self.random.below(3) {
            0 => self.edge_port(),
            1 => self.random.pick(&[INDEX_PORT, DATA_PORT]),
            _ => ACPI_PORT + offset,
        };
        let value = self.acpi_value(offset, width);
        let far = match self.random.below(4) {
            0 => port | 0x1_0000,
            1 => 0x1_0000,
            2 => port | 0x8000_0000,
            _ => port | self.random.below(0xFFFF) << 16,
        };
        match self.random.below(8) {
            0 | 1 => {
                let bad = self.bad_width();
                self.read(bad, port);
            }
            2 => {
                let bad = self.bad_width();
                self.write(bad, port, value);
            }
            3 | 4 => self.read(width, far),
            5 => self.write(width, far, value),
            // Too wide, by one or by many bits.
            6 => {
                let wide = self
                    .random
                    .pick(&[0x100, 0x101, 0x155, 0x1_0000, 0x8000_0000]);
                self.write(1, port, wide);
            }
            _ => {
                let wide = self
                    .random
                    .pick(&[0x1_0000, 0x1_0001, 0x8000_2000, 0xFFFF_FFFF]);
                self.write(2, port, wide);
            }
        }
    }

    fn bad_width(&mut self) -> u32 {
        match self.random.below(4) {
            0 => self.random.bits(32),
            _ => self
                .random
                .pick(&[0, 3, 5, 6, 7, 8, 16, 0x101, 0x1_0001, 0x1_0004, 0xFFFF_FFFF]),
        }
    }

    fn damaged_event(&mut self) {
        let number = match self.random.below(8) {
            0 => self.random.pick(&[0, 8, 9, 16, 127, 128, 129, 255]) << 24,
            1 => self
                .random
                .pick(&[0x101_0000, 0x101_0001, 0x110_0000, 0x1FF_FFFF]),
            2 => self
                .random
                .pick(&[0x200_0010, 0x200_0011, 0x200_0100, 0x280_0000]),
            3 => self.random.pick(&[3, 4, 7]) << 24 | 1 << self.random.below(24),
            4 => self
                .random
                .pick(&[0x500_0004, 0x500_0007, 0x500_0101, 0x580_0000]),
            5 => self
                .random
                .pick(&[0x600_0004, 0x600_0005, 0x600_0100, 0x680_0000]),
            6 => self.random.next() as u32,
            _ => self.random.pick(&[1, 2, 5, 6]) << 24 | self.random.below(1 << 24),
        };
        let line = self.event_line(number);
        self.line(&line);
    }

    /// A valid command, to be damaged.
    fn sound_line(&mut self) -> Vec<u8> {
        let (offset, width) = self.random.pick(&ACPI_REGISTERS);
        match self.random.below(10) {
            0 | 1 => self.read_line(width, ACPI_PORT + offset),
            2 | 3 => {
                let value = self.acpi_value(offset, width);
                self.write_line(width, ACPI_PORT + offset, value)
            }
            4 => self.write_line(1, INDEX_PORT, 0x55),
            5 => self.event_line(0x0300_0000),
            6 => self.random.pick(&[b"O", b"S", b"F", b"P"]).to_vec(),
            7 => scripts::short_command(&mut self.random),
            8 => self.sound_run_line(),
            _ => {
                let bytes = self.good_state();
                self.load_line(&bytes)
            }
        }
    }

    /// A line that is `UNREAD`, or almost.
    fn malformed(&mut self) {
        if self.random.one_in(260) {
            let line = self.long_line();
            return self.line(&line);
        }
        let line = self.sound_line();
        self.damage_line(line);
    }

    /// A line with one fault, or almost. It keeps within the length limit if the original line was
    /// short.
    pub fn damage_line(&mut self, mut line: Vec<u8>) {
        let place = self.random.below(line.len() as u32) as usize;
        let end = line.len();
        match self.random.below(22) {
            0 => {
                let space = line.iter().position(|byte| *byte == b' ').unwrap_or(end);
                line.insert(space, b' ');
            }
            1 => line.push(b' '),
            2 => line.insert(0, b' '),
            3 => {
                let word: &[u8] = self.random.pick(&[b" 0", b" 1", b" F", b" ,"]);
                line.extend_from_slice(word);
            }
            4 => {
                let cut = line.iter().rposition(|byte| *byte == b' ').unwrap_or(0);
                line.truncate(cut);
            }
            // A number or byte string with too many digits, or a byte string with an odd number.
            5 => line.push(b'0'),
            6 => {
                let space = line
                    .iter()
                    .rposition(|byte| *byte == b' ')
                    .map_or(end, |at| at + 1);
                line.splice(space..space, *b"00000000");
            }
            7 => {
                let strange = self.random.pick(b"Gg:@/`+-_xXhH.,OlI");
                line[place] = strange;
            }
            8 => line[0] = line[0].to_ascii_lowercase(),
            9 => line.clear(),
            10 => {
                let stray = self.stray_byte();
                line.insert(place, stray);
            }
            11 => line[place] = self.stray_byte(),
            12 => {
                let tail = self.random.pick(&[0x0D, 0x00, 0x09, 0x0C, 0xFF]);
                line.push(tail);
            }
            13 => {
                for byte in &mut line {
                    if *byte == b' ' {
                        *byte = b'\t';
                    }
                }
            }
            14 => line[0] = self.random.pick(b"ABCDGHIJKMNPQTUVXYZ0179?#\"*"),
            15 => {
                line.remove(place);
            }
            16 => {
                line.insert(1, self.random.pick(b"0RWELSOFPGQ"));
            }
            // Saved bytes of a wrong length, or the bytes of a device for a sequencer, and the other
            // way round.
            17 => {
                line = self.saved_line();
                let bytes = (line.len() - 2) / 2;
                match self.random.below(5) {
                    0 => line.truncate(line.len() - 2),
                    1 => line.truncate(line.len() - 1),
                    2 => line.extend_from_slice(b"00"),
                    3 => line[0] = self.random.pick(b"LG"),
                    _ => line.truncate(2 + 2 * self.random.below(bytes as u32) as usize),
                }
            }
            18 => {
                line = (0..self.random.below(24))
                    .map(|_| self.stray_byte())
                    .collect();
            }
            19 => {
                let space = line
                    .iter()
                    .position(|byte| *byte == b' ')
                    .map_or(0, |at| at + 1);
                let mark: &[u8] = self.random.pick(&[b"0x", b"+", b"-", b"$", b"#"]);
                line.splice(space..space, mark.iter().copied());
            }
            20 => {
                let strange: &[&[u8]] = &[
                    b"\xEF\xBB\xBFO",
                    b"O\xC2\xA0",
                    b"R\xC2\xA01 2E",
                    b"R \xEF\xBC\x91 2E",
                    b"E 3000000\r",
                    b"O O",
                    b"S\0",
                    b"\0",
                    b" ",
                    b"FRESH",
                    b"o",
                    b"s",
                    b"f",
                    b"r 1 2E",
                    b"w 1 2E 55",
                    b"e 3000000",
                    b"W 1 2E",
                    b"R 1 2E 55",
                    b"L",
                    b"L ",
                    b"E",
                    b"E ",
                    b"R",
                    b"W",
                    b"C",
                    b"C ",
                    b"c 0",
                    b"C 0",
                    b"C 0 ",
                    b"C 0 0",
                    b"C 0 00",
                    b"C C",
                    b"C C  ",
                    b"C 4001",
                    b"C 10000000C",
                    b"Q",
                    b"Q ",
                    b"q",
                    b"Q 0 0 0 0 0 0 0 0 0",
                    b"Q 0 0 0 0 0 0 0 0 0 0 0",
                    b"Q 0 0 0 0 0 0 0 0 0 0",
                    b"P",
                    b"P ",
                    b"P 0",
                    b"P -",
                    b"PP",
                    b"p",
                    b"G",
                    b"G ",
                    b"G 0",
                    b"G 00",
                    b"G -",
                    b"G 0 0",
                    b"g",
                    b"X",
                    b"X 0 0 - -",
                    b"X 0 0 -",
                    b"X 0 0 - - -",
                    b"T",
                    b"T 1 1 - -",
                    b"T 1 1 - ",
                    b"T 1 1  -",
                    b"T 1 1 -- -",
                    b"T 1 801 - -",
                    b"T 1 800 - -",
                    b"T 1 1 0000 -",
                    b"t 1 1 - -",
                    b"N",
                    b"N 1 1 - -",
                    b"N 1 1 -",
                    b"N 1 1 - - -",
                    b"N 1 801 - -",
                    b"N 1 800 - -",
                    b"N 1 1 0000 -",
                    b"n 1 1 - -",
                ];
                line = self.random.pick(strange).to_vec();
            }
            _ => {}
        }
        line.retain(|byte| *byte != b'\n');
        self.line(&line);
    }

    /// A short script that does not use the device.
    fn compile_script(&mut self) {
        let line = scripts::short_command(&mut self.random);
        self.line(&line);
    }

    fn stray_byte(&mut self) -> u8 {
        let byte = match self.random.below(4) {
            0 => self
                .random
                .pick(&[0x00, 0x0D, 0x09, 0x0B, 0x0C, 0x1A, 0x1B, 0x7F]),
            1 => self.random.byte() | 0x80,
            2 => self.random.pick(b"RWEOSLFCQPGXTN- 0123456789ABCDEFabcdef"),
            _ => self.random.byte(),
        };
        if byte == b'\n' {
            b'\r'
        } else {
            byte
        }
    }

    /// A line of about the greatest length. The part after the limit is a command by itself, so
    /// that a reader that wrongly splits long lines gives another answer.
    fn long_line(&mut self) -> Vec<u8> {
        let filler = self.random.pick(b"0 AFx\0\xFF");
        let head: &[u8] = self
            .random
            .pick(&[b"L ", b"G ", b"E ", b"O ", b"S", b"R 1 ", b""]);
        let length = match self.random.below(6) {
            0 => LINE_LIMIT - 1,
            1 => LINE_LIMIT,
            2 => 3 * LINE_LIMIT + 2,
            _ => LINE_LIMIT + 1,
        };
        let mut line = head.to_vec();
        line.resize(length, filler);
        if length > LINE_LIMIT {
            line[LINE_LIMIT..].fill(self.random.pick(b"OSF"));
        }
        line
    }
}

/// Fields of the state that can be out of range: offset and number of bytes.
fn ranged_fields() -> Vec<(usize, usize)> {
    // Fields with many limits are listed several times.
    let mut fields = vec![
        (state::UNLOCKED, 1),
        (state::ACTIVATE, 1),
        (state::ACTIVATE, 1),
        (state::KEY_CONTROL, 1),
        (state::KEY_CONTROL, 1),
        (state::P_CNT, 1),
        (state::P_CNT, 1),
        (state::CPU_STATE, 1),
        (state::CPU_STATE, 1),
        (state::CPU_STATE, 1),
        (state::SCI_EN, 1),
        (state::SLEEPING, 1),
        (state::IRQ, 1),
        (state::IRQ, 1),
        (state::TIMER, 4),
        (state::TIMER, 4),
    ];
    for _ in 0..5 {
        fields.push((state::PM1_STATUS, 2));
        fields.push((state::PM1_ENABLE, 2));
        fields.push((state::PM1_CONTROL, 2));
        fields.push((state::SETUP_INDEX, 2));
    }
    for register in 0..MONITOR_REGISTERS.len() {
        fields.push((state::MONITOR_REGISTERS + register, 1));
    }
    for pin in 0..PIN_COUNT {
        fields.push((state::PIN_MAPS + 2 * pin, 2));
        fields.push((state::PIN_LEVELS + pin, 1));
    }
    fields
}

/// Stores a number in this many bytes, low byte first.
fn put(bytes: &mut StateBytes, offset: usize, size: usize, value: u32) {
    let value = value.to_le_bytes();
    bytes[offset..offset + size].copy_from_slice(&value[..size]);
}

//! Random scripts that have an effect on the present device, and event lists for them.

use crate::compiler::{
    Record, BLOCK_LIMIT, DELAY, ELSE, END, IF, READ, REPEAT, REPEAT_LIMIT, WRITE,
};
use crate::device::Device;
use crate::generate::ticks_to_change;
use crate::random::Random;

const INDEX_PORT: u16 = 0x2E;
const DATA_PORT: u16 = 0x2F;
const ACPI_PORT: u16 = 0xAC00;

/// Where a script places the monitor and the key, unless the device has active ones already: the
/// port of the monitor index and the port of key byte 0. In some the ports of the monitor or of the
/// configuration are also in the range of the key, which does not own them.
const PLACEMENTS: [(u16, u16); 8] = [
    (0x0A70, 0x0100),
    (0x0A70, 0x0100),
    (0x0A70, 0x0100),
    (0x0A70, 0x0100),
    (0x0A70, 0x0A60),
    (0x00F0, 0x00E0),
    (0x0A70, 0x0020),
    (0x0A70, 0x0020),
];

/// ACPI offsets, each with the width that it takes.
const ACPI_REGISTERS: [(u16, u8); 12] = [
    (0, 4),
    (4, 1),
    (5, 1),
    (6, 1),
    (8, 2),
    (10, 2),
    (12, 2),
    (14, 2),
    (16, 2),
    (18, 2),
    (20, 4),
    (24, 4),
];

/// Registers of the configuration, and an index that names none.
const CONFIGURATION_INDICES: [u32; 10] =
    [0x07, 0x07, 0x30, 0x60, 0x61, 0x62, 0x63, 0xF2, 0xF2, 0x31];

/// Registers of the monitor, and indices that name none.
const MONITOR_INDICES: [u32; 16] = [
    0x40, 0x6E, 0x7C, 0x7C, 0x7E, 0x7E, 0x80, 0x81, 0x83, 0x83, 0x84, 0x90, 0xB5, 0x41, 0x41, 0x89,
];

const SETUP_INDICES: [u32; 12] = [
    0x00, 0x10, 0x11, 0x12, 0x13, 0x14, 0x15, 0x16, 0x17, 0x40, 0x41, 0x42,
];
const MAPS: [u32; 12] = [
    0x0000, 0x0008, 0x0108, 0x0009, 0x0109, 0x0010, 0x0113, 0x101E, 0x111F, 0x0017, 0x0007, 0x0210,
];
const STATUS_BITS: [u32; 9] = [
    0x0001, 0x0020, 0x0100, 0x0200, 0x0400, 0x0800, 0x8000, 0x8F31, 0xFFFF,
];
const ENABLES: [u32; 7] = [0, 0x001, 0x020, 0x100, 0x200, 0x400, 0x721];
const TIMER_BITS: [u32; 9] = [1, 1, 2, 3, 4, 0x100, 0xFF_FFFF, 0x8000, 0x80_0000];

/// Turns of a repeat. They are few, so that nested repeats end soon.
const TURNS: [u32; 10] = [0, 1, 1, 2, 2, 2, 3, 3, 4, 5];
const TURNS_OF_A_LADDER: [u32; 8] = [0, 1, 1, 1, 1, 2, 2, 3];

pub struct Programs<'a> {
    pub random: &'a mut Random,
    monitor_port: u16,
    key_port: u16,
    /// The timer after the ticks chosen so far, if nothing else changes it.
    timer: u32,
}

impl<'a> Programs<'a> {
    pub fn new(random: &'a mut Random, device: &Device) -> Self {
        let configuration = &device.configuration;
        let (monitor_port, key_port) = random.pick(&PLACEMENTS);
        Programs {
            random,
            monitor_port: configuration.monitor_port().unwrap_or(monitor_port),
            key_port: configuration.key_port().unwrap_or(key_port),
            timer: device.acpi.timer,
        }
    }

    /// A script of about this many statements, with all blocks closed.
    pub fn script(&mut self, statements: u32) -> Vec<Record> {
        let mut script = Vec::new();
        self.body(&mut script, statements, 0, 0);
        script
    }

    /// Nested blocks, up to the greatest depth.
    pub fn deep_script(&mut self) -> Vec<Record> {
        let repeats = match self.random.below(3) {
            0 => REPEAT_LIMIT,
            _ => self.random.below(REPEAT_LIMIT as u32 + 1) as usize,
        };
        let most_ifs = BLOCK_LIMIT - repeats;
        let ifs = match self.random.below(2) {
            0 => most_ifs,
            _ => self.random.below(most_ifs as u32 + 1) as usize,
        };
        let mut rungs = vec![REPEAT; repeats];
        for _ in 0..ifs {
            let place = self.random.below(rungs.len() as u32 + 1) as usize;
            rungs.insert(place, IF);
        }
        let mut script = Vec::new();
        self.ladder(&mut script, &rungs);
        script
    }

    /// A script without blocks that compiles to about this many words.
    pub fn long_script(&mut self, words: usize) -> Vec<Record> {
        let mut script = Vec::new();
        while script.len() + 30 < words {
            self.statement(&mut script);
        }
        while script.len() + 1 < words {
            script.push(self.access());
        }
        script
    }

    fn body(&mut self, script: &mut Vec<Record>, statements: u32, blocks: usize, repeats: usize) {
        for _ in 0..statements {
            if blocks < BLOCK_LIMIT && self.random.one_in(3) {
                self.block(script, blocks, repeats);
            } else {
                self.statement(script);
            }
        }
    }

    fn block(&mut self, script: &mut Vec<Record>, blocks: usize, repeats: usize) {
        let inside = self.random.below(4);
        if repeats < REPEAT_LIMIT && self.random.one_in(2) {
            let turns = match self.random.below(16) {
                0 if repeats == 0 => self.random.below(40),
                _ => self.random.pick(&TURNS),
            };
            script.push(repeat(turns));
            self.body(script, inside, blocks + 1, repeats + 1);
        } else {
            script.push(self.test());
            self.body(script, inside, blocks + 1, repeats);
            if self.random.one_in(2) {
                script.push(Record::of_script(ELSE));
                let other = self.random.below(3);
                self.body(script, other, blocks + 1, repeats);
            }
        }
        script.push(Record::of_script(END));
    }

    fn ladder(&mut self, script: &mut Vec<Record>, rungs: &[u8]) {
        if self.random.one_in(3) {
            script.push(self.access());
        }
        let Some((kind, inner)) = rungs.split_first() else {
            self.statement(script);
            return;
        };
        if *kind == REPEAT {
            let turns = self.random.pick(&TURNS_OF_A_LADDER);
            script.push(repeat(turns));
            self.ladder(script, inner);
        } else {
            script.push(self.test());
            match self.random.below(3) {
                0 => self.ladder(script, inner),
                1 => {
                    self.ladder(script, inner);
                    script.push(Record::of_script(ELSE));
                    script.push(self.access());
                }
                _ => {
                    script.push(self.access());
                    script.push(Record::of_script(ELSE));
                    self.ladder(script, inner);
                }
            }
        }
        script.push(Record::of_script(END));
    }

    /// One record, or a few that belong together.
    pub fn statement(&mut self, script: &mut Vec<Record>) {
        match self.random.below(17) {
            0 => script.push(write(1, INDEX_PORT, 0x55)),
            1 => {
                let index = self.random.pick(&CONFIGURATION_INDICES);
                script.push(write(1, INDEX_PORT, index));
                script.push(self.configuration_data(index));
            }
            2 if self.random.one_in(2) => self.place_blocks(script),
            2 | 3 => {
                let index = self.random.pick(&MONITOR_INDICES);
                script.push(write(1, self.monitor_port, index));
                script.push(self.monitor_data());
            }
            4 => script.push(self.key_access()),
            5..=7 => script.push(self.acpi_access()),
            8 => {
                let index = self.random.pick(&SETUP_INDICES);
                script.push(write(2, ACPI_PORT + 14, index));
                let data = self.setup_data();
                script.push(write(4, ACPI_PORT + 20, data));
            }
            9 => {
                let enable = self.random.pick(&ENABLES);
                script.push(write(2, ACPI_PORT + 10, enable));
                let sleep = self.random.pick(&[0x2000, 0x2000, 0x3C02, 0x0000]);
                script.push(write(2, ACPI_PORT + 12, sleep));
            }
            10 | 11 => script.push(self.status_read()),
            12 | 13 => self.delay(script),
            14 => script.push(self.wild_access()),
            15 => self.read_again(script),
            _ => script.push(read(1, INDEX_PORT)),
        }
    }

    /// Reads one port of the monitor or the key several times. An event between two of the reads
    /// can change the owner.
    fn read_again(&mut self, script: &mut Vec<Record>) {
        let port = match self.random.below(2) {
            0 => self.monitor_port + self.random.below(2) as u16,
            _ => self.key_port + self.random.below(32) as u16,
        };
        for _ in 0..2 + self.random.below(4) {
            script.push(read(1, port));
        }
    }

    /// A delay. Sometimes TMR_STS is cleared or TMR_EN is written before it, or TMR_STS is read
    /// after it.
    fn delay(&mut self, script: &mut Vec<Record>) {
        match self.random.below(4) {
            0 => script.push(write(2, ACPI_PORT + 8, 0x0001)),
            1 => {
                let enable = self.random.pick(&[0, 1, 1]);
                script.push(write(2, ACPI_PORT + 10, enable));
            }
            _ => {}
        }
        let ticks = self.ticks();
        script.push(Record {
            value: ticks,
            ..Record::of_script(DELAY)
        });
        if self.random.one_in(3) {
            script.push(read(2, ACPI_PORT + 8));
        }
    }

    /// One access of any block.
    pub fn access(&mut self) -> Record {
        match self.random.below(12) {
            0 => write(1, INDEX_PORT, 0x55),
            1 => read(1, INDEX_PORT),
            2 => {
                let index = self.random.pick(&CONFIGURATION_INDICES);
                write(1, INDEX_PORT, index)
            }
            3 => self.configuration_data(0x07),
            4 => {
                let index = self.random.pick(&MONITOR_INDICES);
                write(1, self.monitor_port, index)
            }
            5 => self.monitor_data(),
            6 => self.key_access(),
            7 | 8 => self.acpi_access(),
            9 | 10 => self.status_read(),
            _ => self.wild_access(),
        }
    }

    fn configuration_data(&mut self, index: u32) -> Record {
        if self.random.one_in(3) {
            return read(1, DATA_PORT);
        }
        let value = match index {
            0x07 => self.random.pick(&[0x0A, 0x0A, 0x0A, 0x0B]),
            0x30 => self.random.pick(&[1, 1, 1, 0]),
            _ => self.random.bits(8),
        };
        write(1, DATA_PORT, value)
    }

    /// Unlocks the configuration and gives the monitor and the key the bases that the scripts use.
    fn place_blocks(&mut self, script: &mut Vec<Record>) {
        let [runtime_high, runtime_low] = self.monitor_port.to_be_bytes();
        let [key_high, key_low] = self.key_port.to_be_bytes();
        let registers = [
            (0x07, 0x0A),
            (0x60, runtime_high),
            (0x61, runtime_low),
            (0x62, key_high),
            (0x63, key_low),
            (0xF2, self.random.pick(&[0, 0, 0, 2, 4, 7])),
            (0x30, 1),
        ];
        script.push(write(1, INDEX_PORT, 0x55));
        for (index, value) in registers {
            script.push(write(1, INDEX_PORT, index));
            script.push(write(1, DATA_PORT, u32::from(value)));
        }
    }

    /// Mostly the width that the monitor and the key take. With another one the block still owns
    /// the port.
    fn byte_width(&mut self) -> u8 {
        self.random.pick(&[1, 1, 1, 1, 1, 1, 1, 1, 2, 4])
    }

    fn monitor_data(&mut self) -> Record {
        let width = self.byte_width();
        let port = self.monitor_port + 1;
        match self.random.below(3) {
            0 => read(width, port),
            1 => {
                let value = self.random.pick(&[0x04, 0x13, 0x01, 0x02, 0x03, 0xFF]);
                write(width, port, value)
            }
            _ => write(width, port, self.random.bits(8)),
        }
    }

    fn key_access(&mut self) -> Record {
        let width = self.byte_width();
        let offset = self.random.pick(&[0, 0, 1, 14, 15, 16, 31, 32]);
        let port = self.key_port.wrapping_add(offset);
        match self.random.below(2) {
            0 => read(width, port),
            _ => write(width, port, self.random.bits(8)),
        }
    }

    fn acpi_access(&mut self) -> Record {
        let (offset, width) = self.random.pick(&ACPI_REGISTERS);
        let port = ACPI_PORT + offset;
        if self.random.one_in(3) {
            return read(width, port);
        }
        let value = match offset {
            6 => self.random.pick(&[1, 1, 2, 2, 3]),
            8 => self.random.pick(&STATUS_BITS),
            10 => self.random.pick(&ENABLES),
            14 => self.random.pick(&SETUP_INDICES),
            20 => self.setup_data(),
            _ => self.random.bits(8 * u32::from(width)),
        };
        write(width, port, value)
    }

    fn setup_data(&mut self) -> u32 {
        match self.random.below(4) {
            0 => self.random.below(18),
            _ => self.random.pick(&MAPS),
        }
    }

    fn status_read(&mut self) -> Record {
        let (offset, width) = self
            .random
            .pick(&[(8, 2), (12, 2), (16, 2), (24, 4), (24, 4)]);
        read(width, ACPI_PORT + offset)
    }

    /// Any port, often one of a block.
    fn wild_port(&mut self) -> u16 {
        match self.random.below(6) {
            0 => self.random.next() as u16,
            1 => ACPI_PORT + self.random.below(32) as u16,
            2 => self.random.pick(&[INDEX_PORT, DATA_PORT]),
            3 => self.monitor_port + self.random.below(2) as u16,
            4 => self.key_port + self.random.below(32) as u16,
            _ => self.random.pick(&[0, 0x2D, 0x30, 0xABFF, 0xAC20, 0xFFFF]),
        }
    }

    /// Any width at any port. Most are wrong for the block that owns the port.
    fn wild_access(&mut self) -> Record {
        let width = self.random.pick(&[1, 2, 4]);
        let port = self.wild_port();
        match self.random.below(2) {
            0 => read(width, port),
            _ => write(width, port, self.random.bits(8 * u32::from(width))),
        }
    }

    /// An if. With most of its masks both results are possible.
    pub fn test(&mut self) -> Record {
        let (width, port, mask) = match self.random.below(12) {
            0..=2 => (2, ACPI_PORT + 8, self.random.pick(&STATUS_BITS)),
            3 => (2, ACPI_PORT + 16, self.random.bits(16)),
            4 | 5 => (4, ACPI_PORT + 24, self.random.pick(&TIMER_BITS)),
            6 => (2, ACPI_PORT + 12, self.random.pick(&[1, 2, 0x1C00])),
            7 => (1, INDEX_PORT, self.random.pick(&[0x05, 0x08, 0xFF])),
            8 => (1, DATA_PORT, self.random.pick(&[0x04, 0x80, 0xFF])),
            9 => (1, self.monitor_port + 1, self.random.bits(8)),
            10 => (1, self.key_port, self.random.bits(8)),
            _ => {
                let width = self.random.pick(&[1, 2, 4]);
                let port = self.wild_port();
                (width, port, self.random.bits(8 * u32::from(width)))
            }
        };
        let mask = match self.random.below(16) {
            0 => 0,
            _ => mask,
        };
        Record {
            width,
            port,
            value: mask,
            ..Record::of_script(IF)
        }
    }

    /// Ticks: often a few, or up to, just after or just before the next change of bit 23 of the
    /// timer.
    pub fn ticks(&mut self) -> u32 {
        let to_change = ticks_to_change(self.timer);
        let ticks = match (self.random.below(4), to_change) {
            (0, 1..=0xFFFE) => to_change - 1 + self.random.below(3),
            (1, _) => self.random.below(0x1_0000),
            _ => self.random.pick(&[0, 1, 1, 1, 2, 3, 256, 65_535]),
        };
        self.timer = self.timer.wrapping_add(ticks);
        ticks
    }

    // Events.

    /// This many valid events.
    pub fn events(&mut self, count: usize) -> Vec<u32> {
        (0..count).map(|_| self.event()).collect()
    }

    fn event(&mut self) -> u32 {
        let (kind, operand) = match self.random.below(16) {
            0..=5 => (1, self.ticks()),
            6..=9 => (2, self.random.below(16)),
            10 => (3, 0),
            11 => (4, 0),
            12 | 13 => (5, self.random.below(4)),
            14 => (7, 0),
            _ if self.random.one_in(2) => (6, self.random.below(4)),
            _ => (1, 1),
        };
        kind << 24 | operand
    }

    pub fn bad_event(&mut self) -> u32 {
        match self.random.below(4) {
            0 => self.random.pick(&[0, 8, 9, 128, 255]) << 24,
            1 => self.random.pick(&[3, 4, 7]) << 24 | 1 << self.random.below(24),
            2 => self.random.pick(&[1, 2, 5, 6]) << 24 | 1 << (16 + self.random.below(8)),
            _ => self
                .random
                .pick(&[0x101_0000, 0x200_0010, 0x500_0004, 0x600_0004, u32::MAX]),
        }
    }
}

fn write(width: u8, port: u16, value: u32) -> Record {
    Record {
        width,
        port,
        value,
        ..Record::of_script(WRITE)
    }
}

pub fn read(width: u8, port: u16) -> Record {
    Record {
        width,
        port,
        ..Record::of_script(READ)
    }
}

pub fn repeat(turns: u32) -> Record {
    Record {
        value: turns,
        ..Record::of_script(REPEAT)
    }
}

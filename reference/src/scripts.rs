//! Random scripts for the compile command: valid ones, ones at the limits, and damaged ones.

use std::io::{self, Write};

use crate::compiler::{
    self, Record, BLOCK_LIMIT, DELAY, ELSE, END, IF, READ, RECORD_BYTES, RECORD_LIMIT, REPEAT,
    REPEAT_LIMIT, SCRIPT_MARK, WORD_MARK, WRITE,
};
use crate::random::Random;
use crate::stream::COMPILE_LIMIT;

const PORTS: [u16; 12] = [
    0x2E, 0x2F, 0xAC00, 0xAC08, 0xAC14, 0xAC18, 0xAC1F, 0x0A70, 0x0020, 0x0000, 0xFFFF, 0x00FF,
];
const COUNTS: [u32; 10] = [0, 0, 1, 1, 2, 3, 255, 256, 65_534, 65_535];

/// Writes exactly this many compile commands.
pub fn write_scripts(seed: u64, count: u64, output: &mut impl Write) -> io::Result<()> {
    let mut random = Random::new(seed);
    for _ in 0..count {
        output.write_all(&any_command(&mut random))?;
        output.write_all(b"\n")?;
    }
    Ok(())
}

/// A compile command with a script of any size.
pub fn any_command(random: &mut Random) -> Vec<u8> {
    if random.one_in(100) {
        return unread_command(random);
    }
    let script = any_script(random);
    Maker { random }.command(&script)
}

/// A script of any size: valid, at the limits, or damaged.
pub fn any_script(random: &mut Random) -> Vec<u8> {
    let mut maker = Maker { random };
    match maker.random.below(100) {
        0..=7 => maker.sound(3),
        8..=39 => maker.sound(40),
        40..=45 => maker.sound(250),
        46..=55 => maker.deep_enough(),
        56..=59 => maker.just_fitting(),
        60..=73 => maker.damaged_fields(40),
        74..=85 => maker.damaged_structure(40),
        86..=90 => maker.damaged_length(),
        91..=95 => maker.too_deep(),
        _ => maker.too_many_words(),
    }
}

/// A compile command with a short script.
pub fn short_command(random: &mut Random) -> Vec<u8> {
    let mut maker = Maker { random };
    let script = match maker.random.below(10) {
        0..=6 => maker.sound(10),
        7 | 8 => maker.damaged_fields(8),
        _ => maker.damaged_structure(8),
    };
    maker.command(&script)
}

/// A compile command that is malformed, or almost.
fn unread_command(random: &mut Random) -> Vec<u8> {
    let mut maker = Maker { random };
    let script = maker.sound(6);
    let digits = maker.random.digits(&script);
    let limit = COMPILE_LIMIT as u32;
    let line = match maker.random.below(10) {
        0 => format!("C {:X} {digits}", limit + 1 + maker.random.below(12)),
        1 => format!("C 1{limit:08X} {digits}"),
        2 => format!("C {:X} {digits}", maker.random.bits(32)),
        3 => format!("C 30 {digits}0"),
        4 => format!("C 30 {digits} "),
        5 => format!("C 30 {digits}5G"),
        6 => format!("C 30 {digits} 00"),
        7 => format!("C  {digits}"),
        _ => {
            // Scripts of about the greatest length that a command may have.
            let length = COMPILE_LIMIT + maker.random.pick(&[0, 1, 8, 12]);
            let mut long = Vec::new();
            while long.len() < length {
                long.extend_from_slice(&maker.plain().encode());
            }
            long.truncate(length);
            format!("C 10 {}", maker.random.digits(&long))
        }
    };
    line.into_bytes()
}

/// How the next block is nested in the block before it.
#[derive(Clone, Copy)]
enum Rung {
    Repeat,
    /// An if without else.
    If,
    /// An if with an else after the inner blocks.
    Then,
    /// An if with an else before the inner blocks.
    Else,
}

const IF_RUNGS: [Rung; 3] = [Rung::If, Rung::Then, Rung::Else];

struct Maker<'a> {
    random: &'a mut Random,
}

impl Maker<'_> {
    // Records.

    fn port(&mut self) -> u16 {
        match self.random.below(3) {
            0 => self.random.next() as u16,
            _ => self.random.pick(&PORTS),
        }
    }

    fn count(&mut self) -> u32 {
        match self.random.below(3) {
            0 => self.random.bits(16),
            _ => self.random.pick(&COUNTS),
        }
    }

    /// A valid record of this kind.
    fn record(&mut self, kind: u8) -> Record {
        let mut record = Record::of_script(kind);
        if matches!(kind, WRITE | READ | IF) {
            record.width = self.random.pick(&[1, 2, 4]);
            record.port = self.port();
        }
        match kind {
            WRITE | IF => record.value = self.random.bits(8 * u32::from(record.width)),
            DELAY | REPEAT => record.value = self.count(),
            _ => {}
        }
        record
    }

    /// A valid write, read or delay.
    fn plain(&mut self) -> Record {
        let kind = self.random.pick(&[WRITE, WRITE, READ, DELAY]);
        self.record(kind)
    }

    // Valid scripts.

    /// Adds exactly this many records, with all blocks closed, inside this many open blocks and
    /// repeats.
    fn body(
        &mut self,
        script: &mut Vec<Record>,
        size: usize,
        blocks: usize,
        repeats: usize,
        with_ifs: bool,
    ) {
        let mut left = size;
        while left > 0 {
            let repeat_fits = repeats < REPEAT_LIMIT;
            let block_fits = left >= 2 && blocks < BLOCK_LIMIT && (with_ifs || repeat_fits);
            if !block_fits || !self.random.one_in(3) {
                script.push(self.plain());
                left -= 1;
                continue;
            }
            let inside = self.share(left - 2);
            left -= inside + 2;
            if repeat_fits && (!with_ifs || self.random.one_in(2)) {
                script.push(self.record(REPEAT));
                self.body(script, inside, blocks + 1, repeats + 1, with_ifs);
            } else {
                script.push(self.record(IF));
                if inside > 0 && self.random.one_in(2) {
                    let then = self.random.below(inside as u32) as usize;
                    self.body(script, then, blocks + 1, repeats, with_ifs);
                    script.push(self.record(ELSE));
                    self.body(script, inside - 1 - then, blocks + 1, repeats, with_ifs);
                } else {
                    self.body(script, inside, blocks + 1, repeats, with_ifs);
                }
            }
            script.push(self.record(END));
        }
    }

    /// How many of the remaining records go into the block that is opened.
    fn share(&mut self, most: usize) -> usize {
        match self.random.below(3) {
            0 => most,
            1 => self.random.below(most as u32 + 1) as usize,
            _ => self.random.below(most.min(4) as u32 + 1) as usize,
        }
    }

    fn whole(&mut self, size: usize, with_ifs: bool) -> Vec<Record> {
        let mut script = Vec::new();
        self.body(&mut script, size, 0, 0, with_ifs);
        script
    }

    fn sound_records(&mut self, most: u32) -> Vec<Record> {
        let size = self.random.below(most + 1) as usize;
        self.whole(size, true)
    }

    fn sound(&mut self, most: u32) -> Vec<u8> {
        encode(&self.sound_records(most))
    }

    /// No records, or a few writes, reads and delays.
    fn filler(&mut self, script: &mut Vec<Record>, filled: bool) {
        if filled {
            for _ in 0..self.random.below(3) {
                script.push(self.plain());
            }
        }
    }

    /// Nested blocks.
    fn ladder(&mut self, rungs: &[Rung]) -> Vec<Record> {
        let filled = self.random.one_in(2);
        let mut script = Vec::new();
        for rung in rungs {
            self.filler(&mut script, filled);
            let kind = match rung {
                Rung::Repeat => REPEAT,
                _ => IF,
            };
            script.push(self.record(kind));
            if let Rung::Else = rung {
                self.filler(&mut script, filled);
                script.push(self.record(ELSE));
            }
        }
        for rung in rungs.iter().rev() {
            self.filler(&mut script, filled);
            if let Rung::Then = rung {
                script.push(self.record(ELSE));
                self.filler(&mut script, filled);
            }
            script.push(self.record(END));
        }
        script
    }

    /// This many repeats and ifs in any order.
    fn rungs(&mut self, repeats: usize, ifs: usize) -> Vec<Rung> {
        let mut rungs = vec![Rung::Repeat; repeats];
        for _ in 0..ifs {
            let place = self.random.below(rungs.len() as u32 + 1) as usize;
            rungs.insert(place, self.random.pick(&IF_RUNGS));
        }
        rungs
    }

    /// Blocks nested to the greatest depth, or almost. Sometimes two such nests in sequence.
    fn deep_enough(&mut self) -> Vec<u8> {
        let mut script = Vec::new();
        for _ in 0..self.random.pick(&[1, 1, 2]) {
            let rungs = match self.random.below(6) {
                0 => vec![Rung::Repeat; REPEAT_LIMIT],
                1 => self.rungs(0, BLOCK_LIMIT),
                2 => vec![self.random.pick(&IF_RUNGS); BLOCK_LIMIT],
                3 => self.rungs(REPEAT_LIMIT - 1, BLOCK_LIMIT - REPEAT_LIMIT + 1),
                4 => {
                    let ifs = self.random.below(9) as usize;
                    self.rungs(REPEAT_LIMIT, ifs)
                }
                _ => self.rungs(REPEAT_LIMIT, BLOCK_LIMIT - REPEAT_LIMIT),
            };
            script.extend(self.ladder(&rungs));
        }
        encode(&script)
    }

    /// As many records or words as are allowed, or almost.
    fn just_fitting(&mut self) -> Vec<u8> {
        let script = match self.random.below(7) {
            0 => vec![self.record(WRITE); RECORD_LIMIT - 1],
            1 => self.whole(RECORD_LIMIT - 1, false),
            2 => self.whole(RECORD_LIMIT - 1, true),
            // Almost certainly with the end of an if.
            3 => self.whole(RECORD_LIMIT, true),
            4 => {
                let fewer = self.random.below(24) as usize;
                self.whole(RECORD_LIMIT - fewer, true)
            }
            // Only ifs.
            5 => {
                let pair = [self.record(IF), self.record(END)];
                pair.repeat(RECORD_LIMIT / 2)
            }
            // One end of an if: one word less than records, and the halt.
            _ => {
                let before = self.random.below(RECORD_LIMIT as u32 - 2) as usize;
                let inside = self.random.below((RECORD_LIMIT - 2 - before) as u32) as usize;
                let behind = RECORD_LIMIT - 3 - before - inside;
                let mut script = self.whole(before, false);
                script.push(self.record(IF));
                self.body(&mut script, inside, 1, 0, false);
                let last = self.random.pick(&[ELSE, READ]);
                script.push(self.record(last));
                script.push(self.record(END));
                self.body(&mut script, behind, 0, 0, false);
                script
            }
        };
        encode(&script)
    }

    // Scripts that are mostly refused.

    fn too_many_words(&mut self) -> Vec<u8> {
        let mut script = match self.random.below(3) {
            0 => vec![self.record(WRITE); RECORD_LIMIT],
            1 => (0..RECORD_LIMIT).map(|_| self.plain()).collect(),
            _ => self.whole(RECORD_LIMIT, false),
        };
        if self.random.one_in(8) {
            let kind = self.random.pick(&[REPEAT, IF, ELSE, END, WRITE, 0]);
            let place = match self.random.below(3) {
                0 => self.place(&script),
                _ => RECORD_LIMIT - 1,
            };
            script[place] = self.record(kind);
        }
        encode(&script)
    }

    fn too_deep(&mut self) -> Vec<u8> {
        let mut rungs = match self.random.below(6) {
            0 => vec![Rung::Repeat; REPEAT_LIMIT + 1],
            1 => self.rungs(0, BLOCK_LIMIT + 1),
            2 => vec![self.random.pick(&IF_RUNGS); BLOCK_LIMIT + 1],
            3 => {
                let ifs = self.random.below(9) as usize;
                self.rungs(REPEAT_LIMIT + 1, ifs)
            }
            4 => self.rungs(REPEAT_LIMIT, BLOCK_LIMIT - REPEAT_LIMIT),
            _ => {
                let repeats = self.random.below(9) as usize;
                self.rungs(repeats, BLOCK_LIMIT + 1 - repeats)
            }
        };
        if self.random.one_in(4) {
            rungs.push(Rung::Repeat);
            rungs.push(Rung::If);
        }
        let most_before = self.random.pick(&[0, 0, 6]);
        let mut script = self.sound_records(most_before);
        script.extend(self.ladder(&rungs));
        match self.random.below(6) {
            // A fault with a lower number, sometimes in the same record.
            0 => {
                let place = self.place(&script);
                self.damage_field(&mut script[place]);
            }
            1 => {
                for record in &mut script {
                    if record.kind == REPEAT || record.kind == IF {
                        record.target = u16::from(self.random.one_in(12));
                    }
                }
            }
            _ => {}
        }
        encode(&script)
    }

    fn damaged_fields(&mut self, most: u32) -> Vec<u8> {
        let mut script = self.sound_records(most - 1);
        script.push(self.plain());
        for _ in 0..self.random.pick(&[1, 1, 1, 2, 3]) {
            let place = self.place(&script);
            self.damage_field(&mut script[place]);
            // Several faults in one record.
            if self.random.one_in(4) {
                self.damage_field(&mut script[place]);
            }
        }
        if self.random.one_in(8) {
            self.damage_structure(&mut script);
        }
        encode(&script)
    }

    fn damage_field(&mut self, record: &mut Record) {
        let kind = record.kind;
        match self.random.below(9) {
            0 | 1 => {
                let [first, second] = SCRIPT_MARK;
                record.mark = match self.random.below(6) {
                    0 => WORD_MARK,
                    1 => [second, first],
                    2 => [first, 0],
                    3 => [0, second],
                    4 => [first ^ 1 << self.random.below(8), second],
                    _ => [first, second ^ 1 << self.random.below(8)],
                };
            }
            2 | 3 => record.kind = self.random.pick(&[0, 0, 8, 8, 9, 255, 255, kind | 0x80]),
            4 => {
                record.width = match kind {
                    WRITE | READ | IF => self.random.pick(&[0, 0, 3, 3, 5, 5, 6, 7, 8, 0x81, 255]),
                    _ => self.random.pick(&[1, 2, 4, 0x80, 255]),
                }
            }
            5 | 6 => {
                let above = match (kind, record.width) {
                    (WRITE | IF, 1) => 8,
                    (WRITE | IF, 2) | (DELAY | REPEAT, _) => 16,
                    // Every value fits four bytes, so make the width smaller.
                    (WRITE | IF, _) => {
                        record.width = 2;
                        16
                    }
                    _ => 0,
                };
                let bit = match self.random.below(2) {
                    0 => above,
                    _ => above + self.random.below(32 - above),
                };
                record.value |= 1 << bit;
            }
            7 => record.target = 1 << self.random.below(16),
            _ if matches!(kind, WRITE | READ | IF) => {
                // Every port is valid, so change any bit of the record; some bits do not matter
                // either.
                let mut bytes = record.encode();
                bytes[self.random.below(RECORD_BYTES as u32) as usize] ^= 1 << self.random.below(8);
                *record = Record::decode(&bytes);
            }
            _ => record.port = 1 << self.random.below(16),
        }
    }

    fn damaged_structure(&mut self, most: u32) -> Vec<u8> {
        let mut script = self.sound_records(most);
        for _ in 0..self.random.pick(&[1, 1, 1, 2, 3]) {
            self.damage_structure(&mut script);
        }
        encode(&script)
    }

    fn damage_structure(&mut self, script: &mut Vec<Record>) {
        let place = self.random.below(script.len() as u32 + 1) as usize;
        match self.random.below(12) {
            0 => script.insert(place, Record::of_script(ELSE)),
            // A second else.
            1 | 2 => match self.find(script, &[ELSE]) {
                Some(found) => {
                    let behind = found + 1 + self.random.below(2) as usize;
                    script.insert(behind.min(script.len()), Record::of_script(ELSE));
                }
                None => {
                    let double = [IF, ELSE, READ, ELSE, END].map(|kind| self.record(kind));
                    script.splice(place..place, double);
                }
            },
            3 | 4 => {
                if let Some(found) = self.find(script, &[END]) {
                    script.remove(found);
                } else {
                    let kind = self.random.pick(&[REPEAT, IF]);
                    script.insert(place, self.record(kind));
                }
            }
            5 => script.insert(place, Record::of_script(END)),
            6 => script.push(Record::of_script(END)),
            7 => {
                let kind = self.random.pick(&[REPEAT, IF]);
                let record = self.record(kind);
                script.insert(place, record);
            }
            // An else that may now be in a repeat.
            8 => {
                if let Some(found) = self.find(script, &[IF, REPEAT]) {
                    let kind = IF + REPEAT - script[found].kind;
                    script[found] = self.record(kind);
                }
            }
            // The script ends too early.
            9 => {
                if let Some(found) = self.find(script, &[REPEAT, IF, ELSE]) {
                    script.truncate(found + 1);
                }
            }
            // The innermost open block decides.
            10 => {
                let crossed = [IF, REPEAT, ELSE, END, END].map(|kind| self.record(kind));
                script.splice(place..place, crossed);
            }
            _ => {
                if !script.is_empty() {
                    let (one, other) = (self.place(script), self.place(script));
                    script.swap(one, other);
                }
            }
        }
    }

    /// Not a whole number of records, or too many records.
    fn damaged_length(&mut self) -> Vec<u8> {
        let mut bytes = self.sound(20);
        match self.random.below(8) {
            // A mark that is cut off.
            0 => bytes.extend_from_slice(&SCRIPT_MARK[..1]),
            1 => bytes.extend_from_slice(&SCRIPT_MARK),
            2 => {
                let more = 1 + self.random.below(11) as usize;
                let record = self.plain().encode();
                bytes.extend_from_slice(&record[..more]);
            }
            3 => {
                let less = 1 + self.random.below(11) as usize;
                bytes.extend_from_slice(&self.plain().encode());
                bytes.truncate(bytes.len() - less);
            }
            // One byte too many at the start, so that every mark is at a wrong place.
            4 => bytes.insert(0, self.random.pick(&[0, SCRIPT_MARK[0]])),
            5 => bytes = encode(&self.whole(RECORD_LIMIT + 1, true)),
            6 => {
                let more = self.random.below(300) as usize;
                bytes = encode(&self.whole(RECORD_LIMIT + 1 + more, true));
            }
            // A fault with a higher number comes before it.
            _ => {
                bytes.insert(0, 0);
                bytes.truncate(bytes.len() / RECORD_BYTES * RECORD_BYTES + 5);
            }
        }
        bytes
    }

    /// A place in a script that is not empty.
    fn place(&mut self, script: &[Record]) -> usize {
        self.random.below(script.len() as u32) as usize
    }

    /// The place of a random record of these kinds.
    fn find(&mut self, script: &[Record], kinds: &[u8]) -> Option<usize> {
        let places: Vec<usize> = (0..script.len())
            .filter(|place| kinds.contains(&script[*place].kind))
            .collect();
        (!places.is_empty()).then(|| self.random.pick(&places))
    }

    // Lines.

    /// The command, with a buffer that is mostly large enough.
    fn command(&mut self, script: &[u8]) -> Vec<u8> {
        let length = self.buffer_length(script);
        let mut line = format!("C {}", self.random.writing(length as u32));
        if !script.is_empty() {
            line.push(' ');
            line.push_str(&self.random.digits(script));
        }
        line.into_bytes()
    }

    fn buffer_length(&mut self, script: &[u8]) -> usize {
        let words = compiler::compile(script, &mut [0; COMPILE_LIMIT])
            .unwrap_or(script.len() / RECORD_BYTES + 1);
        let fitting = words * RECORD_BYTES;
        let length = match self.random.below(40) {
            0 => fitting - 1,
            1 => match self.random.below(4) {
                0 => 0,
                1 => fitting - RECORD_BYTES,
                2 => fitting - RECORD_BYTES + 1,
                _ => self.random.below(fitting as u32) as usize,
            },
            2 => 0,
            3..=5 => fitting + 1,
            6..=8 => fitting + RECORD_BYTES,
            9..=12 => fitting + self.random.below(300) as usize,
            13 if self.random.one_in(4) => COMPILE_LIMIT,
            13 => fitting + self.random.below(3000) as usize,
            _ => fitting,
        };
        length.min(COMPILE_LIMIT)
    }
}

pub fn encode(script: &[Record]) -> Vec<u8> {
    script.iter().flat_map(Record::encode).collect()
}

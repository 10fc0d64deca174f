//! Random scripts with blocks of every shape: empty, short and long ones, nested to every depth, with
//! and without else. Their runs are short, because the product of the turns of nested repeats is
//! limited.

use crate::compiler::{
    Record, BLOCK_LIMIT, DELAY, ELSE, END, IF, READ, RECORD_LIMIT, REPEAT_LIMIT, WRITE,
};
use crate::programs::{read, repeat, Programs};

/// No block can claim this port, so that a read of it has all ones.
const UNCLAIMED_PORT: u16 = 0;

const TIMER_PORT: u16 = 0xAC18;

/// The greatest product of the turns of nested repeats. Eight repeats of two turns are possible.
const MOST_TURNS: u32 = 256;

const TURNS: [u32; 12] = [0, 1, 1, 1, 2, 2, 2, 3, 3, 4, 7, 12];

/// The blocks around a record.
#[derive(Clone, Copy)]
struct Around {
    blocks: usize,
    repeats: usize,
    /// How many turns a repeat may have here.
    most_turns: u32,
}

impl Around {
    fn nothing(most_turns: u32) -> Self {
        Around {
            blocks: 0,
            repeats: 0,
            most_turns,
        }
    }

    fn in_if(self) -> Self {
        Around {
            blocks: self.blocks + 1,
            ..self
        }
    }

    fn in_repeat(self, turns: u32) -> Self {
        Around {
            blocks: self.blocks + 1,
            repeats: self.repeats + 1,
            most_turns: self.most_turns / turns.max(1),
        }
    }
}

/// A block around a deeper one.
#[derive(Clone, Copy)]
enum Rung {
    Repeat,
    /// The deeper block is in the body of an if without else.
    If,
    /// The deeper block is in the then-part.
    Then,
    /// The deeper block is in the else-part.
    Else,
}

impl Programs<'_> {
    /// Blocks of any shape, mostly few.
    pub fn shape(&mut self) -> Vec<Record> {
        let items = match self.random.below(12) {
            0 => 0,
            1 => 10 + self.random.below(30),
            _ => 1 + self.random.below(5),
        };
        let mut script = Vec::new();
        self.items(&mut script, items, Around::nothing(MOST_TURNS / 4));
        script
    }

    /// A single block, with nothing or little around it.
    pub fn lone_block(&mut self) -> Vec<Record> {
        let around = Around::nothing(MOST_TURNS);
        let mut script = Vec::new();
        self.few_records(&mut script);
        self.any_block(&mut script, around);
        self.few_records(&mut script);
        script
    }

    /// Blocks nested up to the greatest depth, most of which the run enters.
    pub fn deep_shape(&mut self) -> Vec<Record> {
        let repeats = match self.random.below(3) {
            0 => REPEAT_LIMIT as u32,
            _ => self.random.below(REPEAT_LIMIT as u32 + 1),
        };
        let most_ifs = BLOCK_LIMIT as u32 - repeats;
        let ifs = match self.random.below(2) {
            0 => most_ifs,
            _ => self.random.below(most_ifs + 1),
        };
        let mut rungs = vec![Rung::Repeat; repeats as usize];
        for _ in 0..ifs {
            let place = self.random.below(rungs.len() as u32 + 1) as usize;
            rungs.insert(place, self.random.pick(&[Rung::If, Rung::Then, Rung::Else]));
        }
        let mut script = Vec::new();
        self.rungs(&mut script, &rungs, Around::nothing(MOST_TURNS));
        script
    }

    /// Many blocks in sequence, with as many records as are allowed, or one less.
    pub fn long_shape(&mut self) -> Vec<Record> {
        let records = RECORD_LIMIT - self.random.below(2) as usize;
        let mut script = Vec::new();
        while script.len() < records {
            let mut piece = Vec::new();
            match self.random.below(3) {
                0 => self.any_block(&mut piece, Around::nothing(4)),
                _ => piece.push(self.plain()),
            }
            if script.len() + piece.len() <= records {
                script.extend(piece);
            }
        }
        script
    }

    /// Records and blocks in sequence.
    fn items(&mut self, script: &mut Vec<Record>, count: u32, around: Around) {
        for _ in 0..count {
            match self.random.below(6) {
                0 | 1 if around.blocks < BLOCK_LIMIT => self.any_block(script, around),
                2 => self.statement(script),
                _ => script.push(self.plain()),
            }
        }
    }

    /// The body of a repeat or a part of an if: empty, short or long.
    fn part(&mut self, script: &mut Vec<Record>, around: Around) {
        let items = match self.random.below(12) {
            0..=3 => 0,
            4 if around.blocks < 3 => 6 + self.random.below(10),
            _ => 1 + self.random.below(3),
        };
        self.items(script, items, around);
    }

    fn any_block(&mut self, script: &mut Vec<Record>, around: Around) {
        if around.repeats < REPEAT_LIMIT && self.random.one_in(2) {
            let turns = self.turns(around);
            script.push(repeat(turns));
            self.part(script, around.in_repeat(turns));
        } else {
            script.push(self.aimed_test());
            self.part(script, around.in_if());
            if !self.random.one_in(3) {
                script.push(Record::of_script(ELSE));
                self.part(script, around.in_if());
            }
        }
        script.push(Record::of_script(END));
    }

    fn turns(&mut self, around: Around) -> u32 {
        self.random.pick(&TURNS).min(around.most_turns)
    }

    /// The blocks of these rungs, each inside the one before it.
    fn rungs(&mut self, script: &mut Vec<Record>, rungs: &[Rung], around: Around) {
        let Some((rung, inner)) = rungs.split_first() else {
            return self.part(script, around);
        };
        self.few_records(script);
        match rung {
            Rung::Repeat => {
                let turns = match self.random.below(24) {
                    0 => 0,
                    _ => 1 + self.random.below(3.min(around.most_turns)),
                };
                script.push(repeat(turns));
                self.rungs(script, inner, around.in_repeat(turns));
            }
            Rung::If | Rung::Then => {
                script.push(self.mostly(true));
                self.rungs(script, inner, around.in_if());
                if let Rung::Then = rung {
                    script.push(Record::of_script(ELSE));
                    self.few_records(script);
                }
            }
            Rung::Else => {
                script.push(self.mostly(false));
                self.few_records(script);
                script.push(Record::of_script(ELSE));
                self.rungs(script, inner, around.in_if());
            }
        }
        self.few_records(script);
        script.push(Record::of_script(END));
    }

    /// Mostly none.
    fn few_records(&mut self, script: &mut Vec<Record>) {
        for _ in 0..self.random.pick(&[0, 0, 0, 1, 1, 2]) {
            script.push(self.plain());
        }
    }

    /// One write, read or delay.
    fn plain(&mut self) -> Record {
        match self.random.below(8) {
            0 | 1 => Record {
                value: self.random.pick(&[0, 1, 1, 1, 2, 3, 256]),
                ..Record::of_script(DELAY)
            },
            2 => read(4, TIMER_PORT),
            3 => self.access_of(READ),
            4 => self.access_of(WRITE),
            _ => self.access(),
        }
    }

    fn access_of(&mut self, kind: u8) -> Record {
        loop {
            let access = self.access();
            if access.kind == kind {
                return access;
            }
        }
    }

    // Tests.

    /// A test whose result is mostly this one.
    fn mostly(&mut self, result: bool) -> Record {
        match self.random.below(5) {
            0 => self.aimed_test(),
            _ => self.sure_test(result),
        }
    }

    /// A test that always has this result.
    fn sure_test(&mut self, result: bool) -> Record {
        let width = self.random.pick(&[1, 2, 4]);
        let bit = 1 << self.random.below(8 * u32::from(width));
        Record {
            width,
            port: UNCLAIMED_PORT,
            value: if result { bit } else { 0 },
            ..Record::of_script(IF)
        }
    }

    /// Often the result differs from turn to turn, because ticks change the low bits of the timer.
    fn aimed_test(&mut self) -> Record {
        match self.random.below(8) {
            0 => self.sure_test(true),
            1 => self.sure_test(false),
            2..=4 => Record {
                width: 4,
                port: TIMER_PORT,
                value: self.random.pick(&[1, 1, 2, 2, 3, 4]),
                ..Record::of_script(IF)
            },
            _ => self.test(),
        }
    }
}

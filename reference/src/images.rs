//! Random commands that run images: compiled ones, damaged ones, and ones that consist of arbitrary
//! words.

use crate::compiler::{
    Record, DELAY, ENTER, HALT, JUMP, LOOP_END, READ, RECORD_BYTES, SCRIPT_MARK, TEST, WORD_LIMIT,
    WORD_MARK, WRITE,
};
use crate::generate::{Generator, Source};
use crate::runs::image_of;
use crate::scripts;
use crate::sequencer::{Ending, Sequencer, COUNTER_LIMIT};
use crate::stream::{Reply, LOG_LIMIT};

/// Mostly `X`, with the sequencer set in between.
pub const IMAGES: Source = Source {
    scenarios: &[
        (100, Generator::run_image),
        (3, Generator::make_fresh),
        (6, Generator::load_good),
        (24, Generator::load_timer_and_place),
        (4, Generator::run_on_broken_device),
        (3, Generator::run_script),
        (2, Generator::set_sequencer),
        (1, Generator::damaged_run),
        (1, Generator::run_beyond_limits),
    ],
    looks: false,
};

const LARGEST_BUDGET: u32 = 3_000;

const KINDS: [u8; 13] = [
    WRITE, WRITE, READ, READ, DELAY, ENTER, ENTER, LOOP_END, LOOP_END, TEST, TEST, JUMP, HALT,
];

impl Generator {
    /// An image, a sequencer to start from, and one run, or a few runs that resume each other.
    pub fn run_image(&mut self) {
        let image = self.image();
        self.aim_sequencer(&image);
        let runs = match self.random.below(3) {
            0 => 1,
            _ => 2 + self.random.below(4),
        };
        for left in (0..runs).rev() {
            let budget = match self.random.below(24) {
                0 => 0,
                1 | 2 => self.random.below(8),
                _ if left > 0 => 1 + self.random.below(40),
                3..=7 => self.random.below(100),
                _ => self.random.below(LARGEST_BUDGET + 1),
            };
            let size = match self.random.below(40) {
                0 => self.random.below(LOG_LIMIT as u32 + 1),
                1..=4 => 0,
                5..=9 => self.random.below(4),
                _ => self.random.below(21),
            };
            let events = self.event_list(8, image.len() < 13_000);
            let line = self.run_line('X', budget, size as usize, &events, &image);
            // After a halt or a fault the next run would mostly end the same way at once.
            if !stopped(&self.answered_line(&line)) && !self.random.one_in(4) {
                break;
            }
        }
        if !self.session.sequencer().in_range() && self.random.one_in(2) {
            self.put_sequencer(Sequencer::fresh());
            let line = self.run_line('X', 100, 4, &[], &image);
            self.line(&line);
        }
    }

    // Sequencers.

    /// Sets a sequencer, or keeps the present one.
    pub fn aim_sequencer(&mut self, image: &[u8]) {
        if let Some(sequencer) = self.aimed_sequencer(image) {
            self.put_sequencer(sequencer);
        }
    }

    /// A sequencer, mostly at a place inside the image. Nothing means the present one, if its place is
    /// inside the image.
    pub fn aimed_sequencer(&mut self, image: &[u8]) -> Option<Sequencer> {
        let words = (image.len() / RECORD_BYTES) as u32;
        let place = self.random.below(words);
        let found = self.find_word(image, &[ENTER, LOOP_END, LOOP_END]);
        let sequencer = match (self.random.below(24), found) {
            (0..=2, _) => self.legal_sequencer(place),
            (3, _) => {
                let beyond = match self.random.below(3) {
                    0 => words,
                    1 => words + 1 + self.random.below(10),
                    _ => self.random.bits(32),
                };
                self.legal_sequencer(beyond)
            }
            (4 | 5, _) => self.illegal_sequencer(place),
            // Sometimes no counter for a loop end, or no free counter for an enter.
            (6..=8, Some(place)) => {
                let used = match self.random.below(5) {
                    0 => 0,
                    1 => COUNTER_LIMIT as u32,
                    _ => 1 + self.random.below(COUNTER_LIMIT as u32 - 1),
                };
                self.sequencer_with(place as u32, used)
            }
            (10..=12, _) if self.session.sequencer().place < words => return None,
            _ => Sequencer::fresh(),
        };
        Some(sequencer)
    }

    /// The place of a random word of these kinds.
    fn find_word(&mut self, image: &[u8], kinds: &[u8]) -> Option<usize> {
        let (words, _) = image.as_chunks::<RECORD_BYTES>();
        let kind = self.random.pick(kinds);
        let places: Vec<usize> = (0..words.len())
            .filter(|place| Record::decode(&words[*place]).kind == kind)
            .collect();
        (!places.is_empty()).then(|| self.random.pick(&places))
    }

    // Images.

    fn image(&mut self) -> Vec<u8> {
        match self.random.below(60) {
            0 => Vec::new(),
            1 => self.long_image(WORD_LIMIT),
            2 => {
                let more = self.random.pick(&[1, 1, 1, 2, 100, 341]);
                self.long_image(WORD_LIMIT + more)
            }
            3 | 4 => {
                let mut image = self.compiled_image();
                match self.random.below(2) {
                    0 => image.truncate(image.len() - 1 - self.random.below(11) as usize),
                    _ => image.extend(vec![0; 1 + self.random.below(11) as usize]),
                }
                image
            }
            5..=16 => self.wild_image(),
            17..=22 => self.pattern_image(),
            23..=38 => self.compiled_image(),
            _ => self.damaged_image(),
        }
    }

    /// An image whose run often ends with a fault. It is refused only if it is empty.
    pub fn faulty_image(&mut self) -> Vec<u8> {
        match self.random.below(12) {
            0..=2 => self.wild_image(),
            3..=6 => self.pattern_image(),
            7 => self.compiled_image(),
            _ => self.damaged_image(),
        }
    }

    /// A few valid words in any order.
    fn wild_image(&mut self) -> Vec<u8> {
        let count = 1 + self.random.below(12);
        scripts::encode(&self.any_words(count as usize))
    }

    fn pattern_image(&mut self) -> Vec<u8> {
        let pattern = self.pattern();
        scripts::encode(&pattern)
    }

    fn damaged_image(&mut self) -> Vec<u8> {
        let mut image = decode(&self.compiled_image());
        for _ in 0..self.random.pick(&[1, 1, 1, 2, 3]) {
            self.damage_image(&mut image);
        }
        scripts::encode(&image)
    }

    fn compiled_image(&mut self) -> Vec<u8> {
        let statements = 1 + self.random.below(14);
        let script = match self.random.below(4) {
            0 => self.programs().deep_script(),
            _ => self.programs().script(statements),
        };
        image_of(&scripts::encode(&script))
    }

    /// An image of this many words. Sometimes a run reaches its end.
    fn long_image(&mut self, count: usize) -> Vec<u8> {
        let mut words = match self.random.below(3) {
            0 => decode(&self.compiled_image()),
            1 => {
                let script = self.programs().long_script(WORD_LIMIT - 10);
                decode(&image_of(&scripts::encode(&script)))
            }
            _ => Vec::new(),
        };
        while words.len() + 1 < count {
            words.push(self.any_word(count));
        }
        let last = WORD_LIMIT as u16 - 1;
        words.push(match self.random.below(2) {
            0 => Record::of_image(HALT),
            _ => Record {
                target: self.random.pick(&[0, last, last + 1]),
                ..Record::of_image(JUMP)
            },
        });
        scripts::encode(&words)
    }

    /// Valid words in any order. Targets are mostly places inside the image.
    fn any_words(&mut self, count: usize) -> Vec<Record> {
        (0..count).map(|_| self.any_word(count)).collect()
    }

    /// A word without a fault of its own, for an image of this many words.
    fn any_word(&mut self, count: usize) -> Record {
        let kind = self.random.pick(&KINDS);
        let mut word = match kind {
            WRITE | READ => self.access_of_kind(kind),
            TEST => self.programs().test(),
            _ => Record::of_image(kind),
        };
        word.mark = WORD_MARK;
        word.kind = kind;
        match kind {
            DELAY => word.value = self.programs().ticks(),
            ENTER => word.value = self.random.pick(&[0, 1, 1, 2, 2, 3, 5, 65_535]),
            _ => {}
        }
        if matches!(kind, ENTER | LOOP_END | TEST | JUMP) {
            word.target = self.target(count);
        }
        word
    }

    fn access_of_kind(&mut self, kind: u8) -> Record {
        loop {
            let access = self.programs().access();
            if access.kind == kind {
                return access;
            }
        }
    }

    fn target(&mut self, count: usize) -> u16 {
        match self.random.below(40) {
            0 => count as u16,
            1 => self.random.next() as u16,
            _ => self.random.below(count as u32) as u16,
        }
    }

    /// A few words that end in a particular way.
    fn pattern(&mut self) -> Vec<Record> {
        let turns = self.random.pick(&[1, 2, 3, 65_535]);
        let read = Record {
            mark: WORD_MARK,
            ..self.access_of_kind(READ)
        };
        let test = Record {
            mark: WORD_MARK,
            kind: TEST,
            ..self.programs().test()
        };
        let enter = |target| Record {
            target,
            value: turns,
            ..Record::of_image(ENTER)
        };
        let to = |kind, target| Record {
            target,
            ..Record::of_image(kind)
        };
        let halt = Record::of_image(HALT);
        match self.random.below(8) {
            // Enters loops until no counter is free.
            0 => vec![enter(2), read, to(JUMP, 0)],
            1 => vec![enter(0), enter(1), to(JUMP, 0)],
            // Ends loops until no counter is in use.
            2 => vec![enter(3), enter(3), to(LOOP_END, 2), to(JUMP, 2), halt],
            3 => vec![to(LOOP_END, 0), halt],
            // An endless loop.
            4 => vec![read, to(JUMP, 0)],
            5 => vec![
                Record { target: 2, ..test },
                to(JUMP, 0),
                enter(0),
                to(LOOP_END, 0),
            ],
            // A read for each turn.
            6 => vec![enter(3), read, to(LOOP_END, 1), halt],
            // Runs past its last word.
            _ => vec![enter(2), read, to(LOOP_END, 1)],
        }
    }

    /// Changes one thing in an image, which often makes it faulty.
    fn damage_image(&mut self, image: &mut Vec<Record>) {
        let count = image.len();
        if count == 0 {
            return;
        }
        // Mostly near the start, because most runs reach it.
        let place = self
            .random
            .below(count as u32)
            .min(self.random.below(count as u32)) as usize;
        match self.random.below(16) {
            0 => {
                let mut bytes = image[place].encode();
                bytes[self.random.below(RECORD_BYTES as u32) as usize] = self.random.byte();
                image[place] = Record::decode(&bytes);
            }
            1 => {
                let mut bytes = image[place].encode();
                bytes[self.random.below(RECORD_BYTES as u32) as usize] ^= 1 << self.random.below(8);
                image[place] = Record::decode(&bytes);
            }
            2 => {
                let other = self.random.below(count as u32) as usize;
                image.swap(place, other);
            }
            3 => image[place].target = self.random.next() as u16,
            4 | 5 => {
                let kinds = [ENTER, LOOP_END, TEST, JUMP];
                let aimed = self.find_word(&scripts::encode(image), &kinds);
                image[aimed.unwrap_or(place)].target = count as u16;
            }
            6 => {
                let [first, second] = WORD_MARK;
                image[place].mark =
                    self.random
                        .pick(&[SCRIPT_MARK, [second, first], [0, second], [first, 0]]);
            }
            7 => image[place].kind = self.random.pick(&[0, 9, 10, 0x81, 255]),
            8 => self.set_unused_field(&mut image[place]),
            9 => image[place].width = self.random.pick(&[0, 1, 2, 3, 4, 5, 8, 255]),
            10 => {
                let above = match (image[place].kind, image[place].width) {
                    (WRITE | TEST, 1) => 8,
                    _ => 16,
                };
                image[place].value |= 1 << above;
            }
            11 => {
                image.remove(place);
            }
            12 => {
                let word = self.any_word(count);
                image.insert(place, word);
            }
            13 => image[place].kind = 1 + self.random.below(8) as u8,
            // Without its halt a run goes past the last word.
            14 => {
                image.pop();
            }
            _ => {
                let kinds = [ENTER, LOOP_END, TEST, JUMP];
                if let Some(aimed) = self.find_word(&scripts::encode(image), &kinds) {
                    image[aimed].target = self.random.below(count as u32) as u16;
                }
            }
        }
    }

    fn set_unused_field(&mut self, word: &mut Record) {
        let bit = self.random.below(16);
        match word.kind {
            WRITE | READ => word.target |= 1 << bit,
            DELAY if self.random.one_in(2) => word.target |= 1 << bit,
            HALT if self.random.one_in(2) => word.target |= 1 << bit,
            LOOP_END | JUMP | HALT if self.random.one_in(2) => word.value |= 1 << (2 * bit),
            _ if self.random.one_in(2) => word.port |= 1 << bit,
            _ => word.width |= 1 << (bit / 2),
        }
    }
}

/// Whether a run stopped early and can be resumed. After a full log it can be resumed with another
/// log.
fn stopped(reply: &Reply) -> bool {
    let Reply::Ran(ran) = reply else {
        return false;
    };
    ran.outcome
        .is_ok_and(|ended| matches!(ended.ending, Ending::BudgetSpent | Ending::LogFull))
}

/// Decodes an image into words.
fn decode(image: &[u8]) -> Vec<Record> {
    let (words, _) = image.as_chunks::<RECORD_BYTES>();
    words.iter().map(Record::decode).collect()
}

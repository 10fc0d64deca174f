//! Random commands that read texts and list scripts, and random single texts and scripts for the
//! programs `assemble` and `list`.

use crate::compiler::{
    Record, DELAY, ELSE, END, IF, READ, RECORD_BYTES, RECORD_LIMIT, REPEAT, SCRIPT_MARK, WORD_MARK,
    WRITE,
};
use crate::generate::{Generator, Source};
use crate::random::Random;
use crate::scripts;
use crate::stream::{Reply, COMPILE_LIMIT};
use crate::text::{self, LINE_BYTES};

/// Mostly `A` and `D`. The other commands show that these two leave the device and the sequencer as
/// they are.
pub const TEXTS: Source = Source {
    scenarios: &[
        (120, Generator::read_text),
        (60, Generator::list_script),
        (10, Generator::damaged_text_command),
        (5, Generator::text_beyond_limits),
        (2, Generator::load_good),
        (4, Generator::show_state),
        (1, Generator::show_sequencer),
    ],
    looks: false,
};

/// About the length of a listed line.
const USUAL_LINE: usize = 16;

const KINDS: [u8; 7] = [WRITE, READ, DELAY, REPEAT, IF, ELSE, END];

const PORTS: [u16; 10] = [
    0x002E, 0x002F, 0xAC08, 0xAC18, 0x0000, 0x0001, 0x00FF, 0x0100, 0xFFFE, 0xFFFF,
];

/// Counts at the limits, and around the powers of ten, where the number of digits changes.
const COUNTS: [u32; 17] = [
    0, 1, 3, 9, 10, 11, 99, 100, 101, 999, 1_000, 9_999, 10_000, 32_768, 65_534, 65_535, 65_535,
];

/// Widths that are not valid, and some that a narrow field would make valid.
const BAD_WIDTHS: [u128; 18] = [
    0,
    3,
    5,
    6,
    7,
    8,
    9,
    16,
    32,
    255,
    256,
    256 + 1,
    256 + 2,
    256 + 4,
    (1 << 16) + 1,
    (1 << 32) + 1,
    (1 << 32) + 4,
    (1 << 64) + 2,
];

/// A number that is too large by one of these, or by a multiple of it, wraps to one that fits.
const WRAPS: [u128; 4] = [1 << 16, 1 << 32, 1 << 64, 1 << 96];

/// The lengths of lines around the limit, and of some that a byte cannot count.
const LINE_LENGTHS: [usize; 20] = [
    119, 119, 120, 120, 120, 120, 121, 121, 121, 121, 122, 122, 123, 240, 255, 256, 257, 376, 377,
    1_000,
];

/// Bytes that have no meaning outside a comment, a carriage return anywhere but at the end of a line
/// included.
const ODD_BYTES: [u8; 14] = [
    0x00, 0x01, 0x08, 0x0B, 0x0C, 0x0D, 0x0D, 0x1A, 0x1B, 0x7F, 0x80, 0xA0, 0xC2, 0xFF,
];

/// Bytes that mean something at some place.
const GRAMMAR_BYTES: &[u8] = b" \t\r\n;0123456789ABCDEFabcdefhHwritedlyponsW";

/// Words that are no numbers.
const NO_NUMBERS: [&str; 34] = [
    "0x2E", "2E", "h", "H", "hh", "2Ehh", "2Eh0", "-1", "+1", "1,", "1.", "1.0", "$2E", "#1", "%1",
    "2E_h", "1_000", "1'000", "G0h", "0Gh", "0g", "1d", "0b1", "0o7", "h1", "1h1h", "\u{FF11}",
    "one", "0xFFh", "A", "1\u{A0}", "(1)", "'1'", ":",
];

/// Words that are no keywords.
const NO_KEYWORDS: [&str; 24] = [
    "wait", "loop", "while", "elif", "elseif", "endif", "endwhile", "in", "out", "WRITE", "Read",
    "DELAY", "Repeat", "IF", "If", "ELSE", "Else", "END", "End", "write:", "1", "0h", "x", "then",
];

/// What separates words in other notations, or starts a comment there.
const NO_GAPS: [&[u8]; 12] = [
    b",",
    b", ",
    b"\x0B",
    b"\x0C",
    b"\r",
    b" \r ",
    b"\xC2\xA0",
    b":",
    b"=",
    b"\0",
    b"\\ ",
    b"/",
];
const NO_COMMENTS: [&[u8]; 7] = [b"# c", b"// c", b"-- c", b": c", b"' c", b"(c)", b"\\"];

impl Generator {
    fn texts(&mut self) -> Texts<'_> {
        Texts {
            random: &mut self.random,
        }
    }

    /// A text, and sometimes a listing of the records that it means.
    pub fn read_text(&mut self) {
        let text = self.texts().command_text();
        let length = self.texts().record_buffer(&text);
        let line = self.buffer_line('A', length, &text);
        self.line(&line);
        if let (Ok(records), true) = (text::records(&text), self.random.one_in(8)) {
            self.list(&scripts::encode(&records));
        }
    }

    pub fn list_script(&mut self) {
        let script = self.texts().any_script();
        self.list(&script);
    }

    /// Lists a script. If that succeeds, the listing is read back.
    fn list(&mut self, script: &[u8]) {
        if script.len() > COMPILE_LIMIT {
            return;
        }
        let length = self.texts().text_buffer(script);
        let line = self.buffer_line('D', length, script);
        let Reply::Listed(Ok(bytes), buffer) = self.answered_line(&line) else {
            return;
        };
        let listing = &buffer[..bytes];
        let length = self.texts().record_buffer(listing);
        let line = self.buffer_line('A', length, listing);
        self.line(&line);
    }

    pub fn show_state(&mut self) {
        self.line(b"S");
    }

    fn buffer_line(&mut self, command: char, length: usize, bytes: &[u8]) -> Vec<u8> {
        let mut line = format!("{command} {}", self.random.writing(length as u32));
        if !bytes.is_empty() {
            line.push(' ');
            line.push_str(&self.random.digits(bytes));
        }
        line.into_bytes()
    }

    /// An `A` or a `D` that is malformed, or almost.
    pub fn damaged_text_command(&mut self) {
        let (command, bytes) = match self.random.one_in(2) {
            true => {
                let lines = self.texts().sound_lines(3);
                ('A', self.texts().join(&lines))
            }
            false => {
                let size = self.random.below(4) as usize;
                ('D', scripts::encode(&self.texts().sound_records(size)))
            }
        };
        let line = self.buffer_line(command, 64, &bytes);
        self.damage_line(line);
    }

    /// A buffer, text or script at or beyond the limits of a command.
    pub fn text_beyond_limits(&mut self) {
        let command = self.random.pick(&['A', 'D']);
        let bytes: &[u8] = match command {
            'A' => b"end\n",
            _ => &Record::of_script(END).encode(),
        };
        let more = self.random.pick(&[0, 0, 1, 2, 12, 0x1_0000]);
        let line = match self.random.below(4) {
            0 => self.buffer_line(command, COMPILE_LIMIT + more, bytes),
            // The length in nine digits.
            1 => {
                let digits = self.random.digits(bytes);
                format!("{command} 000000040 {digits}").into_bytes()
            }
            _ => {
                let length = COMPILE_LIMIT + more.min(12);
                let long: Vec<u8> = bytes.iter().copied().cycle().take(length).collect();
                let buffer = self.random.pick(&[0, 16, COMPILE_LIMIT]);
                self.buffer_line(command, buffer, &long)
            }
        };
        self.line(&line);
    }
}

/// One random text as bytes, for `assemble`.
pub fn single_text(seed: u64) -> Vec<u8> {
    let mut random = Random::new(seed);
    let mut texts = Texts {
        random: &mut random,
    };
    match texts.random.below(12) {
        0 => {
            let lines = 1_000 + texts.random.below(3_000);
            texts.long_text(lines)
        }
        _ => texts.any_text(),
    }
}

/// One random script as bytes, for `list`.
pub fn single_script(seed: u64) -> Vec<u8> {
    let mut random = Random::new(seed);
    let mut texts = Texts {
        random: &mut random,
    };
    texts.any_script()
}

struct Texts<'a> {
    random: &'a mut Random,
}

impl Texts<'_> {
    // Records.

    /// A valid record of this kind, often with a field at its limit.
    fn record(&mut self, kind: u8) -> Record {
        let mut record = Record::of_script(kind);
        if matches!(kind, WRITE | READ | IF) {
            record.width = self.random.pick(&[1, 2, 4]);
            record.port = match self.random.below(3) {
                0 => self.random.next() as u16,
                _ => self.random.pick(&PORTS),
            };
        }
        match kind {
            WRITE | IF => record.value = self.random.bits(8 * u32::from(record.width)),
            DELAY | REPEAT => {
                record.value = match self.random.below(3) {
                    0 => self.random.bits(16),
                    _ => self.random.pick(&COUNTS),
                };
            }
            _ => {}
        }
        record
    }

    /// Valid records of any kind. The blocks are not balanced.
    fn sound_records(&mut self, size: usize) -> Vec<Record> {
        (0..size)
            .map(|_| {
                let kind = self.random.pick(&KINDS);
                self.record(kind)
            })
            .collect()
    }

    // Scripts to be listed.

    fn any_script(&mut self) -> Vec<u8> {
        match self.random.below(24) {
            0 => Vec::new(),
            1..=5 => {
                let size = self.random.pick(&[1, 2, 3, 8, 30]);
                let size = 1 + self.random.below(size) as usize;
                scripts::encode(&self.sound_records(size))
            }
            6..=9 => scripts::encode(&self.staircase()),
            10..=13 => scripts::any_script(self.random),
            14 => self.many_records(),
            15 => self.wrong_length(),
            _ => self.damaged_script(),
        }
    }

    /// Blocks that are opened one after another, mostly deeper than the indentation goes, and closed
    /// again, sometimes more often than they were opened. Other records are in between, an else at
    /// any depth.
    fn staircase(&mut self) -> Vec<Record> {
        let mut script = Vec::new();
        for _ in 0..self.random.pick(&[1, 1, 1, 2]) {
            let depth = self.random.pick(&[2, 14, 15, 16, 17, 18, 19, 24, 40]);
            for _ in 0..depth {
                self.landing(&mut script);
                let kind = self.random.pick(&[REPEAT, IF]);
                script.push(self.record(kind));
            }
            let ends = (depth + self.random.below(4)).saturating_sub(self.random.below(3));
            for _ in 0..ends {
                self.landing(&mut script);
                script.push(self.record(END));
            }
            self.landing(&mut script);
        }
        script
    }

    fn landing(&mut self, script: &mut Vec<Record>) {
        if self.random.one_in(3) {
            let kind = self.random.pick(&[WRITE, READ, DELAY, ELSE, ELSE, ELSE]);
            script.push(self.record(kind));
        }
    }

    /// About as many records as are allowed. Half of these scripts have only short lines.
    fn many_records(&mut self) -> Vec<u8> {
        let size =
            RECORD_LIMIT + self.random.pick(&[0, 0, 0, 1, 2]) - self.random.below(2) as usize;
        let kinds: &[u8] = match self.random.one_in(2) {
            true => &[DELAY, ELSE, END],
            false => &KINDS,
        };
        let records: Vec<Record> = (0..size)
            .map(|_| {
                let kind = self.random.pick(kinds);
                self.record(kind)
            })
            .collect();
        scripts::encode(&records)
    }

    /// A length that is not a multiple of 12, with or without another fault before.
    fn wrong_length(&mut self) -> Vec<u8> {
        let mut bytes = match self.random.one_in(2) {
            true => self.damaged_script(),
            false => scripts::encode(&self.sound_records(3)),
        };
        let cut = bytes.len() / RECORD_BYTES * RECORD_BYTES;
        bytes.truncate(cut);
        let more = 1 + self.random.below(RECORD_BYTES as u32 - 1) as usize;
        let next = self.record(WRITE).encode();
        bytes.extend_from_slice(&next[..more]);
        bytes
    }

    /// A script with one fault or several, in one record or in several.
    fn damaged_script(&mut self) -> Vec<u8> {
        let size = 1 + self.random.below(8) as usize;
        let mut records = self.sound_records(size);
        let mut place = self.random.below(size as u32) as usize;
        for _ in 0..self.random.pick(&[1, 1, 1, 2, 3]) {
            self.damage_record(&mut records[place]);
            if self.random.one_in(2) {
                place = self.random.below(size as u32) as usize;
            }
        }
        let mut bytes = scripts::encode(&records);
        if self.random.one_in(6) {
            let place = self.random.below(bytes.len() as u32) as usize;
            bytes[place] ^= 1 << self.random.below(8);
        }
        bytes
    }

    fn damage_record(&mut self, record: &mut Record) {
        match self.random.below(8) {
            0 => {
                let [low, high] = SCRIPT_MARK;
                record.mark =
                    self.random
                        .pick(&[[0, 0], WORD_MARK, [high, low], [low, 0], [0, high]]);
            }
            1 => record.kind = self.random.pick(&[0, 0, 8, 9, 128, 255]),
            2 => record.width = self.random.pick(&[0, 1, 2, 3, 4, 5, 8, 255]),
            3 => record.target = 1 << self.random.below(16),
            4 => record.port = 1 << self.random.below(16),
            5 => record.value = self.random.pick(&[1, 0x100, 0x1_0000, 65_536, u32::MAX]),
            6 => record.value |= 1 << self.random.below(32),
            _ => {
                // A value that is too large by one.
                record.value = match (record.kind, record.width) {
                    (WRITE | IF, 1) => 1 << 8,
                    (WRITE | IF, 2) | (DELAY | REPEAT, _) => 1 << 16,
                    _ => 1,
                };
            }
        }
    }

    // Words.

    /// A number in decimal or hex, with or without leading zeros.
    fn number(&mut self, number: u128) -> String {
        let (digits, ending) = match self.random.below(8) {
            0..=2 => (format!("{number}"), ""),
            3 | 4 => (format!("{number:X}"), "h"),
            5 => (format!("{number:x}"), "h"),
            6 => (format!("{number:X}"), "H"),
            _ => (self.mixed_case(&format!("{number:X}")), "h"),
        };
        let zeros = match self.random.below(16) {
            0..=2 => 1 + self.random.below(4) as usize,
            3 => self.random.below(60) as usize,
            _ => 0,
        };
        format!("{}{digits}{ending}", "0".repeat(zeros))
    }

    fn mixed_case(&mut self, digits: &str) -> String {
        digits
            .chars()
            .map(|digit| match self.random.one_in(2) {
                true => digit.to_ascii_lowercase(),
                false => digit,
            })
            .collect()
    }

    /// A hundred digits or about as many: a very large number, or a small one after many zeros.
    fn hundred_digits(&mut self) -> String {
        let length = 90 + self.random.below(16) as usize;
        let hex = self.random.one_in(2);
        let mut number: String = match self.random.below(4) {
            0 => "0".repeat(length),
            1 => format!("1{}", "0".repeat(length)),
            _ => (0..length)
                .map(|_| char::from(b'0' + self.random.below(10) as u8))
                .collect(),
        };
        number.push_str(self.random.pick(&["1", "2", "4", "46"]));
        if hex {
            number.push('h');
        }
        number
    }

    /// The numbers of a statement: none, a count, or width, port and sometimes value.
    fn operands(record: &Record) -> Vec<u128> {
        let width = u128::from(record.width);
        let port = u128::from(record.port);
        let value = u128::from(record.value);
        match record.kind {
            WRITE | IF => vec![width, port, value],
            READ => vec![width, port],
            DELAY | REPEAT => vec![value],
            _ => Vec::new(),
        }
    }

    fn words(&mut self, record: &Record) -> Vec<String> {
        let mut words = vec![keyword(record.kind)];
        for operand in Self::operands(record) {
            words.push(self.number(operand));
        }
        words
    }

    fn sound_words(&mut self) -> Vec<String> {
        let kind = self.random.pick(&KINDS);
        let record = self.record(kind);
        self.words(&record)
    }

    /// A statement with numbers, at least one of which is at a limit or does not fit.
    fn unfit_words(&mut self) -> Vec<String> {
        let kind = self.random.pick(&[WRITE, WRITE, READ, DELAY, REPEAT, IF]);
        let record = self.record(kind);
        let operands = Self::operands(&record);
        let mut words = self.words(&record);
        for _ in 0..self.random.pick(&[1, 1, 1, 2]) {
            let place = self.random.below(operands.len() as u32) as usize;
            let old = operands[place];
            let limit: u128 = match (record.kind, place) {
                (WRITE | READ | IF, 0) => 1 << 8,
                (WRITE | IF, 2) => 1 << (8 * record.width),
                _ => 1 << 16,
            };
            let new = match self.random.below(10) {
                0 | 1 if limit == 1 << 8 && place == 0 => self.random.pick(&BAD_WIDTHS),
                0 => limit - 1,
                1 | 2 => limit,
                3 => limit + 1,
                4 => limit + old,
                5 => limit * u128::from(1 + self.random.below(10)) + old,
                6 => u128::from(self.random.next()),
                7 => {
                    words[place + 1] = self.hundred_digits();
                    continue;
                }
                _ => {
                    let wrap = self.random.pick(&WRAPS);
                    wrap * u128::from(1 + self.random.below(12)) + old
                }
            };
            words[place + 1] = self.number(new);
        }
        words
    }

    /// A statement that is not in the grammar, though each of its bytes may be.
    fn misspelt_words(&mut self) -> Vec<String> {
        let mut words = match self.random.below(3) {
            0 => self.unfit_words(),
            _ => self.sound_words(),
        };
        let last = words.len() - 1;
        match self.random.below(12) {
            0 => {
                words[0] = String::from(self.random.pick(&NO_KEYWORDS));
            }
            1 => {
                let letter = self.random.below(words[0].len() as u32) as usize;
                let upper = words[0][letter..=letter].to_ascii_uppercase();
                words[0].replace_range(letter..=letter, &upper);
            }
            2 => {
                let cut = self.random.below(words[0].len() as u32) as usize;
                words[0].truncate(cut);
            }
            3 => {
                words[0].remove(0);
            }
            4 => words[0].push(self.random.pick(b"sedh10:.").into()),
            // Too few operands, or a keyword that does not take them.
            5 | 6 if last > 0 => {
                words.pop();
            }
            7 => {
                let kind = self.random.pick(&KINDS);
                words[0] = keyword(kind);
            }
            // Too many operands, or a second statement.
            8 => {
                let small = u128::from(self.random.below(300));
                words.push(self.number(small));
            }
            9 => {
                let more = self.sound_words();
                words.extend(more);
            }
            // Two words without a gap between them.
            10 if last > 0 => {
                let place = self.random.below(last as u32) as usize;
                let next = words.remove(place + 1);
                words[place].push_str(&next);
            }
            _ if last > 0 => {
                let place = 1 + self.random.below(last as u32) as usize;
                words[place] = String::from(self.random.pick(&NO_NUMBERS));
            }
            _ => words.push(String::from(self.random.pick(&NO_NUMBERS))),
        }
        words
    }

    // Lines.

    fn blank(&mut self) -> u8 {
        self.random.pick(b"   \t")
    }

    fn blanks(&mut self) -> Vec<u8> {
        let count = match self.random.below(8) {
            0 => 1,
            1 => self.random.below(5),
            2 => self.random.below(16),
            _ => 0,
        };
        (0..count).map(|_| self.blank()).collect()
    }

    fn gap(&mut self) -> Vec<u8> {
        let mut gap = vec![self.blank()];
        gap.extend(self.blanks());
        gap
    }

    /// No comment may contain a line feed; any other byte is allowed.
    fn comment(&mut self) -> Vec<u8> {
        let mut comment = vec![b';'];
        match self.random.below(8) {
            0 => {}
            1 => comment.extend_from_slice("the key \u{2014} gr\u{FC}n \u{1F511}".as_bytes()),
            2 => {
                let length = self.random.below(20);
                comment.extend((0..length).map(|_| self.random.byte()));
                comment.retain(|byte| *byte != b'\n');
            }
            3 => {
                for _ in 0..=self.random.below(4) {
                    let odd = self.random.pick(&ODD_BYTES);
                    comment.push(odd);
                }
            }
            4 => {
                let words = self.sound_words().join(" ");
                comment.extend_from_slice(words.as_bytes());
            }
            5 => comment.extend_from_slice(b"; ;; \t; "),
            _ => comment.extend_from_slice(b" the index of key control"),
        }
        comment
    }

    /// A line with these words, and often with blanks and a comment. It has no carriage return.
    fn spaced(&mut self, words: &[String]) -> Vec<u8> {
        let mut line = match self.random.one_in(3) {
            true => vec![b' '; 4 * self.random.below(4) as usize],
            false => self.blanks(),
        };
        for (place, word) in words.iter().enumerate() {
            if place > 0 {
                let gap = self.gap();
                line.extend(gap);
            }
            line.extend_from_slice(word.as_bytes());
        }
        line.extend(self.blanks());
        if self.random.one_in(4) {
            line.extend(self.comment());
        }
        line
    }

    /// A line that is in the grammar, has numbers that fit, and is not too long.
    fn sound_line(&mut self) -> Vec<u8> {
        loop {
            let mut line = match self.random.below(10) {
                0 => self.blanks(),
                1 => {
                    let mut line = self.blanks();
                    line.extend(self.comment());
                    line
                }
                _ => {
                    let words = self.sound_words();
                    self.spaced(&words)
                }
            };
            if self.random.one_in(10) {
                line.push(b'\r');
            }
            if line.len() <= LINE_BYTES {
                return line;
            }
        }
    }

    /// A line around the greatest length, with a statement, a comment, both or none. The statement is
    /// sometimes bad in another way too.
    fn long_line(&mut self) -> Vec<u8> {
        let words = match self.random.below(8) {
            0 | 1 => Vec::new(),
            2 => self.unfit_words(),
            3 => self.misspelt_words(),
            _ => self.sound_words(),
        };
        let ending: &[u8] = self.random.pick(&[b"", b"", b"\r", b"\r", b";", b";\r"]);
        let length = self.random.pick(&LINE_LENGTHS);
        let plain: usize = words.iter().map(|word| word.len() + 1).sum();
        let missing = length.saturating_sub(plain.saturating_sub(1) + ending.len());
        let mut line = words.join(" ").into_bytes();
        match self.random.below(5) {
            0 => {
                let blank = self.blank();
                line.splice(0..0, vec![blank; missing]);
            }
            1 => {
                let blank = self.blank();
                line.extend(vec![blank; missing]);
            }
            // Before a number, or between blanks and a comment.
            2 | 3 => {
                let gaps: Vec<usize> = (0..line.len()).filter(|k| line[*k] == b' ').collect();
                let fill = self.random.pick(b"  \t0");
                let place = match gaps.is_empty() {
                    true => line.len(),
                    false => self.random.pick(&gaps) + 1,
                };
                line.splice(place..place, vec![fill; missing]);
            }
            _ if missing > 0 => {
                let byte = self.random.pick(b"c; \t\r\xFF\0");
                line.push(b';');
                line.extend(vec![byte; missing - 1]);
            }
            _ => {}
        }
        line.extend_from_slice(ending);
        line
    }

    /// A line with a byte that may not be there.
    fn odd_line(&mut self) -> Vec<u8> {
        let mut line = self.sound_line();
        let place = self.random.below(line.len() as u32 + 1) as usize;
        let odd = match self.random.below(4) {
            0 => 0x80 | self.random.byte(),
            _ => self.random.pick(&ODD_BYTES),
        };
        match self.random.below(8) {
            0 => line.extend_from_slice(b"\r\r"),
            1 => line.extend_from_slice(b"\r "),
            2 => line.insert(0, b'\r'),
            3 if !line.is_empty() => {
                let place = place.min(line.len() - 1);
                line[place] = odd;
            }
            4 => line.push(odd),
            5 => line.insert(0, odd),
            _ => line.insert(place, odd),
        }
        line
    }

    /// Words that are separated by something else, or followed by what is no comment.
    fn foreign_line(&mut self) -> Vec<u8> {
        let words = self.sound_words();
        if words.len() == 1 || self.random.one_in(3) {
            let mut line = words.join(" ").into_bytes();
            line.extend(self.blanks());
            line.extend_from_slice(self.random.pick(&NO_COMMENTS));
            return line;
        }
        let strange = self.random.below(words.len() as u32 - 1) as usize;
        let mut line = Vec::new();
        for (place, word) in words.iter().enumerate() {
            line.extend_from_slice(word.as_bytes());
            if place == strange {
                line.extend_from_slice(self.random.pick(&NO_GAPS));
            } else if place + 1 < words.len() {
                line.push(b' ');
            }
        }
        line
    }

    /// Words, blanks and other pieces of lines in any order.
    fn pieces(&mut self) -> Vec<u8> {
        let mut line = Vec::new();
        for _ in 0..=self.random.below(9) {
            match self.random.below(12) {
                0..=2 => {
                    let kind = self.random.pick(&KINDS);
                    line.extend_from_slice(text::keyword(kind));
                }
                3..=5 => {
                    let number = self.random.pick(&[0, 1, 2, 3, 4, 0x2E, 65_536]);
                    let number = self.number(number);
                    line.extend_from_slice(number.as_bytes());
                }
                6..=9 => line.extend(self.gap()),
                10 => line.push(b';'),
                _ => line.push(self.random.pick(b"h\r,")),
            }
        }
        line
    }

    /// A line that is bad in one way or in several, or almost.
    fn bad_line(&mut self) -> Vec<u8> {
        let mut line = match self.random.below(14) {
            0..=2 => self.long_line(),
            3..=6 => {
                let words = self.unfit_words();
                self.spaced(&words)
            }
            7..=9 => {
                let words = self.misspelt_words();
                self.spaced(&words)
            }
            10 => self.odd_line(),
            11 => self.foreign_line(),
            12 => self.pieces(),
            _ => {
                let words = self.unfit_words();
                let mut line = self.spaced(&words);
                self.damage(&mut line);
                line.retain(|byte| *byte != b'\n');
                line
            }
        };
        if self.random.one_in(10) {
            line.push(b'\r');
        }
        line
    }

    // Texts.

    /// Changes, adds or removes one byte.
    fn damage(&mut self, text: &mut Vec<u8>) {
        let byte = match self.random.below(4) {
            0 => self.random.byte(),
            1 => self.random.pick(&ODD_BYTES),
            _ => self.random.pick(GRAMMAR_BYTES),
        };
        let place = self.random.below(text.len() as u32) as usize;
        match self.random.below(3) {
            0 if !text.is_empty() => text[place] = byte,
            1 if !text.is_empty() => {
                text.remove(place);
            }
            _ => text.insert(place, byte),
        }
    }

    fn sound_lines(&mut self, most: u32) -> Vec<Vec<u8>> {
        (0..self.random.below(most + 1))
            .map(|_| self.sound_line())
            .collect()
    }

    /// Joins lines. Sometimes every line ends with a carriage return, and sometimes the last line has
    /// no line feed.
    fn join(&mut self, lines: &[Vec<u8>]) -> Vec<u8> {
        let ending: &[u8] = match self.random.one_in(8) {
            true => b"\r\n",
            false => b"\n",
        };
        let mut text = lines.join(ending);
        if !lines.is_empty() && !self.random.one_in(3) {
            text.extend_from_slice(ending);
        }
        text
    }

    fn any_text(&mut self) -> Vec<u8> {
        let most = self.random.pick(&[1, 3, 6, 6, 12, 40]);
        match self.random.below(40) {
            0 => Vec::new(),
            1 => {
                let length = self.random.below(6) as usize;
                (0..length).map(|_| self.random.pick(b"\n\n\r; ")).collect()
            }
            2..=12 => {
                let lines = self.sound_lines(most);
                self.join(&lines)
            }
            13..=19 => {
                let lines = self.sound_lines(most);
                let mut text = self.join(&lines);
                self.damage(&mut text);
                text
            }
            20..=37 => self.text_with_bad_lines(most),
            38 => {
                let lines: Vec<Vec<u8>> =
                    (0..self.random.below(4)).map(|_| self.pieces()).collect();
                self.join(&lines)
            }
            _ => {
                let length = self.random.below(30);
                (0..length).map(|_| self.random.byte()).collect()
            }
        }
    }

    /// Mostly one bad line, sometimes several, also one after another.
    fn text_with_bad_lines(&mut self, most: u32) -> Vec<u8> {
        let mut lines = self.sound_lines(most);
        for _ in 0..self.random.pick(&[1, 1, 1, 2, 3]) {
            let place = match self.random.below(4) {
                0 => lines.len(),
                _ => self.random.below(lines.len() as u32 + 1) as usize,
            };
            let line = self.bad_line();
            lines.insert(place, line);
        }
        self.join(&lines)
    }

    /// A text of this many lines, most of them short. Sometimes one of them is bad, or may be.
    fn long_text(&mut self, count: u32) -> Vec<u8> {
        let mut lines: Vec<Vec<u8>> = (0..count)
            .map(|_| match self.random.below(20) {
                0 => self.sound_line(),
                _ => {
                    let kind = self.random.pick(&[END, ELSE, END, ELSE, DELAY]);
                    let record = self.record(kind);
                    let mut line = keyword(kind);
                    for operand in Self::operands(&record) {
                        line.push_str(&format!(" {operand}"));
                    }
                    line.into_bytes()
                }
            })
            .collect();
        if self.random.one_in(4) {
            let place = self.random.below(count + 1) as usize;
            let line = self.bad_line();
            lines.insert(place, line);
        }
        self.join(&lines)
    }

    /// A text for a command, which takes fewer bytes than the program.
    fn command_text(&mut self) -> Vec<u8> {
        let mut text = match self.random.below(160) {
            // More statements than a script may have, and more than the largest buffer can take.
            0 => {
                let lines = self.random.pick(&[900, 1_020, 1_030, 1_200, 1_500]);
                let lines = lines + self.random.below(10);
                self.long_text(lines)
            }
            1 => {
                let room = COMPILE_LIMIT / RECORD_BYTES;
                let statements = room - 1 + self.random.below(4) as usize;
                b"end\n".repeat(statements)
            }
            2 => {
                let lines = 40 + self.random.below(160);
                self.long_text(lines)
            }
            _ => self.any_text(),
        };
        text.truncate(COMPILE_LIMIT);
        text
    }

    // Buffers.

    /// The length of a record buffer: mostly exactly long enough, or longer.
    fn record_buffer(&mut self, text: &[u8]) -> usize {
        let fitting = match text::records(text) {
            Ok(records) => records.len() * RECORD_BYTES,
            Err(_) => RECORD_BYTES * self.random.below(4) as usize,
        };
        self.buffer(fitting, RECORD_BYTES)
    }

    /// The length of a text buffer: mostly exactly long enough, or longer.
    fn text_buffer(&mut self, script: &[u8]) -> usize {
        let fitting = match text::listing(script) {
            Ok(listing) => listing.len(),
            Err(_) => self.random.below(60) as usize,
        };
        self.buffer(fitting, USUAL_LINE)
    }

    fn buffer(&mut self, fitting: usize, unit: usize) -> usize {
        let length = match self.random.below(40) {
            0..=2 => fitting.saturating_sub(1),
            3 => fitting.saturating_sub(unit),
            4 => self.random.below(fitting as u32 + 1) as usize,
            5 | 6 => 0,
            7..=9 => fitting + 1,
            10..=12 => fitting + unit,
            13..=15 => fitting + self.random.below(300) as usize,
            16 if self.random.one_in(20) => COMPILE_LIMIT,
            _ => fitting,
        };
        length.min(COMPILE_LIMIT)
    }
}

fn keyword(kind: u8) -> String {
    String::from_utf8_lossy(text::keyword(kind)).into_owned()
}

//! The script compiler: turns the records of a script into the words of an image.

use crate::device::Width;

pub const RECORD_BYTES: usize = 12;
pub const RECORD_LIMIT: usize = 1024;
pub const WORD_LIMIT: usize = 1024;

/// The greatest number of nested blocks.
pub const BLOCK_LIMIT: usize = 16;

/// The greatest number of nested repeats.
pub const REPEAT_LIMIT: usize = 8;

pub const SCRIPT_MARK: [u8; 2] = [0x5A, 0xA5];
pub const WORD_MARK: [u8; 2] = [0xC3, 0x3C];

/// Kinds of script records.
pub const WRITE: u8 = 1;
pub const READ: u8 = 2;
pub const DELAY: u8 = 3;
pub const REPEAT: u8 = 4;
pub const IF: u8 = 5;
pub const ELSE: u8 = 6;
pub const END: u8 = 7;

/// Kinds of words. Kinds 1 to 3 are the same as those of script records.
pub const ENTER: u8 = 4;
pub const LOOP_END: u8 = 5;
pub const TEST: u8 = 6;
pub const JUMP: u8 = 7;
pub const HALT: u8 = 8;

/// The largest value of a delay or a repeat.
const COUNT_LIMIT: u32 = 65_535;

/// The fields of a script record or a word, which has twelve bytes.
#[derive(Clone, Copy, Debug, Default, PartialEq, Eq)]
pub struct Record {
    pub mark: [u8; 2],
    pub kind: u8,
    pub width: u8,
    pub port: u16,
    pub target: u16,
    pub value: u32,
}

impl Record {
    /// A script record with this kind and all other fields 0.
    pub fn of_script(kind: u8) -> Self {
        Record {
            mark: SCRIPT_MARK,
            kind,
            ..Record::default()
        }
    }

    /// A word with this kind and all other fields 0.
    pub fn of_image(kind: u8) -> Self {
        Record {
            mark: WORD_MARK,
            kind,
            ..Record::default()
        }
    }

    pub fn decode(bytes: &[u8; RECORD_BYTES]) -> Self {
        let [m0, m1, kind, width, p0, p1, t0, t1, v0, v1, v2, v3] = *bytes;
        Record {
            mark: [m0, m1],
            kind,
            width,
            port: u16::from_le_bytes([p0, p1]),
            target: u16::from_le_bytes([t0, t1]),
            value: u32::from_le_bytes([v0, v1, v2, v3]),
        }
    }

    pub fn encode(&self) -> [u8; RECORD_BYTES] {
        let [m0, m1] = self.mark;
        let [p0, p1] = self.port.to_le_bytes();
        let [t0, t1] = self.target.to_le_bytes();
        let [v0, v1, v2, v3] = self.value.to_le_bytes();
        [
            m0, m1, self.kind, self.width, p0, p1, t0, t1, v0, v1, v2, v3,
        ]
    }

    /// The first fault of a script record that can be found without the records around it: refusals
    /// 2 to 4.
    pub fn check(&self) -> Result<(), Fault> {
        if self.mark != SCRIPT_MARK {
            return Err(Fault::Mark);
        }
        let widest = Width::of(u32::from(self.width)).map(Width::all_ones);
        let no_access = self.width == 0 && self.port == 0;
        let fields_are_good = match self.kind {
            WRITE | IF => widest.is_some_and(|widest| self.value <= widest),
            READ => widest.is_some() && self.value == 0,
            DELAY | REPEAT => no_access && self.value <= COUNT_LIMIT,
            ELSE | END => no_access && self.value == 0,
            _ => return Err(Fault::Kind),
        };
        // No script record uses its target.
        if fields_are_good && self.target == 0 {
            Ok(())
        } else {
            Err(Fault::Field)
        }
    }
}

/// Why a script, or the buffer for its image, is refused. The variants are in the order of their
/// numbers.
#[derive(Clone, Copy, Debug, PartialEq, Eq)]
pub enum Fault {
    Length,
    Mark,
    Kind,
    Field,
    Balance,
    Depth,
    StillOpen,
    TooManyWords,
    ShortBuffer,
}

impl Fault {
    pub fn number(self) -> u32 {
        match self {
            Fault::Length => 1,
            Fault::Mark => 2,
            Fault::Kind => 3,
            Fault::Field => 4,
            Fault::Balance => 5,
            Fault::Depth => 6,
            Fault::StillOpen => 7,
            Fault::TooManyWords => 8,
            Fault::ShortBuffer => 9,
        }
    }
}

#[derive(Clone, Copy, Debug, PartialEq, Eq)]
pub struct Refusal {
    pub fault: Fault,
    pub place: usize,
}

/// An open block, with the place of the word whose target is not known yet.
#[derive(Clone, Copy, Debug, PartialEq, Eq)]
enum Block {
    Repeat { enter: usize },
    Then { test: usize },
    Else { jump: usize },
}

#[derive(Default)]
struct Assembly {
    words: Vec<Record>,
    open: Vec<Block>,
}

impl Assembly {
    /// Adds the next record, which has no fault of its own.
    fn take(&mut self, record: &Record) -> Result<(), Fault> {
        let here = self.words.len();
        match record.kind {
            REPEAT => {
                let repeats = self
                    .open
                    .iter()
                    .filter(|block| matches!(block, Block::Repeat { .. }))
                    .count();
                if repeats >= REPEAT_LIMIT {
                    return Err(Fault::Depth);
                }
                self.open(Block::Repeat { enter: here })?;
                self.push(record, ENTER, 0);
            }
            IF => {
                self.open(Block::Then { test: here })?;
                self.push(record, TEST, 0);
            }
            ELSE => {
                let Some(Block::Then { test }) = self.open.last().copied() else {
                    return Err(Fault::Balance);
                };
                self.open.pop();
                self.open.push(Block::Else { jump: here });
                self.push(record, JUMP, 0);
                self.aim(test, here + 1);
            }
            END => match self.open.pop() {
                None => return Err(Fault::Balance),
                Some(Block::Repeat { enter }) => {
                    self.push(record, LOOP_END, enter + 1);
                    self.aim(enter, here + 1);
                }
                Some(Block::Then { test: waiting } | Block::Else { jump: waiting }) => {
                    self.aim(waiting, here);
                }
            },
            same => self.push(record, same, 0),
        }
        Ok(())
    }

    fn open(&mut self, block: Block) -> Result<(), Fault> {
        if self.open.len() >= BLOCK_LIMIT {
            return Err(Fault::Depth);
        }
        self.open.push(block);
        Ok(())
    }

    /// Adds a word with the width, port and value of the record. Unused fields are zero.
    fn push(&mut self, record: &Record, kind: u8, target: usize) {
        self.words.push(Record {
            mark: WORD_MARK,
            kind,
            ..*record
        });
        self.aim(self.words.len() - 1, target);
    }

    fn aim(&mut self, word: usize, target: usize) {
        self.words[word].target =
            u16::try_from(target).expect("a script has at most 1,024 records");
    }
}

/// Compiles a script into the start of an image buffer and returns the number of words. A refusal
/// writes nothing. The rest of the buffer is not changed.
pub fn compile(script: &[u8], image: &mut [u8]) -> Result<usize, Refusal> {
    let chunks = script.chunks_exact(RECORD_BYTES);
    let records = chunks.len();
    if !chunks.remainder().is_empty() || records > RECORD_LIMIT {
        return Err(Refusal {
            fault: Fault::Length,
            place: 0,
        });
    }
    let mut assembly = Assembly::default();
    for (place, bytes) in chunks.enumerate() {
        let record = Record::decode(bytes.try_into().expect("a chunk has 12 bytes"));
        record
            .check()
            .and_then(|()| assembly.take(&record))
            .map_err(|fault| Refusal { fault, place })?;
    }
    let refuse = |fault| {
        Err(Refusal {
            fault,
            place: records,
        })
    };
    if !assembly.open.is_empty() {
        return refuse(Fault::StillOpen);
    }
    let mut words = assembly.words;
    words.push(Record::of_image(HALT));
    if words.len() > WORD_LIMIT {
        return refuse(Fault::TooManyWords);
    }
    let Some(front) = image.get_mut(..words.len() * RECORD_BYTES) else {
        return refuse(Fault::ShortBuffer);
    };
    for (bytes, word) in front.chunks_exact_mut(RECORD_BYTES).zip(&words) {
        bytes.copy_from_slice(&word.encode());
    }
    Ok(words.len())
}

//! Text scripts (docs/TEXT.md): the reader turns a text into the records of a script, the lister
//! turns the records of a script into a text.

use crate::compiler::{
    self, Record, DELAY, ELSE, END, IF, READ, RECORD_BYTES, RECORD_LIMIT, REPEAT, WRITE,
};

/// A line has at most this many bytes before its line feed.
pub const LINE_BYTES: usize = 120;

/// A listed line is indented by this many spaces for each open block.
const INDENT_BYTES: usize = 4;

/// A listed line is indented for at most this many blocks.
const INDENT_LIMIT: usize = 16;

/// Room for a listed line of ordinary length, so that the text seldom has to grow.
const USUAL_LINE_BYTES: usize = 32;

/// The longest count, 65535, in digits.
const COUNT_DIGITS: usize = 5;

const HEX_DIGITS: &[u8; 16] = b"0123456789ABCDEF";

/// Why a text or a script is refused, or the buffer for the result.
#[derive(Clone, Copy, Debug, PartialEq, Eq)]
pub enum Fault {
    /// The script cannot be listed: one of the refusals 1 to 4 of the compiler.
    Script(compiler::Fault),
    LongLine,
    NotInGrammar,
    NumberDoesNotFit,
    ShortRecordBuffer,
    ShortTextBuffer,
}

impl Fault {
    pub fn number(self) -> u32 {
        match self {
            Fault::Script(fault) => fault.number(),
            Fault::LongLine => 30,
            Fault::NotInGrammar => 31,
            Fault::NumberDoesNotFit => 32,
            Fault::ShortRecordBuffer => 33,
            Fault::ShortTextBuffer => 34,
        }
    }
}

#[derive(Clone, Copy, Debug, PartialEq, Eq)]
pub struct Refusal {
    pub fault: Fault,
    pub place: usize,
}

pub fn keyword(kind: u8) -> &'static [u8] {
    match kind {
        WRITE => b"write",
        READ => b"read",
        DELAY => b"delay",
        REPEAT => b"repeat",
        IF => b"if",
        ELSE => b"else",
        END => b"end",
        _ => panic!("kind {kind} has no keyword"),
    }
}

// Reading.

/// Reads a text into the start of a record buffer and returns the number of records. A refusal
/// writes nothing. The rest of the buffer is not changed.
pub fn read(text: &[u8], buffer: &mut [u8]) -> Result<usize, Refusal> {
    let records = records(text)?;
    let Some(front) = buffer.get_mut(..records.len() * RECORD_BYTES) else {
        return Err(Refusal {
            fault: Fault::ShortRecordBuffer,
            place: 0,
        });
    };
    for (bytes, record) in front.chunks_exact_mut(RECORD_BYTES).zip(&records) {
        bytes.copy_from_slice(&record.encode());
    }
    Ok(records.len())
}

/// The records that a text means.
pub fn records(text: &[u8]) -> Result<Vec<Record>, Refusal> {
    let mut records = Vec::new();
    for (place, line) in lines(text).enumerate() {
        let record = record_of(line).map_err(|fault| Refusal { fault, place })?;
        records.extend(record);
    }
    Ok(records)
}

/// The lines of a text, without their line feeds. There is no further line after the last line
/// feed.
pub fn lines(text: &[u8]) -> impl Iterator<Item = &[u8]> {
    text.split_inclusive(|byte| *byte == b'\n')
        .map(|line| line.strip_suffix(b"\n").unwrap_or(line))
}

/// The record that a line means, if it has a statement, or the fault of the line with the least
/// number.
fn record_of(line: &[u8]) -> Result<Option<Record>, Fault> {
    if line.len() > LINE_BYTES {
        return Err(Fault::LongLine);
    }
    // Whether the numbers fit is asked only of a line that is in the grammar as a whole.
    match Statement::of_line(line)? {
        Some(statement) => {
            let record = statement.record().ok_or(Fault::NumberDoesNotFit)?;
            Ok(Some(record))
        }
        None => Ok(None),
    }
}

/// A statement that is in the grammar. Its numbers may be too large for a record. Those that the
/// statement does not have are 0.
struct Statement {
    kind: u8,
    width: u64,
    port: u64,
    value: u64,
}

impl Statement {
    fn of_line(line: &[u8]) -> Result<Option<Statement>, Fault> {
        // A carriage return at the end of a comment belongs to the comment, but it does not matter
        // there either.
        let line = line.strip_suffix(b"\r").unwrap_or(line);
        // A semicolon has no meaning but to start a comment, so the first one does.
        let comment = line.iter().position(|byte| *byte == b';');
        let code = &line[..comment.unwrap_or(line.len())];
        let mut words = code
            .split(|byte| matches!(byte, b' ' | b'\t'))
            .filter(|word| !word.is_empty());
        let Some(keyword) = words.next() else {
            return Ok(None);
        };
        match Statement::of_words(keyword, &mut words) {
            Some(statement) if words.next().is_none() => Ok(Some(statement)),
            _ => Err(Fault::NotInGrammar),
        }
    }

    /// Takes as many words as the keyword needs.
    fn of_words<'a>(
        keyword: &[u8],
        words: &mut impl Iterator<Item = &'a [u8]>,
    ) -> Option<Statement> {
        let mut next = || number(words.next()?);
        let statement = match keyword {
            b"write" => Statement {
                kind: WRITE,
                width: next()?,
                port: next()?,
                value: next()?,
            },
            b"read" => Statement {
                kind: READ,
                width: next()?,
                port: next()?,
                value: 0,
            },
            b"delay" => Statement::without_access(DELAY, next()?),
            b"repeat" => Statement::without_access(REPEAT, next()?),
            b"if" => Statement {
                kind: IF,
                width: next()?,
                port: next()?,
                value: next()?,
            },
            b"else" => Statement::without_access(ELSE, 0),
            b"end" => Statement::without_access(END, 0),
            _ => return None,
        };
        Some(statement)
    }

    fn without_access(kind: u8, value: u64) -> Statement {
        Statement {
            kind,
            width: 0,
            port: 0,
            value,
        }
    }

    /// Returns nothing if a number does not fit its field, or if the compiler would refuse the
    /// record with 4.
    fn record(&self) -> Option<Record> {
        let record = Record {
            width: u8::try_from(self.width).ok()?,
            port: u16::try_from(self.port).ok()?,
            value: u32::try_from(self.value).ok()?,
            ..Record::of_script(self.kind)
        };
        record.check().is_ok().then_some(record)
    }
}

/// A decimal number, or a hex number that ends in h. A number that needs more than 64 bits becomes
/// the largest one of 64 bits. No field can take that one either.
fn number(word: &[u8]) -> Option<u64> {
    let (digits, radix) = match word {
        [digits @ .., b'h' | b'H'] => (digits, 16),
        digits => (digits, 10),
    };
    if digits.is_empty() {
        return None;
    }
    digits.iter().try_fold(0, |number: u64, digit| {
        let digit = char::from(*digit).to_digit(radix)?;
        let shifted = number.saturating_mul(u64::from(radix));
        Some(shifted.saturating_add(u64::from(digit)))
    })
}

// Listing.

/// Lists a script into the start of a text buffer and returns the length of the listing. A refusal
/// writes nothing. The rest of the buffer is not changed.
pub fn list(script: &[u8], buffer: &mut [u8]) -> Result<usize, Refusal> {
    let text = listing(script)?;
    let Some(front) = buffer.get_mut(..text.len()) else {
        return Err(Refusal {
            fault: Fault::ShortTextBuffer,
            place: 0,
        });
    };
    front.copy_from_slice(&text);
    Ok(text.len())
}

/// The listing of a script.
pub fn listing(script: &[u8]) -> Result<Vec<u8>, Refusal> {
    let (records, rest) = script.as_chunks();
    if !rest.is_empty() || records.len() > RECORD_LIMIT {
        return Err(Refusal {
            fault: Fault::Script(compiler::Fault::Length),
            place: 0,
        });
    }
    let mut lister = Lister {
        text: Vec::with_capacity(records.len() * USUAL_LINE_BYTES),
        open: 0,
    };
    for (place, bytes) in records.iter().enumerate() {
        let record = Record::decode(bytes);
        record.check().map_err(|fault| Refusal {
            fault: Fault::Script(fault),
            place,
        })?;
        lister.add(&record);
    }
    Ok(lister.text)
}

struct Lister {
    text: Vec<u8>,
    /// The number of open blocks, also of those that are too deep to be indented.
    open: usize,
}

impl Lister {
    /// Adds the line of a record that has no fault.
    fn add(&mut self, record: &Record) {
        let further_out = self.open.saturating_sub(1);
        let level = match record.kind {
            ELSE => further_out,
            END => {
                self.open = further_out;
                further_out
            }
            _ => self.open,
        };
        self.indent(level);
        self.text.extend_from_slice(keyword(record.kind));
        match record.kind {
            WRITE | IF => {
                self.width_and_port(record);
                self.hex(record.value, 2 * usize::from(record.width));
            }
            READ => self.width_and_port(record),
            DELAY | REPEAT => self.decimal(record.value),
            _ => {}
        }
        self.text.push(b'\n');
        if matches!(record.kind, REPEAT | IF) {
            self.open += 1;
        }
    }

    fn indent(&mut self, level: usize) {
        let spaces = INDENT_BYTES * level.min(INDENT_LIMIT);
        self.text.resize(self.text.len() + spaces, b' ');
    }

    fn width_and_port(&mut self, record: &Record) {
        self.decimal(u32::from(record.width));
        self.hex(u32::from(record.port), 4);
    }

    /// Adds a space and a hex number with this many digits.
    fn hex(&mut self, number: u32, digits: usize) {
        self.text.push(b' ');
        for place in (0..digits).rev() {
            let digit = number >> (4 * place) & 0x0F;
            self.text.push(HEX_DIGITS[digit as usize]);
        }
        self.text.push(b'h');
    }

    /// Adds a space and a decimal number of at most five digits.
    fn decimal(&mut self, number: u32) {
        let mut digits = [b'0'; COUNT_DIGITS];
        let mut first = COUNT_DIGITS;
        let mut rest = number;
        while rest > 0 || first == COUNT_DIGITS {
            first -= 1;
            digits[first] = b'0' + (rest % 10) as u8;
            rest /= 10;
        }
        self.text.push(b' ');
        self.text.extend_from_slice(&digits[first..]);
    }
}

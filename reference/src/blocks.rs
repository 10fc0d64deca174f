//! The nested form of a script, or why it has none: refusals 1 to 8, found without an image.

use crate::compiler::{
    Fault, Record, Refusal, BLOCK_LIMIT, DELAY, ELSE, END, IF, READ, RECORD_BYTES, RECORD_LIMIT,
    REPEAT, REPEAT_LIMIT, SCRIPT_MARK, WORD_LIMIT, WRITE,
};
use crate::device::Width;

/// A record with the records inside it.
#[derive(Clone, Debug, PartialEq, Eq)]
pub enum Node {
    Write {
        width: Width,
        port: u16,
        value: u32,
    },
    Read {
        width: Width,
        port: u16,
    },
    Delay(u16),
    Repeat {
        times: u16,
        body: Vec<Node>,
    },
    If {
        width: Width,
        port: u16,
        mask: u32,
        then_part: Vec<Node>,
        else_part: Option<Vec<Node>>,
    },
}

/// The nested form of a script. Refusal 1 comes first, then the first record with a fault, then 7
/// and 8.
pub fn nest(script: &[u8]) -> Result<Vec<Node>, Refusal> {
    let (records, rest) = script.as_chunks::<RECORD_BYTES>();
    if !rest.is_empty() || records.len() > RECORD_LIMIT {
        return Err(Refusal {
            fault: Fault::Length,
            place: 0,
        });
    }
    let mut reader = Reader { records, place: 0 };
    let body = reader.script()?;
    if word_count(&body) > WORD_LIMIT {
        return Err(reader.refusal(Fault::TooManyWords));
    }
    Ok(body)
}

/// The number of words that a compiler would need: one for each record except the end of an if, and
/// a halt.
pub fn word_count(script: &[Node]) -> usize {
    words_of(script) + 1
}

fn words_of(body: &[Node]) -> usize {
    body.iter()
        .map(|node| match node {
            Node::Write { .. } | Node::Read { .. } | Node::Delay(_) => 1,
            Node::Repeat { body, .. } => 2 + words_of(body),
            Node::If {
                then_part,
                else_part,
                ..
            } => {
                let else_words = else_part.as_ref().map_or(0, |part| 1 + words_of(part));
                1 + words_of(then_part) + else_words
            }
        })
        .sum()
}

/// A record by itself.
enum Statement {
    /// A write, read or delay.
    Plain(Node),
    Repeat(u16),
    If {
        width: Width,
        port: u16,
        mask: u32,
    },
    Else,
    End,
}

impl Statement {
    /// Refusals 2 to 4.
    fn decode(record: &Record) -> Result<Statement, Fault> {
        if record.mark != SCRIPT_MARK {
            return Err(Fault::Mark);
        }
        let decoded = match record.kind {
            WRITE | READ | IF => Statement::access(record),
            DELAY | REPEAT | ELSE | END => Statement::no_access(record),
            _ => return Err(Fault::Kind),
        };
        // No script record uses its target.
        decoded.filter(|_| record.target == 0).ok_or(Fault::Field)
    }

    /// Kinds 1, 2 and 5. Returns nothing for a bad width or value.
    fn access(record: &Record) -> Option<Statement> {
        let width = Width::of(u32::from(record.width))?;
        let Record { port, value, .. } = *record;
        match record.kind {
            READ => (value == 0).then_some(Statement::Plain(Node::Read { width, port })),
            _ if value > width.all_ones() => None,
            WRITE => Some(Statement::Plain(Node::Write { width, port, value })),
            _ => Some(Statement::If {
                width,
                port,
                mask: value,
            }),
        }
    }

    /// Kinds 3, 4, 6 and 7, which use neither width nor port. Returns nothing for a bad value.
    fn no_access(record: &Record) -> Option<Statement> {
        if record.width != 0 || record.port != 0 {
            return None;
        }
        let count = u16::try_from(record.value).ok()?;
        match record.kind {
            DELAY => Some(Statement::Plain(Node::Delay(count))),
            REPEAT => Some(Statement::Repeat(count)),
            _ if count != 0 => None,
            ELSE => Some(Statement::Else),
            _ => Some(Statement::End),
        }
    }
}

/// The innermost open block, as far as it decides which record may close it.
#[derive(Clone, Copy, PartialEq, Eq)]
enum Innermost {
    None,
    /// An if still without an else.
    Then,
    /// A repeat, or an if with its else.
    RepeatOrElse,
}

/// The open blocks around a record.
#[derive(Clone, Copy)]
struct Around {
    innermost: Innermost,
    blocks: usize,
    repeats: usize,
}

/// The record that closes a body.
#[derive(Clone, Copy, PartialEq, Eq)]
enum Behind {
    Else,
    End,
    /// The end of the script.
    Nothing,
}

struct Reader<'a> {
    records: &'a [[u8; RECORD_BYTES]],
    place: usize,
}

impl Reader<'_> {
    /// A refusal at the present place. Behind the last record it is the record count.
    fn refusal(&self, fault: Fault) -> Refusal {
        Refusal {
            fault,
            place: self.place,
        }
    }

    fn script(&mut self) -> Result<Vec<Node>, Refusal> {
        let around = Around {
            innermost: Innermost::None,
            blocks: 0,
            repeats: 0,
        };
        Ok(self.body(around)?.0)
    }

    /// The records up to the one that closes them, and that one.
    fn body(&mut self, around: Around) -> Result<(Vec<Node>, Behind), Refusal> {
        let mut body = Vec::new();
        while let Some(bytes) = self.records.get(self.place) {
            let statement =
                Statement::decode(&Record::decode(bytes)).map_err(|fault| self.refusal(fault))?;
            let node = match (statement, around.innermost) {
                (Statement::Else, Innermost::Then) => {
                    self.place += 1;
                    return Ok((body, Behind::Else));
                }
                (Statement::End, Innermost::Then | Innermost::RepeatOrElse) => {
                    self.place += 1;
                    return Ok((body, Behind::End));
                }
                (Statement::Else | Statement::End, _) => return Err(self.refusal(Fault::Balance)),
                (Statement::Plain(node), _) => {
                    self.place += 1;
                    node
                }
                (Statement::Repeat(times), _) => {
                    let inside = self.open(around, true)?;
                    let (body, _) = self.body(inside)?;
                    Node::Repeat { times, body }
                }
                (Statement::If { width, port, mask }, _) => {
                    let inside = self.open(around, false)?;
                    let (then_part, else_part) = self.parts(inside)?;
                    Node::If {
                        width,
                        port,
                        mask,
                        then_part,
                        else_part,
                    }
                }
            };
            body.push(node);
        }
        match around.innermost {
            Innermost::None => Ok((body, Behind::Nothing)),
            _ => Err(self.refusal(Fault::StillOpen)),
        }
    }

    /// Goes into a repeat or an if, unless it is inside 16 blocks, or is a repeat inside 8 repeats.
    fn open(&mut self, around: Around, repeat: bool) -> Result<Around, Refusal> {
        if around.blocks == BLOCK_LIMIT || (repeat && around.repeats == REPEAT_LIMIT) {
            return Err(self.refusal(Fault::Depth));
        }
        self.place += 1;
        let innermost = match repeat {
            true => Innermost::RepeatOrElse,
            false => Innermost::Then,
        };
        Ok(Around {
            innermost,
            blocks: around.blocks + 1,
            repeats: around.repeats + usize::from(repeat),
        })
    }

    /// The two parts of an if, the second only if it has an else.
    fn parts(&mut self, inside: Around) -> Result<(Vec<Node>, Option<Vec<Node>>), Refusal> {
        let (then_part, behind) = self.body(inside)?;
        if behind != Behind::Else {
            return Ok((then_part, None));
        }
        let inside = Around {
            innermost: Innermost::RepeatOrElse,
            ..inside
        };
        let (else_part, _) = self.body(inside)?;
        Ok((then_part, Some(else_part)))
    }
}

//! What the programs `assemble` and `list` write.

use crate::compiler::RECORD_BYTES;
use crate::text::{self, Fault};

/// `assemble` reads a text into a buffer for this many records.
const ASSEMBLED_RECORDS: usize = 8_192;

/// `assemble` takes no longer text than this.
const TEXT_BYTES: usize = 262_144;

/// What a program writes on standard output and standard error. One of the two is empty. The exit
/// status is always 0.
#[derive(Clone, Debug, PartialEq, Eq)]
pub struct Written {
    pub output: Vec<u8>,
    pub errors: Vec<u8>,
}

impl Written {
    fn done(output: Vec<u8>) -> Self {
        Written {
            output,
            errors: Vec::new(),
        }
    }

    fn failed(line: String) -> Self {
        Written {
            output: Vec::new(),
            errors: line.into_bytes(),
        }
    }

    fn refused(refusal: text::Refusal) -> Self {
        Written::failed(format!(
            "REFUSED {} {}\n",
            refusal.fault.number(),
            refusal.place
        ))
    }
}

/// Writes the records of a text. If a line is bad, that line is quoted after the refusal, with its
/// carriage return if it has one.
pub fn assemble(text: &[u8]) -> Written {
    if text.len() > TEXT_BYTES {
        return Written::failed(format!(
            "assemble: the text has more than {TEXT_BYTES} bytes\n"
        ));
    }
    let mut buffer = vec![0; ASSEMBLED_RECORDS * RECORD_BYTES];
    match text::read(text, &mut buffer) {
        Ok(records) => {
            buffer.truncate(records * RECORD_BYTES);
            Written::done(buffer)
        }
        Err(refusal) => {
            let mut written = Written::refused(refusal);
            if refusal.fault != Fault::ShortRecordBuffer {
                let line = text::lines(text).nth(refusal.place);
                written
                    .errors
                    .extend_from_slice(line.expect("the bad line is in the text"));
                written.errors.push(b'\n');
            }
            written
        }
    }
}

/// Writes the listing of a script.
pub fn list(script: &[u8]) -> Written {
    match text::listing(script) {
        Ok(listing) => Written::done(listing),
        Err(refusal) => Written::refused(refusal),
    }
}

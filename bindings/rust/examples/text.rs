//! Reads a text script (docs/TEXT.md) on standard input, turns it into records, compiles them, runs them on a fresh device and prints what the
//! program `trace` prints: the values logged, each with the owner of its port, the ending and the number of steps; or the refusal of the
//! compiler. If the text is refused, prints the refusal and the refused line.
use runnelopal::{assemble, compile, refusal, run, Device, LogEntry, Sequencer, IMAGE_BYTES, RECORD_BYTES, SCRIPT_BYTES};
use std::io::{Read, Write};

const STEPS: u32 = 100_000;
const LOG: usize = 1024;

fn main() -> std::io::Result<()> {
    let mut text = Vec::new();
    std::io::stdin().read_to_end(&mut text)?;
    let mut out = std::io::stdout().lock();

    // One record longer than the longest script, so that a script of 1,025 records is refused by the compiler, with 1.
    let mut script = vec![0; SCRIPT_BYTES + RECORD_BYTES];
    let records = match assemble(&text, &mut script) {
        Ok(records) => records,
        Err(refused) => {
            writeln!(out, "REFUSED {} {}", refused.number, refused.place)?;
            let line = text.split(|byte| *byte == b'\n').nth(refused.place);
            return match line {
                Some(line) if refused.number != refusal::RECORDS_TOO_SHORT => out.write_all(&[line, b"\n"].concat()),
                _ => Ok(()),
            };
        }
    };
    let mut image = vec![0; IMAGE_BYTES];
    let words = match compile(&script[..RECORD_BYTES * records], &mut image) {
        Ok(words) => words,
        Err(refused) => return writeln!(out, "REFUSED {} {}", refused.number, refused.place),
    };
    let mut log = [0; LOG];
    let done = run(&image[..RECORD_BYTES * words], &mut Device::fresh(), &mut Sequencer::fresh(), &[], STEPS, &mut log)
        .expect("a compiled image is not refused");
    for &entry in &log[..done.logged] {
        let read = LogEntry::from(entry);
        writeln!(out, "READ {:08X} {}", read.value, read.owner)?;
    }
    writeln!(out, "END {} {}", done.ending, done.steps)
}

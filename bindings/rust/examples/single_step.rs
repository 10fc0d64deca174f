//! Reads a script on standard input, compiles it and runs it from fresh word by word: each call has a budget of 1. After each word prints its
//! place, the place of the next word, the loop counters in use, that of the outermost loop first, and the outputs: SCI, SMI and the monitor
//! interrupt. After a read it also prints the value and the owner of the port. Stops at the end of the run, or after STEPS words (100,000),
//! and prints how the run ended. Without the lines that start with STEP, this is what the program `trace` prints.
//! usage: single_step [STEPS] [EVENT]...    an EVENT is a hex number, such as 6000001 for reset 1
use runnelopal::{compile, ending, run, Device, LogEntry, Outputs, Refusal, Sequencer, SequencerView, IMAGE_BYTES, RECORD_BYTES};
use std::io::{BufWriter, Read, Write};

const LOG: usize = 1024;

fn step_line(word: u32, after: &SequencerView, outputs: Outputs) -> String {
    let counters: Vec<String> = after.in_use().iter().map(u32::to_string).collect();
    let counters = if counters.is_empty() { "none".to_string() } else { counters.join(" ") };
    let level = u8::from;
    let outputs = format!("{}{}{}", level(outputs.sci), level(outputs.smi), level(outputs.monitor));
    format!("STEP word {word} next {} counters {counters} outputs {outputs}", after.place)
}

/// Runs the script and prints each step. The error of the outer result is one of the output.
fn stepped(script: &[u8], most: u32, events: &[u32], output: &mut impl Write) -> std::io::Result<Result<(), Refusal>> {
    let mut image = vec![0; IMAGE_BYTES];
    let words = match compile(script, &mut image) {
        Ok(words) => words,
        Err(refusal) => return Ok(Err(refusal)),
    };
    let image = &image[..RECORD_BYTES * words];
    let mut device = Device::fresh();
    let mut sequencer = Sequencer::fresh();
    let (mut ended, mut steps, mut taken, mut logged) = (ending::BUDGET_SPENT, 0, 0, 0);
    while ended == ending::BUDGET_SPENT && steps < most {
        let word = sequencer.view().expect("the sequencer is valid").place;
        let mut entry = [0];
        let room = usize::from(logged < LOG);
        let step = match run(image, &mut device, &mut sequencer, &events[taken..], 1, &mut entry[..room]) {
            Ok(step) => step,
            Err(refusal) => return Ok(Err(refusal)),
        };
        if step.steps == 1 {
            let after = sequencer.view().expect("the sequencer is valid");
            writeln!(output, "{}", step_line(word, &after, step.outputs))?;
        }
        if step.logged == 1 {
            let read = LogEntry::from(entry[0]);
            writeln!(output, "READ {:08X} {}", read.value, read.owner)?;
        }
        ended = step.ending;
        steps += step.steps;
        taken += step.taken;
        logged += step.logged;
    }
    writeln!(output, "END {ended} {steps}")?;
    Ok(Ok(()))
}

fn main() -> Result<(), Box<dyn std::error::Error>> {
    let mut arguments = std::env::args().skip(1);
    let most = arguments.next().map_or(Ok(100_000), |steps| steps.parse())?;
    let events = arguments.map(|event| u32::from_str_radix(&event, 16)).collect::<Result<Vec<u32>, _>>()?;
    let mut script = Vec::new();
    std::io::stdin().read_to_end(&mut script)?;
    let mut output = BufWriter::new(std::io::stdout().lock());
    if let Err(refusal) = stepped(&script, most, &events, &mut output)? {
        writeln!(output, "REFUSED {} {}", refusal.number, refusal.place)?;
    }
    output.flush()?;
    Ok(())
}

//! Reads a script on standard input, compiles it and runs it from fresh in parts, each of which executes at most BUDGET words. Between
//! two parts the device and the sequencer are saved to FILE, loaded from it again and checked; FILE is then removed. Prints what the program
//! `trace` prints for a whole run: the values logged, each with the owner of its port, the ending and the number of steps; or the refusal. All
//! parts together have a budget of 100,000 and a log of 1,024 entries. Then makes one whole run and compares. Exits with 1, and says what
//! differs, if the two are not the same.
//! usage: resume BUDGET FILE [EVENT]...    an EVENT is a hex number, such as 6000001 for reset 1
use runnelopal::{compile, ending, run, Device, LogEntry, Outputs, Refusal, Run, Sequencer, DEVICE_BYTES, IMAGE_BYTES, RECORD_BYTES};
use std::io::Read;
use std::process::ExitCode;

const STEPS: u32 = 100_000;
const LOG: usize = 1024;

struct RunState {
    device: Device,
    sequencer: Sequencer,
    log: Vec<u64>,
    /// Ending and outputs of the last part; steps, taken and logged of all parts.
    sum: Run,
}

impl RunState {
    fn start() -> Self {
        RunState {
            device: Device::fresh(),
            sequencer: Sequencer::fresh(),
            // The comparison covers the entries that are not filled.
            log: vec![0xEEEE_EEEE_EEEE_EEEE; LOG],
            sum: Run { ending: ending::BUDGET_SPENT, steps: 0, taken: 0, logged: 0, outputs: Outputs::default() },
        }
    }

    /// One part: with the events that are not taken yet and the room that is left in the log.
    fn resume(&mut self, image: &[u8], events: &[u32], budget: u32) -> Result<(), Refusal> {
        let events = &events[self.sum.taken..];
        let part = run(image, &mut self.device, &mut self.sequencer, events, budget, &mut self.log[self.sum.logged..])?;
        self.sum = Run {
            steps: self.sum.steps + part.steps,
            taken: self.sum.taken + part.taken,
            logged: self.sum.logged + part.logged,
            ..part
        };
        Ok(())
    }

    fn save(&self, name: &str) -> std::io::Result<()> {
        std::fs::write(name, [self.device.as_ref(), self.sequencer.as_ref()].concat())
    }

    /// Replaces the device and the sequencer.
    fn load(&mut self, name: &str) -> Result<(), Box<dyn std::error::Error>> {
        let bytes = std::fs::read(name)?;
        std::fs::remove_file(name)?;
        let (device, sequencer) = bytes.split_at_checked(DEVICE_BYTES).ok_or("the file is too short")?;
        self.device = Device::try_from(device)?;
        self.sequencer = Sequencer::try_from(sequencer)?;
        Ok(())
    }

    fn print(&self) {
        for &entry in &self.log[..self.sum.logged] {
            let read = LogEntry::from(entry);
            println!("READ {:08X} {}", read.value, read.owner);
        }
        println!("END {} {}", self.sum.ending, self.sum.steps);
    }
}

fn compare(parts: &RunState, whole: &RunState) -> ExitCode {
    let same = [
        ("outcome", parts.sum.ending == whole.sum.ending),
        ("steps", parts.sum.steps == whole.sum.steps),
        ("events taken", parts.sum.taken == whole.sum.taken),
        ("values logged", parts.sum.logged == whole.sum.logged),
        ("outputs", parts.sum.outputs == whole.sum.outputs),
        ("log", parts.log == whole.log),
        ("device", parts.device == whole.device),
        ("sequencer", parts.sequencer == whole.sequencer),
    ];
    for (what, _) in same.iter().filter(|(_, same)| !same) {
        println!("DIFFERS from a whole run: {what}");
    }
    ExitCode::from(u8::from(same.iter().any(|(_, same)| !same)))
}

/// Runs the script in parts. The error of the outer result is for standard error.
fn in_parts(image: &[u8], events: &[u32], budget: u32, name: &str) -> Result<Result<RunState, Refusal>, String> {
    let mut parts = RunState::start();
    loop {
        if let Err(refusal) = parts.resume(image, events, budget.min(STEPS - parts.sum.steps)) {
            return Ok(Err(refusal));
        }
        if parts.sum.ending != ending::BUDGET_SPENT || parts.sum.steps == STEPS {
            return Ok(Ok(parts));
        }
        parts.save(name).map_err(|error| format!("{name}: {error}"))?;
        parts.load(name).map_err(|error| format!("{name}: not a saved device and sequencer: {error}"))?;
    }
}

fn compared(budget: u32, name: &str, events: &[u32]) -> Result<ExitCode, String> {
    let mut script = Vec::new();
    std::io::stdin().read_to_end(&mut script).map_err(|error| error.to_string())?;
    let mut image = vec![0; IMAGE_BYTES];
    let parts = match compile(&script, &mut image) {
        Ok(words) => {
            image.truncate(RECORD_BYTES * words);
            in_parts(&image, events, budget, name)?
        }
        Err(refusal) => Err(refusal),
    };
    let parts = match parts {
        Ok(parts) => parts,
        Err(refusal) => {
            println!("REFUSED {} {}", refusal.number, refusal.place);
            return Ok(ExitCode::SUCCESS);
        }
    };
    parts.print();

    let mut whole = RunState::start();
    whole.resume(&image, events, STEPS).map_err(|refusal| refusal.to_string())?;
    Ok(compare(&parts, &whole))
}

fn main() -> ExitCode {
    let arguments: Vec<String> = std::env::args().skip(1).collect();
    let usage = || format!("usage: resume BUDGET FILE [EVENT]... (a BUDGET from 1 to {STEPS})");
    let done = match &arguments[..] {
        [budget, name, events @ ..] => {
            let events: Result<Vec<u32>, _> = events.iter().map(|event| u32::from_str_radix(event, 16)).collect();
            match (budget.parse(), events) {
                (Ok(budget @ 1..=STEPS), Ok(events)) => compared(budget, name, &events),
                _ => Err(usage()),
            }
        }
        _ => Err(usage()),
    };
    done.unwrap_or_else(|message| {
        eprintln!("{message}");
        ExitCode::from(2)
    })
}

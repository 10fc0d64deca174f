//! Reads a script on standard input, compiles it, runs it on a fresh device and prints the values that the run logged, each with the owner
//! of its port. Interprets the same script, without the image, and prints how that ends. Then reads one register of the device after the run.
use runnelopal::{compile, interpret, run, Device, LogEntry, Sequencer, IMAGE_BYTES, RECORD_BYTES};
use std::io::Read;

fn main() {
    let mut script = Vec::new();
    std::io::stdin().read_to_end(&mut script).expect("standard input can be read");
    let mut interpreted_device = Device::fresh();
    let mut interpreted_log = [0; 1024];
    let interpreted = interpret(&script, &mut interpreted_device, &[], 100_000, &mut interpreted_log);
    if let Err(refusal) = &interpreted {
        println!("interpreted: refused {} at {}", refusal.number, refusal.place);
    }
    let mut image = vec![0; IMAGE_BYTES];
    let words = match compile(&script, &mut image) {
        Ok(words) => words,
        Err(refusal) => {
            println!("refused {} at {}", refusal.number, refusal.place);
            return;
        }
    };
    println!("{words} words");

    let mut device = Device::fresh();
    let mut log = [0; 1024];
    let done = run(&image[..RECORD_BYTES * words], &mut device, &mut Sequencer::fresh(), &[], 100_000, &mut log)
        .expect("a compiled image is not refused");
    for &entry in &log[..done.logged] {
        let read = LogEntry::from(entry);
        println!("logged {:08X} {}", read.value, read.owner);
    }
    println!("ended with {} after {} steps", done.ending, done.steps);
    let level = u8::from;
    let on = done.outputs;
    println!("outputs: SCI {}, SMI {}, monitor interrupt {}", level(on.sci), level(on.smi), level(on.monitor));
    let interpreted = interpreted.expect("a script that compiles is not refused");
    println!("interpreted: ended with {} after {} steps", interpreted.ending, interpreted.steps);
    if log != interpreted_log || done.logged != interpreted.logged || device != interpreted_device {
        println!("interpreted: a different log or device");
    }

    let answer = device.read(1, 0x2E).expect("the device is valid");
    println!("002E reads {:02X}, status {}, owner {}, refusal 0", answer.value, answer.status, answer.owner);
}

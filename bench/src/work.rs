//! The work of a row, and how each program does it.

use std::fmt::Debug;
use std::hint::black_box;

use reference::compiler;
use reference::device::Device;
use reference::own_run;
use reference::sequencer::{self, Ended, Lent, Sequencer};
use reference::state;
use reference::text;

#[derive(Clone, Copy, Debug, PartialEq, Eq)]
pub enum Side {
    Ours,
    /// Our run of the compiled script, beside our interpreter.
    Image,
    Theirs,
}

impl Side {
    /// The name on the command line of the process that callgrind counts.
    pub fn name(self) -> &'static str {
        match self {
            Side::Ours => "ours",
            Side::Image => "image",
            Side::Theirs => "theirs",
        }
    }
}

/// A single access. A read has no value.
#[derive(Clone, Copy)]
pub struct Access {
    pub width: u32,
    pub port: u32,
    pub written: Option<u32>,
}

/// How the model keeps its device and its sequencer between calls. The library always loads and saves the bytes.
#[derive(Clone, Copy, PartialEq, Eq)]
pub enum Held {
    Struct,
    Bytes,
}

pub enum Work {
    /// Compiles the script this many times.
    Compile { script: Vec<u8>, times: usize },
    /// Reads the text script this many times.
    Assemble { text: Vec<u8>, times: usize },
    /// Lists the script this many times.
    List { script: Vec<u8>, times: usize },
    /// Lists the script and reads the listing this many times.
    ListAndAssemble { script: Vec<u8>, times: usize },
    /// Runs the image this many times, each time on a fresh device, from a fresh sequencer.
    Run { image: Vec<u8>, events: Vec<u32>, budget: u32, log: usize, times: usize },
    /// Interprets the script this many times, each time on a fresh device. The third side runs the image.
    Interpret { script: Vec<u8>, image: Vec<u8>, events: Vec<u32>, budget: u32, log: usize, times: usize },
    /// Runs the image once, in calls of `part` steps, each of which resumes the run where the call before it stopped. It ends after `budget` steps.
    Parts { image: Vec<u8>, part: u32, budget: u32, held: Held },
    /// Goes through the list this many times on one device, which starts from the given state.
    Accesses { start: state::StateBytes, list: Vec<Access>, times: usize, held: Held },
    Events { start: state::StateBytes, list: Vec<u32>, times: usize, held: Held },
}

/// The buffers that a call writes, besides its answer.
#[derive(PartialEq, Eq)]
pub struct Buffers {
    /// For the image, the records or the listing.
    bytes: Vec<u8>,
    log: Vec<u64>,
}

/// The results on which both programs must agree: the numbers of the last call, or of all parts of a run, a sum over all calls, the sequencer
/// and the device.
#[derive(Debug, PartialEq, Eq)]
pub struct Done {
    pub numbers: [u64; 4],
    pub sum: u64,
    pub sequencer: Option<Sequencer>,
    pub state: Option<state::StateBytes>,
}

fn added(sum: u64, number: u64) -> u64 {
    sum.rotate_left(5) ^ number
}

fn outputs(sci: bool, smi: bool, monitor: bool) -> u64 {
    u64::from(sci) | u64::from(smi) << 1 | u64::from(monitor) << 2
}

impl Work {
    /// Cleared buffers. Every byte has been written, so that no page is touched for the first time while measuring.
    pub fn buffers(&self) -> Buffers {
        let (bytes, log) = match self {
            Work::Compile { .. } => (runnelopal::IMAGE_BYTES, 0),
            Work::Assemble { .. } | Work::ListAndAssemble { .. } => (runnelopal::SCRIPT_BYTES, 0),
            Work::List { .. } => (runnelopal::TEXT_BYTES, 0),
            Work::Run { log, .. } | Work::Interpret { log, .. } => (0, *log),
            Work::Parts { .. } | Work::Accesses { .. } | Work::Events { .. } => (0, 0),
        };
        Buffers { bytes: vec![0xEE; bytes], log: vec![0xEEEE_EEEE_EEEE_EEEE; log] }
    }

    /// The programs that do the work.
    pub fn sides(&self) -> &'static [Side] {
        match self {
            Work::Interpret { .. } => &[Side::Ours, Side::Image, Side::Theirs],
            _ => &[Side::Ours, Side::Theirs],
        }
    }

    pub fn done(&self, side: Side, buffers: &mut Buffers) -> Done {
        match (self, side) {
            (Work::Compile { script, times }, Side::Theirs) => {
                converted(compiler::compile, script, *times, &mut buffers.bytes)
            }
            (Work::Compile { script, times }, _) => converted(runnelopal::compile, script, *times, &mut buffers.bytes),
            (Work::Assemble { text, times }, Side::Theirs) => converted(text::read, text, *times, &mut buffers.bytes),
            (Work::Assemble { text, times }, _) => converted(runnelopal::assemble, text, *times, &mut buffers.bytes),
            (Work::List { script, times }, Side::Theirs) => converted(text::list, script, *times, &mut buffers.bytes),
            (Work::List { script, times }, _) => converted(runnelopal::list, script, *times, &mut buffers.bytes),
            (Work::ListAndAssemble { script, times }, Side::Theirs) => {
                there_and_back(text::list, text::read, script, *times, &mut buffers.bytes)
            }
            (Work::ListAndAssemble { script, times }, _) => {
                there_and_back(runnelopal::list, runnelopal::assemble, script, *times, &mut buffers.bytes)
            }
            (Work::Interpret { script, events, budget, times, .. }, Side::Ours) => {
                our_interpretation(script, events, *budget, &mut buffers.log, *times)
            }
            (Work::Interpret { image, events, budget, times, .. }, Side::Image) => {
                without_sequencer(our_run(image, events, *budget, &mut buffers.log, *times))
            }
            (Work::Interpret { script, events, budget, times, .. }, Side::Theirs) => {
                their_interpretation(script, events, *budget, &mut buffers.log, *times)
            }
            (_, Side::Image) => unreachable!("only an interpreter has an image run beside it"),
            (Work::Run { image, events, budget, times, .. }, Side::Ours) => {
                our_run(image, events, *budget, &mut buffers.log, *times)
            }
            (Work::Run { image, events, budget, times, .. }, Side::Theirs) => {
                their_run(image, events, *budget, &mut buffers.log, *times)
            }
            (Work::Parts { image, part, budget, .. }, Side::Ours) => our_parts(image, *part, *budget),
            (Work::Parts { image, part, budget, held }, Side::Theirs) => their_parts(image, *part, *budget, *held),
            (Work::Accesses { start, list, times, .. }, Side::Ours) => our_accesses(start, list, *times),
            (Work::Accesses { start, list, times, held }, Side::Theirs) => their_accesses(start, list, *times, *held),
            (Work::Events { start, list, times, .. }, Side::Ours) => our_events(start, list, *times),
            (Work::Events { start, list, times, held }, Side::Theirs) => their_events(start, list, *times, *held),
        }
    }
}

/// Makes a call that fills the front of a buffer, and returns how much it has written there: words, records or bytes.
#[inline(always)]
fn converted<R: Debug>(call: impl Fn(&[u8], &mut [u8]) -> Result<usize, R>, from: &[u8], times: usize, bytes: &mut [u8]) -> Done {
    let mut count = 0;
    for _ in 0..times {
        count = call(black_box(from), bytes).expect("the input is valid");
        black_box(&mut *bytes);
    }
    Done { numbers: [count as u64, 0, 0, 0], sum: 0, sequencer: None, state: None }
}

/// Lists the script, and reads the listing into the records.
fn there_and_back<L: Debug, R: Debug>(
    list: impl Fn(&[u8], &mut [u8]) -> Result<usize, L>,
    read: impl Fn(&[u8], &mut [u8]) -> Result<usize, R>,
    script: &[u8],
    times: usize,
    records: &mut [u8],
) -> Done {
    let mut text = vec![0xEE; runnelopal::TEXT_BYTES];
    let mut count = 0;
    for _ in 0..times {
        let length = list(black_box(script), &mut text).expect("the script is valid");
        count = read(black_box(&text[..length]), records).expect("a listing is valid");
        black_box(&mut *records);
    }
    Done { numbers: [count as u64, 0, 0, 0], sum: 0, sequencer: None, state: None }
}

fn our_numbers(run: &runnelopal::Run) -> [u64; 4] {
    [u64::from(run.ending), u64::from(run.steps), run.taken as u64, run.logged as u64]
}

fn their_numbers(run: &Ended) -> [u64; 4] {
    [u64::from(run.ending.number()), run.steps, run.events_taken as u64, run.values_logged as u64]
}

fn our_sequencer(sequencer: &runnelopal::Sequencer) -> Option<Sequencer> {
    let view = sequencer.view().expect("the sequencer is valid");
    Some(Sequencer { place: view.place, used: view.used as u32, counters: view.counters })
}

fn our_run(image: &[u8], events: &[u32], budget: u32, log: &mut [u64], times: usize) -> Done {
    let mut done = None;
    for _ in 0..times {
        let mut device = runnelopal::Device::fresh();
        let mut sequencer = runnelopal::Sequencer::fresh();
        let run = runnelopal::run(black_box(image), &mut device, &mut sequencer, events, budget, log).expect("the image is valid");
        done = Some((run, sequencer, device));
        black_box(&mut *log);
    }
    let (run, sequencer, device) = done.expect("at least one run");
    Done { numbers: our_numbers(&run), sum: 0, sequencer: our_sequencer(&sequencer), state: Some(device.bytes) }
}

fn their_run(image: &[u8], events: &[u32], budget: u32, log: &mut [u64], times: usize) -> Done {
    let mut done = None;
    for _ in 0..times {
        let mut device = Device::fresh();
        let mut sequencer = Sequencer::fresh();
        let lent = Lent { image: black_box(image), events, budget, log: &mut *log };
        let ended = sequencer::run(lent, &mut device, &mut sequencer, &mut ()).expect("the image is valid");
        done = Some((ended, sequencer, state::encode(&device)));
        black_box(&mut *log);
    }
    let (ended, sequencer, state) = done.expect("at least one run");
    Done { numbers: their_numbers(&ended), sum: 0, sequencer: Some(sequencer), state: Some(state) }
}

/// An interpreter has no sequencer.
fn without_sequencer(run: Done) -> Done {
    Done { sequencer: None, ..run }
}

fn our_interpretation(script: &[u8], events: &[u32], budget: u32, log: &mut [u64], times: usize) -> Done {
    let mut done = None;
    for _ in 0..times {
        let mut device = runnelopal::Device::fresh();
        let run = runnelopal::interpret(black_box(script), &mut device, events, budget, log).expect("the script is valid");
        done = Some((run, device));
        black_box(&mut *log);
    }
    let (run, device) = done.expect("at least one run");
    Done { numbers: our_numbers(&run), sum: 0, sequencer: None, state: Some(device.bytes) }
}

fn their_interpretation(script: &[u8], events: &[u32], budget: u32, log: &mut [u64], times: usize) -> Done {
    let mut done = None;
    for _ in 0..times {
        let mut device = Device::fresh();
        let lent = own_run::Lent { script: black_box(script), events, budget, log: &mut *log };
        let ended = own_run::interpret(lent, &mut device, &mut ()).expect("the script is valid");
        done = Some((ended, state::encode(&device)));
        black_box(&mut *log);
    }
    let (ended, state) = done.expect("at least one run");
    Done { numbers: their_numbers(&ended), sum: 0, sequencer: None, state: Some(state) }
}

/// Starts at a multiple of 64 bytes, so that a time depends less on where the stack of the process starts.
#[repr(align(64))]
struct Aligned<T>(T);

/// Adds the numbers of a call to those of the calls before it. The ending is that of the last call.
fn resumed(numbers: [u64; 4], part: [u64; 4]) -> [u64; 4] {
    [part[0], numbers[1] + part[1], numbers[2] + part[2], numbers[3] + part[3]]
}

fn our_parts(image: &[u8], part: u32, budget: u32) -> Done {
    let mut held = Aligned((runnelopal::Device::fresh(), runnelopal::Sequencer::fresh()));
    let (device, sequencer) = &mut held.0;
    let (mut numbers, mut sum) = ([0; 4], 0);
    while numbers[1] < u64::from(budget) {
        let run = runnelopal::run(black_box(image), device, sequencer, &[], part, &mut []).expect("the image is valid");
        numbers = resumed(numbers, our_numbers(&run));
        let on = run.outputs;
        sum = added(sum, outputs(on.sci, on.smi, on.monitor));
    }
    Done { numbers, sum, sequencer: our_sequencer(sequencer), state: Some(device.bytes) }
}

/// The saved bytes of a sequencer (docs/STATE.md).
fn encode(sequencer: &Sequencer) -> [u8; runnelopal::SEQUENCER_BYTES] {
    let mut bytes = [0; runnelopal::SEQUENCER_BYTES];
    let numbers = [sequencer.place, sequencer.used].into_iter().chain(sequencer.counters);
    for (field, number) in bytes.chunks_exact_mut(4).zip(numbers) {
        field.copy_from_slice(&number.to_le_bytes());
    }
    bytes
}

fn decode(bytes: &[u8; runnelopal::SEQUENCER_BYTES]) -> Sequencer {
    let number = |k: usize| u32::from_le_bytes([bytes[4 * k], bytes[4 * k + 1], bytes[4 * k + 2], bytes[4 * k + 3]]);
    Sequencer { place: number(0), used: number(1), counters: std::array::from_fn(|k| number(k + 2)) }
}

fn their_parts(image: &[u8], part: u32, budget: u32, held: Held) -> Done {
    let mut kept = Aligned((Device::fresh(), Sequencer::fresh()));
    let (device, sequencer) = &mut kept.0;
    let mut saved = Aligned((state::encode(device), encode(sequencer)));
    let (device_bytes, sequencer_bytes) = &mut saved.0;
    let (mut numbers, mut sum) = ([0; 4], 0);
    while numbers[1] < u64::from(budget) {
        if held == Held::Bytes {
            *device = state::decode(black_box(&*device_bytes)).expect("the state is valid");
            *sequencer = decode(black_box(&*sequencer_bytes));
        }
        let lent = Lent { image: black_box(image), events: &[], budget: part, log: &mut [] };
        let ended = sequencer::run(lent, device, sequencer, &mut ()).expect("the image is valid");
        numbers = resumed(numbers, their_numbers(&ended));
        let on = device.outputs();
        sum = added(sum, outputs(on.sci, on.smi, on.monitor));
        if held == Held::Bytes {
            *device_bytes = state::encode(device);
            *sequencer_bytes = encode(sequencer);
        }
    }
    Done { numbers, sum, sequencer: Some(*sequencer), state: Some(state::encode(device)) }
}

fn our_accesses(start: &state::StateBytes, list: &[Access], times: usize) -> Done {
    let mut held = Aligned(runnelopal::Device { bytes: *start });
    let device = &mut held.0;
    let mut sum = 0;
    for _ in 0..times {
        for access in black_box(list) {
            let answer = match access.written {
                None => device.read(access.width, access.port),
                Some(value) => device.write(access.width, access.port, value),
            };
            let answer = answer.expect("the access is valid");
            let on = answer.outputs;
            let owner = u64::from(answer.owner) << 44;
            sum = added(sum, owner | u64::from(answer.status) << 40 | u64::from(answer.value) << 3 | outputs(on.sci, on.smi, on.monitor));
        }
    }
    Done { numbers: [0; 4], sum, sequencer: None, state: Some(device.bytes) }
}

fn their_access(device: &mut Device, access: &Access) -> u64 {
    let answer = match access.written {
        None => device.single_read(access.width, access.port),
        Some(value) => device.single_write(access.width, access.port, value),
    };
    let answer = answer.expect("the access is valid");
    let on = device.outputs();
    let owner = u64::from(answer.owner.number()) << 44;
    owner | u64::from(answer.status) << 40 | u64::from(answer.value) << 3 | outputs(on.sci, on.smi, on.monitor)
}

/// Calls `with` on each item. Between the calls the device is kept as a struct or as bytes.
#[inline(always)]
fn each<T>(start: &state::StateBytes, list: &[T], times: usize, held: Held, with: impl Fn(&mut Device, &T) -> u64) -> Done {
    let mut sum = 0;
    let mut held_bytes = Aligned(*start);
    let bytes = &mut held_bytes.0;
    let mut held_device = Aligned(state::decode(bytes).expect("the state is valid"));
    let device = &mut held_device.0;
    for _ in 0..times {
        for item in black_box(list) {
            if held == Held::Struct {
                sum = added(sum, with(device, item));
            } else {
                let mut loaded = state::decode(black_box(&*bytes)).expect("the state is valid");
                sum = added(sum, with(&mut loaded, item));
                *bytes = state::encode(&loaded);
            }
        }
    }
    let state = if held == Held::Struct { state::encode(device) } else { *bytes };
    Done { numbers: [0; 4], sum, sequencer: None, state: Some(state) }
}

fn their_accesses(start: &state::StateBytes, list: &[Access], times: usize, held: Held) -> Done {
    each(start, list, times, held, their_access)
}

fn our_events(start: &state::StateBytes, list: &[u32], times: usize) -> Done {
    let mut held = Aligned(runnelopal::Device { bytes: *start });
    let device = &mut held.0;
    let mut sum = 0;
    for _ in 0..times {
        for number in black_box(list) {
            let on = device.event(*number).expect("the event is valid");
            sum = added(sum, outputs(on.sci, on.smi, on.monitor));
        }
    }
    Done { numbers: [0; 4], sum, sequencer: None, state: Some(device.bytes) }
}

fn their_events(start: &state::StateBytes, list: &[u32], times: usize, held: Held) -> Done {
    each(start, list, times, held, |device, number| {
        device.single_event(*number).expect("the event is valid");
        let on = device.outputs();
        outputs(on.sci, on.smi, on.monitor)
    })
}

//! The rows of the table.

use crate::inputs::{self, Script, MOST_LISTED, MOST_RECORDS};
use crate::work::{Done, Held, Work};

#[derive(Clone, Copy, PartialEq, Eq)]
pub enum Size {
    /// For the clock.
    Full,
    /// For callgrind.
    Small,
}

pub struct Row {
    pub group: &'static str,
    pub name: String,
    pub work: Work,
}

impl Row {
    /// How many items one repetition has, and what an item is.
    pub fn items(&self, done: &Done) -> (u64, &'static str) {
        match &self.work {
            Work::Compile { script, times } | Work::List { script, times } => ((script.len() / 12 * times) as u64, "record"),
            Work::Assemble { times, .. } | Work::ListAndAssemble { times, .. } => (done.numbers[0] * *times as u64, "record"),
            Work::Run { times, .. } | Work::Interpret { times, .. } => (done.numbers[1] * *times as u64, "step"),
            Work::Parts { .. } => (done.numbers[1], "step"),
            Work::Accesses { list, times, .. } => ((list.len() * times) as u64, "access"),
            Work::Events { list, times, .. } => ((list.len() * times) as u64, "event"),
        }
    }

    /// What is cleared before each repetition, outside the measured part.
    pub fn cleared(&self) -> &'static str {
        match self.work {
            Work::Compile { .. } => "image cleared",
            Work::Assemble { .. } | Work::ListAndAssemble { .. } => "records cleared",
            Work::List { .. } => "text cleared",
            Work::Run { log: 0, .. } | Work::Interpret { log: 0, .. } => "no log",
            Work::Run { .. } | Work::Interpret { .. } => "log cleared",
            Work::Parts { .. } => "no log",
            Work::Accesses { .. } | Work::Events { .. } => "no buffer",
        }
    }
}

/// In the names of the two rows of a test that fails.
pub const FAILED_TEST: &str = "failed test";

const COMPILE: &str = "Compile, 1,023 records";
const TEXTS: &str = "Text scripts, 1,024 records";
const RUN: &str = "Runs";
const INTERPRET: &str = "The interpreter, beside our run of the compiled image and the model's interpreter";
const PARTS: &str = "Runs in parts: ours load and save the bytes of device and sequencer at each call, theirs keep structs";
const PARTS_BYTES: &str = "Runs in parts: both load and save the bytes of device and sequencer at each call";
const SINGLE: &str = "Single calls: ours load and save the state's bytes at each call, theirs keep a struct";
const SINGLE_BYTES: &str = "Single calls: both load and save the state's bytes at each call";
const COMPILE_GROWTH: &str = "How a compile grows";
const RUN_GROWTH: &str = "How a run grows";

fn compile(group: &'static str, name: &str, script: Vec<u8>, size: Size) -> Row {
    let times = match size {
        Size::Full => 4_096 * MOST_RECORDS / (script.len() / 12) / 4,
        Size::Small => 4,
    };
    Row { group, name: name.to_string(), work: Work::Compile { script, times } }
}

/// Text scripts, read and listed.
fn texts(size: Size) -> Vec<Row> {
    let times = if size == Size::Full { 1_024 } else { 4 };
    let script = inputs::mixture(MOST_LISTED);
    let row = |name: &str, work| Row { group: TEXTS, name: format!("texts: {name}"), work };
    vec![
        row("reading a listing", Work::Assemble { text: inputs::listing(&script), times }),
        row("reading it with comments and CR LF", Work::Assemble { text: inputs::commented(&script), times }),
        row("listing", Work::List { script: script.clone(), times }),
        row("reading and listing", Work::ListAndAssemble { script, times }),
    ]
}

fn run(name: &str, script: &Script, log: usize) -> Row {
    let work = Work::Run { image: script.image(), events: Vec::new(), budget: u32::MAX, log, times: 1 };
    Row { group: RUN, name: name.to_string(), work }
}

/// The same script as the row of a run, interpreted.
fn interpret(row: &Row, script: &Script) -> Row {
    let Work::Run { image, events, budget, log, times } = &row.work else {
        unreachable!("the row is a run");
    };
    let (image, events) = (image.clone(), events.clone());
    let work = Work::Interpret { script: script.bytes().to_vec(), image, events, budget: *budget, log: *log, times: *times };
    Row { group: INTERPRET, name: format!("interpreter: {}", row.name), work }
}

/// The runs, each with its script.
fn runs(size: Size) -> Vec<(Row, Script)> {
    let small = |whole: u32, part: u32| if size == Size::Full { whole } else { part };
    let scripts = [
        ("loop in a loop, empty body", inputs::looped(&[small(100, 1), 50_000], |_| ()), 0),
        ("8 loops, empty body", inputs::looped(&[small(7, 3); 8], |_| ()), 0),
        ("loop in a loop, one delay", inputs::looped(&[small(40, 1), 50_000], inputs::one_delay), 0),
        ("loop in a loop, one write to P_CNT", inputs::looped(&[small(40, 1), 50_000], inputs::one_write), 0),
        ("loop in a loop, one unclaimed write", inputs::looped(&[small(40, 1), 50_000], inputs::one_unclaimed), 0),
        ("register set-ups", inputs::looped(&[small(40_000, 1_000)], inputs::set_up), 0),
        ("reads to the end of a log", inputs::reads(), small(1_000_000, 50_000) as usize),
        ("tests and jumps", inputs::looped(&[small(40, 1), 5_000], inputs::tests), 0),
    ];
    let mut runs: Vec<_> = scripts.into_iter().map(|(name, script, log)| (run(name, &script, log), script)).collect();
    let writes = inputs::looped(&[4_096], inputs::one_write);
    let mut events = run("4,096 writes, each after an event", &writes, 0);
    if let Work::Run { events, times, .. } = &mut events.work {
        *events = inputs::many_events();
        *times = small(300, 4) as usize;
    }
    runs.push((events, writes));
    runs
}

/// A test that fails over 1,000 records and one that fails over one record, in a loop. They should cost the same.
fn failed_tests(size: Size) -> Vec<Row> {
    let turns = if size == Size::Full { [40, 50_000] } else { [1, 50_000] };
    [1_000, 1]
        .into_iter()
        .map(|records| {
            let script = inputs::looped(&turns, |script| inputs::failed_test(script, records));
            let plural = if records == 1 { "" } else { "s" };
            interpret(&run(&format!("{FAILED_TEST} over {records} record{plural}"), &script, 0), &script)
        })
        .collect()
}

/// A run of the register set-ups that is resumed after each part, and ended by the budget.
fn parts(size: Size) -> Vec<Row> {
    let image = inputs::looped(&[65_535, 65_535], inputs::set_up).image();
    let small = |whole: u32, part: u32| if size == Size::Full { whole } else { part };
    let row = |group, part: u32, budget, held, from: &str| Row {
        group,
        name: format!("register set-ups, in parts of {part} step{}{from}", if part == 1 { "" } else { "s" }),
        work: Work::Parts { image: image.clone(), part, budget, held },
    };
    let (long, short) = (small(2_000_000, 100_000), small(200_000, 10_000));
    vec![
        row(PARTS, 100, long, Held::Struct, ""),
        row(PARTS, 1, short, Held::Struct, ""),
        row(PARTS_BYTES, 100, long, Held::Bytes, ", from bytes"),
        row(PARTS_BYTES, 1, short, Held::Bytes, ", from bytes"),
    ]
}

pub fn rows(size: Size) -> Vec<Row> {
    let full = size == Size::Full;
    let small = |whole: u32, part: u32| if full { whole } else { part };
    let mut rows = vec![
        compile(COMPILE, "flat writes", inputs::flat(MOST_RECORDS), size),
        compile(COMPILE, "one nest of 16 blocks around all writes", inputs::one_nest(MOST_RECORDS), size),
        compile(COMPILE, "nests of 16 blocks, ifs with elses", inputs::nests(MOST_RECORDS), size),
        compile(COMPILE, "ifs with elses side by side", inputs::many_ifs(MOST_RECORDS), size),
    ];

    rows.extend(texts(size));

    let runs = runs(size);
    let interpreted: Vec<Row> = runs.iter().map(|(row, script)| interpret(row, script)).collect();
    rows.extend(runs.into_iter().map(|(row, _)| row));
    rows.extend(interpreted);
    rows.extend(failed_tests(size));
    rows.extend(parts(size));

    let single_times = small(20_000, 500) as usize;
    let access = |group, name: &str, list: Vec<_>, held| Row {
        group,
        name: name.to_string(),
        work: Work::Accesses { start: inputs::start(), list, times: single_times, held },
    };
    let event = |group, name: &str, list: Vec<_>, held| Row {
        group,
        name: name.to_string(),
        work: Work::Events { start: inputs::start(), list, times: single_times, held },
    };
    rows.extend([
        access(SINGLE, "reads, all blocks", inputs::single_reads(), Held::Struct),
        access(SINGLE, "writes, all blocks", inputs::single_writes(), Held::Struct),
        event(SINGLE, "ticks", inputs::ticks(), Held::Struct),
        event(SINGLE, "pins", inputs::pins(), Held::Struct),
        event(SINGLE, "alarm, bus master, sensors, button", inputs::alarms(), Held::Struct),
        event(SINGLE, "resets", inputs::resets(), Held::Struct),
        access(SINGLE_BYTES, "reads, all blocks, from bytes", inputs::single_reads(), Held::Bytes),
        access(SINGLE_BYTES, "writes, all blocks, from bytes", inputs::single_writes(), Held::Bytes),
        event(SINGLE_BYTES, "every event, from bytes", inputs::every_event(), Held::Bytes),
    ]);

    for records in [64, 128, 256, 512, MOST_RECORDS] {
        let name = format!("flat writes, {records} records");
        rows.push(compile(COMPILE_GROWTH, &name, inputs::flat(records), size));
    }
    for records in [64, 128, 256, 512, MOST_RECORDS] {
        let name = format!("one nest of 16 blocks, {records} records");
        rows.push(compile(COMPILE_GROWTH, &name, inputs::one_nest(records), size));
    }
    let forever = inputs::looped(&[65_535, 65_535], inputs::set_up).image();
    for power in 3..=small(7, 5) {
        let budget = 10_u32.pow(power);
        let times = small((4_000_000 / budget).max(1), 1) as usize;
        let work = Work::Run { image: forever.clone(), events: Vec::new(), budget, log: 0, times };
        rows.push(Row { group: RUN_GROWTH, name: format!("register set-ups, 10^{power} steps"), work });
    }
    rows
}

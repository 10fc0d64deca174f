//! The stream of commands and answers (docs/CASES.md).

use std::fmt;
use std::hash::{DefaultHasher, Hash, Hasher};
use std::io::{self, BufRead, Write};

use crate::blocks;
use crate::compiler::{self, RECORD_BYTES, RECORD_LIMIT, WORD_LIMIT};
use crate::device::{Access, Answer, Device, Outputs, Refusal};
use crate::own_run::{self, own_run, OwnRun};
use crate::scripts;
use crate::sequencer::{self, Ended, Ending, Lent, Observer, Sequencer, COUNTER_LIMIT};
use crate::state::{self, SequencerBytes, StateBytes};
use crate::text;

/// A line may have at most this many bytes before its line feed.
pub const LINE_LIMIT: usize = 65_536;

/// The buffer of a command that compiles, reads a text or lists has at most this many bytes, and so
/// has its script or text. The image and the script of a run have the same limit.
pub const COMPILE_LIMIT: usize = 16_384;

/// The log of a run has at most this many entries.
pub const LOG_LIMIT: usize = 2_048;

/// A command has at most this many events.
pub const EVENTS_READ: usize = 4_352;

/// Before a run, entry k of the log is this plus k. No read leaves such an entry, because its upper
/// half is not the number of an owner.
const LOG_LENT: u64 = 0xA000_0000_0000_0000;

/// The own run of a script, which has no budget, is left after this many steps.
pub const OWN_RUN_STEPS: u64 = 1 << 18;

/// This many accesses of a run are kept. Of those after them only a checksum is, because a run can
/// have more accesses than fit into the memory.
const ACCESSES_KEPT: usize = 1 << 18;

/// Before the call, byte k of the buffer of such a command is k modulo this.
const BUFFER_CYCLE: usize = 251;

/// The longest number, in digits.
const NUMBER_DIGITS: usize = 8;

/// More words than the longest command has.
const COMMAND_WORDS: usize = 12;

/// An empty byte string in the commands that run something.
const NOTHING: &[u8] = b"-";

enum Command {
    Read { width: u32, port: u32 },
    Write { width: u32, port: u32, value: u32 },
    Event(u32),
    Outputs,
    State,
    Load(Box<StateBytes>),
    Fresh,
    Compile { length: usize, script: Vec<u8> },
    Assemble { length: usize, text: Vec<u8> },
    List { length: usize, script: Vec<u8> },
    SetSequencer(Sequencer),
    Sequencer,
    LoadSequencer(Box<SequencerBytes>),
    RunImage(Request),
    RunScript(Request),
    Interpret(Request),
}

/// The arguments of `X`, `T` and `N`.
struct Request {
    budget: u32,
    size: usize,
    events: Vec<u32>,
    /// The image or the script.
    bytes: Vec<u8>,
}

impl Command {
    /// Returns nothing if the line is `UNREAD`.
    fn parse(line: &[u8]) -> Option<Command> {
        if line.len() > LINE_LIMIT {
            return None;
        }
        // Words are separated by exactly one space, so there is an empty word between two spaces,
        // and it is not a number. Words beyond the limit stay joined; no command has that many.
        let words: Vec<&[u8]> = line.splitn(COMMAND_WORDS, |byte| *byte == b' ').collect();
        match words.as_slice() {
            [b"R", width, port] => Some(Command::Read {
                width: number(width)?,
                port: number(port)?,
            }),
            [b"W", width, port, value] => Some(Command::Write {
                width: number(width)?,
                port: number(port)?,
                value: number(value)?,
            }),
            [b"E", event] => Some(Command::Event(number(event)?)),
            [b"O"] => Some(Command::Outputs),
            [b"S"] => Some(Command::State),
            [b"L", digits] => Some(Command::Load(Box::new(state_bytes(digits)?))),
            [b"F"] => Some(Command::Fresh),
            [b"C", length, script @ ..] => Some(Command::Compile {
                length: buffer_length(length)?,
                script: last_bytes(script)?,
            }),
            [b"A", length, text @ ..] => Some(Command::Assemble {
                length: buffer_length(length)?,
                text: last_bytes(text)?,
            }),
            [b"D", length, script @ ..] => Some(Command::List {
                length: buffer_length(length)?,
                script: last_bytes(script)?,
            }),
            [b"Q"] => Some(Command::SetSequencer(Sequencer::fresh())),
            [b"Q", place, used, counters @ ..] => Some(Command::SetSequencer(Sequencer {
                place: number(place)?,
                used: number(used)?,
                counters: eight_numbers(counters)?,
            })),
            [b"P"] => Some(Command::Sequencer),
            [b"G", digits] => Some(Command::LoadSequencer(Box::new(sequencer_bytes(digits)?))),
            [b"X", budget, size, events, image] => Some(Command::RunImage(Request::parse(
                budget, size, events, image,
            )?)),
            [b"T", budget, size, events, script] => Some(Command::RunScript(Request::parse(
                budget, size, events, script,
            )?)),
            [b"N", budget, size, events, script] => Some(Command::Interpret(Request::parse(
                budget, size, events, script,
            )?)),
            _ => None,
        }
    }
}

impl Request {
    fn parse(budget: &[u8], size: &[u8], events: &[u8], bytes: &[u8]) -> Option<Request> {
        let request = Request {
            budget: number(budget)?,
            size: usize::try_from(number(size)?).ok()?,
            events: event_numbers(&bytes_or_nothing(events)?)?,
            bytes: bytes_or_nothing(bytes)?,
        };
        let within_limits = request.size <= LOG_LIMIT
            && request.events.len() <= EVENTS_READ
            && request.bytes.len() <= COMPILE_LIMIT;
        within_limits.then_some(request)
    }

    fn log(&self) -> Vec<u64> {
        (LOG_LENT..).take(self.size).collect()
    }
}

/// One to eight hex digits.
fn number(word: &[u8]) -> Option<u32> {
    if word.is_empty() || word.len() > NUMBER_DIGITS {
        return None;
    }
    word.iter().try_fold(0, |number, digit| {
        Some(number << 4 | u32::from(hex_digit(*digit)?))
    })
}

/// Two hex digits for each byte, the high digit first.
fn byte_string(word: &[u8]) -> Option<Vec<u8>> {
    let pairs = word.chunks_exact(2);
    if !pairs.remainder().is_empty() {
        return None;
    }
    pairs
        .map(|digits| Some(hex_digit(digits[0])? << 4 | hex_digit(digits[1])?))
        .collect()
}

/// A byte string that is exactly as long as a saved state.
fn state_bytes(word: &[u8]) -> Option<StateBytes> {
    byte_string(word)?.try_into().ok()
}

/// A byte string that is exactly as long as a saved sequencer.
fn sequencer_bytes(word: &[u8]) -> Option<SequencerBytes> {
    byte_string(word)?.try_into().ok()
}

fn buffer_length(word: &[u8]) -> Option<usize> {
    let length = usize::try_from(number(word)?).ok()?;
    (length <= COMPILE_LIMIT).then_some(length)
}

/// The script or text at the end of a command. An empty one is left out, so an empty word here means
/// a space after the last word, which is wrong.
fn last_bytes(words: &[&[u8]]) -> Option<Vec<u8>> {
    match words {
        [] => Some(Vec::new()),
        [word] => {
            let bytes = byte_string(word)?;
            (1..=COMPILE_LIMIT).contains(&bytes.len()).then_some(bytes)
        }
        _ => None,
    }
}

/// A byte string, or `-` for an empty one.
fn bytes_or_nothing(word: &[u8]) -> Option<Vec<u8>> {
    match word {
        NOTHING => Some(Vec::new()),
        b"" => None,
        digits => byte_string(digits),
    }
}

/// Four bytes for each event, low byte first.
fn event_numbers(bytes: &[u8]) -> Option<Vec<u32>> {
    let (events, rest) = bytes.as_chunks();
    let numbers = || events.iter().map(|event| u32::from_le_bytes(*event));
    rest.is_empty().then(|| numbers().collect())
}

fn eight_numbers(words: &[&[u8]]) -> Option<[u32; COUNTER_LIMIT]> {
    let numbers: Option<Vec<u32>> = words.iter().map(|word| number(word)).collect();
    numbers?.try_into().ok()
}

fn hex_digit(digit: u8) -> Option<u8> {
    match digit {
        b'0'..=b'9' => Some(digit - b'0'),
        b'A'..=b'F' => Some(digit - b'A' + 10),
        b'a'..=b'f' => Some(digit - b'a' + 10),
        _ => None,
    }
}

/// The answer to one command.
#[derive(Clone, Debug, PartialEq, Eq)]
pub enum Reply {
    Access(Answer, Outputs),
    Event(Outputs),
    Refused(Refusal),
    Outputs(Outputs),
    State(Box<StateBytes>),
    /// A device or a sequencer was loaded.
    Loaded,
    Fresh,
    /// The result of the compiler, and the whole buffer after it.
    Compiled(Result<usize, compiler::Refusal>, Vec<u8>),
    /// The result of reading a text, and the whole record buffer after it.
    Assembled(Result<usize, text::Refusal>, Vec<u8>),
    /// The result of listing a script, and the whole text buffer after it.
    Listed(Result<usize, text::Refusal>, Vec<u8>),
    /// The sequencer was set.
    Set,
    Sequencer(Box<SequencerBytes>),
    Ran(Box<Ran>),
    Interpreted(Box<Interpreted>),
    Unread,
}

/// A run, refused or not, and the sequencer, device and log after it.
#[derive(Clone, Debug, PartialEq, Eq)]
pub struct Ran {
    pub outcome: Result<Ended, RunRefusal>,
    pub sequencer: Sequencer,
    pub state: StateBytes,
    pub log: Vec<u64>,
}

/// An interpreted script, refused or not, and the device and log after it. There is no sequencer.
#[derive(Clone, Debug, PartialEq, Eq)]
pub struct Interpreted {
    pub outcome: Result<Ended, RunRefusal>,
    pub state: StateBytes,
    pub log: Vec<u64>,
}

/// A refusal of the compiler, the sequencer or the interpreter.
#[derive(Clone, Copy, Debug, PartialEq, Eq)]
pub struct RunRefusal {
    pub number: u32,
    pub place: usize,
}

impl From<compiler::Refusal> for RunRefusal {
    fn from(refusal: compiler::Refusal) -> Self {
        RunRefusal {
            number: refusal.fault.number(),
            place: refusal.place,
        }
    }
}

impl From<sequencer::Refusal> for RunRefusal {
    fn from(refusal: sequencer::Refusal) -> Self {
        RunRefusal {
            number: refusal.number(),
            place: refusal.place(),
        }
    }
}

impl From<own_run::Refusal> for RunRefusal {
    fn from(refusal: own_run::Refusal) -> Self {
        RunRefusal {
            number: refusal.number(),
            place: refusal.place(),
        }
    }
}

impl fmt::Display for Ran {
    fn fmt(&self, line: &mut fmt::Formatter<'_>) -> fmt::Result {
        write_outcome(line, &self.outcome)?;
        write!(line, " {} {}", self.sequencer.place, self.sequencer.used)?;
        for counter in self.sequencer.counters {
            write!(line, " {counter}")?;
        }
        write_state_and_log(line, &self.state, &self.log)
    }
}

impl fmt::Display for Interpreted {
    fn fmt(&self, line: &mut fmt::Formatter<'_>) -> fmt::Result {
        write_outcome(line, &self.outcome)?;
        write_state_and_log(line, &self.state, &self.log)
    }
}

fn write_outcome(
    line: &mut fmt::Formatter<'_>,
    outcome: &Result<Ended, RunRefusal>,
) -> fmt::Result {
    match outcome {
        Ok(ended) => write!(
            line,
            "ENDED {} {} {} {}",
            ended.ending.number(),
            ended.steps,
            ended.events_taken,
            ended.values_logged
        ),
        Err(refusal) => write!(line, "REFUSED {} {}", refusal.number, refusal.place),
    }
}

/// For a log of length 0 the space before it is left out too.
fn write_state_and_log(
    line: &mut fmt::Formatter<'_>,
    state: &StateBytes,
    log: &[u64],
) -> fmt::Result {
    line.write_str(" ")?;
    write_bytes(line, state)?;
    if !log.is_empty() {
        line.write_str(" ")?;
    }
    log.iter()
        .try_for_each(|entry| write!(line, "{entry:016X}"))
}

impl fmt::Display for Reply {
    fn fmt(&self, line: &mut fmt::Formatter<'_>) -> fmt::Result {
        match self {
            Reply::Access(answer, outputs) => {
                write!(
                    line,
                    "DONE {} {:08X} {outputs} {}",
                    answer.status,
                    answer.value,
                    answer.owner.number()
                )
            }
            Reply::Event(outputs) => write!(line, "DONE {outputs}"),
            Reply::Refused(refusal) => write!(line, "REFUSED {} 0", refusal.number()),
            Reply::Outputs(outputs) => write!(line, "OUTPUTS {outputs}"),
            Reply::State(bytes) => {
                line.write_str("STATE ")?;
                write_bytes(line, bytes.as_slice())
            }
            Reply::Loaded => line.write_str("LOADED"),
            Reply::Fresh => line.write_str("FRESH"),
            Reply::Compiled(outcome, image) => {
                match outcome {
                    Ok(words) => write!(line, "COMPILED {words}")?,
                    Err(compiler::Refusal { fault, place }) => {
                        write!(line, "REFUSED {} {place}", fault.number())?;
                    }
                }
                write_buffer(line, image)
            }
            Reply::Assembled(outcome, records) => {
                write_text_outcome(line, "ASSEMBLED", outcome)?;
                write_buffer(line, records)
            }
            Reply::Listed(outcome, text) => {
                write_text_outcome(line, "LISTED", outcome)?;
                write_buffer(line, text)
            }
            Reply::Set => line.write_str("SET"),
            Reply::Sequencer(bytes) => {
                line.write_str("SEQUENCER ")?;
                write_bytes(line, bytes.as_slice())
            }
            Reply::Ran(ran) => ran.fmt(line),
            Reply::Interpreted(interpreted) => interpreted.fmt(line),
            Reply::Unread => line.write_str("UNREAD"),
        }
    }
}

fn write_text_outcome(
    line: &mut fmt::Formatter<'_>,
    done: &str,
    outcome: &Result<usize, text::Refusal>,
) -> fmt::Result {
    match outcome {
        Ok(count) => write!(line, "{done} {count}"),
        Err(text::Refusal { fault, place }) => write!(line, "REFUSED {} {place}", fault.number()),
    }
}

/// For a buffer of 0 bytes the space before it is left out too.
fn write_buffer(line: &mut fmt::Formatter<'_>, buffer: &[u8]) -> fmt::Result {
    if !buffer.is_empty() {
        line.write_str(" ")?;
    }
    write_bytes(line, buffer)
}

fn write_bytes(line: &mut fmt::Formatter<'_>, bytes: &[u8]) -> fmt::Result {
    bytes.iter().try_for_each(|byte| write!(line, "{byte:02X}"))
}

impl fmt::Display for Outputs {
    fn fmt(&self, line: &mut fmt::Formatter<'_>) -> fmt::Result {
        [self.sci, self.smi, self.monitor]
            .iter()
            .try_for_each(|output| write!(line, "{}", u8::from(*output)))
    }
}

/// One device and one sequencer, fresh at first, on which the commands are carried out.
#[derive(Clone)]
pub struct Session {
    device: Device,
    sequencer: Sequencer,
}

impl Session {
    pub fn new() -> Self {
        Session {
            device: Device::fresh(),
            sequencer: Sequencer::fresh(),
        }
    }

    pub fn device(&self) -> &Device {
        &self.device
    }

    pub fn sequencer(&self) -> &Sequencer {
        &self.sequencer
    }

    /// Carries out the command of a line and returns the answer.
    pub fn answer(&mut self, line: &[u8]) -> Reply {
        match Command::parse(line) {
            Some(command) => self.execute(command).unwrap_or_else(Reply::Refused),
            None => Reply::Unread,
        }
    }

    fn execute(&mut self, command: Command) -> Result<Reply, Refusal> {
        match command {
            Command::Read { width, port } => {
                let answer = self.device.single_read(width, port)?;
                Ok(Reply::Access(answer, self.device.outputs()))
            }
            Command::Write { width, port, value } => {
                let answer = self.device.single_write(width, port, value)?;
                Ok(Reply::Access(answer, self.device.outputs()))
            }
            Command::Event(number) => {
                self.device.single_event(number)?;
                Ok(Reply::Event(self.device.outputs()))
            }
            Command::Outputs => Ok(Reply::Outputs(self.device.outputs())),
            Command::State => Ok(Reply::State(Box::new(state::encode(&self.device)))),
            Command::Load(bytes) => {
                self.device = state::decode(&bytes).ok_or(Refusal::StateOutOfRange)?;
                Ok(Reply::Loaded)
            }
            Command::Fresh => {
                self.device = Device::fresh();
                Ok(Reply::Fresh)
            }
            Command::Compile { length, script } => {
                let mut image = lent_buffer(length);
                let outcome = compiler::compile(&script, &mut image);
                Ok(Reply::Compiled(outcome, image))
            }
            Command::Assemble { length, text } => {
                check_reading(&text);
                let mut records = lent_buffer(length);
                let outcome = text::read(&text, &mut records);
                Ok(Reply::Assembled(outcome, records))
            }
            Command::List { length, script } => {
                check_listing(&script);
                let mut text = lent_buffer(length);
                let outcome = text::list(&script, &mut text);
                Ok(Reply::Listed(outcome, text))
            }
            Command::SetSequencer(sequencer) => {
                self.sequencer = sequencer;
                Ok(Reply::Set)
            }
            Command::Sequencer => {
                let bytes = state::encode_sequencer(&self.sequencer);
                Ok(Reply::Sequencer(Box::new(bytes)))
            }
            Command::LoadSequencer(bytes) => {
                self.sequencer = state::decode_sequencer(&bytes);
                Ok(Reply::Loaded)
            }
            Command::RunImage(request) => {
                let mut log = request.log();
                let outcome = self.run_image(&request, &mut log);
                Ok(self.ran(outcome, log))
            }
            Command::RunScript(request) => {
                let (left, sequencer) = match self.sequencer == Sequencer::fresh() {
                    true => self.both_ways(&request),
                    // The interpreter always starts at the beginning of the script.
                    false => Left::of_image(&self.device, self.sequencer, &request),
                };
                self.device = left.device;
                self.sequencer = sequencer;
                Ok(self.ran(left.outcome, left.log))
            }
            // The sequencer of the compiled script is not used any further.
            Command::Interpret(request) => {
                let (left, _) = self.both_ways(&request);
                self.device = left.device;
                Ok(Reply::Interpreted(Box::new(Interpreted {
                    outcome: left.outcome,
                    state: state::encode(&self.device),
                    log: left.log,
                })))
            }
        }
    }

    fn ran(&self, outcome: Result<Ended, RunRefusal>, log: Vec<u64>) -> Reply {
        Reply::Ran(Box::new(Ran {
            outcome,
            sequencer: self.sequencer,
            state: state::encode(&self.device),
            log,
        }))
    }

    fn run_image(&mut self, request: &Request, log: &mut [u64]) -> Result<Ended, RunRefusal> {
        let lent = Lent {
            image: &request.bytes,
            events: &request.events,
            budget: request.budget,
            log,
        };
        let ended = sequencer::run(lent, &mut self.device, &mut self.sequencer, &mut ())?;
        Ok(ended)
    }

    /// Interprets a script, and also compiles it and runs its image from a fresh sequencer. Panics if
    /// the two differ. Returns what the interpreter leaves, and the sequencer after the run of the
    /// image.
    fn both_ways(&self, request: &Request) -> (Left, Sequencer) {
        let by_records = Left::of_interpreter(&self.device, request);
        let (by_words, sequencer) = Left::of_image(&self.device, Sequencer::fresh(), request);
        by_records.check_same(&by_words);
        if let Ok(ended) = &by_records.outcome {
            by_records.check_own_run(ended, &self.device, request);
            if ended.ending == Ending::Halted {
                check_at_halt(&sequencer, &request.bytes);
            }
        }
        (by_records, sequencer)
    }
}

fn lent_buffer(length: usize) -> Vec<u8> {
    (0..length).map(|k| (k % BUFFER_CYCLE) as u8).collect()
}

/// The records of a text have a listing, unless there are too many of them, and reading the listing
/// returns the same records. Panics otherwise.
fn check_reading(text: &[u8]) {
    let Ok(records) = text::records(text) else {
        return;
    };
    let script = scripts::encode(&records);
    let listed = check_listing(&script);
    assert_eq!(
        listed,
        records.len() <= RECORD_LIMIT,
        "the records of a text have a listing"
    );
}

/// Reading the listing of a script, if there is one, returns the same bytes, and no line of it is too
/// long. Panics otherwise. Returns whether there is a listing.
fn check_listing(script: &[u8]) -> bool {
    let Ok(listing) = text::listing(script) else {
        return false;
    };
    assert!(
        text::lines(&listing).all(|line| line.len() <= text::LINE_BYTES),
        "no line of a listing is too long"
    );
    let mut records = vec![0; script.len()];
    assert_eq!(
        text::read(&listing, &mut records),
        Ok(script.len() / RECORD_BYTES),
        "a listing can be read"
    );
    assert_eq!(records, script, "reading a listing returns the same bytes");
    true
}

/// The accesses of a run.
#[derive(Default)]
struct Accesses {
    first: Vec<Access>,
    /// How many there are, those that are not kept included.
    count: u64,
    rest: DefaultHasher,
}

impl Observer for Accesses {
    fn access(&mut self, access: impl FnOnce() -> Access) {
        self.count += 1;
        if self.first.len() < ACCESSES_KEPT {
            self.first.push(access());
        } else {
            access().hash(&mut self.rest);
        }
    }
}

/// What a script leaves, interpreted or compiled. After a refusal device and log are as before.
struct Left {
    outcome: Result<Ended, RunRefusal>,
    device: Device,
    log: Vec<u64>,
    accesses: Accesses,
}

impl Left {
    fn of_interpreter(device: &Device, request: &Request) -> Left {
        let (mut device, mut log) = (device.clone(), request.log());
        let mut accesses = Accesses::default();
        let lent = own_run::Lent {
            script: &request.bytes,
            events: &request.events,
            budget: request.budget,
            log: &mut log,
        };
        let outcome = own_run::interpret(lent, &mut device, &mut accesses);
        Left {
            outcome: outcome.map_err(RunRefusal::from),
            device,
            log,
            accesses,
        }
    }

    /// Compiles the script and runs its image from this sequencer. Also returns the sequencer after
    /// the run, which is the same one after a refusal.
    fn of_image(device: &Device, mut sequencer: Sequencer, request: &Request) -> (Left, Sequencer) {
        let (mut device, mut log) = (device.clone(), request.log());
        let mut accesses = Accesses::default();
        let mut image = [0; WORD_LIMIT * RECORD_BYTES];
        let compiled = compiler::compile(&request.bytes, &mut image).map_err(RunRefusal::from);
        let outcome = compiled.and_then(|words| {
            let lent = Lent {
                image: &image[..words * RECORD_BYTES],
                events: &request.events,
                budget: request.budget,
                log: &mut log,
            };
            let ended = sequencer::run(lent, &mut device, &mut sequencer, &mut accesses)?;
            Ok(ended)
        });
        let left = Left {
            outcome,
            device,
            log,
            accesses,
        };
        (left, sequencer)
    }

    fn check_same(&self, by_words: &Left) {
        assert_eq!(
            by_words.outcome, self.outcome,
            "sequencer and interpreter end the same way"
        );
        assert_eq!(by_words.device, self.device, "the devices are the same");
        assert_eq!(by_words.log, self.log, "the logs are the same");
        let (one, other) = (&self.accesses, &by_words.accesses);
        assert_eq!(other.first, one.first, "the accesses are the same");
        assert_eq!(
            (other.count, other.rest.finish()),
            (one.count, one.rest.finish()),
            "the accesses after those that are kept are the same"
        );
    }

    /// Checks that the run is the script's own run, or its beginning if the budget or the log is too
    /// small. Of a very long run only the numbers are checked.
    fn check_own_run(&self, ended: &Ended, before: &Device, request: &Request) {
        let budget = u64::from(request.budget);
        match ended.ending {
            Ending::Halted => assert!(ended.steps <= budget),
            Ending::BudgetSpent => assert_eq!(ended.steps, budget),
            Ending::LogFull => assert!(ended.steps < budget && ended.values_logged == request.size),
            other => panic!("a script ended with {}", other.number()),
        }
        assert_eq!(
            ended.events_taken as u64,
            self.accesses.count.min(request.events.len() as u64),
            "each access takes an event while there are any"
        );
        let own = own_run(&request.bytes, before, &request.events, OWN_RUN_STEPS);
        match own {
            Some(own) if ended.ending == Ending::Halted => self.check_whole(ended, &own),
            Some(own) => self.check_beginning(ended, &own),
            None => assert!(ended.ending != Ending::Halted || ended.steps > OWN_RUN_STEPS),
        }
    }

    fn check_whole(&self, ended: &Ended, own: &OwnRun) {
        assert_eq!(ended.steps, own.steps, "the steps are those of the own run");
        assert_eq!(self.device, own.device, "the device is that of the own run");
        assert_eq!(self.log[..ended.values_logged], own.entries);
        assert_eq!(self.accesses.first, own.accesses);
    }

    fn check_beginning(&self, ended: &Ended, own: &OwnRun) {
        assert!(ended.steps < own.steps, "the run stops before its end");
        assert!(
            own.accesses.starts_with(&self.accesses.first),
            "the accesses are those of the own run, in order"
        );
        assert!(
            own.entries.starts_with(&self.log[..ended.values_logged]),
            "the entries are those of the own run, in order"
        );
    }
}

/// After a halt the sequencer is at the last word, and no counter is in use.
fn check_at_halt(sequencer: &Sequencer, script: &[u8]) {
    let script = blocks::nest(script).expect("the script was accepted");
    let halt = Sequencer {
        place: u32::try_from(blocks::word_count(&script) - 1).expect("there are few words"),
        ..Sequencer::fresh()
    };
    assert_eq!(*sequencer, halt, "the place of the sequencer is the halt");
}

/// Answers every command of the input.
pub fn answer_all(input: &mut impl BufRead, output: &mut impl Write) -> io::Result<()> {
    let mut session = Session::new();
    let mut line = Vec::new();
    while read_line(input, &mut line)? {
        writeln!(output, "{}", session.answer(&line))?;
    }
    Ok(())
}

/// Reads the next line without its line feed. Returns false at the end of the input. Of a line that
/// is too long, only enough is kept to recognise it.
fn read_line(input: &mut impl BufRead, line: &mut Vec<u8>) -> io::Result<bool> {
    line.clear();
    let mut any = false;
    loop {
        let chunk = match input.fill_buf() {
            Ok(chunk) => chunk,
            Err(error) if error.kind() == io::ErrorKind::Interrupted => continue,
            Err(error) => return Err(error),
        };
        if chunk.is_empty() {
            return Ok(any);
        }
        any = true;
        let end = chunk.iter().position(|byte| *byte == b'\n');
        let text = &chunk[..end.unwrap_or(chunk.len())];
        let room = (LINE_LIMIT + 1).saturating_sub(line.len());
        line.extend_from_slice(&text[..text.len().min(room)]);
        let used = end.map_or(chunk.len(), |end| end + 1);
        input.consume(used);
        if end.is_some() {
            return Ok(true);
        }
    }
}

//! Runnelopal from Rust: reads, lists, compiles or interprets board setup scripts, runs them on a model of the chip, and makes single register
//! accesses.
//!
//! These are safe wrappers of the functions in `target/staticlib/librunnelopal.a`, which `.ci/build runnelopal` builds. The functions
//! have no preconditions: every byte and number is a valid argument, and a call that cannot do what it is asked to do returns a
//! [`Refusal`], or a [`TextRefusal`]. `docs/CHIP.md` describes the chip, its registers, scripts, images and events; `docs/TEXT.md` describes
//! text scripts and listings; `docs/STATE.md` has the layouts of a saved device and of a saved sequencer.
//!
//! The library keeps nothing between two calls. A [`Device`] and a [`Sequencer`] are bytes of the caller: a call reads them and, if it is not
//! refused, replaces them by those after it. A new run starts from [`Sequencer::fresh`], on [`Device::fresh`] or any other device.
//!
//! Complete programs, in `examples/`: `text.rs` (a text script), `trace.rs` (a whole run), `resume.rs` (a run in parts), `single_step.rs` (word
//! by word).

use std::fmt;

/// Size of a saved device in bytes.
pub const DEVICE_BYTES: usize = 106;

/// Size of a saved sequencer in bytes.
pub const SEQUENCER_BYTES: usize = 40;

/// An image buffer of this many bytes is large enough for every script.
pub const IMAGE_BYTES: usize = 12_288;

/// Size in bytes of a script record and of an image word.
pub const RECORD_BYTES: usize = 12;

/// Size in bytes of the longest script that is compiled, interpreted or listed: 1,024 records.
pub const SCRIPT_BYTES: usize = 12_288;

/// Size in bytes of the longest line of a text script, without its LF.
pub const LINE_BYTES: usize = 120;

/// A text buffer of this many bytes is large enough for every listing: 1,024 lines of at most 88 bytes.
pub const TEXT_BYTES: usize = 90_112;

/// The loop counters of a sequencer, in use or not.
pub const COUNTERS: usize = 8;

/// The numbers of refusals.
pub mod refusal {
    /// The script's length is not a multiple of 12, or it has more than 1,024 records. The place is 0.
    pub const BAD_LENGTH: u32 = 1;
    /// Wrong mark. The place is the number of the record, as for `BAD_KIND` to `TOO_DEEP`, counted from 0.
    pub const WRONG_MARK: u32 = 2;
    /// The kind of the record is not 1 to 7.
    pub const BAD_KIND: u32 = 3;
    /// Wrong width, value or unused field. For an access: wrong width, port or value; the place is 0.
    pub const BAD_FIELD: u32 = 4;
    /// An else whose innermost open block is not an if without else, or an end with no open block.
    pub const MISPLACED: u32 = 5;
    /// A block inside 16 open blocks, or a repeat inside 8 open repeats.
    pub const TOO_DEEP: u32 = 6;
    /// A block is still open at the end. The place is the number of records, as for `TOO_MANY_WORDS` and `BUFFER_TOO_SHORT`.
    pub const STILL_OPEN: u32 = 7;
    /// The image would have more than 1,024 words.
    pub const TOO_MANY_WORDS: u32 = 8;
    /// The image buffer is too short.
    pub const BUFFER_TOO_SHORT: u32 = 9;
    /// The image is empty, not a multiple of 12 bytes, or has more than 1,024 words. The place is 0.
    pub const BAD_IMAGE: u32 = 10;
    /// The bytes are not a valid device, or not a valid sequencer. The place is 0.
    pub const BAD_STATE: u32 = 11;
    /// Not an event. In a run the place is its index, or 4096 if there are more than 4,096 events.
    pub const BAD_EVENT: u32 = 12;
    /// A line of a text has more than 120 bytes. The place is the number of the line, as for `NOT_IN_GRAMMAR` and `NUMBER_TOO_BIG`, counted
    /// from 0.
    pub const LINE_TOO_LONG: u32 = 30;
    /// The line is not in the grammar.
    pub const NOT_IN_GRAMMAR: u32 = 31;
    /// A width other than 1, 2 and 4, or a port, value or count that does not fit.
    pub const NUMBER_TOO_BIG: u32 = 32;
    /// The record buffer is too short. The place is 0, as for `TEXT_TOO_SHORT`.
    pub const RECORDS_TOO_SHORT: u32 = 33;
    /// The text buffer is too short.
    pub const TEXT_TOO_SHORT: u32 = 34;
}

/// How a run can end. 20 to 24 are faults: the word at fault is not executed, and takes no event.
pub mod ending {
    /// Executed a halt.
    pub const HALTED: u32 = 0;
    /// Executed as many words as the budget allows, without a halt.
    pub const BUDGET_SPENT: u32 = 19;
    /// The word has a wrong mark, kind, width, value or unused field.
    pub const BAD_WORD: u32 = 20;
    /// The place of the sequencer, or the target of the word, is after the last word.
    pub const BEYOND_LAST_WORD: u32 = 21;
    /// The word enters a loop, and eight loops are open.
    pub const NINTH_COUNTER: u32 = 22;
    /// The word ends a loop, and no loop is open.
    pub const NO_COUNTER: u32 = 23;
    /// The word is a read, and the log has no room for its value.
    pub const LOG_FULL: u32 = 24;
}

/// The status of an access. With a status other than `DONE` the access itself changes nothing. 3 is retired and is not used again.
pub mod status {
    /// Done.
    pub const DONE: u32 = 0;
    /// No block claims the port, or the block does not take the access. A read gives all ones of its width.
    pub const UNCLAIMED: u32 = 1;
    /// Blocked by a lock, or a write to a read-only register. A read gives 0, as for `ABSENT`.
    pub const BLOCKED: u32 = 2;
    /// The index does not name a register.
    pub const ABSENT: u32 = 4;
    /// The register does not accept the value; the write is ignored.
    pub const IGNORED: u32 = 5;
}

/// The owner of a port: the block that answers there. It depends on the configuration of the device. An answer names the owner at the
/// moment of the access.
pub mod owner {
    /// No block claims the port.
    pub const NOBODY: u32 = 0;
    /// 002Eh and 002Fh.
    pub const CONFIGURATION: u32 = 1;
    /// AC00h to AC1Fh.
    pub const ACPI: u32 = 2;
    /// Runtime base + 70h and + 71h.
    pub const MONITOR: u32 = 3;
    /// Key base to key base + 31.
    pub const KEY: u32 = 4;
}

/// Events from outside the chip. An event is a number: the kind in bits 31 to 24, the operand below. The functions make such numbers.
pub mod event {
    /// Advances the timer. The operand is the number of ticks, 0 to 65,535.
    pub const TICKS: u32 = 1;
    /// Sets the level of a pin. The operand is the pin, 0 to 7, and [`PIN_HIGH`] for a high level.
    pub const PIN: u32 = 2;
    /// Operand 0.
    pub const RTC_ALARM: u32 = 3;
    /// Operand 0.
    pub const BUS_MASTER: u32 = 4;
    /// Sets status bits of the monitor. The operand is a sum of [`SENSOR_VTR`] and [`SENSOR_VBAT`].
    pub const SENSOR: u32 = 5;
    /// The operand is one of [`RESET_PCI`], [`RESET_VCC`], [`RESET_VTR`] and [`RESET_VBAT`].
    pub const RESET: u32 = 6;
    /// Button held. Operand 0.
    pub const BUTTON: u32 = 7;

    /// In the operand of a pin event: the bits of the pin.
    pub const PIN_NUMBER: u32 = 0x07;
    /// In the operand of a pin event: the new level is high.
    pub const PIN_HIGH: u32 = 0x08;

    /// A bit of the operand of a sensor event.
    pub const SENSOR_VTR: u32 = 0x01;
    /// A bit of the operand of a sensor event.
    pub const SENSOR_VBAT: u32 = 0x02;

    /// Resets the configuration.
    pub const RESET_PCI: u32 = 0;
    /// Resets the monitor too.
    pub const RESET_VCC: u32 = 1;
    /// Resets the ACPI block too, except for the levels of the pins.
    pub const RESET_VTR: u32 = 2;
    /// Resets the levels and the key bytes too, which gives the fresh device.
    pub const RESET_VBAT: u32 = 3;

    /// The number of an event. A kind or an operand that has more bits gives FFFFFFFFh, which is not an event, so that it is refused and not
    /// taken for another event.
    pub const fn number(kind: u32, operand: u32) -> u32 {
        if kind <= 0xFF && operand <= 0xFF_FFFF {
            kind << 24 | operand
        } else {
            0xFFFF_FFFF
        }
    }
}

/// The records of a script and the words of an image: 12 bytes each. Mark (2 bytes), kind (1), width (1), port (2), target (2), value (4), low
/// bytes first.
pub mod record {
    /// The mark of a script record: bytes 5Ah A5h.
    pub const SCRIPT_MARK: u16 = 0xA55A;
    /// The mark of an image word: bytes C3h 3Ch.
    pub const WORD_MARK: u16 = 0x3CC3;
}

/// The kinds of script records.
pub mod script_kind {
    pub const WRITE: u8 = 1;
    pub const READ: u8 = 2;
    pub const DELAY: u8 = 3;
    pub const REPEAT: u8 = 4;
    pub const IF: u8 = 5;
    pub const ELSE: u8 = 6;
    pub const END: u8 = 7;
}

/// The kinds of image words.
pub mod word_kind {
    pub const WRITE: u8 = 1;
    pub const READ: u8 = 2;
    pub const DELAY: u8 = 3;
    pub const ENTER: u8 = 4;
    pub const LOOP_END: u8 = 5;
    pub const TEST: u8 = 6;
    pub const JUMP: u8 = 7;
    pub const HALT: u8 = 8;
}

/// The symbols of the library and the structs that they return. They take no null pointers; the pointer of a slice is never null.
mod raw {
    use crate::Outputs;

    #[repr(C)]
    pub struct CompileAnswer {
        pub refusal: u32,
        pub place: u32,
        pub words: u32,
    }

    #[repr(C)]
    pub struct AssembleAnswer {
        pub refusal: u32,
        pub place: usize,
        pub records: usize,
    }

    #[repr(C)]
    pub struct ListAnswer {
        pub refusal: u32,
        pub place: u32,
        pub length: usize,
    }

    #[repr(C)]
    pub struct RunAnswer {
        pub outcome: u32,
        pub place: u32,
        pub steps: u32,
        pub taken: usize,
        pub logged: usize,
        pub outputs: Outputs,
    }

    #[repr(C)]
    pub struct AccessAnswer {
        pub refusal: u32,
        pub place: u32,
        pub status: u32,
        pub value: u32,
        pub owner: u32,
        pub outputs: Outputs,
    }

    #[repr(C)]
    pub struct OutputsAnswer {
        pub refusal: u32,
        pub place: u32,
        pub outputs: Outputs,
    }

    #[repr(C)]
    pub struct SequencerAnswer {
        pub refusal: u32,
        pub place: u32,
        pub used: u32,
        pub counters: [u32; crate::COUNTERS],
    }

    extern "C" {
        pub fn runnelopal_raw_compile(script: *const u8, script_bytes: usize, image: *mut u8, image_bytes: usize) -> CompileAnswer;
        pub fn runnelopal_raw_assemble(text: *const u8, text_bytes: usize, records: *mut u8, record_bytes: usize) -> AssembleAnswer;
        pub fn runnelopal_raw_list(script: *const u8, script_bytes: usize, text: *mut u8, text_bytes: usize) -> ListAnswer;
        pub fn runnelopal_raw_run(
            image: *const u8,
            image_bytes: usize,
            device: *mut u8,
            device_bytes: usize,
            sequencer: *mut u8,
            sequencer_bytes: usize,
            events: *const u32,
            event_count: usize,
            budget: u32,
            log: *mut u64,
            log_count: usize,
        ) -> RunAnswer;
        pub fn runnelopal_raw_interpret(
            script: *const u8,
            script_bytes: usize,
            device: *mut u8,
            device_bytes: usize,
            events: *const u32,
            event_count: usize,
            budget: u32,
            log: *mut u64,
            log_count: usize,
        ) -> RunAnswer;
        pub fn runnelopal_raw_access(device: *mut u8, device_bytes: usize, write: bool, width: u32, port: u32, value: u32) -> AccessAnswer;
        pub fn runnelopal_raw_event(device: *mut u8, device_bytes: usize, number: u32) -> OutputsAnswer;
        pub fn runnelopal_raw_outputs(device: *const u8, device_bytes: usize) -> OutputsAnswer;
        pub fn runnelopal_raw_fresh_device(device: *mut u8, device_bytes: usize) -> u32;
        pub fn runnelopal_raw_fresh_sequencer(sequencer: *mut u8, sequencer_bytes: usize) -> u32;
        pub fn runnelopal_raw_valid_device(device: *const u8, device_bytes: usize) -> bool;
        pub fn runnelopal_raw_valid_sequencer(sequencer: *const u8, sequencer_bytes: usize) -> bool;
        pub fn runnelopal_raw_sequencer(sequencer: *const u8, sequencer_bytes: usize) -> SequencerAnswer;
        pub fn runnelopal_entry_value(entry: u64) -> u32;
        pub fn runnelopal_entry_owner(entry: u64) -> u32;
    }
}

/// Why a call was refused: a number of the module [`refusal`], and the place of the fault. A refused call changes no buffer: neither the image,
/// the listing, the log, the device nor the sequencer.
#[derive(Clone, Copy, Debug, PartialEq, Eq)]
pub struct Refusal {
    pub number: u32,
    pub place: u32,
}

impl fmt::Display for Refusal {
    fn fmt(&self, formatter: &mut fmt::Formatter<'_>) -> fmt::Result {
        write!(formatter, "refused with {} at place {}", self.number, self.place)
    }
}

impl std::error::Error for Refusal {}

/// Why a text script was refused: a number of the module [`refusal`], and the number of the line, counted from 0. A text may have more lines
/// than a `u32` can count. A refused text leaves the record buffer unchanged.
#[derive(Clone, Copy, Debug, PartialEq, Eq)]
pub struct TextRefusal {
    pub number: u32,
    /// 0 if the record buffer is too short.
    pub place: usize,
}

impl fmt::Display for TextRefusal {
    fn fmt(&self, formatter: &mut fmt::Formatter<'_>) -> fmt::Result {
        write!(formatter, "refused with {} at place {}", self.number, self.place)
    }
}

impl std::error::Error for TextRefusal {}

fn refused<T>(number: u32, place: u32, done: T) -> Result<T, Refusal> {
    if number == 0 {
        Ok(done)
    } else {
        Err(Refusal { number, place })
    }
}

/// Whether the outcome of a run is a refusal, 1 to 12. Otherwise it is how the run ended.
fn is_refusal(outcome: u32) -> bool {
    (refusal::BAD_LENGTH..=refusal::BAD_EVENT).contains(&outcome)
}

/// Compiles a script into the image buffer and returns the number of words. The image is [`RECORD_BYTES`] bytes for each word; the rest of
/// the buffer is not changed. Refusals: 1 to 9.
pub fn compile(script: &[u8], image: &mut [u8]) -> Result<usize, Refusal> {
    // SAFETY: each pointer and length is that of a slice that outlives the call, so it is not null. The slices that are written are borrowed
    // mutably, so they overlap no other slice.
    let answer = unsafe { raw::runnelopal_raw_compile(script.as_ptr(), script.len(), image.as_mut_ptr(), image.len()) };
    refused(answer.refusal, answer.place, answer.words as usize)
}

/// Reads a text script into the record buffer and returns the number of records, one for each statement. The script is [`RECORD_BYTES`] bytes
/// for each record; the rest of the buffer is not changed. Refusals: 30 to 32 for the first bad line, with the least number; 33 if no line is
/// bad. Blocks are not checked, and the number of statements is not limited; [`compile`] checks both.
pub fn assemble(text: &[u8], records: &mut [u8]) -> Result<usize, TextRefusal> {
    // SAFETY: as in `compile`.
    let answer = unsafe { raw::runnelopal_raw_assemble(text.as_ptr(), text.len(), records.as_mut_ptr(), records.len()) };
    if answer.refusal == 0 {
        Ok(answer.records)
    } else {
        Err(TextRefusal { number: answer.refusal, place: answer.place })
    }
}

/// Writes the listing of a script to the text buffer and returns its length. It is a text script with one line for each record. The rest of the
/// buffer is not changed. Refusals: 1 to 4 for the script, then 34. [`assemble`] reads the listing as the same records, byte for byte.
pub fn list(script: &[u8], text: &mut [u8]) -> Result<usize, Refusal> {
    // SAFETY: as in `compile`.
    let answer = unsafe { raw::runnelopal_raw_list(script.as_ptr(), script.len(), text.as_mut_ptr(), text.len()) };
    refused(answer.refusal, answer.place, answer.length)
}

/// An entry of the log, taken apart: what a read of a run leaves there. `LogEntry::from(log[k])` takes entry k apart.
#[derive(Clone, Copy, Debug, PartialEq, Eq)]
pub struct LogEntry {
    /// The value read: the low 32 bits of the entry.
    pub value: u32,
    /// The owner of the port, a number of the module [`owner`]: the bits above the value.
    pub owner: u32,
}

impl From<u64> for LogEntry {
    fn from(entry: u64) -> Self {
        // SAFETY: the functions take a number and return one.
        unsafe {
            LogEntry {
                value: raw::runnelopal_entry_value(entry),
                owner: raw::runnelopal_entry_owner(entry),
            }
        }
    }
}

/// The levels of the outputs of the chip: SCI, SMI and the monitor interrupt.
#[repr(C)]
#[derive(Clone, Copy, Debug, Default, PartialEq, Eq)]
pub struct Outputs {
    pub sci: bool,
    pub smi: bool,
    pub monitor: bool,
}

/// The result of a run that was not refused.
#[derive(Clone, Copy, Debug, PartialEq, Eq)]
pub struct Run {
    /// How the run ended: a number of the module [`ending`].
    pub ending: u32,
    /// Words executed, a halt included. For an interpreted script, the words that its image would execute.
    pub steps: u32,
    /// Events applied.
    pub taken: usize,
    /// Values logged: so many entries of the log are filled, from its front.
    pub logged: usize,
    /// The outputs of the device after the run.
    pub outputs: Outputs,
}

fn ended(answer: raw::RunAnswer) -> Result<Run, Refusal> {
    let number = if is_refusal(answer.outcome) { answer.outcome } else { 0 };
    let run = Run {
        ending: answer.outcome,
        steps: answer.steps,
        taken: answer.taken,
        logged: answer.logged,
        outputs: answer.outputs,
    };
    refused(number, answer.place, run)
}

/// Runs an image on the device, from the place of the sequencer. `events` are the outside events; the next one is applied before each register
/// access. `budget` is the greatest number of words to execute. Each read appends an entry to `log`, which [`LogEntry`] takes apart; the rest
/// of `log` is not changed. Afterwards `device` and `sequencer` are those after the run. Refusals: 10, then 11 for the device or the
/// sequencer, then 12.
///
/// A run that ended with [`ending::BUDGET_SPENT`] is resumed with the same image, the device and the sequencer that it left, the events that
/// it did not take and the room that is left in the log. A budget of a and then of b gives the same as one run with a + b, if a + b fits 32
/// bits; steps, taken and logged add up. With a budget of at least 1, here 1,000:
///
/// ```no_run
/// # use runnelopal::{ending, run, Device, Refusal, Sequencer};
/// # fn parts(image: &[u8], mut device: Device, mut sequencer: Sequencer, mut events: &[u32], mut log: &mut [u64]) -> Result<(), Refusal> {
/// loop {
///     let part = run(image, &mut device, &mut sequencer, events, 1_000, log)?;
///     (events, log) = (&events[part.taken..], &mut log[part.logged..]);
///     if part.ending != ending::BUDGET_SPENT { break }
/// }
/// # Ok(())
/// # }
/// ```
///
/// A call with budget 1 executes one word. A run that is resumed after a halt halts again and counts one step, and after a fault the fault
/// occurs again.
pub fn run(
    image: &[u8],
    device: &mut Device,
    sequencer: &mut Sequencer,
    events: &[u32],
    budget: u32,
    log: &mut [u64],
) -> Result<Run, Refusal> {
    // SAFETY: as in `compile`.
    ended(unsafe {
        raw::runnelopal_raw_run(
            image.as_ptr(),
            image.len(),
            device.bytes.as_mut_ptr(),
            device.bytes.len(),
            sequencer.bytes.as_mut_ptr(),
            sequencer.bytes.len(),
            events.as_ptr(),
            events.len(),
            budget,
            log.as_mut_ptr(),
            log.len(),
        )
    })
}

/// Interprets a script on the device: walks through its nested records, without an image and a sequencer. `events`, `budget` and `log` are as
/// for [`run`]. The result is that of [`compile`] and [`run`] from a fresh sequencer, at every budget and every length of `log`. It always starts
/// at the first record, so it cannot be resumed. Refusals: 1 to 8 for the script, then 11, then 12.
pub fn interpret(script: &[u8], device: &mut Device, events: &[u32], budget: u32, log: &mut [u64]) -> Result<Run, Refusal> {
    // SAFETY: as in `compile`.
    ended(unsafe {
        raw::runnelopal_raw_interpret(
            script.as_ptr(),
            script.len(),
            device.bytes.as_mut_ptr(),
            device.bytes.len(),
            events.as_ptr(),
            events.len(),
            budget,
            log.as_mut_ptr(),
            log.len(),
        )
    })
}

/// The answer to an access.
#[derive(Clone, Copy, Debug, PartialEq, Eq)]
pub struct Answer {
    /// A number of the module [`status`].
    pub status: u32,
    /// The value read; 0 for a write.
    pub value: u32,
    /// The owner of the port: a number of the module [`owner`].
    pub owner: u32,
    /// The outputs after the access.
    pub outputs: Outputs,
}

/// A saved device. `Device::try_from(bytes)` loads one from a slice and refuses bytes that are not a valid device with 11.
#[derive(Clone, Debug, PartialEq, Eq)]
pub struct Device {
    /// The saved bytes, in the layout of `docs/STATE.md`. Any bytes may be stored here; if they are not a valid device, each call that uses
    /// them is refused, with 11 unless another refusal comes first.
    pub bytes: [u8; DEVICE_BYTES],
}

impl Device {
    /// The fresh device: the chip after power-on.
    pub fn fresh() -> Self {
        let mut bytes = [0; DEVICE_BYTES];
        // SAFETY: as in `compile`. The length is that of a device, so the call is not refused.
        unsafe { raw::runnelopal_raw_fresh_device(bytes.as_mut_ptr(), bytes.len()) };
        Device { bytes }
    }

    /// Whether the bytes are a valid device: whether no call refuses it with 11.
    pub fn is_valid(&self) -> bool {
        // SAFETY: as in `compile`.
        unsafe { raw::runnelopal_raw_valid_device(self.bytes.as_ptr(), self.bytes.len()) }
    }

    /// The outputs of the device. Refusal: 11.
    pub fn outputs(&self) -> Result<Outputs, Refusal> {
        // SAFETY: as in `compile`.
        let answer = unsafe { raw::runnelopal_raw_outputs(self.bytes.as_ptr(), self.bytes.len()) };
        refused(answer.refusal, answer.place, answer.outputs)
    }

    fn access(&mut self, write: bool, width: u32, port: u32, value: u32) -> Result<Answer, Refusal> {
        // SAFETY: as in `compile`.
        let answer = unsafe { raw::runnelopal_raw_access(self.bytes.as_mut_ptr(), self.bytes.len(), write, width, port, value) };
        let done = Answer {
            status: answer.status,
            value: answer.value,
            owner: answer.owner,
            outputs: answer.outputs,
        };
        refused(answer.refusal, answer.place, done)
    }

    /// Reads `width` bytes (1, 2 or 4) at a port from 0 to FFFFh. Refusals: 11, then 4.
    pub fn read(&mut self, width: u32, port: u32) -> Result<Answer, Refusal> {
        self.access(false, width, port, 0)
    }

    /// Writes `width` bytes (1, 2 or 4) at a port from 0 to FFFFh. Refusals: 11, then 4.
    pub fn write(&mut self, width: u32, port: u32, value: u32) -> Result<Answer, Refusal> {
        self.access(true, width, port, value)
    }

    /// Applies an outside event and returns the outputs after it. [`event::number`] makes the number. Refusals: 11, then 12.
    pub fn event(&mut self, number: u32) -> Result<Outputs, Refusal> {
        // SAFETY: as in `compile`.
        let answer = unsafe { raw::runnelopal_raw_event(self.bytes.as_mut_ptr(), self.bytes.len(), number) };
        refused(answer.refusal, answer.place, answer.outputs)
    }
}

const BAD_STATE: Refusal = Refusal { number: refusal::BAD_STATE, place: 0 };

impl TryFrom<&[u8]> for Device {
    type Error = Refusal;

    fn try_from(bytes: &[u8]) -> Result<Self, Refusal> {
        let device = Device { bytes: bytes.try_into().map_err(|_| BAD_STATE)? };
        if device.is_valid() {
            Ok(device)
        } else {
            Err(BAD_STATE)
        }
    }
}

impl AsRef<[u8]> for Device {
    fn as_ref(&self) -> &[u8] {
        &self.bytes
    }
}

/// The place and the loop counters of a sequencer.
#[derive(Clone, Copy, Debug, PartialEq, Eq)]
pub struct SequencerView {
    /// The index of the next word, or of the halt at which a run ended.
    pub place: u32,
    /// How many counters are in use, which is how many loops are open: at most [`COUNTERS`].
    pub used: usize,
    /// The turns left in each open loop, the present one included, outermost first; the others are 0.
    pub counters: [u32; COUNTERS],
}

impl SequencerView {
    /// The counters in use.
    pub fn in_use(&self) -> &[u32] {
        &self.counters[..self.used]
    }
}

/// A saved sequencer. `Sequencer::try_from(bytes)` loads one from a slice and refuses bytes that are not a valid sequencer with 11.
#[derive(Clone, Debug, PartialEq, Eq)]
pub struct Sequencer {
    /// The saved bytes, in the layout of `docs/STATE.md`. Any bytes may be stored here; if they are not a valid sequencer, each call that uses
    /// them is refused, with 11 unless another refusal comes first.
    pub bytes: [u8; SEQUENCER_BYTES],
}

impl Sequencer {
    /// The fresh sequencer: place 0, no counter in use.
    pub fn fresh() -> Self {
        let mut bytes = [0; SEQUENCER_BYTES];
        // SAFETY: as in `compile`. The length is that of a sequencer, so the call is not refused.
        unsafe { raw::runnelopal_raw_fresh_sequencer(bytes.as_mut_ptr(), bytes.len()) };
        Sequencer { bytes }
    }

    /// Whether the bytes are a valid sequencer: whether no call refuses it with 11.
    pub fn is_valid(&self) -> bool {
        // SAFETY: as in `compile`.
        unsafe { raw::runnelopal_raw_valid_sequencer(self.bytes.as_ptr(), self.bytes.len()) }
    }

    /// The place and the counters. Refusal: 11.
    pub fn view(&self) -> Result<SequencerView, Refusal> {
        // SAFETY: as in `compile`.
        let answer = unsafe { raw::runnelopal_raw_sequencer(self.bytes.as_ptr(), self.bytes.len()) };
        let view = SequencerView {
            place: answer.place,
            used: answer.used as usize,
            counters: answer.counters,
        };
        refused(answer.refusal, answer.place, view)
    }
}

impl TryFrom<&[u8]> for Sequencer {
    type Error = Refusal;

    fn try_from(bytes: &[u8]) -> Result<Self, Refusal> {
        let sequencer = Sequencer { bytes: bytes.try_into().map_err(|_| BAD_STATE)? };
        if sequencer.is_valid() {
            Ok(sequencer)
        } else {
            Err(BAD_STATE)
        }
    }
}

impl AsRef<[u8]> for Sequencer {
    fn as_ref(&self) -> &[u8] {
        &self.bytes
    }
}

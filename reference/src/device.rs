//! The whole device: which block claims a port, single accesses and events, resets and outputs.

use crate::acpi::{self, Acpi, PIN_COUNT};
use crate::configuration::{self, Configuration, KEY_BYTES};
use crate::monitor::Monitor;

#[derive(Clone, Copy, Debug, PartialEq, Eq, Hash)]
pub enum Width {
    One,
    Two,
    Four,
}

impl Width {
    pub fn of(bytes: u32) -> Option<Width> {
        match bytes {
            1 => Some(Width::One),
            2 => Some(Width::Two),
            4 => Some(Width::Four),
            _ => None,
        }
    }

    pub fn all_ones(self) -> u32 {
        match self {
            Width::One => 0xFF,
            Width::Two => 0xFFFF,
            Width::Four => 0xFFFF_FFFF,
        }
    }
}

/// Statuses 1, 2, 4 and 5: why an access was not done. Status 3 is retired, and its number is not
/// used again.
#[derive(Clone, Copy, Debug, PartialEq, Eq)]
pub enum Denial {
    /// No block claims the port, or the block does not take the access.
    Unclaimed,
    /// Blocked, or a write to a read-only register.
    Blocked,
    /// The index does not name a register.
    NoRegister,
    /// The register does not accept the value; the write is ignored.
    Ignored,
}

impl Denial {
    fn status(self) -> u32 {
        match self {
            Denial::Unclaimed => 1,
            Denial::Blocked => 2,
            Denial::NoRegister => 4,
            Denial::Ignored => 5,
        }
    }
}

/// The block that owns a port, with the number that answers and log entries give it.
#[derive(Clone, Copy, Debug, PartialEq, Eq, PartialOrd, Ord, Hash)]
pub enum Owner {
    /// No block claims the port.
    Nobody = 0,
    Configuration = 1,
    Acpi = 2,
    Monitor = 3,
    Key = 4,
}

impl Owner {
    pub fn number(self) -> u32 {
        self as u32
    }
}

/// The whole answer to an access. The owner is named at every status, so that status 1 of a block
/// that does not take the access differs from status 1 of a port that no block claims.
#[derive(Clone, Copy, Debug, PartialEq, Eq, Hash)]
pub struct Answer {
    pub status: u32,
    pub value: u32,
    pub owner: Owner,
}

impl Answer {
    fn to_read(owner: Owner, result: Result<u32, Denial>, width: Width) -> Answer {
        let (status, value) = match result {
            Ok(value) => (0, value),
            Err(Denial::Unclaimed) => (Denial::Unclaimed.status(), width.all_ones()),
            Err(denial) => (denial.status(), 0),
        };
        Answer {
            status,
            value,
            owner,
        }
    }

    /// The answer to a write has the value 0.
    fn to_write(owner: Owner, result: Result<(), Denial>) -> Answer {
        Answer {
            status: result.map_or_else(Denial::status, |()| 0),
            value: 0,
            owner,
        }
    }

    /// The entry that a read with this answer leaves in the log: the value in the low 32 bits, the
    /// owner above.
    pub fn log_entry(self) -> u64 {
        u64::from(self.owner.number()) << 32 | u64::from(self.value)
    }
}

/// Refusals of a single access or event. The place is always 0.
#[derive(Clone, Copy, Debug, PartialEq, Eq)]
pub enum Refusal {
    /// 4: wrong width or port, or a value that does not fit the width of the write.
    BadAccess,
    /// 11: device state out of range.
    StateOutOfRange,
    /// 12: not an event.
    BadEvent,
}

impl Refusal {
    pub fn number(self) -> u32 {
        match self {
            Refusal::BadAccess => 4,
            Refusal::StateOutOfRange => 11,
            Refusal::BadEvent => 12,
        }
    }
}

#[derive(Clone, Copy, Debug, PartialEq, Eq, Hash)]
pub struct Outputs {
    pub sci: bool,
    pub smi: bool,
    pub monitor: bool,
}

/// What a run does at a port. Only a read is logged.
#[derive(Clone, Copy, Debug, PartialEq, Eq, Hash)]
pub enum Action {
    /// With the value written.
    Write(u32),
    Read,
    Test,
}

/// One access of a run with its whole answer: status, value and owner, and the outputs after it.
#[derive(Clone, Copy, Debug, PartialEq, Eq, Hash)]
pub struct Access {
    pub action: Action,
    pub width: Width,
    pub port: u16,
    pub answer: Answer,
    pub outputs: Outputs,
}

#[derive(Clone, Copy, Debug, PartialEq, Eq, PartialOrd, Ord)]
pub enum Reset {
    Pci,
    Vcc,
    Vtr,
    Vbat,
}

#[derive(Clone, Copy, Debug, PartialEq, Eq)]
pub enum Event {
    Ticks(u16),
    Pin { pin: usize, level: bool },
    RtcAlarm,
    BusMaster,
    Sensor(u8),
    Reset(Reset),
    ButtonHeld,
}

impl Event {
    /// Kind in the top byte, operand below. Kinds 3, 4 and 7 have operand 0.
    pub fn decode(number: u32) -> Option<Event> {
        let operand = number & 0x00FF_FFFF;
        match (number >> 24, operand) {
            (1, _) => Some(Event::Ticks(u16::try_from(operand).ok()?)),
            (2, 0..=15) => Some(Event::Pin {
                pin: (operand & 7) as usize,
                level: operand & 8 != 0,
            }),
            (3, 0) => Some(Event::RtcAlarm),
            (4, 0) => Some(Event::BusMaster),
            (5, 0..=3) => Some(Event::Sensor((operand & 3) as u8)),
            (6, 0) => Some(Event::Reset(Reset::Pci)),
            (6, 1) => Some(Event::Reset(Reset::Vcc)),
            (6, 2) => Some(Event::Reset(Reset::Vtr)),
            (6, 3) => Some(Event::Reset(Reset::Vbat)),
            (7, 0) => Some(Event::ButtonHeld),
            _ => None,
        }
    }
}

/// What a port reaches in the block that owns it.
#[derive(Clone, Copy, Debug, PartialEq, Eq)]
enum Claim {
    ConfigurationIndex,
    ConfigurationData,
    /// With the offset from AC00h.
    Acpi(u16),
    MonitorIndex,
    MonitorData,
    /// With the number of the key byte.
    Key(usize),
}

impl Claim {
    fn owner(self) -> Owner {
        match self {
            Claim::ConfigurationIndex | Claim::ConfigurationData => Owner::Configuration,
            Claim::Acpi(_) => Owner::Acpi,
            Claim::MonitorIndex | Claim::MonitorData => Owner::Monitor,
            Claim::Key(_) => Owner::Key,
        }
    }

    /// Only the ACPI block takes widths other than 1. Which ones depends on the offset.
    fn takes(self, width: Width) -> bool {
        width == Width::One || matches!(self, Claim::Acpi(_))
    }
}

#[derive(Clone, Debug, PartialEq, Eq)]
pub struct Device {
    pub configuration: Configuration,
    pub key: [u8; KEY_BYTES],
    pub monitor: Monitor,
    pub acpi: Acpi,
    pub pin_levels: [bool; PIN_COUNT],
}

impl Device {
    pub fn fresh() -> Self {
        Device {
            configuration: Configuration::reset(),
            key: [0; KEY_BYTES],
            monitor: Monitor::reset(),
            acpi: Acpi::reset(),
            pin_levels: [false; PIN_COUNT],
        }
    }

    /// Is every field in range? If not, calls are refused with 11. A state that is not settled is
    /// in range.
    pub fn in_range(&self) -> bool {
        self.configuration.in_range() && self.monitor.in_range() && self.acpi.in_range()
    }

    /// The outputs are levels, computed from the present state.
    pub fn outputs(&self) -> Outputs {
        Outputs {
            sci: self.acpi.sci(),
            smi: self.acpi.smi(),
            monitor: self.monitor.interrupt(),
        }
    }

    /// A single read. Refusals: 11, then 4.
    pub fn single_read(&mut self, width: u32, port: u32) -> Result<Answer, Refusal> {
        let (width, port) = self.accepted(width, port)?;
        Ok(self.answer_read(width, port))
    }

    /// A single write. Refusals: 11, then 4.
    pub fn single_write(&mut self, width: u32, port: u32, value: u32) -> Result<Answer, Refusal> {
        let (width, port) = self.accepted(width, port)?;
        if value > width.all_ones() {
            return Err(Refusal::BadAccess);
        }
        Ok(self.answer_write(width, port, value))
    }

    /// A single event. Refusals: 11, then 12.
    pub fn single_event(&mut self, number: u32) -> Result<(), Refusal> {
        if !self.in_range() {
            return Err(Refusal::StateOutOfRange);
        }
        let event = Event::decode(number).ok_or(Refusal::BadEvent)?;
        self.happen(event);
        Ok(())
    }

    /// A read, followed by settling. The device is in range before and after it.
    pub fn answer_read(&mut self, width: Width, port: u16) -> Answer {
        let claim = self.claim(port);
        let result = self.read(claim, width);
        self.acpi.settle();
        Answer::to_read(owner(claim), result, width)
    }

    /// A write whose value fits the width, followed by settling. The device is in range before and
    /// after it.
    pub fn answer_write(&mut self, width: Width, port: u16, value: u32) -> Answer {
        let claim = self.claim(port);
        let result = self.write(claim, width, value);
        self.acpi.settle();
        Answer::to_write(owner(claim), result)
    }

    /// An event, followed by settling. The device is in range before and after it.
    pub fn happen(&mut self, event: Event) {
        self.apply(event);
        self.acpi.settle();
    }

    fn accepted(&self, width: u32, port: u32) -> Result<(Width, u16), Refusal> {
        if !self.in_range() {
            return Err(Refusal::StateOutOfRange);
        }
        let width = Width::of(width).ok_or(Refusal::BadAccess)?;
        let port = u16::try_from(port).map_err(|_| Refusal::BadAccess)?;
        Ok((width, port))
    }

    /// Blocks claim an access by its first port, in this order. The first one owns the port: it
    /// answers, and the answer names it. Each access asks once, before it changes anything.
    fn claim(&self, port: u16) -> Option<Claim> {
        match port {
            configuration::INDEX_PORT => return Some(Claim::ConfigurationIndex),
            configuration::DATA_PORT => return Some(Claim::ConfigurationData),
            acpi::BASE_PORT..=acpi::LAST_PORT => return Some(Claim::Acpi(port - acpi::BASE_PORT)),
            _ => {}
        }
        let offset_from = |base: Option<u16>| base.and_then(|base| port.checked_sub(base));
        match offset_from(self.configuration.monitor_port()) {
            Some(0) => return Some(Claim::MonitorIndex),
            Some(1) => return Some(Claim::MonitorData),
            _ => {}
        }
        let offset = usize::from(offset_from(self.configuration.key_port())?);
        (offset < KEY_BYTES).then_some(Claim::Key(offset))
    }

    fn read(&mut self, claim: Option<Claim>, width: Width) -> Result<u32, Denial> {
        let byte = match taken(claim, width)? {
            Claim::Acpi(offset) => return self.acpi.read(offset, width),
            Claim::ConfigurationIndex => self.configuration.read_index(),
            Claim::ConfigurationData => self.configuration.read_data(),
            Claim::MonitorIndex => Ok(self.monitor.index),
            Claim::MonitorData => self.monitor.read_data(),
            Claim::Key(_) if self.configuration.key_read_locked() => Err(Denial::Blocked),
            Claim::Key(number) => Ok(self.key[number]),
        };
        byte.map(u32::from)
    }

    fn write(&mut self, claim: Option<Claim>, width: Width, value: u32) -> Result<(), Denial> {
        let byte = (value & 0xFF) as u8;
        match taken(claim, width)? {
            Claim::Acpi(offset) => return self.acpi.write(offset, width, value),
            Claim::ConfigurationIndex => return self.configuration.write_index(byte),
            Claim::ConfigurationData => return self.configuration.write_data(byte),
            Claim::MonitorIndex => self.monitor.index = byte,
            Claim::MonitorData => return self.monitor.write_data(byte),
            Claim::Key(_) if self.configuration.key_write_locked() => return Err(Denial::Blocked),
            Claim::Key(number) => self.key[number] = byte,
        }
        Ok(())
    }

    fn apply(&mut self, event: Event) {
        match event {
            Event::Ticks(ticks) => self.acpi.tick(ticks),
            Event::Pin { pin, level } => {
                if self.pin_levels[pin] != level {
                    self.pin_levels[pin] = level;
                    self.acpi.pin_changed(pin, level);
                }
            }
            Event::RtcAlarm => self.acpi.rtc_alarm(),
            Event::BusMaster => self.acpi.bus_master(),
            Event::Sensor(bits) => self.monitor.sense(bits),
            Event::Reset(reset) => self.reset(reset),
            Event::ButtonHeld => self.acpi.button_held(),
        }
    }

    /// Each reset also does what the resets with lower numbers do.
    fn reset(&mut self, reset: Reset) {
        self.configuration = Configuration::reset();
        if reset >= Reset::Vcc {
            self.monitor = Monitor::reset();
        }
        if reset >= Reset::Vtr {
            self.acpi = Acpi::reset();
        }
        if reset >= Reset::Vbat {
            self.key = [0; KEY_BYTES];
            self.pin_levels = [false; PIN_COUNT];
        }
    }
}

fn owner(claim: Option<Claim>) -> Owner {
    claim.map_or(Owner::Nobody, Claim::owner)
}

/// The claim, if there is one and its block takes the width. A wrong width changes the status but
/// not the owner.
fn taken(claim: Option<Claim>, width: Width) -> Result<Claim, Denial> {
    claim
        .filter(|claim| claim.takes(width))
        .ok_or(Denial::Unclaimed)
}

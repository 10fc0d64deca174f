//! The ACPI event block at ports AC00h to AC1Fh, and its settling.

use crate::device::{Denial, Width};

pub const BASE_PORT: u16 = 0xAC00;
pub const LAST_PORT: u16 = 0xAC1F;
pub const PIN_COUNT: usize = 8;

const P_CNT_MASK: u8 = 0x17;
const PM1_STATUS_MASK: u16 = 0x8F31;
const PM1_ENABLE_MASK: u16 = 0x0721;
const PM1_CONTROL_MASK: u16 = 0x1C02;
const PM1_CONTROL_SLEEP: u16 = 1 << 13;

const TMR_STS: u16 = 1 << 0;
const BM_STS: u16 = 1 << 4;
const GBL_STS: u16 = 1 << 5;
const RTC_STS: u16 = 1 << 10;
const BUTTON_HELD_STS: u16 = 1 << 11;
const WAKE_STS: u16 = 1 << 15;

const SMI_CMD_ENABLE: u8 = 1;
const SMI_CMD_DISABLE: u8 = 2;

const IRQ_RESET: u8 = 9;
const IRQ_LAST: u32 = 15;

const TIMER_COUNTS: u32 = 1 << 24;
const TIMER_BIT_23: u32 = 1 << 23;

const MAP_DIRECTION_FALL: u16 = 1 << 8;

/// The registers by offset and width.
enum Register {
    PCnt,
    PLvl(u8),
    SmiCmd,
    Pm1Status,
    Pm1Enable,
    Pm1Control,
    SetupIndex,
    Gpe0Status,
    Gpe0Enable,
    SetupData,
    Timer,
}

impl Register {
    /// Any other offset or width in the range is status 1.
    fn at(offset: u16, width: Width) -> Result<Register, Denial> {
        match (offset, width) {
            (0, Width::Four) => Ok(Register::PCnt),
            (4, Width::One) => Ok(Register::PLvl(2)),
            (5, Width::One) => Ok(Register::PLvl(3)),
            (6, Width::One) => Ok(Register::SmiCmd),
            (8, Width::Two) => Ok(Register::Pm1Status),
            (10, Width::Two) => Ok(Register::Pm1Enable),
            (12, Width::Two) => Ok(Register::Pm1Control),
            (14, Width::Two) => Ok(Register::SetupIndex),
            (16, Width::Two) => Ok(Register::Gpe0Status),
            (18, Width::Two) => Ok(Register::Gpe0Enable),
            (20, Width::Four) => Ok(Register::SetupData),
            (24, Width::Four) => Ok(Register::Timer),
            _ => Err(Denial::Unclaimed),
        }
    }
}

/// The register that SETUP_DATA accesses, for each legal value of SETUP_IDX.
enum Setup {
    Nothing,
    PinMap(usize),
    SetGlobalStatus,
    Irq,
}

impl Setup {
    fn under(index: u16) -> Option<Setup> {
        match index {
            0x00 => Some(Setup::Nothing),
            0x10..=0x17 => Some(Setup::PinMap(usize::from(index - 0x10))),
            0x40 => Some(Setup::SetGlobalStatus),
            0x41 => Some(Setup::Irq),
            _ => None,
        }
    }
}

/// Is this a legal map value? It is zero above bit 12 and in bits 9 to 11, and its low byte names
/// a status bit, or is 0 for none. Bits 8 and 12 may have any value.
fn map_is_legal(value: u32) -> bool {
    let target_is_legal = matches!(value & 0xFF, 0x00 | 0x08 | 0x09 | 0x10..=0x1F);
    value & !0x11FF == 0 && target_is_legal
}

#[derive(Clone, Debug, PartialEq, Eq)]
pub struct Acpi {
    pub p_cnt: u8,
    pub cpu_state: u8,
    pub sci_enabled: bool,
    pub pm1_status: u16,
    pub pm1_enable: u16,
    /// The stored bits only; SCI_EN is a field of its own.
    pub pm1_control: u16,
    pub sleeping: bool,
    pub setup_index: u16,
    pub gpe0_status: u16,
    pub gpe0_enable: u16,
    pub pin_maps: [u16; PIN_COUNT],
    pub irq: u8,
    pub timer: u32,
}

impl Acpi {
    /// Reset 2: all 0 and awake, IRQ 9, timer 0, CPU state 0.
    pub fn reset() -> Self {
        Acpi {
            p_cnt: 0,
            cpu_state: 0,
            sci_enabled: false,
            pm1_status: 0,
            pm1_enable: 0,
            pm1_control: 0,
            sleeping: false,
            setup_index: 0,
            gpe0_status: 0,
            gpe0_enable: 0,
            pin_maps: [0; PIN_COUNT],
            irq: IRQ_RESET,
            timer: 0,
        }
    }

    /// Is every register within its mask and its legal values?
    pub fn in_range(&self) -> bool {
        self.p_cnt & !P_CNT_MASK == 0
            && matches!(self.cpu_state, 0 | 2 | 3)
            && self.pm1_status & !PM1_STATUS_MASK == 0
            && self.pm1_enable & !PM1_ENABLE_MASK == 0
            && self.pm1_control & !PM1_CONTROL_MASK == 0
            && Setup::under(self.setup_index).is_some()
            && self
                .pin_maps
                .iter()
                .all(|map| map_is_legal(u32::from(*map)))
            && u32::from(self.irq) <= IRQ_LAST
            && self.timer < TIMER_COUNTS
    }

    pub fn read(&mut self, offset: u16, width: Width) -> Result<u32, Denial> {
        match Register::at(offset, width)? {
            Register::PCnt => Ok(u32::from(self.p_cnt)),
            Register::PLvl(state) => {
                self.cpu_state = state;
                Ok(0)
            }
            Register::SmiCmd => Ok(0),
            Register::Pm1Status => Ok(u32::from(self.pm1_status)),
            Register::Pm1Enable => Ok(u32::from(self.pm1_enable)),
            Register::Pm1Control => Ok(u32::from(self.pm1_control) | u32::from(self.sci_enabled)),
            Register::SetupIndex => Ok(u32::from(self.setup_index)),
            Register::Gpe0Status => Ok(u32::from(self.gpe0_status)),
            Register::Gpe0Enable => Ok(u32::from(self.gpe0_enable)),
            Register::SetupData => self.read_setup_data(),
            Register::Timer => Ok(self.timer),
        }
    }

    /// The caller ensures that the value fits the width.
    pub fn write(&mut self, offset: u16, width: Width, value: u32) -> Result<(), Denial> {
        let [byte, second, _, _] = value.to_le_bytes();
        let word = u16::from_le_bytes([byte, second]);
        match Register::at(offset, width)? {
            Register::PCnt => self.p_cnt = byte & P_CNT_MASK,
            Register::PLvl(_) | Register::Timer => return Err(Denial::Blocked),
            Register::SmiCmd => match byte {
                SMI_CMD_ENABLE => self.sci_enabled = true,
                SMI_CMD_DISABLE => self.sci_enabled = false,
                _ => return Err(Denial::Ignored),
            },
            Register::Pm1Status => self.pm1_status &= !(word & PM1_STATUS_MASK),
            Register::Pm1Enable => self.pm1_enable = word & PM1_ENABLE_MASK,
            Register::Pm1Control => {
                self.pm1_control = word & PM1_CONTROL_MASK;
                if word & PM1_CONTROL_SLEEP != 0 {
                    self.sleeping = true;
                }
            }
            Register::SetupIndex => {
                if Setup::under(word).is_none() {
                    return Err(Denial::Ignored);
                }
                self.setup_index = word;
            }
            Register::Gpe0Status => self.gpe0_status &= !word,
            Register::Gpe0Enable => self.gpe0_enable = word,
            Register::SetupData => return self.write_setup_data(value),
        }
        Ok(())
    }

    /// The register that SETUP_DATA accesses. Only devices in range are accessed, so SETUP_IDX has
    /// a legal value. What SETUP_DATA does under another value is free; here it panics, so that
    /// each run of the model also checks that this never happens.
    fn setup(&self) -> Setup {
        Setup::under(self.setup_index).expect("a device in range has a legal SETUP_IDX")
    }

    fn read_setup_data(&self) -> Result<u32, Denial> {
        match self.setup() {
            Setup::Nothing | Setup::SetGlobalStatus => Ok(0),
            Setup::PinMap(pin) => Ok(u32::from(self.pin_maps[pin])),
            Setup::Irq => Ok(u32::from(self.irq)),
        }
    }

    fn write_setup_data(&mut self, value: u32) -> Result<(), Denial> {
        match self.setup() {
            Setup::Nothing => return Err(Denial::Ignored),
            // Every value sets GBL_STS, 0 too.
            Setup::SetGlobalStatus => self.pm1_status |= GBL_STS,
            Setup::PinMap(pin) => {
                if !map_is_legal(value) {
                    return Err(Denial::Ignored);
                }
                self.pin_maps[pin] = (value & 0xFFFF) as u16;
            }
            Setup::Irq => {
                if value > IRQ_LAST {
                    return Err(Denial::Ignored);
                }
                self.irq = (value & 0xFF) as u8;
            }
        }
        Ok(())
    }

    /// Event 1, ticks. TMR_STS is set whenever bit 23 of the timer changes state: from 7FFFFFh to
    /// 800000h, and from FFFFFFh to 0.
    ///
    /// From one change to the next there are 800000h ticks, and an event has at most 65,535. So bit
    /// 23 changes at most once in an event, and it has changed exactly if its state after the event
    /// differs from its state before.
    pub fn tick(&mut self, ticks: u16) {
        let bit_23_before = self.timer & TIMER_BIT_23;
        self.timer = (self.timer + u32::from(ticks)) % TIMER_COUNTS;
        let bit_23_after = self.timer & TIMER_BIT_23;
        if bit_23_after != bit_23_before {
            self.pm1_status |= TMR_STS;
        }
    }

    /// Event 2, after the level of the pin has changed: a change in the mapped direction sets the
    /// mapped bit.
    pub fn pin_changed(&mut self, pin: usize, level: bool) {
        let map = self.pin_maps[pin];
        let fall = map & MAP_DIRECTION_FALL != 0;
        if level == fall {
            return;
        }
        match map & 0xFF {
            target @ 0x08..=0x09 => self.pm1_status |= 1 << target,
            target @ 0x10..=0x1F => self.gpe0_status |= 1 << (target - 0x10),
            _ => {}
        }
    }

    /// Event 3, RTC alarm.
    pub fn rtc_alarm(&mut self) {
        self.pm1_status |= RTC_STS;
    }

    /// Event 4, bus master.
    pub fn bus_master(&mut self) {
        self.pm1_status |= BM_STS;
    }

    /// Event 7, button held.
    pub fn button_held(&mut self) {
        self.pm1_status |= BUTTON_HELD_STS;
    }

    fn pending(&self) -> bool {
        self.pm1_status & self.pm1_enable != 0 || self.gpe0_status & self.gpe0_enable != 0
    }

    pub fn sci(&self) -> bool {
        self.pending() && self.sci_enabled
    }

    pub fn smi(&self) -> bool {
        self.pending() && !self.sci_enabled
    }

    /// The device calls this after every event and access.
    pub fn settle(&mut self) {
        if self.sleeping && self.pending() {
            self.sleeping = false;
            self.pm1_status |= WAKE_STS;
        }
        if self.sci() || self.smi() {
            self.cpu_state = 0;
        }
    }
}

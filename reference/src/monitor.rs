//! The hardware monitor: its index, its data registers and its interrupt.

use crate::device::Denial;

#[derive(Clone, Copy, Debug, PartialEq, Eq)]
enum Kind {
    /// 40h: writing 1 sets the Lock bit, writing 0 does nothing.
    Lock,
    Read,
    ReadWrite,
    WriteOneToClear,
}

struct Register {
    index: u8,
    kind: Kind,
    reset: u8,
    mask: u8,
    locked_by_lock: bool,
}

const fn register(index: u8, kind: Kind, reset: u8, mask: u8, locked_by_lock: bool) -> Register {
    Register {
        index,
        kind,
        reset,
        mask,
        locked_by_lock,
    }
}

const fn read_only(index: u8, reset: u8) -> Register {
    register(index, Kind::Read, reset, reset, false)
}

pub const REGISTER_COUNT: usize = 19;

/// The registers in the order of their indices, which is also the order in the saved state.
const REGISTERS: [Register; REGISTER_COUNT] = [
    register(0x40, Kind::Lock, 0x00, LOCK, true),
    read_only(0x6E, 0x44),
    read_only(0x6F, 0x40),
    register(0x7C, Kind::ReadWrite, 0x40, 0xE6, true),
    register(0x7E, Kind::ReadWrite, 0xEC, 0xFF, true),
    register(0x80, Kind::ReadWrite, 0x0E, 0x0F, true),
    register(0x81, Kind::ReadWrite, 0x24, 0x3F, true),
    register(0x82, Kind::ReadWrite, 0x0E, 0x0F, true),
    register(0x83, Kind::WriteOneToClear, 0x00, 0x03, false),
    read_only(0x84, 0x00),
    read_only(0x85, 0x00),
    read_only(0x86, 0x00),
    read_only(0x87, 0x00),
    read_only(0x88, 0x00),
    register(0x90, Kind::ReadWrite, 0x04, 0x1F, false),
    register(0x91, Kind::ReadWrite, 0x04, 0x1F, false),
    register(0xB5, Kind::ReadWrite, 0x00, 0x33, true),
    register(0xB6, Kind::ReadWrite, 0x00, 0xF0, true),
    register(0xB7, Kind::ReadWrite, 0x00, 0x0F, true),
];

/// The place of each index in the table above, or none if no register has that index.
const PLACES: [Option<usize>; 256] = {
    let mut places = [None; 256];
    let mut place = 0;
    while place < REGISTER_COUNT {
        places[REGISTERS[place].index as usize] = Some(place);
        place += 1;
    }
    places
};

// Places of single registers in the table above.
const CONFIGURATION: usize = 0;
const INTERRUPT_CONTROL: usize = 3;
const INTERRUPT_ENABLE: usize = 4;
const INTERRUPT_STATUS: usize = 8;

/// Lock, bit 1 of 40h.
const LOCK: u8 = 0x02;
/// INTEN, bit 2 of 7Ch.
const INTEN: u8 = 0x04;
/// Enables in 7Eh.
const ENABLE_VTR: u8 = 0x10;
const ENABLE_VBAT: u8 = 0x02;
const ENABLE_VOLT: u8 = 0x01;
/// Statuses in 83h.
const STATUS_VBAT: u8 = 0x02;
const STATUS_VTR: u8 = 0x01;

#[derive(Clone, Debug, PartialEq, Eq)]
pub struct Monitor {
    pub index: u8,
    pub registers: [u8; REGISTER_COUNT],
}

impl Monitor {
    pub fn reset() -> Self {
        let mut registers = [0; REGISTER_COUNT];
        for (value, register) in registers.iter_mut().zip(&REGISTERS) {
            *value = register.reset;
        }
        Monitor {
            index: 0,
            registers,
        }
    }

    /// Do the read-only registers have their reset values?
    pub fn read_only_at_reset(&self) -> bool {
        self.registers
            .iter()
            .zip(&REGISTERS)
            .all(|(value, register)| register.kind != Kind::Read || *value == register.reset)
    }

    /// Is every register within its mask, and every read-only register at its reset value?
    pub fn in_range(&self) -> bool {
        let masked = self
            .registers
            .iter()
            .zip(&REGISTERS)
            .all(|(value, register)| value & !register.mask == 0);
        masked && self.read_only_at_reset()
    }

    /// The place of the register that the index names. If there is none, the status is 4.
    fn selected(&self) -> Result<usize, Denial> {
        PLACES[usize::from(self.index)].ok_or(Denial::NoRegister)
    }

    pub fn read_data(&self) -> Result<u8, Denial> {
        Ok(self.registers[self.selected()?])
    }

    pub fn write_data(&mut self, value: u8) -> Result<(), Denial> {
        let place = self.selected()?;
        let register = &REGISTERS[place];
        if register.locked_by_lock && self.locked() {
            return Err(Denial::Blocked);
        }
        let written = value & register.mask;
        match register.kind {
            Kind::Read => return Err(Denial::Blocked),
            Kind::Lock => self.registers[place] |= written,
            Kind::ReadWrite => self.registers[place] = written,
            Kind::WriteOneToClear => self.registers[place] &= !written,
        }
        Ok(())
    }

    fn locked(&self) -> bool {
        self.registers[CONFIGURATION] & LOCK != 0
    }

    /// Event 5: the sensor sets its bits in 83h and clears none.
    pub fn sense(&mut self, bits: u8) {
        self.registers[INTERRUPT_STATUS] |= bits & (STATUS_VBAT | STATUS_VTR);
    }

    /// On if INTEN, VOLT and either both VTR bits or both VBAT bits are set.
    pub fn interrupt(&self) -> bool {
        let control = self.registers[INTERRUPT_CONTROL];
        let enable = self.registers[INTERRUPT_ENABLE];
        let status = self.registers[INTERRUPT_STATUS];
        let vtr = enable & ENABLE_VTR != 0 && status & STATUS_VTR != 0;
        let vbat = enable & ENABLE_VBAT != 0 && status & STATUS_VBAT != 0;
        control & INTEN != 0 && enable & ENABLE_VOLT != 0 && (vtr || vbat)
    }
}

#[cfg(test)]
mod tests {
    use super::*;

    #[test]
    fn table_is_consistent() {
        assert!(REGISTERS
            .windows(2)
            .all(|pair| pair[0].index < pair[1].index));
        assert!(REGISTERS
            .iter()
            .all(|register| register.reset & !register.mask == 0));
        for (index, place) in PLACES.iter().enumerate() {
            let listed = REGISTERS
                .iter()
                .position(|register| usize::from(register.index) == index);
            assert_eq!(*place, listed);
        }
        assert_eq!(REGISTERS[CONFIGURATION].index, 0x40);
        assert_eq!(REGISTERS[INTERRUPT_CONTROL].index, 0x7C);
        assert_eq!(REGISTERS[INTERRUPT_ENABLE].index, 0x7E);
        assert_eq!(REGISTERS[INTERRUPT_STATUS].index, 0x83);
        assert!(Monitor::reset().in_range());
    }

    #[test]
    fn interrupt_over_all_enables_and_statuses() {
        for control in [0x00, 0x04, 0x40, 0xE2, 0xE6] {
            for enable in 0..=0xFFu8 {
                for status in 0..=3u8 {
                    let mut monitor = Monitor::reset();
                    monitor.registers[INTERRUPT_CONTROL] = control;
                    monitor.registers[INTERRUPT_ENABLE] = enable;
                    monitor.registers[INTERRUPT_STATUS] = status;
                    let vtr = (enable >> 4) & status & 1;
                    let vbat = (enable >> 1) & (status >> 1) & 1;
                    let expected = (control >> 2) & enable & (vtr | vbat) & 1;
                    assert_eq!(monitor.interrupt(), expected == 1);
                }
            }
        }
    }
}

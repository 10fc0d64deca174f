//! The Super I/O configuration at ports 002Eh and 002Fh, and the ports at which it places the
//! monitor and the key.

use crate::device::Denial;

pub const INDEX_PORT: u16 = 0x002E;
pub const DATA_PORT: u16 = 0x002F;

/// Number of key bytes, which start at the key base.
pub const KEY_BYTES: usize = 32;

const UNLOCK: u8 = 0x55;
const LOCK: u8 = 0xAA;
const RUNTIME_DEVICE: u8 = 0x0A;

const ACTIVATE_MASK: u8 = 0x01;
const KEY_CONTROL_MASK: u8 = 0x07;
const KEY_CONTROL_RESET: u8 = 0x04;
const KEY_CONTROL_WRITE_LOCK: u8 = 0x04;
const KEY_CONTROL_READ_LOCK: u8 = 0x02;
const KEY_CONTROL_LOCK: u8 = 0x01;

/// A base is masked when it is used; the registers themselves store all eight bits.
const RUNTIME_BASE_MASK: u16 = 0xFF80;
const KEY_BASE_MASK: u16 = 0xFFE0;
const MONITOR_OFFSET: u16 = 0x70;

#[derive(Clone, Debug, PartialEq, Eq)]
pub struct Configuration {
    pub unlocked: bool,
    pub index: u8,
    pub device_number: u8,
    pub activate: u8,
    /// Registers 60h and 61h: high byte, low byte.
    pub runtime_base: [u8; 2],
    /// Registers 62h and 63h: high byte, low byte.
    pub key_base: [u8; 2],
    pub key_control: u8,
}

impl Configuration {
    /// Reset 0: locked, everything 0, key control 04h.
    pub fn reset() -> Self {
        Configuration {
            unlocked: false,
            index: 0,
            device_number: 0,
            activate: 0,
            runtime_base: [0, 0],
            key_base: [0, 0],
            key_control: KEY_CONTROL_RESET,
        }
    }

    pub fn in_range(&self) -> bool {
        self.activate & !ACTIVATE_MASK == 0 && self.key_control & !KEY_CONTROL_MASK == 0
    }

    /// A read of 002Eh gives the index, but only while unlocked.
    pub fn read_index(&self) -> Result<u8, Denial> {
        if !self.unlocked {
            return Err(Denial::Unclaimed);
        }
        Ok(self.index)
    }

    /// If locked, only 55h has an effect. If unlocked, AAh locks, and every other value is the new
    /// index, 55h too.
    pub fn write_index(&mut self, value: u8) -> Result<(), Denial> {
        match (self.unlocked, value) {
            (false, UNLOCK) => self.unlocked = true,
            (false, _) => return Err(Denial::Unclaimed),
            (true, LOCK) => self.unlocked = false,
            (true, _) => self.index = value,
        }
        Ok(())
    }

    pub fn read_data(&self) -> Result<u8, Denial> {
        if !self.unlocked {
            return Err(Denial::Unclaimed);
        }
        match (self.index, self.device_number) {
            (0x07, _) => Ok(self.device_number),
            (0x30, RUNTIME_DEVICE) => Ok(self.activate),
            (0x60, RUNTIME_DEVICE) => Ok(self.runtime_base[0]),
            (0x61, RUNTIME_DEVICE) => Ok(self.runtime_base[1]),
            (0x62, RUNTIME_DEVICE) => Ok(self.key_base[0]),
            (0x63, RUNTIME_DEVICE) => Ok(self.key_base[1]),
            (0xF2, RUNTIME_DEVICE) => Ok(self.key_control),
            _ => Err(Denial::NoRegister),
        }
    }

    pub fn write_data(&mut self, value: u8) -> Result<(), Denial> {
        if !self.unlocked {
            return Err(Denial::Unclaimed);
        }
        match (self.index, self.device_number) {
            (0x07, _) => self.device_number = value,
            (0x30, RUNTIME_DEVICE) => self.activate = value & ACTIVATE_MASK,
            (0x60, RUNTIME_DEVICE) => self.runtime_base[0] = value,
            (0x61, RUNTIME_DEVICE) => self.runtime_base[1] = value,
            (0x62, RUNTIME_DEVICE) => self.key_base[0] = value,
            (0x63, RUNTIME_DEVICE) => self.key_base[1] = value,
            (0xF2, RUNTIME_DEVICE) => {
                // While bit 0 is set every write is blocked. The write that sets it stores
                // bits 2 and 1 as well.
                if self.key_control & KEY_CONTROL_LOCK != 0 {
                    return Err(Denial::Blocked);
                }
                self.key_control = value & KEY_CONTROL_MASK;
            }
            _ => return Err(Denial::NoRegister),
        }
        Ok(())
    }

    /// Port of the monitor index. The monitor exists only while activated and with a masked
    /// base other than 0; its data port is the next one.
    pub fn monitor_port(&self) -> Option<u16> {
        let base = u16::from_be_bytes(self.runtime_base) & RUNTIME_BASE_MASK;
        self.placed(base).map(|base| base + MONITOR_OFFSET)
    }

    /// Port of key byte 0, under the same conditions.
    pub fn key_port(&self) -> Option<u16> {
        self.placed(u16::from_be_bytes(self.key_base) & KEY_BASE_MASK)
    }

    fn placed(&self, masked_base: u16) -> Option<u16> {
        let activated = self.activate & ACTIVATE_MASK != 0;
        (activated && masked_base != 0).then_some(masked_base)
    }

    pub fn key_read_locked(&self) -> bool {
        self.key_control & KEY_CONTROL_READ_LOCK != 0
    }

    pub fn key_write_locked(&self) -> bool {
        self.key_control & KEY_CONTROL_WRITE_LOCK != 0
    }
}

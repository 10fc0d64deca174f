//! The saved states of a device and of a sequencer as bytes (docs/STATE.md).

use std::array;

use crate::acpi::{Acpi, PIN_COUNT};
use crate::configuration::{Configuration, KEY_BYTES};
use crate::device::Device;
use crate::monitor::{Monitor, REGISTER_COUNT};
use crate::sequencer::Sequencer;

pub const STATE_BYTES: usize = 106;

pub type StateBytes = [u8; STATE_BYTES];

pub const SEQUENCER_BYTES: usize = 40;

pub type SequencerBytes = [u8; SEQUENCER_BYTES];

// Offsets of the fields. Numbers of two and four bytes are stored low byte first, the two bases
// high byte first.
pub const UNLOCKED: usize = 0;
pub const INDEX: usize = 1;
pub const DEVICE_NUMBER: usize = 2;
pub const ACTIVATE: usize = 3;
pub const RUNTIME_BASE: usize = 4;
pub const KEY_BASE: usize = 6;
pub const KEY_CONTROL: usize = 8;
pub const KEY: usize = 9;
pub const MONITOR_INDEX: usize = 41;
pub const MONITOR_REGISTERS: usize = 42;
pub const P_CNT: usize = 61;
pub const CPU_STATE: usize = 62;
pub const SCI_EN: usize = 63;
pub const PM1_STATUS: usize = 64;
pub const PM1_ENABLE: usize = 66;
pub const PM1_CONTROL: usize = 68;
pub const SLEEPING: usize = 70;
pub const SETUP_INDEX: usize = 71;
pub const GPE0_STATUS: usize = 73;
pub const GPE0_ENABLE: usize = 75;
pub const PIN_MAPS: usize = 77;
pub const IRQ: usize = 93;
pub const TIMER: usize = 94;
pub const PIN_LEVELS: usize = 98;

pub fn encode(device: &Device) -> StateBytes {
    let mut bytes = [0; STATE_BYTES];
    let mut put = |offset: usize, field: &[u8]| {
        bytes[offset..offset + field.len()].copy_from_slice(field);
    };

    let configuration = &device.configuration;
    put(UNLOCKED, &[u8::from(configuration.unlocked)]);
    put(INDEX, &[configuration.index]);
    put(DEVICE_NUMBER, &[configuration.device_number]);
    put(ACTIVATE, &[configuration.activate]);
    put(RUNTIME_BASE, &configuration.runtime_base);
    put(KEY_BASE, &configuration.key_base);
    put(KEY_CONTROL, &[configuration.key_control]);
    put(KEY, &device.key);

    put(MONITOR_INDEX, &[device.monitor.index]);
    put(MONITOR_REGISTERS, &device.monitor.registers);

    let acpi = &device.acpi;
    put(P_CNT, &[acpi.p_cnt]);
    put(CPU_STATE, &[acpi.cpu_state]);
    put(SCI_EN, &[u8::from(acpi.sci_enabled)]);
    put(PM1_STATUS, &acpi.pm1_status.to_le_bytes());
    put(PM1_ENABLE, &acpi.pm1_enable.to_le_bytes());
    put(PM1_CONTROL, &acpi.pm1_control.to_le_bytes());
    put(SLEEPING, &[u8::from(acpi.sleeping)]);
    put(SETUP_INDEX, &acpi.setup_index.to_le_bytes());
    put(GPE0_STATUS, &acpi.gpe0_status.to_le_bytes());
    put(GPE0_ENABLE, &acpi.gpe0_enable.to_le_bytes());
    for (pin, map) in acpi.pin_maps.iter().enumerate() {
        put(PIN_MAPS + 2 * pin, &map.to_le_bytes());
    }
    put(IRQ, &[acpi.irq]);
    put(TIMER, &acpi.timer.to_le_bytes());

    put(PIN_LEVELS, &device.pin_levels.map(u8::from));
    bytes
}

/// Returns nothing if no device can hold the state: a flag is neither 0 nor 1, or a read-only
/// monitor register does not have its reset value. Other fields may be out of range.
pub fn decode(bytes: &StateBytes) -> Option<Device> {
    let word = |offset: usize| u16::from_le_bytes([bytes[offset], bytes[offset + 1]]);

    let mut key = [0; KEY_BYTES];
    key.copy_from_slice(&bytes[KEY..KEY + KEY_BYTES]);

    let mut registers = [0; REGISTER_COUNT];
    registers.copy_from_slice(&bytes[MONITOR_REGISTERS..MONITOR_REGISTERS + REGISTER_COUNT]);
    let monitor = Monitor {
        index: bytes[MONITOR_INDEX],
        registers,
    };
    if !monitor.read_only_at_reset() {
        return None;
    }

    let mut pin_maps = [0; PIN_COUNT];
    for (pin, map) in pin_maps.iter_mut().enumerate() {
        *map = word(PIN_MAPS + 2 * pin);
    }
    let mut timer = [0; 4];
    timer.copy_from_slice(&bytes[TIMER..TIMER + 4]);

    let mut pin_levels = [false; PIN_COUNT];
    for (pin, level) in pin_levels.iter_mut().enumerate() {
        *level = flag(bytes[PIN_LEVELS + pin])?;
    }

    Some(Device {
        configuration: Configuration {
            unlocked: flag(bytes[UNLOCKED])?,
            index: bytes[INDEX],
            device_number: bytes[DEVICE_NUMBER],
            activate: bytes[ACTIVATE],
            runtime_base: [bytes[RUNTIME_BASE], bytes[RUNTIME_BASE + 1]],
            key_base: [bytes[KEY_BASE], bytes[KEY_BASE + 1]],
            key_control: bytes[KEY_CONTROL],
        },
        key,
        monitor,
        acpi: Acpi {
            p_cnt: bytes[P_CNT],
            cpu_state: bytes[CPU_STATE],
            sci_enabled: flag(bytes[SCI_EN])?,
            pm1_status: word(PM1_STATUS),
            pm1_enable: word(PM1_ENABLE),
            pm1_control: word(PM1_CONTROL),
            sleeping: flag(bytes[SLEEPING])?,
            setup_index: word(SETUP_INDEX),
            gpe0_status: word(GPE0_STATUS),
            gpe0_enable: word(GPE0_ENABLE),
            pin_maps,
            irq: bytes[IRQ],
            timer: u32::from_le_bytes(timer),
        },
        pin_levels,
    })
}

fn flag(byte: u8) -> Option<bool> {
    match byte {
        0 => Some(false),
        1 => Some(true),
        _ => None,
    }
}

/// The place, the number of counters in use and the eight counters: four bytes each, low byte first.
pub fn encode_sequencer(sequencer: &Sequencer) -> SequencerBytes {
    let mut bytes = [0; SEQUENCER_BYTES];
    let (fields, _) = bytes.as_chunks_mut();
    let numbers = [sequencer.place, sequencer.used]
        .into_iter()
        .chain(sequencer.counters);
    for (field, number) in fields.iter_mut().zip(numbers) {
        *field = number.to_le_bytes();
    }
    bytes
}

/// Any bytes are those of a sequencer, in range or not.
pub fn decode_sequencer(bytes: &SequencerBytes) -> Sequencer {
    let (fields, _) = bytes.as_chunks();
    let number = |field: usize| u32::from_le_bytes(fields[field]);
    Sequencer {
        place: number(0),
        used: number(1),
        counters: array::from_fn(|counter| number(2 + counter)),
    }
}

//! Tests of the cases P1 to P9 (crates/correct/specs/Cases.antt), the resets, and the stream of
//! docs/CASES.md.

use std::collections::BTreeSet;

use crate::acpi::Acpi;
use crate::device::{Answer, Device, Outputs, Owner, Refusal};
use crate::generate::{self, ANYTHING};
use crate::images::IMAGES;
use crate::nested::NESTED;
use crate::random::Random;
use crate::runs::RUNS;
use crate::state::{self, StateBytes};
use crate::stream::{self, Reply, Session, LINE_LIMIT};

const PCI_RESET: u32 = 0x0600_0000;
const VCC_RESET: u32 = 0x0600_0001;
const VTR_RESET: u32 = 0x0600_0002;
const VBAT_RESET: u32 = 0x0600_0003;

fn read(device: &mut Device, width: u32, port: u32) -> (u32, u32) {
    let answer = device
        .single_read(width, port)
        .expect("the read is not refused");
    (answer.status, answer.value)
}

/// Writes and returns the status. The answer to a write has the value 0.
fn write(device: &mut Device, width: u32, port: u32, value: u32) -> u32 {
    let answer = device
        .single_write(width, port, value)
        .expect("the write is not refused");
    assert_eq!(answer.value, 0);
    answer.status
}

pub(crate) fn event(device: &mut Device, number: u32) {
    device
        .single_event(number)
        .expect("the event is not refused");
}

pub(crate) fn configure(device: &mut Device, index: u32, value: u32) -> u32 {
    assert_eq!(write(device, 1, 0x2E, index), 0);
    write(device, 1, 0x2F, value)
}

/// A device that is unlocked, with device number 0Ah, both bases set, and activated.
pub(crate) fn placed(runtime_base: u32, key_base: u32) -> Device {
    let mut device = Device::fresh();
    assert_eq!(write(&mut device, 1, 0x2E, 0x55), 0);
    let registers = [
        (0x07, 0x0A),
        (0x60, runtime_base >> 8),
        (0x61, runtime_base & 0xFF),
        (0x62, key_base >> 8),
        (0x63, key_base & 0xFF),
        (0x30, 0x01),
    ];
    for (index, value) in registers {
        assert_eq!(configure(&mut device, index, value), 0);
    }
    device
}

fn monitor_write(device: &mut Device, index: u32, value: u32) -> u32 {
    assert_eq!(write(device, 1, 0x0A70, index), 0);
    write(device, 1, 0x0A71, value)
}

fn monitor_read(device: &mut Device, index: u32) -> (u32, u32) {
    assert_eq!(write(device, 1, 0x0A70, index), 0);
    read(device, 1, 0x0A71)
}

/// A device in which no field has its reset value.
fn busy() -> Device {
    let mut device = placed(0x0A00, 0x0100);
    device.configuration.key_control = 0x07;
    device.key = [0x5A; 32];
    device.monitor.index = 0x83;
    for (place, value) in [
        (0, 0x02),
        (3, 0x04),
        (4, 0x13),
        (5, 0),
        (8, 0x03),
        (14, 0),
        (18, 0x0F),
    ] {
        device.monitor.registers[place] = value;
    }
    device.acpi.p_cnt = 0x17;
    device.acpi.cpu_state = 3;
    device.acpi.sci_enabled = true;
    device.acpi.pm1_status = 0x8910;
    device.acpi.pm1_enable = 0x0021;
    device.acpi.pm1_control = 0x1C02;
    device.acpi.sleeping = true;
    device.acpi.setup_index = 0x41;
    device.acpi.gpe0_status = 0x00FF;
    device.acpi.gpe0_enable = 0xFF00;
    device.acpi.pin_maps = [0x111F; 8];
    device.acpi.irq = 15;
    device.acpi.timer = 0xFF_FFFE;
    device.pin_levels = [true; 8];
    assert!(device.in_range());
    device
}

#[test]
fn p1_fresh_configuration_data_is_unclaimed() {
    let mut device = Device::fresh();
    assert_eq!(read(&mut device, 1, 0x2F), (1, 0xFF));
    assert_eq!(read(&mut device, 2, 0x2F), (1, 0xFFFF));
    assert_eq!(read(&mut device, 4, 0x2E), (1, 0xFFFF_FFFF));
    assert_eq!(device, Device::fresh());
}

#[test]
fn p2_key_control_lock_lasts_to_the_pci_reset() {
    let mut device = placed(0, 0);
    assert_eq!(configure(&mut device, 0xF2, 0x07), 0);
    assert_eq!(configure(&mut device, 0xF2, 0x00), 2);
    assert_eq!(read(&mut device, 1, 0x2F), (0, 0x07));
    event(&mut device, PCI_RESET);
    assert_eq!(device.configuration.key_control, 0x04);
    assert_eq!(device, Device::fresh());
}

#[test]
fn p3_configuration_lies_over_the_key() {
    let mut device = placed(0, 0x0020);
    assert_eq!(configure(&mut device, 0xF2, 0x00), 0);
    assert_eq!(write(&mut device, 1, 0x20, 0x77), 0);
    assert_eq!(device.key[0], 0x77);
    assert_eq!(read(&mut device, 1, 0x2E), (0, 0xF2));
    // While locked, 002Fh still belongs to the configuration, and no other block answers.
    assert_eq!(write(&mut device, 1, 0x2E, 0xAA), 0);
    assert_eq!(read(&mut device, 1, 0x2F), (1, 0xFF));
    assert_eq!(write(&mut device, 1, 0x2F, 0x11), 1);
    assert_eq!(device.key[15], 0);
    assert_eq!(read(&mut device, 1, 0x30), (0, 0));
    assert_eq!(read(&mut device, 2, 0x30), (1, 0xFFFF));
}

#[test]
fn p4_lock_and_the_interrupt_status() {
    let mut device = placed(0x0A00, 0);
    assert_eq!(monitor_write(&mut device, 0x40, 0xFD), 0);
    assert_eq!(monitor_read(&mut device, 0x40), (0, 0x00));
    assert_eq!(monitor_write(&mut device, 0x40, 0xFF), 0);
    assert_eq!(monitor_read(&mut device, 0x40), (0, 0x02));
    assert_eq!(monitor_write(&mut device, 0x40, 0x00), 2);
    assert_eq!(monitor_write(&mut device, 0x7E, 0x00), 2);
    assert_eq!(monitor_read(&mut device, 0x7E), (0, 0xEC));
    event(&mut device, 0x0500_0003);
    assert_eq!(monitor_read(&mut device, 0x83), (0, 0x03));
    assert_eq!(monitor_write(&mut device, 0x83, 0x03), 0);
    assert_eq!(monitor_read(&mut device, 0x83), (0, 0x00));
    // 90h and 91h are not locked.
    assert_eq!(monitor_write(&mut device, 0x90, 0xFF), 0);
    assert_eq!(monitor_read(&mut device, 0x90), (0, 0x1F));
}

#[test]
fn p5_timer_status_when_bit_23_changes() {
    let mut device = Device::fresh();
    device.acpi.timer = 0xFF_FFFF;
    event(&mut device, 0x0100_0001);
    assert_eq!((device.acpi.timer, device.acpi.pm1_status), (0, 0x0001));

    let mut device = Device::fresh();
    device.acpi.timer = 0x7F_FFFF;
    event(&mut device, 0x0100_0001);
    assert_eq!(
        (device.acpi.timer, device.acpi.pm1_status),
        (0x80_0000, 0x0001)
    );
}

#[test]
fn p6_pm1_status_is_write_one_to_clear() {
    let mut device = Device::fresh();
    device.acpi.pm1_status = 0x0101;
    assert_eq!(write(&mut device, 2, 0xAC08, 0x0100), 0);
    assert_eq!(read(&mut device, 2, 0xAC08), (0, 0x0001));
}

#[test]
fn p7_undefined_setup_index_is_ignored() {
    let mut device = Device::fresh();
    assert_eq!(write(&mut device, 2, 0xAC0E, 0x41), 0);
    assert_eq!(write(&mut device, 2, 0xAC0E, 0x42), 5);
    assert_eq!(read(&mut device, 2, 0xAC0E), (0, 0x41));
    assert_eq!(read(&mut device, 4, 0xAC14), (0, 9));
    assert_eq!(write(&mut device, 4, 0xAC14, 16), 5);
    assert_eq!(write(&mut device, 4, 0xAC14, 15), 0);
}

#[test]
fn p8_cpu_state_under_sci() {
    let mut device = Device::fresh();
    assert_eq!(read(&mut device, 1, 0xAC04), (0, 0));
    assert_eq!(device.acpi.cpu_state, 2);
    assert_eq!(read(&mut device, 1, 0xAC05), (0, 0));
    assert_eq!(device.acpi.cpu_state, 3);

    assert_eq!(write(&mut device, 1, 0xAC06, 1), 0);
    assert_eq!(write(&mut device, 2, 0xAC0A, 0x0400), 0);
    event(&mut device, 0x0300_0000);
    assert!(device.outputs().sci);
    assert_eq!(read(&mut device, 1, 0xAC04), (0, 0));
    assert_eq!(device.acpi.cpu_state, 0);
}

#[test]
fn p9_sleep_with_pending_wakes_at_once() {
    let mut device = Device::fresh();
    assert_eq!(write(&mut device, 2, 0xAC12, 0x0001), 0);
    device.acpi.gpe0_status = 0x0001;
    assert_eq!(write(&mut device, 2, 0xAC0C, 0x2000), 0);
    assert!(!device.acpi.sleeping);
    assert_eq!(device.acpi.pm1_status, 0x8000);
    assert_eq!(
        device.outputs(),
        Outputs {
            sci: false,
            smi: true,
            monitor: false
        }
    );

    let mut device = Device::fresh();
    assert_eq!(write(&mut device, 2, 0xAC0C, 0xFFFF), 0);
    assert!(device.acpi.sleeping);
    assert_eq!(read(&mut device, 2, 0xAC0C), (0, 0x1C02));
}

#[test]
fn pci_reset_takes_the_configuration_only() {
    let mut device = busy();
    event(&mut device, PCI_RESET);
    let mut expected = busy();
    expected.configuration = Device::fresh().configuration;
    assert_eq!(device, expected);
}

#[test]
fn vcc_reset_takes_the_monitor_too() {
    let mut device = busy();
    event(&mut device, VCC_RESET);
    let mut expected = busy();
    expected.configuration = Device::fresh().configuration;
    expected.monitor = Device::fresh().monitor;
    assert_eq!(device, expected);
}

#[test]
fn vtr_reset_leaves_key_bytes_and_pin_levels() {
    let mut device = busy();
    event(&mut device, VTR_RESET);
    let mut expected = Device::fresh();
    expected.key = [0x5A; 32];
    expected.pin_levels = [true; 8];
    assert_eq!(device, expected);
    assert_eq!(
        (device.acpi.irq, device.configuration.key_control),
        (9, 0x04)
    );
}

#[test]
fn vbat_reset_gives_the_fresh_device() {
    let mut device = busy();
    event(&mut device, VBAT_RESET);
    assert_eq!(device, Device::fresh());
}

#[test]
fn a_reset_settles_like_any_event() {
    let mut device = Device::fresh();
    device.acpi.sleeping = true;
    device.acpi.cpu_state = 2;
    device.acpi.pm1_status = 0x0001;
    device.acpi.pm1_enable = 0x0001;
    event(&mut device, PCI_RESET);
    assert_eq!(device.acpi.pm1_status, 0x8001);
    assert_eq!((device.acpi.sleeping, device.acpi.cpu_state), (false, 0));
}

#[test]
fn unlocked_55_is_an_index() {
    let mut device = placed(0, 0);
    assert_eq!(write(&mut device, 1, 0x2E, 0x55), 0);
    assert_eq!(read(&mut device, 1, 0x2E), (0, 0x55));
    assert_eq!(read(&mut device, 1, 0x2F), (4, 0));
    assert_eq!(write(&mut device, 1, 0x2E, 0xAA), 0);
    assert_eq!(read(&mut device, 1, 0x2E), (1, 0xFF));
    assert_eq!(write(&mut device, 1, 0x2E, 0x55), 0);
    assert_eq!(read(&mut device, 1, 0x2E), (0, 0x55));
}

/// The accesses of examples/unlock.txt.
#[test]
fn traced_script() {
    let mut device = Device::fresh();
    for (port, value) in [(0x2E, 0x55), (0x2E, 0x07), (0x2F, 0x0A), (0x2E, 0xF2)] {
        assert_eq!(write(&mut device, 1, port, value), 0);
    }
    assert_eq!(read(&mut device, 1, 0x2F), (0, 0x04));
    assert_eq!(write(&mut device, 1, 0x2E, 0xAA), 0);
    assert_eq!(read(&mut device, 1, 0x2F), (1, 0xFF));
}

#[test]
fn key_locks() {
    for control in 0..8 {
        let mut device = placed(0, 0x0100);
        assert_eq!(configure(&mut device, 0xF2, control), 0);
        let written = if control & 4 != 0 { 2 } else { 0 };
        assert_eq!(write(&mut device, 1, 0x011F, 0x33), written);
        let kept = if control & 4 != 0 { 0 } else { 0x33 };
        let expected = if control & 2 != 0 { (2, 0) } else { (0, kept) };
        assert_eq!(read(&mut device, 1, 0x011F), expected);
        assert_eq!(read(&mut device, 1, 0x0120), (1, 0xFF));
    }
}

#[test]
fn bases_are_masked_in_use_only() {
    let mut device = placed(0x0A7F, 0x001F);
    assert_eq!(write(&mut device, 1, 0x2E, 0x61), 0);
    assert_eq!(read(&mut device, 1, 0x2F), (0, 0x7F));
    assert_eq!(read(&mut device, 1, 0x0A70), (0, 0));
    // A key base that is 0 after masking places no block.
    assert_eq!(read(&mut device, 1, 0x0000), (1, 0xFF));
    // The ports of the monitor overlap those of the key.
    let mut device = placed(0x0A00, 0x0A60);
    assert_eq!(write(&mut device, 1, 0x0A70, 0x6E), 0);
    assert_eq!(read(&mut device, 1, 0x0A71), (0, 0x44));
    assert_eq!(read(&mut device, 1, 0x0A72), (0, 0));
}

/// Tries all timers.
#[test]
fn one_tick_sets_the_timer_status_from_two_timers_only() {
    let mut acpi = Acpi::reset();
    let mut set_from = Vec::new();
    for timer in 0..=0xFF_FFFF {
        acpi.timer = timer;
        acpi.pm1_status = 0;
        acpi.tick(1);
        if acpi.pm1_status != 0 {
            assert_eq!(acpi.pm1_status, 0x0001);
            set_from.push(timer);
        }
    }
    assert_eq!(set_from, [0x7F_FFFF, 0xFF_FFFF]);
}

#[test]
fn timer_status_wakes_and_can_be_cleared() {
    for (timer, changed) in [(0x7F_FFFE, 0x80_0000), (0xFF_FFFE, 0)] {
        let mut device = Device::fresh();
        device.acpi.timer = timer;
        device.acpi.pm1_enable = 0x0001;
        device.acpi.sleeping = true;
        let before = device.clone();
        event(&mut device, 0x0100_0000);
        assert_eq!(device, before);
        event(&mut device, 0x0100_0001);
        assert_eq!((device.acpi.sleeping, device.acpi.pm1_status), (true, 0));
        event(&mut device, 0x0100_0000);
        assert_eq!((device.acpi.sleeping, device.acpi.pm1_status), (true, 0));
        event(&mut device, 0x0100_0001);
        assert_eq!(device.acpi.timer, changed);
        assert_eq!(
            (device.acpi.sleeping, device.acpi.pm1_status),
            (false, 0x8001)
        );
        assert!(device.outputs().smi);
        // Cleared, it stays clear until bit 23 changes again.
        assert_eq!(write(&mut device, 2, 0xAC08, 0x8001), 0);
        for ticks in [0, 1, 0xFFFF] {
            event(&mut device, 0x0100_0000 | ticks);
            assert_eq!(device.acpi.pm1_status, 0);
        }
        assert!(!device.outputs().smi);
    }
}

#[test]
fn ticks_are_single_ticks() {
    for timer in [
        0, 0x7F_0000, 0x7F_0001, 0x7F_FFF0, 0x7F_FFFF, 0x80_0000, 0xFF_0000, 0xFF_0001, 0xFF_FFF0,
        0xFF_FFFF,
    ] {
        // Asleep, with TMR_EN set and clear.
        for enable in [0x0001, 0x0000] {
            let mut start = Device::fresh();
            start.acpi.timer = timer;
            start.acpi.cpu_state = 2;
            start.acpi.pm1_enable = enable;
            start.acpi.sleeping = true;
            let mut single = start.clone();
            let mut ticked = 0;
            for ticks in [0, 1, 2, 3, 15, 16, 17, 0xFFFE, 0xFFFF] {
                while ticked < ticks {
                    event(&mut single, 0x0100_0001);
                    ticked += 1;
                }
                let mut many = start.clone();
                event(&mut many, 0x0100_0000 | ticks);
                assert_eq!(many, single, "{ticks} ticks from {timer:06X}");
            }
        }
    }
}

#[test]
fn pins_in_the_mapped_direction() {
    let mut device = Device::fresh();
    assert_eq!(write(&mut device, 2, 0xAC0E, 0x16), 0);
    // Pin 6, rising edge, GPE0_STS bit 14.
    assert_eq!(write(&mut device, 4, 0xAC14, 0x101E), 0);
    assert_eq!(read(&mut device, 4, 0xAC14), (0, 0x101E));
    event(&mut device, 0x0200_000E);
    assert_eq!(device.acpi.gpe0_status, 0x4000);
    assert_eq!(write(&mut device, 2, 0xAC10, 0x4000), 0);
    event(&mut device, 0x0200_000E);
    event(&mut device, 0x0200_0006);
    assert_eq!(device.acpi.gpe0_status, 0);
    // Falling edge, PM1a_STS bit 9.
    assert_eq!(write(&mut device, 4, 0xAC14, 0x0109), 0);
    event(&mut device, 0x0200_000E);
    assert_eq!(device.acpi.pm1_status, 0);
    event(&mut device, 0x0200_0006);
    assert_eq!(device.acpi.pm1_status, 0x0200);
}

#[test]
fn map_values() {
    let mut device = Device::fresh();
    assert_eq!(write(&mut device, 2, 0xAC0E, 0x10), 0);
    for low in 0..=0xFF {
        let legal = matches!(low, 0 | 8 | 9 | 0x10..=0x1F);
        for kept in [0, 0x0100, 0x1000, 0x1100] {
            let status = if legal { 0 } else { 5 };
            assert_eq!(write(&mut device, 4, 0xAC14, low | kept), status);
        }
    }
    for bit in (9..12).chain(13..32) {
        assert_eq!(write(&mut device, 4, 0xAC14, 0x10 | 1 << bit), 5);
    }
}

#[test]
fn acpi_takes_each_offset_at_its_width() {
    let taken = [
        (0, 4),
        (4, 1),
        (5, 1),
        (6, 1),
        (8, 2),
        (10, 2),
        (12, 2),
        (14, 2),
        (16, 2),
        (18, 2),
        (20, 4),
        (24, 4),
    ];
    for offset in 0..32 {
        for width in [1, 2, 4] {
            let mut device = Device::fresh();
            let (status, _) = read(&mut device, width, 0xAC00 + offset);
            assert_eq!(status == 0, taken.contains(&(offset, width)));
        }
    }
    let mut device = Device::fresh();
    assert_eq!(write(&mut device, 4, 0xAC18, 1), 2);
    assert_eq!(write(&mut device, 1, 0xAC04, 0), 2);
    assert_eq!(write(&mut device, 1, 0xAC06, 3), 5);
    assert_eq!(write(&mut device, 4, 0xAC14, 0), 5);
}

#[test]
fn refusals_come_in_order() {
    let mut device = Device::fresh();
    assert_eq!(device.single_read(3, 0x2E), Err(Refusal::BadAccess));
    assert_eq!(device.single_read(1, 0x1_0000), Err(Refusal::BadAccess));
    assert_eq!(device.single_write(1, 0x2E, 0x155), Err(Refusal::BadAccess));
    assert_eq!(
        device.single_write(4, 0x2E, u32::MAX),
        Ok(Answer {
            status: 1,
            value: 0,
            owner: Owner::Configuration,
        })
    );
    for number in [
        0,
        0x0101_0000,
        0x0200_0010,
        0x0300_0001,
        0x0500_0004,
        0x0600_0004,
        0x0800_0000,
    ] {
        assert_eq!(device.single_event(number), Err(Refusal::BadEvent));
    }
    assert_eq!(device, Device::fresh());
    device.acpi.timer = 1 << 24;
    assert_eq!(device.single_read(3, 0x2E), Err(Refusal::StateOutOfRange));
    assert_eq!(device.single_event(0), Err(Refusal::StateOutOfRange));
}

#[test]
fn state_bytes_round_trip() {
    for device in [Device::fresh(), busy()] {
        assert_eq!(state::decode(&state::encode(&device)), Some(device));
    }
    let bytes = state::encode(&busy());
    assert_eq!(
        bytes[state::SETUP_INDEX..state::SETUP_INDEX + 2],
        [0x41, 0x00]
    );
    assert_eq!(
        bytes[state::TIMER..state::TIMER + 4],
        [0xFE, 0xFF, 0xFF, 0x00]
    );
}

fn hex(bytes: &StateBytes) -> String {
    bytes.iter().map(|byte| format!("{byte:02X}")).collect()
}

#[test]
fn loads_in_and_out_of_range() {
    // Offset, byte, and the answers to the load and to an event after it.
    let cases = [
        (state::UNLOCKED, 2, "REFUSED 11 0", "DONE 000"),
        (state::ACTIVATE, 2, "LOADED", "REFUSED 11 0"),
        (state::KEY_CONTROL, 8, "LOADED", "REFUSED 11 0"),
        (
            state::MONITOR_REGISTERS + 1,
            0x45,
            "REFUSED 11 0",
            "DONE 000",
        ),
        (state::MONITOR_REGISTERS + 3, 0x41, "LOADED", "REFUSED 11 0"),
        (state::P_CNT, 0x08, "LOADED", "REFUSED 11 0"),
        (state::CPU_STATE, 1, "LOADED", "REFUSED 11 0"),
        (state::CPU_STATE, 3, "LOADED", "DONE 000"),
        (state::SCI_EN, 2, "REFUSED 11 0", "DONE 000"),
        (state::PM1_STATUS, 0x02, "LOADED", "REFUSED 11 0"),
        (state::PM1_ENABLE + 1, 0x80, "LOADED", "REFUSED 11 0"),
        (state::PM1_CONTROL, 0x01, "LOADED", "REFUSED 11 0"),
        (state::SLEEPING, 0xFF, "REFUSED 11 0", "DONE 000"),
        (state::SETUP_INDEX, 0x42, "LOADED", "REFUSED 11 0"),
        (state::PIN_MAPS + 14, 0x0A, "LOADED", "REFUSED 11 0"),
        (state::IRQ, 16, "LOADED", "REFUSED 11 0"),
        (state::TIMER + 3, 1, "LOADED", "REFUSED 11 0"),
        (state::PIN_LEVELS + 7, 2, "REFUSED 11 0", "DONE 000"),
        (state::INDEX, 0xFF, "LOADED", "DONE 000"),
    ];
    for (offset, byte, load_answer, event_answer) in cases {
        let mut session = Session::new();
        let mut bytes = state::encode(&Device::fresh());
        bytes[offset] = byte;
        let load = session.answer(format!("L {}", hex(&bytes)).as_bytes());
        assert_eq!(load.to_string(), load_answer, "offset {offset}");
        assert_eq!(
            session.answer(b"E 1000000").to_string(),
            event_answer,
            "offset {offset}"
        );
        assert_eq!(session.answer(b"F").to_string(), "FRESH");
        assert_eq!(session.answer(b"E 1000000").to_string(), "DONE 000");
    }
}

fn answers(input: &[u8]) -> String {
    let mut output = Vec::new();
    stream::answer_all(&mut &input[..], &mut output).expect("writing to memory does not fail");
    String::from_utf8(output).expect("answers are text")
}

#[test]
fn stream_lines() {
    assert_eq!(answers(b""), "");
    assert_eq!(answers(b"\n"), "UNREAD\n");
    assert_eq!(answers(b"O"), "OUTPUTS 000\n");
    assert_eq!(answers(b"O\n\nF\n"), "OUTPUTS 000\nUNREAD\nFRESH\n");
    assert_eq!(
        answers(b"R 1 2f\nR 00000001 0000002F\n"),
        "DONE 1 000000FF 000 1\n".repeat(2)
    );
    assert_eq!(
        answers(b"W 1 2E 55\nR 1 2E\n"),
        "DONE 0 00000000 000 1\n".repeat(2)
    );
    // The last number is the owner, 0 where no block claims the port. A refusal has none.
    assert_eq!(
        answers(b"R 2 2E\nW 4 AC01 0\nR 4 30\nR 4 AC18\n"),
        "DONE 1 0000FFFF 000 1\nDONE 1 00000000 000 2\nDONE 1 FFFFFFFF 000 0\nDONE 0 00000000 000 2\n"
    );
    assert_eq!(
        answers(b"R 3 2E\nE 0\nR 1 10000"),
        "REFUSED 4 0\nREFUSED 12 0\nREFUSED 4 0\n"
    );
    let fresh = format!("STATE {}\n", hex(&state::encode(&Device::fresh())));
    assert_eq!(answers(b"S"), fresh);
    for line in [
        "o",
        " O",
        "O ",
        "OO",
        "O O",
        "R 1",
        "R 1 2E 0",
        "R 1  2E",
        "R\t1 2E",
        "W 1 2E",
        "E ",
        "E",
        "E 000000001",
        "E 0x1",
        "E +1",
        "E 1G",
        "O\r",
        "L",
        "L ",
        "L 00",
        "L 0",
        "P ",
        "P 0",
        "PP",
        "p",
        "G",
        "G ",
        "G 00",
        "\0",
        "X",
        "W 1 2E 55 0",
        "W 1 2E 55 0 0",
    ] {
        assert_eq!(answers(line.as_bytes()), "UNREAD\n", "{line:?}");
    }
}

#[test]
fn long_lines() {
    for length in [LINE_LIMIT - 1, LINE_LIMIT, LINE_LIMIT + 1, 3 * LINE_LIMIT] {
        let mut input = vec![b'F'; length];
        assert_eq!(answers(&input), "UNREAD\n");
        input.extend_from_slice(b"\nO");
        assert_eq!(answers(&input), "UNREAD\nOUTPUTS 000\n");
    }
}

#[test]
fn generator_writes_the_count() {
    for seed in 0..40 {
        for count in [0, 1, 2, 400] {
            let mut commands = Vec::new();
            generate::write_commands(&ANYTHING, seed, count, &mut commands)
                .expect("writing to memory does not fail");
            assert_eq!(answers(&commands).lines().count() as u64, count);
        }
    }
}

/// An access to a device in range has status 0, 1, 2, 4 or 5, and never panics. All five occur.
/// The devices are fresh, busy and random ones, each under every setup index that refusal 11 lets
/// through. The accesses are those of the random commands, and reads and writes of every width at
/// each offset of the ACPI block and at random ports.
#[test]
fn every_status_is_in_the_table() {
    let mut probe = Device::fresh();
    let mut indices: Vec<u16> = (0..=u16::MAX).collect();
    indices.retain(|index| {
        probe.acpi.setup_index = *index;
        probe.in_range()
    });
    assert_eq!(
        indices,
        [0x00, 0x10, 0x11, 0x12, 0x13, 0x14, 0x15, 0x16, 0x17, 0x40, 0x41]
    );

    let mut commands = Vec::new();
    generate::write_commands(&ANYTHING, 3, 1_000, &mut commands)
        .expect("writing to memory does not fail");
    let mut session = Session::new();
    let mut devices = vec![Device::fresh(), busy()];
    let mut statuses = BTreeSet::new();
    for line in commands.split(|byte| *byte == b'\n') {
        if let Reply::Access(answer, _) = session.answer(line) {
            statuses.insert(answer.status);
        }
        devices.push(session.device().clone());
    }
    devices.retain(Device::in_range);
    devices.dedup();

    let mut random = Random::new(3);
    for mut device in devices {
        for index in &indices {
            device.acpi.setup_index = *index;
            let anywhere = random.below(0x1_0000);
            for port in (0xAC00..=0xAC1F).chain([anywhere]) {
                for width in [1, 2, 4] {
                    let value = random.bits(8 * width);
                    statuses.insert(read(&mut device.clone(), width, port).0);
                    statuses.insert(write(&mut device.clone(), width, port, value));
                }
            }
        }
    }
    assert_eq!(statuses, BTreeSet::from([0, 1, 2, 4, 5]));
}

/// Statuses other than 0 change nothing except by settling, and refusals change nothing.
#[test]
fn only_done_accesses_change_the_state() {
    let mut commands = Vec::new();
    generate::write_commands(&ANYTHING, 7, 20_000, &mut commands)
        .expect("writing to memory does not fail");
    let mut session = Session::new();
    for line in commands.split(|byte| *byte == b'\n') {
        let mut settled = session.device().clone();
        match session.answer(line) {
            Reply::Access(answer, _) if answer.status != 0 => {
                settled.acpi.settle();
                assert_eq!(session.device(), &settled);
            }
            Reply::Refused(_)
            | Reply::Unread
            | Reply::Outputs(_)
            | Reply::State(_)
            | Reply::Compiled(..)
            | Reply::Assembled(..)
            | Reply::Listed(..)
            | Reply::Set
            | Reply::Sequencer(_) => {
                assert_eq!(session.device(), &settled);
            }
            Reply::Ran(ran) if ran.outcome.is_err() => assert_eq!(session.device(), &settled),
            Reply::Interpreted(refused) if refused.outcome.is_err() => {
                assert_eq!(session.device(), &settled);
            }
            Reply::Access(..) | Reply::Event(_) | Reply::Ran(_) | Reply::Interpreted(_) => {
                assert!(session.device().in_range());
            }
            Reply::Loaded | Reply::Fresh => {}
        }
    }
}

/// Random events and runs set TMR_STS at both changes of bit 23.
#[test]
fn random_ticks_reach_both_timer_changes() {
    for (source, count, least) in [
        (&ANYTHING, 20_000, 30),
        (&RUNS, 4_000, 20),
        (&IMAGES, 2_000, 8),
        (&NESTED, 2_000, 20),
    ] {
        let mut commands = Vec::new();
        generate::write_commands(source, 1, count, &mut commands)
            .expect("writing to memory does not fail");
        let mut session = Session::new();
        let (mut at_half, mut at_wrap) = (0, 0);
        for line in commands.split(|byte| *byte == b'\n') {
            let before = session.device().acpi.pm1_status;
            let reply = session.answer(line);
            let after = &session.device().acpi;
            let set = after.pm1_status & !before & 0x0001 != 0;
            let by_ticks = matches!(
                reply,
                Reply::Event(_) | Reply::Ran(_) | Reply::Interpreted(_)
            );
            if set && by_ticks {
                match after.timer {
                    0x80_0000.. => at_half += 1,
                    _ => at_wrap += 1,
                }
            }
        }
        assert!(at_half >= least, "{at_half}");
        assert!(at_wrap >= least, "{at_wrap}");
    }
}

//! Tests of the compiler and of the compile command of docs/CASES.md.

use crate::compiler::{
    compile, Fault, Record, Refusal, DELAY, ELSE, END, ENTER, HALT, IF, JUMP, LOOP_END, READ,
    RECORD_BYTES, REPEAT, TEST, WORD_MARK, WRITE,
};
use crate::scripts;
use crate::stream;

const LENT: u8 = 0xEE;

fn record(kind: u8, width: u8, port: u16, value: u32) -> Record {
    Record {
        width,
        port,
        value,
        ..Record::of_script(kind)
    }
}

fn word(kind: u8, width: u8, port: u16, target: u16, value: u32) -> Record {
    Record {
        width,
        port,
        target,
        value,
        ..Record::of_image(kind)
    }
}

fn repeat(times: u32) -> Record {
    record(REPEAT, 0, 0, times)
}

fn write() -> Record {
    record(WRITE, 1, 0x2E, 0x55)
}

fn read() -> Record {
    record(READ, 4, 0xAC18, 0)
}

fn if_bit() -> Record {
    record(IF, 2, 0xAC08, 0x8001)
}

fn or_else() -> Record {
    record(ELSE, 0, 0, 0)
}

fn end() -> Record {
    record(END, 0, 0, 0)
}

fn bytes(records: &[Record]) -> Vec<u8> {
    records.iter().flat_map(Record::encode).collect()
}

/// Compiles into a buffer that is exactly long enough for this many words, then into one that is a
/// byte too short and one that is longer.
fn expect_words(script: &[Record], words: &[Record]) {
    let script = bytes(script);
    let image = bytes(words);
    for rest in [0, 1, 12, 30] {
        let mut buffer = vec![LENT; image.len() + rest];
        assert_eq!(compile(&script, &mut buffer), Ok(words.len()));
        assert_eq!(&buffer[..image.len()], image);
        assert!(buffer[image.len()..].iter().all(|byte| *byte == LENT));
    }
    for length in [0, image.len() - 12, image.len() - 1] {
        let place = script.len() / RECORD_BYTES;
        expect_refusal_in(&script, length, Fault::ShortBuffer, place);
    }
}

fn expect_refusal_in(script: &[u8], length: usize, fault: Fault, place: usize) {
    let mut buffer = vec![LENT; length];
    assert_eq!(compile(script, &mut buffer), Err(Refusal { fault, place }));
    assert!(buffer.iter().all(|byte| *byte == LENT));
}

fn expect_refusal(script: &[Record], fault: Fault, place: usize) {
    expect_refusal_in(&bytes(script), 16_384, fault, place);
    if fault != Fault::ShortBuffer {
        expect_refusal_in(&bytes(script), 0, fault, place);
    }
}

fn accepted(script: &[Record]) -> usize {
    compile(&bytes(script), &mut [0; 12_288]).expect("the script is valid")
}

#[test]
fn empty_script_is_one_halt() {
    expect_words(&[], &[word(HALT, 0, 0, 0, 0)]);
    let halt = [0xC3, 0x3C, 8, 0, 0, 0, 0, 0, 0, 0, 0, 0];
    let mut buffer = [0; 12];
    assert_eq!(compile(&[], &mut buffer), Ok(1));
    assert_eq!(buffer, halt);
}

#[test]
fn p10_repeat() {
    expect_words(
        &[repeat(2), write(), end()],
        &[
            word(ENTER, 0, 0, 3, 2),
            word(WRITE, 1, 0x2E, 0, 0x55),
            word(LOOP_END, 0, 0, 1, 0),
            word(HALT, 0, 0, 0, 0),
        ],
    );
}

#[test]
fn p11_if_else() {
    expect_words(
        &[if_bit(), read(), or_else(), read(), end()],
        &[
            word(TEST, 2, 0xAC08, 3, 0x8001),
            word(READ, 4, 0xAC18, 0, 0),
            word(JUMP, 0, 0, 4, 0),
            word(READ, 4, 0xAC18, 0, 0),
            word(HALT, 0, 0, 0, 0),
        ],
    );
}

#[test]
fn bytes_of_a_word() {
    let script = bytes(&[record(WRITE, 4, 0x1234, 0x89AB_CDEF)]);
    assert_eq!(
        script,
        [0x5A, 0xA5, 1, 4, 0x34, 0x12, 0, 0, 0xEF, 0xCD, 0xAB, 0x89]
    );
    let mut buffer = [0; 24];
    assert_eq!(compile(&script, &mut buffer), Ok(2));
    assert_eq!(
        buffer[..12],
        [0xC3, 0x3C, 1, 4, 0x34, 0x12, 0, 0, 0xEF, 0xCD, 0xAB, 0x89]
    );
}

#[test]
fn empty_and_nested_blocks() {
    expect_words(
        &[repeat(0), end()],
        &[
            word(ENTER, 0, 0, 2, 0),
            word(LOOP_END, 0, 0, 1, 0),
            word(HALT, 0, 0, 0, 0),
        ],
    );
    expect_words(
        &[if_bit(), end()],
        &[word(TEST, 2, 0xAC08, 1, 0x8001), word(HALT, 0, 0, 0, 0)],
    );
    expect_words(
        &[if_bit(), or_else(), end()],
        &[
            word(TEST, 2, 0xAC08, 2, 0x8001),
            word(JUMP, 0, 0, 2, 0),
            word(HALT, 0, 0, 0, 0),
        ],
    );
    // The end of an inner if gives no word, so the targets after it are smaller.
    expect_words(
        &[
            repeat(3),
            if_bit(),
            if_bit(),
            end(),
            or_else(),
            record(DELAY, 0, 0, 65_535),
            end(),
            end(),
            read(),
        ],
        &[
            word(ENTER, 0, 0, 6, 3),
            word(TEST, 2, 0xAC08, 4, 0x8001),
            word(TEST, 2, 0xAC08, 3, 0x8001),
            word(JUMP, 0, 0, 5, 0),
            word(DELAY, 0, 0, 0, 65_535),
            word(LOOP_END, 0, 0, 1, 0),
            word(READ, 4, 0xAC18, 0, 0),
            word(HALT, 0, 0, 0, 0),
        ],
    );
}

#[test]
fn depth() {
    let nested = |opening: Record, count: usize| -> Vec<Record> {
        [vec![opening; count], vec![end(); count]].concat()
    };
    assert_eq!(accepted(&nested(repeat(1), 8)), 17);
    expect_refusal(&nested(repeat(1), 9), Fault::Depth, 8);
    assert_eq!(accepted(&nested(if_bit(), 16)), 17);
    expect_refusal(&nested(if_bit(), 17), Fault::Depth, 16);
    // Ifs between repeats do not change the count of repeats; an else opens no block.
    let mut mixed = [if_bit(), repeat(1)].repeat(8);
    mixed.extend(vec![end(); 16]);
    assert_eq!(accepted(&mixed), 25);
    mixed.insert(16, repeat(1));
    expect_refusal(&mixed, Fault::Depth, 16);
    mixed[16] = if_bit();
    expect_refusal(&mixed, Fault::Depth, 16);
    let mut elses = [if_bit(), or_else()].repeat(16);
    elses.extend(vec![end(); 16]);
    assert_eq!(accepted(&elses), 33);
    elses.insert(32, repeat(1));
    expect_refusal(&elses, Fault::Depth, 32);
    // Closed blocks do not count.
    let twice = nested(repeat(1), 8).repeat(2);
    assert_eq!(accepted(&twice), 33);
}

#[test]
fn limits_of_length() {
    assert_eq!(accepted(&vec![write(); 1_023]), 1_024);
    expect_refusal(&vec![write(); 1_024], Fault::TooManyWords, 1_024);
    expect_refusal(&vec![write(); 1_025], Fault::Length, 0);
    let mut fitting = vec![write(); 1_022];
    fitting.extend([if_bit(), end()]);
    assert_eq!(accepted(&fitting), 1_024);
    fitting[1_022] = repeat(1);
    expect_refusal(&fitting, Fault::TooManyWords, 1_024);
    fitting[1_023] = if_bit();
    expect_refusal(&fitting, Fault::StillOpen, 1_024);
    for length in [1, 2, 11, 13, 12_289] {
        expect_refusal_in(&vec![0; length], 100, Fault::Length, 0);
    }
}

#[test]
fn faults_of_records() {
    let cases = [
        (
            Fault::Mark,
            Record {
                mark: WORD_MARK,
                ..write()
            },
        ),
        (
            Fault::Mark,
            Record {
                mark: [0xA5, 0x5A],
                kind: 0,
                ..write()
            },
        ),
        (Fault::Kind, record(0, 3, 0, 0)),
        (Fault::Kind, record(8, 0, 0, 0)),
        (Fault::Kind, record(255, 1, 0, 0)),
        (Fault::Field, record(WRITE, 0, 0, 0)),
        (Fault::Field, record(WRITE, 3, 0, 0)),
        (Fault::Field, record(WRITE, 1, 0, 0x100)),
        (Fault::Field, record(WRITE, 2, 0, 0x1_0000)),
        (Fault::Field, record(READ, 5, 0, 0)),
        (Fault::Field, record(READ, 1, 0, 1)),
        (Fault::Field, record(DELAY, 0, 0, 65_536)),
        (Fault::Field, record(DELAY, 1, 0, 0)),
        (Fault::Field, record(DELAY, 0, 1, 0)),
        (Fault::Field, record(REPEAT, 0, 0, 65_536)),
        (Fault::Field, record(IF, 1, 0, 0x100)),
        (Fault::Field, record(IF, 0, 0, 0)),
        (Fault::Field, record(ELSE, 0, 0, 1)),
        (Fault::Field, record(ELSE, 1, 0, 0)),
        (Fault::Field, record(END, 0, 1, 0)),
        (Fault::Field, record(END, 0, 0, 0x8000_0000)),
        (
            Fault::Field,
            Record {
                target: 1,
                ..write()
            },
        ),
        (
            Fault::Field,
            Record {
                target: 0x8000,
                ..end()
            },
        ),
        (Fault::Balance, or_else()),
        (Fault::Balance, end()),
    ];
    for (fault, bad) in cases {
        for before in [0, 1, 7] {
            let mut script = vec![read(); before];
            script.push(bad);
            expect_refusal(&script, fault, before);
            // A fault in a later record does not count, even if its number is lower.
            script.push(Record::default());
            expect_refusal(&script, fault, before);
        }
    }
    expect_refusal(&[repeat(1), or_else(), end()], Fault::Balance, 1);
    expect_refusal(&[if_bit(), or_else(), or_else(), end()], Fault::Balance, 2);
    expect_refusal(&[if_bit(), repeat(1), or_else()], Fault::Balance, 2);
    expect_refusal(&[if_bit(), end(), end()], Fault::Balance, 2);
    expect_refusal(&[if_bit(), or_else()], Fault::StillOpen, 2);
    expect_refusal(&[repeat(1)], Fault::StillOpen, 1);
    let mut ninth = vec![repeat(1); 9];
    ninth[8].value = 65_536;
    expect_refusal(&ninth, Fault::Field, 8);
}

fn answers(input: &[u8]) -> String {
    let mut output = Vec::new();
    stream::answer_all(&mut &input[..], &mut output).expect("writing to memory does not fail");
    String::from_utf8(output).expect("answers are text")
}

#[test]
fn compile_command() {
    let halt = "C33C08000000000000000000";
    assert_eq!(answers(b"C 0"), "REFUSED 9 0\n");
    assert_eq!(answers(b"C C"), format!("COMPILED 1 {halt}\n"));
    assert_eq!(answers(b"C 0000000e"), format!("COMPILED 1 {halt}0C0D\n"));
    assert_eq!(answers(b"C b"), "REFUSED 9 0 000102030405060708090A\n");
    assert_eq!(answers(b"C 0 5a"), "REFUSED 1 0\n");
    assert_eq!(answers(b"C 1 5aA507000000000000000000"), "REFUSED 5 0 00\n");
    let whole = answers(b"C 4000");
    assert!(whole.starts_with(&format!("COMPILED 1 {halt}0C0D")));
    assert!(whole.ends_with("41424344\n"));
    assert!(whole.contains("F8F9FA000102"));
    assert_eq!(whole.len(), "COMPILED 1 ".len() + 2 * 0x4000 + 1);
    let longest = format!("C 0 {}", "00".repeat(0x4000));
    assert_eq!(answers(longest.as_bytes()), "REFUSED 1 0\n");
    let too_long = format!("C 0 {}", "00".repeat(0x4001));
    assert_eq!(answers(too_long.as_bytes()), "UNREAD\n");
    for line in [
        "C",
        "C ",
        "C 0 ",
        "C  00",
        "C 0 0",
        "C 0 0G",
        "C 0 00 ",
        "C 0 00 00",
        "C 4001",
        "C 000000000",
        "c 0",
        "C G",
        "C FFFFFFFF",
    ] {
        assert_eq!(answers(line.as_bytes()), "UNREAD\n", "{line:?}");
    }
}

#[test]
fn random_scripts_reach_every_answer() {
    let mut commands = Vec::new();
    scripts::write_scripts(1, 3_000, &mut commands).expect("writing to memory does not fail");
    let mut counts = [0; 10];
    for line in answers(&commands).lines() {
        match line.split(' ').collect::<Vec<_>>().as_slice() {
            ["COMPILED", ..] => counts[0] += 1,
            ["REFUSED", number, ..] => counts[number.parse::<usize>().expect("a number")] += 1,
            _ => assert_eq!(line, "UNREAD"),
        }
    }
    assert!(counts[0] >= 1_500, "{counts:?}");
    assert!(counts[1..].iter().all(|count| *count >= 50), "{counts:?}");
}

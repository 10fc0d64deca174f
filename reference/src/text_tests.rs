//! Tests of the reader and the lister of text scripts, and of the commands `A` and `D` of
//! docs/CASES.md.

use std::collections::{BTreeMap, BTreeSet};

use crate::compiler::{
    self, Record, DELAY, ELSE, END, IF, READ, RECORD_BYTES, REPEAT, WORD_MARK, WRITE,
};
use crate::generate;
use crate::random::Random;
use crate::scripts::{self, encode};
use crate::stream;
use crate::text::{self, Fault, Refusal};
use crate::text_programs;
use crate::texts::{self, TEXTS};

const LENT: u8 = 0xEE;

fn record(kind: u8, width: u8, port: u16, value: u32) -> Record {
    Record {
        width,
        port,
        value,
        ..Record::of_script(kind)
    }
}

/// The number and the place of a refusal.
fn numbers(refusal: Refusal) -> (u32, usize) {
    (refusal.fault.number(), refusal.place)
}

/// Reads into buffers of several lengths: the text means these records.
fn expect_records(text: impl AsRef<[u8]>, records: &[Record]) {
    let text = text.as_ref();
    let shown = text.escape_ascii();
    let bytes = encode(records);
    for rest in [0, 1, 12, 30] {
        let mut buffer = vec![LENT; bytes.len() + rest];
        assert_eq!(
            text::read(text, &mut buffer),
            Ok(records.len()),
            "\"{shown}\""
        );
        assert_eq!(&buffer[..bytes.len()], bytes, "\"{shown}\"");
        assert!(buffer[bytes.len()..].iter().all(|byte| *byte == LENT));
    }
    for missing in [1, 11, 12, bytes.len()] {
        if (1..=bytes.len()).contains(&missing) {
            expect_refusal_in(text, bytes.len() - missing, 33, 0);
        }
    }
}

fn expect_refusal_in(text: &[u8], length: usize, number: u32, place: usize) {
    let mut buffer = vec![LENT; length];
    let outcome = text::read(text, &mut buffer).map_err(numbers);
    assert_eq!(outcome, Err((number, place)), "\"{}\"", text.escape_ascii());
    assert!(buffer.iter().all(|byte| *byte == LENT));
}

/// The refusal does not depend on the buffer.
fn expect_refusal(text: impl AsRef<[u8]>, number: u32, place: usize) {
    for length in [0, 1, 12, 1_200] {
        expect_refusal_in(text.as_ref(), length, number, place);
    }
}

/// The line is bad by itself, and in a text with other lines before and after it.
fn expect_bad_line(line: impl AsRef<[u8]>, number: u32) {
    let line = line.as_ref();
    let shown = line.escape_ascii();
    assert!(!line.contains(&b'\n'), "\"{shown}\" is one line");
    expect_refusal(line, number, 0);
    let with_feed = [line, b"\n"].concat();
    expect_refusal(&with_feed, number, 0);
    let in_text = [b"end\n\n; c\r\n", line, b"\nend"].concat();
    expect_refusal(&in_text, number, 3);
    // A later line that is bad with a lower number does not count.
    let before_worse = [line, b"\n", &[b' '; 121], b"\n?"].concat();
    expect_refusal(&before_worse, number, 0);
}

fn expect_line(line: impl AsRef<[u8]>, record: Record) {
    let line = line.as_ref();
    expect_records(line, &[record]);
    let with_feed = [line, b"\n"].concat();
    expect_records(&with_feed, &[record]);
}

fn listed(records: &[Record]) -> String {
    let listing = text::listing(&encode(records)).expect("the records have a listing");
    String::from_utf8(listing).expect("a listing is text")
}

fn expect_list_refusal(script: &[u8], number: u32, place: usize) {
    for length in [0, 1, 5_000] {
        let mut buffer = vec![LENT; length];
        let outcome = text::list(script, &mut buffer).map_err(numbers);
        assert_eq!(outcome, Err((number, place)));
        assert!(buffer.iter().all(|byte| *byte == LENT));
    }
}

// The grammar.

/// The places at which a part of the grammar can end, if it starts at one of these places.
type Places = BTreeSet<usize>;

/// The productions of docs/TEXT.md, one by one, tried in every possible way.
struct Grammar<'a> {
    line: &'a [u8],
}

impl Grammar<'_> {
    fn one(&self, places: &Places, allowed: impl Fn(u8) -> bool) -> Places {
        places
            .iter()
            .filter(|place| self.line.get(**place).is_some_and(|byte| allowed(*byte)))
            .map(|place| place + 1)
            .collect()
    }

    fn any_number(&self, places: &Places, allowed: impl Fn(u8) -> bool) -> Places {
        let mut all = places.clone();
        let mut last = places.clone();
        while !last.is_empty() {
            last = self.one(&last, &allowed);
            all.extend(&last);
        }
        all
    }

    fn literal(&self, places: &Places, letters: &str) -> Places {
        letters.bytes().fold(places.clone(), |places, letter| {
            self.one(&places, |byte| byte == letter)
        })
    }

    fn blanks(&self, places: &Places) -> Places {
        self.any_number(places, is_blank)
    }

    fn gap(&self, places: &Places) -> Places {
        self.blanks(&self.one(places, is_blank))
    }

    fn number(&self, places: &Places) -> Places {
        let is_digit = |byte: u8| byte.is_ascii_digit();
        let is_hex = |byte: u8| byte.is_ascii_hexdigit();
        let decimal = self.any_number(&self.one(places, is_digit), is_digit);
        let digits = self.any_number(&self.one(places, is_hex), is_hex);
        let hex = self.one(&digits, |byte| matches!(byte, b'h' | b'H'));
        &decimal | &hex
    }

    fn statement(&self, places: &Places) -> Places {
        let forms = [
            ("write", 3),
            ("read", 2),
            ("delay", 1),
            ("repeat", 1),
            ("if", 3),
            ("else", 0),
            ("end", 0),
        ];
        let mut ends = Places::new();
        for (keyword, operands) in forms {
            let keyword = self.literal(places, keyword);
            ends.extend((0..operands).fold(keyword, |places, _| self.number(&self.gap(&places))));
        }
        ends
    }

    fn comment(&self, places: &Places) -> Places {
        self.any_number(&self.literal(places, ";"), |byte| byte != b'\n')
    }

    fn has_line(&self) -> bool {
        let mut places = self.blanks(&Places::from([0]));
        let with_statement = self.blanks(&self.statement(&places));
        places.extend(with_statement);
        let with_comment = self.comment(&places);
        places.extend(with_comment);
        let with_return = self.literal(&places, "\r");
        places.extend(with_return);
        places.contains(&self.line.len())
    }
}

fn is_blank(byte: u8) -> bool {
    matches!(byte, b' ' | b'\t')
}

/// What the table of docs/TEXT.md says of a line in the grammar: its record, if it has a statement, or
/// 32.
fn meaning(line: &[u8]) -> Result<Vec<Record>, u32> {
    let line = String::from_utf8_lossy(line);
    let code = line.split(';').next().unwrap_or("");
    let words: Vec<&str> = code.split_ascii_whitespace().collect();
    let Some((keyword, operands)) = words.split_first() else {
        return Ok(Vec::new());
    };
    let numbers: Option<Vec<u128>> = operands.iter().map(|word| value(word)).collect();
    let numbers = numbers.ok_or(32_u32)?;
    let largest = |width: u128| match width {
        1 => Some(0xFF),
        2 => Some(0xFFFF),
        4 => Some(0xFFFF_FFFF),
        _ => None,
    };
    let record = match (*keyword, numbers.as_slice()) {
        ("write" | "if", [width, port, value])
            if *port < 1 << 16 && largest(*width).is_some_and(|largest| *value <= largest) =>
        {
            let kind = if *keyword == "if" { 5 } else { 1 };
            record(kind, *width as u8, *port as u16, *value as u32)
        }
        ("read", [width, port]) if *port < 1 << 16 && largest(*width).is_some() => {
            record(2, *width as u8, *port as u16, 0)
        }
        ("delay", [count]) if *count < 1 << 16 => record(3, 0, 0, *count as u32),
        ("repeat", [count]) if *count < 1 << 16 => record(4, 0, 0, *count as u32),
        ("else", []) => record(6, 0, 0, 0),
        ("end", []) => record(7, 0, 0, 0),
        _ => return Err(32),
    };
    Ok(vec![record])
}

/// The value of a number, if it has at most 30 digits without leading zeros.
fn value(word: &str) -> Option<u128> {
    let (digits, radix) = match word.strip_suffix(['h', 'H']) {
        Some(digits) => (digits, 16),
        None => (word, 10),
    };
    let digits = digits.trim_start_matches('0');
    match digits.len() {
        0 => Some(0),
        1..=30 => u128::from_str_radix(digits, radix).ok(),
        _ => None,
    }
}

/// Compares the reader with the productions, and with the table of what a statement means. Returns
/// whether the line is in the grammar.
fn check_line(line: &[u8]) -> bool {
    let in_grammar = Grammar { line }.has_line();
    let expected = match (line.len(), in_grammar) {
        (121.., _) => Err(30),
        (_, false) => Err(31),
        (_, true) => meaning(line),
    };
    let read = text::records(line).map_err(|refusal| refusal.fault.number());
    assert_eq!(read, expected, "\"{}\"", line.escape_ascii());
    in_grammar
}

#[test]
fn random_lines_follow_the_productions() {
    let (mut inside, mut outside) = (0, 0);
    for seed in 0..6_000 {
        let text = texts::single_text(seed);
        for line in text::lines(&text).filter(|line| line.len() < 400).take(40) {
            match check_line(line) {
                true => inside += 1,
                false => outside += 1,
            }
        }
    }
    assert!(inside > 10_000 && outside > 2_000, "{inside} {outside}");
}

#[test]
fn every_short_line_follows_the_productions() {
    // Every line of up to four of these pieces.
    let pieces: [&[u8]; 14] = [
        b" ", b"\t", b"\r", b";", b"end", b"else", b"delay", b"if", b"0", b"1", b"9", b"F", b"h",
        b"\0",
    ];
    let mut accepted = 0;
    for one in pieces {
        for two in pieces {
            for three in pieces {
                for four in pieces {
                    accepted += u32::from(check_line(&[one, two, three, four].concat()));
                }
                accepted += u32::from(check_line(&[one, two, three].concat()));
            }
            accepted += u32::from(check_line(&[one, two].concat()));
        }
        accepted += u32::from(check_line(one));
    }
    assert!(accepted > 3_000, "{accepted}");
}

#[test]
fn every_byte_in_a_line() {
    for byte in (0..=255).filter(|byte| *byte != b'\n') {
        for line in ["end", "delay 1", " write 1 2Eh 5h ", ";", "end;c", ""] {
            for place in 0..=line.len() {
                let mut line = line.as_bytes().to_vec();
                line.insert(place, byte);
                check_line(&line);
                if place < line.len() - 1 {
                    line.remove(place + 1);
                    check_line(&line);
                }
            }
        }
        // A comment may contain it.
        expect_records([b"end;", [byte].as_slice(), b"\n"].concat(), &[end()]);
    }
}

fn end() -> Record {
    record(END, 0, 0, 0)
}

// Reading.

#[test]
fn example_of_the_manual() {
    let text = "\
; Unlocks the configuration, and reads key control.
write 1 2Eh 55h         ; the key that unlocks
write 1 2Eh F2h         ; the index of key control
read  1 2Fh
repeat 3
    delay 1000
    if 2 AC08h 0001h    ; has the timer's bit 23 changed?
        write 2 AC08h 0001h
    else
        read 4 AC18h
    end
end
";
    let records = [
        record(WRITE, 1, 0x2E, 0x55),
        record(WRITE, 1, 0x2E, 0xF2),
        record(READ, 1, 0x2F, 0),
        record(REPEAT, 0, 0, 3),
        record(DELAY, 0, 0, 1_000),
        record(IF, 2, 0xAC08, 1),
        record(WRITE, 2, 0xAC08, 1),
        record(ELSE, 0, 0, 0),
        record(READ, 4, 0xAC18, 0),
        end(),
        end(),
    ];
    expect_records(text, &records);
    let listing = "\
write 1 002Eh 55h
write 1 002Eh F2h
read 1 002Fh
repeat 3
    delay 1000
    if 2 AC08h 0001h
        write 2 AC08h 0001h
    else
        read 4 AC18h
    end
end
";
    assert_eq!(listed(&records), listing);
    expect_records(listing, &records);
}

#[test]
fn lines_without_statements() {
    for text in [
        "",
        "\n",
        "\n\n\n",
        "\r",
        "\r\n",
        "\r\n\r\n",
        " ",
        "\t \t",
        " \r\n",
        ";",
        ";\r\n;",
        " ; write 1 2Eh 55h",
        ";;\n\t;\r\r\n",
        "; \u{2014} \u{FC}\n",
        ";\0\r\x0B\x0C\x7F",
    ] {
        expect_records(text, &[]);
    }
    expect_records(b";\x80\xFF\xC0\n", &[]);
}

#[test]
fn spacing() {
    let write = record(WRITE, 1, 0x2E, 0x55);
    for line in [
        "write 1 2Eh 55h",
        "write\t1\t2Eh\t55h",
        "   write  1 \t 2Eh\t\t55h  ",
        "\twrite 1 2Eh 55h\t\r",
        "write 1 2Eh 55h\r",
        "write 1 2Eh 55h \r",
        "write 1 2Eh 55h;",
        "write 1 2Eh 55h;c\r",
        "write 1 2Eh 55h ;; \r\r",
    ] {
        expect_line(line, write);
    }
    for line in ["end", "end;", "end\r", " end \t;end", "end;\r"] {
        expect_line(line, end());
    }
    for line in [
        "end\r\r",
        "\rend",
        "end\r ",
        "end\r;",
        "end \r;c",
        "\r\r",
        " \r ",
        "\r;",
        "e\rnd",
        "end\x0B",
        "end\x0C",
        "end\0",
        "\u{FEFF}end",
        "end\u{A0}",
        "end\x1A",
        "\x7F",
    ] {
        expect_bad_line(line, 31);
    }
    for line in [b"\x80".as_slice(), b"end\xFF", b"\xA0end", b"delay\x851"] {
        expect_bad_line(line, 31);
    }
}

#[test]
fn numbers_in_every_form() {
    for (word, number) in [
        ("0", 0),
        ("00", 0),
        ("0h", 0),
        ("0H", 0),
        ("10", 10),
        ("10h", 16),
        ("010", 10),
        ("0010h", 16),
        ("Ah", 10),
        ("aH", 10),
        ("fFh", 255),
        ("FEDh", 0xFED),
        ("cBaH", 0xCBA),
        ("09", 9),
        ("9h", 9),
        ("65535", 65_535),
        ("FFFFh", 65_535),
        ("0000000000000000000000000000000000000000065535", 65_535),
        ("00000000000000000000000000000000000000ffffh", 65_535),
    ] {
        expect_line(format!("delay {word}"), record(DELAY, 0, 0, number));
        expect_line(format!("repeat {word}"), record(REPEAT, 0, 0, number));
    }
    for word in [
        "A", "1A", "h", "H", "hh", "0hh", "0h0", "h0", "0x10", "0x10h", "+1", "-1", "1.", "1,",
        "$1", "1 h", "Gh", "gh", "/h", ":h", "@h", "`h", "1_0", "",
    ] {
        expect_bad_line(format!("delay {word}"), 31);
    }
    // The whole number is hex, also if its first digit is no decimal one.
    expect_line("write 1h AC08h ffH", record(WRITE, 1, 0xAC08, 0xFF));
}

#[test]
fn statements() {
    expect_line("write 4 AC14h 111Fh", record(WRITE, 4, 0xAC14, 0x111F));
    expect_line("read 2 44040", record(READ, 2, 0xAC08, 0));
    expect_line("if 2 AC08h 1", record(IF, 2, 0xAC08, 1));
    expect_line("else", record(ELSE, 0, 0, 0));
    for line in [
        "write",
        "write 1",
        "write 1 2Eh",
        "write 1 2Eh 55h 0",
        "write 1 2Eh55h",
        "write 12Eh 55h end",
        "write1 2Eh 55h",
        "write 1, 2Eh, 55h",
        "read",
        "read 1",
        "read 1 2Eh 55h",
        "delay",
        "delay1",
        "delay 1 1",
        "repeat",
        "repeat 1 2",
        "if",
        "if 1 2Eh",
        "if 1 2Eh 1 1",
        "else 1",
        "end 1",
        "end end",
        "endelse",
        "ends",
        "en",
        "e",
        "1",
        "END",
        "End",
        "eND",
        "WRITE 1 2Eh 55h",
        "Read 1 2Eh",
        "elseif 1 2Eh 1",
        "2 x end",
        "# end",
        "// end",
        "end # c",
        "1;",
        "write;1 2Eh 55h",
        "?",
    ] {
        expect_bad_line(line, 31);
    }
}

#[test]
fn numbers_that_do_not_fit() {
    for (width, largest) in [(1_u8, 0xFF_u64), (2, 0xFFFF), (4, 0xFFFF_FFFF)] {
        for (keyword, kind) in [("write", WRITE), ("if", IF)] {
            let line = format!("{keyword} {width} 0 {largest}");
            expect_line(line, record(kind, width, 0, largest as u32));
            let line = format!("{keyword} {width} 0FFFFh {largest:x}h");
            expect_line(line, record(kind, width, 0xFFFF, largest as u32));
            for value in [
                largest + 1,
                largest + 2,
                (1 << 32) + 1,
                1 << 33,
                u64::MAX,
                u64::MAX - largest,
            ] {
                expect_bad_line(format!("{keyword} {width} 0 {value}"), 32);
                expect_bad_line(format!("{keyword} {width} 0 {value:X}h"), 32);
            }
        }
    }
    for (line, number) in [("delay", DELAY), ("repeat", REPEAT)] {
        expect_line(format!("{line} 65535"), record(number, 0, 0, 65_535));
        for count in [
            "65536",
            "10000h",
            "65537",
            "4294967296",
            "4294967297",
            "100000001h",
        ] {
            expect_bad_line(format!("{line} {count}"), 32);
        }
    }
    for width in [
        "0",
        "3",
        "5",
        "6",
        "7",
        "8",
        "9",
        "255",
        "256",
        "257",
        "258",
        "260",
        "0h",
        "10h",
        "65537",
        "4294967297",
        "100000001h",
        "18446744073709551617",
        "10000000000000001h",
    ] {
        expect_bad_line(format!("write {width} 2Eh 0"), 32);
        expect_bad_line(format!("read {width} 2Eh"), 32);
        expect_bad_line(format!("if {width} 2Eh 1"), 32);
    }
    for port in [
        "65536",
        "10000h",
        "65582",
        "4294967342",
        "10000000000000002Eh",
    ] {
        expect_bad_line(format!("write 1 {port} 0"), 32);
        expect_bad_line(format!("read 1 {port}"), 32);
        expect_bad_line(format!("if 1 {port} 1"), 32);
    }
    // 2^64, 2^64 + 5, 2^128 + 5, and a hundred digits.
    for number in [
        "18446744073709551616",
        "18446744073709551621",
        "10000000000000005h",
        "340282366920938463463374607431768211461",
        "100000000000000000000000000000005h",
    ] {
        expect_bad_line(format!("delay {number}"), 32);
        expect_bad_line(format!("write 1 2Eh {number}"), 32);
        expect_bad_line(format!("write 1 {number} 0"), 32);
    }
    for digit in ["1", "9"] {
        expect_bad_line(format!("delay {}", digit.repeat(100)), 32);
        expect_bad_line(format!("delay {}h", digit.repeat(100)), 32);
        expect_bad_line(format!("delay 1{}5", "0".repeat(98)), 32);
    }
    expect_line(format!("delay {}5", "0".repeat(99)), record(DELAY, 0, 0, 5));
    expect_line(
        format!("write {}1 2Eh 55h", "0".repeat(99)),
        record(WRITE, 1, 0x2E, 0x55),
    );
}

#[test]
fn length_of_lines() {
    for length in [119, 120] {
        expect_records(" ".repeat(length), &[]);
        expect_records(";".repeat(length) + "\n", &[]);
        expect_records(format!(";{}\r\n", "c".repeat(length - 2)), &[]);
        expect_line(format!("end{}", " ".repeat(length - 3)), end());
        expect_line(format!("end{}\r", "\t".repeat(length - 4)), end());
        expect_line(format!("{}end", " ".repeat(length - 3)), end());
        expect_line(format!("end;{}", "\u{FC}".repeat((length - 4) / 2)), end());
        let zeros = "0".repeat(length - 7);
        expect_line(format!("delay {zeros}7"), record(DELAY, 0, 0, 7));
    }
    for length in [121, 122, 240, 256, 257, 376, 377, 5_000] {
        expect_bad_line(" ".repeat(length), 30);
        expect_bad_line(";".repeat(length), 30);
        expect_bad_line(format!("{}\r", " ".repeat(length - 1)), 30);
        expect_bad_line(format!(";{}\r", "c".repeat(length - 2)), 30);
        expect_bad_line(format!("end{}", " ".repeat(length - 3)), 30);
        // Also a line that is bad in another way.
        expect_bad_line("?".repeat(length), 30);
        expect_bad_line(format!("delay {}", "9".repeat(length - 6)), 30);
    }
    // The line feed does not count.
    expect_records(format!("{}\n{}\n", " ".repeat(120), " ".repeat(120)), &[]);
    expect_refusal(format!("{}\n{}", " ".repeat(120), " ".repeat(121)), 30, 1);
}

#[test]
fn order_of_refusals() {
    // 31 before 32, wherever the two faults are in the line.
    for line in [
        "delay 65536 1",
        "delay 65536 ,",
        "write 3 2Eh",
        "write 3 10000h 100h ?",
        "? write 3 10000h 100h",
        "write 9 9 9x",
        "write 1 x 256",
        "read 99999999999999999999999",
        "Delay 65536",
        "delay 65536\r\r",
    ] {
        expect_bad_line(line, 31);
    }
    expect_bad_line("write 3 10000h 100", 32);
    // The first bad line decides.
    expect_refusal("end\ndelay 65536\n?\n", 32, 1);
    expect_refusal("end\n?\ndelay 65536\n", 31, 1);
    expect_refusal(format!("end\n\n?\n{}\n", " ".repeat(121)), 31, 2);
    expect_refusal(format!("\r\n{}\n?\n", " ".repeat(121)), 30, 1);
    // Lines without statements count too.
    expect_refusal("\n\n\n; c\n\nend 1", 31, 5);
    // 33 comes last. It is given only if no line is bad.
    expect_refusal_in(b"end\nend\nend\n?", 12, 31, 3);
    expect_refusal_in(b"end\nend\nend\n", 35, 33, 0);
    expect_refusal_in(b"\n\nend", 11, 33, 0);
    expect_records("\n\nend", &[end()]);
}

#[test]
fn blocks_and_size_are_not_limited() {
    expect_records("end", &[end()]);
    expect_records("else\nelse\n", &[record(ELSE, 0, 0, 0); 2]);
    expect_records("repeat 1\n".repeat(40), &[record(REPEAT, 0, 0, 1); 40]);
    expect_records("end\n".repeat(1_024), &[end(); 1_024]);
    expect_records("end\n".repeat(1_025), &[end(); 1_025]);
    expect_records("end\n".repeat(9_000), &vec![end(); 9_000]);
}

// Listing.

#[test]
fn lines_of_the_listing() {
    for (record, line) in [
        (record(WRITE, 1, 0x2E, 0x55), "write 1 002Eh 55h"),
        (record(WRITE, 2, 0xAC08, 1), "write 2 AC08h 0001h"),
        (record(WRITE, 4, 0xAC14, 0x111F), "write 4 AC14h 0000111Fh"),
        (record(WRITE, 4, 0, 0xFFFF_FFFF), "write 4 0000h FFFFFFFFh"),
        (record(WRITE, 1, 0xFFFF, 0), "write 1 FFFFh 00h"),
        (record(READ, 1, 0x2F, 0), "read 1 002Fh"),
        (record(READ, 4, 0xABCD, 0), "read 4 ABCDh"),
        (record(DELAY, 0, 0, 1_000), "delay 1000"),
        (record(DELAY, 0, 0, 0), "delay 0"),
        (record(DELAY, 0, 0, 9), "delay 9"),
        (record(DELAY, 0, 0, 10), "delay 10"),
        (record(REPEAT, 0, 0, 3), "repeat 3"),
        (record(REPEAT, 0, 0, 65_535), "repeat 65535"),
        (record(IF, 2, 0xAC08, 1), "if 2 AC08h 0001h"),
        (record(IF, 1, 0x12, 0x89), "if 1 0012h 89h"),
        (record(ELSE, 0, 0, 0), "else"),
        (end(), "end"),
    ] {
        assert_eq!(listed(&[record]), format!("{line}\n"));
    }
    assert_eq!(listed(&[]), "");
}

#[test]
fn indentation() {
    let (open, other) = (record(REPEAT, 0, 0, 1), record(ELSE, 0, 0, 0));
    let delay = record(DELAY, 0, 0, 1);
    // Nothing is open: an end and an else change nothing.
    assert_eq!(
        listed(&[end(), other, end(), other, delay, open, delay]),
        "end\nelse\nend\nelse\ndelay 1\nrepeat 1\n    delay 1\n"
    );
    assert_eq!(
        listed(&[
            open,
            open,
            other,
            delay,
            other,
            end(),
            other,
            end(),
            other,
            end(),
            delay
        ]),
        "\
repeat 1
    repeat 1
    else
        delay 1
    else
    end
else
end
else
end
delay 1
"
    );
    // Sixteen blocks are indented. Those inside count too when they are closed.
    for depth in [15, 16, 17, 18, 19, 40] {
        let mut script = vec![open; depth];
        script.extend([delay, other, delay]);
        script.extend(vec![end(); depth]);
        script.push(delay);
        let mut levels: Vec<usize> = (0..depth).collect();
        levels.extend([depth, depth - 1, depth]);
        levels.extend((0..depth).rev());
        levels.push(0);
        let listing = listed(&script);
        let spaces: Vec<usize> = listing
            .lines()
            .map(|line| line.len() - line.trim_start_matches(' ').len())
            .collect();
        let expected: Vec<usize> = levels.iter().map(|level| 4 * level.min(&16)).collect();
        assert_eq!(spaces, expected, "{depth}");
        expect_records(listing, &script);
    }
    // The longest line.
    let mut script = vec![open; 16];
    script.push(record(WRITE, 4, 0xFFFF, 0xFFFF_FFFF));
    let longest = listed(&script).lines().map(str::len).max();
    assert_eq!(longest, Some(64 + "write 4 FFFFh FFFFFFFFh".len()));
}

#[test]
fn refusals_of_the_lister() {
    for length in [1, 2, 11, 13, 12_287, 12_289] {
        expect_list_refusal(&vec![0; length], 1, 0);
    }
    expect_list_refusal(&encode(&[end(); 1_025]), 1, 0);
    let good = record(READ, 1, 0x2E, 0);
    let wrong_mark = Record {
        mark: WORD_MARK,
        ..good
    };
    let wrong_target = Record { target: 1, ..good };
    for (bad, number) in [
        (wrong_mark, 2),
        (Record::default(), 2),
        (record(0, 0, 0, 0), 3),
        (record(8, 9, 0, 0), 3),
        (record(READ, 3, 0, 0), 4),
        (record(READ, 1, 0, 1), 4),
        (wrong_target, 4),
        (record(DELAY, 0, 0, 65_536), 4),
        (record(DELAY, 1, 0, 0), 4),
        (record(REPEAT, 0, 1, 0), 4),
        (record(END, 0, 0, 1), 4),
        (record(ELSE, 1, 0, 0), 4),
        (record(WRITE, 1, 0, 256), 4),
        (record(WRITE, 2, 0, 65_536), 4),
        (record(IF, 1, 0, 256), 4),
    ] {
        for before in [0, 1, 9] {
            let mut script = vec![good; before];
            script.push(bad);
            expect_list_refusal(&encode(&script), number, before);
            // A fault in a later record does not count, even if its number is lower.
            script.push(Record::default());
            expect_list_refusal(&encode(&script), number, before);
            let mut bytes = encode(&script);
            bytes.push(0);
            expect_list_refusal(&bytes, 1, 0);
        }
    }
}

#[test]
fn text_buffer() {
    let script = encode(&[record(REPEAT, 0, 0, 3), end()]);
    let listing = b"repeat 3\nend\n";
    for rest in [0, 1, 40] {
        let mut buffer = vec![LENT; listing.len() + rest];
        assert_eq!(text::list(&script, &mut buffer), Ok(listing.len()));
        assert_eq!(&buffer[..listing.len()], listing);
        assert!(buffer[listing.len()..].iter().all(|byte| *byte == LENT));
    }
    for length in 0..listing.len() {
        let mut buffer = vec![LENT; length];
        let outcome = text::list(&script, &mut buffer).map_err(numbers);
        assert_eq!(outcome, Err((34, 0)));
        assert!(buffer.iter().all(|byte| *byte == LENT));
    }
    assert_eq!(text::list(&[], &mut []), Ok(0));
}

#[test]
fn reading_a_listing_returns_the_records() {
    let mut random = Random::new(7);
    let mut listings = 0;
    for seed in 0..4_000 {
        let script = match seed % 2 {
            0 => texts::single_script(seed),
            _ => scripts::any_script(&mut random),
        };
        let compiled = compiler::compile(&script, &mut [0; 12_288]);
        match text::listing(&script) {
            Ok(listing) => {
                listings += 1;
                let mut buffer = vec![LENT; script.len()];
                let records = script.len() / RECORD_BYTES;
                assert_eq!(text::read(&listing, &mut buffer), Ok(records));
                assert_eq!(buffer, script);
                assert_eq!(text::lines(&listing).count(), records);
                for line in text::lines(&listing) {
                    assert!(line.len() <= 120 && line.is_ascii());
                    assert!(!line.ends_with(b" ") && !line.is_empty());
                }
                // The compiler refuses it at most for its blocks or its size.
                assert!(compiled.map_or_else(|refusal| refusal.fault.number(), |_| 9) > 4);
            }
            Err(refusal) => {
                let (number, place) = numbers(refusal);
                assert!(number <= 4);
                // The compiler says the same, unless the blocks have a fault before.
                match compiled.expect_err("the compiler refuses it too") {
                    compiler::Refusal { fault, place: at } if fault.number() <= 4 => {
                        assert_eq!((number, place), (fault.number(), at));
                    }
                    before => assert!(before.place < place),
                }
            }
        }
    }
    assert!(listings > 1_500, "{listings}");
}

// Commands and programs.

fn answers(input: &[u8]) -> String {
    let mut output = Vec::new();
    stream::answer_all(&mut &input[..], &mut output).expect("writing to memory does not fail");
    String::from_utf8(output).expect("answers are text")
}

fn digits(bytes: &[u8]) -> String {
    bytes.iter().map(|byte| format!("{byte:02X}")).collect()
}

#[test]
fn read_command() {
    assert_eq!(answers(b"A 0"), "ASSEMBLED 0\n");
    assert_eq!(answers(b"A 3"), "ASSEMBLED 0 000102\n");
    let line = digits(b"end");
    let end = "5AA507000000000000000000";
    assert_eq!(
        answers(format!("A C {line}").as_bytes()),
        format!("ASSEMBLED 1 {end}\n")
    );
    assert_eq!(
        answers(format!("A 0000000e {line}0A0d0a").as_bytes()),
        format!("ASSEMBLED 1 {end}0C0D\n")
    );
    assert_eq!(
        answers(format!("A b {line}").as_bytes()),
        "REFUSED 33 0 000102030405060708090A\n"
    );
    assert_eq!(answers(format!("A 0 {line}").as_bytes()), "REFUSED 33 0\n");
    assert_eq!(
        answers(format!("A 2 {line}0A0A21").as_bytes()),
        "REFUSED 31 2 0001\n"
    );
    let long = digits(&[b' '; 121]);
    assert_eq!(answers(format!("A 0 {long}").as_bytes()), "REFUSED 30 0\n");
    let longest = format!("A 0 {}", "0A".repeat(0x4000));
    assert_eq!(answers(longest.as_bytes()), "ASSEMBLED 0\n");
    let too_long = format!("A 0 {}", "0A".repeat(0x4001));
    assert_eq!(answers(too_long.as_bytes()), "UNREAD\n");
    let whole = answers(b"A 4000");
    assert!(whole.starts_with("ASSEMBLED 0 000102") && whole.ends_with("41424344\n"));
    let many = format!("A 4000 {}", digits(&b"end\n".repeat(1_365)));
    assert!(answers(many.as_bytes()).starts_with("ASSEMBLED 1365 5AA5"));
    let too_many = format!("A 4000 {}", digits(&b"end\n".repeat(1_366)));
    assert!(answers(too_many.as_bytes()).starts_with("REFUSED 33 0 0001"));
}

#[test]
fn list_command() {
    assert_eq!(answers(b"D 0"), "LISTED 0\n");
    assert_eq!(answers(b"D 3"), "LISTED 0 000102\n");
    let end = "5aA507000000000000000000";
    assert_eq!(
        answers(format!("D 6 {end}").as_bytes()),
        "LISTED 4 656E640A0405\n"
    );
    assert_eq!(
        answers(format!("D 3 {end}").as_bytes()),
        "REFUSED 34 0 000102\n"
    );
    assert_eq!(answers(format!("D 0 {end}").as_bytes()), "REFUSED 34 0\n");
    assert_eq!(answers(b"D 1 5a"), "REFUSED 1 0 00\n");
    let second_bad = format!("D 0 {end}5aA508000000000000000000");
    assert_eq!(answers(second_bad.as_bytes()), "REFUSED 3 1\n");
    let longest = format!("D 0 {}", "00".repeat(0x4000));
    assert_eq!(answers(longest.as_bytes()), "REFUSED 1 0\n");
    let too_long = format!("D 0 {}", "00".repeat(0x4001));
    assert_eq!(answers(too_long.as_bytes()), "UNREAD\n");
}

#[test]
fn malformed_commands() {
    for command in ["A", "D"] {
        for rest in [
            "",
            " ",
            " 0 ",
            "  00",
            " 0 0",
            " 0 0G",
            " 0 00 ",
            " 0 00 00",
            " 4001",
            " 000000000",
            " G",
            " FFFFFFFF",
            " 0 -",
            " -",
        ] {
            let line = format!("{command}{rest}");
            assert_eq!(answers(line.as_bytes()), "UNREAD\n", "{line:?}");
        }
        let lower = format!("{} 0", command.to_lowercase());
        assert_eq!(answers(lower.as_bytes()), "UNREAD\n");
    }
}

#[test]
fn programs() {
    let assembled = text_programs::assemble(b"end\r\n");
    assert_eq!(assembled.output, encode(&[end()]));
    assert!(assembled.errors.is_empty());
    let bad: &[u8] = b"end\n\n delay 1 \xFF\r\nend";
    let refused = text_programs::assemble(bad);
    assert_eq!(refused.errors, b"REFUSED 31 2\n delay 1 \xFF\r\n");
    assert!(refused.output.is_empty());
    let refused = text_programs::assemble(b"delay 65536");
    assert_eq!(refused.errors, b"REFUSED 32 0\ndelay 65536\n");
    let long = [b'c'; 121];
    let refused = text_programs::assemble(&long);
    assert_eq!(
        refused.errors,
        [b"REFUSED 30 0\n", &long[..], b"\n"].concat()
    );
    let most = text_programs::assemble(&b"end\n".repeat(8_192));
    assert_eq!(most.output.len(), 8_192 * RECORD_BYTES);
    let refused = text_programs::assemble(&b"end\n".repeat(8_193));
    assert_eq!(refused.errors, b"REFUSED 33 0\n");
    let longest = text_programs::assemble(&b";12\n".repeat(65_536));
    assert!(longest.output.is_empty() && longest.errors.is_empty());
    let too_long = text_programs::assemble(&vec![b'\n'; 262_145]);
    assert_eq!(
        too_long.errors,
        b"assemble: the text has more than 262144 bytes\n"
    );
    assert!(too_long.output.is_empty());
    let listed = text_programs::list(&encode(&[end()]));
    assert_eq!(listed.output, b"end\n");
    assert!(listed.errors.is_empty());
    let refused = text_programs::list(&encode(&[end(), record(0, 0, 0, 0)]));
    assert_eq!(refused.errors, b"REFUSED 3 1\n");
    assert!(refused.output.is_empty());
}

/// The programs have limits of their own, which the random inputs stay below.
#[test]
fn single_texts_are_within_the_limits_of_the_programs() {
    let mut lengths = Vec::new();
    for seed in 0..2_000 {
        let text = texts::single_text(seed);
        lengths.push(text.len());
        assert!(text::lines(&text).count() <= 8_192);
    }
    let longest = lengths.into_iter().max().unwrap_or(0);
    assert!(longest > 16_384 && longest < 262_144, "{longest}");
}

/// What the random texts and scripts have, each with the number of commands that have it.
#[derive(Debug, Default)]
struct Reached {
    assembled: u32,
    listed: u32,
    /// By their numbers.
    refused: BTreeMap<u32, u32>,
    unread: u32,
    other: u32,
    /// Accepted lines of exactly 120 bytes, without and with a carriage return.
    longest_lines: [u32; 2],
    /// Lines of 121 bytes, which have 120 without the carriage return.
    too_long_by_return: u32,
    /// Lines that have a number that does not fit, but are not in the grammar.
    both_faults: u32,
    /// Accepted texts whose last line has no line feed.
    without_feed: u32,
    empty_texts: u32,
    /// Accepted texts with more statements than a script may have.
    many_statements: u32,
    /// Listed lines inside more than 16 blocks.
    deep_lines: u32,
    /// An end or an else while no block is open.
    at_margin: u32,
    /// Bad texts with a second bad line.
    second_bad_line: u32,
    /// Bad texts whose records would not fit the buffer anyway.
    bad_and_short: u32,
    /// Each of these bytes in an accepted comment.
    odd_in_comment: u32,
}

impl Reached {
    fn command(&mut self, command: &str, answer: &str) {
        let words: Vec<&str> = command.split(' ').collect();
        let first: Vec<&str> = answer.split(' ').take(3).collect();
        match first.as_slice() {
            ["ASSEMBLED", ..] => self.assembled += 1,
            ["LISTED", ..] => self.listed += 1,
            ["UNREAD"] => return self.unread += 1,
            ["REFUSED", number, _] => {
                let number = number.parse().expect("a number");
                *self.refused.entry(number).or_default() += 1;
            }
            _ => return self.other += 1,
        }
        let bytes = words.get(2).map_or(Vec::new(), |word| bytes_of(word));
        match words[0] {
            "A" => self.text(
                &bytes,
                usize::from_str_radix(words[1], 16).expect("a number"),
            ),
            "D" if first[0] == "LISTED" => self.script(&bytes),
            _ => {}
        }
    }

    fn text(&mut self, text: &[u8], length: usize) {
        for line in text::lines(text) {
            match text::records(line) {
                Ok(records) => {
                    if line.len() == 120 && !records.is_empty() {
                        self.longest_lines[usize::from(line.ends_with(b"\r"))] += 1;
                    }
                    let comment = line.iter().position(|byte| *byte == b';');
                    let odd = |byte: &u8| matches!(byte, 0 | 0x0B | 0x0C | 0x80..);
                    self.odd_in_comment += u32::from(comment.is_some() && line.iter().any(odd));
                }
                Err(Refusal { fault, .. }) => {
                    let by_return = line.len() == 121 && line.ends_with(b"\r");
                    self.too_long_by_return += u32::from(fault == Fault::LongLine && by_return);
                    let huge = line
                        .split(|byte| matches!(byte, b' ' | b'\t'))
                        .any(|word| word.len() > 9 && word.iter().all(u8::is_ascii_digit));
                    self.both_faults += u32::from(fault == Fault::NotInGrammar && huge);
                }
            }
        }
        match text::records(text) {
            Ok(records) => {
                self.empty_texts += u32::from(text.is_empty());
                self.without_feed += u32::from(!text.is_empty() && !text.ends_with(b"\n"));
                self.many_statements += u32::from(records.len() > 1_024);
            }
            Err(refusal) => {
                let rest = text::lines(text).skip(refusal.place + 1);
                let bad = rest.filter(|line| text::records(line).is_err()).count();
                self.second_bad_line += u32::from(bad > 0);
                let before: usize = text::lines(text)
                    .take(refusal.place)
                    .map(|line| text::records(line).map_or(0, |records| records.len()))
                    .sum();
                self.bad_and_short += u32::from(before * RECORD_BYTES > length);
            }
        }
    }

    fn script(&mut self, script: &[u8]) {
        let mut open = 0;
        for bytes in script.as_chunks::<RECORD_BYTES>().0 {
            match Record::decode(bytes).kind {
                REPEAT | IF => open += 1,
                ELSE | END if open == 0 => self.at_margin += 1,
                END => open -= 1,
                _ => self.deep_lines += u32::from(open > 16),
            }
        }
    }
}

fn bytes_of(digits: &str) -> Vec<u8> {
    (0..digits.len() / 2)
        .map(|k| u8::from_str_radix(&digits[2 * k..2 * k + 2], 16).expect("two digits"))
        .collect()
}

#[test]
fn random_texts_reach_every_answer() {
    let mut commands = Vec::new();
    generate::write_commands(&TEXTS, 1, 6_000, &mut commands).expect("memory can be written");
    let answers = answers(&commands);
    let commands: Vec<&[u8]> = text::lines(&commands).collect();
    assert_eq!(commands.len(), 6_000);
    assert_eq!(answers.lines().count(), 6_000);
    let mut reached = Reached::default();
    for (command, answer) in commands.iter().zip(answers.lines()) {
        reached.command(&String::from_utf8_lossy(command), answer);
    }
    assert!(reached.assembled >= 1_500, "{reached:?}");
    assert!(reached.listed >= 700, "{reached:?}");
    for number in [1, 2, 3, 4, 30, 31, 32, 33, 34] {
        assert!(
            reached.refused.get(&number) >= Some(&50),
            "{number}: {reached:?}"
        );
    }
    for count in [
        reached.unread,
        reached.both_faults,
        reached.without_feed,
        reached.empty_texts,
        reached.deep_lines,
        reached.at_margin,
        reached.second_bad_line,
        reached.bad_and_short,
        reached.odd_in_comment,
    ] {
        assert!(count >= 40, "{reached:?}");
    }
    for count in [
        reached.longest_lines[0],
        reached.longest_lines[1],
        reached.too_long_by_return,
        reached.many_statements,
    ] {
        assert!(count >= 5, "{reached:?}");
    }
    assert!(reached.other >= 50 && reached.other <= 600, "{reached:?}");
}

/// Every listing that a command returns is read back by the next command.
#[test]
fn listings_are_read_back() {
    let mut commands = Vec::new();
    generate::write_commands(&TEXTS, 3, 2_000, &mut commands).expect("memory can be written");
    let answers = answers(&commands);
    let commands: Vec<&[u8]> = text::lines(&commands).collect();
    let mut read_back = 0;
    for (place, answer) in answers.lines().enumerate() {
        let words: Vec<&str> = answer.split(' ').collect();
        let (["LISTED", length, ..], Some(next)) = (words.as_slice(), commands.get(place + 1))
        else {
            continue;
        };
        let length: usize = length.parse().expect("a number");
        let listing = words.get(2).map_or("", |buffer| &buffer[..2 * length]);
        let next = String::from_utf8_lossy(next).to_uppercase();
        let next: Vec<&str> = next.split(' ').collect();
        if next[0] == "A" && next.get(2).copied().unwrap_or("") == listing {
            read_back += 1;
        } else {
            // A damaged command that happens to be valid.
            let command = commands[place];
            assert!(command.len() < 200, "{}", command.escape_ascii());
        }
    }
    assert!(read_back >= 250, "{read_back}");
}

//! Runs both programs on the same inputs and prints times, or instructions counted by callgrind.

mod callgrind;
mod clock;
mod inputs;
mod rows;
mod table;
mod work;

use std::process::ExitCode;

use rows::{rows, Size};
use work::Side;

const USAGE: &str = "\
usage: bench [PART]              time both programs and print the table
       bench --callgrind [PART]  count instructions instead; needs valgrind
       bench --failed-tests      check that a failed test costs the interpreter the same over 1,000 records as over one
       bench --once ROW SIDE     run one small row; SIDE is ours, theirs, image (beside an interpreter) or neither
Only the rows whose names contain PART are measured.
";

/// Runs one row, in the process that callgrind started.
fn once(number: &str, side: &str) -> Option<()> {
    let row = rows(Size::Small).into_iter().nth(number.parse().ok()?)?;
    let mut buffers = row.work.buffers();
    let side = match side {
        "ours" => Some(Side::Ours),
        "image" => Some(Side::Image),
        "theirs" => Some(Side::Theirs),
        "neither" => None,
        _ => return None,
    };
    if let Some(side) = side {
        std::hint::black_box(row.work.done(side, &mut buffers));
    }
    Some(())
}

fn main() -> ExitCode {
    let arguments: Vec<String> = std::env::args().skip(1).collect();
    let arguments: Vec<&str> = arguments.iter().map(String::as_str).collect();
    let told = match arguments[..] {
        [] => table::print(""),
        ["--callgrind"] => callgrind::print(""),
        ["--callgrind", part] => callgrind::print(part),
        ["--failed-tests"] => table::check_failed_tests(),
        ["--once", number, side] => once(number, side).ok_or_else(|| USAGE.to_string()),
        [part] if !part.starts_with('-') => table::print(part),
        _ => Err(USAGE.to_string()),
    };
    match told {
        Ok(()) => ExitCode::SUCCESS,
        Err(message) => {
            eprintln!("{}", message.trim_end());
            ExitCode::FAILURE
        }
    }
}

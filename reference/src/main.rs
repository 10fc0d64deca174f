//! The independent model as a program. It was written from the rules of the chip and docs/CASES.md,
//! and not from the code of `replay`, so that their answers can be compared byte for byte.

#![forbid(unsafe_code)]

use std::io::{self, BufReader, BufWriter, Read, Write};
use std::process::ExitCode;

use reference::generate::{self, Source, ANYTHING};
use reference::images::IMAGES;
use reference::nested::{self, NESTED};
use reference::resumed::RESUMED;
use reference::runs::RUNS;
use reference::text_programs::{self, Written};
use reference::texts::{self, TEXTS};
use reference::{scripts, stream};

const USAGE: &str = "\
usage: reference answer                read commands on standard input, print the expected answers
       reference generate SEED COUNT   print COUNT random commands (both numbers decimal)
       reference scripts SEED COUNT    print COUNT random compile commands
       reference runs SEED COUNT       print COUNT random commands, mostly runs of scripts
       reference images SEED COUNT     print COUNT random commands, mostly runs of images
       reference nested SEED COUNT     print COUNT random commands, mostly interpreted scripts
       reference resumed SEED COUNT    print COUNT random commands, mostly runs in parts
       reference texts SEED COUNT      print COUNT random commands, mostly texts read and scripts listed
       reference script SEED           write one random script as bytes
       reference text SEED             write one random text
       reference records SEED          write one random script for listing, as bytes
       reference assemble              do what the program `assemble` does
       reference list                  do what the program `list` does
";

const BUFFER_BYTES: usize = 1 << 16;

enum Task {
    Answer,
    /// Prints commands of a source.
    Commands {
        source: &'static Source,
        seed: u64,
        count: u64,
    },
    Scripts {
        seed: u64,
        count: u64,
    },
    /// Writes the bytes of one script or text.
    Single {
        maker: fn(u64) -> Vec<u8>,
        seed: u64,
    },
    /// Does what another program does.
    Program(fn(&[u8]) -> Written),
}

fn task(arguments: &[String]) -> Option<Task> {
    let (name, numbers) = arguments.split_first()?;
    let (seed, count) = match (name.as_str(), numbers) {
        ("answer", []) => return Some(Task::Answer),
        ("assemble", []) => return Some(Task::Program(text_programs::assemble)),
        ("list", []) => return Some(Task::Program(text_programs::list)),
        (_, [seed]) => {
            let seed = seed.parse().ok()?;
            let maker = match name.as_str() {
                "script" => nested::single_script,
                "text" => texts::single_text,
                "records" => texts::single_script,
                _ => return None,
            };
            return Some(Task::Single { maker, seed });
        }
        (_, [seed, count]) => (seed.parse().ok()?, count.parse().ok()?),
        _ => return None,
    };
    let source = match name.as_str() {
        "generate" => &ANYTHING,
        "runs" => &RUNS,
        "images" => &IMAGES,
        "nested" => &NESTED,
        "resumed" => &RESUMED,
        "texts" => &TEXTS,
        "scripts" => return Some(Task::Scripts { seed, count }),
        _ => return None,
    };
    Some(Task::Commands {
        source,
        seed,
        count,
    })
}

fn run(task: Task) -> io::Result<()> {
    let mut output = BufWriter::with_capacity(BUFFER_BYTES, io::stdout().lock());
    match task {
        Task::Answer => {
            let mut input = BufReader::with_capacity(BUFFER_BYTES, io::stdin().lock());
            stream::answer_all(&mut input, &mut output)?;
        }
        Task::Commands {
            source,
            seed,
            count,
        } => generate::write_commands(source, seed, count, &mut output)?,
        Task::Scripts { seed, count } => scripts::write_scripts(seed, count, &mut output)?,
        Task::Single { maker, seed } => output.write_all(&maker(seed))?,
        Task::Program(program) => {
            let mut input = Vec::new();
            io::stdin().lock().read_to_end(&mut input)?;
            let written = program(&input);
            output.write_all(&written.output)?;
            io::stderr().write_all(&written.errors)?;
        }
    }
    output.flush()
}

fn main() -> ExitCode {
    let arguments: Vec<String> = std::env::args_os()
        .skip(1)
        .map(|argument| argument.to_string_lossy().into_owned())
        .collect();
    let Some(task) = task(&arguments) else {
        // If even the error message cannot be written, there is nothing left to do.
        let _ = io::stderr().write_all(USAGE.as_bytes());
        return ExitCode::from(2);
    };
    match run(task) {
        Ok(()) => ExitCode::SUCCESS,
        Err(error) => {
            let _ = writeln!(io::stderr(), "reference: {error}");
            ExitCode::FAILURE
        }
    }
}

//! The table of instruction counts. Each row runs in a separate callgrind process for each program. The count of a process that calls
//! neither program is subtracted.

use std::process::{Command, Stdio};

use crate::rows::{rows, Row, Size};
use crate::work::Side;

fn counted(number: usize, side: &str) -> Result<u64, String> {
    let program = std::env::current_exe().map_err(|error| error.to_string())?;
    let file = std::env::temp_dir().join(format!("bench-callgrind.{}", std::process::id()));
    let status = Command::new("valgrind")
        .arg("--tool=callgrind")
        .arg(format!("--callgrind-out-file={}", file.display()))
        .arg(program)
        .args(["--once", &number.to_string(), side])
        .stdout(Stdio::null())
        .stderr(Stdio::null())
        .status()
        .map_err(|error| format!("valgrind: {error}"))?;
    let text = std::fs::read_to_string(&file).unwrap_or_default();
    let _ = std::fs::remove_file(&file);
    let total = text.lines().find_map(|line| line.strip_prefix("totals:").or(line.strip_prefix("summary:")));
    match total.and_then(|total| total.trim().parse().ok()) {
        Some(total) if status.success() => Ok(total),
        _ => Err(format!("callgrind reported no total for row {number}, {side}")),
    }
}

fn items(row: &Row) -> Result<(u64, &'static str), String> {
    let each = |side: &Side| {
        let mut buffers = row.work.buffers();
        (row.work.done(*side, &mut buffers), buffers)
    };
    let results: Vec<_> = row.work.sides().iter().map(each).collect();
    if results.iter().any(|result| *result != results[0]) {
        let numbers: Vec<_> = results.iter().map(|result| &result.0).collect();
        return Err(format!("{}: the programs gave different results: {numbers:?}", row.name));
    }
    Ok(row.items(&results[0].0))
}

/// The head of a table, by the number of programs.
fn head(sides: usize) -> &'static str {
    if sides == 2 {
        "| row | per | ours | theirs | ours / theirs | cleared first |\n|---|---|---:|---:|---:|---|"
    } else {
        "| row | per | ours | image | theirs | ours / image | ours / theirs | cleared first |\n|---|---|---:|---:|---:|---:|---:|---|"
    }
}

pub fn print(part: &str) -> Result<(), String> {
    println!("Instructions, counted by callgrind on smaller inputs. The count of a process that calls neither program is subtracted.");
    let mut group = "";
    let mut seen = false;
    for (number, row) in rows(Size::Small).iter().enumerate() {
        if !row.name.contains(part) {
            continue;
        }
        seen = true;
        let (items, item) = items(row)?;
        let neither = counted(number, "neither")?;
        let per = |side| counted(number, side).map(|total| total.saturating_sub(neither) as f64 / items as f64);
        let sides = row.work.sides();
        let counts = sides.iter().map(|side| per(side.name())).collect::<Result<Vec<f64>, String>>()?;
        if row.group != group {
            group = row.group;
            println!("\n{group}\n");
            println!("{}", head(sides.len()));
        }
        let each: Vec<String> = counts.iter().map(|count| format!("{count:.1}")).collect();
        let ratios: Vec<String> = counts[1..].iter().map(|count| format!("{:.2}", counts[0] / count)).collect();
        println!("| {} | {item} | {} | {} | {} |", row.name, each.join(" | "), ratios.join(" | "), row.cleared());
    }
    if seen {
        Ok(())
    } else {
        Err(format!("no row name contains {part:?}"))
    }
}

//! The table of times.

use crate::clock;
use crate::rows::{rows, Row, Size, FAILED_TEST};
use crate::work::{Buffers, Done, Side};

const REPETITIONS: usize = 9;

/// One repetition on cleared buffers: its time and its results.
fn repetition(row: &Row, side: Side) -> (u64, Done, Buffers) {
    let mut buffers = row.work.buffers();
    let before = clock::now();
    let done = row.work.done(side, &mut buffers);
    (clock::now() - before, done, buffers)
}

/// A repetition that is called from so many frames of this function. Where the stack lies in its page changes the time of some calls by half,
/// so each repetition is made at another place: ten of them cover a page.
#[inline(never)]
fn repetition_at(place: usize, row: &Row, side: Side) -> (u64, Done, Buffers) {
    let frame = std::hint::black_box([0u8; 96]);
    let result = if place == 0 { repetition(row, side) } else { repetition_at(place - 1, row, side) };
    std::hint::black_box(&frame);
    result
}

/// One turn: each program once, with the program that goes first changing. The first turn warms up the machine and is not counted. An error if
/// the results of the programs differ.
fn turn(k: usize, row: &Row, times: &mut [Vec<u64>]) -> Result<Done, String> {
    let sides = row.work.sides();
    let mut previous: Option<(Done, Buffers)> = None;
    for turn in 0..sides.len() {
        let side = (k + turn) % sides.len();
        let (time, done, buffers) = repetition_at(k, row, sides[side]);
        if previous.as_ref().is_some_and(|previous| previous.0 != done || previous.1 != buffers) {
            return Err(format!("{}: the programs gave different results: {:?} {done:?}", row.name, previous.map(|previous| previous.0)));
        }
        if k > 0 {
            times[side].push(time);
        }
        previous = Some((done, buffers));
    }
    Ok(previous.expect("at least one program").0)
}

/// The times of each program in each row, a time for each turn, and the results. The rows are measured in turns too: the machine is faster or slower for seconds
/// at a time, and then all rows are.
fn times(rows: &[&Row]) -> Result<Vec<(Vec<Vec<u64>>, Done)>, String> {
    let mut times: Vec<Vec<Vec<u64>>> = rows.iter().map(|row| vec![Vec::new(); row.work.sides().len()]).collect();
    let mut last = Vec::new();
    for k in 0..=REPETITIONS {
        last = rows.iter().zip(&mut times).map(|(row, times)| turn(k, row, times)).collect::<Result<_, _>>()?;
    }
    Ok(times.into_iter().zip(last).collect())
}

fn median(values: &[f64]) -> f64 {
    let mut sorted = values.to_vec();
    sorted.sort_unstable_by(f64::total_cmp);
    sorted[sorted.len() / 2]
}

/// The head of a table, by the number of programs.
fn head(sides: usize) -> &'static str {
    if sides == 2 {
        "| row | per | ours ns | theirs ns | ours / theirs | by least times | cleared first |\n|---|---|---:|---:|---:|---:|---|"
    } else {
        "| row | per | ours ns | image ns | theirs ns | ours / image | by least times | ours / theirs | by least times | cleared first |\n\
         |---|---|---:|---:|---:|---:|---:|---:|---:|---|"
    }
}

pub fn print(part: &str) -> Result<(), String> {
    println!("Processor time: {REPETITIONS} repetitions for each program, in turns. Medians, and the ratio of the least times.");
    println!("Processor: {}.", clock::processor());
    let mut group = "";
    let mut seen = false;
    for row in rows(Size::Full) {
        if !row.name.contains(part) {
            continue;
        }
        seen = true;
        let (mut times, done) = times(&[&row])?.remove(0);
        times.iter_mut().for_each(|times| times.sort_unstable());
        let (items, item) = row.items(&done);
        if row.group != group {
            group = row.group;
            println!("\n{group}\n");
            println!("{}", head(times.len()));
        }
        let per = |time: u64| time as f64 / items as f64;
        let medians: Vec<f64> = times.iter().map(|times| per(times[REPETITIONS / 2])).collect();
        let least: Vec<f64> = times.iter().map(|times| per(times[0])).collect();
        let each: Vec<String> = medians.iter().map(|median| format!("{median:.2}")).collect();
        // Ours is the first; it is compared with each of the others.
        let ratios: Vec<String> =
            (1..times.len()).map(|k| format!("{:.2} | {:.2}", medians[0] / medians[k], least[0] / least[k])).collect();
        println!("| {} | {item} | {} | {} | {} |", row.name, each.join(" | "), ratios.join(" | "), row.cleared());
    }
    if seen {
        Ok(())
    } else {
        Err(format!("no row has {part:?} in its name"))
    }
}

/// Checks that a test that fails costs the interpreter the same over 1,000 records as over one: the times of the two rows may differ by half. What is
/// compared is the two times of a turn, and the median of the turns counts: the least times of the rows can be of turns between which the machine
/// became faster.
pub fn check_failed_tests() -> Result<(), String> {
    const MOST: f64 = 1.5;
    let rows = rows(Size::Full);
    let rows: Vec<&Row> = rows.iter().filter(|row| row.name.contains(FAILED_TEST)).collect();
    let mut costs = Vec::new();
    for (row, (times, done)) in rows.iter().zip(times(&rows)?) {
        let items = row.items(&done).0 as f64;
        let cost: Vec<f64> = times[0].iter().map(|time| *time as f64 / items).collect();
        println!("{}: {:.2} ns per step, the median of the turns", row.name, median(&cost));
        costs.push(cost);
    }
    let [long, short] = &costs[..] else {
        return Err(format!("there are {} rows of a failed test, and not 2", costs.len()));
    };
    let ratio = median(&long.iter().zip(short).map(|(long, short)| long / short).collect::<Vec<f64>>());
    println!("over 1000 records / over 1 record: {ratio:.2}, the median of the turns");
    if ratio > MOST || ratio * MOST < 1.0 {
        return Err(format!("a failed test costs {ratio:.2} times as much over 1,000 records as over one"));
    }
    Ok(())
}

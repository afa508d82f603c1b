//! The times of Kombilad's proved libraries beside those of their peers. `bench/run` builds it and
//! runs it.
//!
//! ```text
//! kombilad-bench DATA found TIMES [ROW]    what each library found in so many times
//! kombilad-bench DATA time ROUNDS [ROW]    the nanoseconds of one time, the least of so many rounds
//! ```
//!
//! ROW leaves those rows whose names have these words. Each line has a row's name, its bytes and
//! pieces, and for each library its name and a number, all between tabs. The status is 1 where two
//! libraries don't find the same.

// Without peers that have CIDs, what their rows share is not used.
#![cfg_attr(not(any(feature = "cid", feature = "ipld-core")), allow(dead_code, unused_imports))]

mod data;
mod ours;
mod peers;
mod row;
mod rows;
mod timing;

use row::Row;
use std::path::Path;
use std::process::ExitCode;
use std::{env, fmt};

const USAGE: &str = "usage: kombilad-bench DATA found TIMES|time ROUNDS [ROW]";

fn main() -> ExitCode {
    let arguments: Vec<String> = env::args().skip(1).collect();
    let arguments: Vec<&str> = arguments.iter().map(String::as_str).collect();
    match run(&arguments) {
        Ok(()) => ExitCode::SUCCESS,
        Err(error) => {
            eprintln!("{error}");
            ExitCode::FAILURE
        }
    }
}

fn run(arguments: &[&str]) -> Result<(), String> {
    let (folder, what, count, name) = match arguments {
        [folder, what, count] => (folder, what, count, ""),
        [folder, what, count, name] => (folder, what, count, *name),
        _ => return Err(USAGE.into()),
    };
    let count: u32 = count.parse().map_err(|_| USAGE)?;
    let mut rows = rows::all(Path::new(folder)).map_err(|error| format!("{folder}: {error}"))?;
    rows.retain(|row| row.name.contains(name));
    for row in &rows {
        match *what {
            "found" => print(row, &found(row, u64::from(count))?),
            "time" => {
                found(row, 1)?;
                print(row, &timing::nanoseconds(row, count));
            }
            _ => return Err(USAGE.into()),
        }
    }
    Ok(())
}

/// What each library found, which has to be the same, and something where no peer is there.
fn found(row: &Row, times: u64) -> Result<Vec<u64>, String> {
    let sums: Vec<u64> = row.runs.iter().map(|run| run.bench_measured(times)).collect();
    let is_alone = sums.len() == 1;
    if sums.iter().any(|sum| *sum != sums[0]) || is_alone && sums[0] == 0 {
        return Err(format!("{}: not the same: {}", row.name, numbers(row, &sums)));
    }
    Ok(sums)
}

fn print<N: fmt::Display>(row: &Row, of_each: &[N]) {
    println!("{}\t{}\t{}\t{}", row.name, row.bytes, row.pieces, numbers(row, of_each));
}

fn numbers<N: fmt::Display>(row: &Row, of_each: &[N]) -> String {
    let each = row.runs.iter().zip(of_each);
    let words: Vec<String> = each.map(|(run, number)| format!("{}\t{number}", run.name)).collect();
    words.join("\t")
}

//! The times of the crate `kombilad` beside those of Rust that does the same work, in turns, the
//! least of many short runs.
//!
//! The first word is the folder of the data. Each line is a piece of work, its nanoseconds by this
//! library and by the peer, and the ratio. With a second word, `rows`, it prints the names of the
//! rows on values, and with `do NUMBER ours|theirs TIMES` it does one so often.

use std::env;
use std::fs;
use std::hint::black_box;
use std::path::Path;
use std::time::{Duration, Instant};

mod any_order;
#[allow(dead_code, unused_imports)]
#[path = "../../../bench/src/peers/plain/mod.rs"]
mod plain;
mod values;

const ROUNDS: usize = 400;
const ROUND: Duration = Duration::from_micros(500);

/// The nanoseconds of each of two pieces of work.
fn measured(ours: &dyn Fn() -> usize, theirs: &dyn Fn() -> usize) -> [f64; 2] {
    assert_eq!(ours(), theirs(), "both have to find the same");
    let works = [ours, theirs];
    let times = works.map(|work| {
        let begin = Instant::now();
        black_box(work());
        (ROUND.as_nanos() / begin.elapsed().as_nanos().max(1)).clamp(1, 100_000) as u32
    });
    let mut least = [f64::INFINITY; 2];
    for _ in 0..ROUNDS {
        for (at, work) in works.iter().enumerate() {
            let begin = Instant::now();
            for _ in 0..times[at] {
                black_box(work());
            }
            least[at] = least[at].min(begin.elapsed().as_nanos() as f64 / f64::from(times[at]));
        }
    }
    least
}

/// Prints the rows on values, or does one of them: for who counts instructions.
fn on_values(folder: &Path, words: &[String]) {
    let rows = values::rows(folder);
    if words[0] == "rows" {
        rows.iter().for_each(|row| println!("{}\t{}", row.name, row.peer));
        return;
    }
    let row = &rows[words[1].parse::<usize>().expect("a number")];
    let work = if words[2] == "ours" { &row.ours } else { &row.theirs };
    for _ in 0..words[3].parse::<usize>().expect("a number") {
        black_box(work());
    }
}

fn row(name: &str, peer: &str, ours: impl Fn() -> usize, theirs: impl Fn() -> usize) {
    let [ours, theirs] = measured(&ours, &theirs);
    println!("| {name} | {ours:.0} | {theirs:.0} | {peer} | {:.2} |", ours / theirs);
}

fn main() {
    let folder = env::args().nth(1).expect("the folder of the data is wanted");
    let words: Vec<String> = env::args().skip(2).collect();
    if !words.is_empty() {
        return on_values(Path::new(&folder), &words);
    }
    let data = |name: &str| fs::read(Path::new(&folder).join(name)).expect("the data are there");
    println!("| work | ns | the peer's ns | peer | ratio |\n|---|---|---|---|---|");
    let cids = data("cids.bin");
    let one = &cids[..36];
    #[cfg(feature = "cid")]
    {
        let (ours, theirs) =
            (kombilad::Cid::try_from(one).unwrap(), cid::Cid::try_from(one).unwrap());
        row(
            "a CID to base32 text",
            "`cid`",
            || ours.to_string().len(),
            || theirs.to_string().len(),
        );
        let text = ours.to_string();
        let length = |bytes: usize| bytes;
        row(
            "a CID from base32 text",
            "`cid`",
            || length(text.parse::<kombilad::Cid>().unwrap().as_bytes().len()),
            || length(cid::Cid::try_from(text.as_str()).unwrap().to_bytes().len()),
        );
        row(
            "a CID from bytes",
            "`cid`",
            || kombilad::Cid::try_from(black_box(one)).map_or(0, |_| 1),
            || cid::Cid::try_from(black_box(one)).map_or(0, |_| 1),
        );
    }
    for name in ["record", "file", "hamt"] {
        let block = data(&format!("{name}.cbor"));
        row(
            &format!("links of `{name}`"),
            "as strict",
            || kombilad::links(black_box(&block)).unwrap().len(),
            || any_order::links(black_box(&block)).map_or(0, |found| found.len()),
        );
        row(
            &format!("links of `{name}`"),
            "`plain`",
            || kombilad::links(black_box(&block)).unwrap().len(),
            || plain::links(black_box(&block)).unwrap().len(),
        );
    }
    for values::Row { name, peer, ours, theirs } in values::rows(Path::new(&folder)) {
        row(&name, peer, ours, theirs);
    }
}

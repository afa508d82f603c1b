//! A piece of work, and who does it.

use std::hint::black_box;

/// Does a piece of work so many times, and returns the sum of what each time found.
pub type Work = Box<dyn Fn(u64) -> u64>;

/// A piece of work as one library does it.
pub struct Run {
    pub name: &'static str,
    pub work: Work,
}

impl Run {
    /// Does the work. A profiler sees where it begins and ends by this name.
    #[no_mangle]
    #[inline(never)]
    pub fn bench_measured(&self, times: u64) -> u64 {
        (self.work)(times)
    }
}

/// A piece of work, done by this project first and then by its peers.
pub struct Row {
    pub name: String,
    /// How many bytes it is about.
    pub bytes: usize,
    /// How many pieces it has, as CIDs: times are those of one.
    pub pieces: u64,
    pub runs: Vec<Run>,
}

impl Row {
    pub fn new(name: impl Into<String>, bytes: usize, ours: Run) -> Row {
        Row { name: name.into(), bytes, pieces: 1, runs: vec![ours] }
    }

    /// The row with one more peer.
    pub fn beside(mut self, name: &'static str, once: impl Fn() -> u64 + 'static) -> Row {
        let work = Box::new(move |times| {
            (0..times).fold(0, |sum: u64, _| sum.wrapping_add(black_box(once())))
        });
        self.runs.push(Run { name, work });
        self
    }
}

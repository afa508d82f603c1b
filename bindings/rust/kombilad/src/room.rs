//! Buffers that a thread keeps from one block to the next. With them the tapes of small blocks need
//! no new allocations.

use std::cell::Cell;
use std::mem;
use std::thread::LocalKey;

use crate::ffi::Entry;
#[cfg(feature = "serde")]
use crate::write::Pair;

/// A buffer is kept if it has at most this many bytes.
const KEPT: usize = 1 << 15;

thread_local! {
    static ENTRIES: Cell<Vec<Entry>> = const { Cell::new(Vec::new()) };
    static BYTES: Cell<Vec<u8>> = const { Cell::new(Vec::new()) };
}

#[cfg(feature = "serde")]
thread_local! {
    static PAIRS: Cell<Vec<Pair>> = const { Cell::new(Vec::new()) };
}

/// Takes the kept buffer, which is empty. When a thread ends, it has none, and this returns a new
/// one.
fn taken<T>(kept: &'static LocalKey<Cell<Vec<T>>>) -> Vec<T> {
    kept.try_with(Cell::take).unwrap_or_default()
}

fn keep<T>(kept: &'static LocalKey<Cell<Vec<T>>>, buffer: &mut Vec<T>) {
    if buffer.capacity() > 0 && buffer.capacity() <= KEPT / mem::size_of::<T>() {
        let mut buffer = mem::take(buffer);
        buffer.clear();
        let _ = kept.try_with(|kept| kept.set(buffer));
    }
}

/// Entries, in a buffer that the thread keeps when this is dropped.
#[derive(Clone, Debug)]
pub(crate) struct Entries(pub(crate) Vec<Entry>);

impl Entries {
    /// Creates an empty list of entries, in the kept buffer if there is one.
    pub(crate) fn new() -> Self {
        Entries(taken(&ENTRIES))
    }
}

impl Drop for Entries {
    fn drop(&mut self) {
        keep(&ENTRIES, &mut self.0);
    }
}

/// Bytes, in a buffer that the thread keeps when this is dropped.
pub(crate) struct Bytes(pub(crate) Vec<u8>);

impl Bytes {
    /// Creates an empty list of bytes, in the kept buffer if there is one.
    pub(crate) fn new() -> Self {
        Bytes(taken(&BYTES))
    }
}

impl Drop for Bytes {
    fn drop(&mut self) {
        keep(&BYTES, &mut self.0);
    }
}

/// Pairs, in a buffer that the thread keeps when this is dropped.
#[cfg(feature = "serde")]
pub(crate) struct Pairs(pub(crate) Vec<Pair>);

#[cfg(feature = "serde")]
impl Pairs {
    /// Creates an empty list of pairs, in the kept buffer if there is one.
    pub(crate) fn new() -> Self {
        Pairs(taken(&PAIRS))
    }
}

#[cfg(feature = "serde")]
impl Drop for Pairs {
    fn drop(&mut self) {
        keep(&PAIRS, &mut self.0);
    }
}

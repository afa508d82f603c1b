//! The exports of `crates/bench_kombilad`: the proved libraries.

use crate::row::Run;

/// What an export takes: bytes, their length, and how many times to do its work.
type Export = unsafe extern "C" fn(*const u8, usize, u64) -> u64;

macro_rules! exports {
    ($($name:ident)*) => {
        extern "C" {
            $(pub fn $name(bytes: *const u8, length: usize, times: u64) -> u64;)*
        }
    };
}

exports! {
    bench_cid_from_bytes bench_cid_from_text bench_cid_to_bytes bench_cid_to_text
    bench_decode bench_decode_within bench_links bench_encode bench_read_node
    bench_references bench_iter bench_clone
    bench_block_to_struct bench_block_to_post bench_block_to_message
    bench_struct_to_block bench_to_ipld bench_from_ipld
    bench_missing_in_car
}

/// The run of an export over these bytes.
pub fn run(export: Export, bytes: &'static [u8]) -> Run {
    Run {
        name: "ours",
        // SAFETY: each export reads a slice of bytes, and has no `requires`.
        work: Box::new(move |times| unsafe { export(bytes.as_ptr(), bytes.len(), times) }),
    }
}

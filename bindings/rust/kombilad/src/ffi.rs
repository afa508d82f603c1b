//! Safe functions for the calls of libkombilad. Only this file of the crate has unsafe code.
//!
//! The calls are sound for these reasons:
//!
//! - A slice is passed as its pointer and its length, and a reference as a pointer. No call keeps
//!   either.
//! - Memory that a call writes to is borrowed mutably, so it doesn't overlap anything else.
//! - A call writes records or bytes to the spare capacity of a vector. The vector's length is set
//!   to no more than the number that the call reports.
//! - A [`Walk`] has the only copy of its handle, and frees it, and so has a [`Packing`]. The handle
//!   is the address of memory that no thread owns, and each call with it borrows the walk or the
//!   packing mutably.

use std::cell::Cell;
use std::mem;
use std::ops::Range;
use std::str;

use kombilad_sys::{self as sys, kombilad_span as Span};

use crate::cid::Cid;
use crate::packer::{PackOptions, Packed};
use crate::room::Entries;
use crate::unixfs::FileLimits;

pub(crate) use kombilad_sys::{
    kombilad_car_place as Place, kombilad_cid as CidBytes, kombilad_cid_parts as CidParts,
    kombilad_entry as Entry, kombilad_node as NodeRecord,
};

pub(crate) const NO_CID: CidBytes = CidBytes { len: 0, bytes: [0; 87] };

pub(crate) fn version() -> u32 {
    unsafe { sys::kombilad_version() }
}

/// Returns the sentence of a status, which is written to the beginning of `text`.
pub(crate) fn status_text(status: u32, text: &mut [u8; 80]) -> &str {
    let mut needed = 0;
    unsafe { sys::kombilad_status_text(status, text.as_mut_ptr(), text.len(), &mut needed) };
    text.get(..needed).and_then(|text| str::from_utf8(text).ok()).unwrap_or_default()
}

fn done(status: u32) -> Result<(), u32> {
    if status == sys::KOMBILAD_OK {
        Ok(())
    } else {
        Err(status)
    }
}

pub(crate) fn cid_check(bytes: &[u8]) -> Result<(), u32> {
    done(unsafe { sys::kombilad_cid_check(bytes.as_ptr(), bytes.len()) })
}

pub(crate) fn cid_parts(bytes: &[u8]) -> Result<CidParts, u32> {
    let mut parts = CidParts { version: 0, codec: 0, hash: 0, digest_len: 0 };
    done(unsafe { sys::kombilad_cid_parts_of(bytes.as_ptr(), bytes.len(), &mut parts) })?;
    Ok(parts)
}

/// Returns the text of a CID, which is written to the beginning of `text`.
pub(crate) fn cid_to_text<'a>(bytes: &[u8], base: u32, text: &'a mut [u8]) -> Result<&'a str, u32> {
    let mut needed = 0;
    let status = unsafe {
        sys::kombilad_cid_to_text(
            bytes.as_ptr(),
            bytes.len(),
            base,
            text.as_mut_ptr(),
            text.len(),
            &mut needed,
        )
    };
    done(status)?;
    // SAFETY: the call has written these bytes. They are ASCII: the prefix of a base and its
    // letters.
    Ok(unsafe { str::from_utf8_unchecked(&text[..needed]) })
}

/// Returns the CID, or the status with the offset of an invalid letter.
pub(crate) fn cid_from_text(text: &str) -> Result<CidBytes, (u32, usize)> {
    let (mut cid, mut place) = (NO_CID, 0);
    let status =
        unsafe { sys::kombilad_cid_from_text(text.as_ptr(), text.len(), &mut cid, &mut place) };
    done(status).map_err(|status| (status, place))?;
    Ok(cid)
}

pub(crate) fn cid_of_block(codec: u64, block: &[u8]) -> CidBytes {
    let mut cid = NO_CID;
    unsafe { sys::kombilad_cid_of_block(codec, block.as_ptr(), block.len(), &mut cid) };
    cid
}

/// Returns the range of a span. Its bytes are in memory, so the numbers fit.
fn range(span: Span) -> Range<usize> {
    let begin = span.offset as usize;
    begin..begin + span.len as usize
}

/// The error of a call: the status, and the byte or the entry at fault.
pub(crate) type Stopped = (u32, usize);

/// A block with its limits.
#[derive(Clone, Copy)]
pub(crate) struct Block<'a> {
    pub(crate) bytes: &'a [u8],
    pub(crate) levels: usize,
    pub(crate) values: usize,
}

impl Block<'_> {
    pub(crate) fn check(self) -> Result<(), Stopped> {
        let mut offset = 0;
        let status = unsafe {
            sys::kombilad_block_check(
                self.bytes.as_ptr(),
                self.bytes.len(),
                self.levels,
                self.values,
                &mut offset,
            )
        };
        done(status).map_err(|status| (status, offset))
    }

    pub(crate) fn is_canonical(self) -> Result<bool, Stopped> {
        let mut offset = 0;
        let status = unsafe {
            sys::kombilad_block_check_canonical(
                self.bytes.as_ptr(),
                self.bytes.len(),
                self.levels,
                self.values,
                &mut offset,
            )
        };
        match status {
            sys::KOMBILAD_OK => Ok(true),
            sys::KOMBILAD_NOT_CANONICAL => Ok(false),
            status => Err((status, offset)),
        }
    }

    pub(crate) fn count_links(self) -> Result<usize, Stopped> {
        let (mut count, mut offset) = (0, 0);
        let status = unsafe {
            sys::kombilad_links_count(
                self.bytes.as_ptr(),
                self.bytes.len(),
                self.levels,
                self.values,
                &mut count,
                &mut offset,
            )
        };
        done(status).map_err(|status| (status, offset))?;
        Ok(count)
    }

    /// Returns the CIDs of the links. The call writes its records in place, since a `Cid` has the
    /// layout of a record.
    pub(crate) fn links(self, capacity: usize) -> Result<Vec<Cid>, Stopped> {
        filled(capacity, |links: *mut Cid, capacity, needed, offset| unsafe {
            sys::kombilad_links(
                self.bytes.as_ptr(),
                self.bytes.len(),
                self.levels,
                self.values,
                links.cast(),
                capacity,
                needed,
                offset,
            )
        })
    }

    pub(crate) fn link_positions(self, capacity: usize) -> Result<Vec<Range<usize>>, Stopped> {
        let spans = filled(capacity, |spans, capacity, needed, offset| unsafe {
            sys::kombilad_link_positions(
                self.bytes.as_ptr(),
                self.bytes.len(),
                self.levels,
                self.values,
                spans,
                capacity,
                needed,
                offset,
            )
        })?;
        Ok(spans.into_iter().map(range).collect())
    }

    /// Returns the range of the value at a path, and the byte of the path at which its rest begins.
    /// A status of a path has the number of a segment.
    pub(crate) fn at(self, path: &str) -> Result<(Range<usize>, usize), Stopped> {
        let mut value = Span { offset: 0, len: 0 };
        let (mut rest, mut place) = (0, 0);
        let status = unsafe {
            sys::kombilad_block_at(
                self.bytes.as_ptr(),
                self.bytes.len(),
                self.levels,
                self.values,
                path.as_ptr(),
                path.len(),
                &mut value,
                &mut rest,
                &mut place,
            )
        };
        done(status).map_err(|status| (status, place))?;
        Ok((range(value), rest))
    }

    fn tape(self) -> Result<Entries, Stopped> {
        // There are at most as many entries as bytes. Most blocks have about nine bytes for each
        // entry.
        let len = self.bytes.len();
        let capacity =
            len.min(if len <= FEW_BYTES { FEW_ENTRIES } else { SMALL_TAPE.max(len / 4) });
        let mut entries = Entries::new();
        fill(&mut entries.0, capacity, |entries, capacity, needed, offset| unsafe {
            sys::kombilad_tape(
                self.bytes.as_ptr(),
                self.bytes.len(),
                self.levels,
                self.values,
                entries,
                capacity,
                needed,
                offset,
            )
        })?;
        Ok(entries)
    }

    pub(crate) fn canonicalize(self) -> Result<Vec<u8>, Stopped> {
        filled(self.bytes.len(), |out, capacity, needed, offset| unsafe {
            sys::kombilad_block_canonicalize(
                self.bytes.as_ptr(),
                self.bytes.len(),
                self.levels,
                self.values,
                out,
                capacity,
                needed,
                offset,
            )
        })
    }

    /// Converts the block to DAG-JSON.
    pub(crate) fn to_json(self) -> Result<String, Stopped> {
        let capacity = self.bytes.len().saturating_mul(2).saturating_add(SPARE_TEXT);
        let text = filled(capacity, |text, capacity, needed, offset| unsafe {
            sys::kombilad_block_to_json(
                self.bytes.as_ptr(),
                self.bytes.len(),
                self.levels,
                self.values,
                text,
                capacity,
                needed,
                offset,
            )
        })?;
        // SAFETY: the text is UTF-8, and the call has written these bytes.
        Ok(unsafe { String::from_utf8_unchecked(text) })
    }

    /// Converts the bytes, a text in DAG-JSON, to a block.
    pub(crate) fn of_json(self) -> Result<Vec<u8>, Stopped> {
        // Only a float, or a string with a long head, takes more bytes than its text.
        let capacity = self.bytes.len().saturating_add(SPARE_TEXT);
        filled(capacity, |out, capacity, needed, offset| unsafe {
            sys::kombilad_block_of_json(
                self.bytes.as_ptr(),
                self.bytes.len(),
                self.levels,
                self.values,
                out,
                capacity,
                needed,
                offset,
            )
        })
    }
}

/// Returns the canonical block of the value that the entries describe, or the status and the entry
/// at fault. The entries refer to `data`. The block has about `size` bytes.
pub(crate) fn encode(entries: &[Entry], data: &[u8], size: usize) -> Result<Vec<u8>, Stopped> {
    filled(size, |out, capacity, needed, at| unsafe {
        sys::kombilad_encode(
            entries.as_ptr(),
            entries.len(),
            data.as_ptr(),
            data.len(),
            out,
            capacity,
            needed,
            at,
        )
    })
}

/// The result of a call that reads a part of a CAR.
pub(crate) enum CarPart<T> {
    Found(T),
    /// The call needs at least this many more bytes.
    More(u64),
}

/// Returns the place of the first section of a CAR that begins with these bytes, and its roots. The
/// bytes are the whole CAR if `is_all`. A `Cid` has the layout of a record.
pub(crate) fn car_open_part(
    bytes: &[u8],
    is_all: bool,
    limit: usize,
) -> Result<CarPart<(Place, Vec<Cid>)>, Stopped> {
    let place = Cell::new(Place { version: 0, at: 0, end: 0 });
    let (more, offset) = (Cell::new(0), Cell::new(0));
    let roots = filled(1, |roots: *mut Cid, capacity, needed, _| unsafe {
        sys::kombilad_car_open_part(
            bytes.as_ptr(),
            bytes.len(),
            u32::from(is_all),
            limit,
            place.as_ptr(),
            roots.cast(),
            capacity,
            needed,
            more.as_ptr(),
            offset.as_ptr(),
        )
    });
    match roots {
        Ok(roots) => Ok(CarPart::Found((place.get(), roots))),
        Err((sys::KOMBILAD_CAR_MORE, _)) => Ok(CarPart::More(more.get())),
        Err((status, _)) => Err((status, offset.get() as usize)),
    }
}

/// The ranges of a section's CID and of its data.
pub(crate) type SectionSpans = (Range<usize>, Range<usize>);

/// Reads the section at this place of a CAR, with which the bytes begin. Returns the ranges of its
/// CID and its data in the bytes, and moves the place to the next section. If there is no other
/// section, returns `None`. The CAR ends with the bytes if `is_all`.
pub(crate) fn car_next_part(
    bytes: &[u8],
    is_all: bool,
    limit: usize,
    place: &mut Place,
) -> Result<Option<CarPart<SectionSpans>>, Stopped> {
    let (mut cid, mut data) = (Span { offset: 0, len: 0 }, Span { offset: 0, len: 0 });
    let (mut more, mut offset) = (0, 0);
    let status = unsafe {
        sys::kombilad_car_next_part(
            bytes.as_ptr(),
            bytes.len(),
            u32::from(is_all),
            limit,
            place,
            &mut cid,
            &mut data,
            &mut more,
            &mut offset,
        )
    };
    match status {
        sys::KOMBILAD_OK => Ok(Some(CarPart::Found((range(cid), range(data))))),
        sys::KOMBILAD_CAR_DONE => Ok(None),
        sys::KOMBILAD_CAR_MORE => Ok(Some(CarPart::More(more))),
        status => Err((status, offset as usize)),
    }
}

/// Returns the header of a CAR of version 1. A `Cid` has the layout of a record.
pub(crate) fn car_header(roots: &[Cid]) -> Result<Vec<u8>, Stopped> {
    // A root takes five bytes more than its CID, so this is enough unless its digest is long.
    let capacity = mem::size_of_val(roots).saturating_add(SPARE_TEXT);
    filled(capacity, |bytes, capacity, needed, place| unsafe {
        sys::kombilad_car_header(roots.as_ptr().cast(), roots.len(), bytes, capacity, needed, place)
    })
}

/// The position of a block in the payload of a CAR.
pub(crate) type CarRow = sys::kombilad_car_row;

/// Returns the first bytes of a CAR of version 2 with a payload of this length, and after them the
/// index of the blocks in these rows.
pub(crate) fn car_index(rows: &[CarRow], payload_len: u64) -> Result<Vec<u8>, Stopped> {
    // An entry takes fewer bytes than a row unless its digest is long, and the rest fits in two rows.
    let capacity = mem::size_of_val(rows).saturating_add(2 * mem::size_of::<CarRow>());
    filled(capacity, |bytes, capacity, needed, place| unsafe {
        sys::kombilad_car_index(
            rows.as_ptr(),
            rows.len(),
            payload_len,
            bytes,
            capacity,
            needed,
            place,
        )
    })
}

/// Returns what a section of a CAR has before its block. It is written to the beginning of `bytes`.
pub(crate) fn car_section<'a>(
    cid: &Cid,
    block: &[u8],
    bytes: &'a mut [u8; sys::KOMBILAD_CAR_SECTION],
) -> Result<&'a [u8], Stopped> {
    let (cid, mut needed) = (cid.as_bytes(), 0);
    let status = unsafe {
        sys::kombilad_car_section(
            cid.as_ptr(),
            cid.len(),
            block.len() as u64,
            bytes.as_mut_ptr(),
            bytes.len(),
            &mut needed,
        )
    };
    done(status).map_err(|status| (status, 0))?;
    Ok(&bytes[..needed])
}

pub(crate) fn verify(cid: &[u8], block: &[u8]) -> Result<(), u32> {
    done(unsafe { sys::kombilad_verify(cid.as_ptr(), cid.len(), block.as_ptr(), block.len()) })
}

/// A walk over the blocks of a file or a folder.
#[derive(Debug)]
pub(crate) struct Walk(sys::kombilad_walk);

impl Drop for Walk {
    fn drop(&mut self) {
        unsafe { sys::kombilad_walk_free(&mut self.0) }
    }
}

impl Walk {
    /// Begins a walk over the bytes of a file from `start` on.
    pub(crate) fn of_file(root: &Cid, start: u64, limits: &FileLimits) -> Result<Self, Stopped> {
        let (mut walk, root) = (Walk(sys::kombilad_walk::default()), root.as_bytes());
        let status = unsafe {
            sys::kombilad_file_new(
                root.as_ptr(),
                root.len(),
                start,
                u64::MAX,
                limits.bytes,
                limits.blocks,
                limits.waiting,
                limits.levels,
                &mut walk.0,
            )
        };
        done(status).map_err(|status| (status, 0))?;
        Ok(walk)
    }

    /// Begins a walk over the entries of a folder.
    pub(crate) fn of_folder(root: &Cid) -> Result<Self, Stopped> {
        let (mut walk, root) = (Walk(sys::kombilad_walk::default()), root.as_bytes());
        let status = unsafe { sys::kombilad_folder_new(root.as_ptr(), root.len(), &mut walk.0) };
        done(status).map_err(|status| (status, 0))?;
        Ok(walk)
    }

    /// Returns the CID of the block that the walk wants next, or `None` after the last one.
    pub(crate) fn wanted(&mut self) -> Result<Option<Cid>, Stopped> {
        let mut cid = NO_CID;
        match unsafe { sys::kombilad_walk_wanted(&mut self.0, &mut cid) } {
            sys::KOMBILAD_OK => Ok(Some(Cid::of_record(cid))),
            sys::KOMBILAD_WALK_DONE => Ok(None),
            status => Err((status, 0)),
        }
    }

    /// Takes the block that the walk over a file wants, and writes the bytes of the file in it to
    /// an empty vector.
    pub(crate) fn take_bytes(&mut self, block: &[u8], bytes: &mut Vec<u8>) -> Result<(), Stopped> {
        let walk: *mut sys::kombilad_walk = &mut self.0;
        fill(bytes, block.len(), |bytes, capacity, needed, offset| unsafe {
            sys::kombilad_file_take(
                walk,
                block.as_ptr(),
                block.len(),
                bytes,
                capacity,
                needed,
                offset,
            )
        })
    }

    /// Takes the block that the walk over a folder wants, and replaces the entries by those in it.
    /// With an error there are none.
    pub(crate) fn take_entries(
        &mut self,
        block: &[u8],
        listed: &mut FolderEntries,
    ) -> Result<(), Stopped> {
        let FolderEntries { entries, names } = listed;
        entries.clear();
        names.clear();
        names.try_reserve_exact(block.len()).map_err(|_| (sys::KOMBILAD_NO_MEMORY, 0))?;
        let (names_at, names_len) = (names.as_mut_ptr(), names.capacity());
        let walk: *mut sys::kombilad_walk = &mut self.0;
        fill(
            entries,
            sys::KOMBILAD_FOLDER_ENTRIES(block.len()),
            |entries, capacity, needed, place| unsafe {
                sys::kombilad_folder_take(
                    walk,
                    block.as_ptr(),
                    block.len(),
                    entries,
                    capacity,
                    names_at,
                    names_len,
                    needed,
                    place,
                )
            },
        )?;
        let end = entries.last().map_or(0, |entry| range(entry.name).end);
        // SAFETY: the call has written the names one after the other, from the first byte on, and
        // the capacity was large enough for them.
        unsafe { names.set_len(end) };
        Ok(())
    }
}

/// Entries of a folder: those in one block, or those that are packed. Only a walk and the functions
/// below fill it, so the places of the names are valid.
#[derive(Debug, Default)]
pub(crate) struct FolderEntries {
    entries: Vec<sys::kombilad_folder_entry>,
    names: Vec<u8>,
}

impl FolderEntries {
    /// Adds an entry.
    pub(crate) fn push(&mut self, name: &str, packed: &Packed) -> Result<(), Stopped> {
        let no_memory = |_| (sys::KOMBILAD_NO_MEMORY, 0);
        self.entries.try_reserve(1).map_err(no_memory)?;
        self.names.try_reserve(name.len()).map_err(no_memory)?;
        self.entries.push(sys::kombilad_folder_entry {
            cid: packed.cid.record(),
            name: Span { offset: self.names.len() as u64, len: name.len() as u64 },
            tsize: packed.total,
            has_tsize: 1,
        });
        self.names.extend_from_slice(name.as_bytes());
        Ok(())
    }

    /// Sorts the entries by the bytes of their names.
    pub(crate) fn sort(&mut self) {
        let names = &self.names;
        let name = |entry: &sys::kombilad_folder_entry| &names[range(entry.name)];
        self.entries.sort_unstable_by(|a, b| name(a).cmp(name(b)));
    }

    /// Returns the name, the CID and the size of the entry at an index.
    pub(crate) fn get(&self, at: usize) -> Option<(&str, Cid, Option<u64>)> {
        let entry = self.entries.get(at)?;
        // SAFETY: the call that wrote the names checked that each is UTF-8, and wrote its place.
        // `push` adds only UTF-8.
        let name = unsafe { str::from_utf8_unchecked(&self.names[range(entry.name)]) };
        let tsize = if entry.has_tsize == 0 { None } else { Some(entry.tsize) };
        Some((name, Cid::of_record(entry.cid), tsize))
    }
}

/// The result of a search in a folder.
pub(crate) enum Found {
    Entry(Cid),
    /// The search needs the block of this CID, after the others.
    More(Cid),
    Missing,
}

/// The blocks of a folder that a search has asked for, one after the other.
#[derive(Default)]
pub(crate) struct FolderBlocks {
    bytes: Vec<u8>,
    places: Vec<Span>,
}

impl FolderBlocks {
    /// Adds the block that the search needs.
    pub(crate) fn push(&mut self, block: &[u8]) -> Result<(), Stopped> {
        let no_memory = |_| (sys::KOMBILAD_NO_MEMORY, 0);
        self.bytes.try_reserve(block.len()).map_err(no_memory)?;
        self.places.try_reserve(1).map_err(no_memory)?;
        self.places.push(Span { offset: self.bytes.len() as u64, len: block.len() as u64 });
        self.bytes.extend_from_slice(block);
        Ok(())
    }

    /// Looks for the entry with this name in the folder.
    pub(crate) fn look_up(&self, folder: &Cid, name: &str) -> Result<Found, Stopped> {
        let folder = folder.as_bytes();
        let (mut cid, mut place) = (NO_CID, 0);
        let status = unsafe {
            sys::kombilad_folder_lookup(
                folder.as_ptr(),
                folder.len(),
                name.as_ptr(),
                name.len(),
                self.bytes.as_ptr(),
                self.bytes.len(),
                self.places.as_ptr(),
                self.places.len(),
                &mut cid,
                &mut place,
            )
        };
        match status {
            sys::KOMBILAD_OK => Ok(Found::Entry(Cid::of_record(cid))),
            sys::KOMBILAD_FOLDER_MORE => Ok(Found::More(Cid::of_record(cid))),
            sys::KOMBILAD_FOLDER_MISSING => Ok(Found::Missing),
            status => Err((status, place)),
        }
    }
}

/// Verifies the block of a CID, and returns what it says of a file, a folder or a symbolic link,
/// with the target of a link.
pub(crate) fn unixfs_node(cid: &Cid, block: &[u8]) -> Result<(NodeRecord, Vec<u8>), Stopped> {
    let node = Cell::new(NodeRecord::default());
    let cid = cid.as_bytes();
    // Most nodes have no target. The blocks of those that have one are small.
    let target = filled(0, |target, capacity, needed, place| unsafe {
        sys::kombilad_unixfs_node(
            cid.as_ptr(),
            cid.len(),
            block.as_ptr(),
            block.len(),
            node.as_ptr(),
            target,
            capacity,
            needed,
            place,
        )
    })?;
    Ok((node.get(), target))
}

pub(crate) fn symlink_stays_inside(target: &[u8], depth: usize) -> bool {
    unsafe { sys::kombilad_symlink_stays_inside(target.as_ptr(), target.len(), depth) != 0 }
}

/// A file, a folder or a symbolic link that is packed.
#[derive(Debug)]
pub(crate) struct Packing(sys::kombilad_packing);

impl Drop for Packing {
    fn drop(&mut self) {
        unsafe { sys::kombilad_pack_free(&mut self.0) }
    }
}

impl Packing {
    /// Returns what a call begins.
    fn begun(
        call: impl FnOnce(&mut sys::kombilad_packing, &mut usize) -> u32,
    ) -> Result<Self, Stopped> {
        let (mut packing, mut place) = (Packing(sys::kombilad_packing::default()), 0);
        done(call(&mut packing.0, &mut place)).map_err(|status| (status, place))?;
        Ok(packing)
    }

    /// Begins a file.
    pub(crate) fn of_file(options: &PackOptions) -> Result<Self, Stopped> {
        Packing::begun(|packing, _| unsafe {
            sys::kombilad_pack_file(
                options.version as u32,
                u32::from(options.raw_leaves),
                options.links,
                packing,
            )
        })
    }

    /// Packs a symbolic link.
    pub(crate) fn of_symlink(
        options: &PackOptions,
        attributes: &NodeRecord,
        target: &str,
    ) -> Result<Self, Stopped> {
        Packing::begun(|packing, _| unsafe {
            sys::kombilad_pack_symlink(
                options.version as u32,
                attributes,
                target.as_ptr(),
                target.len(),
                packing,
            )
        })
    }

    /// Packs a folder of entries that are sorted. The error has the index of the entry at fault.
    pub(crate) fn of_folder(
        options: &PackOptions,
        attributes: &NodeRecord,
        FolderEntries { entries, names }: &FolderEntries,
    ) -> Result<Self, Stopped> {
        Packing::begun(|packing, place| unsafe {
            sys::kombilad_pack_folder(
                options.version as u32,
                attributes,
                options.sharded_above,
                entries.as_ptr(),
                entries.len(),
                names.as_ptr(),
                names.len(),
                packing,
                place,
            )
        })
    }

    /// Adds a chunk of the file that isn't the last.
    pub(crate) fn push(&mut self, chunk: &[u8]) -> Result<(), Stopped> {
        done(unsafe { sys::kombilad_pack_chunk(&mut self.0, chunk.as_ptr(), chunk.len()) })
            .map_err(|status| (status, 0))
    }

    /// Adds the last chunk of the file.
    pub(crate) fn push_last(
        &mut self,
        chunk: &[u8],
        attributes: &NodeRecord,
    ) -> Result<(), Stopped> {
        done(unsafe {
            sys::kombilad_pack_last_chunk(&mut self.0, chunk.as_ptr(), chunk.len(), attributes)
        })
        .map_err(|status| (status, 0))
    }

    /// Returns what is packed in the next block that waits, or `None` if none does. The vector gets
    /// the bytes of the block.
    pub(crate) fn take(&mut self, block: &mut Vec<u8>) -> Result<Option<Packed>, Stopped> {
        let row = Cell::new(sys::kombilad_packed_block { cid: NO_CID, size: 0, total: 0 });
        let packing: *mut sys::kombilad_packing = &mut self.0;
        block.clear();
        match fill(block, 0, |bytes, capacity, needed, _| unsafe {
            sys::kombilad_pack_take(packing, row.as_ptr(), bytes, capacity, needed)
        }) {
            Ok(()) => {
                let sys::kombilad_packed_block { cid, size, total } = row.get();
                Ok(Some(Packed { cid: Cid::of_record(cid), size, total }))
            }
            Err((sys::KOMBILAD_WALK_DONE, _)) => Ok(None),
            Err(stopped) => Err(stopped),
        }
    }
}

/// The DAG-JSON of most blocks has at most twice as many bytes as the block, and this many more.
const SPARE_TEXT: usize = 64;

/// The minimum number of entries for which a tape has room at first, if the block has as many
/// bytes.
const SMALL_TAPE: usize = 2048;
/// The tape of a block of at most this many bytes has room for fewer entries at first: 1 KiB, which
/// allocators provide quickly.
const FEW_BYTES: usize = 128;
const FEW_ENTRIES: usize = 64;

/// The kinds of a tape's entries.
pub(crate) mod kind {
    pub(crate) const NULL: u32 = 0;
    pub(crate) const FALSE: u32 = 1;
    pub(crate) const TRUE: u32 = 2;
    pub(crate) const UNSIGNED: u32 = 3;
    pub(crate) const NEGATIVE: u32 = 4;
    pub(crate) const FLOAT: u32 = 5;
    pub(crate) const STRING: u32 = 6;
    pub(crate) const BYTES: u32 = 7;
    pub(crate) const LINK: u32 = 8;
    pub(crate) const LIST: u32 = 9;
    pub(crate) const MAP: u32 = 10;
    pub(crate) const KEY: u32 = 11;
}

/// A block with its tape. Only the calls create a tape, and nothing changes it, so its entries are
/// valid for the block.
#[derive(Clone, Debug)]
pub(crate) struct Tape<'a> {
    block: &'a [u8],
    entries: Entries,
}

impl<'a> Tape<'a> {
    pub(crate) fn of(block: Block<'a>) -> Result<Self, Stopped> {
        let entries = block.tape()?;
        Ok(Tape { block: block.bytes, entries })
    }

    /// Returns the tape of a node of DAG-PB: its links, and then its data.
    pub(crate) fn of_node(block: &'a [u8]) -> Result<Self, Stopped> {
        let mut entries = Entries::new();
        fill(
            &mut entries.0,
            FEW_ENTRIES.min(block.len()),
            |entries, capacity, needed, offset| unsafe {
                sys::kombilad_pb_tape(
                    block.as_ptr(),
                    block.len(),
                    entries,
                    capacity,
                    needed,
                    offset,
                )
            },
        )?;
        Ok(Tape { block, entries })
    }

    #[inline]
    pub(crate) fn entries(&self) -> &[Entry] {
        &self.entries.0
    }

    /// Returns the entry at an index.
    #[inline]
    pub(crate) fn part(&self, at: usize) -> Part<'_, 'a> {
        Part { entry: &self.entries.0[at], block: self.block }
    }

    /// Returns the entries of a range, in their order.
    #[inline]
    pub(crate) fn parts(
        &self,
        range: Range<usize>,
    ) -> impl ExactSizeIterator<Item = Part<'_, 'a>> + '_ {
        let block = self.block;
        self.entries.0[range].iter().map(move |entry| Part { entry, block })
    }

    /// Returns the entries of a range, two at a time.
    #[inline]
    pub(crate) fn pairs(
        &self,
        range: Range<usize>,
    ) -> impl ExactSizeIterator<Item = (Part<'_, 'a>, Part<'_, 'a>)> + '_ {
        let block = self.block;
        self.entries.0[range]
            .chunks_exact(2)
            .map(move |pair| (Part { entry: &pair[0], block }, Part { entry: &pair[1], block }))
    }
}

/// An entry of a tape, with the block to which it refers. Only the tape creates it.
#[derive(Clone, Copy)]
pub(crate) struct Part<'t, 'a> {
    entry: &'t Entry,
    block: &'a [u8],
}

impl<'a> Part<'_, 'a> {
    #[inline]
    pub(crate) fn entry(self) -> Entry {
        *self.entry
    }

    /// Returns the content of a float, a string, bytes, a link or a key.
    #[inline]
    pub(crate) fn content(self) -> &'a [u8] {
        let begin = self.entry.value as usize;
        &self.block[begin..begin + self.entry.len as usize]
    }

    /// Returns the content of a string or a key. For any other entry it returns an empty string.
    #[inline]
    pub(crate) fn text(self) -> &'a str {
        if !matches!(self.entry.kind, kind::STRING | kind::KEY) {
            return "";
        }
        // SAFETY: the call that made the tape checked that the content of a string or a key is
        // UTF-8, and wrote its place in the block. The block is borrowed for as long as the text,
        // so it has not changed.
        unsafe { str::from_utf8_unchecked(self.content()) }
    }
}

/// Returns a vector that [`fill`] fills.
fn filled<T>(
    capacity: usize,
    call: impl Fn(*mut T, usize, &mut usize, &mut usize) -> u32,
) -> Result<Vec<T>, Stopped> {
    let mut content = Vec::new();
    fill(&mut content, capacity, call)?;
    Ok(content)
}

/// Fills an empty vector by a call. The call takes a pointer to write to, the capacity there, and
/// references for the capacity that it needs and for the offset of an error. The vector has at
/// least the given capacity at first. If that is too little, it gets the capacity that the call
/// needs.
fn fill<T>(
    content: &mut Vec<T>,
    capacity: usize,
    call: impl Fn(*mut T, usize, &mut usize, &mut usize) -> u32,
) -> Result<(), Stopped> {
    let mut wanted = capacity;
    loop {
        content.try_reserve_exact(wanted).map_err(|_| (sys::KOMBILAD_NO_MEMORY, 0))?;
        let (mut needed, mut offset) = (0, 0);
        match call(content.as_mut_ptr(), content.capacity(), &mut needed, &mut offset) {
            sys::KOMBILAD_OK => {
                // SAFETY: the call has written this many, from the first on, and the capacity was
                // large enough for them.
                unsafe { content.set_len(needed) };
                return Ok(());
            }
            sys::KOMBILAD_TOO_SHORT if needed > content.capacity() => wanted = needed,
            status => return Err((status, offset)),
        }
    }
}

//! Files, folders and symbolic links of UnixFS, packed into blocks.

use std::io::{self, ErrorKind, Read};
use std::{error, fmt};

use kombilad_sys as sys;

use crate::cid::{Cid, Version};
use crate::error::write_status;
use crate::ffi::{FolderEntries, NodeRecord, Packing, Stopped};

/// The maximum number of bytes of a chunk.
const MAX_CHUNK: usize = 1 << 26;
/// The maximum number of nanoseconds after the seconds of a time.
const MAX_NANOSECONDS: u32 = 999_999_999;

/// An error of packing a file, a folder or a symbolic link.
///
/// As an [`io::Error`] it has the kind `OutOfMemory` if an allocation fails, and otherwise
/// `InvalidInput`. The error of a source or of `put` stays as it is.
#[derive(Debug)]
#[non_exhaustive]
pub enum PackError {
    /// The source of the file or the function `put` failed.
    Io(io::Error),
    /// An allocation failed.
    OutOfMemory,
    /// This chunk size is not from 1 to 2^26 bytes.
    ChunkSize(usize),
    /// A block above others has room for fewer than two links.
    Links,
    /// The nanoseconds of the time are more than 999,999,999.
    Nanoseconds,
    /// The file or the folder has 2^64 bytes or more, with all its blocks.
    TooLarge,
    /// The name of an entry is empty, `.` or `..`, or has a `/` or a zero byte.
    InvalidName {
        /// The name.
        name: String,
    },
    /// Two entries of a folder have the same name.
    DuplicateName {
        /// The name.
        name: String,
    },
    /// Two names of a sharded folder have the same hash.
    SameHash,
    /// A status that this version doesn't know.
    Other(u32),
}

impl PackError {
    fn of((status, _): Stopped) -> Self {
        match status {
            sys::KOMBILAD_NO_MEMORY => PackError::OutOfMemory,
            sys::KOMBILAD_PACK_WIDTH => PackError::Links,
            sys::KOMBILAD_PACK_NANOSECONDS => PackError::Nanoseconds,
            sys::KOMBILAD_PACK_TOO_LARGE => PackError::TooLarge,
            sys::KOMBILAD_PACK_SAME_HASH => PackError::SameHash,
            status => PackError::Other(status),
        }
    }

    /// Returns the error of a folder with these entries.
    fn of_folder((status, at): Stopped, entries: &FolderEntries) -> Self {
        let name = entries.get(at).map(|(name, ..)| name.to_owned()).unwrap_or_default();
        match status {
            sys::KOMBILAD_PACK_INVALID_NAME => PackError::InvalidName { name },
            // The names are sorted.
            sys::KOMBILAD_PACK_NAME_ORDER => PackError::DuplicateName { name },
            status => PackError::of((status, at)),
        }
    }
}

impl fmt::Display for PackError {
    fn fmt(&self, f: &mut fmt::Formatter<'_>) -> fmt::Result {
        let status = match self {
            PackError::Io(error) => return error.fmt(f),
            PackError::OutOfMemory => sys::KOMBILAD_NO_MEMORY,
            PackError::ChunkSize(size) => {
                return write!(f, "the chunk size must be from 1 to {MAX_CHUNK} bytes, not {size}")
            }
            PackError::Links => sys::KOMBILAD_PACK_WIDTH,
            PackError::Nanoseconds => sys::KOMBILAD_PACK_NANOSECONDS,
            PackError::TooLarge => sys::KOMBILAD_PACK_TOO_LARGE,
            PackError::InvalidName { name } => {
                write_status(f, sys::KOMBILAD_PACK_INVALID_NAME)?;
                return write!(f, ": {name:?}");
            }
            PackError::DuplicateName { name } => {
                return write!(f, "two entries have the name {name:?}: rename one of them")
            }
            PackError::SameHash => sys::KOMBILAD_PACK_SAME_HASH,
            PackError::Other(status) => return write!(f, "the status {status} of libkombilad"),
        };
        write_status(f, status)
    }
}

impl error::Error for PackError {
    fn source(&self) -> Option<&(dyn error::Error + 'static)> {
        match self {
            PackError::Io(error) => Some(error),
            _ => None,
        }
    }
}

impl From<io::Error> for PackError {
    fn from(error: io::Error) -> Self {
        PackError::Io(error)
    }
}

impl From<PackError> for io::Error {
    fn from(error: PackError) -> Self {
        match error {
            PackError::Io(error) => error,
            PackError::OutOfMemory => ErrorKind::OutOfMemory.into(),
            error => io::Error::new(ErrorKind::InvalidInput, error),
        }
    }
}

/// Options of a [`Packer`]. The default is the layout of `ipfs add`.
#[derive(Clone, Copy, Debug, PartialEq, Eq)]
pub struct PackOptions {
    /// The version of the CIDs.
    pub version: Version,
    /// Whether a chunk is a raw block, whose CID has version 1, instead of a node.
    pub raw_leaves: bool,
    /// The number of bytes of each chunk of a file but the last, from 1 to 2^26.
    pub chunk_size: usize,
    /// The maximum number of links in a block of a file, at least 2.
    pub links: usize,
    /// The number of bytes of names and CIDs above which a folder is sharded.
    pub sharded_above: u64,
}

impl Default for PackOptions {
    /// Returns version 0, nodes as leaves, chunks of 262,144 bytes, 174 links, and folders that are
    /// sharded above 262,144 bytes.
    fn default() -> Self {
        PackOptions {
            version: Version::V0,
            raw_leaves: false,
            chunk_size: sys::KOMBILAD_PACK_CHUNK,
            links: sys::KOMBILAD_PACK_LINKS,
            sharded_above: sys::KOMBILAD_PACK_SHARDED_ABOVE,
        }
    }
}

/// A file, a folder or a symbolic link that is packed: an entry of a folder without its name.
#[derive(Clone, Copy, Debug, PartialEq, Eq)]
pub struct Packed {
    /// The CID of its root.
    pub cid: Cid,
    /// The number of bytes of a file, and 0 for folders and symbolic links.
    pub size: u64,
    /// The number of bytes of all its blocks. A block that is linked twice counts twice. A link to
    /// the root states it as the [`tsize`](crate::unixfs::FolderEntry::tsize).
    pub total: u64,
}

/// Packs files, folders and symbolic links into blocks. With the default options they are the blocks
/// of `ipfs add`.
///
/// ```
/// use std::collections::HashMap;
///
/// use kombilad::unixfs::{resolve, Packer};
///
/// let mut blocks = HashMap::new();
/// let mut packer = Packer::new(|cid, block| {
///     blocks.insert(*cid, block.to_vec());
///     Ok(())
/// });
/// let file = packer.file(&b"hello world"[..], Some(0o644), None)?;
/// let link = packer.symlink("hello.txt", None, None)?;
/// let folder = packer.folder([("hello.txt", file), ("a link", link)], None, None)?;
/// assert_eq!(resolve(|cid| Ok(blocks.get(cid)), &folder.cid, "hello.txt")?, file.cid);
/// # Ok::<(), Box<dyn std::error::Error>>(())
/// ```
///
/// It calls the function `put` with each block and its CID as soon as the block is made: in a file
/// a block after those to which it links, and in a folder the root first, and a shard before those
/// below it. Of a file it buffers one chunk, one byte after it, and the links of blocks that aren't
/// full yet. A folder is made in memory, with up to about 1,000 bytes for each entry.
///
/// `mode` and `mtime` are the permissions and the time of the root, as a
/// [`Node`](crate::unixfs::Node) has them.
///
/// # Errors
///
/// Each function returns a [`PackError`]. If `put` or a source fails, that error is in
/// [`PackError::Io`], and the blocks before it were put. The packer can be used again after any
/// error.
#[derive(Debug)]
pub struct Packer<P> {
    put: P,
    options: PackOptions,
    /// The chunk that is read, and the byte after it.
    chunk: Vec<u8>,
    /// The block that is put.
    block: Vec<u8>,
}

impl<P> Packer<P>
where
    P: FnMut(&Cid, &[u8]) -> io::Result<()>,
{
    /// Creates a packer that passes each block and its CID to `put`.
    pub fn new(put: P) -> Self {
        Packer { put, options: PackOptions::default(), chunk: Vec::new(), block: Vec::new() }
    }

    /// Sets the options. They are checked when a file is packed.
    ///
    /// ```
    /// use kombilad::unixfs::{PackOptions, Packer};
    /// use kombilad::Version;
    ///
    /// let options =
    ///     PackOptions { version: Version::V1, raw_leaves: true, ..PackOptions::default() };
    /// let mut packer = Packer::new(|_, _| Ok(())).with_options(options);
    /// let cid = packer.file(&b"hello world"[..], None, None)?.cid;
    /// assert_eq!(cid.to_string(), "bafkreifzjut3te2nhyekklss27nh3k72ysco7y32koao5eei66wof36n5e");
    /// # Ok::<(), kombilad::unixfs::PackError>(())
    /// ```
    #[must_use]
    pub fn with_options(mut self, options: PackOptions) -> Self {
        self.options = options;
        self
    }

    /// Packs the file that a source has from its position to its end, such as a [`File`] or a slice
    /// of bytes. The source needs no buffer of its own.
    ///
    /// ```
    /// use kombilad::unixfs::Packer;
    ///
    /// let file = Packer::new(|_, _| Ok(())).file(&b"hello world"[..], None, None)?;
    /// assert_eq!(file.cid.to_string(), "Qmf412jQZiuVUtdgnB36FXFX7xg5V6KEbSJ4dpQuhkLyfD");
    /// assert_eq!((file.size, file.total), (11, 19));
    /// # Ok::<(), kombilad::unixfs::PackError>(())
    /// ```
    ///
    /// # Errors
    ///
    /// [`PackError::ChunkSize`], [`PackError::Links`] and [`PackError::Nanoseconds`] before anything
    /// is read or put. Later those of the source and of `put`, [`PackError::TooLarge`], and
    /// [`PackError::OutOfMemory`].
    ///
    /// [`File`]: std::fs::File
    pub fn file(
        &mut self,
        mut source: impl Read,
        mode: Option<u32>,
        mtime: Option<(i64, u32)>,
    ) -> Result<Packed, PackError> {
        let size = self.options.chunk_size;
        if size == 0 || size > MAX_CHUNK {
            return Err(PackError::ChunkSize(size));
        }
        let attributes = attributes(mode, mtime)?;
        let mut packing = Packing::of_file(&self.options).map_err(PackError::of)?;
        self.chunk.clear();
        self.chunk.try_reserve_exact(size + 1).map_err(|_| PackError::OutOfMemory)?;
        loop {
            // A chunk is the last if no byte comes after it.
            let wanted = size + 1 - self.chunk.len();
            source.by_ref().take(wanted as u64).read_to_end(&mut self.chunk)?;
            if self.chunk.len() <= size {
                break;
            }
            packing.push(&self.chunk[..size]).map_err(PackError::of)?;
            self.chunk.drain(..size);
            self.put_blocks(&mut packing)?;
        }
        packing.push_last(&self.chunk, &attributes).map_err(PackError::of)?;
        let (_, root) = self.put_blocks(&mut packing)?;
        Ok(root)
    }

    /// Packs a folder of entries, in any order. An entry is a name with what is packed, also by
    /// another packer.
    ///
    /// ```
    /// use kombilad::unixfs::Packer;
    ///
    /// let mut packer = Packer::new(|_, _| Ok(()));
    /// let folder = packer.folder::<&str>([], None, None)?;
    /// assert_eq!(folder.cid.to_string(), "QmUNLLsPACCz1vLxQVkXqqLX5R1X345qqfHbsf67hvA3Nn");
    /// # Ok::<(), kombilad::unixfs::PackError>(())
    /// ```
    ///
    /// # Errors
    ///
    /// [`PackError::InvalidName`] and [`PackError::DuplicateName`] with the name,
    /// [`PackError::SameHash`], [`PackError::Nanoseconds`], [`PackError::TooLarge`] and
    /// [`PackError::OutOfMemory`] before any block is put. Later those of `put`.
    pub fn folder<N: AsRef<str>>(
        &mut self,
        entries: impl IntoIterator<Item = (N, Packed)>,
        mode: Option<u32>,
        mtime: Option<(i64, u32)>,
    ) -> Result<Packed, PackError> {
        let attributes = attributes(mode, mtime)?;
        let mut sorted = FolderEntries::default();
        for (name, packed) in entries {
            sorted.push(name.as_ref(), &packed).map_err(PackError::of)?;
        }
        sorted.sort();
        let mut packing = Packing::of_folder(&self.options, &attributes, &sorted)
            .map_err(|stopped| PackError::of_folder(stopped, &sorted))?;
        let (root, _) = self.put_blocks(&mut packing)?;
        Ok(root)
    }

    /// Packs a symbolic link with this target, which isn't checked:
    /// see [`symlink_stays_inside`](crate::unixfs::symlink_stays_inside).
    ///
    /// ```
    /// use kombilad::unixfs::Packer;
    ///
    /// let link = Packer::new(|_, _| Ok(())).symlink("foobar", None, None)?;
    /// assert_eq!(link.cid.to_string(), "QmNgQEdXVdLw79nH2bnxLMxnyWMaXrijfqMTiDVat3iyuz");
    /// # Ok::<(), kombilad::unixfs::PackError>(())
    /// ```
    ///
    /// # Errors
    ///
    /// [`PackError::Nanoseconds`] and [`PackError::OutOfMemory`] before the block is put. Later those
    /// of `put`.
    pub fn symlink(
        &mut self,
        target: &str,
        mode: Option<u32>,
        mtime: Option<(i64, u32)>,
    ) -> Result<Packed, PackError> {
        let attributes = attributes(mode, mtime)?;
        let packing = Packing::of_symlink(&self.options, &attributes, target);
        let (root, _) = self.put_blocks(&mut packing.map_err(PackError::of)?)?;
        Ok(root)
    }

    /// Puts the blocks that wait, at least one. Returns the first and the last.
    fn put_blocks(&mut self, packing: &mut Packing) -> Result<(Packed, Packed), PackError> {
        let mut ends = None;
        while let Some(last) = packing.take(&mut self.block).map_err(PackError::of)? {
            (self.put)(&last.cid, &self.block)?;
            ends = Some((ends.map_or(last, |(first, _)| first), last));
        }
        ends.ok_or(PackError::Other(sys::KOMBILAD_WALK_DONE))
    }
}

/// Returns the record of a mode and a time.
fn attributes(mode: Option<u32>, mtime: Option<(i64, u32)>) -> Result<NodeRecord, PackError> {
    let mut record = NodeRecord::default();
    if let Some(mode) = mode {
        record.fields |= sys::KOMBILAD_NODE_MODE;
        record.mode = mode;
    }
    if let Some((seconds, nanoseconds)) = mtime {
        if nanoseconds > MAX_NANOSECONDS {
            return Err(PackError::Nanoseconds);
        }
        record.fields |= sys::KOMBILAD_NODE_TIME;
        record.seconds = seconds;
        record.nanoseconds = nanoseconds;
    }
    Ok(record)
}

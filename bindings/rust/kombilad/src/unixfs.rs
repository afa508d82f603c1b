//! Files and folders of UnixFS (IPFS), from a source of blocks that nobody has to trust. A [`Packer`]
//! makes the blocks of files and folders.
//!
//! The source is a function that returns the block of a CID, or `None` if it doesn't have it. Each
//! block is verified before it is read. The source isn't asked for a block that is in the CID itself,
//! by the hash function identity.
//!
//! ```
//! use std::collections::HashMap;
//! use std::io::Read;
//!
//! use kombilad::unixfs::{resolve, FileReader, Folder};
//! use kombilad::{CarReader, Cid};
//! # use kombilad::{CarWriter, DAG_PB, RAW};
//! # let file = Cid::of_block(RAW, b"hello");
//! # let link = [b"\x12\x2b\x0a\x24", file.as_bytes(), b"\x12\x01a\x18\x05"].concat();
//! # let folder = [&link[..], b"\x0a\x02\x08\x01"].concat();
//! # let root = Cid::of_block(DAG_PB, &folder);
//! # let mut car = CarWriter::new(Vec::new(), &[root])?;
//! # car.write(&root, &folder)?;
//! # car.write(&file, b"hello")?;
//! # let car = car.into_inner();
//!
//! let car = CarReader::new(&car[..])?;
//! let root = car.roots()[0];
//! let blocks: HashMap<_, _> = car.collect::<Result<_, _>>()?;
//! let get = |cid: &Cid| Ok(blocks.get(cid));
//!
//! for entry in Folder::new(get, &root) {
//!     println!("{}", entry?.name);
//! }
//! let mut text = String::new();
//! FileReader::new(get, &resolve(get, &root, "a")?).read_to_string(&mut text)?;
//! assert_eq!(text, "hello");
//! # Ok::<(), Box<dyn std::error::Error>>(())
//! ```
//!
//! A block may be of any type that borrows as bytes, such as `Vec<u8>`, `&[u8]` or `Arc<[u8]>`.

use std::io::{self, BufRead, ErrorKind, Read, Seek, SeekFrom};
use std::iter::FusedIterator;
use std::time::{Duration, SystemTime, UNIX_EPOCH};
use std::{error, fmt};

use kombilad_sys as sys;

use crate::cid::Cid;
use crate::error::{Error, FileError, UnixfsError};
use crate::ffi::{self, FolderBlocks, FolderEntries, Found, NodeRecord, Walk};

pub use crate::packer::{PackError, PackOptions, Packed, Packer};

/// An error of reading a file or a folder.
///
/// [`FileReader`] returns it in an [`io::Error`] of the kind `NotFound` if a block is missing,
/// `OutOfMemory` if an allocation fails, and otherwise `InvalidData`. To get it back, downcast what
/// [`io::Error::get_ref`] returns. The error of a source stays as it is.
#[derive(Debug)]
#[non_exhaustive]
pub enum ReadError {
    /// The source failed.
    Io(io::Error),
    /// The source doesn't have a block.
    MissingBlock {
        /// The CID of the block.
        cid: Cid,
    },
    /// A block is not the one of its CID, is invalid, or exceeds a limit, or an allocation failed.
    Block {
        /// The CID of the block.
        cid: Cid,
        /// The error.
        error: Error,
    },
    /// A folder has no entry with the last name of a path.
    MissingEntry {
        /// The CID of the folder.
        folder: Cid,
        /// The path that was given, up to the missing name.
        path: String,
    },
}

impl fmt::Display for ReadError {
    fn fmt(&self, f: &mut fmt::Formatter<'_>) -> fmt::Result {
        match self {
            ReadError::Io(error) => error.fmt(f),
            ReadError::MissingBlock { cid } => write!(f, "the block {cid} is missing"),
            ReadError::Block { cid, error } => write!(f, "{error}, in block {cid}"),
            ReadError::MissingEntry { folder, path } => {
                write!(f, "the folder {folder} has no entry for the path {path:?}")
            }
        }
    }
}

impl error::Error for ReadError {
    fn source(&self) -> Option<&(dyn error::Error + 'static)> {
        match self {
            ReadError::Io(error) => Some(error),
            ReadError::Block { error, .. } => Some(error),
            _ => None,
        }
    }
}

impl From<io::Error> for ReadError {
    fn from(error: io::Error) -> Self {
        ReadError::Io(error)
    }
}

impl From<ReadError> for io::Error {
    fn from(error: ReadError) -> Self {
        let kind = match error {
            ReadError::Io(error) => return error,
            ReadError::MissingBlock { .. } | ReadError::MissingEntry { .. } => ErrorKind::NotFound,
            ReadError::Block { error: Error::OutOfMemory, .. } => ErrorKind::OutOfMemory,
            ReadError::Block { .. } => ErrorKind::InvalidData,
        };
        io::Error::new(kind, error)
    }
}

/// A block: that of a source, or the one that a CID has in itself.
enum Block<B> {
    Found(B),
    Inside(Cid),
}

impl<B: AsRef<[u8]>> AsRef<[u8]> for Block<B> {
    fn as_ref(&self) -> &[u8] {
        match self {
            Block::Found(block) => block.as_ref(),
            Block::Inside(cid) => cid.digest(),
        }
    }
}

/// The code of the hash function identity.
const IDENTITY: u64 = 0;

/// Returns the block of a CID.
fn fetch<G, B>(get: &mut G, cid: &Cid) -> Result<Block<B>, ReadError>
where
    G: FnMut(&Cid) -> io::Result<Option<B>>,
{
    if cid.hash_code() == IDENTITY {
        return Ok(Block::Inside(*cid));
    }
    get(cid)?.map(Block::Found).ok_or(ReadError::MissingBlock { cid: *cid })
}

/// Returns the error of a call about this block.
fn at(cid: Cid) -> impl Fn(ffi::Stopped) -> ReadError {
    move |stopped| ReadError::Block { cid, error: Error::of_unixfs(stopped) }
}

/// Gets the block that the walk wants next, and passes it to `take`. Returns whether there was one.
fn step<G, B>(
    get: &mut G,
    root: &Cid,
    walk: &mut Walk,
    take: impl FnOnce(&mut Walk, &[u8]) -> Result<(), ffi::Stopped>,
) -> Result<bool, ReadError>
where
    G: FnMut(&Cid) -> io::Result<Option<B>>,
    B: AsRef<[u8]>,
{
    let cid = match walk.wanted().map_err(at(*root))? {
        Some(cid) => cid,
        None => return Ok(false),
    };
    let block = fetch(get, &cid)?;
    take(walk, block.as_ref()).map_err(at(cid))?;
    Ok(true)
}

/// Limits for untrusted files. A file of 1 TiB in chunks of 256 KiB, with 174 links in a block, has
/// about 4,200,000 blocks in four levels, and fewer than 1,000 of them wait.
#[derive(Clone, Copy, Debug, PartialEq, Eq)]
pub struct FileLimits {
    /// The maximum number of bytes.
    pub bytes: u64,
    /// The maximum number of blocks. A block that is linked twice counts twice.
    pub blocks: u64,
    /// The maximum number of blocks that wait to be read while another is read. Each takes about
    /// 100 bytes of memory. Those before a seek's position count too.
    pub waiting: usize,
    /// The maximum number of levels of blocks below the root.
    pub levels: usize,
}

impl Default for FileLimits {
    /// Returns limits of 2^24 blocks, 2^18 blocks that wait, 64 levels and any number of bytes.
    fn default() -> Self {
        FileLimits {
            bytes: u64::MAX,
            blocks: sys::KOMBILAD_FILE_BLOCKS,
            waiting: sys::KOMBILAD_FILE_WAITING,
            levels: sys::KOMBILAD_FILE_LEVELS,
        }
    }
}

/// Reads the bytes of a file, block by block. It buffers the bytes of one block, so it needs no
/// other buffer.
///
/// ```
/// use std::io::{Read, Seek, SeekFrom};
///
/// use kombilad::unixfs::FileReader;
/// use kombilad::{Cid, RAW};
///
/// let cid = Cid::of_block(RAW, b"hello");
/// let mut file = FileReader::new(|_| Ok(Some("hello")), &cid);
/// let mut end = String::new();
/// file.seek(SeekFrom::End(-2))?;
/// file.read_to_string(&mut end)?;
/// assert_eq!((end.as_str(), file.size()?), ("lo", Some(5)));
/// # Ok::<(), std::io::Error>(())
/// ```
///
/// All bytes that it returns are those of the file at their positions, and each size in a block is
/// compared with them. After a seek, only the blocks that lead to the next bytes are asked for and
/// verified. A seek within the buffered bytes asks for none. A read at the end of the file or after
/// it returns no bytes.
///
/// # Errors
///
/// Each call that asks for a block returns the [`io::Error`] of the source, or a [`ReadError`] in
/// one. The position stays as it is, and the next read asks for the same block again.
#[derive(Debug)]
pub struct FileReader<G> {
    get: G,
    root: Cid,
    limits: FileLimits,
    /// The walk that continues after `part`, or `None` before it begins there.
    walk: Option<Walk>,
    /// The bytes of the block that was read last.
    part: Vec<u8>,
    /// The position of the first byte of `part` in the file.
    begin: u64,
    /// The index in `part` of the next byte.
    at: usize,
    /// The size, after it was read from the root.
    size: Option<Option<u64>>,
}

impl<G, B> FileReader<G>
where
    G: FnMut(&Cid) -> io::Result<Option<B>>,
    B: AsRef<[u8]>,
{
    /// Creates a reader of the file of a CID. It asks for no block yet.
    pub fn new(get: G, cid: &Cid) -> Self {
        FileReader {
            get,
            root: *cid,
            limits: FileLimits::default(),
            walk: None,
            part: Vec::new(),
            begin: 0,
            at: 0,
            size: None,
        }
    }

    /// Sets the limits. They are on the blocks and bytes from the last seek on.
    ///
    /// ```
    /// use std::io::Read;
    ///
    /// use kombilad::unixfs::{FileLimits, FileReader, ReadError};
    /// use kombilad::{Cid, Error, FileError, RAW};
    ///
    /// let cid = Cid::of_block(RAW, b"hello");
    /// let limits = FileLimits { bytes: 4, ..FileLimits::default() };
    /// let mut file = FileReader::new(|_| Ok(Some("hello")), &cid).with_limits(limits);
    /// let error = file.read(&mut [0; 10]).unwrap_err();
    /// assert!(matches!(
    ///     error.get_ref().and_then(|error| error.downcast_ref()),
    ///     Some(ReadError::Block { error: Error::File(FileError::TooLarge), .. })
    /// ));
    /// ```
    #[must_use]
    pub fn with_limits(mut self, limits: FileLimits) -> Self {
        self.limits = limits;
        self.walk = None;
        self
    }

    /// Returns the number of bytes of the file by its root, or `None` if that is 2^64 or more. The
    /// first call asks for the root.
    ///
    /// # Errors
    ///
    /// Those of [`FileReader`], with [`FileError::NotFile`] for a folder, a symbolic link and
    /// metadata.
    pub fn size(&mut self) -> io::Result<Option<u64>> {
        if let Some(size) = self.size {
            return Ok(size);
        }
        let block = fetch(&mut self.get, &self.root)?;
        let size = match Node::read(&self.root, block.as_ref()) {
            Ok(Node { kind: NodeKind::File | NodeKind::Raw, size, .. }) => Ok(size),
            Ok(_) => Err(Error::File(FileError::NotFile)),
            Err(error) => Err(error),
        };
        let size = size.map_err(|error| ReadError::Block { cid: self.root, error })?;
        self.size = Some(size);
        Ok(size)
    }

    fn position(&self) -> u64 {
        self.begin + self.at as u64
    }

    /// Moves to a position outside of `part`.
    fn leave(&mut self, position: u64) {
        self.begin = position;
        self.at = 0;
        self.part.clear();
    }

    /// Reads the next blocks, until one has bytes or the file ends.
    fn read_part(&mut self) -> Result<(), ReadError> {
        self.leave(self.position());
        let walk = match &mut self.walk {
            Some(walk) => walk,
            none => {
                let walk = Walk::of_file(&self.root, self.begin, &self.limits);
                none.insert(walk.map_err(at(self.root))?)
            }
        };
        let mut more = true;
        while more && self.part.is_empty() {
            let part = &mut self.part;
            more =
                step(&mut self.get, &self.root, walk, |walk, block| walk.take_bytes(block, part))?;
        }
        Ok(())
    }
}

impl<G, B> Read for FileReader<G>
where
    G: FnMut(&Cid) -> io::Result<Option<B>>,
    B: AsRef<[u8]>,
{
    fn read(&mut self, into: &mut [u8]) -> io::Result<usize> {
        if into.is_empty() {
            return Ok(0);
        }
        let count = self.fill_buf()?.read(into)?;
        self.consume(count);
        Ok(count)
    }
}

impl<G, B> BufRead for FileReader<G>
where
    G: FnMut(&Cid) -> io::Result<Option<B>>,
    B: AsRef<[u8]>,
{
    fn fill_buf(&mut self) -> io::Result<&[u8]> {
        if self.at == self.part.len() {
            self.read_part()?;
        }
        Ok(&self.part[self.at..])
    }

    fn consume(&mut self, count: usize) {
        self.at += count.min(self.part.len() - self.at);
    }
}

impl<G, B> Seek for FileReader<G>
where
    G: FnMut(&Cid) -> io::Result<Option<B>>,
    B: AsRef<[u8]>,
{
    /// Moves to a position, also one after the end.
    ///
    /// # Errors
    ///
    /// `InvalidInput` for a position below 0 or of 2^64 or more. From the end also those of
    /// [`FileReader::size`], and `Unsupported` if the file has 2^64 bytes or more. The position stays
    /// as it is.
    fn seek(&mut self, to: SeekFrom) -> io::Result<u64> {
        let (from, by) = match to {
            SeekFrom::Start(position) => (position, 0),
            SeekFrom::Current(by) => (self.position(), by),
            SeekFrom::End(by) => match self.size()? {
                Some(size) => (size, by),
                None => {
                    let error = "the file has 2^64 bytes or more";
                    return Err(io::Error::new(ErrorKind::Unsupported, error));
                }
            },
        };
        let position = match by {
            0.. => from.checked_add(by.unsigned_abs()),
            _ => from.checked_sub(by.unsigned_abs()),
        };
        let position = position.ok_or_else(|| {
            io::Error::new(ErrorKind::InvalidInput, "a position must be from 0 to 2^64 - 1")
        })?;
        let at = position.checked_sub(self.begin).and_then(|at| usize::try_from(at).ok());
        match at {
            Some(at) if at <= self.part.len() => self.at = at,
            _ => {
                self.leave(position);
                self.walk = None;
            }
        }
        Ok(position)
    }
}

/// An entry of a folder.
#[derive(Clone, Debug, PartialEq, Eq)]
pub struct FolderEntry {
    /// The name. It is not empty, `.` or `..`, and has no `/` and no zero byte. It may have any
    /// other characters, such as `\` and those that move the cursor of a terminal.
    pub name: String,
    /// The CID of the file, the folder or the symbolic link.
    pub cid: Cid,
    /// The size that the link states of its block and all blocks below it, or `None` if it states
    /// none. It is not checked.
    pub tsize: Option<u64>,
}

/// Lists the entries of a folder, plain or sharded.
///
/// A plain folder is one block. A sharded one is listed shard by shard: first the entries that a
/// shard itself has, and then those of the shards below it, in the order of the slots. A shard is
/// asked for only after all entries before it. It buffers the entries of one block, and up to about
/// 2,000 CIDs. A sharded folder can have any number of entries: [`take`](Iterator::take) as many as
/// you want.
///
/// # Errors
///
/// After an error it ends. All entries before the error are those of the folder.
#[derive(Debug)]
pub struct Folder<G> {
    get: G,
    root: Cid,
    /// The walk, or `None` before it begins.
    walk: Option<Walk>,
    /// The entries of the block that was read last.
    part: FolderEntries,
    /// The index in `part` of the next entry.
    at: usize,
    done: bool,
}

impl<G, B> Folder<G>
where
    G: FnMut(&Cid) -> io::Result<Option<B>>,
    B: AsRef<[u8]>,
{
    /// Creates a list of the entries in the folder of a CID. It asks for no block yet.
    pub fn new(get: G, cid: &Cid) -> Self {
        Folder { get, root: *cid, walk: None, part: FolderEntries::default(), at: 0, done: false }
    }

    /// Reads the next block, and returns whether there was one.
    fn read_part(&mut self) -> Result<bool, ReadError> {
        let walk = match &mut self.walk {
            Some(walk) => walk,
            none => none.insert(Walk::of_folder(&self.root).map_err(at(self.root))?),
        };
        let part = &mut self.part;
        step(&mut self.get, &self.root, walk, |walk, block| walk.take_entries(block, part))
    }
}

impl<G, B> FusedIterator for Folder<G>
where
    G: FnMut(&Cid) -> io::Result<Option<B>>,
    B: AsRef<[u8]>,
{
}

impl<G, B> Iterator for Folder<G>
where
    G: FnMut(&Cid) -> io::Result<Option<B>>,
    B: AsRef<[u8]>,
{
    type Item = Result<FolderEntry, ReadError>;

    fn next(&mut self) -> Option<Self::Item> {
        while !self.done {
            if let Some((name, cid, tsize)) = self.part.get(self.at) {
                self.at += 1;
                return Some(Ok(FolderEntry { name: name.to_owned(), cid, tsize }));
            }
            let found = self.read_part();
            self.at = 0;
            self.done = !matches!(found, Ok(true));
            if let Err(error) = found {
                return Some(Err(error));
            }
        }
        None
    }
}

/// Returns the CID of the entry with this name in a folder, or `None` if there is none.
fn look_up<G, B>(get: &mut G, folder: &Cid, name: &str) -> Result<Option<Cid>, ReadError>
where
    G: FnMut(&Cid) -> io::Result<Option<B>>,
    B: AsRef<[u8]>,
{
    let (mut blocks, mut last) = (FolderBlocks::default(), *folder);
    loop {
        match blocks.look_up(folder, name).map_err(at(last))? {
            Found::Entry(cid) => return Ok(Some(cid)),
            Found::Missing => return Ok(None),
            Found::More(cid) => last = cid,
        }
        let block = fetch(get, &last)?;
        blocks.push(block.as_ref()).map_err(at(last))?;
    }
}

/// Returns the CID to which a path leads from a folder. Names are separated by `/`, and empty ones
/// are skipped, so the path `""` leads to the folder itself.
///
/// Each folder may be plain or sharded. In a sharded one only the shards that lead to the name are
/// asked for. A symbolic link isn't followed: it may be at the end of the path. The names `.` and
/// `..` are like any other, and no folder has them.
///
/// # Errors
///
/// [`ReadError::MissingEntry`] if a folder doesn't have the next name, [`ReadError::MissingBlock`]
/// if the source doesn't have a block, and [`ReadError::Io`] if it fails. Otherwise
/// [`ReadError::Block`], for example with [`FolderError::NotFolder`](crate::FolderError::NotFolder)
/// if a name leads to a file, and more names follow.
pub fn resolve<G, B>(mut get: G, folder: &Cid, path: &str) -> Result<Cid, ReadError>
where
    G: FnMut(&Cid) -> io::Result<Option<B>>,
    B: AsRef<[u8]>,
{
    let (mut cid, mut end) = (*folder, 0);
    for name in path.split('/') {
        end += name.len();
        if !name.is_empty() {
            cid = look_up(&mut get, &cid, name)?.ok_or_else(|| ReadError::MissingEntry {
                folder: cid,
                path: path[..end].to_owned(),
            })?;
        }
        end += 1;
    }
    Ok(cid)
}

/// The kind of a node.
#[derive(Clone, Copy, Debug, PartialEq, Eq, Hash)]
pub enum NodeKind {
    /// Bytes of a file: a raw block, or a leaf of an old writer.
    Raw,
    /// A plain folder.
    Folder,
    /// A file.
    File,
    /// Metadata of a file.
    Metadata,
    /// A symbolic link.
    Symlink,
    /// A sharded folder, or a part of one.
    Shard,
}

/// What a block says of a file, a folder or a symbolic link.
///
/// ```
/// use kombilad::unixfs::{Node, NodeKind};
/// use kombilad::{Cid, DAG_PB};
///
/// let block = b"\x0a\x06\x08\x04\x12\x02..";
/// let node = Node::read(&Cid::of_block(DAG_PB, block), block)?;
/// assert_eq!((node.kind, node.target.as_deref()), (NodeKind::Symlink, Some(&b".."[..])));
/// # Ok::<(), kombilad::Error>(())
/// ```
#[derive(Clone, Debug, PartialEq, Eq)]
pub struct Node {
    /// The kind.
    pub kind: NodeKind,
    /// The number of bytes of a file, by the block. It is `None` if that is 2^64 or more, and for
    /// other kinds. Only reading the file compares it with the bytes.
    pub size: Option<u64>,
    /// The permissions, as chmod has them in its low twelve bits.
    pub mode: Option<u32>,
    /// The time when the content was last changed: the seconds since the beginning of 1970 in UTC,
    /// and the nanoseconds after these seconds, at most 999,999,999.
    pub mtime: Option<(i64, u32)>,
    /// The target of a symbolic link, and `None` for other kinds. It is not checked:
    /// see [`symlink_stays_inside`].
    pub target: Option<Vec<u8>>,
}

impl Node {
    /// Verifies the block of a CID, and reads it. A raw block is a file of its bytes.
    ///
    /// # Errors
    ///
    /// [`Error::WrongDigest`] and [`Error::UnknownHash`] if the block is not verified,
    /// [`Error::Pb`] if it is not a node of DAG-PB, [`Error::Unixfs`] if its data are not a message
    /// of UnixFS, and [`Error::OutOfMemory`] if an allocation fails. Also [`Error::File`], with
    /// [`FileError::Codec`] if the codec is neither raw nor dag-pb, and [`FileError::NoData`] if
    /// the node has no data.
    pub fn read(cid: &Cid, block: &[u8]) -> Result<Self, Error> {
        let (record, target) = ffi::unixfs_node(cid, block).map_err(Error::of_unixfs)?;
        let NodeRecord { fields, size, mode, seconds, nanoseconds, .. } = record;
        let kind = match record.kind {
            sys::KOMBILAD_NODE_RAW => NodeKind::Raw,
            sys::KOMBILAD_NODE_FOLDER => NodeKind::Folder,
            sys::KOMBILAD_NODE_FILE => NodeKind::File,
            sys::KOMBILAD_NODE_METADATA => NodeKind::Metadata,
            sys::KOMBILAD_NODE_SYMLINK => NodeKind::Symlink,
            sys::KOMBILAD_NODE_SHARD => NodeKind::Shard,
            _ => return Err(Error::Unixfs { error: UnixfsError::UnknownType, offset: 0 }),
        };
        Ok(Node {
            kind,
            size: (fields & sys::KOMBILAD_NODE_SIZE != 0).then_some(size),
            mode: (fields & sys::KOMBILAD_NODE_MODE != 0).then_some(mode),
            mtime: (fields & sys::KOMBILAD_NODE_TIME != 0).then_some((seconds, nanoseconds)),
            target: (kind == NodeKind::Symlink).then_some(target),
        })
    }

    /// Returns the time when the content was last changed, or `None` if the node has none, or it is
    /// out of range for a [`SystemTime`].
    pub fn modified(&self) -> Option<SystemTime> {
        let (seconds, nanoseconds) = self.mtime?;
        let distance = Duration::from_secs(seconds.unsigned_abs());
        let time = match seconds {
            0.. => UNIX_EPOCH.checked_add(distance),
            _ => UNIX_EPOCH.checked_sub(distance),
        };
        time?.checked_add(Duration::new(0, nanoseconds))
    }
}

/// Returns true if a symbolic link with this target leads to nothing outside of a folder, if it is
/// in a folder `depth` levels below that one, and none of the folders between them is a link. That
/// is so if the target is UTF-8 and relative, and has `..` only before all names, at most `depth`
/// times.
///
/// ```
/// use kombilad::unixfs::symlink_stays_inside;
///
/// assert!(symlink_stays_inside(b"../a", 1));
/// assert!(!symlink_stays_inside(b"../a", 0));
/// ```
pub fn symlink_stays_inside(target: &[u8], depth: usize) -> bool {
    ffi::symlink_stays_inside(target, depth)
}

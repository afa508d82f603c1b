//! Tests of files and folders of UnixFS. Small blocks are written by hand from the specifications.
//! Others are from the file that the variable `UNIXFS` names, which `bindings/test/unixfs_cases.py`
//! wrote. If it isn't set, they are not tested.

mod made;

use std::cell::{Cell, RefCell};
use std::error::Error as _;
use std::fmt::Debug;
use std::io::{self, BufRead, ErrorKind, Read, Seek, SeekFrom};
use std::panic::{self, AssertUnwindSafe};
use std::sync::Arc;
use std::time::{Duration, UNIX_EPOCH};

use kombilad::unixfs::{
    resolve, symlink_stays_inside, FileLimits, FileReader, Folder, FolderEntry, Node, NodeKind,
    ReadError,
};
use kombilad::{
    CarReader, CarWriter, Cid, Error, FileError, FolderError, PbError, UnixfsError, DAG_CBOR,
    DAG_PB, RAW,
};

use made::{field, file_of, kept, node, varint, Blocks};

const LEAVES: [&[u8]; 3] = [b"hello", b", ", b"world!"];

/// Adds a file of two levels with these leaves, which are raw blocks.
fn file(blocks: &mut Blocks, leaves: &[&[u8]]) -> Cid {
    let parts: Vec<_> =
        leaves.iter().map(|leaf| (kept(blocks, RAW, leaf.to_vec()), leaf.len() as u64)).collect();
    file_of(blocks, &parts)
}

/// Returns the blocks of a folder, and its CID. It has the file `a` of three leaves, the folder `b`
/// with a raw file `c`, and the symbolic link `d`.
fn tree() -> (Blocks, Cid) {
    let mut blocks = Blocks::new();
    let a = file(&mut blocks, &LEAVES);
    let c = kept(&mut blocks, RAW, b"deep".to_vec());
    let b = node(&mut blocks, &[("c", c)], b"\x08\x01");
    let d = node(&mut blocks, &[], b"\x08\x04\x12\x01a");
    let root = node(&mut blocks, &[("a", a), ("b", b), ("d", d)], b"\x08\x01");
    (blocks, root)
}

fn cid_at(blocks: &Blocks, root: &Cid, path: &str) -> Cid {
    resolve(|cid| Ok(blocks.get(cid)), root, path).unwrap()
}

/// Returns what an error of a file has in it.
fn inner(error: &io::Error) -> &ReadError {
    error.get_ref().and_then(|error| error.downcast_ref()).unwrap()
}

/// Returns the CID and the error of a block that isn't taken.
fn refused(error: &ReadError) -> (Cid, Error) {
    match error {
        ReadError::Block { cid, error } => (*cid, *error),
        other => panic!("{other:?}"),
    }
}

fn names<B: AsRef<[u8]>>(get: impl FnMut(&Cid) -> io::Result<Option<B>>, cid: &Cid) -> Vec<String> {
    Folder::new(get, cid).map(|entry| entry.unwrap().name).collect()
}

#[test]
fn a_tree_is_read() {
    let (blocks, root) = tree();
    let get = |cid: &Cid| Ok(blocks.get(cid));
    assert_eq!(names(get, &root), ["a", "b", "d"]);
    let c = cid_at(&blocks, &root, "b/c");
    let entries: Vec<_> =
        Folder::new(get, &cid_at(&blocks, &root, "b")).map(Result::unwrap).collect();
    assert_eq!(entries, [FolderEntry { name: "c".into(), cid: c, tsize: Some(7) }]);
    for (path, content) in [("a", "hello, world!"), ("b/c", "deep"), ("/b//c/", "deep")] {
        let mut text = String::new();
        let mut file = FileReader::new(get, &cid_at(&blocks, &root, path));
        assert_eq!(file.size().unwrap(), Some(content.len() as u64));
        file.read_to_string(&mut text).unwrap();
        assert_eq!(text, content);
    }
    assert_eq!(cid_at(&blocks, &root, ""), root);
    assert_eq!(cid_at(&blocks, &root, "///"), root);
    let bare = field(2, &field(1, c.as_bytes()));
    let named = field(2, &[field(1, c.as_bytes()), field(2, "é".as_bytes())].concat());
    let block = [named, b"\x0a\x02\x08\x01".to_vec()].concat();
    let mut list = Folder::new(|_| Ok(Some(&block)), &Cid::of_block(DAG_PB, &block));
    let entry = FolderEntry { name: "é".into(), cid: c, tsize: None };
    assert_eq!(list.next().unwrap().unwrap(), entry);
    assert!(list.next().is_none());
    let block = [bare, b"\x0a\x02\x08\x01".to_vec()].concat();
    let cid = Cid::of_block(DAG_PB, &block);
    let error = Folder::new(|_| Ok(Some(&block)), &cid).next().unwrap().unwrap_err();
    assert_eq!(refused(&error), (cid, Error::Folder(FolderError::InvalidName(0))));
}

#[test]
fn blocks_of_any_type_and_a_car_are_sources() {
    let cid = Cid::of_block(RAW, b"hello");
    fn text<B: AsRef<[u8]>>(get: impl FnMut(&Cid) -> io::Result<Option<B>>, cid: &Cid) -> String {
        let mut text = String::new();
        FileReader::new(get, cid).read_to_string(&mut text).unwrap();
        text
    }
    let shared: Arc<[u8]> = Arc::from(&b"hello"[..]);
    assert_eq!(text(|_| Ok(Some(shared.clone())), &cid), "hello");
    assert_eq!(text(|_| Ok(Some(b"hello".to_vec())), &cid), "hello");
    assert_eq!(text(|_| Ok(Some(*b"hello")), &cid), "hello");
    // Of a CID that has its block in itself the source isn't asked.
    let inside = Cid::try_from(&b"\x01\x55\x00\x06inside"[..]).unwrap();
    assert_eq!(text(|_| -> io::Result<Option<&[u8]>> { unreachable!() }, &inside), "inside");
    let mut car = CarWriter::new(Vec::new(), &[cid]).unwrap();
    car.write(&cid, b"hello").unwrap();
    let bytes = car.into_inner();
    let mut car = CarReader::new(&bytes[..]).unwrap();
    let get = |wanted: &Cid| {
        let section =
            car.next().unwrap().map_err(|error| io::Error::new(ErrorKind::Other, error))?;
        Ok((section.0 == *wanted).then_some(section.1))
    };
    assert_eq!(text(get, &cid), "hello");
}

#[test]
fn seeks_ask_only_for_the_blocks_that_lead_there() {
    let mut blocks = Blocks::new();
    let root = file(&mut blocks, &LEAVES);
    let leaves = LEAVES.map(|leaf| Cid::of_block(RAW, leaf));
    let asked = RefCell::new(Vec::new());
    let mut file = FileReader::new(
        |cid: &Cid| {
            asked.borrow_mut().push(*cid);
            Ok(blocks.get(cid))
        },
        &root,
    );
    let mut one = [0];
    assert_eq!(file.seek(SeekFrom::Start(8)).unwrap(), 8);
    assert!(asked.take().is_empty());
    file.read_exact(&mut one).unwrap();
    assert_eq!((one, asked.take()), (*b"o", vec![root, leaves[2]]));
    // Within the bytes that are buffered.
    for (to, position, byte) in [(-1, 8, b'o'), (3, 12, b'!'), (-5, 8, b'o'), (0, 9, b'r')] {
        assert_eq!(file.seek(SeekFrom::Current(to)).unwrap(), position);
        file.read_exact(&mut one).unwrap();
        assert_eq!(one, [byte]);
    }
    assert_eq!(file.stream_position().unwrap(), 10);
    assert!(asked.take().is_empty());
    assert_eq!(file.seek(SeekFrom::Start(7)).unwrap(), 7);
    file.read_exact(&mut one).unwrap();
    assert_eq!((one, asked.take()), (*b"w", vec![root, leaves[2]]));
    assert_eq!(file.seek(SeekFrom::End(-13)).unwrap(), 0);
    assert_eq!((file.size().unwrap(), asked.take()), (Some(13), vec![root]));
    let mut all = Vec::new();
    file.read_to_end(&mut all).unwrap();
    assert_eq!((&all[..], asked.take()), (&b"hello, world!"[..], [&[root], &leaves[..]].concat()));
    assert_eq!(file.read(&mut one).unwrap(), 0);
    assert!(asked.take().is_empty());
    // An empty buffer needs no block.
    let mut file = FileReader::new(|_| Err::<Option<&[u8]>, _>(ErrorKind::Other.into()), &root);
    assert_eq!(file.read(&mut []).unwrap(), 0);
}

#[test]
fn seeks_fail_and_leave_the_position() {
    let mut blocks = Blocks::new();
    let root = file(&mut blocks, &LEAVES);
    // The root of one states no size, and the links of the other state 2^64 bytes.
    let unstated = node(&mut blocks, &[], b"\x08\x02\x12\x03abc");
    let half = [&b"\x20"[..], &varint(1 << 63)].concat();
    let too_large = node(&mut blocks, &[], &[b"\x08\x02", &half[..], &half].concat());
    let mut file = FileReader::new(|cid| Ok(blocks.get(cid)), &root);
    file.seek(SeekFrom::Start(4)).unwrap();
    for to in [SeekFrom::Current(-5), SeekFrom::End(-14), SeekFrom::Current(i64::MIN)] {
        assert_eq!(file.seek(to).unwrap_err().kind(), ErrorKind::InvalidInput);
    }
    let mut byte = [0];
    file.read_exact(&mut byte).unwrap();
    assert_eq!(&byte, b"o");
    for position in [13, 14, u64::MAX] {
        assert_eq!(file.seek(SeekFrom::Start(position)).unwrap(), position);
        assert_eq!(file.read(&mut byte).unwrap(), 0);
        assert_eq!(file.read(&mut byte).unwrap(), 0);
    }
    assert_eq!(file.seek(SeekFrom::Current(1)).unwrap_err().kind(), ErrorKind::InvalidInput);
    assert_eq!(file.seek(SeekFrom::End(-1)).unwrap(), 12);
    file.read_exact(&mut byte).unwrap();
    assert_eq!(&byte, b"!");
    let mut file = FileReader::new(|cid| Ok(blocks.get(cid)), &unstated);
    assert_eq!(file.seek(SeekFrom::End(-2)).unwrap(), 1);
    let mut text = String::new();
    file.read_to_string(&mut text).unwrap();
    assert_eq!((&text[..], file.size().unwrap()), ("bc", Some(3)));
    let mut file = FileReader::new(|cid| Ok(blocks.get(cid)), &too_large);
    assert_eq!(file.size().unwrap(), None);
    assert_eq!(file.seek(SeekFrom::End(0)).unwrap_err().kind(), ErrorKind::Unsupported);
}

#[test]
fn a_missing_entry_has_its_folder_and_path() {
    let (blocks, root) = tree();
    let get = |cid: &Cid| Ok(blocks.get(cid));
    let b = cid_at(&blocks, &root, "b");
    for (path, folder, missing) in [
        ("x", root, "x"),
        ("b/x", b, "b/x"),
        ("/b//x/c", b, "/b//x"),
        ("b/..", b, "b/.."),
        (".", root, "."),
        ("b/c\0", b, "b/c\0"),
    ] {
        match resolve(get, &root, path) {
            Err(ReadError::MissingEntry { folder: at, path }) => {
                assert_eq!((at, &path[..]), (folder, missing));
            }
            other => panic!("{other:?}"),
        }
    }
    let error = resolve(get, &root, "b/\n").unwrap_err();
    assert_eq!(error.to_string(), format!("the folder {b} has no entry for the path \"b/\\n\""));
    assert_eq!(io::Error::from(error).kind(), ErrorKind::NotFound);
    // Files and symbolic links are not folders.
    for path in ["a", "d"] {
        let error = resolve(get, &root, &format!("{path}/x")).unwrap_err();
        let error = refused(&error);
        assert_eq!(error, (cid_at(&blocks, &root, path), Error::Folder(FolderError::NotFolder)));
    }
    let error = refused(&resolve(get, &root, "b/c/x").unwrap_err());
    assert_eq!(error, (cid_at(&blocks, &root, "b/c"), Error::Folder(FolderError::Codec)));
}

#[test]
fn errors_of_a_source_are_passed_on() {
    let (blocks, root) = tree();
    let cid = cid_at(&blocks, &root, "a");
    let leaf = Cid::of_block(RAW, LEAVES[1]);
    let fails = Cell::new(true);
    let get = |cid: &Cid| match (*cid == leaf, fails.get()) {
        (true, true) => Err(io::Error::new(ErrorKind::ConnectionReset, "no network")),
        _ => Ok(blocks.get(cid)),
    };
    let mut file = FileReader::new(get, &cid);
    let mut read = Vec::new();
    let error = file.read_to_end(&mut read).unwrap_err();
    assert_eq!((error.kind(), &error.to_string()[..]), (ErrorKind::ConnectionReset, "no network"));
    assert_eq!((&read[..], file.stream_position().unwrap()), (&b"hello"[..], 5));
    // The same block is asked for again.
    fails.set(false);
    file.read_to_end(&mut read).unwrap();
    assert_eq!(read, b"hello, world!");
    // An interrupted source is asked again at once.
    let mut count = 0;
    let mut file = FileReader::new(
        |cid: &Cid| {
            count += 1;
            if count % 2 == 1 {
                return Err(ErrorKind::Interrupted.into());
            }
            Ok(blocks.get(cid))
        },
        &cid,
    );
    read.clear();
    file.read_to_end(&mut read).unwrap();
    assert_eq!(read, b"hello, world!");

    let fails = |_: &Cid| Err::<Option<Vec<u8>>, _>(io::Error::from(ErrorKind::TimedOut));
    let error = resolve(fails, &root, "a").unwrap_err();
    assert!(error.source().is_some());
    assert!(matches!(error, ReadError::Io(error) if error.kind() == ErrorKind::TimedOut));
    let mut folder = Folder::new(fails, &root);
    assert!(matches!(folder.next(), Some(Err(ReadError::Io(_)))));
    assert!(folder.next().is_none() && folder.next().is_none());
    assert_eq!(FileReader::new(fails, &root).size().unwrap_err().kind(), ErrorKind::TimedOut);
    assert_eq!(resolve(fails, &root, "/").unwrap(), root);
}

#[test]
fn a_missing_block_is_named() {
    let (mut blocks, root) = tree();
    let (a, leaf) = (cid_at(&blocks, &root, "a"), Cid::of_block(RAW, LEAVES[2]));
    blocks.remove(&leaf);
    let mut read = Vec::new();
    let mut file = FileReader::new(|cid| Ok(blocks.get(cid)), &a);
    for _ in 0..2 {
        let error = file.read_to_end(&mut read).unwrap_err();
        assert_eq!(error.kind(), ErrorKind::NotFound);
        assert_eq!(error.to_string(), format!("the block {leaf} is missing"));
        assert!(matches!(inner(&error), ReadError::MissingBlock { cid } if *cid == leaf));
    }
    assert_eq!(read, b"hello, ");
    blocks.clear();
    let get = |cid: &Cid| Ok(blocks.get(cid));
    let is_root =
        |error: ReadError| matches!(error, ReadError::MissingBlock { cid } if cid == root);
    assert!(is_root(resolve(get, &root, "b/c").unwrap_err()));
    assert!(is_root(Folder::new(get, &root).next().unwrap().unwrap_err()));
    let error = FileReader::new(get, &root).size().unwrap_err();
    assert!(matches!(inner(&error), ReadError::MissingBlock { cid } if *cid == root));
}

/// Returns other bytes than those of a block: cut, longer, with one bit changed, none, and many.
fn lies(block: &[u8]) -> Vec<Vec<u8>> {
    let mut changed = block.to_vec();
    changed[block.len() / 2] ^= 1;
    let cut = block[..block.len() - 1].to_vec();
    vec![cut, [block, b"\0"].concat(), changed, Vec::new(), vec![0x12; 3 << 20]]
}

#[test]
fn a_wrong_block_is_refused() {
    let (blocks, root) = tree();
    let a = cid_at(&blocks, &root, "a");
    for (wrong, block) in &blocks {
        for lie in lies(block) {
            let honest = Cell::new(false);
            let get = |cid: &Cid| match cid == wrong && !honest.get() {
                true => Ok(Some(&lie)),
                false => Ok(blocks.get(cid)),
            };
            let expected = (*wrong, Error::WrongDigest);
            for path in ["a", "b/c"] {
                if let Err(error) = resolve(get, &root, path) {
                    assert_eq!(refused(&error), expected);
                    let text =
                        format!("the digest of the block is not that of the CID, in block {wrong}");
                    assert_eq!(error.to_string(), text);
                }
            }
            if let Some(Err(error)) = Folder::new(get, &root).next() {
                assert_eq!((refused(&error), *wrong), (expected, root));
            } else {
                assert_ne!(*wrong, root);
            }
            let mut read = Vec::new();
            let mut file = FileReader::new(get, &a);
            if let Err(error) = file.read_to_end(&mut read) {
                assert_eq!(error.kind(), ErrorKind::InvalidData);
                assert_eq!(refused(inner(&error)), expected);
                assert!(b"hello, world!".starts_with(&read) && read.len() < 13);
                // The walk still wants the block.
                honest.set(true);
                file.read_to_end(&mut read).unwrap();
            }
            assert_eq!(read, b"hello, world!");
        }
    }
    // Another valid block.
    let other = blocks[&root].clone();
    let error = FileReader::new(|_| Ok(Some(&other)), &a).read(&mut [0]).unwrap_err();
    assert_eq!(refused(inner(&error)), (a, Error::WrongDigest));
    let unknown = Cid::try_from(&b"\x01\x55\x11\x02hi"[..]).unwrap();
    let error = FileReader::new(|_| Ok(Some("hi")), &unknown).read(&mut [0]).unwrap_err();
    assert_eq!(refused(inner(&error)), (unknown, Error::UnknownHash));
}

#[test]
fn a_source_may_panic() {
    let (blocks, root) = tree();
    let a = cid_at(&blocks, &root, "a");
    let leaf = Cid::of_block(RAW, LEAVES[1]);
    let fails = Cell::new(true);
    let get = |cid: &Cid| {
        assert!(*cid != leaf && *cid != root || !fails.get(), "the source panics");
        Ok(blocks.get(cid))
    };
    let (mut file, mut folder) = (FileReader::new(get, &a), Folder::new(get, &root));
    let mut read = [0; 13];
    file.read_exact(&mut read[..5]).unwrap();
    let hook = panic::take_hook();
    panic::set_hook(Box::new(|_| ()));
    let panicked = [
        panic::catch_unwind(AssertUnwindSafe(|| file.read(&mut read[5..]).is_ok())).is_err(),
        panic::catch_unwind(AssertUnwindSafe(|| folder.next().is_some())).is_err(),
    ];
    panic::set_hook(hook);
    assert_eq!(panicked, [true; 2]);
    fails.set(false);
    file.read_exact(&mut read[5..]).unwrap();
    assert_eq!(&read, b"hello, world!");
    assert_eq!(folder.count(), 3);
}

#[test]
fn limits_of_files() {
    let mut blocks = Blocks::new();
    let root = file(&mut blocks, &LEAVES);
    let exact = FileLimits { bytes: 13, blocks: 4, waiting: 3, levels: 1 };
    let error = |limits| {
        let mut file = FileReader::new(|cid| Ok(blocks.get(cid)), &root).with_limits(limits);
        let mut read = Vec::new();
        let error = file.read_to_end(&mut read).err();
        assert!(b"hello, world!".starts_with(&read));
        error.map(|error| match refused(inner(&error)).1 {
            Error::File(error) => error,
            other => panic!("{other:?}"),
        })
    };
    assert_eq!(error(exact), None);
    assert_eq!(error(FileLimits::default()), None);
    assert_eq!(error(FileLimits { bytes: 12, ..exact }), Some(FileError::TooLarge));
    assert_eq!(error(FileLimits { blocks: 3, ..exact }), Some(FileError::TooManyBlocks));
    assert_eq!(error(FileLimits { waiting: 1, ..exact }), Some(FileError::TooManyParts));
    assert_eq!(error(FileLimits { levels: 0, ..exact }), Some(FileError::TooDeep));
    // They are on what follows a seek, and may be changed while reading.
    let limits = FileLimits { bytes: 6, blocks: 2, waiting: 3, levels: 1 };
    let mut file = FileReader::new(|cid| Ok(blocks.get(cid)), &root).with_limits(limits);
    file.seek(SeekFrom::Start(7)).unwrap();
    let mut read = String::new();
    file.read_to_string(&mut read).unwrap();
    assert_eq!(read, "world!");
    file.seek(SeekFrom::Start(1)).unwrap();
    assert_eq!(refused(inner(&file.read(&mut [0]).unwrap_err())).0, root);
    let mut file = file.with_limits(exact);
    file.read_exact(&mut [0; 2]).unwrap();
    let mut file = file.with_limits(FileLimits { bytes: 8, ..exact });
    read.clear();
    file.read_to_string(&mut read).unwrap();
    assert_eq!(read, "lo, world!");
}

#[test]
fn nodes_are_read() {
    let (blocks, root) = tree();
    let of = |path: &str| {
        let cid = cid_at(&blocks, &root, path);
        Node::read(&cid, &blocks[&cid]).unwrap()
    };
    let plain = Node { kind: NodeKind::Folder, size: None, mode: None, mtime: None, target: None };
    assert_eq!(of(""), plain);
    assert_eq!(of("a"), Node { kind: NodeKind::File, size: Some(13), ..plain.clone() });
    assert_eq!(of("b/c"), Node { kind: NodeKind::Raw, size: Some(4), ..plain.clone() });
    let target = Some(b"a".to_vec());
    assert_eq!(of("d"), Node { kind: NodeKind::Symlink, target, ..plain.clone() });
    assert_eq!(plain.modified(), None);

    let mut blocks = Blocks::new();
    let mut time = |message: &[u8]| {
        let message = [b"\x08\x02\x38\xa4\x03", &field(8, message)[..]].concat();
        let cid = node(&mut blocks, &[], &message);
        let node = Node::read(&cid, &blocks[&cid]).unwrap();
        assert_eq!((node.mode, node.size), (Some(0o644), Some(0)));
        (node.mtime.unwrap(), node.modified())
    };
    let after = UNIX_EPOCH + Duration::new(1, 2);
    assert_eq!(time(b"\x08\x01\x15\x02\0\0\0"), ((1, 2), Some(after)));
    assert_eq!(time(b"\x08\0"), ((0, 0), Some(UNIX_EPOCH)));
    let before = UNIX_EPOCH - Duration::new(1, 0) + Duration::new(0, 999_999_999);
    let minus_one = [&b"\x08"[..], &varint(u64::MAX), b"\x15\xff\xc9\x9a\x3b"].concat();
    assert_eq!(time(&minus_one), ((-1, 999_999_999), Some(before)));
    let least = [&b"\x08"[..], &varint(1 << 63)].concat();
    assert_eq!(time(&least).0, (i64::MIN, 0));

    let error = |codec, block: &[u8]| Node::read(&Cid::of_block(codec, block), block).unwrap_err();
    assert_eq!(error(DAG_CBOR, b"\xa0"), Error::File(FileError::Codec));
    assert_eq!(error(DAG_PB, b""), Error::File(FileError::NoData));
    assert_eq!(error(DAG_PB, b"\x18\0"), Error::Pb { error: PbError::UnknownField, offset: 0 });
    let unixfs = Error::Unixfs { error: UnixfsError::UnknownType, offset: 0 };
    assert_eq!(error(DAG_PB, b"\x0a\x02\x08\x06"), unixfs);
    assert_eq!(Node::read(&root, b""), Err(Error::WrongDigest));
    let unixfs = error(DAG_PB, b"\x0a\x04\x08\x02\x18");
    assert_eq!(unixfs, Error::Pb { error: PbError::End, offset: 0 });
    let unixfs = error(DAG_PB, b"\x0a\x03\x08\x02\x18");
    assert_eq!(unixfs, Error::Unixfs { error: UnixfsError::End, offset: 2 });
    assert_eq!(
        unixfs.to_string(),
        "the data of the node end within a field, at byte 2 of the data"
    );
}

#[test]
fn targets_of_symbolic_links() {
    for (target, depth, inside) in [
        (&b"a/b"[..], 0, true),
        (b"../../a", 2, true),
        (b"../../a", 1, false),
        (b"a/../b", 9, false),
        (b"/a", 9, false),
        (b"a\xff", 9, false),
    ] {
        assert_eq!(symlink_stays_inside(target, depth), inside, "{target:?} {depth}");
    }
}

#[test]
fn folders_and_metadata_have_no_size() {
    let (blocks, root) = tree();
    for path in ["", "b", "d"] {
        let cid = cid_at(&blocks, &root, path);
        let mut file = FileReader::new(|cid| Ok(blocks.get(cid)), &cid);
        let expected = (cid, Error::File(FileError::NotFile));
        assert_eq!(refused(inner(&file.size().unwrap_err())), expected);
        assert_eq!(refused(inner(&file.seek(SeekFrom::End(0)).unwrap_err())), expected);
        assert_eq!(refused(inner(&file.read(&mut [0]).unwrap_err())), expected);
    }
}

#[test]
fn readers_move_between_threads() {
    fn is_send<T: Send + Sync>(it: T) -> T {
        it
    }
    let (blocks, root) = tree();
    let a = cid_at(&blocks, &root, "a");
    let (get, mut read) = (|cid: &Cid| Ok(blocks.get(cid)), [0; 13]);
    let (mut file, mut folder) =
        (is_send(FileReader::new(get, &a)), is_send(Folder::new(get, &root)));
    file.read_exact(&mut read[..6]).unwrap();
    assert_eq!(folder.next().unwrap().unwrap().name, "a");
    std::thread::scope(|scope| {
        scope.spawn(|| file.read_exact(&mut read[6..]).unwrap());
        scope.spawn(|| assert_eq!(folder.count(), 2));
    });
    assert_eq!(&read, b"hello, world!");
    is_send::<Option<ReadError>>(None);
}

// What an independent writer makes, as an independent reader reads it.

fn from_hex(text: &str) -> Vec<u8> {
    (0..text.len() / 2)
        .map(|at| u8::from_str_radix(&text[2 * at..2 * at + 2], 16).unwrap())
        .collect()
}

fn cid(text: &str) -> Cid {
    Cid::try_from(from_hex(text)).unwrap()
}

fn text(hex: &str) -> String {
    String::from_utf8(from_hex(hex)).unwrap()
}

fn number<T: std::str::FromStr>(word: &str) -> Option<T>
where
    T::Err: Debug,
{
    (word != "-").then(|| word.parse().unwrap())
}

/// Calls a function with all blocks and the words of each line of a kind.
fn each_case(kind: &str, mut check: impl FnMut(&Blocks, &[&str])) {
    let file = match std::env::var_os("UNIXFS") {
        Some(path) => std::fs::read_to_string(path).unwrap(),
        None => return,
    };
    let (mut blocks, mut count) = (Blocks::new(), 0);
    for line in file.lines() {
        let words: Vec<&str> = line.split(' ').collect();
        if words[0] == "block" {
            blocks.insert(cid(words[1]), from_hex(words[2]));
        } else if words[0] == kind {
            check(&blocks, &words[1..]);
            count += 1;
        }
    }
    assert_ne!(count, 0);
}

#[test]
fn files_have_their_bytes() {
    each_case("file", |blocks, words| {
        let (root, content) = (cid(words[0]), from_hex(words[1]));
        let get = |cid: &Cid| Ok(blocks.get(cid));
        let mut read = Vec::new();
        FileReader::new(get, &root).read_to_end(&mut read).unwrap();
        assert!(read == content, "{root}");
        let (mut file, mut pieces) = (FileReader::new(get, &root), 0);
        loop {
            let piece = file.fill_buf().unwrap();
            if piece.is_empty() {
                break;
            }
            assert_eq!(piece, &content[pieces..pieces + piece.len()]);
            // More than there is.
            let count = piece.len();
            file.consume(count + 1);
            pieces += count;
        }
        assert_eq!(pieces, content.len());
        let mut file = FileReader::new(get, &root);
        if let Some(size) = file.size().unwrap() {
            assert_eq!(size, content.len() as u64);
        }
        // Few bytes at a time, at many places, in no order.
        let (mut seed, mut buffer) = (1u64, [0; 70]);
        for _ in 0..200 {
            seed = seed.wrapping_mul(6364136223846793005).wrapping_add(1442695040888963407);
            let start = (seed >> 33) as usize % (content.len() + 2);
            let end = content.len().min(start + (seed >> 20) as usize % 70);
            let expected = content.get(start..end).unwrap_or_default();
            file.seek(SeekFrom::Start(start as u64)).unwrap();
            file.read_exact(&mut buffer[..expected.len()]).unwrap();
            assert_eq!(&buffer[..expected.len()], expected);
        }
    });
}

#[test]
fn ranges_ask_only_for_their_blocks() {
    each_case("range", |blocks, words| {
        let (root, start): (_, u64) = (cid(words[0]), words[1].parse().unwrap());
        let mut asked = Vec::new();
        let mut file = FileReader::new(
            |cid: &Cid| {
                asked.push(*cid);
                Ok(blocks.get(cid))
            },
            &root,
        );
        file.seek(SeekFrom::Start(start)).unwrap();
        file.read_exact(&mut [0]).unwrap();
        let expected: Vec<Cid> = words[2..].iter().map(|word| cid(word)).collect();
        assert_eq!(asked, expected, "{root} {start}");
    });
}

#[test]
fn folders_have_their_entries() {
    each_case("folder", |blocks, words| {
        let (root, count): (_, usize) = (cid(words[0]), words[1].parse().unwrap());
        let asked = Cell::new(0);
        let get = |cid: &Cid| {
            asked.set(asked.get() + 1);
            Ok(blocks.get(cid))
        };
        let found: Vec<FolderEntry> = Folder::new(get, &root).map(Result::unwrap).collect();
        assert_eq!(asked.take(), count);
        let expected: Vec<FolderEntry> = words[2..]
            .chunks(3)
            .map(|entry| FolderEntry {
                name: text(entry[0]),
                cid: cid(entry[1]),
                tsize: number(entry[2]),
            })
            .collect();
        assert_eq!(found, expected);
        // Blocks after those of the first entry are not asked for.
        let first = Folder::new(get, &root).next().map(Result::unwrap);
        assert_eq!(first.as_ref(), expected.first());
        assert!(asked.get() <= count);
        // Without one of its blocks, the entries before it are listed, and then an error comes.
        for left in 0..count.min(4) {
            let asked = Cell::new(0);
            let get = |cid: &Cid| {
                asked.set(asked.get() + 1);
                Ok(blocks.get(cid).filter(|_| asked.get() <= left))
            };
            let mut listed: Vec<_> = Folder::new(get, &root).collect();
            assert!(matches!(listed.pop(), Some(Err(ReadError::MissingBlock { .. }))));
            let listed: Vec<_> = listed.into_iter().map(Result::unwrap).collect();
            assert!(expected.starts_with(&listed));
        }
    });
}

#[test]
fn paths_lead_to_their_targets() {
    each_case("path", |blocks, words| {
        let mut asked = Vec::new();
        let get = |cid: &Cid| {
            asked.push(*cid);
            Ok(blocks.get(cid))
        };
        let found = resolve(get, &cid(words[0]), &text(words[1])).unwrap();
        assert_eq!(found, cid(words[2]));
        let expected: Vec<Cid> = words[3..].iter().map(|word| cid(word)).collect();
        assert_eq!(asked, expected);
    });
    each_case("missing", |blocks, words| {
        let path = text(words[1]);
        let error = resolve(|it| Ok(blocks.get(it)), &cid(words[0]), &(path.clone() + "/x"));
        match error {
            Err(ReadError::MissingEntry { folder, path: to }) => {
                assert_eq!((folder, to), (cid(words[2]), path));
            }
            other => panic!("{other:?}"),
        }
    });
}

#[test]
fn nodes_have_their_fields() {
    each_case("node", |blocks, words| {
        let cid = cid(words[0]);
        let node = Node::read(&cid, &blocks[&cid]).unwrap();
        let kinds = [
            NodeKind::Raw,
            NodeKind::Folder,
            NodeKind::File,
            NodeKind::Metadata,
            NodeKind::Symlink,
            NodeKind::Shard,
        ];
        let kind = kinds[words[1].parse::<usize>().unwrap()];
        let expected = Node {
            kind,
            size: number(words[2]),
            mode: number(words[3]),
            mtime: number(words[4]).map(|seconds| (seconds, words[5].parse().unwrap())),
            target: (kind == NodeKind::Symlink).then(|| from_hex(words[6])),
        };
        assert_eq!(node, expected, "{cid}");
    });
}

/// Returns the names that an error may have for the fault that the independent reader finds.
fn variants(fault: &str) -> &'static [&'static str] {
    match fault {
        "SizeCount" => &["File(SizeCount)"],
        "Filesize" => &["File(Size)"],
        "Size" => &["File(TooLarge)"],
        "WrongSize" => &["File(PartSize)"],
        "NotAFile" => &["File(NotFile)"],
        "NoData" => &["File(NoData)"],
        "Type" => &["Unixfs { error: UnknownType", "Unixfs { error: NoType"],
        "Mode" => &["Unixfs { error: ModeTooLarge"],
        "Time" => &["Unixfs { error: Nanoseconds"],
        "FieldOrder" => &["Unixfs { error: FieldOrder", "Unixfs { error: NoType"],
        "UnknownField" => &["Unixfs { error: UnknownField"],
        "End" => &["Unixfs { error: End"],
        "Varint" => &["Unixfs { error: VarintTooLarge"],
        "NotAFolder" => &["Folder(NotFolder)"],
        "InvalidName" => &["Folder(InvalidName("],
        "NameOrder" => &["Folder(NameOrder("],
        "Utf8" => &["Pb { error: Utf8"],
        "ShardKind" => &["Folder(HashFunction)", "Folder(Fanout)"],
        "BitField" => &["Folder(BitField)"],
        "Slot" => &["Folder(InvalidSlot(", "Folder(SlotOrder("],
        // The slot is not in the bit field either.
        "WrongSlot" => &["Folder(WrongSlot(", "Folder(BitField)"],
        other => panic!("{other}"),
    }
}

#[test]
fn faults_are_found() {
    let check = |found: &ReadError, words: &[&str]| {
        let (at, error) = refused(found);
        assert_eq!(at, cid(words[2]), "{words:?}");
        let told = format!("{error:?}");
        assert!(variants(words[1]).iter().any(|it| told.starts_with(it)), "{words:?}: {told}");
        assert!(!error.to_string().is_empty() && found.to_string().contains(&at.to_string()));
    };
    each_case("bad-file", |blocks, words| {
        let mut file = FileReader::new(|cid| Ok(blocks.get(cid)), &cid(words[0]));
        let (first, second) = (file.read_to_end(&mut Vec::new()), file.read(&mut [0]));
        check(inner(&first.unwrap_err()), words);
        check(inner(&second.unwrap_err()), words);
    });
    each_case("bad-folder", |blocks, words| {
        let get = |cid: &Cid| Ok(blocks.get(cid));
        let mut list = Folder::new(get, &cid(words[0]));
        check(&list.next().unwrap().unwrap_err(), words);
        assert!(list.next().is_none());
        check(&resolve(get, &cid(words[0]), "x").unwrap_err(), words);
    });
}

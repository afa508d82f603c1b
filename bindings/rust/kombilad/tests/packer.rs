//! Tests of files, folders and symbolic links that are packed.
//!
//! The CIDs of default layouts and of small chunks, symbolic links and folders with version 0 are
//! those of `ipfs add`. Others, the sizes, and the two names with one hash, were computed by the
//! writer of UnixFS in `tests/ipld` of the repository.

use std::cell::Cell;
use std::collections::{HashMap, HashSet};
use std::error::Error as _;
use std::fmt::Debug;
use std::io::{self, ErrorKind, Read};

use kombilad::unixfs::{
    resolve, FileReader, Folder, Node, NodeKind, PackError, PackOptions, Packed, Packer,
};
use kombilad::{CarReader, CarWriter, Cid, Version};

const LOREM: &[u8] = b"Lorem ipsum dolor sit amet, sit enim montes aliquam. Cras non lorem, \
rhoncus condimentum, irure et ante. Pulvinar suscipit odio ante, et tellus a enim, \
wisi ipsum, vel rhoncus eget faucibus varius, luctus turpis nibh vel odio nulla pede.";

type Blocks = Vec<(Cid, Vec<u8>)>;
type Put<'a> = &'a mut dyn FnMut(&Cid, &[u8]) -> io::Result<()>;

/// Packs by a function, and returns what it returns, with the blocks.
fn with_blocks<T>(
    options: PackOptions,
    pack: impl FnOnce(&mut Packer<Put>) -> Result<T, PackError>,
) -> (T, Blocks) {
    let mut blocks = Vec::new();
    let mut put = |cid: &Cid, block: &[u8]| {
        cid.verify(block).unwrap();
        blocks.push((*cid, block.to_vec()));
        Ok(())
    };
    let packed = pack(&mut Packer::new(&mut put as Put).with_options(options)).unwrap();
    (packed, blocks)
}

fn packed(
    options: PackOptions,
    pack: impl FnOnce(&mut Packer<Put>) -> Result<Packed, PackError>,
) -> Packed {
    with_blocks(options, pack).0
}

/// Returns the text of an error of packing.
fn refused(
    options: PackOptions,
    pack: impl FnOnce(&mut Packer<Put>) -> Result<Packed, PackError>,
) -> (PackError, String) {
    let mut put = |_: &Cid, _: &[u8]| -> io::Result<()> { panic!("a block is put") };
    let error = pack(&mut Packer::new(&mut put as Put).with_options(options)).unwrap_err();
    let text = error.to_string();
    (error, text)
}

fn default() -> PackOptions {
    PackOptions::default()
}

fn chunks_of(chunk_size: usize, links: usize) -> PackOptions {
    PackOptions { chunk_size, links, ..default() }
}

fn raw_leaves(chunk_size: usize, links: usize) -> PackOptions {
    PackOptions { version: Version::V1, raw_leaves: true, ..chunks_of(chunk_size, links) }
}

fn root(options: PackOptions, content: &[u8]) -> String {
    packed(options, |packer| packer.file(content, None, None)).cid.to_string()
}

/// Returns 70,000 bytes.
fn large() -> Vec<u8> {
    (0..70_000u32).map(|at| (at * 7 % 251) as u8).collect()
}

#[test]
fn files_have_the_roots_of_ipfs() {
    for (content, chunk, expected) in [
        (&b""[..], 262_144, "QmbFMke1KXqnYyBBWxB74N4c5SBnJMVAiMNRcGu6x1AwQH"),
        (b"hello world", 262_144, "Qmf412jQZiuVUtdgnB36FXFX7xg5V6KEbSJ4dpQuhkLyfD"),
        (b"foobar\n", 262_144, "QmRgutAxd8t7oGkSm4wmeuByG6M51wcTso6cubDdQtuEfL"),
        (b"foobar\n", 2, "QmRJHYTNvC3hmd9gJQARxLR1QMEincccBV53bBw524yyq6"),
        (LOREM, 1, "QmRQ6NZNUs4JrCT2y7tmCC1wUhjqYuTssB8VXbbN3rMffg"),
        (LOREM, 32, "QmYSLcVQqxKygiq7x9w1XGYxU29EShB8ZemiaQ8GAAw17h"),
        (&[0; 349], 2, "QmcHNWF1d56uCDSfJPA7t9fadZRV9we5HGSTGSmwuqmMP9"),
        (&[0; 174], 1, "QmdgQac8c6Bo3MP5bHAg2yQ25KebFUsmkZFvyByYzf8UCB"),
    ] {
        assert_eq!(root(chunks_of(chunk, 174), content), expected);
    }
    let none = packed(default(), |packer| packer.file(io::empty(), None, None));
    assert_eq!((none.size, none.total), (0, 6));
}

#[test]
fn other_layouts() {
    for (options, content, expected) in [
        (
            raw_leaves(262_144, 174),
            &b""[..],
            "bafkreihdwdcefgh4dqkjv67uzcmw7ojee6xedzdetojuzjevtenxquvyku",
        ),
        (
            raw_leaves(262_144, 174),
            b"hello world",
            "bafkreifzjut3te2nhyekklss27nh3k72ysco7y32koao5eei66wof36n5e",
        ),
        (
            raw_leaves(1, 2),
            b"12345678",
            "bafybeiggrspbevbe63o3hasedsmqmkc6zf7o5oz4467rvm54sk2v4ajode",
        ),
        (
            PackOptions { raw_leaves: false, ..raw_leaves(1, 3) },
            b"1234567890",
            "bafybeig4z3o5zuupkrmstafwzzhrvn2llsovt2nxoeksulazmn7hf55wry",
        ),
        (
            PackOptions { version: Version::V0, ..raw_leaves(2, 174) },
            b"foobar\n",
            "QmP1h7NSAhBDW2moahZxX5TMy7oVpqAxrLjxXhxwQk5EXU",
        ),
        (chunks_of(1, 174), &[0; 70_000], "QmX43vrW8tYsrsAGraYfN5HN9c8qk9f4jnEdvzvVrhY7qx"),
        (chunks_of(16, 3), &large(), "QmNjPxVThMX6WntJeERyy2VdvJc7jJsHxNidWHdn6cjmMT"),
        (
            raw_leaves(16, 3),
            &large(),
            "bafybeic4zo5m4bhi32ysu4sfycp4xrhinwexqgx52im7bmkiduflksuyyi",
        ),
    ] {
        assert_eq!(root(options, content), expected);
    }
    let (file, blocks) =
        with_blocks(chunks_of(16, 3), |packer| packer.file(&large()[..], None, None));
    assert_eq!((file.size, file.total, blocks.len()), (70_000, 410_835, 6569));
    assert_eq!(blocks.iter().collect::<HashSet<_>>().len(), 1003);
    assert_eq!(blocks.last().map(|(cid, _)| *cid), Some(file.cid));
    let file = packed(raw_leaves(1, 2), |packer| packer.file(&b"123456789"[..], None, None));
    let expected = "bafybeifp4suip7m3csqminzfsyg4a6meztrrzkliqpdpr3jzsmx2evsgna";
    assert_eq!((&file.cid.to_string()[..], file.size, file.total), (expected, 9, 953));
}

#[test]
fn roots_have_a_mode_and_a_time() {
    let file = |options, content, mode, mtime| {
        packed(options, |packer| packer.file(content, mode, mtime)).cid.to_string()
    };
    assert_eq!(
        file(chunks_of(2, 174), &b"foobar\n"[..], Some(0o644), Some((1_700_000_000, 123))),
        "QmRid8hfWKA9ktQLuS69EXzdddMxvhti5krCbRKpJdXpuA"
    );
    assert_eq!(
        file(default(), b"foobar\n", Some(0o644), Some((-1, 0))),
        "QmWEGtJK5wgBGahJG3UCgXksLJDNtC8uSADfYmugtNdsSV"
    );
    assert_eq!(
        file(raw_leaves(262_144, 174), b"foobar\n", Some(0o644), None),
        "bafybeih7opfpjeeprz6heblkylou64ygy3ks33l7hfzy6rql4zdhnqc4di"
    );
    assert_eq!(
        file(raw_leaves(1000, 3), &large(), Some(0o600), Some((-2, 5))),
        "bafybeieqq462pawhjjgg4eenihb3zb6sbcijwgwblp6ytexas6iugtuxiu"
    );
    let version_1 = PackOptions { version: Version::V1, ..default() };
    let folder = packed(version_1, |packer| packer.folder::<&str>([], Some(0o755), None));
    let expected = "bafybeibvjvylaiqr3dng5lcgfi4efjxiytcoodswp2m3dx5oyludj4orda";
    assert_eq!(folder.cid.to_string(), expected);
    let link = packed(version_1, |packer| packer.symlink("b", Some(0o777), Some((1, 0))));
    let expected = "bafybeihipvtykvgopjzt6kof5ojkbh7dnbimw6bpvhzoosnyxoqdjxcm4a";
    assert_eq!(link.cid.to_string(), expected);
}

#[test]
fn symlinks_and_folders_have_the_roots_of_ipfs() {
    let link = |target| packed(default(), |packer| packer.symlink(target, None, None));
    assert_eq!(link("foobar").cid.to_string(), "QmNgQEdXVdLw79nH2bnxLMxnyWMaXrijfqMTiDVat3iyuz");
    assert_eq!(link("b").cid.to_string(), "QmfLJN6HLyREnWr7QQNmgmuNziUhcbwUopkHQ8gD3pMfp6");
    let empty = |options| packed(options, |packer| packer.folder::<&str>([], None, None)).cid;
    assert_eq!(empty(default()).to_string(), "QmUNLLsPACCz1vLxQVkXqqLX5R1X345qqfHbsf67hvA3Nn");
    assert_eq!(
        empty(PackOptions { version: Version::V1, ..default() }).to_string(),
        "bafybeiczsscdsbs7ffqz55asqdf3smv6klcw3gofszvwlyarci47bgf354"
    );
    let folder = packed(default(), |packer| {
        let car = packer.file(&b"car\n"[..], None, None)?;
        let b = packer.folder([("car", car)], None, None)?;
        let a = packer.symlink("b", None, None)?;
        packer.folder([("b", b), ("a", a)], None, None)
    });
    assert_eq!(folder.cid.to_string(), "QmZDVQHwjHwA4SyzEDtJLNxmZeJVK1W8BWFAHV61x2Rs19");
    assert_eq!((folder.size, folder.total), (0, 158));
    let folder = packed(default(), |packer| {
        let file = packer.file(&b"foobar\n"[..], None, None)?;
        let inside = packer.folder(vec![("foobar", file)], None, None)?;
        let sharded = PackOptions { sharded_above: 0, ..default() };
        let entries = HashMap::from([("non_sharded_dir".to_owned(), inside)]);
        Packer::new(|_, _| Ok(())).with_options(sharded).folder(entries, None, None)
    });
    assert_eq!(folder.cid.to_string(), "QmQXUANxYGpkwMTWQUdZBPx9jqfFP7acNgL4FHRWkndKCe");
}

#[test]
fn a_folder_is_sharded_above_a_size() {
    let numbers = [16, 37, 58, 9, 38, 50, 49, 4, 25, 34, 41, 33, 17, 40, 3, 48];
    let names = numbers.map(|number| format!("long-named-file-{number:03}"));
    let empty = packed(default(), |packer| packer.file(io::empty(), None, None));
    // The names and the CIDs have 848 bytes.
    for (sharded_above, count) in [(848, 1), (847, 9)] {
        let options = PackOptions { sharded_above, ..default() };
        let entries = names.iter().map(|name| (name, empty));
        let (folder, blocks) = with_blocks(options, |packer| packer.folder(entries, None, None));
        assert_eq!((blocks.len(), blocks[0].0), (count, folder.cid));
        // The root comes first, and each shard before those below it.
        let mut rest = blocks.iter();
        let mut listed: Vec<_> =
            Folder::new(|_| Ok(rest.next().map(|(_, block)| block)), &folder.cid)
                .map(|entry| entry.unwrap().name)
                .collect();
        listed.sort();
        let mut sorted = names.to_vec();
        sorted.sort();
        assert_eq!(listed, sorted);
        if count == 9 {
            let expected = "QmZbFPTnDBMWbQ6iBxQAhuhLz8Nu9XptYS96e7cuf5wvbk";
            assert_eq!(folder.cid.to_string(), expected);
        }
    }
}

#[test]
fn large_folders() {
    let empty = packed(default(), |packer| packer.file(io::empty(), None, None));
    let entries = || (0..66_000).rev().map(|number| (format!("file {number}"), empty));
    let mut count = 0;
    let mut packer = Packer::new(|_, _| {
        count += 1;
        Ok(())
    });
    let folder = packer.folder(entries(), None, None).unwrap();
    assert_eq!(folder.cid.to_string(), "QmSAztQNpioWtkTTh5sfXBsbVt2cPyujPrZQuinbMp7uoV");
    assert_eq!((folder.total, count), (5_357_567, 17_859));
    let plain = PackOptions { sharded_above: u64::MAX, ..default() };
    let folder = packed(plain, |packer| packer.folder(entries(), None, None));
    assert_eq!(folder.cid.to_string(), "QmcC2NXehv37wewhee7M86WHuJTTUiZFHjMEhF2HHnRkbd");
    assert_eq!(folder.total, 3_816_894);
}

/// A source that returns few bytes at a time, and is interrupted between them.
struct Trickle<'a>(&'a [u8], usize);

impl Read for Trickle<'_> {
    fn read(&mut self, into: &mut [u8]) -> io::Result<usize> {
        self.1 += 1;
        if self.1 % 3 == 0 {
            return Err(ErrorKind::Interrupted.into());
        }
        let most = into.len().min(1 + self.1 * 97 % 50);
        self.0.read(&mut into[..most])
    }
}

#[test]
fn chunks_do_not_depend_on_the_pieces_of_a_source() {
    let content = large();
    for length in [0, 1, 15, 16, 17, 31, 32, 33, 48, 1000, 70_000] {
        let content = &content[..length];
        let (file, blocks) = with_blocks(raw_leaves(16, 174), |packer| {
            packer.file(Trickle(content, length), None, None)
        });
        let leaves: Vec<&[u8]> = blocks
            .iter()
            .filter(|(cid, _)| cid.codec() == kombilad::RAW)
            .map(|(_, block)| &block[..])
            .collect();
        let expected: Vec<&[u8]> = content.chunks(16).collect();
        assert_eq!(leaves, if length == 0 { vec![&b""[..]] } else { expected });
        assert_eq!(root(raw_leaves(16, 174), content), file.cid.to_string());
        assert_eq!(file.size, length as u64);
    }
    let file = packed(chunks_of(16, 3), |packer| packer.file(Trickle(&content, 0), None, None));
    assert_eq!(file.cid.to_string(), "QmNjPxVThMX6WntJeERyy2VdvJc7jJsHxNidWHdn6cjmMT");
}

#[test]
fn what_is_packed_is_read_back() {
    let content = large();
    for options in [chunks_of(1000, 3), raw_leaves(1000, 3)] {
        for sharded_above in [0, u64::MAX] {
            let options = PackOptions { sharded_above, ..options };
            let names = ["a b", "é", "日本", "x\u{1}y", "Z", "a"];
            let (root, blocks) = with_blocks(options, |packer| {
                let file = packer.file(&content[..], Some(0o640), Some((-7, 999_999_999)))?;
                let link = packer.symlink("../é", Some(0o777), Some((i64::MIN, 0)))?;
                let inside = packer.folder(names.map(|name| (name, file)), None, Some((9, 1)))?;
                packer.folder([("inside", inside), ("link", link)], Some(u32::MAX), None)
            });
            let mut car = CarWriter::new(Vec::new(), &[root.cid]).unwrap();
            blocks.iter().for_each(|(cid, block)| car.write(cid, block).unwrap());
            let car = car.into_inner();
            let car = CarReader::new(&car[..]).unwrap();
            assert_eq!(car.roots(), [root.cid]);
            let blocks: HashMap<_, _> = car.collect::<Result<_, _>>().unwrap();

            let get = |cid: &Cid| Ok(blocks.get(cid));
            let node = |path: &str| {
                let cid = resolve(get, &root.cid, path).unwrap();
                Node::read(&cid, &blocks[&cid]).unwrap()
            };
            let folder = if sharded_above == 0 { NodeKind::Shard } else { NodeKind::Folder };
            assert_eq!((node("").kind, node("").mode, node("").mtime), (folder, Some(!0), None));
            let inside = node("inside");
            assert_eq!((inside.kind, inside.mode, inside.mtime), (folder, None, Some((9, 1))));
            let link = node("link");
            assert_eq!((link.kind, link.mode), (NodeKind::Symlink, Some(0o777)));
            assert_eq!((link.mtime, link.target), (Some((i64::MIN, 0)), Some("../é".into())));
            let file = node("inside/é");
            assert_eq!((file.size, file.mode), (Some(70_000), Some(0o640)));
            assert_eq!(file.mtime, Some((-7, 999_999_999)));

            let inside = resolve(get, &root.cid, "inside").unwrap();
            let mut listed = HashSet::new();
            for entry in Folder::new(get, &inside).map(Result::unwrap) {
                let mut read = Vec::new();
                FileReader::new(get, &entry.cid).read_to_end(&mut read).unwrap();
                assert!(read == content);
                listed.insert(entry.name);
            }
            assert_eq!(listed, HashSet::from(names.map(str::to_owned)));
        }
    }
}

#[test]
fn options_modes_and_times_are_checked() {
    for size in [0, (1 << 26) + 1, usize::MAX] {
        let (error, text) = refused(chunks_of(size, 174), |packer| packer.file(Fails, None, None));
        assert!(matches!(error, PackError::ChunkSize(it) if it == size));
        let expected = format!("the chunk size must be from 1 to 67108864 bytes, not {size}");
        assert_eq!(text, expected);
    }
    let file = packed(chunks_of(1 << 26, 2), |packer| packer.file(&b"hello world"[..], None, None));
    assert_eq!(file.cid.to_string(), "Qmf412jQZiuVUtdgnB36FXFX7xg5V6KEbSJ4dpQuhkLyfD");
    for links in [0, 1] {
        let (error, text) = refused(chunks_of(9, links), |packer| packer.file(Fails, None, None));
        assert!(matches!(error, PackError::Links));
        assert_eq!(text, "a block above others needs room for at least two links");
    }
    for nanoseconds in [1_000_000_000, u32::MAX] {
        let time = Some((0, nanoseconds));
        for (error, text) in [
            refused(default(), |packer| packer.file(Fails, None, time)),
            refused(default(), |packer| packer.symlink("a", None, time)),
            refused(default(), |packer| packer.folder::<&str>([], None, time)),
        ] {
            assert!(matches!(error, PackError::Nanoseconds));
            assert_eq!(text, "the nanoseconds of the time are more than 999999999");
            assert_eq!(io::Error::from(error).kind(), ErrorKind::InvalidInput);
        }
    }
}

#[test]
fn names_are_checked() {
    let empty = packed(default(), |packer| packer.file(io::empty(), None, None));
    for sharded_above in [0, u64::MAX] {
        let options = PackOptions { sharded_above, ..default() };
        let folder = |names: &[&str]| {
            let entries: Vec<_> = names.iter().map(|name| (name, empty)).collect();
            refused(options, |packer| packer.folder(entries, None, None))
        };
        for invalid in ["", ".", "..", "a/b", "/", "b\0"] {
            let (error, text) = folder(&["z", invalid, "A"]);
            assert!(matches!(&error, PackError::InvalidName { name } if name == invalid));
            let expected = "the name of an entry is empty, . or .., or has a / or a zero byte";
            assert_eq!(text, format!("{expected}: {invalid:?}"));
        }
        let (error, text) = folder(&["b", "é", "a", "é"]);
        assert!(matches!(&error, PackError::DuplicateName { name } if name == "é"));
        assert_eq!(text, "two entries have the name \"é\": rename one of them");
        let error = io::Error::from(error);
        assert_eq!(error.kind(), ErrorKind::InvalidInput);
        assert!(error.get_ref().unwrap().is::<PackError>());
        let huge = Packed { total: u64::MAX, ..empty };
        let (error, text) =
            refused(options, |packer| packer.folder([("a", huge), ("b", empty)], None, None));
        assert!(matches!(error, PackError::TooLarge));
        assert_eq!(text, "the file or the folder has 2^64 bytes or more, with all its blocks");
    }
    let names = ["the first name: dpwkakja43xpjxjy", "the other name: f7WyyMIsI4bW37zX"];
    let entries = names.map(|name| (name, empty));
    let sharded = PackOptions { sharded_above: 0, ..default() };
    let (error, text) = refused(sharded, |packer| packer.folder(entries, None, None));
    assert!(matches!(error, PackError::SameHash));
    assert_eq!(text, "two names of a sharded folder have the same hash: rename one of them");
    packed(default(), |packer| packer.folder(entries, None, None));
}

/// A source that fails.
struct Fails;

impl Read for Fails {
    fn read(&mut self, _: &mut [u8]) -> io::Result<usize> {
        Err(io::Error::new(ErrorKind::ConnectionReset, Mine(5)))
    }
}

#[derive(Debug)]
struct Mine(u32);

impl std::fmt::Display for Mine {
    fn fmt(&self, f: &mut std::fmt::Formatter<'_>) -> std::fmt::Result {
        write!(f, "no. {}", self.0)
    }
}

impl std::error::Error for Mine {}

/// Checks that an error is the one of a source or of `put`, unchanged.
fn is_mine<T: Debug>(result: Result<T, PackError>) {
    let error = result.unwrap_err();
    assert_eq!(error.to_string(), "no. 5");
    assert!(error.source().unwrap().is::<io::Error>());
    let error = io::Error::from(error);
    assert_eq!(error.kind(), ErrorKind::ConnectionReset);
    assert_eq!(error.get_ref().and_then(|it| it.downcast_ref::<Mine>()).unwrap().0, 5);
}

#[test]
fn errors_of_a_source_and_of_put_are_passed_on() {
    let content = large();
    let expected = "QmNjPxVThMX6WntJeERyy2VdvJc7jJsHxNidWHdn6cjmMT";
    for count in [0_usize, 1, 2, 3, 4, 5, 100, 6568] {
        // How many blocks are put before `put` fails.
        let left = Cell::new(count);
        let mut packer = Packer::new(|_, _| {
            let error = || io::Error::new(ErrorKind::ConnectionReset, Mine(5));
            left.set(left.get().checked_sub(1).ok_or_else(error)?);
            Ok(())
        })
        .with_options(chunks_of(16, 3));
        is_mine(packer.file(&content[..], None, None));
        is_mine(packer.folder::<&str>([], None, None));
        is_mine(packer.symlink("a", None, None));
        left.set(usize::MAX);
        is_mine(packer.file((&content[..16 * count.min(9) + 7]).chain(Fails), None, None));
        assert_eq!(packer.file(&content[..], None, None).unwrap().cid.to_string(), expected);
    }
}

#[test]
fn packers_move_between_threads() {
    let mut packer = Packer::new(|_, _| Ok(())).with_options(chunks_of(16, 3));
    let cid = std::thread::spawn(move || packer.file(&large()[..], None, None).unwrap().cid);
    assert_eq!(cid.join().unwrap().to_string(), "QmNjPxVThMX6WntJeERyy2VdvJc7jJsHxNidWHdn6cjmMT");
}

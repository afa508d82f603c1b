//! Tests the memory of readers and packers of files and folders: nothing leaks, and it doesn't grow
//! with the file. It is that of the process, so all is one test. It is known only on Linux.

mod made;

use std::cell::Cell;
use std::fs;
use std::io::{self, Read, Seek, SeekFrom};

use kombilad::unixfs::{resolve, FileLimits, FileReader, Folder, PackOptions, Packed, Packer};
use kombilad::{Cid, RAW};

use made::{file_of, kept, node, Blocks};

/// Returns how many KiB of memory the process has now.
fn memory() -> Option<u64> {
    let status = fs::read_to_string("/proc/self/status").ok()?;
    let line = status.lines().find_map(|line| line.strip_prefix("VmRSS:"))?;
    line.trim().strip_suffix(" kB")?.parse().ok()
}

#[test]
fn memory_is_freed_and_does_not_grow_with_the_file() {
    let before_all = match memory() {
        Some(memory) => memory,
        None => return,
    };
    let mut blocks = Blocks::new();
    let leaf = kept(&mut blocks, RAW, vec![7; 4096]);
    let middle = file_of(&mut blocks, &[(leaf, 4096); 100]);
    let root = file_of(&mut blocks, &[(middle, 409_600); 100]);
    let names: Vec<String> = (100..400).map(|number| number.to_string()).collect();
    let links: Vec<_> = names.iter().map(|name| (&name[..], leaf)).collect();
    let folder = node(&mut blocks, &links, b"\x08\x01");
    let get = |cid: &Cid| Ok(blocks.get(cid));

    let mut copied = 0;
    let mut reader = FileReader::new(get, &root);
    let mut most = 0;
    let mut buffer = vec![0; 100_000];
    loop {
        match reader.read(&mut buffer).unwrap() {
            0 => break,
            count => copied += count,
        }
        if copied % (1 << 20) == 0 {
            most = most.max(memory().unwrap());
        }
    }
    assert_eq!(copied, 40_960_000);
    assert!(most > 0 && most < before_all + 8192, "{before_all} KiB, then {most} KiB");

    let most = Cell::new(0);
    let mut packer = Packer::new(|_, _| {
        most.set(memory().unwrap().max(most.get()));
        Ok(())
    });
    let file = packer.file(io::repeat(7).take(copied as u64), None, None).unwrap();
    assert_eq!(file.size, 40_960_000);
    let most = most.get();
    assert!(most > 0 && most < before_all + 8192, "{before_all} KiB, then {most} KiB");
    let left = Cell::new(0);
    let put = |_: &Cid, _: &[u8]| match left.get() {
        0 => Err(io::ErrorKind::Other.into()),
        count => {
            left.set(count - 1);
            Ok(())
        }
    };
    let options =
        PackOptions { chunk_size: 16_384, links: 2, sharded_above: 0, ..PackOptions::default() };
    let mut packer = Packer::new(put).with_options(options);
    let content = vec![7; 40_000];

    let wrong = |cid: &Cid| Ok(blocks.get(cid).map(|block| &block[1..]));
    let fails = |_: &Cid| Err::<Option<Vec<u8>>, _>(io::ErrorKind::Other.into());
    let mut before = 0;
    for round in 0..600 {
        if round == 100 {
            before = memory().unwrap();
        }
        // Walks that end in the middle, by a seek, by other limits, by an error or by a drop.
        let mut reader = FileReader::new(get, &root);
        reader.read_exact(&mut buffer[..10]).unwrap();
        reader.seek(SeekFrom::Start(30_000_000)).unwrap();
        reader.read_exact(&mut buffer[..10]).unwrap();
        let mut reader = reader.with_limits(FileLimits { blocks: 3, ..FileLimits::default() });
        reader.read_to_end(&mut Vec::new()).unwrap_err();
        FileReader::new(wrong, &root).read(&mut buffer).unwrap_err();
        FileReader::new(fails, &root).read(&mut buffer).unwrap_err();
        assert_eq!(Folder::new(get, &folder).take(7).filter(Result::is_ok).count(), 7);
        assert_eq!(Folder::new(get, &folder).count(), 300);
        assert_eq!(Folder::new(wrong, &folder).filter(Result::is_err).count(), 1);
        assert_eq!(Folder::new(fails, &folder).filter(Result::is_err).count(), 1);
        assert_eq!(resolve(get, &folder, "123").unwrap(), leaf);
        resolve(get, &folder, "99").unwrap_err();
        resolve(wrong, &folder, "99").unwrap_err();
        // Files and folders of which some blocks wait, all were put, or none is made.
        let packed = Packed { cid: leaf, size: 4096, total: 4096 };
        let entries = || names.iter().map(|name| (name, packed));
        for count in [0, 3, usize::MAX] {
            left.set(count);
            assert_eq!(packer.file(&content[..], None, None).is_ok(), count > 3);
            assert_eq!(packer.folder(entries(), None, None).is_ok(), count > 3);
        }
        assert!(packer.symlink("a", None, None).is_ok());
        packer.folder(entries().chain(entries()), None, None).unwrap_err();
    }
    // A walk that waits for a hundred blocks takes about 10 KiB.
    let after = memory().unwrap();
    assert!(after < before + 4096, "{before} KiB, then {after} KiB");
}

//! Tests of CAR files: written and read back, cut short, of version 2, from readers that return few
//! bytes at a time, and verified.

use std::collections::BTreeMap;
use std::io::{self, Cursor, ErrorKind, Read, Write};

use kombilad::{
    CarError, CarReadError, CarReader, CarWriter, Cid, CidError, Error, IndexedCarWriter, DAG_CBOR,
    RAW,
};

type Blocks = Vec<(Cid, Vec<u8>)>;

fn blocks() -> Blocks {
    let raw = [b"a block".to_vec(), Vec::new(), vec![7; 100_000]]
        .map(|block| (Cid::of_block(RAW, &block), block));
    let other = [b"\xa0".to_vec(), b"\x82\x01\x02".to_vec()]
        .map(|block| (Cid::of_block(DAG_CBOR, &block), block));
    let identity = Cid::try_from(&b"\x01\x55\0\x02hi"[..]).unwrap();
    raw.into_iter().chain(other).chain([(identity, b"hi".to_vec())]).collect()
}

fn written(roots: &[Cid], blocks: &[(Cid, Vec<u8>)]) -> Vec<u8> {
    let mut car = CarWriter::new(Vec::new(), roots).unwrap();
    blocks.iter().for_each(|(cid, block)| car.write(cid, block).unwrap());
    car.into_inner()
}

fn version_2(payload: &[u8], before: usize, size: usize, index: &[u8]) -> Vec<u8> {
    let begin = 51 + before;
    let numbers = [begin, size, if index.is_empty() { 0 } else { begin + size }];
    let numbers: Vec<u8> =
        numbers.iter().flat_map(|number| (*number as u64).to_le_bytes()).collect();
    [b"\x0a\xa1\x67version\x02", &[0; 16][..], &numbers, &vec![0; before], payload, index].concat()
}

fn read(reader: impl Read) -> Result<(u64, Vec<Cid>, Blocks), CarReadError> {
    let mut car = CarReader::new(reader)?;
    let found = car.by_ref().collect::<Result<_, _>>()?;
    Ok((car.version(), car.roots().to_vec(), found))
}

fn error(reader: impl Read) -> (CarError, usize) {
    match read(reader) {
        Err(CarReadError::Car(Error::Car { error, offset })) => (error, offset),
        other => panic!("{other:?}"),
    }
}

/// A reader that returns few bytes at a time, and is interrupted between them.
struct Trickle<'a>(&'a [u8], usize);

impl Read for Trickle<'_> {
    fn read(&mut self, into: &mut [u8]) -> io::Result<usize> {
        self.1 += 1;
        if self.1 % 3 == 0 {
            return Err(io::ErrorKind::Interrupted.into());
        }
        let most = into.len().min(1 + self.1 * 97 % 1000);
        self.0.read(&mut into[..most])
    }
}

#[test]
fn sections_round_trip() {
    let blocks = blocks();
    for count in [0, 1, 2, 5] {
        let roots: Vec<Cid> = blocks.iter().map(|(cid, _)| *cid).take(count).collect();
        let car = written(&roots, &blocks);
        let expected = (1, roots, blocks.clone());
        assert_eq!(read(&car[..]).unwrap(), expected);
        assert_eq!(read(Trickle(&car, 0)).unwrap(), expected);
    }
    let many = vec![blocks[0].0; 300];
    assert_eq!(read(&written(&many, &[])[..]).unwrap(), (1, many, Vec::new()));
    // The longest CID.
    let number = [&[0xff; 9][..], b"\x01"].concat();
    let cid = [b"\x01", &number[..], &number, b"\x40", &[7; 64]].concat();
    let cid = Cid::try_from(cid).unwrap();
    let (many, block) = (vec![cid; 300], (cid, b"hi".to_vec()));
    let car = written(&many, std::slice::from_ref(&block));
    assert_eq!(read(&car[..]).unwrap(), (1, many, vec![block]));
}

#[test]
fn bytes_are_those_of_the_specification() {
    let cid = Cid::of_block(DAG_CBOR, b"\xa0");
    let header =
        [b"\x3a\xa2\x65roots\x81\xd8\x2a\x58\x25\0", cid.as_bytes(), b"\x67version\x01"].concat();
    assert_eq!(written(&[cid], &[]), header);
    let block = vec![7; 100_000];
    let section = [b"\xc4\x8d\x06", cid.as_bytes(), &block].concat();
    assert_eq!(written(&[cid], &[(cid, block)]), [header, section].concat());
}

#[test]
fn errors_of_the_writer_come_through() {
    let (cid, mut room) = (Cid::of_block(DAG_CBOR, b"\xa0"), [0; 60]);
    assert_eq!(CarWriter::new(&mut room[..58], &[cid]).unwrap_err().kind(), ErrorKind::WriteZero);
    let mut car = CarWriter::new(&mut room[..], &[cid]).unwrap();
    assert_eq!(car.write(&cid, b"\xa0").unwrap_err().kind(), ErrorKind::WriteZero);
}

/// Returns the index of sections in the format MultihashIndexSorted. The digests of a hash function
/// all have the same length.
fn index_of(sections: &[(Cid, u64)]) -> Vec<u8> {
    let mut groups = BTreeMap::<u64, Vec<(&[u8], u64)>>::new();
    for (cid, offset) in sections.iter().filter(|(cid, _)| !cid.digest().is_empty()) {
        groups.entry(cid.hash_code()).or_default().push((cid.digest(), *offset));
    }
    let mut index = [&b"\x81\x08"[..], &(groups.len() as u32).to_le_bytes()].concat();
    for (code, mut rows) in groups {
        rows.sort_unstable();
        let width = rows[0].0.len() + 8;
        index.extend(code.to_le_bytes());
        index.extend(1u32.to_le_bytes());
        index.extend((width as u32).to_le_bytes());
        index.extend(((width * rows.len()) as u64).to_le_bytes());
        for (digest, offset) in rows {
            index.extend(digest);
            index.extend(offset.to_le_bytes());
        }
    }
    index
}

#[test]
fn version_2_is_written_with_an_index() {
    let empty = Cid::try_from(&b"\x01\x55\0\0"[..]).unwrap();
    for (count, is_full) in [(0, true), (5, true), (6, true), (7, false)] {
        let blocks: Blocks =
            blocks().into_iter().chain([(empty, Vec::new())]).take(count).collect();
        let roots: Vec<Cid> = blocks.iter().map(|(cid, _)| *cid).take(2).collect();
        let payload = written(&roots, &blocks);
        let sections: Vec<_> = (0..blocks.len())
            .map(|at| (blocks[at].0, written(&roots, &blocks[..at]).len() as u64))
            .collect();
        let mut file = Cursor::new(Vec::new());
        file.write_all(b"before").unwrap();
        let mut car = IndexedCarWriter::new(file, &roots).unwrap();
        blocks.iter().for_each(|(cid, block)| car.write(cid, block).unwrap());
        let mut file = car.finish().unwrap();
        file.write_all(b"behind").unwrap();
        let mut expected = version_2(&payload, 0, payload.len(), &index_of(&sections));
        expected[11] = if is_full { 0x80 } else { 0 };
        assert_eq!(file.into_inner(), [&b"before"[..], &expected, b"behind"].concat());
        assert_eq!(read(&expected[..]).unwrap(), (2, roots, blocks));
    }
}

#[test]
fn a_file_of_version_2_is_no_car_before_its_end() {
    let cid = Cid::of_block(RAW, b"a");
    let mut file = Cursor::new(Vec::new());
    let mut car = IndexedCarWriter::new(&mut file, &[cid]).unwrap();
    car.write(&cid, b"a").unwrap();
    drop(car);
    assert_eq!(file.get_ref()[..51], [0; 51]);
    // 51 bytes, the header of 59, the section of 38, and the index of 66.
    let sizes = [0, 50, 109, 130, 147, 200];
    for size in sizes {
        let mut room = vec![0; size];
        let mut file = Cursor::new(&mut room[..]);
        let made = IndexedCarWriter::new(&mut file, &[cid])
            .and_then(|mut car| car.write(&cid, b"a").map(|()| car))
            .and_then(|car| car.finish().map(drop));
        assert_eq!(made.unwrap_err().kind(), ErrorKind::WriteZero, "{size}");
    }
    let mut many = IndexedCarWriter::new(Cursor::new(Vec::new()), &[]).unwrap();
    let cids: Vec<Cid> = (0..70_000u32)
        .map(|number| {
            Cid::try_from([b"\x01\x55\0\x04", &number.to_le_bytes()[..]].concat()).unwrap()
        })
        .collect();
    cids.iter().for_each(|cid| many.write(cid, b"a").unwrap());
    let car = many.finish().unwrap().into_inner();
    // The header has 18 bytes, and a section 10.
    let sections: Vec<_> =
        (0..).step_by(10).map(|at| 18 + at).zip(&cids).map(|(at, cid)| (*cid, at)).collect();
    assert_eq!(car[51 + 18 + 10 * 70_000..], index_of(&sections));
}

#[test]
fn version_2_has_a_payload() {
    let blocks = blocks();
    let (payload, roots) = (written(&[], &blocks), Vec::new());
    for before in [0, 9, 70_000, 3_000_000] {
        let car = version_2(&payload, before, payload.len(), b"an index");
        assert_eq!(read(&car[..]).unwrap(), (2, roots.clone(), blocks.clone()));
        assert_eq!(
            error(&version_2(&payload, before, payload.len() + 1, b"")[..]).0,
            CarError::ShortPayload
        );
    }
    let without_last = payload.len() - 9;
    let shorter = version_2(&payload, 0, without_last, b"");
    assert_eq!(read(&shorter[..]).unwrap().2, blocks[..5]);
    assert_eq!(
        error(&version_2(&payload, 0, without_last + 1, b"")[..]),
        (CarError::UnexpectedEnd, 51 + without_last + 1)
    );
    let huge = version_2(
        &[&written(&[], &[])[..], b"\xff\xff\xff\xff\xff\xff\x7f"].concat(),
        0,
        1 << 40,
        b"",
    );
    assert_eq!(error(&huge[..]), (CarError::TooLong, 51 + written(&[], &[]).len()));
    let padded = version_2(&payload, 17 << 20, payload.len(), b"");
    assert_eq!(error(&padded[..]), (CarError::TooLong, 27));
}

#[test]
fn a_cut_is_an_error_but_between_sections() {
    let blocks: Blocks = blocks().into_iter().filter(|(_, block)| block.len() < 100).collect();
    let car = written(&[blocks[0].0], &blocks);
    let ends: Vec<usize> =
        (0..=blocks.len()).map(|count| written(&[blocks[0].0], &blocks[..count]).len()).collect();
    for length in 0..car.len() {
        let cut = &car[..length];
        match ends.iter().position(|end| *end == length) {
            Some(count) => assert_eq!(read(cut).unwrap().2, blocks[..count]),
            None => assert_eq!(error(cut), (CarError::UnexpectedEnd, length)),
        }
    }
}

#[test]
fn errors_have_names_and_offsets() {
    let header = written(&[], &[]);
    let after = |bytes: &[u8]| error(&[&header, bytes].concat()[..]);
    assert_eq!(error(&b"\0"[..]), (CarError::Empty, 0));
    assert_eq!(error(&b"\x01\x01"[..]), (CarError::NotAHeader, 1));
    assert_eq!(error(&b"\xff\xff\xff\x7f"[..]), (CarError::TooLong, 0));
    assert_eq!(after(b"\0"), (CarError::Empty, header.len()));
    assert_eq!(after(b"\x81\0"), (CarError::LengthNotShortest, header.len() + 1));
    assert_eq!(after(&[0xff; 11]), (CarError::LengthTooLarge, header.len() + 9));
    assert_eq!(after(b"\x01\0"), (CarError::Cid(CidError::ExplicitVersion0), header.len() + 1));
    assert_eq!(after(b"\xff\xff\xff\xff\x7f"), (CarError::TooLong, header.len()));
    let block = vec![0; 5000];
    let large = written(&[], &[(Cid::of_block(RAW, &block), block)]);
    let mut car = CarReader::new(&large[..]).unwrap().with_section_limit(5000);
    assert!(matches!(
        car.next_section(),
        Err(CarReadError::Car(Error::Car { error: CarError::TooLong, .. }))
    ));
    assert!(matches!(car.next_section(), Ok(None)));
}

struct Fails;

impl Read for Fails {
    fn read(&mut self, _: &mut [u8]) -> io::Result<usize> {
        Err(io::ErrorKind::ConnectionReset.into())
    }
}

#[test]
fn errors_of_the_reader_come_through() {
    assert!(
        matches!(CarReader::new(Fails), Err(CarReadError::Io(error)) if error.kind() == io::ErrorKind::ConnectionReset)
    );
    let car = written(&[], &blocks());
    let mut reader = CarReader::new((&car[..200]).chain(Fails));
    assert!(
        matches!(&reader, Err(CarReadError::Io(_)))
            || reader.as_mut().unwrap().any(|section| section.is_err())
    );
}

/// A reader that must not be read after its last byte, since a pipe that stays open would block. It
/// returns at most as many bytes at a time as the number.
struct StaysOpen<'a>(&'a [u8], usize);

impl Read for StaysOpen<'_> {
    fn read(&mut self, buffer: &mut [u8]) -> io::Result<usize> {
        assert!(!self.0.is_empty(), "it is read after its last byte");
        let count = self.1.min(buffer.len()).min(self.0.len());
        let (given, rest) = self.0.split_at(count);
        buffer[..count].copy_from_slice(given);
        self.0 = rest;
        Ok(count)
    }
}

#[test]
fn a_block_arrives_with_its_last_byte() {
    let car = written(&[], &blocks());
    for step in [1, 7, usize::MAX] {
        let mut reader = CarReader::new(StaysOpen(&car, step)).unwrap();
        for (cid, block) in blocks() {
            let section = reader.next_section().unwrap().unwrap();
            assert_eq!((section.cid, section.data), (cid, &block[..]));
        }
    }
}

#[test]
fn blocks_are_verified() {
    for (cid, block) in blocks() {
        assert_eq!(cid.verify(&block), Ok(()));
        assert_eq!(cid.verify(&[&block[..], b"x"].concat()), Err(Error::WrongDigest));
    }
    let unknown = Cid::try_from(&b"\x01\x55\x11\x02hi"[..]).unwrap();
    assert_eq!(unknown.verify(b"hi"), Err(Error::UnknownHash));
}

fn from_hex(text: &str) -> Vec<u8> {
    (0..text.len() / 2)
        .map(|at| u8::from_str_radix(&text[2 * at..2 * at + 2], 16).unwrap())
        .collect()
}

/// Returns the bytes of the hexadecimal strings in a part of a line of JSON, which has no escapes.
fn strings(part: &str) -> Vec<Vec<u8>> {
    part.split('"').skip(1).step_by(2).map(from_hex).collect()
}

/// Returns the letters and digits of a name, in lower case.
fn letters(name: &str) -> String {
    name.chars().filter(|letter| letter.is_alphanumeric()).collect::<String>().to_lowercase()
}

/// The variable `CARS` names the file, which `bindings/test/car_cases.py` wrote. If it isn't set,
/// nothing is tested.
#[test]
fn random_cars_are_read_as_the_plain_reader_reads_them() {
    let file = match std::env::var_os("CARS") {
        Some(path) => std::fs::read_to_string(path).unwrap(),
        None => return,
    };
    for line in file.lines() {
        let (car, rest) = line[2..].split_once("\",").unwrap();
        let (head, rest) = match rest.strip_prefix("null,") {
            Some(rest) => (None, rest),
            None => rest.split_once("]],").map(|(head, rest)| (Some(head), rest)).unwrap(),
        };
        let (sections, failed) = rest.rsplit_once("],").unwrap();
        let car = from_hex(car);
        let (mut version, mut roots, mut found, mut why) = (None, Vec::new(), Vec::new(), None);
        match CarReader::new(Trickle(&car, car.len())) {
            Ok(mut reader) => {
                version = Some(reader.version().to_string());
                roots = reader.roots().iter().map(|cid| cid.as_bytes().to_vec()).collect();
                for section in reader.by_ref() {
                    match section {
                        Ok((cid, block)) => found.extend([cid.as_bytes().to_vec(), block]),
                        Err(error) => why = Some(error),
                    }
                }
            }
            Err(error) => why = Some(error),
        }
        assert_eq!(version.as_deref(), head.map(|head| &head[1..2]), "{line}");
        assert_eq!(roots, strings(head.unwrap_or_default()), "{line}");
        assert_eq!(found, strings(sections), "{line}");
        let name = failed.split('"').nth(1);
        assert_eq!(why.is_some(), name.is_some(), "{line}");
        if let (Some(why), Some(name)) = (why, name) {
            let (_, name) = name.split_once('_').unwrap();
            let offset = failed.rsplit_once(',').unwrap().1.trim_end_matches(']');
            let told = format!("{why:?}");
            assert!(letters(&told).contains(&letters(name)), "{line}: {told}");
            assert!(told.contains(&format!("offset: {offset} }}")), "{line}: {told}");
        }
    }
}
